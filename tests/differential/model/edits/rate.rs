//! Wrong edits of docs/RULES.md, "Rate".

use super::Edit;
use crate::model::rate::{round_of, Rate, RATE_LIMIT, TAPS};
use crate::model::rules::{Part, Right};
use crate::model::Work;

/// The number of the phase of a ratio, the count of phases, and how far the ratios of neighbours are apart.
fn phase_of(ratio: usize, rates: (usize, usize)) -> (usize, usize, usize) {
    let (phases, _) = round_of(rates);
    let apart = rates.0 / phases;
    (ratio / apart, phases, apart)
}

edits! {
    "Rate";
    NewRateInDouble, "N from R/pitch in f64", Rate {
        fn new_rate(&self, rate: u32, pitch: f32) -> usize { (f64::from(rate) / f64::from(pitch)) as usize }
    }
    HalvedAtLimit, "rates halved at 16,384", Rate {
        fn too_high(&self, rate: usize) -> bool { rate >= RATE_LIMIT }
    }
    TailConvertedAlone, "the tail is converted without new frames", Rate {
        fn conversion_due(&self, _: &Work) -> bool { true }
    }
    NearPitchStraight, "a pitch close to 1 goes straight out", Rate {
        fn goes_straight(&self, pitch: f32) -> bool { (pitch - 1.0).abs() < 1e-6 }
    }
    TailDroppedAtPitchOne, "the tail is dropped at pitch 1", Rate {
        fn straight_out(&self, work: &mut Work) {
            Right.straight_out(work);
            work.tail.clear();
        }
    }
    TailBehindNewFrames, "new frames go before the old tail", Rate {
        fn join_tail(&self, work: &mut Work) { work.tail.splice(0..0, work.stretched.drain(..)); }
    }
    InterpolationHeldAbove, "interpolation held to -32767", Rate {
        fn sample_of_sum(&self, sum: i64) -> i16 { Right.sample_of_sum(sum).max(-32767) }
    }
    CoefficientRoundedDown, "the coefficient rounded down", Rate {
        fn between(&self, left: i32, right: i32, rest: i32, new: i32) -> i32 { (2 * (left * (new - rest) + right * rest)).div_euclid(new) }
    }
    CoefficientDoubledLast, "the coefficient doubled after the division", Rate {
        fn between(&self, left: i32, right: i32, rest: i32, new: i32) -> i32 { 2 * ((left * (new - rest) + right * rest) / new) }
    }
    NeighboursExchanged, "S[L] and S[L+1] exchanged", Rate {
        fn between(&self, left: i32, right: i32, rest: i32, new: i32) -> i32 { Right.between(right, left, rest, new) }
    }
    RatioOneHigher, "r without its -1", Rate {
        fn ratio(&self, p: usize, n: usize, rates: (usize, usize)) -> usize { Right.ratio(p, n, rates) + 1 }
    }
    TwelveAheadConsumed, "a tail frame consumed with 12 ahead", Rate {
        fn consumed(&self, ahead: usize) -> bool { ahead >= TAPS }
    }
    NewPositionKept, "n kept at p = O", Rate {
        fn next_positions(&self, p: usize, n: usize, old: usize) -> (usize, usize) { ((p + 1) % old, n) }
    }
    ElevenTaps, "the last tap left out", Rate {
        fn tap_sum(&self, samples: &[i16], channels: usize, coefficients: &[i32]) -> i64 {
            Right.tap_sum(samples, channels, &coefficients[..TAPS - 1])
        }
    }
    InterpolationDivided, "the sum divided by 65536 toward zero", Rate {
        fn sample_of_sum(&self, sum: i64) -> i16 { (sum / 65_536).max(-32768).min(32767) as i16 }
    }
    PhaseBefore, "the phase before", Rate {
        fn ratio(&self, p: usize, n: usize, rates: (usize, usize)) -> usize {
            let (phase, phases, apart) = phase_of(Right.ratio(p, n, rates), rates);
            (phase + phases - 1) % phases * apart + apart - 1
        }
    }
    PhaseBehind, "the phase behind", Rate {
        fn ratio(&self, p: usize, n: usize, rates: (usize, usize)) -> usize {
            let (phase, phases, apart) = phase_of(Right.ratio(p, n, rates), rates);
            (phase + 1) % phases * apart + apart - 1
        }
    }
    PhaseLowered, "the ratio of a phase taken as its number times gcd(N, O)", Rate {
        fn ratio(&self, p: usize, n: usize, rates: (usize, usize)) -> usize {
            let (phase, _, apart) = phase_of(Right.ratio(p, n, rates), rates);
            phase * apart
        }
    }
    LastOfPhasesLost, "of 32 phases the last taken for the first", Rate {
        fn ratio(&self, p: usize, n: usize, rates: (usize, usize)) -> usize {
            let (phase, phases, apart) = phase_of(Right.ratio(p, n, rates), rates);
            if phases == 32 { phase % 31 * apart + apart - 1 } else { Right.ratio(p, n, rates) }
        }
    }
    PhasesByLowBits, "the last of 33 phases taken for the first", Rate {
        fn ratio(&self, p: usize, n: usize, rates: (usize, usize)) -> usize {
            let (phase, phases, apart) = phase_of(Right.ratio(p, n, rates), rates);
            if phases == 33 { phase % 32 * apart + apart - 1 } else { Right.ratio(p, n, rates) }
        }
    }
}
