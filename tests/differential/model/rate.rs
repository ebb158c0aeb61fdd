//! Rate conversion: docs/RULES.md, "Rate".

use super::events::Event;
use super::{Model, Work};
use crate::SINC_TABLE;

/// Both rates are halved until neither exceeds this.
pub const RATE_LIMIT: usize = 16_384;
/// Taps of the filter.
pub const TAPS: usize = 12;
/// Table places from one tap to the next.
const PLACES: i32 = 50;
/// The most phases, and the least rounds in one call, at which a conversion counts as one of few phases.
const FEW_PHASES: usize = 32;
const ROUNDS: usize = 2;

/// Of N and O the phases, N/gcd(N, O), and the tail frames of a round, O/gcd(N, O): the ratios come again after a round.
pub fn round_of((new, old): (usize, usize)) -> (usize, usize) {
    let (mut divisor, mut rest) = (new, old);
    while rest > 0 {
        (divisor, rest) = (rest, divisor % rest);
    }
    (new / divisor, old / divisor)
}

/// The rules of rate conversion.
pub trait Rate {
    /// The rate that a pitch asks for: the whole part of R/pitch in f32.
    fn new_rate(&self, rate: u32, pitch: f32) -> usize {
        (rate as f32 / pitch) as usize
    }

    /// Whether a rate has to be halved.
    fn too_high(&self, rate: usize) -> bool {
        rate > RATE_LIMIT
    }

    /// N and O: the new and the old rate, halved.
    fn rates(&self, rate: u32, pitch: f32) -> (usize, usize) {
        let (mut new, mut old) = (self.new_rate(rate, pitch), rate as usize);
        while self.too_high(new) || self.too_high(old) {
            new /= 2;
            old /= 2;
        }
        (new, old)
    }

    /// Whether frames go straight out.
    fn goes_straight(&self, pitch: f32) -> bool {
        pitch == 1.0
    }

    /// The stretched frames go straight out, and any tail stays.
    fn straight_out(&self, work: &mut Work) {
        work.made = std::mem::take(&mut work.stretched);
    }

    /// Whether there is anything to convert: new frames.
    fn conversion_due(&self, work: &Work) -> bool {
        !work.stretched.is_empty()
    }

    /// The stretched frames join the tail.
    fn join_tail(&self, work: &mut Work) {
        work.tail.append(&mut work.stretched);
    }

    /// Whether a tail frame is consumed with so many frames from it on.
    fn consumed(&self, ahead: usize) -> bool {
        ahead > TAPS
    }

    /// The ratio r.
    fn ratio(&self, p: usize, n: usize, (new, old): (usize, usize)) -> usize {
        (p + 1) * new - n * old - 1
    }

    /// The positions after a frame is consumed: at p = O both become 0.
    fn next_positions(&self, p: usize, n: usize, old: usize) -> (usize, usize) {
        if p + 1 == old { (0, 0) } else { (p + 1, n) }
    }

    /// The coefficient of tap i at a ratio r below N.
    fn coefficient(&self, i: i32, r: i32, new: i32) -> i32 {
        let place = PLACES * i + PLACES * r / new;
        let rest = PLACES * i * new + PLACES * r - place * new;
        self.between(SINC_TABLE[place as usize].into(), SINC_TABLE[place as usize + 1].into(), rest, new)
    }

    /// The value between two entries of the table: 2·(left·(N − e) + right·e)/N, toward zero.
    fn between(&self, left: i32, right: i32, rest: i32, new: i32) -> i32 {
        2 * (left * (new - rest) + right * rest) / new
    }

    /// The sum of samples of one channel, each with its coefficient.
    fn tap_sum(&self, samples: &[i16], channels: usize, coefficients: &[i32]) -> i64 {
        let taps = samples.iter().step_by(channels).zip(coefficients);
        taps.map(|(&sample, &coefficient)| i64::from(sample) * i64::from(coefficient)).sum()
    }

    /// The sample of a sum: shifted right by 16, held to -32768..32767.
    fn sample_of_sum(&self, sum: i64) -> i16 {
        (sum >> 16).max(-32768).min(32767) as i16
    }

    /// The frame at a ratio, made of the twelve frames in front.
    fn interpolate(&self, made: &mut Vec<i16>, tail: &[i16], channels: usize, r: i32, new: i32) {
        let coefficients: [i32; TAPS] = std::array::from_fn(|i| self.coefficient(i as i32, r, new));
        made.extend((0..channels).map(|c| self.sample_of_sum(self.tap_sum(&tail[c..], channels, &coefficients))));
    }
}

impl Model {
    /// The stretched frames go out: straight at pitch 1, otherwise through the tail. Refusal 7.
    pub fn convert(&self, work: &mut Work, room: usize) -> Result<(), u32> {
        let rules = self.rules.rate;
        if rules.goes_straight(work.stream.pitch) {
            rules.straight_out(work);
            return if work.made.len() / work.channels() > room { Err(7) } else { Ok(()) };
        }
        if rules.conversion_due(work) {
            rules.join_tail(work);
            self.scan_tail(work, room)?;
        }
        Ok(())
    }

    /// Counts a conversion by its phases; whether they are few, and two rounds or more are to be consumed.
    fn few_phases(&self, work: &Work, rates: (usize, usize)) -> bool {
        let (phases, round) = round_of(rates);
        let consumable = (work.tail.len() / work.channels()).saturating_sub(TAPS);
        let event = match phases {
            0..=FEW_PHASES if consumable >= ROUNDS * round => Event::FewPhases,
            0..=FEW_PHASES => Event::FewPhasesShort,
            _ => Event::ManyPhases,
        };
        work.saw(event);
        matches!(event, Event::FewPhases)
    }

    /// Consumes tail frames, and makes frames of them. Refusal 7.
    fn scan_tail(&self, work: &mut Work, room: usize) -> Result<(), u32> {
        let (rules, channels) = (self.rules.rate, work.channels());
        let (new, old) = rules.rates(work.stream.rate, work.stream.pitch);
        let (mut p, mut n) = (work.stream.old_rate_position, work.stream.new_rate_position);
        let (mut consumed, few) = (0, self.few_phases(work, (new, old)));
        while rules.consumed(work.tail.len() / channels - consumed) {
            while (p + 1) * new > n * old {
                if work.made.len() / channels == room {
                    if few {
                        work.saw(Event::FewPhasesFull);
                    }
                    return Err(7);
                }
                let ratio = rules.ratio(p, n, (new, old)) as i32;
                rules.interpolate(&mut work.made, &work.tail[consumed * channels..], channels, ratio, new as i32);
                let lowest = work.made.iter().rev().take(channels).filter(|&&sample| sample == i16::MIN);
                lowest.for_each(|_| work.saw(Event::LowestSample));
                n += 1;
            }
            if p + 1 == old {
                work.saw(Event::PositionsWrapped);
            }
            (p, n) = rules.next_positions(p, n, old);
            consumed += 1;
        }
        work.tail.drain(..consumed * channels);
        work.stream.old_rate_position = p;
        work.stream.new_rate_position = n;
        Ok(())
    }
}
