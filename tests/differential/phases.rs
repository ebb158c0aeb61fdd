//! Figures of the rate conversion by its phases: the ratios r, N/gcd(N, O) of them, come again after a *round* of O/gcd(N, O) tail frames
//! (docs/RULES.md, "Rate"). Around 32 phases and two rounds, with an output that becomes full on the way, and from one count to another. At
//! speed = pitch frames are copied, so that behind a tail of twelve a write consumes as many tail frames as it has.

use crate::figures::{areas, figure, fresh, open, Figure};
use crate::interface::{Setting, Stream, COPIED};
use crate::model::rate::{round_of, Rate, TAPS};
use crate::model::rules::Right;
use crate::model::settings::max_required;
use crate::run::{Call, Kept};
use crate::signals::{to_write, Congruential};

/// Counts of phases.
const COUNTS: [usize; 7] = [1, 2, 5, 31, 32, 33, 64];

/// Rates that have pitches with each of these counts.
const RATES: [u32; 11] = [8_000, 16_000, 22_050, 32_000, 37_123, 44_100, 48_000, 96_000, 192_000, 333_333, 500_000];

/// A pitch at a rate, with N and O.
#[derive(Clone, Copy)]
struct Pitch {
    pitch: f32,
    new: usize,
    old: usize,
}

impl Pitch {
    /// A pitch at a rate.
    fn at(rate: u32, pitch: f32) -> Pitch {
        let (new, old) = Right.rates(rate, pitch);
        Pitch { pitch, new, old }
    }

    /// The tail frames of a round.
    fn round(&self) -> usize {
        round_of((self.new, self.old)).1
    }

    /// The frames made of so many tail frames from both positions 0 on.
    fn made(&self, consumed: usize) -> usize {
        (consumed / self.old) * self.new + (consumed % self.old * self.new).div_ceil(self.old)
    }
}

/// Pitches with so many phases at a rate, whose rounds are the shortest and the longest of those tried.
fn with_phases(rate: u32, phases: usize) -> [Pitch; 2] {
    let tried = (1..=20 * phases).map(|frames| frames as f32 / phases as f32).filter(|pitch| (0.05..=20.0).contains(pitch) && *pitch != 1.0);
    let mut all: Vec<Pitch> = tried.map(|pitch| Pitch::at(rate, pitch)).filter(|pitch| round_of((pitch.new, pitch.old)).0 == phases).collect();
    all.sort_by_key(Pitch::round);
    let (Some(&shortest), Some(&longest)) = (all.first(), all.last()) else { panic!("no pitch with {phases} phases at {rate} Hz") };
    [shortest, longest]
}

/// Every rate with two pitches of each count, and the channels, which change from one to the next.
fn cases() -> Vec<(u32, u32, Pitch)> {
    let pitches = RATES.into_iter().flat_map(|rate| COUNTS.map(|phases| with_phases(rate, phases).map(|pitch| (rate, pitch))));
    pitches.flatten().zip([1, 2, 1, 3, 1].into_iter().cycle()).map(|((rate, pitch), channels)| (rate, channels, pitch)).collect()
}

/// So many frames of loud noise.
fn loud(seed: usize, frames: usize, channels: u32) -> Vec<i16> {
    let mut noise = Congruential(seed as u32);
    (0..frames * channels as usize).map(|_| (noise.below(65_535) as i32 - 32_767) as i16).collect()
}

/// A write of so many frames, in areas with a tail of twelve and so many frames of output.
fn say(rate: u32, channels: u32, frames: usize, output: usize) -> Call {
    let width = channels as usize;
    let room = areas(frames * width, (TAPS + frames) * width, output * width, max_required(rate));
    Call::Write { samples: to_write(&loud(frames, frames, channels)), areas: room }
}

/// An opening, a pitch with its speed, and twelve frames, which stay in the tail.
fn begin(rate: u32, channels: u32, pitch: f32) -> Vec<Call> {
    let set = [Call::Set(Setting::Pitch(pitch)), Call::Set(Setting::Speed(pitch))];
    [open(rate, channels)].into_iter().chain(set).chain([say(rate, channels, TAPS, 0)]).collect()
}

/// Writes of a frame less than two rounds, two rounds, a frame more, one frame, and five rounds and some frames.
fn rounds() -> Vec<Figure> {
    let of_case = |(rate, channels, pitch): (u32, u32, Pitch)| {
        let (round, mut consumed, mut waiting, mut made) = (pitch.round(), 0, 0, 0);
        let mut calls = begin(rate, channels, pitch.pitch);
        for frames in [2 * round - 1, 2 * round, 2 * round + 1, 1, 5 * round + 7] {
            made = pitch.made(consumed + frames) - pitch.made(consumed);
            (consumed, waiting) = (consumed + frames, waiting + made);
            calls.push(say(rate, channels, frames, waiting));
        }
        figure("rounds", calls, (0, COPIED, made))
    };
    cases().into_iter().map(of_case).collect()
}

/// Writes of less than two rounds, and of more, into outputs that are full at the first frame, at the last, and on the way; then into one that
/// holds all.
fn full() -> Vec<Figure> {
    let mut all = Vec::new();
    for (rate, channels, pitch) in cases() {
        for frames in [pitch.round() + 1, 2 * pitch.round() + 3] {
            let made = pitch.made(frames);
            let mut calls = begin(rate, channels, pitch.pitch);
            for output in [0, 1, made / 4, made / 2, made - 1].into_iter().filter(|output| *output < made) {
                calls.push(say(rate, channels, frames, output));
                all.push(figure("an output full on the way", calls.clone(), (7, 0, 0)));
            }
            calls.push(say(rate, channels, frames, made));
            all.push(figure("an output full on the way, then not", calls, (0, COPIED, made)));
        }
    }
    all
}

/// From one count of phases to the next, with the same tail; the last write's frames are known.
fn changes() -> Vec<Figure> {
    let of_rate = |rate: u32| {
        let channels = 1 + rate % 3;
        let mut calls = begin(rate, channels, with_phases(rate, 5)[0].pitch);
        let mut made = 0;
        for phases in [2, 33, 5, 64, 1, 32, 31, 2, 32, 33, 32, 5, 1] {
            for pitch in with_phases(rate, phases) {
                let frames = 2 * pitch.round() + phases % 3;
                made = pitch.made(frames);
                calls.extend([Call::Set(Setting::Pitch(pitch.pitch)), Call::Set(Setting::Speed(pitch.pitch))]);
                let samples = made * channels as usize;
                calls.extend([say(rate, channels, frames, made), Call::Read { most: made, slice: samples, output: samples }]);
            }
        }
        calls.pop();
        figure("from one count of phases to another", calls, (0, COPIED, made))
    };
    RATES.into_iter().map(of_rate).collect()
}

/// From positions near O, so that both become 0 on the way: one call of more than two rounds.
fn wraps() -> Vec<Figure> {
    let mut all = Vec::new();
    for (rate, channels, pitch) in cases() {
        let round = pitch.round();
        for before in [1, 2, round, round + 1, 2 * round - 1, 2 * round + 5].into_iter().filter(|before| *before <= pitch.old) {
            let p = pitch.old - before;
            let frames = 2 * round + 9;
            let made = pitch.made(p + frames) - pitch.made(p);
            let settings = Stream { channels, speed: pitch.pitch, pitch: pitch.pitch, ..fresh(rate) };
            let positions = Stream { old_rate_position: p, new_rate_position: pitch.made(p), tail: TAPS, ..settings };
            let tailed = Call::Made { stream: positions, kept: Kept { tail: loud(p, TAPS, channels), ..Kept::default() } };
            all.push(figure("both positions become 0 on the way", vec![tailed, say(rate, channels, frames, made)], (0, COPIED, made)));
        }
    }
    all
}

/// Every figure of phases.
pub fn phases() -> Vec<Figure> {
    [rounds(), full(), changes(), wraps()].into_iter().flatten().collect()
}
