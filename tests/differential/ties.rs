//! Figures of ties with known periods and sums. In a choir the block, twice and three times it have the same mean of differences: 0, or `D`.

use crate::figures::{ample, areas, figure, fresh, holding, open, play_for, write, Figure};
use crate::interface::{Balance, Setting, Stream, COPIED, EMPTY, STALLED, STRETCHED, WAITING};
use crate::model::settings::{max_period, max_required, min_period};
use crate::run::{Call, Kept, Lengths};
use crate::signals::{blocks, choir, to_write, Congruential};

/// A mean of differences, far below those inside a block.
const D: i16 = 30;

/// A voice with an offset of `D` more for each block: the block has this mean, and longer periods have higher ones.
fn rising(period: usize, frames: usize) -> Vec<i16> {
    blocks(period, frames, |block| D * block as i16)
}

/// Noise.
fn noise(frames: usize) -> Vec<i16> {
    let mut noise = Congruential(7);
    (0..frames).map(|_| noise.below(8_000) as i16).collect()
}

/// D: how far the samples of one period are from those one period later.
fn sum_at(input: &[i16], position: usize, period: usize) -> usize {
    (position..position + period).map(|i| input[i].abs_diff(input[i + period]) as usize).sum()
}

/// A fresh stream with a value of ties.
fn with(rate: u32, ties: u32) -> Stream {
    Stream { ties, ..fresh(rate) }
}

/// A write of nothing to a stream that holds the input, at a local speed that is a power of two.
fn at(stream: Stream, input: Vec<i16>, s: f32) -> Vec<Call> {
    at_in(stream, input, s, ample())
}

/// The same in areas.
fn at_in(stream: Stream, input: Vec<i16>, s: f32, areas: Lengths) -> Vec<Call> {
    let play = play_for(stream.rate, input.len() / stream.channels as usize, s).expect("a play time");
    vec![holding(stream, input, play), write(0, areas)]
}

/// A figure with the period and the sum of its last search.
fn found(name: &'static str, calls: Vec<Call>, (outcome, frames): (u32, usize), period: usize, sum: usize) -> Figure {
    Figure { period: Some(period), sum: Some(sum), ..figure(name, calls, (0, outcome, frames)) }
}

/// A figure with a sum alone.
fn telling(name: &'static str, calls: Vec<Call>, wanted: (u32, u32, usize), sum: usize) -> Figure {
    Figure { sum: Some(sum), ..figure(name, calls, wanted) }
}

/// Blocks of 40 at 8,000 Hz, where each search has two parts, one skip at s = 2 that gives a period.
fn choirs() -> Vec<Figure> {
    let repeats = |ties| at(with(8_000, ties), choir(40, 246, 0), 2.0);
    let tied = |ties| at(with(8_000, ties), choir(40, 246, D), 2.0);
    vec![
        found("repeats, smallest", repeats(0), (STRETCHED, 40), 40, 0),
        found("repeats, largest", repeats(1), (STRETCHED, 120), 120, 0),
        found("repeats, ties 7", repeats(7), (STRETCHED, 120), 120, 0),
        found("repeats, ties 2", repeats(2), (STRETCHED, 120), 120, 0),
        found("repeats, ties at their end", repeats(u32::MAX), (STRETCHED, 120), 120, 0),
        found("a tie, smallest", tied(0), (STRETCHED, 40), 40, 40 * D as usize),
        found("a tie, largest", tied(1), (STRETCHED, 120), 120, 120 * D as usize),
        found("a tie, ties 7", tied(7), (STRETCHED, 120), 120, 120 * D as usize),
    ]
}

/// Silence has the shortest or the longest period at every rate: one search or two of mono, and of averages of two channels.
fn silences() -> Vec<Figure> {
    let mut all = Vec::new();
    for rate in [1_000, 3_999, 4_000, 4_001, 8_000, 12_001, 16_000, 44_100, 500_000] {
        for (ties, period) in [(0, min_period(rate)), (1, max_period(rate))] {
            for channels in [1, 2] {
                let stream = Stream { channels, ..with(rate, ties) };
                let silence = vec![0; max_required(rate) * channels as usize];
                all.push(found("silence", at(stream, silence, 2.0), (STRETCHED, period), period, 0));
            }
        }
    }
    all
}

/// Means that differ by less than 1: at 4,000 Hz, where a search has one part, blocks of 20. One sample more in the fourth block makes the
/// longer periods worse; one more in the second and the fourth makes the one of two blocks best.
fn fractions() -> Vec<Figure> {
    let with_more = |places: &[usize]| {
        let mut input = choir(20, 122, D);
        places.iter().for_each(|&place| input[place] += 1);
        input
    };
    let (one, two) = (with_more(&[65]), with_more(&[25, 65]));
    let d = D as usize;
    vec![
        found("a tie at 4,000 Hz, largest", at(with(4_000, 1), with_more(&[]), 2.0), (STRETCHED, 60), 60, 60 * d),
        found("longer periods worse by a fraction, largest", at(with(4_000, 1), one.clone(), 2.0), (STRETCHED, 20), 20, 20 * d),
        found("longer periods worse by a fraction, smallest", at(with(4_000, 0), one, 2.0), (STRETCHED, 20), 20, 20 * d),
        found("two blocks better by a fraction, smallest", at(with(4_000, 0), two.clone(), 2.0), (STRETCHED, 40), 40, 40 * d),
        found("two blocks better by a fraction, largest", at(with(4_000, 1), two, 2.0), (STRETCHED, 40), 40, 40 * d),
    ]
}

/// The sum is that of the period found, where the previous one is used too, and of the averages of several channels.
fn sums() -> Vec<Figure> {
    let noise = noise(122);
    let previous = |prev_min_diff| Stream { prev_period: 33, prev_min_diff, ..with(4_000, 1) };
    let (left, right) = (choir(20, 122, D), choir(40, 122, 0));
    let both: Vec<i16> = left.iter().zip(&right).flat_map(|(&l, &r)| [l, r]).collect();
    let averages: Vec<i16> = left.iter().zip(&right).map(|(&l, &r)| (l + r) / 2).collect();
    let stereo = Stream { channels: 2, ..with(4_000, 0) };
    vec![
        found("the previous period used", at(previous(1), noise.clone(), 2.0), (STRETCHED, 33), 12, sum_at(&noise, 0, 12)),
        found("the period found used", at(previous(65_535), noise.clone(), 2.0), (STRETCHED, 12), 12, sum_at(&noise, 0, 12)),
        found("two channels", at(stereo, both, 2.0), (STRETCHED, 40), 40, sum_at(&averages, 0, 40)),
    ]
}

/// The last search of a call: of several, before copying steps, of a stall and of a step passed over. At s = 32 a period below 31 gives no
/// frame, and one of 123 gives 3.
fn last_searches() -> Vec<Figure> {
    let d = D as usize;
    let at_32 = |step_over, ties, input| at(Stream { step_over, ..with(8_000, ties) }, input, 32.0);
    let then = |first: Vec<i16>, second: Vec<i16>| at(with(8_000, 0), [first, second].concat(), 2.0);
    let slow = vec![open(8_000, 1), Call::Set(Setting::Speed(1.02)), said(&choir(40, 240, D), ample()), Call::Flush { areas: ample() }];
    let copying = [&slow[..2], &[said(&choir(40, 400, D), ample())]].concat();
    let late = Stream { time_error: -0.05, ..with(8_000, 0) };
    let play = 300.0 * late.sample_period / 1.02;
    vec![
        found("a voice, then silence", then(choir(40, 246, D), vec![0; 600]), (STRETCHED, 320), 20, 0),
        found("silence, then a voice", then(vec![0; 240], rising(40, 286)), (STRETCHED, 160), 40, 40 * d),
        found("a stall", at_32(0, 0, rising(20, 246)), (STALLED, 0), 20, 20 * d),
        found("a stall by the largest", at_32(0, 1, rising(20, 246)), (STALLED, 0), 20, 20 * d),
        found("a step passed over", at_32(1, 0, rising(20, 246)), (STRETCHED, 0), 20, 20 * d),
        found("silence stalls by the smallest", at_32(0, 0, vec![0; 246]), (STALLED, 0), 20, 0),
        found("silence gives frames by the largest", at_32(0, 1, vec![0; 246]), (STRETCHED, 3), 123, 0),
        telling("a search before copying steps", copying, (0, STRETCHED, 360), 40 * d),
        telling("a flush, a search before copying steps", slow, (0, STRETCHED, 235), 40 * d),
        telling("copying steps alone", vec![holding(late, choir(40, 300, D), play), write(0, ample())], (0, STRETCHED, 300), 0),
    ]
}

/// A write of samples.
fn said(samples: &[i16], areas: Lengths) -> Call {
    Call::Write { samples: to_write(samples), areas }
}

/// Calls that make no search tell 0, and so do refused ones, also behind a call that told a sum.
fn without_a_search() -> Vec<Figure> {
    let behind = |more: &[Call]| [&at(Stream { speed: 2.0, ..with(8_000, 1) }, choir(40, 246, D), 2.0)[..], more].concat();
    let full = Stream { balance: Balance { skipped: u64::MAX, inserted: 0 }, ..with(8_000, 1) };
    let tied = |areas| at_in(with(8_000, 1), choir(40, 246, D), 2.0, areas);
    let one = Call::Set(Setting::Speed(1.0));
    vec![
        telling("empty", vec![open(8_000, 1), write(0, ample())], (0, EMPTY, 0), 0),
        telling("waiting behind a sum", behind(&[write(3, ample())]), (0, WAITING, 0), 0),
        telling("copied behind a sum", behind(&[Call::Flush { areas: ample() }, one, write(9, ample())]), (0, COPIED, 9), 0),
        telling("3 tells no sum", at(Stream { volume: 0.0, ..with(8_000, 1) }, choir(40, 246, D), 2.0), (3, 0, 0), 0),
        telling("4 tells no sum", tied(areas(246, 300, 300, 245)), (4, 0, 0), 0),
        telling("5 tells no sum", behind(&[write(300, areas(300, 300, 300, 246))]), (5, 0, 0), 0),
        telling("6 tells no sum", tied(areas(246, 119, 300, 246)), (6, 0, 0), 0),
        telling("7 tells no sum", tied(areas(246, 120, 119, 246)), (7, 0, 0), 0),
        telling("12 tells no sum", at(full, choir(40, 246, D), 2.0), (12, 0, 0), 0),
    ]
}

/// A figure with the value of ties that it leaves.
fn leaving(name: &'static str, calls: Vec<Call>, (refusal, outcome): (u32, u32), ties: u32) -> Figure {
    Figure { ties: Some(ties), ..figure(name, calls, (refusal, outcome, 0)) }
}

/// An opening with a choice.
fn open_with(rate: u32, channels: u32, ties: u32) -> Call {
    Call::Open { rate, channels, ties: Some(ties) }
}

/// The choice at the opening, which nothing changes; and the values that the field can have.
fn choices() -> Vec<Figure> {
    let made = |stream| Call::Made { stream, kept: Kept::default() };
    let behind = |calls: &[Call]| [&[open_with(8_000, 1, 7)], calls].concat();
    let on = |value, call: Call| vec![made(Stream { speed: 2.0, ..with(8_000, value) }), call];
    let read = Call::Read { most: 1, slice: 1, output: 9 };
    let settings = [Setting::Speed(2.0), Setting::Pitch(0.5), Setting::Volume(2.0), Setting::StepOver(0), Setting::StepOver(1)];
    let flush = Call::Flush { areas: ample() };
    let mut all = vec![
        leaving("opened without a choice", vec![open(8_000, 1)], (0, 0), 0),
        leaving("opened with 0", vec![open_with(8_000, 1, 0)], (0, 0), 0),
        leaving("opened with 1", vec![open_with(8_000, 1, 1)], (0, 0), 1),
        leaving("opened with 2", vec![open_with(8_000, 1, 2)], (0, 0), 1),
        leaving("opened with 7", behind(&[]), (0, 0), 1),
        leaving("opened with the last number", vec![open_with(8_000, 1, u32::MAX)], (0, 0), 1),
        leaving("rate refused", vec![open_with(999, 1, 1)], (1, 0), 0),
        leaving("channels refused", vec![open_with(8_000, 33, 1)], (2, 0), 0),
        leaving("opened again", behind(&[open(8_000, 1)]), (0, 0), 0),
        leaving("set, flushed, read", behind(&[&settings.map(Call::Set)[..], &[flush.clone(), read.clone()]].concat()), (0, 0), 1),
        leaving("refused, value 7", on(7, write(9, areas(8, 8, 8, 246))), (5, 0), 7),
        leaving("out of order, value 7", vec![made(Stream { volume: 0.0, ..with(8_000, 7) }), write(9, ample())], (3, 0), 7),
        leaving("waiting, value 7", on(7, write(9, ample())), (0, WAITING), 7),
        leaving("flushed, value 7", on(7, flush), (0, STRETCHED), 7),
        leaving("read, value 7", on(7, read), (0, 0), 7),
        leaving("counted, value 7", on(7, Call::Available), (0, 0), 7),
    ];
    all.extend(settings.map(|setting| leaving("set, value 7", on(7, Call::Set(setting)), (0, 0), 7)));
    all
}

/// Every figure of ties.
pub fn ties() -> Vec<Figure> {
    [choirs(), silences(), fractions(), sums(), last_searches(), without_a_search(), choices()].into_iter().flatten().collect()
}
