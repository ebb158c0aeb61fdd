//! Period searches at rates from 16,000 Hz on: figures with known periods and sums, and runs of sounds of every kind.
//!
//! In *stairs* every period of both searches has the same mean, c: a sample is 0 before M, c from M on, and c/2 more each time that its place
//! doubles, so that x[2q] + x[2q + 1] = 2·x[q] + c and D(q) = c·q for all q from M on. M is the shortest period of the first search in frames.

use crate::figures::{areas, figure, fresh, holding, play_for, write, Figure};
use crate::interface::{Setting, Stream, STRETCHED};
use crate::model::rules::Right;
use crate::model::search::{Found, Search};
use crate::model::settings::{max_period, max_required, min_period};
use crate::run::{Call, Lengths};
use crate::signals::{blocks, to_write, Congruential, Random, Signal, Sound, TIED};

/// Rates in common use, and others.
const RATES: [u32; 13] =
    [16_000, 22_050, 32_000, 44_100, 48_000, 96_000, 192_000, 500_000, 16_001, 23_457, 37_123, 99_991, 333_333];

/// Above this rate, searches being long, there are fewer figures and runs.
const FEWER_ABOVE: u32 = 60_000;
/// Runs of each sound up to that rate; above it there is one.
const RUNS: usize = 6;

/// Areas for so many frames, with room for what a run makes of them.
fn room(rate: u32, channels: u32, frames: usize) -> Lengths {
    let samples = frames * channels as usize;
    areas(samples, 3 * samples + 400, 6 * samples + 400, max_required(rate))
}

/// The samples of one channel for several, all alike.
fn alike(input: &[i16], channels: u32) -> Vec<i16> {
    input.iter().flat_map(|&sample| std::iter::repeat(sample).take(channels as usize)).collect()
}

/// A write of nothing at local speed 2 to a stream that holds as much as one search looks at: one skip, which gives the period used.
fn one_step(stream: Stream, input: &[i16]) -> Vec<Call> {
    let play = play_for(stream.rate, input.len(), 2.0).expect("a play time");
    vec![holding(stream, alike(input, stream.channels), play), write(0, room(stream.rate, stream.channels, input.len()))]
}

/// A figure of such a step: the period used, the period found, which the record takes, and its sum.
fn found(name: &'static str, calls: Vec<Call>, used: usize, period: usize, sum: usize) -> Figure {
    Figure { period: Some(period), sum: Some(sum), ..figure(name, calls, (0, STRETCHED, used)) }
}

/// A fresh stream with a value of ties, so many channels, and a period record.
fn stream(rate: u32, channels: u32, ties: u32, (prev_period, prev_min_diff): (usize, usize)) -> Stream {
    Stream { channels, ties, prev_period, prev_min_diff, ..fresh(rate) }
}

/// Samples of stairs for one search.
fn stairs(rate: u32, c: i16) -> Vec<i16> {
    let first = min_period(rate) / Right.skip(rate) * Right.skip(rate);
    let step = |place: usize| (place / first).checked_ilog2().map_or(0, |doubled| c + c / 2 * doubled as i16);
    (0..max_required(rate)).map(step).collect()
}

/// A period in the middle of the range.
fn middle(rate: u32) -> usize {
    (min_period(rate) + max_period(rate)) / 2
}

/// Previous periods: none, those at the ends of the range, and others in it.
fn starts(rate: u32) -> Vec<usize> {
    let (shortest, longest) = (min_period(rate), max_period(rate));
    let all = [0, shortest, longest, middle(rate), shortest + Right.skip(rate)];
    all[..if rate > FEWER_ABOVE { 3 } else { 5 }].to_vec()
}

/// The shortest or the longest period of stairs, whichever the previous period is. That is used if twice c is above three times its mean.
fn of_stairs() -> Vec<Figure> {
    let mut all = Vec::new();
    for (rate, channels) in RATES.into_iter().zip([1, 2, 1, 3, 1, 5].into_iter().cycle()) {
        for (ties, period) in [(0, min_period(rate)), (1, max_period(rate))] {
            for (start, c) in starts(rate).into_iter().zip([2i16, 20, 3_000, -20, 20]) {
                let (mean, input) = (c.unsigned_abs() as usize, stairs(rate, c));
                let lower = (2 * mean - 1) / 3;
                for (previous, used) in [(lower, if start == 0 { period } else { start }), (lower + 1, period)] {
                    let calls = one_step(stream(rate, channels, ties, (start, previous)), &input);
                    all.push(found("stairs", calls, used, period, mean * period));
                }
            }
        }
    }
    all
}

/// Stairs with one sample, at place q − 1, higher by 1: period q has a mean lower by 1/q, longer ones by less, shorter ones the same or a
/// higher one. The averages of the first search are the same, so that q is near the shortest period, or with the largest near the longest.
fn of_spoilt_stairs() -> Vec<Figure> {
    let mut all = Vec::new();
    for rate in RATES {
        let (shortest, longest, skip) = (min_period(rate), max_period(rate), Right.skip(rate));
        let near = [shortest + 1, shortest + 15, shortest + 2 * skip, shortest / skip * skip + 4 * skip];
        let far = [longest, longest - 1, longest - 16, longest - 2 * skip];
        for (ties, periods) in [(0, near), (1, far)] {
            for (period, start) in periods.into_iter().zip([0, shortest, longest, middle(rate)]) {
                let mut input = stairs(rate, 20);
                input[period - 1] += 1;
                let calls = one_step(stream(rate, 1, ties, (start, 65_535)), &input);
                all.push(found("stairs with one sample more", calls, period, period, 20 * period - 1));
            }
        }
    }
    all
}

/// A block that repeats, with the offsets of `TIED` on some of its frames alone: the block, twice and three times it have the same mean. The
/// block and these frames are whole averages of the first search.
fn of_blocks() -> Vec<Figure> {
    const D: usize = 30;
    let mut all = Vec::new();
    for (rate, channels) in RATES.into_iter().zip([1, 1, 2].into_iter().cycle()) {
        let skip = Right.skip(rate);
        let period = max_period(rate) / 3 / skip * skip;
        let half = period / skip / 2 * skip;
        let places = [0..skip, period - skip..period, 0..period, half..half + 2 * skip];
        for places in places.into_iter().take(if rate > FEWER_ABOVE { 2 } else { 4 }) {
            let offset = |i: usize| if places.contains(&(i % period)) { D as i16 * TIED[i / period % 6] } else { 0 };
            let input: Vec<i16> = blocks(period, max_required(rate), |_| 0).into_iter().enumerate().map(|(i, x)| x + offset(i)).collect();
            for (ties, blocks) in [(0, 1), (1, 3)] {
                for start in starts(rate).into_iter().chain([period, 2 * period, 3 * period]) {
                    let calls = one_step(stream(rate, channels, ties, (start, 65_535)), &input);
                    all.push(found("a block that repeats", calls, blocks * period, blocks * period, blocks * D * places.len()));
                }
            }
        }
    }
    all
}

/// Faint noise that repeats under other noise, for one search.
fn faint(rate: u32, seed: u32) -> Vec<i16> {
    let mut noise = Congruential(seed.wrapping_mul(2_654_435_761) | 1);
    let (loud, under) = (6 + noise.below(24), 4 + noise.below(8));
    let block: Vec<i16> = (0..middle(rate)).map(|_| noise.below(loud) as i16).collect();
    (0..max_required(rate)).map(|i| block[i % block.len()] + noise.below(under) as i16).collect()
}

/// The first faint noise whose greatest mean is three times the least, and so much more; with what a search finds in it.
fn with_greatest(rate: u32, largest: bool, above: usize) -> (Vec<i16>, Found) {
    let searched = (0..).map(|seed| faint(rate, seed)).map(|input| (Right.found(&input, rate, 1, largest), input));
    let fits = |found: &Found| found.least.whole() > 0 && found.greatest.whole() == 3 * found.least.whole() + above;
    let (found, input) = searched.take(10_000).find(|(found, _)| fits(found)).expect("a noise");
    (input, found)
}

/// The previous period at its limits: the greatest mean 3 times the least or 1 more, twice the least above 3 times the previous least or not.
fn of_previous() -> Vec<Figure> {
    let mut all = Vec::new();
    for (rate, ties) in RATES.into_iter().flat_map(|rate| [(rate, 0), (rate, 1)]) {
        for above in [0, 1] {
            let (input, search) = with_greatest(rate, ties != 0, above);
            let lower = (2 * search.least.whole() - 1) / 3;
            for (start, previous) in starts(rate).into_iter().flat_map(|start| [(start, 0), (start, lower), (start, lower + 1)]) {
                let used = if start != 0 && above == 0 && previous <= lower { start } else { search.period };
                let calls = one_step(stream(rate, 1, ties, (start, previous)), &input);
                all.push(found("the previous period at its limits", calls, used, search.period, search.sum));
            }
        }
    }
    all
}

/// Every figure of searches.
pub fn searches() -> Vec<Figure> {
    [of_stairs(), of_spoilt_stairs(), of_blocks(), of_previous()].into_iter().flatten().collect()
}

/// The kinds of sound of a run: those of the random runs, noise that repeats after a few frames, samples of which nearly all are 0, and a voice
/// whose noise grows by half with each period, so that its fit gets worse from step to step.
#[derive(Clone, Copy)]
enum Kind {
    Of(Sound),
    ShortRepeats,
    Sparse,
    Worse,
}

const KINDS: [Kind; 13] = [
    Kind::Of(Sound::Voice),
    Kind::Of(Sound::Noise),
    Kind::Of(Sound::Silence),
    Kind::Of(Sound::Repeats),
    Kind::Of(Sound::Changing),
    Kind::Of(Sound::Speech),
    Kind::Of(Sound::Square),
    Kind::Of(Sound::Faint),
    Kind::Of(Sound::Constant),
    Kind::ShortRepeats,
    Kind::Sparse,
    Kind::Worse,
    Kind::Worse,
];

/// So many frames of a sound that repeats after a few frames: the averages of the first search may all be alike, or repeat too.
fn short_repeats(random: &mut Random, rate: u32, frames: usize) -> Vec<i16> {
    let skip = Right.skip(rate);
    let period = random.one_of(&[2, 3, 4, 7, 15, 16, 17, skip, skip + 1, 2 * skip, 4 * skip, min_period(rate)]);
    let block: Vec<i16> = (0..period).map(|_| random.below(2_000) as i16).collect();
    (0..frames).map(|i| block[i % period]).collect()
}

/// So many frames, nearly all 0.
fn sparse(random: &mut Random, rate: u32, frames: usize) -> Vec<i16> {
    let (apart, level) = (random.between(2, min_period(rate)), random.one_of(&[1, 2, 300]));
    (0..frames).map(|_| if random.once_in(apart) { random.below(2 * level + 1) as i16 - level as i16 } else { 0 }).collect()
}

/// So many frames of a voice whose noise grows.
fn worse(random: &mut Random, rate: u32, frames: usize) -> Vec<i16> {
    let period = random.between(min_period(rate), max_period(rate));
    let (loud, faint) = (random.one_of(&[900, 3_000, 9_000]), random.one_of(&[2.0, 5.0, 40.0]));
    let block: Vec<i16> = (0..period).map(|_| random.below(loud) as i16).collect();
    let noise = |i: usize| (faint * 1.5f64.powi((i / period % 16) as i32)).min(9_000.0) as usize;
    (0..frames).map(|i| block[i % period] + random.below(noise(i) + 1) as i16).collect()
}

/// A write of so many frames of a kind of sound.
fn say(random: &mut Random, kind: Kind, rate: u32, channels: u32, frames: usize) -> Vec<f32> {
    let one_channel = match kind {
        Kind::Of(sound) => return Signal::of(random, rate, sound).frames(random, frames, channels as usize),
        Kind::ShortRepeats => short_repeats(random, rate, frames),
        Kind::Sparse => sparse(random, rate, frames),
        Kind::Worse => worse(random, rate, frames),
    };
    to_write(&alike(&one_channel, channels))
}

/// Settings of a run: speed and pitch.
const SETTINGS: [(f32, f32); 7] = [(2.0, 1.0), (0.5, 1.0), (3.7, 1.0), (1.3, 1.0), (0.8, 1.0), (20.0, 0.5), (4.0, 0.8)];

/// A run of a kind of sound, written twice, then read and flushed.
fn run(random: &mut Random, kind: Kind, rate: u32, channels: u32) -> Vec<Call> {
    let required = max_required(rate);
    let (speed, pitch) = random.one_of(&SETTINGS);
    let (ties, step_over) = (Some(random.below(2) as u32), random.below(2) as u32);
    let settings = [Setting::Speed(speed), Setting::Pitch(pitch), Setting::StepOver(step_over)].map(Call::Set);
    let room = room(rate, channels, 8 * required);
    let long = if rate > FEWER_ABOVE { required / 2 } else { 2 * required };
    let writes = [required + random.below(long), random.below(required)];
    let writes: Vec<Call> = writes.map(|frames| Call::Write { samples: say(random, kind, rate, channels, frames), areas: room }).into();
    let read = Call::Read { most: required, slice: room.output, output: room.output };
    let end = if rate > FEWER_ABOVE { vec![read] } else { vec![read, Call::Flush { areas: room }] };
    [Call::Open { rate, channels, ties }].into_iter().chain(settings).chain(writes).chain(end).collect()
}

/// Runs of every kind of sound at every rate, in mono and in several channels.
pub fn high_rates() -> impl Iterator<Item = Vec<Call>> {
    let mut random = Random::new(19);
    let times = |rate: u32| 0..if rate > FEWER_ABOVE { 1 } else { RUNS };
    let all = RATES.into_iter().flat_map(move |rate| KINDS.into_iter().flat_map(move |kind| times(rate).map(move |_| (rate, kind))));
    all.map(move |(rate, kind)| {
        let several = if rate > FEWER_ABOVE { 2 } else { random.between(2, 5) as u32 };
        let channels = random.one_of(&[1, several]);
        run(&mut random, kind, rate, channels)
    })
}
