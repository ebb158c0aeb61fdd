//! Made-up streams: in order with floats of any kind, out of order in one field, or with counts that no area holds.

use crate::interface::{Balance, Stream};
use crate::model::settings::{max_period, max_required, min_period, sample_period};
use crate::model::Model;
use crate::run::{Call, Kept};
use crate::signals::{Random, Signal, TIED};

/// Play times and time errors at the ends of the floats.
const TIMES: [f32; 16] = [
    0.0, -0.0, f32::INFINITY, f32::NEG_INFINITY, f32::NAN, -1.0, -0.001, 1e-45, -1e-45, f32::MIN_POSITIVE, 1e-20, 1e20, f32::MAX, f32::MIN,
    0.05, 3.0,
];

/// Local speeds beside which a rule turns.
const SPEEDS: [f32; 12] = [0.99999, 1.00001, 1.0, 2.0, 0.5, 1.17, 1.9, 0.7, 0.51, 3.6666667, 0.4, 21.0];

/// Speeds and pitches in order. At 8,000 Hz the last three have 5, 32 and 33 phases of the rate conversion.
pub const RATIOS: [f32; 17] =
    [0.05, 20.0, 1.0, 1.0, 2.0, 0.5, 0.99999994, 1.0000001, 1.3, 0.7, 19.999998, 0.050000004, 4.0, 0.25, 0.8, 0.78125, 0.969697];

/// Volumes in order.
pub const VOLUMES: [f32; 10] = [0.01, 100.0, 1.0, 1.0, 0.999, 1.001, 1.003, 1.5, 0.5, 7.3];

/// A speed or a pitch in order.
pub fn ratio(random: &mut Random) -> f32 {
    if random.once_in(2) { random.one_of(&RATIOS) } else { random.ratio(0.0501, 19.9) }
}

/// A volume in order.
pub fn volume(random: &mut Random) -> f32 {
    if random.once_in(2) { random.one_of(&VOLUMES) } else { random.ratio(0.011, 99.0) }
}

/// A local speed to aim at: at a border, or where k turns for a period.
fn aimed_speed(random: &mut Random, period: usize) -> f32 {
    let k = random.between(1, period) as f32;
    let period = period as f32;
    let exact = match random.below(5) {
        0 => 1.0 + period / k,
        1 => k / (period + k),
        2 => random.ratio(1.01, 1.99),
        3 => random.ratio(0.501, 0.99),
        _ => random.one_of(&SPEEDS),
    };
    random.beside(exact)
}

/// A play time: special, or such that the local speed is aimed at once the frames are held.
fn play_time(random: &mut Random, stream: &Stream, s: f32) -> f32 {
    if random.once_in(3) {
        return random.one_of(&TIMES);
    }
    (stream.held as f32 * stream.sample_period) / s
}

/// A time error: special, or such that a copying step comes to a whole number of frames.
fn time_error(random: &mut Random, stream: &Stream, s: f32) -> f32 {
    if random.once_in(3) {
        return random.one_of(&TIMES);
    }
    let count = random.between(1, stream.held.max(1)) as f32;
    let error = (1.0 - count) * stream.sample_period * (s - 1.0) / s;
    if random.once_in(4) { -error } else { random.beside(error) }
}

/// A total: 0, one that a stream could have, or so near its end that a call may pass it.
fn total(random: &mut Random, rate: u32) -> u64 {
    match random.below(8) {
        0..=3 => 0,
        4 | 5 => random.below(1 << 40) as u64,
        6 => u64::MAX,
        _ => u64::MAX - random.below(6 * max_period(rate)) as u64,
    }
}

/// A value of the setting to step over, or of the choice of ties; any but 0 is on, or asks for the largest.
pub fn choice(random: &mut Random) -> u32 {
    if random.once_in(2) { 0 } else { random.one_of(&[1, 1, 2, 7, 1 << 31, u32::MAX]) }
}

/// The number of frames held.
fn held(random: &mut Random, rate: u32) -> usize {
    let required = max_required(rate);
    match random.below(6) {
        0 => random.below(3),
        1 => required - 1,
        2 => required,
        _ => random.between(required, required + 4 * max_period(rate)),
    }
}

/// Samples that repeat exactly after a period.
fn repeating(random: &mut Random, signal: &mut Signal, frames: usize, channels: usize, period: usize) -> Vec<i16> {
    let once = signal.samples(random, period, channels);
    once.iter().copied().cycle().take(frames * channels).collect()
}

/// Samples that repeat after a short period, each repeat with an offset, so that several periods have the same mean at the first frame.
fn repeating_beside(random: &mut Random, signal: &mut Signal, frames: usize, channels: usize, rate: u32) -> Vec<i16> {
    let (shortest, longest) = (min_period(rate), max_period(rate));
    let period = random.between(shortest, longest / 3);
    let step = random.one_of(&[0, 1, 2, 50]);
    let once: Vec<i16> = signal.samples(random, period, channels).iter().map(|sample| sample / 3 + 11_000).collect();
    let offset = |place: usize| step * TIED[place / once.len() % 6];
    (0..frames * channels).map(|place| once[place % once.len()] + offset(place)).collect()
}

/// A stream in order with its kept samples; often they repeat after the period that the local speed is aimed with.
pub fn in_order(random: &mut Random, judge: &Model, rate: u32, channels: u32, signal: &mut Signal) -> (Stream, Kept) {
    let (speed, pitch, volume) = (ratio(random), ratio(random), volume(random));
    let mut stream = Stream { rate, channels, speed, pitch, volume, sample_period: sample_period(rate), ..Stream::default() };
    positions(random, judge, &mut stream);
    let least_means = [0, 1, 2, 65_535, random.below(65_536), random.below(200)];
    stream.prev_min_diff = random.one_of(&least_means);
    let periods = [0, min_period(rate), max_period(rate), random.between(min_period(rate), max_period(rate))];
    stream.prev_period = random.one_of(&periods);
    stream.held = held(random, rate);
    stream.tail = random.one_of(&[0, 0, 1, 11, 12, 13, 40]);
    stream.waiting = random.one_of(&[0, 0, 1, 7, 100]);
    stream.balance = Balance { skipped: total(random, rate), inserted: total(random, rate) };
    (stream.step_over, stream.ties) = (choice(random), choice(random));
    let period = random.between(min_period(rate), max_period(rate));
    let s = aimed_speed(random, period);
    stream.input_play_time = play_time(random, &stream, s);
    stream.time_error = time_error(random, &stream, s);
    let width = channels as usize;
    let input = match random.below(6) {
        0 => repeating_beside(random, signal, stream.held, width, rate),
        1 | 2 => repeating(random, signal, stream.held, width, period),
        _ => signal.samples(random, stream.held, width),
    };
    let tail = signal.samples(random, stream.tail, width);
    let output = signal.samples(random, stream.waiting, width);
    (stream, Kept { input, tail, output })
}

/// A stream in order with a tail, at pitch 1 or just beside it, and totals far from their end; often it holds nothing and will copy.
pub fn with_tail(random: &mut Random, judge: &Model, rate: u32, channels: u32, signal: &mut Signal) -> (Stream, Kept) {
    let (mut stream, mut kept) = in_order(random, judge, rate, channels, signal);
    stream.pitch = random.one_of(&[1.0, 1.0, 1.0, 0.99999994, 1.0000001]);
    positions(random, judge, &mut stream);
    stream.tail = random.one_of(&[1, 5, 11, 12, 12, 13, 40]);
    kept.tail = signal.samples(random, stream.tail, channels as usize);
    stream.balance = Balance::default();
    if random.once_in(2) {
        (stream.held, stream.input_play_time, stream.speed) = (0, 0.0, stream.pitch);
        kept.input.clear();
    }
    (stream, kept)
}

/// Puts the two positions at a random place in order; often at the last before both become 0.
fn positions(random: &mut Random, judge: &Model, stream: &mut Stream) {
    let (new, old) = judge.rules.rate.rates(stream.rate, stream.pitch);
    let p = [0, old - 1, random.below(old), old.saturating_sub(20)];
    stream.old_rate_position = random.one_of(&p);
    stream.new_rate_position = (stream.old_rate_position * new).div_ceil(old);
}

/// A float out of a range, or a NaN.
fn outside(random: &mut Random, low: f32, high: f32) -> f32 {
    let below = f32::from_bits(low.to_bits() - 1);
    let above = f32::from_bits(high.to_bits() + 1);
    random.one_of(&[below, above, f32::NAN, f32::INFINITY, f32::NEG_INFINITY, 0.0, -low, 30.0 * high])
}

/// A sample period that is not the rate's.
fn other_period(random: &mut Random, period: f32) -> f32 {
    let (below, above) = (f32::from_bits(period.to_bits() - 1), f32::from_bits(period.to_bits() + 1));
    random.one_of(&[below, above, 0.0, f32::NAN, -period])
}

/// Puts one field of a stream out of order.
pub fn out_of_order(random: &mut Random, judge: &Model, stream: &mut Stream) {
    let (new, old) = judge.rules.rate.rates(stream.rate, stream.pitch);
    match random.below(10) {
        0 => stream.rate = random.one_of(&[0, 1, 999, 500_001, u32::MAX, stream.rate + 1]),
        1 => stream.channels = random.one_of(&[0, 33, u32::MAX]),
        2 => stream.speed = outside(random, 0.05, 20.0),
        3 => stream.pitch = outside(random, 0.05, 20.0),
        4 => stream.volume = outside(random, 0.01, 100.0),
        5 => stream.sample_period = other_period(random, stream.sample_period),
        6 => {
            let periods = [min_period(stream.rate) - 1, max_period(stream.rate) + 1, usize::MAX, 1];
            stream.prev_period = random.one_of(&periods);
        }
        7 => stream.prev_min_diff = random.one_of(&[65_536, usize::MAX, 1 << 32]),
        8 => {
            stream.old_rate_position = random.one_of(&[old, old + 1, usize::MAX, 1 << 40]);
            stream.new_rate_position = stream.old_rate_position.wrapping_mul(new).div_ceil(old);
        }
        _ => {
            let n = stream.new_rate_position;
            stream.new_rate_position = random.one_of(&[n + 1, n.wrapping_sub(1), usize::MAX, n + new]);
        }
    }
}

/// A count so high that no area holds it; with the channels it may wrap to a small number.
pub fn absurd_count(random: &mut Random, channels: u32) -> usize {
    let wrapping = (usize::MAX / channels as usize).wrapping_add(1);
    random.one_of(&[usize::MAX, wrapping, wrapping.wrapping_add(3), 1 << 63, 1 << 62, 1 << 60, 1 << 59, (1 << 63) + 1])
}

/// A made-up stream of any of these kinds.
pub fn call(random: &mut Random, judge: &Model, rate: u32, channels: u32, signal: &mut Signal) -> Call {
    let (mut stream, kept) = in_order(random, judge, rate, channels, signal);
    match random.below(12) {
        0 | 1 => out_of_order(random, judge, &mut stream),
        2 => {
            let count = absurd_count(random, channels);
            *random.one_of_fields(&mut stream) = count;
        }
        _ => {}
    }
    Call::Made { stream, kept }
}

impl Random {
    /// One of the three counts.
    fn one_of_fields<'a>(&mut self, stream: &'a mut Stream) -> &'a mut usize {
        match self.below(3) {
            0 => &mut stream.held,
            1 => &mut stream.tail,
            _ => &mut stream.waiting,
        }
    }
}
