//! Runs with known answers: the examples of the refusals, the figures of docs/RULES.md, "Figures", numbers found with the original where
//! another rounding would give another answer, and tables over all samples.

use std::ops::RangeInclusive;

use crate::balances::balances;
use crate::interface::{Balance, Setting, Stream, COPIED, STALLED, STRETCHED, WAITING};
use crate::model::settings::{max_required, sample_period};
use crate::passes::passes;
use crate::run::{Call, Kept, Lengths};
use crate::signals::pulses;
use crate::tails::tails;
use crate::ties::ties;

/// A run with the refusal, the outcome and the frames of its last call, and, where they are known, the samples that it leaves in the output,
/// the totals that it leaves, the periods passed over in its last call, the setting to step over that it leaves, and of ties the sum of its
/// last call, and the period and the choice that it leaves.
#[derive(Default)]
pub struct Figure {
    pub name: &'static str,
    pub calls: Vec<Call>,
    pub wanted: (u32, u32, usize),
    pub output: Option<Vec<i16>>,
    pub balance: Option<Balance>,
    pub passed: Option<usize>,
    pub step_over: Option<u32>,
    pub sum: Option<usize>,
    pub period: Option<usize>,
    pub ties: Option<u32>,
}

/// A figure.
pub fn figure(name: &'static str, calls: Vec<Call>, wanted: (u32, u32, usize)) -> Figure {
    Figure { name, calls, wanted, ..Figure::default() }
}

/// A figure with known samples, all copied in the last call.
fn copied(name: &'static str, calls: Vec<Call>, output: &[i16]) -> Figure {
    Figure { output: Some(output.to_vec()), ..figure(name, calls, (0, COPIED, output.len())) }
}

/// Areas of a call.
pub fn areas(input: usize, stage: usize, output: usize, scratch: usize) -> Lengths {
    Lengths { input, stage, output, scratch }
}

/// Areas with much room.
pub fn ample() -> Lengths {
    areas(300_000, 300_000, 300_000, 16_000)
}

/// An opening.
pub fn open(rate: u32, channels: u32) -> Call {
    Call::Open { rate, channels, ties: None }
}

/// A write of silent samples.
pub fn write(samples: usize, areas: Lengths) -> Call {
    Call::Write { samples: vec![0.0; samples], areas }
}

/// A fresh mono stream with its settings, as a value.
pub fn fresh(rate: u32) -> Stream {
    Stream { rate, channels: 1, speed: 1.0, pitch: 1.0, volume: 1.0, sample_period: sample_period(rate), ..Stream::default() }
}

/// A made-up stream that holds the input, with a play time.
pub fn holding(mut stream: Stream, input: Vec<i16>, play: f32) -> Call {
    stream.held = input.len() / stream.channels as usize;
    stream.input_play_time = play;
    Call::Made { stream, kept: Kept { input, ..Kept::default() } }
}

/// A play time with which so many frames have the local speed s exactly.
pub fn play_for(rate: u32, held: usize, s: f32) -> Option<f32> {
    let seconds = held as f32 * sample_period(rate);
    let near = (seconds / s).to_bits();
    (near - 8..near + 8).map(f32::from_bits).find(|&play| seconds / play == s)
}

/// A call without new samples on frames of a voice at a local speed, with one of so many frames held that can have it exactly.
pub fn at_speed(stream: Stream, helds: RangeInclusive<usize>, period: usize, s: f32) -> Vec<Call> {
    let mut tried = helds.map(|held| (held, play_for(stream.rate, held, s)));
    let (held, play) = tried.find(|(_, play)| play.is_some()).expect("frames that can have the local speed");
    let input = if period == 0 { vec![0; held] } else { pulses(held, period) };
    vec![holding(stream, input, play.unwrap_or(0.0)), write(0, ample())]
}

/// The examples of the table of refusals, each with the nearest call that is accepted.
fn refusals() -> Vec<Figure> {
    let fast = Stream { speed: 30.0, ..fresh(8_000) };
    let made = |stream| Call::Made { stream, kept: Kept::default() };
    let at_one = |samples, areas| vec![open(8_000, 1), write(samples, areas)];
    vec![
        figure("999 Hz", vec![open(999, 1)], (1, 0, 0)),
        figure("33 channels", vec![open(8_000, 33)], (2, 0, 0)),
        figure("both out of range", vec![open(999, 33)], (1, 0, 0)),
        figure("after a refused opening", vec![open(999, 1), Call::Available], (3, 0, 0)),
        figure("speed field 30", vec![made(fast), Call::Set(Setting::Speed(1.0))], (3, 0, 0)),
        figure("scratch of 245", at_one(1, areas(100, 100, 100, 245)), (4, 0, 0)),
        figure("scratch of 246", at_one(1, areas(100, 100, 100, 246)), (0, COPIED, 1)),
        figure("101 samples into 100", at_one(101, areas(100, 200, 200, 246)), (5, 0, 0)),
        figure("100 samples into 100", at_one(100, areas(100, 200, 200, 246)), (0, COPIED, 100)),
        figure("51 frames, stage 50", at_one(51, areas(100, 50, 50, 246)), (6, 0, 0)),
        figure("51 frames, output 50", at_one(51, areas(100, 60, 50, 246)), (7, 0, 0)),
        figure("input, stage and output short", at_one(101, areas(100, 50, 40, 246)), (5, 0, 0)),
        figure("all four short", at_one(101, areas(100, 50, 40, 245)), (4, 0, 0)),
        figure("stage and output short", at_one(51, areas(100, 50, 40, 246)), (6, 0, 0)),
        figure("out of order, all four short", vec![made(fast), write(101, areas(0, 0, 0, 0))], (3, 0, 0)),
        figure("50 frames, both 50", at_one(50, areas(100, 50, 50, 246)), (0, COPIED, 50)),
    ]
}

/// Areas at and above the longest.
fn longest() -> Vec<Figure> {
    let limit = 16_777_216;
    let at_one = |areas| vec![open(8_000, 1), write(1, areas)];
    let read = |output| vec![open(8_000, 1), Call::Read { most: 1, slice: 1, output }];
    vec![
        figure("longest areas", at_one(areas(limit, limit, limit, limit)), (0, COPIED, 1)),
        figure("input too long", at_one(areas(limit + 1, 9, 9, 246)), (4, 0, 0)),
        figure("stage too long", at_one(areas(9, limit + 1, 9, 246)), (4, 0, 0)),
        figure("output too long", at_one(areas(9, 9, limit + 1, 246)), (4, 0, 0)),
        figure("scratch too long", at_one(areas(9, 9, 9, limit + 1)), (4, 0, 0)),
        figure("read from the longest", read(limit), (0, 0, 0)),
        figure("read from one too long", read(limit + 1), (4, 0, 0)),
    ]
}

/// Local speeds at the borders. Period 0 is silence, which has the shortest period; 246 to 265 frames are one step.
fn local_speeds() -> Vec<Figure> {
    let at = |helds, s| at_speed(fresh(8_000), helds, 0, s);
    let bits = |helds, s| at_speed(fresh(8_000), helds, 0, f32::from_bits(s));
    let with_play = |play| vec![holding(fresh(8_000), vec![0; 246], play), write(0, ample())];
    vec![
        figure("period 20, s = 21", at(246..=265, 21.0), (0, STRETCHED, 1)),
        figure("period 20, s = 22", at(246..=265, 22.0), (0, STALLED, 0)),
        figure("period 20, s = 0.25", at(246..=251, 0.25), (0, STRETCHED, 26)),
        figure("s above 1.00001", bits(9..=99, 0x3f80_0054), (0, WAITING, 0)),
        figure("s just inside 1.00001", bits(9..=9, 0x3f80_0053), (0, COPIED, 9)),
        figure("s below 0.99999", bits(9..=99, 0x3f7f_ff58), (0, WAITING, 0)),
        figure("s just inside 0.99999", bits(9..=9, 0x3f7f_ff59), (0, COPIED, 9)),
        figure("play time 0", with_play(0.0), (0, STALLED, 0)),
        figure("play time infinite", with_play(f32::INFINITY), (0, STRETCHED, 21)),
        figure("play time NaN", with_play(f32::NAN), (0, COPIED, 246)),
    ]
}

/// Counts of steps that turn with the last bit.
fn steps() -> Vec<Figure> {
    let bits = f32::from_bits;
    let late = Stream { time_error: bits(0xbc50_dc87), ..fresh(8_000) };
    let unmoved = Stream { time_error: -0.0, ..fresh(8_000) };
    let wide = Stream { time_error: bits(0xbb38_5cff), ..fresh(8_000) };
    vec![
        figure("56 frames copied", at_speed(wide, 246..=301, 62, bits(0x3fd6_00ff)), (0, STRETCHED, 56)),
        figure("704 frames copied", at_speed(late, 705..=949, 62, bits(0x3f95_b837)), (0, STRETCHED, 704)),
        figure("period 8, k = 3", at_speed(fresh(1_000), 30..=40, 8, bits(0x406a_aaab)), (0, STRETCHED, 3)),
        figure("period 9, k = 6", at_speed(fresh(1_000), 30..=35, 9, bits(0x3ecc_cccd)), (0, STRETCHED, 15)),
        figure("s = 2", at_speed(fresh(8_000), 246..=285, 0, 2.0), (0, STRETCHED, 20)),
        figure("s = 0.5", at_speed(fresh(8_000), 246..=265, 0, 0.5), (0, STRETCHED, 40)),
        figure("time error -0", at_speed(unmoved, 246..=285, 0, 1.5), (0, STRETCHED, 20)),
    ]
}

/// Conversions and flushes.
fn conversions() -> Vec<Figure> {
    let half = |frames| vec![open(8_000, 1), Call::Set(Setting::Pitch(0.5)), Call::Set(Setting::Speed(0.5)), write(frames, ample())];
    let flush = || Call::Flush { areas: ample() };
    let slow = Stream { speed: f32::from_bits(0x3e51_3cd5), pitch: f32::from_bits(0x404c_2aa8), ..fresh(8_000) };
    let play = 10_029.0 * slow.sample_period / (slow.speed / slow.pitch);
    let tailed = Call::Made { stream: Stream { tail: 12, ..fresh(8_000) }, kept: Kept { tail: vec![500; 12], ..Kept::default() } };
    let limit = Stream { rate: 16_384, pitch: 0.5, speed: 0.5, sample_period: sample_period(16_384), ..fresh(8_000) };
    vec![
        figure("12 frames at pitch 0.5", half(12), (0, COPIED, 0)),
        figure("13 frames at pitch 0.5", half(13), (0, COPIED, 2)),
        figure("112 frames at pitch 0.5", half(112), (0, COPIED, 200)),
        figure("e rounded in f32", vec![holding(slow, pulses(10_029, 62), play), flush()], (0, STRETCHED, 49_082)),
        figure("a tail of 12 flushed", vec![tailed, flush()], (0, COPIED, 12)),
        figure("a flush of nothing", vec![open(8_000, 1), flush()], (0, COPIED, 0)),
        figure("rates of 16,384", vec![holding(limit, pulses(40, 9), 40.0 * limit.sample_period), write(0, ample())], (0, COPIED, 56)),
        figure("read of nothing", vec![open(8_000, 1), Call::Read { most: 5, slice: 5, output: 0 }], (0, 0, 0)),
    ]
}

/// Single samples: in, and through a volume.
fn samples() -> Vec<Figure> {
    let written = |samples: &[f32]| vec![open(8_000, 1), Call::Write { samples: samples.to_vec(), areas: ample() }];
    let ends = [f32::NAN, f32::INFINITY, f32::NEG_INFINITY, -0.0, 1e-45, 2.0, f32::from_bits(0x3f7f_ffff), f32::from_bits(0x3f00_0100)];
    let loud = Stream { volume: 1.5, ..fresh(8_000) };
    let unity = Stream { volume: 1.001, ..fresh(8_000) };
    let through = |stream: Stream, input: &[i16]| {
        vec![holding(stream, input.to_vec(), input.len() as f32 * stream.sample_period), write(0, ample())]
    };
    vec![
        copied("samples 1.0 and -0.5", written(&[1.0, -0.5]), &[32767, -16383]),
        copied("samples at the ends", written(&ends), &[0, 32767, -32767, 0, 0, 32767, 32766, 16384]),
        copied("volume 1.5", through(loud, &[-1, -30_000, 30_000, 3]), &[-2, -32767, 32767, 4]),
        copied("volume 1.001", through(unity, &[-32768, 32767, -1]), &[-32767, 32767, -1]),
        copied("volume 1", through(fresh(8_000), &[-32768, 32767, -1]), &[-32768, 32767, -1]),
    ]
}

/// Every sample of an area.
fn all_samples() -> Vec<i16> {
    (i16::MIN..=i16::MAX).collect()
}

/// Floats at and beside the places where the cut of a sample turns.
fn floats_beside_samples() -> Vec<f32> {
    let beside = |k: i32| [-1, 0, 1].map(|step| f32::from_bits((k as f32 / 32767.0).to_bits().wrapping_add_signed(step)));
    (-32767..=32767).flat_map(beside).chain([1.0000001, -1.0000001, f32::from_bits(0x3f00_0100)]).collect()
}

/// Tables over all samples: in, out, and through volumes.
fn tables() -> Vec<Figure> {
    let waiting = Stream { waiting: 65_536, ..fresh(8_000) };
    let out = vec![
        Call::Made { stream: waiting, kept: Kept { output: all_samples(), ..Kept::default() } },
        Call::Read { most: usize::MAX, slice: 65_540, output: 65_536 },
    ];
    let samples = floats_beside_samples();
    let frames = samples.len();
    let into = vec![open(8_000, 1), Call::Write { samples, areas: ample() }];
    let mut all = vec![figure("all samples out", out, (0, 0, 65_536)), figure("samples in, all borders", into, (0, COPIED, frames))];
    for volume in [0.01, 0.25, 0.999, 1.001, 1.003, 1.5, 1.999, 3.3, 100.0] {
        let stream = Stream { volume, ..fresh(8_000) };
        let calls = vec![holding(stream, all_samples(), 65_536.0 * stream.sample_period), write(0, ample())];
        all.push(figure("all samples through a volume", calls, (0, COPIED, 65_536)));
    }
    all
}

/// Counts that no area holds, on streams otherwise in order.
fn absurd() -> Vec<Figure> {
    let with = |held, tail, waiting| Call::Made { stream: Stream { channels: 2, held, tail, waiting, ..fresh(8_000) }, kept: Kept::default() };
    let wraps = 1usize << 63;
    vec![
        figure("held wraps to nothing", vec![with(wraps, 0, 0), write(2, ample())], (4, 0, 0)),
        figure("tail wraps to nothing", vec![with(0, wraps, 0), Call::Flush { areas: ample() }], (4, 0, 0)),
        figure("waiting wraps to nothing", vec![with(0, 0, wraps), Call::Read { most: 1, slice: 2, output: 4 }], (4, 0, 0)),
        figure("waiting absurd, counted", vec![with(0, 0, usize::MAX), Call::Available], (0, 0, usize::MAX)),
        figure("held absurd, read", vec![with(usize::MAX, 0, 3), Call::Read { most: 2, slice: 9, output: 6 }], (0, 0, 2)),
        figure("all absurd, set", vec![with(usize::MAX, usize::MAX, usize::MAX), Call::Set(Setting::Pitch(2.0))], (0, 0, 0)),
    ]
}

/// Every figure.
pub fn figures() -> Vec<Figure> {
    let known = [samples(), refusals(), local_speeds(), steps(), conversions(), balances(), passes(), tails(), ties()];
    let all = known.into_iter().chain([absurd(), tables(), longest()]);
    all.flatten().collect()
}

/// Openings of every rate.
pub fn every_rate() -> impl Iterator<Item = Call> {
    (1_000..=500_000).map(|rate| open(rate, 2))
}

/// Runs on as many frames as an area takes: they take long.
pub fn large() -> Vec<Figure> {
    let all = 16_777_216;
    let room = areas(all, all, all, 30);
    let holding = |play| holding(fresh(1_000), vec![0; all], play);
    let unit = all as f32 * sample_period(1_000);
    vec![
        figure("2^24 frames copied", vec![holding(unit), write(0, room)], (0, COPIED, all)),
        figure("2^24 frames and one more", vec![holding(unit), write(1, room)], (5, 0, 0)),
        figure("2^24 frames flushed", vec![holding(unit), Call::Flush { areas: room }], (5, 0, 0)),
        figure("2^24 frames at s = 1.5", vec![holding(unit / 1.5), write(0, room)], (0, STRETCHED, 11_184_791)),
        figure("2^24 frames would make too many", vec![holding(f32::INFINITY), write(0, room)], (6, 0, 0)),
    ]
}

/// At each rate where a rule turns: silence, a voice and a flush at several settings, in areas just long enough.
pub fn rate_borders() -> Vec<Vec<Call>> {
    let halves = [1_000, 1_024, 8_191, 8_192, 8_193, 16_383, 16_384, 16_385, 32_767, 32_768, 32_769, 65_536, 131_072, 262_144, 499_999, 500_000];
    let skips = (1..=12).chain([31, 124]).flat_map(|skip| [4_000 * skip - 1, 4_000 * skip, 4_000 * skip + 1]);
    let rates = halves.into_iter().chain(skips);
    rates.flat_map(|rate| [(2.5, 0.5), (0.4, 1.0), (1.3, 2.0)].map(|(speed, pitch)| at_rate(rate, speed, pitch))).collect()
}

/// A short run at a rate.
fn at_rate(rate: u32, speed: f32, pitch: f32) -> Vec<Call> {
    let required = max_required(rate);
    let room = areas(8 * required + 99, 40 * required, 90 * required, required);
    let voice = pulses(2 * required, rate as usize / 120).iter().map(|&s| f32::from(s) / 32767.0).collect();
    vec![
        open(rate, 1),
        Call::Set(Setting::Speed(speed)),
        Call::Set(Setting::Pitch(pitch)),
        write(required, room),
        Call::Write { samples: voice, areas: room },
        Call::Read { most: required, slice: 90 * required, output: 90 * required },
        Call::Flush { areas: room },
    ]
}
