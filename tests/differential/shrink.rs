//! Makes a failed run smaller while it still fails: fewer calls, shorter writes, plainer values.

use std::time::{Duration, Instant};

use crate::interface::{Balance, Setting, Stream, Subject};
use crate::run::{Call, Kept, Lengths};
use crate::runner::{Bench, Failure};

/// Time after which shrinking ends with what it has.
const TIME: Duration = Duration::from_secs(20);

/// A failed run that is being made smaller.
struct Shrinker<'a> {
    bench: Bench<'a>,
    best: Failure,
    start: Instant,
}

/// Parts of a list: from the whole to sixty-fourths, and single places of a short list.
fn parts(length: usize) -> Vec<std::ops::Range<usize>> {
    let mut all = Vec::new();
    for count in [1, 2, 4, 8, 16, 32, 64] {
        let size = length.div_ceil(count);
        if size > 0 && (all.is_empty() || size < length) {
            all.extend((0..count).map(|part| part * size..((part + 1) * size).min(length)).filter(|part| part.start < part.end));
        }
    }
    all
}

/// The list without one of its parts, for each part.
fn shorter<T: Clone>(values: &[T]) -> Vec<Vec<T>> {
    parts(values.len()).into_iter().map(|part| [&values[..part.start], &values[part.end..]].concat()).collect()
}

/// The list with one of its parts plain, for each part that is not plain already.
fn plainer<T: Copy>(values: &[T], plain: T, same: impl Fn(T, T) -> bool) -> Vec<Vec<T>> {
    let worth = parts(values.len()).into_iter().filter(|part| values[part.clone()].iter().any(|&value| !same(value, plain)));
    let one = |part: std::ops::Range<usize>| {
        let mut all = values.to_vec();
        all[part].fill(plain);
        all
    };
    worth.map(one).collect()
}

/// Plainer values of a float.
fn plainer_float(value: f32) -> Vec<f32> {
    let rounded = [(value * 4.0).round() / 4.0, (value * 100.0).round() / 100.0];
    let simple = [1.0, 0.0, 2.0, 0.5].into_iter().chain(rounded);
    let (plain, found) = ([1.0f32, 0.0, 2.0, 0.5], value);
    let rank = plain.iter().position(|&p| p.to_bits() == found.to_bits()).unwrap_or(4);
    simple.enumerate().filter(|&(place, v)| place < rank && v.to_bits() != value.to_bits()).map(|(_, v)| v).collect()
}

/// Plainer lengths of areas.
fn plainer_lengths(areas: &Lengths) -> Vec<Lengths> {
    let wide = 100_000;
    let mut all = Vec::new();
    for field in 0..4 {
        let mut other = *areas;
        let place = [&mut other.input, &mut other.stage, &mut other.output, &mut other.scratch].into_iter().nth(field);
        let place = place.expect("one of four");
        if *place != wide {
            *place = wide;
            all.push(other);
        }
    }
    all
}

/// Simpler values of a made-up stream.
fn plainer_streams(stream: &Stream) -> Vec<Stream> {
    let mut all = Vec::new();
    let wholes: [fn(&mut Stream) -> &mut usize; 4] =
        [|s| &mut s.prev_period, |s| &mut s.prev_min_diff, |s| &mut s.old_rate_position, |s| &mut s.new_rate_position];
    for whole in wholes {
        let mut other = *stream;
        if std::mem::take(whole(&mut other)) != 0 {
            all.push(other);
        }
    }
    all.push(Stream { old_rate_position: 0, new_rate_position: 0, ..*stream });
    all.push(Stream { balance: Balance { skipped: 0, ..stream.balance }, ..*stream });
    all.push(Stream { balance: Balance { inserted: 0, ..stream.balance }, ..*stream });
    all.extend((0..stream.step_over.min(2)).map(|step_over| Stream { step_over, ..*stream }));
    all.extend((0..stream.ties.min(2)).map(|ties| Stream { ties, ..*stream }));
    all.retain(|other| other.difference(stream).is_some());
    let floats: [fn(&mut Stream) -> &mut f32; 5] =
        [|s| &mut s.speed, |s| &mut s.pitch, |s| &mut s.volume, |s| &mut s.input_play_time, |s| &mut s.time_error];
    for float in floats {
        let mut other = *stream;
        for value in plainer_float(*float(&mut other)) {
            *float(&mut other) = value;
            all.push(other);
        }
    }
    all
}

/// Simpler forms of a made-up stream and its samples.
fn plainer_made(stream: &Stream, kept: &Kept) -> Vec<Call> {
    let made = |stream: Stream, kept: Kept| Call::Made { stream, kept };
    let mut all: Vec<Call> = plainer_streams(stream).into_iter().map(|stream| made(stream, kept.clone())).collect();
    let whole = |samples: &[i16]| samples.len() % stream.channels.max(1) as usize == 0;
    let frames = |samples: &[i16]| samples.len() / stream.channels.max(1) as usize;
    for input in shorter(&kept.input).into_iter().filter(|samples| whole(samples)) {
        all.push(made(Stream { held: frames(&input), ..*stream }, Kept { input, ..kept.clone() }));
    }
    for tail in shorter(&kept.tail).into_iter().filter(|samples| whole(samples)) {
        all.push(made(Stream { tail: frames(&tail), ..*stream }, Kept { tail, ..kept.clone() }));
    }
    for output in shorter(&kept.output).into_iter().filter(|samples| whole(samples)) {
        all.push(made(Stream { waiting: frames(&output), ..*stream }, Kept { output, ..kept.clone() }));
    }
    let zero = |values: &[i16]| plainer(values, 0, |a, b| a == b);
    all.extend(zero(&kept.input).into_iter().map(|input| made(*stream, Kept { input, ..kept.clone() })));
    all.extend(zero(&kept.tail).into_iter().map(|tail| made(*stream, Kept { tail, ..kept.clone() })));
    all.extend(zero(&kept.output).into_iter().map(|output| made(*stream, Kept { output, ..kept.clone() })));
    all
}

/// Simpler forms of a write.
fn plainer_write(samples: &[f32], areas: &Lengths) -> Vec<Call> {
    let areas = *areas;
    let write = |samples: Vec<f32>| Call::Write { samples, areas };
    let mut all: Vec<Call> = shorter(samples).into_iter().map(write).collect();
    all.extend(plainer(samples, 0.0, |a, b| a.to_bits() == b.to_bits()).into_iter().map(write));
    let rounded: Vec<f32> = samples.iter().map(|v| (v * 8.0).round() / 8.0).collect();
    if rounded.iter().zip(samples).any(|(a, b)| a != b && !b.is_nan()) {
        all.push(write(rounded));
    }
    let lengths = plainer_lengths(&areas).into_iter();
    all.extend(lengths.map(|areas| Call::Write { samples: samples.to_vec(), areas }));
    all
}

/// Simpler forms of a call, the boldest first.
fn simpler(call: &Call) -> Vec<Call> {
    let set = |values: Vec<f32>, setting: fn(f32) -> Setting| values.into_iter().map(|v| Call::Set(setting(v))).collect();
    match call {
        Call::Open { rate, channels, ties } => {
            let (rate, channels, ties) = (*rate, *channels, *ties);
            let all = [(8_000, 1), (1_000, channels), (8_000, channels), (rate, 1)].into_iter();
            let plainer = all.filter(|&(r, c)| r < rate || c < channels).map(|(rate, channels)| Call::Open { rate, channels, ties });
            let choices = [None, Some(0), Some(1)].into_iter().take_while(|choice| *choice < ties.map(|value| value.min(2)));
            plainer.chain(choices.map(|ties| Call::Open { rate, channels, ties })).collect()
        }
        Call::Made { stream, kept } => plainer_made(stream, kept),
        Call::Set(Setting::Speed(value)) => set(plainer_float(*value), Setting::Speed),
        Call::Set(Setting::Pitch(value)) => set(plainer_float(*value), Setting::Pitch),
        Call::Set(Setting::Volume(value)) => set(plainer_float(*value), Setting::Volume),
        Call::Set(Setting::StepOver(value)) => (0..(*value).min(2)).map(|on| Call::Set(Setting::StepOver(on))).collect(),
        Call::Write { samples, areas } => plainer_write(samples, areas),
        Call::Flush { areas } => plainer_lengths(areas).into_iter().map(|areas| Call::Flush { areas }).collect(),
        Call::Read { .. } | Call::Available => Vec::new(),
    }
}

impl Shrinker<'_> {
    /// Takes the calls if they still fail.
    fn take(&mut self, calls: &[Call]) -> bool {
        match self.bench.play(calls) {
            Ok(_) => false,
            Err(failure) => {
                self.best = failure;
                true
            }
        }
    }

    /// Whether there is time left.
    fn goes_on(&self) -> bool {
        self.start.elapsed() < TIME
    }

    /// Leaves out calls, many at once at first; whether any could be left out.
    fn drop_calls(&mut self) -> bool {
        let mut any = false;
        let mut size = self.best.calls.len();
        while size > 0 {
            let mut place = 0;
            while place < self.best.calls.len() && self.goes_on() {
                let end = (place + size).min(self.best.calls.len());
                let fewer = [&self.best.calls[..place], &self.best.calls[end..]].concat();
                let taken = self.take(&fewer);
                any |= taken;
                place += if taken { 0 } else { size };
            }
            size /= 2;
        }
        any
    }

    /// Makes single calls simpler; whether any could be made so.
    fn simplify_calls(&mut self) -> bool {
        let (mut any, mut place) = (false, 0);
        while place < self.best.calls.len() && self.goes_on() {
            let found = simpler(&self.best.calls[place]).into_iter().any(|call| {
                let mut calls = self.best.calls.clone();
                calls[place] = call;
                self.goes_on() && self.take(&calls)
            });
            any |= found;
            place += usize::from(!found);
        }
        any
    }
}

/// The smallest failed run that was found.
pub fn shrink(failure: Failure, subject: &mut dyn Subject) -> Failure {
    let mut shrinker = Shrinker { bench: Bench::new(subject), best: failure, start: Instant::now() };
    while shrinker.goes_on() && (shrinker.drop_calls() | shrinker.simplify_calls()) {}
    shrinker.best
}
