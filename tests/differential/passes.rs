//! Figures of stepping over with known counts of periods passed over. At 8,000 Hz, speed 20 and pitch 0.5 silence has period 20 and gives no
//! frame; 246 frames of it are one step, each 20 more another.

use crate::figures::{ample, areas, at_speed, figure, fresh, holding, open, write, Figure};
use crate::interface::{Balance, Setting, Stream, COPIED, EMPTY, STALLED, STRETCHED, WAITING};
use crate::run::{Call, Kept, Lengths};
use crate::signals::pulses;

/// The last value of a total.
const END: u64 = u64::MAX;

/// A figure with the periods that its last call passes over, and the frames skipped that it leaves.
fn passing(name: &'static str, calls: Vec<Call>, (refusal, outcome, frames): (u32, u32, usize), passed: usize, skipped: u64) -> Figure {
    let balance = Some(Balance { skipped, inserted: 0 });
    Figure { passed: Some(passed), balance, ..figure(name, calls, (refusal, outcome, frames)) }
}

/// A figure with the value of the setting that it leaves.
fn leaving(name: &'static str, calls: Vec<Call>, (refusal, outcome): (u32, u32), step_over: u32) -> Figure {
    Figure { step_over: Some(step_over), ..figure(name, calls, (refusal, outcome, 0)) }
}

/// A stream for skim tracks with a value of the setting.
fn skim(step_over: u32) -> Stream {
    Stream { speed: 20.0, pitch: 0.5, step_over, ..fresh(8_000) }
}

/// A made-up stream that holds nothing.
fn made(stream: Stream) -> Call {
    Call::Made { stream, kept: Kept::default() }
}

/// The setting.
fn step_over(on: u32) -> Call {
    Call::Set(Setting::StepOver(on))
}

/// A flush in ample areas.
fn flush() -> Call {
    Call::Flush { areas: ample() }
}

/// Calls on a fresh stream for skim tracks.
fn fresh_skim(calls: &[Call]) -> Vec<Call> {
    let settings = [open(8_000, 1), Call::Set(Setting::Speed(20.0)), Call::Set(Setting::Pitch(0.5))];
    [&settings[..], calls].concat()
}

/// A stream that holds five periods of a voice, which give 5 frames, and then silence; and a write of nothing.
fn voice_and_silence(stream: Stream) -> Vec<Call> {
    let input = [pulses(310, 62), vec![0; 300]].concat();
    let play = input.len() as f32 * stream.sample_period / 40.0;
    vec![holding(stream, input, play), write(0, ample())]
}

/// Writes and flushes that pass over silence.
fn silences() -> Vec<Figure> {
    let on = step_over(1);
    let after_stall = fresh_skim(&[write(300, ample()), on.clone(), write(0, ample())]);
    let no_play_time = vec![holding(Stream { step_over: 1, ..fresh(8_000) }, vec![0; 300], 0.0), write(0, ample())];
    vec![
        passing("one period passed over", fresh_skim(&[on.clone(), write(246, ample())]), (0, STRETCHED, 0), 1, 20),
        passing("three periods passed over", fresh_skim(&[on.clone(), write(300, ample())]), (0, STRETCHED, 0), 3, 60),
        passing("its input has left", fresh_skim(&[on.clone(), write(300, ample()), write(5, ample())]), (0, WAITING, 0), 0, 60),
        passing("off, the same stalls", fresh_skim(&[write(300, ample())]), (0, STALLED, 0), 0, 0),
        passing("on after a stall", after_stall, (0, STRETCHED, 0), 3, 60),
        passing("off again", fresh_skim(&[on.clone(), write(246, ample()), step_over(0), write(20, ample())]), (0, STALLED, 0), 0, 20),
        passing("a flush of nothing", fresh_skim(&[on.clone(), flush()]), (0, STRETCHED, 0), 13, 260),
        passing("a second flush of nothing", fresh_skim(&[on.clone(), flush(), flush()]), (0, STRETCHED, 0), 13, 520),
        passing("off, a flush of nothing", fresh_skim(&[flush()]), (0, STALLED, 0), 0, 0),
        passing("s infinite", no_play_time, (0, STRETCHED, 0), 3, 60),
        passing("s = 22", at_speed(Stream { step_over: 1, ..fresh(8_000) }, 246..=265, 0, 22.0), (0, STRETCHED, 0), 1, 20),
        passing("s = 21", at_speed(Stream { step_over: 1, ..fresh(8_000) }, 246..=265, 0, 21.0), (0, STRETCHED, 1), 0, 20),
    ]
}

/// Steps with and without frames in one call, the period that is passed over, and calls with nothing to pass over.
fn steps() -> Vec<Figure> {
    let slow = Stream { step_over: 1, ..fresh(8_000) };
    let error = Stream { time_error: 0.25, ..skim(1) };
    vec![
        passing("a voice, then silence", voice_and_silence(skim(1)), (0, STRETCHED, 0), 3, 368),
        passing("the same at pitch 1", voice_and_silence(slow), (0, STRETCHED, 5), 3, 368),
        passing("the time error stays", voice_and_silence(error), (0, STRETCHED, 0), 3, 368),
        passing("copied", vec![made(slow), write(300, ample())], (0, COPIED, 300), 0, 0),
        passing("empty", vec![made(skim(1)), write(0, ample())], (0, EMPTY, 0), 0, 0),
        passing("waiting", vec![made(skim(1)), write(245, ample())], (0, WAITING, 0), 0, 0),
        passing("a skip that gives frames", at_speed(slow, 246..=265, 0, 2.0), (0, STRETCHED, 20), 0, 20),
    ]
}

/// Refused calls tell no period, and those that pass over need no room; 12 sees the periods.
fn refusals() -> Vec<Figure> {
    let room = |input, stage, output| areas(input, stage, output, 246);
    let silence = |areas: Lengths| vec![made(skim(1)), write(300, areas)];
    let at = |skipped| Stream { balance: Balance { skipped, inserted: 0 }, ..skim(1) };
    let spoken = |stage, output| {
        let mut calls = voice_and_silence(Stream { step_over: 1, ..fresh(8_000) });
        calls[1] = write(0, room(700, stage, output));
        calls
    };
    vec![
        passing("no room for frames is needed", silence(room(300, 0, 0)), (0, STRETCHED, 0), 3, 60),
        passing("3 passes over nothing", vec![made(Stream { speed: 30.0, ..skim(1) }), write(300, ample())], (3, 0, 0), 0, 0),
        passing("4 passes over nothing", silence(areas(300, 0, 0, 245)), (4, 0, 0), 0, 0),
        passing("5 passes over nothing", silence(room(299, 0, 0)), (5, 0, 0), 0, 0),
        passing("6 passes over nothing", spoken(4, 5), (6, 0, 0), 0, 0),
        passing("7 passes over nothing", spoken(5, 4), (7, 0, 0), 0, 0),
        passing("6 and 7 see the frames alone", spoken(5, 5), (0, STRETCHED, 5), 3, 368),
        passing("skipped comes to its end", vec![made(at(END - 60)), write(300, ample())], (0, STRETCHED, 0), 3, END),
        passing("skipped would pass its end", vec![made(at(END - 59)), write(300, ample())], (12, 0, 0), 0, END - 59),
        passing("a flush comes to the end", vec![made(at(END - 260)), flush()], (0, STRETCHED, 0), 13, END),
        passing("a flush would pass the end", vec![made(at(END - 259)), flush()], (12, 0, 0), 0, END - 259),
        passing("off, no 12", vec![made(Stream { step_over: 0, ..at(END) }), write(300, ample())], (0, STALLED, 0), 0, END),
    ]
}

/// The setting, and the values that the field can have.
fn settings() -> Vec<Figure> {
    let moved = Stream { old_rate_position: 3, new_rate_position: 6, ..skim(0) };
    let read = Call::Read { most: 1, slice: 1, output: 9 };
    let on = |call: Call| fresh_skim(&[step_over(1), call]);
    let with = |value, call: Call| vec![made(skim(value)), call];
    let bad = |value| Stream { volume: 0.0, ..skim(value) };
    let short = areas(99, 99, 99, 246);
    let mut all = vec![
        leaving("fresh", vec![open(8_000, 1)], (0, 0), 0),
        leaving("refused opening", vec![open(8_000, 33)], (2, 0), 0),
        leaving("set", on(Call::Available), (0, 0), 1),
        leaving("set with p and n", vec![made(moved), step_over(1), write(300, ample())], (0, STRETCHED), 1),
        leaving("set while held", fresh_skim(&[write(9, ample()), step_over(1), write(0, ample())]), (0, WAITING), 1),
        leaving("refused", vec![made(bad(0)), step_over(1)], (3, 0), 0),
        leaving("switching off refused", vec![made(bad(7)), step_over(0)], (3, 0), 7),
        leaving("an opening", on(open(8_000, 1)), (0, 0), 0),
        leaving("a speed", on(Call::Set(Setting::Speed(3.0))), (0, 0), 1),
        leaving("a pitch", on(Call::Set(Setting::Pitch(1.0))), (0, 0), 1),
        leaving("a volume", on(Call::Set(Setting::Volume(3.0))), (0, 0), 1),
        leaving("a flush", on(flush()), (0, STRETCHED), 1),
        leaving("a read", on(read.clone()), (0, 0), 1),
    ];
    for value in [2, 7, 1 << 16, u32::MAX] {
        all.push(leaving("set by another number", fresh_skim(&[step_over(value)]), (0, 0), 1));
        all.push(leaving("a write by another value", with(value, write(300, ample())), (0, STRETCHED), value));
        all.push(leaving("a refused write by another value", with(value, write(100, short)), (5, 0), value));
        all.push(leaving("a flush by another value", with(value, flush()), (0, STRETCHED), value));
        all.push(leaving("a read by another value", with(value, read.clone()), (0, 0), value));
        all.push(leaving("set again by another value", with(value, step_over(1)), (0, 0), 1));
        all.push(leaving("switched off by another value", with(value, step_over(0)), (0, 0), 0));
    }
    all
}

/// Every figure of stepping over.
pub fn passes() -> Vec<Figure> {
    [silences(), steps(), refusals(), settings()].into_iter().flatten().collect()
}
