//! Figures with known totals: steps of each kind, calls that count nothing, and totals that come to their end or would pass it. Silence has
//! period 20 at 8,000 Hz, and 246 frames of it are one step.

use crate::figures::{ample, areas, at_speed, figure, fresh, holding, open, write, Figure};
use crate::interface::{Balance, Setting, Stream, COPIED, EMPTY, STALLED, STRETCHED, WAITING};
use crate::run::{Call, Kept, Lengths};
use crate::signals::pulses;

/// The last value of a total.
const END: u64 = u64::MAX;

/// A figure with the totals that it leaves.
fn counted(name: &'static str, calls: Vec<Call>, wanted: (u32, u32, usize), (skipped, inserted): (u64, u64)) -> Figure {
    Figure { balance: Some(Balance { skipped, inserted }), ..figure(name, calls, wanted) }
}

/// A fresh stream with totals, as a value.
fn with(skipped: u64, inserted: u64) -> Stream {
    Stream { balance: Balance { skipped, inserted }, ..fresh(8_000) }
}

/// One step on silence at a local speed.
fn step(stream: Stream, s: f32) -> Vec<Call> {
    at_speed(stream, 246..=265, 0, s)
}

/// The same in other areas.
fn step_in(stream: Stream, s: f32, areas: Lengths) -> Vec<Call> {
    let mut calls = step(stream, s);
    calls.pop();
    calls.push(write(0, areas));
    calls
}

/// A call on a made-up stream that holds nothing.
fn on(stream: Stream, call: Call) -> Vec<Call> {
    vec![Call::Made { stream, kept: Kept::default() }, call]
}

/// A call whose steps give 5 frames of a voice, and then stall on silence.
fn late_stall(stream: Stream) -> Vec<Call> {
    let input = [pulses(310, 62), vec![0; 300]].concat();
    let play = input.len() as f32 * stream.sample_period / 40.0;
    vec![holding(stream, input, play), write(0, ample())]
}

/// Steps, and calls without one.
fn steps() -> Vec<Figure> {
    let late = Stream { time_error: f32::from_bits(0xbc50_dc87), ..fresh(8_000) };
    vec![
        counted("a skip counted", step(fresh(8_000), 2.0), (0, STRETCHED, 20), (20, 0)),
        counted("a skip of one frame counted", step(fresh(8_000), 21.0), (0, STRETCHED, 1), (20, 0)),
        counted("an insert counted", step(fresh(8_000), 0.5), (0, STRETCHED, 40), (0, 20)),
        counted("an insert of six frames counted", step(fresh(8_000), 0.25), (0, STRETCHED, 26), (0, 20)),
        counted("a copying step not counted", at_speed(late, 705..=949, 62, f32::from_bits(0x3f95_b837)), (0, STRETCHED, 704), (0, 0)),
        counted("a copy not counted", on(with(7, 9), write(300, ample())), (0, COPIED, 300), (7, 9)),
        counted("a late stall not counted", late_stall(with(7, 9)), (0, STALLED, 5), (7, 9)),
    ]
}

/// Flushes of nothing at speeds 2 and 0.5, 7 and 13 steps on 492 frames of silence, and what follows them.
fn flushes() -> Vec<Figure> {
    let flushed = |speed, more: &[Call]| {
        let flush = [open(8_000, 1), Call::Set(Setting::Speed(speed)), Call::Flush { areas: ample() }];
        [&flush[..], more].concat()
    };
    let read = Call::Read { most: 1, slice: 1, output: 9 };
    vec![
        counted("skips of a flush", flushed(2.0, &[]), (0, STRETCHED, 0), (140, 0)),
        counted("inserts of a flush", flushed(0.5, &[]), (0, STRETCHED, 0), (0, 260)),
        counted("a speed after a flush", flushed(2.0, &[Call::Set(Setting::Speed(3.0))]), (0, 0, 0), (140, 0)),
        counted("a pitch after a flush", flushed(2.0, &[Call::Set(Setting::Pitch(1.0))]), (0, 0, 0), (140, 0)),
        counted("a volume after a flush", flushed(2.0, &[Call::Set(Setting::Volume(3.0))]), (0, 0, 0), (140, 0)),
        counted("a read after a flush", flushed(2.0, &[read]), (0, 0, 0), (140, 0)),
        counted("an opening after a flush", flushed(2.0, &[open(8_000, 1)]), (0, 0, 0), (0, 0)),
    ]
}

/// Totals that come to their end, and those that would pass it.
fn ends() -> Vec<Figure> {
    let flush = |stream: Stream| on(Stream { speed: 2.0, ..stream }, Call::Flush { areas: ample() });
    let room = |stage, output| areas(300, stage, output, 246);
    vec![
        counted("skipped comes to its end", step(with(END - 20, END), 2.0), (0, STRETCHED, 20), (END, END)),
        counted("skipped would pass its end", step(with(END - 19, 5), 2.0), (12, 0, 0), (END - 19, 5)),
        counted("inserted comes to its end", step(with(END, END - 20), 0.5), (0, STRETCHED, 40), (END, END)),
        counted("inserted would pass its end", step(with(5, END - 19), 0.5), (12, 0, 0), (5, END - 19)),
        counted("a flush comes to the end", flush(with(END - 140, END)), (0, STRETCHED, 0), (END, END)),
        counted("a flush would pass the end", flush(with(END - 139, 0)), (12, 0, 0), (END - 139, 0)),
        counted("12, the areas just long enough", step_in(with(END, 0), 2.0, room(20, 20)), (12, 0, 0), (END, 0)),
        counted("7 before 12", step_in(with(END, 0), 2.0, room(20, 19)), (7, 0, 0), (END, 0)),
        counted("6 before 12", step_in(with(END, 0), 2.0, room(19, 20)), (6, 0, 0), (END, 0)),
    ]
}

/// Calls that count nothing, with both totals at their end.
fn uncounted() -> Vec<Figure> {
    let full = with(END, END);
    let fast = Stream { speed: 2.0, ..full };
    vec![
        counted("empty at the end", on(full, write(0, ample())), (0, EMPTY, 0), (END, END)),
        counted("copied at the end", on(full, write(300, ample())), (0, COPIED, 300), (END, END)),
        counted("waiting at the end", on(fast, write(245, ample())), (0, WAITING, 0), (END, END)),
        counted("stalled at the end", step(full, 22.0), (0, STALLED, 0), (END, END)),
        counted("stalled late at the end", late_stall(full), (0, STALLED, 5), (END, END)),
    ]
}

/// Every figure with known totals.
pub fn balances() -> Vec<Figure> {
    [steps(), flushes(), ends(), uncounted()].into_iter().flatten().collect()
}
