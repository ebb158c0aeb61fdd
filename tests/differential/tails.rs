//! Figures of the tail at pitch 1, request C-12, with known answers. An editor lowers a voice: 24 frames at pitch and speed 0.5 give 24,
//! which are read, and 12 stay in the tail. Then the pitch goes back to 1, where 6 counts the frames of a call alone: the stage has to hold
//! the tail or the frames, whichever are more, and not both.

use std::ops::Range;

use crate::figures::{ample, areas, figure, fresh, open, write, Figure};
use crate::interface::{Balance, Setting, Stream, COPIED, EMPTY, STALLED, STRETCHED, WAITING};
use crate::run::{Call, Kept, Lengths};
use crate::signals::pulses;

/// The tail.
const TAIL: usize = 12;
/// The frames that the editor writes at pitch 1.
const WRITTEN: Range<usize> = 24..44;

/// The level of a sample, in 128ths of full scale: its product with 32767 is exact.
fn level(place: usize) -> i32 {
    (place * 37 % 201) as i32 - 100
}

/// Some samples of the voice.
fn voice(places: Range<usize>) -> Vec<f32> {
    places.map(|place| level(place) as f32 / 128.0).collect()
}

/// What becomes of them where they go straight out.
fn heard(places: Range<usize>) -> Vec<i16> {
    places.map(|place| (level(place) * 32_767 / 128) as i16).collect()
}

/// What becomes of them at volume 2.
fn heard_louder(places: Range<usize>) -> Vec<i16> {
    heard(places).into_iter().map(|sample| (2 * i32::from(sample)).clamp(-32_767, 32_767) as i16).collect()
}

/// A write of some samples of the voice.
fn say(places: Range<usize>, areas: Lengths) -> Call {
    Call::Write { samples: voice(places), areas }
}

/// The frames that the editor writes, with so many samples of stage and output.
fn said(stage: usize, output: usize) -> Call {
    say(WRITTEN, areas(20, stage, output, 246))
}

/// Both settings.
fn set(pitch: f32, speed: f32) -> [Call; 2] {
    [Call::Set(Setting::Pitch(pitch)), Call::Set(Setting::Speed(speed))]
}

/// A read of all.
fn read_all() -> Call {
    Call::Read { most: usize::MAX, slice: 100, output: 100 }
}

/// A lowered voice, then a pitch and a speed, and more calls.
fn lowered_at(rate: u32, channels: usize, [pitch, speed]: [f32; 2], more: &[Call]) -> Vec<Call> {
    let begin = [open(rate, channels as u32)].into_iter().chain(set(0.5, 0.5)).chain([say(0..24 * channels, ample()), read_all()]);
    begin.chain(set(pitch, speed)).chain(more.iter().cloned()).collect()
}

/// The same in mono at 8,000 Hz.
fn lowered(settings: [f32; 2], more: &[Call]) -> Vec<Call> {
    lowered_at(8_000, 1, settings, more)
}

/// Back at pitch 1, at a speed.
fn back(speed: f32, more: &[Call]) -> Vec<Call> {
    lowered([1.0, speed], more)
}

/// A figure with the samples that it leaves in the output.
fn leaving(name: &'static str, calls: Vec<Call>, wanted: (u32, u32, usize), output: Vec<i16>) -> Figure {
    Figure { output: Some(output), ..figure(name, calls, wanted) }
}

/// Copies: the larger of tail and frames, and one sample less; 6 before 7, wherever the output ends.
fn copies() -> Vec<Figure> {
    let few = |stage| back(1.0, &[say(24..29, areas(5, stage, 5, 246))]);
    let as_many = |frames: usize, stage| back(1.0, &[say(24..24 + frames, areas(frames, stage, frames, 246))]);
    let turned_down = |stage, output| back(1.0, &[said(stage, output)]);
    vec![
        leaving("20 frames, a tail of 12, stage 20", back(1.0, &[said(20, 20)]), (0, COPIED, 20), heard(WRITTEN)),
        leaving("the same, stage 31", back(1.0, &[said(31, 20)]), (0, COPIED, 20), heard(WRITTEN)),
        figure("the same, stage 19", turned_down(19, 20), (6, 0, 0)),
        figure("the same, stage 19, output 19", turned_down(19, 19), (6, 0, 0)),
        figure("the same, stage 19, output 0", turned_down(19, 0), (6, 0, 0)),
        figure("the same, stage 20, output 19", turned_down(20, 19), (7, 0, 0)),
        figure("the same, stage 20, output 0", turned_down(20, 0), (7, 0, 0)),
        figure("the same, stage 12", turned_down(12, 20), (6, 0, 0)),
        figure("the same, stage 11", turned_down(11, 20), (4, 0, 0)),
        leaving("5 frames, stage 12", few(12), (0, COPIED, 5), heard(24..29)),
        figure("5 frames, stage 11", few(11), (4, 0, 0)),
        leaving("12 frames, stage 12", as_many(12, 12), (0, COPIED, 12), heard(24..36)),
        figure("13 frames, stage 12", as_many(13, 12), (6, 0, 0)),
        leaving("13 frames, stage 13", as_many(13, 13), (0, COPIED, 13), heard(24..37)),
        figure("none, stage 12", back(1.0, &[write(0, areas(0, 12, 0, 246))]), (0, EMPTY, 0)),
        figure("none, stage 11", back(1.0, &[write(0, areas(0, 11, 0, 246))]), (4, 0, 0)),
    ]
}

/// The editor's story: refusals that change nothing, the write, and the lowered voice again, whose first frames are made of the old tail.
fn story() -> Vec<Figure> {
    let turned_down = [said(19, 20), said(19, 0), said(20, 19), said(20, 0), said(11, 20)];
    let spoken = [&turned_down[..], &[said(20, 20)]].concat();
    let again = |more: &[Call]| back(1.0, &[&spoken[..], &[read_all()], &set(0.5, 0.5), more].concat());
    let twice = [&set(0.5, 0.5)[..], &[say(44..64, ample()), read_all()], &set(1.0, 1.0), &turned_down, &[said(20, 20)]].concat();
    vec![
        leaving("after five refusals", back(1.0, &spoken), (0, COPIED, 20), heard(WRITTEN)),
        figure("lowered again", again(&[say(44..64, areas(20, 32, 40, 246))]), (0, COPIED, 40)),
        figure("lowered again, stage 31", again(&[say(44..64, areas(20, 31, 40, 246))]), (6, 0, 0)),
        figure("lowered again, output 39", again(&[say(44..64, areas(20, 32, 39, 246))]), (7, 0, 0)),
        leaving("lowered and back again", back(1.0, &[&[said(20, 20), read_all()], &twice[..]].concat()), (0, COPIED, 20), heard(WRITTEN)),
    ]
}

/// Behind frames that wait, which a refusal leaves.
fn behind_others() -> Vec<Figure> {
    let behind = |stage, output| back(1.0, &[say(19..24, ample()), said(stage, output)]);
    vec![
        leaving("5 wait, output 25", behind(20, 25), (0, COPIED, 20), heard(19..44)),
        leaving("5 wait, output 24", behind(20, 24), (7, 0, 0), heard(19..24)),
        leaving("5 wait, stage 19, output 24", behind(19, 24), (6, 0, 0), heard(19..24)),
        leaving("5 wait, stage 19, output 5", behind(19, 5), (6, 0, 0), heard(19..24)),
        figure("5 wait, stage 19, output 4", behind(19, 4), (4, 0, 0)),
    ]
}

/// Two channels, with lengths that end in a partial frame, and a volume.
fn channels() -> Vec<Figure> {
    let both = |places, stage, output| lowered_at(8_000, 2, [1.0, 1.0], &[say(places, areas(40, stage, output, 246))]);
    let louder = [Call::Set(Setting::Volume(2.0)), say(48..88, areas(40, 40, 40, 246))];
    let louder_behind = [say(40..48, ample()), Call::Set(Setting::Volume(2.0)), say(48..88, areas(40, 41, 49, 246))];
    vec![
        leaving("two channels, stage 41", both(48..88, 41, 41), (0, COPIED, 20), heard(48..88)),
        figure("two channels, stage 39", both(48..88, 39, 39), (6, 0, 0)),
        figure("two channels, output 39", both(48..88, 40, 39), (7, 0, 0)),
        leaving("two channels, 5 frames, stage 24", both(48..58, 24, 10), (0, COPIED, 5), heard(48..58)),
        figure("two channels, 5 frames, stage 23", both(48..58, 23, 10), (4, 0, 0)),
        leaving("two channels, volume 2", lowered_at(8_000, 2, [1.0, 1.0], &louder), (0, COPIED, 20), heard_louder(48..88)),
        leaving(
            "two channels, volume 2 behind others",
            lowered_at(8_000, 2, [1.0, 1.0], &louder_behind),
            (0, COPIED, 20),
            [heard(40..48), heard_louder(48..88)].concat(),
        ),
    ]
}

/// Pitches beside 1 and 0.5, where the tail counts.
fn other_pitches() -> Vec<Figure> {
    let at = |pitch: f32, stage| lowered([pitch, pitch], &[said(stage, 40)]);
    let beside = [("the pitch below 1", 0x3f7f_ffff), ("the pitch above 1", 0x3f80_0001)];
    let mut all = vec![figure("pitch 0.5, stage 32", at(0.5, 32), (0, COPIED, 40)), figure("pitch 0.5, stage 31", at(0.5, 31), (6, 0, 0))];
    for (name, bits) in beside {
        let pitch = f32::from_bits(bits);
        all.push(figure(name, at(pitch, 32), (0, COPIED, 20)));
        all.push(figure(name, at(pitch, 31), (6, 0, 0)));
        all.push(figure(name, at(pitch, 20), (6, 0, 0)));
        all.push(figure(name, at(pitch, 11), (4, 0, 0)));
    }
    all
}

/// Stretches back at pitch 1: 500 frames of period 62 at speed 2 are three skips of 62 frames each, 300 at speed 0.5 one insert of 124; at
/// 4,000 Hz and speed 20 period 50 gives two frames, and silence, of period 10, none.
fn stretches() -> Vec<Figure> {
    let spoken = |frames, period| pulses(frames, period).iter().map(|&sample| f32::from(sample) / 32_767.0).collect::<Vec<f32>>();
    let at = |speed, frames, stage, output| {
        back(speed, &[Call::Write { samples: spoken(frames, 62), areas: areas(frames, stage, output, 246) }])
    };
    let skips = |stage, output| at(2.0, 500, stage, output);
    let stalls = |stage, output| {
        let samples = [spoken(500, 50), vec![0.0; 200]].concat();
        lowered_at(4_000, 1, [1.0, 20.0], &[Call::Write { samples, areas: areas(700, stage, output, 122) }])
    };
    vec![
        figure("three skips, stage 186", skips(186, 186), (0, STRETCHED, 186)),
        figure("three skips, stage 185", skips(185, 186), (6, 0, 0)),
        figure("three skips, full in the third", skips(185, 185), (6, 0, 0)),
        figure("three skips, full in the second", skips(185, 123), (6, 0, 0)),
        figure("three skips, full behind the first", skips(185, 62), (6, 0, 0)),
        figure("three skips, full in the first", skips(185, 61), (6, 0, 0)),
        figure("three skips, no output", skips(185, 0), (6, 0, 0)),
        figure("three skips, stage 124, output 62", skips(124, 62), (6, 0, 0)),
        figure("three skips, output 185", skips(186, 185), (7, 0, 0)),
        figure("three skips, output 61", skips(186, 61), (7, 0, 0)),
        figure("three skips, no output, stage 186", skips(186, 0), (7, 0, 0)),
        figure("an insert, stage 124", at(0.5, 300, 124, 124), (0, STRETCHED, 124)),
        figure("an insert, stage 123", at(0.5, 300, 123, 0), (6, 0, 0)),
        figure("an insert, output 123", at(0.5, 300, 124, 123), (7, 0, 0)),
        figure("too few frames, stage 12", at(2.0, 100, 12, 0), (0, WAITING, 0)),
        figure("too few frames, stage 11", at(2.0, 100, 11, 0), (4, 0, 0)),
        figure("a stall, stage 18", stalls(18, 18), (0, STALLED, 18)),
        figure("a stall, stage 17", stalls(17, 18), (6, 0, 0)),
        figure("a stall, stage 17, output 2", stalls(17, 2), (6, 0, 0)),
        figure("a stall, output 17", stalls(18, 17), (7, 0, 0)),
    ]
}

/// Flushes back at pitch 1: 492 silent frames are copied, and as many as the tail has are kept; with 100 frames held at speed 2, 176 are
/// made and 62 kept.
fn flushes() -> Vec<Figure> {
    let flush = |input, stage, output| Call::Flush { areas: areas(input, stage, output, 246) };
    let of_tail = |stage, output| back(1.0, &[flush(492, stage, output)]);
    let of_held = |stage, output| back(2.0, &[say(0..100, ample()), flush(592, stage, output)]);
    let lowered_again = |stage, output| {
        let after = [&[flush(492, stage, output), read_all()], &set(0.5, 0.5)[..], &[say(44..64, ample())]].concat();
        back(1.0, &after)
    };
    vec![
        leaving("a flush, stage 492", of_tail(492, 492), (0, COPIED, 12), vec![0; 12]),
        figure("a flush, stage 491", of_tail(491, 492), (6, 0, 0)),
        figure("a flush, stage 491, output 12", of_tail(491, 12), (6, 0, 0)),
        figure("a flush, stage 12", of_tail(12, 492), (6, 0, 0)),
        figure("a flush, stage 11", of_tail(11, 492), (4, 0, 0)),
        figure("a flush, output 491", of_tail(492, 491), (7, 0, 0)),
        figure("a flush, output 12", of_tail(492, 12), (7, 0, 0)),
        figure("the tail is cleared", lowered_again(492, 492), (0, COPIED, 16)),
        figure("a flush of frames held, stage 176", of_held(176, 176), (0, STRETCHED, 62)),
        figure("a flush of frames held, stage 175", of_held(175, 176), (6, 0, 0)),
        figure("a flush of frames held, stage 175, output 62", of_held(175, 62), (6, 0, 0)),
        figure("a flush of frames held, output 175", of_held(176, 175), (7, 0, 0)),
    ]
}

/// A made-up stream with the tail, and a write of silent frames.
fn tailed(stream: Stream, frames: usize, areas: Lengths) -> Vec<Call> {
    let kept = Kept { tail: heard(0..TAIL), ..Kept::default() };
    vec![Call::Made { stream: Stream { tail: TAIL, ..stream }, kept }, write(frames, areas)]
}

/// 12 behind 6 and 7, where 246 silent frames at speed 2 are a skip of 20; and periods of silence passed over, which need no room.
fn others() -> Vec<Figure> {
    let full = Stream { speed: 2.0, balance: Balance { skipped: u64::MAX, inserted: 0 }, ..fresh(8_000) };
    let at_end = |stage, output| tailed(full, 246, areas(246, stage, output, 246));
    let over = Stream { speed: 20.0, step_over: 1, ..fresh(4_000) };
    let passing = |stage| tailed(over, 200, areas(200, stage, 0, 122));
    vec![
        figure("12, stage 20, output 20", at_end(20, 20), (12, 0, 0)),
        figure("6 before 12, stage 19", at_end(19, 20), (6, 0, 0)),
        figure("7 before 12, output 19", at_end(20, 19), (7, 0, 0)),
        Figure { passed: Some(8), ..figure("passed over, stage 12", passing(12), (0, STRETCHED, 0)) },
        figure("passed over, stage 11", passing(11), (4, 0, 0)),
    ]
}

/// Every figure of the tail at pitch 1.
pub fn tails() -> Vec<Figure> {
    let all = [copies(), story(), behind_others(), channels(), other_pitches(), stretches(), flushes(), others()];
    all.into_iter().flatten().collect()
}
