//! Two reels at 8,000 Hz mono, speed 20, pitch 0.5. A voice of period 62 runs to its end; a voice that goes over to period 34 stalls,
//! and each later write says so, while the original only lets its input grow. A stream that steps over runs to the end of both.

use crate::interface::{Setting, STALLED};
use crate::run::{Call, Lengths};
use crate::runner::Bench;
use crate::signals::{Random, Signal};
use crate::subject;

/// Frames of one write.
const BLOCK: usize = 500;
/// Writes of a reel.
const WRITES: usize = 160;
/// Room for all that a reel may hold.
const ROOM: Lengths = Lengths { input: 100_000, stage: 100_000, output: 100_000, scratch: 246 };

/// What became of a reel.
struct Played {
    stalled: Vec<usize>,
    held: Vec<usize>,
    frames: usize,
    passed: usize,
}

/// The samples of a reel: a voice of one period, and from a write on of another.
fn reel(first: usize, second: usize, from: usize) -> Vec<Vec<f32>> {
    let mut random = Random::new(1);
    let mut voices = [Signal::voice(first as f64, 0.6), Signal::voice(second as f64, 0.6)];
    (0..WRITES).map(|write| voices[usize::from(write >= from)].frames(&mut random, BLOCK, 1)).collect()
}

/// Plays a reel on a stream that steps over or does not; every answer is compared with the original.
fn play(blocks: Vec<Vec<f32>>, step_over: u32) -> Result<Played, String> {
    let (_, mut subject) = subject();
    let mut bench = Bench::new(&mut *subject);
    let mut session = bench.session();
    session.step(&Call::Open { rate: 8_000, channels: 1, ties: None })?;
    session.step(&Call::Set(Setting::Speed(20.0)))?;
    session.step(&Call::Set(Setting::Pitch(0.5)))?;
    session.step(&Call::Set(Setting::StepOver(step_over)))?;
    let mut played = Played { stalled: Vec::new(), held: Vec::new(), frames: 0, passed: 0 };
    for (write, samples) in blocks.into_iter().enumerate() {
        let answer = session.step(&Call::Write { samples, areas: ROOM })?;
        if answer.refusal != 0 {
            return Err(format!("write {write} refused with {}", answer.refusal));
        }
        if answer.outcome == STALLED {
            played.stalled.push(write);
        }
        played.held.push(session.stream.held);
        played.frames += answer.frames;
        played.passed += answer.passed;
    }
    Ok(played)
}

/// The first write from which on the original only let its input grow.
fn only_grows_from(held: &[usize]) -> Option<usize> {
    let grows = |write: &usize| held[*write] == if *write == 0 { 0 } else { held[*write - 1] } + BLOCK;
    let count = (0..held.len()).rev().take_while(grows).count();
    (count > 1).then_some(held.len() - count)
}

/// Says how reel one went; it must not stall.
fn reel_one() -> Result<bool, String> {
    let played = play(reel(62, 62, 0), 0)?;
    let left = played.held[WRITES - 1];
    let stalled = played.stalled.len();
    println!("reel one: {WRITES} writes of {BLOCK} frames, {stalled} stalled; {} frames made, {left} held at the end", played.frames);
    Ok(played.stalled.is_empty() && left < BLOCK)
}

/// Says how reel two went; it must stall from the write on from which the original only lets its input grow.
fn reel_two() -> Result<bool, String> {
    let played = play(reel(62, 34, WRITES / 2), 0)?;
    let (stalled, left) = (played.stalled.len(), played.held[WRITES - 1]);
    let first = played.stalled.first().copied();
    println!(
        "reel two: {WRITES} writes of {BLOCK} frames, {stalled} stalled, each from write {} on, where the original stops taking input; \
         {} frames made, {left} held at the end",
        first.unwrap_or(WRITES) + 1,
        played.frames,
    );
    Ok(first.is_some() && first == only_grows_from(&played.held) && Some(WRITES - stalled) == first)
}

/// Says how both reels went on a stream that steps over: nothing stalls, and it passes over the second voice of reel two alone.
fn stepping_over() -> Result<bool, String> {
    let (one, two) = (play(reel(62, 62, 0), 1)?, play(reel(62, 34, WRITES / 2), 1)?);
    for (name, played) in [("one", &one), ("two", &two)] {
        let (passed, left) = (played.passed, played.held[WRITES - 1]);
        println!("reel {name}, stepping over: {passed} periods passed over; {} frames made, {left} held at the end", played.frames);
    }
    let ran = |played: &Played| played.stalled.is_empty() && played.held[WRITES - 1] < BLOCK;
    Ok(ran(&one) && ran(&two) && one.passed == 0 && two.passed > 1_000)
}

/// Plays both reels, then both stepping over.
pub fn reels() -> bool {
    let played = [reel_one(), reel_two(), stepping_over()].into_iter().collect::<Result<Vec<bool>, String>>();
    played.map(|all| all.into_iter().all(|right| right)).unwrap_or_else(|difference| {
        println!("reels: {difference}");
        false
    })
}
