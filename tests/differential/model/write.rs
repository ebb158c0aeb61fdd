//! The common part of a write and a flush, frames in, stretch or copy, rate, volume, and what goes back into the areas: docs/RULES.md,
//! "A write". IEEE 754 decides each float step; a cut toward zero saturates, and takes a NaN to 0.

use super::events::Event;
use super::{Model, Room, Work};
use crate::interface::{Areas, Balance, Stream, Told, Wrote, COPIED, EMPTY};

/// The samples of the frames added, and the play time that they make.
pub struct Added {
    pub samples: Vec<i16>,
    pub play_time: f32,
}

/// The rules of a write.
pub trait Write {
    /// A sample on its way in: held to ±1, times 32767 in f32, cut; a NaN gives 0.
    fn sample_in(&self, sample: f32) -> i16 {
        if sample.is_nan() { 0 } else { (sample.max(-1.0).min(1.0) * 32767.0) as i16 }
    }

    /// The whole frames of the samples; a partial last one is dropped.
    fn add(&self, stream: &Stream, samples: &[f32]) -> Added {
        let channels = stream.channels as usize;
        let frames = samples.len() / channels;
        let samples = samples[..frames * channels].iter().map(|&x| self.sample_in(x)).collect();
        Added { samples, play_time: self.play_time_grown(stream, frames) }
    }

    /// The play time after frames were added: it grows by frames·T/(speed/pitch).
    fn play_time_grown(&self, stream: &Stream, frames: usize) -> f32 {
        stream.input_play_time + (frames as f32 * stream.sample_period) / (stream.speed / stream.pitch)
    }

    /// The outcome of a call that has nothing to do after so many frames were added: empty, with no frames held.
    fn outcome_at_once(&self, held: usize, _added: usize) -> Option<u32> {
        (held == 0).then_some(EMPTY)
    }

    /// The local speed s = held·T/play time.
    fn local_speed(&self, stream: &Stream, held: usize) -> f32 {
        (held as f32 * stream.sample_period) / stream.input_play_time
    }

    /// Whether the stretch runs: s outside 0.99999..1.00001, compared in f64.
    fn stretches(&self, s: f32) -> bool {
        let s = f64::from(s);
        s < 0.99999 || s > 1.00001
    }

    /// All frames held go on as they are.
    fn copy_all(&self, work: &mut Work) {
        work.outcome = COPIED;
        work.stretched.extend_from_slice(&work.input);
        self.leave_input(work, work.held());
    }

    /// Frames leave the front of the input, and the play time becomes that of the frames left.
    fn leave_input(&self, work: &mut Work, frames: usize) {
        let held = work.held();
        work.remove(frames);
        work.stream.input_play_time = self.play_time_left(work.stream.input_play_time, held - frames, held);
    }

    /// The play time of the frames left: (play time·left)/held.
    fn play_time_left(&self, play_time: f32, left: usize, held: usize) -> f32 {
        (play_time * left as f32) / held as f32
    }

    /// Puts what an accepted call gave into the areas, behind the frames waiting, and hands the stream back. The sum is told apart.
    fn commit(&self, work: Work, areas: Areas<'_>) -> Wrote {
        let (channels, from) = (work.channels(), work.stream.waiting * work.channels());
        areas.input[..work.input.len()].copy_from_slice(&work.input);
        areas.stage[..work.tail.len()].copy_from_slice(&work.tail);
        areas.output[from..from + work.made.len()].copy_from_slice(&work.made);
        let (held, tail, waiting) = (work.held(), work.tail.len() / channels, work.stream.waiting + work.made.len() / channels);
        let told = Told { outcome: work.outcome, passed: work.passed, sum: 0 };
        Wrote { refusal: 0, told, stream: Stream { held, tail, waiting, ..work.stream } }
    }
}

/// What a call needs: frames that the stage has to hold, frames that it makes, and what it adds to the totals; and the frames that it copies
/// or stretches, the periods that it passes over, and the sum that it tells.
pub struct Needs {
    pub staged: usize,
    pub frames: usize,
    pub made: usize,
    pub counted: Balance,
    pub passed: usize,
    pub sum: usize,
}

impl Model {
    /// Adds samples to what is held and processes it, with so many frames free in the output. Refusals 5 to 7 and 12.
    pub fn add(&self, stream: Stream, samples: &[f32], areas: &Areas<'_>, output: usize) -> Result<Work, u32> {
        let channels = stream.channels as usize;
        let added = self.rules.write.add(&stream, samples);
        let full = self.rules.order.input_full(&stream, added.samples.len() / channels, areas.input.len() / channels);
        let work = || self.work(stream, &areas.input[..stream.held * channels], &added, &areas.stage[..stream.tail * channels]);
        let room = Room { stage: areas.stage.len() / channels, output };
        self.rules.order.refuse_in_turn(full, room, &|room| self.process(work(), room))
    }

    /// What follows once the frames are in the input. Refusals 6, 7 and 12.
    fn process(&self, mut work: Work, room: Room) -> Result<Work, u32> {
        let rules = &self.rules;
        if let Some(outcome) = rules.write.outcome_at_once(work.held(), work.added) {
            work.outcome = outcome;
            return Ok(work);
        }
        let s = rules.write.local_speed(&work.stream, work.held());
        if rules.write.stretches(s) {
            self.stretch(&mut work, s, room)?;
        } else {
            rules.write.copy_all(&mut work);
        }
        rules.order.stage_refusal(&work, room)?;
        work.staged = work.frames();
        rules.volume.convert_and_scale(&mut work, &|work| self.convert(work, room.output))?;
        work.stream.balance = rules.totals.balance_after(work.stream.balance, work.counted, work.outcome)?;
        if work.stream.tail + work.staged > room.stage {
            work.saw(Event::TailAside);
        }
        Ok(work)
    }

    /// What a call needs that adds these samples, when nothing limits it but a cap.
    pub fn needs(&self, stream: Stream, held: &[i16], tail: &[i16], added: &[i16], cap: usize) -> Option<Needs> {
        let stream = Stream { balance: Balance::default(), ..stream };
        let play_time = self.rules.write.play_time_grown(&stream, added.len() / stream.channels as usize);
        let work = self.work(stream, held, &Added { samples: added.to_vec(), play_time }, tail);
        let work = self.process(work, Room { stage: stream.tail + cap, output: cap }).ok()?;
        let (frames, staged) = (work.staged, self.rules.order.stage_needed(&stream, work.staged));
        let (made, sum) = (work.made.len() / work.channels(), self.rules.sums.told(&work));
        Some(Needs { staged, frames, made, counted: work.stream.balance, passed: work.passed, sum })
    }
}
