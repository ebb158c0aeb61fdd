//! The steps of a stretch: docs/RULES.md, "Stretch steps".

use super::events::Event;
use super::settings::max_required;
use super::{Model, Room, Work};
use crate::interface::{Stream, STALLED, STRETCHED, WAITING};

/// A skip or an insert step: the local speed, its position, the frames held at the start of the call, its period, and k.
#[derive(Clone, Copy)]
pub struct Step {
    pub s: f32,
    pub position: usize,
    pub held: usize,
    pub period: usize,
    pub k: usize,
}

/// A crossfade of k frames: from the frames at one place into those at another.
#[derive(Clone, Copy)]
pub struct Fade {
    pub down: usize,
    pub up: usize,
    pub k: usize,
}

/// The rules of the steps.
pub trait Steps {
    /// Whether a stretch waits for more frames.
    fn waits(&self, held: usize, required: usize) -> bool {
        held < required
    }

    /// Whether there is a step at a position.
    fn step_at(&self, position: usize, required: usize, held: usize) -> bool {
        position + required <= held
    }

    /// Whether the next step is a copying step.
    fn copying_due(&self, s: f32, error: f32) -> bool {
        (1.0 < s && s < 2.0 && error < 0.0) || (0.5 < s && s < 1.0 && error > 0.0)
    }

    /// The frames of a copying step: 1 − (time error·s)/(T·(s − 1)), at most those left, which is always at least 1.
    fn copy_count(&self, error: f32, s: f32, period: f32, left: usize) -> usize {
        let exact = 1.0 - f64::from(error * s) / (f64::from(period) * (f64::from(s) - 1.0));
        (exact as f32 as usize).clamp(1, left)
    }

    /// A copying step of so many frames.
    fn copy_frames(&self, work: &mut Work, s: f32, count: usize) {
        let (channels, position) = (work.channels(), work.position);
        work.stretched.extend_from_slice(&work.input[position * channels..(position + count) * channels]);
        work.stream.time_error = self.error_copied(&work.stream, s, count);
    }

    /// The time error after a copying step of so many frames.
    fn error_copied(&self, stream: &Stream, s: f32, count: usize) -> f32 {
        let seconds = f64::from(count as f32 * stream.sample_period);
        (f64::from(stream.time_error) + (seconds * (f64::from(s) - 1.0)) / f64::from(s)) as f32
    }

    /// The period of a skip step, for which it searches first, and its k.
    fn skip_period(&self, s: f32, _rate: u32, search: &mut dyn FnMut() -> usize) -> (usize, usize) {
        let period = search();
        (period, self.skip_count(s, period))
    }

    /// The frames k of a skip step.
    fn skip_count(&self, s: f32, period: usize) -> usize {
        if s < 2.0 { period } else { (period as f32 / (s - 1.0)) as usize }
    }

    /// The frames of a skip step: it fades from the position into one period later.
    fn skip_frames(&self, work: &mut Work, step: Step) {
        self.fade(work, Fade { down: step.position, up: step.position + step.period, k: step.k });
    }

    /// The frames k of an insert step.
    fn insert_count(&self, s: f32, period: usize) -> usize {
        if s > 0.5 { period } else { ((period as f32 * s / (1.0 - s)) as usize).max(1) }
    }

    /// The frames of an insert step: the period, then a crossfade from one period later into the position.
    fn insert_frames(&self, work: &mut Work, step: Step) {
        self.copy_period(work, step);
        self.fade(work, Fade { down: step.position + step.period, up: step.position, k: step.k });
    }

    /// The period of an insert step goes on as it is.
    fn copy_period(&self, work: &mut Work, step: Step) {
        let channels = work.channels();
        work.stretched.extend_from_slice(&work.input[step.position * channels..(step.position + step.period) * channels]);
    }

    /// The frames of a crossfade.
    fn fade(&self, work: &mut Work, fade: Fade) {
        let channels = work.channels();
        let samples = |place: usize| &work.input[place * channels..(place + fade.k) * channels];
        let pairs = samples(fade.down).iter().zip(samples(fade.up)).enumerate();
        let faded = pairs.map(|(i, (&down, &up))| self.crossfade(down.into(), up.into(), (i / channels) as i32, fade.k as i32));
        work.stretched.extend(faded);
    }

    /// A sample of crossfade frame t of k: (down·(k − t) + up·t)/k, toward zero.
    fn crossfade(&self, down: i32, up: i32, t: i32, k: i32) -> i16 {
        ((down * (k - t) + up * t) / k) as i16
    }

    /// The time error moved by a step that made some frames and used others.
    fn error_moved(&self, stream: &Stream, step: Step, made: usize, used: usize) -> f32 {
        stream.time_error + (made as f32 * stream.sample_period - (used as f32 * stream.input_play_time) / step.held as f32)
    }

    /// The time error after a skip step.
    fn error_skipped(&self, stream: &Stream, step: Step) -> f32 {
        if step.s < 2.0 { self.error_moved(stream, step, step.k, step.period + step.k) } else { stream.time_error }
    }

    /// The time error after an insert step.
    fn error_inserted(&self, stream: &Stream, step: Step) -> f32 {
        if step.s > 0.5 { self.error_moved(stream, step, step.period + step.k, step.k) } else { stream.time_error }
    }

    /// The end of a call that stalled: the frames made go on, and no input is removed.
    fn stall(&self, work: &mut Work) {
        work.outcome = STALLED;
    }
}

impl Model {
    /// The steps of a call, from position 0 until too few frames lie ahead. Refusal 6.
    pub fn stretch(&self, work: &mut Work, s: f32, room: Room) -> Result<(), u32> {
        let (rules, held, required) = (self.rules.steps, work.held(), max_required(work.stream.rate));
        if rules.waits(held, required) {
            work.outcome = WAITING;
            return Ok(());
        }
        loop {
            let used = self.step(work, s);
            self.rules.order.stage_refusal(work, room)?;
            let Some(used) = used else {
                work.saw(if work.stretched.is_empty() { Event::StalledAtOnce } else { Event::StalledLater });
                rules.stall(work);
                return Ok(());
            };
            work.position += used;
            if !rules.step_at(work.position, required, held) {
                break;
            }
        }
        if work.passed > 0 {
            work.saw(if work.stretched.is_empty() { Event::PassedAlone } else { Event::PassedAndMade });
        }
        work.outcome = STRETCHED;
        self.rules.write.leave_input(work, work.position);
        Ok(())
    }

    /// The next step: the frames used, or none if it gave no frame and ends the call.
    fn step(&self, work: &mut Work, s: f32) -> Option<usize> {
        if self.rules.steps.copying_due(s, work.stream.time_error) {
            return Some(self.copying_step(work, s));
        }
        if s > 1.0 { self.skip_step(work, s) } else { Some(self.insert_step(work, s)) }
    }

    /// A copying step: the frames used.
    fn copying_step(&self, work: &mut Work, s: f32) -> usize {
        let left = work.held() - work.position;
        let count = self.rules.steps.copy_count(work.stream.time_error, s, work.stream.sample_period, left);
        work.saw(if s > 1.0 { Event::CopyingFast } else { Event::CopyingSlow });
        if count == left {
            work.saw(Event::CopyingAll);
        }
        self.rules.steps.copy_frames(work, s, count);
        work.sum = self.rules.sums.after_copying(work.sum);
        count
    }

    /// A skip step: the frames used, or none if it gave no frame and ends the call.
    fn skip_step(&self, work: &mut Work, s: f32) -> Option<usize> {
        let (rules, rate, sum) = (&self.rules, work.stream.rate, work.sum);
        let (period, k) = rules.steps.skip_period(s, rate, &mut || self.period(work));
        work.saw(if s < 2.0 { Event::SkipWhole } else { Event::SkipPart });
        let step = Step { s, position: work.position, held: work.held(), period, k };
        if k == 0 {
            let used = self.pass_over(work, step);
            work.sum = if used.is_some() { rules.sums.after_passing(sum, work.sum) } else { work.sum };
            return used;
        }
        rules.steps.skip_frames(work, step);
        work.stream.time_error = rules.steps.error_skipped(&work.stream, step);
        rules.totals.count_skip(&mut work.counted, step);
        Some(period + k)
    }

    /// An insert step: the frames used.
    fn insert_step(&self, work: &mut Work, s: f32) -> usize {
        let rules = &self.rules;
        let period = self.period(work);
        let k = rules.steps.insert_count(s, period);
        work.saw(if s > 0.5 { Event::InsertWhole } else if k > 1 { Event::InsertPart } else { Event::InsertOne });
        let step = Step { s, position: work.position, held: work.held(), period, k };
        rules.steps.insert_frames(work, step);
        work.stream.time_error = rules.steps.error_inserted(&work.stream, step);
        rules.totals.count_insert(&mut work.counted, step);
        k
    }
}
