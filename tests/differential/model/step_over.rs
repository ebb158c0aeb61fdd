//! Stepping over, of request C-18: a skip step that gives no frame uses up its period, and the call goes on.

use super::events::Event;
use super::steps::Step;
use super::{Model, Work};

/// The rules of stepping over.
pub trait StepOver {
    /// Whether a stream steps over, by its field.
    fn steps_over(&self, value: u32) -> bool {
        value != 0
    }

    /// Whether a skip step that gives no frame is passed over.
    fn passes(&self, work: &Work, _step: Step) -> bool {
        self.steps_over(work.stream.step_over)
    }

    /// Passes over a step's period: the frames used.
    fn pass(&self, work: &mut Work, step: Step) -> usize {
        work.passed += 1;
        step.period
    }

    /// The periods told of a refused call, whichever it would pass over: none.
    fn passed_refused(&self, _would_pass: &dyn Fn() -> usize) -> usize {
        0
    }
}

impl Model {
    /// A skip step that gives no frame: the frames used, or none if it ends the call.
    pub fn pass_over(&self, work: &mut Work, step: Step) -> Option<usize> {
        if !self.rules.step_over.passes(work, step) {
            return None;
        }
        work.saw(if step.s.is_infinite() { Event::PassedInfinite } else { Event::PassedOver });
        self.rules.totals.count_skip(&mut work.counted, step);
        Some(self.rules.step_over.pass(work, step))
    }
}
