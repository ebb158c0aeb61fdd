//! The balance of request C-16: the frames of periods skipped and inserted, and refusal 12.

use super::steps::Step;
use crate::interface::{Balance, STALLED};

/// The rules of the balance.
pub trait Totals {
    /// The frames that a skip step counts; of one that gave no frame, k is 0.
    fn frames_skipped(&self, step: Step) -> usize {
        step.period
    }

    /// Counts a skip step.
    fn count_skip(&self, counted: &mut Balance, step: Step) {
        counted.skipped += self.frames_skipped(step) as u64;
    }

    /// The frames that an insert step counts.
    fn frames_inserted(&self, step: Step) -> usize {
        step.period
    }

    /// Counts an insert step.
    fn count_insert(&self, counted: &mut Balance, step: Step) {
        counted.inserted += self.frames_inserted(step) as u64;
    }

    /// A total with what a call adds to it, or refusal 12.
    fn total(&self, total: u64, added: u64) -> Result<u64, u32> {
        total.checked_add(added).ok_or(12)
    }

    /// Both totals with what a call adds to them, or refusal 12.
    fn totals(&self, before: Balance, counted: Balance) -> Result<Balance, u32> {
        let (skipped, inserted) = (self.total(before.skipped, counted.skipped)?, self.total(before.inserted, counted.inserted)?);
        Ok(Balance { skipped, inserted })
    }

    /// The totals after a call, or refusal 12. A call that stalled counts none of its steps.
    fn balance_after(&self, before: Balance, counted: Balance, outcome: u32) -> Result<Balance, u32> {
        if outcome == STALLED { Ok(before) } else { self.totals(before, counted) }
    }
}
