//! The sum of differences that a write or a flush tells, of request C-17: that of the period found by its last search.

use super::search::Found;
use super::Work;

/// The rules of the sum told.
pub trait Sums {
    /// The sum of a search at full rate in frames x: that of the period found, whichever period is used.
    fn sum_of(&self, _x: &[i16], _channels: usize, found: Found, _used: usize) -> usize {
        found.sum
    }

    /// The sum after a search, with that of the searches before it in the same call.
    fn after_search(&self, _before: Option<usize>, sum: usize) -> usize {
        sum
    }

    /// The sum after a copying step, which does not search.
    fn after_copying(&self, sum: Option<usize>) -> Option<usize> {
        sum
    }

    /// The sum after a step that was passed over, with that from before it.
    fn after_passing(&self, _before: Option<usize>, sum: Option<usize>) -> Option<usize> {
        sum
    }

    /// The sum that an accepted call tells: 0 if it made no search.
    fn told(&self, work: &Work) -> usize {
        work.sum.unwrap_or(0)
    }

    /// The sum told of a refused call, whichever it would tell: 0.
    fn sum_refused(&self, _would_tell: &dyn Fn() -> usize) -> usize {
        0
    }
}
