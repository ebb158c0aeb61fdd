//! Wrong edits of the sum told, request C-17.

use std::sync::atomic::{AtomicUsize, Ordering};

use super::Edit;
use crate::interface::{COPIED, STALLED, WAITING};
use crate::model::flush::Flush;
use crate::model::rules::{Part, Right};
use crate::model::search::{difference, Found, Search};
use crate::model::sums::Sums;
use crate::model::Work;

/// What the last call told.
static LAST: AtomicUsize = AtomicUsize::new(0);

edits! {
    "The sum";
    SumIsMean, "the whole mean in place of the sum", Sums {
        fn sum_of(&self, _: &[i16], _: usize, found: Found, _: usize) -> usize { found.least.whole() }
    }
    SumOfWholeMean, "the sum is the period times the whole mean", Sums {
        fn sum_of(&self, _: &[i16], _: usize, found: Found, _: usize) -> usize { found.period * found.least.whole() }
    }
    SumOfGreatest, "the sum of the greatest mean", Sums {
        fn sum_of(&self, _: &[i16], _: usize, found: Found, _: usize) -> usize { found.greatest.sum as usize }
    }
    SumOfPeriodUsed, "the sum of the period used", Sums {
        fn sum_of(&self, x: &[i16], channels: usize, _: Found, used: usize) -> usize {
            difference(&Right.mixed(x, channels, 2 * used), used).sum as usize
        }
    }
    SumOfFirstChannel, "the sum of the first channel", Sums {
        fn sum_of(&self, x: &[i16], channels: usize, found: Found, _: usize) -> usize {
            let first: Vec<i16> = x.iter().step_by(channels).take(2 * found.period).copied().collect();
            difference(&first, found.period).sum as usize
        }
    }
    SumOfAllChannels, "the sum over all channels", Sums {
        fn sum_of(&self, _: &[i16], channels: usize, found: Found, _: usize) -> usize { channels * found.sum }
    }
    SumOfSixteenBits, "the sum cut to 16 bits", Sums {
        fn sum_of(&self, _: &[i16], _: usize, found: Found, _: usize) -> usize { found.sum % 65_536 }
    }
    SumOfFirstSearch, "the sum of the first search of two", Search {
        fn second_search(&self, x: &[i16], rate: u32, first: Found, largest: bool) -> Found {
            Found { sum: first.sum, ..Right.second_search(x, rate, first, largest) }
        }
    }
    SumOfFirstStep, "the sum of the first search of a call", Sums {
        fn after_search(&self, before: Option<usize>, sum: usize) -> usize { before.unwrap_or(sum) }
    }
    SumsAdded, "the sums of all searches of a call added up", Sums {
        fn after_search(&self, before: Option<usize>, sum: usize) -> usize { before.unwrap_or(0) + sum }
    }
    LargestSum, "the largest sum of the searches of a call", Sums {
        fn after_search(&self, before: Option<usize>, sum: usize) -> usize { before.unwrap_or(0).max(sum) }
    }
    CopyingResetsSum, "a copying step resets the sum", Sums {
        fn after_copying(&self, _: Option<usize>) -> Option<usize> { None }
    }
    PassingLeavesSum, "the search of a step passed over does not count", Sums {
        fn after_passing(&self, before: Option<usize>, _: Option<usize>) -> Option<usize> { before }
    }
    StallTellsNoSum, "a stalled call tells 0", Sums {
        fn told(&self, work: &Work) -> usize { if work.outcome == STALLED { 0 } else { Right.told(work) } }
    }
    FlushTellsNoSum, "a flush tells 0", Flush {
        fn clear(&self, work: &mut Work) {
            Right.clear(work);
            work.sum = None;
        }
    }
    SumOfCallBefore, "a call without a search tells the sum of the call before", Sums {
        fn told(&self, work: &Work) -> usize {
            LAST.store(work.sum.unwrap_or_else(|| LAST.load(Ordering::Relaxed)), Ordering::Relaxed);
            LAST.load(Ordering::Relaxed)
        }
    }
    WaitingTellsRecord, "a waiting call tells the sum of the record", Sums {
        fn told(&self, work: &Work) -> usize {
            if work.outcome == WAITING { work.stream.prev_period * work.stream.prev_min_diff } else { Right.told(work) }
        }
    }
    CopyTellsRecord, "a copied call tells the sum of the record", Sums {
        fn told(&self, work: &Work) -> usize {
            if work.outcome == COPIED { work.stream.prev_period * work.stream.prev_min_diff } else { Right.told(work) }
        }
    }
    NoSearchTellsOne, "a call of copying steps alone tells 1", Sums {
        fn told(&self, work: &Work) -> usize { work.sum.unwrap_or(usize::from(work.position > 0)) }
    }
    RefusedTellsSum, "a refused call tells the sum that it would", Sums {
        fn sum_refused(&self, would_tell: &dyn Fn() -> usize) -> usize { would_tell() }
    }
}
