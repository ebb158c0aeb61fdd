//! Wrong edits of the balance, request C-16.

use super::Edit;
use crate::interface::{Areas, Balance, Setting, Stream, Wrote, STALLED};
use crate::model::flush::Flush;
use crate::model::order::Order;
use crate::model::rules::{Part, Right};
use crate::model::settings::Settings;
use crate::model::steps::{Step, Steps};
use crate::model::totals::Totals;
use crate::model::write::Write;
use crate::model::{Room, Work};

edits! {
    "Balance";
    SkipCountsK, "a skip counts k", Totals {
        fn frames_skipped(&self, step: Step) -> usize { step.k }
    }
    SkipCountsUsed, "a skip counts the frames used", Totals {
        fn frames_skipped(&self, step: Step) -> usize { step.period + step.k }
    }
    InsertCountsK, "an insert counts k", Totals {
        fn frames_inserted(&self, step: Step) -> usize { step.k }
    }
    InsertCountsMade, "an insert counts the frames made", Totals {
        fn frames_inserted(&self, step: Step) -> usize { step.period + step.k }
    }
    InsertCountsAsSkip, "an insert counts as skipped", Totals {
        fn count_insert(&self, counted: &mut Balance, step: Step) { self.count_skip(counted, step); }
    }
    CopyingCounts, "a copying step counts as skipped", Steps {
        fn copy_frames(&self, work: &mut Work, s: f32, count: usize) {
            Right.copy_frames(work, s, count);
            work.counted.skipped += count as u64;
        }
    }
    CopyCounts, "a copy counts as inserted", Write {
        fn copy_all(&self, work: &mut Work) {
            work.counted.inserted += work.held() as u64;
            Right.copy_all(work);
        }
    }
    StallCounts, "a stalled call counts its steps", Totals {
        fn balance_after(&self, before: Balance, counted: Balance, _: u32) -> Result<Balance, u32> { self.totals(before, counted) }
    }
    StallRefused, "a stalled call meets 12", Totals {
        fn balance_after(&self, before: Balance, counted: Balance, outcome: u32) -> Result<Balance, u32> {
            self.totals(before, counted).map(|after| if outcome == STALLED { before } else { after })
        }
    }
    TotalWraps, "a total wraps in place of 12", Totals {
        fn total(&self, total: u64, added: u64) -> Result<u64, u32> { Ok(total.wrapping_add(added)) }
    }
    TotalSaturates, "a total stays at its end in place of 12", Totals {
        fn total(&self, total: u64, added: u64) -> Result<u64, u32> { Ok(total.saturating_add(added)) }
    }
    LastTotalRefused, "12 where a total comes to 2^64 - 1", Totals {
        fn total(&self, total: u64, added: u64) -> Result<u64, u32> {
            Right.total(total, added).and_then(|sum| if sum == u64::MAX && added > 0 { Err(12) } else { Ok(sum) })
        }
    }
    SkippedRefusedAlone, "12 does not look at the frames inserted", Totals {
        fn totals(&self, before: Balance, counted: Balance) -> Result<Balance, u32> {
            let skipped = self.total(before.skipped, counted.skipped)?;
            Ok(Balance { skipped, inserted: before.inserted.wrapping_add(counted.inserted) })
        }
    }
    TotalBeforeOutput, "12 told before 7", Order {
        fn refuse_in_turn(&self, full: bool, room: Room, process: &dyn Fn(Room) -> Result<Work, u32>) -> Result<Work, u32> {
            let wide = Room { output: usize::MAX, ..room };
            if !full && process(wide).err() == Some(12) { Err(12) } else { Right.refuse_in_turn(full, room, process) }
        }
    }
    FullTotalOverwritesTail, "refusal 12 writes over the tail", Order {
        fn refused(&self, refusal: u32, stream: Stream, areas: Areas<'_>) -> Wrote {
            if refusal == 12 && stream.tail > 0 {
                areas.stage[0] = areas.stage[0].wrapping_add(1);
            }
            Right.refused(refusal, stream, areas)
        }
    }
    FullTotalOutOfOrder, "3 refuses a total of 2^64 - 1", Order {
        fn in_order(&self, stream: &Stream, rates: (usize, usize)) -> bool {
            Right.in_order(stream, rates) && stream.balance.skipped.max(stream.balance.inserted) < u64::MAX
        }
    }
    FlushClearsBalance, "a flush clears the totals", Flush {
        fn clear(&self, work: &mut Work) {
            Right.clear(work);
            work.stream.balance = Balance::default();
        }
    }
    FlushCountsNothing, "a flush counts none of its steps", Flush {
        fn clear(&self, work: &mut Work) {
            Right.clear(work);
            work.stream.balance = work.entering.balance;
        }
    }
    TrimmedCountedOff, "a flush counts off the frames that it trims away", Flush {
        fn trim(&self, work: &mut Work, expected: usize) {
            let trimmed = (work.made.len() / work.channels()).saturating_sub(expected);
            Right.trim(work, expected);
            work.stream.balance.inserted = work.stream.balance.inserted.saturating_sub(trimmed as u64);
        }
    }
    SettingClearsBalance, "a setting clears the totals", Settings {
        fn changed(&self, stream: Stream, setting: Setting) -> Stream {
            Stream { balance: Balance::default(), ..Right.changed(stream, setting) }
        }
    }
    ReadClearsBalance, "a read clears the totals", Flush {
        fn stream_read(&self, stream: Stream, frames: usize) -> Stream {
            Stream { balance: Balance::default(), ..Right.stream_read(stream, frames) }
        }
    }
}
