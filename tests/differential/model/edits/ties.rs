//! Wrong edits of the choice of ties, request C-17.

use super::Edit;
use crate::interface::{Areas, Opened, Setting, Stream, Wrote};
use crate::model::flush::Flush;
use crate::model::order::Order;
use crate::model::rules::{Part, Right};
use crate::model::search::{Found, Mean, Search};
use crate::model::settings::Settings;
use crate::model::write::Write;
use crate::model::Work;

/// A stream with a setting changed, and the choice reset if so.
fn reset_if(resets: bool, stream: Stream, setting: Setting) -> Stream {
    let changed = Right.changed(stream, setting);
    if resets { Stream { ties: 0, ..changed } } else { changed }
}

edits! {
    "Ties";
    AlwaysSmallest, "the smallest where the largest is asked for", Search {
        fn asks_for_largest(&self, _: u32) -> bool { false }
    }
    AlwaysLargest, "the largest where the smallest is asked for", Search {
        fn asks_for_largest(&self, _: u32) -> bool { true }
    }
    OneAloneIsLargest, "the value 7 asks for the smallest", Search {
        fn asks_for_largest(&self, ties: u32) -> bool { ties == 1 }
    }
    LowBitAsks, "the lowest bit of the value asks", Search {
        fn asks_for_largest(&self, ties: u32) -> bool { ties & 1 == 1 }
    }
    FirstSearchSmallest, "the first search of two finds the smallest", Search {
        fn first_search(&self, averages: &[i16], (low, high): (usize, usize), _: bool) -> Found { self.search(averages, low, high, false) }
    }
    SecondSearchSmallest, "the second search of two finds the smallest", Search {
        fn second_search(&self, x: &[i16], rate: u32, first: Found, _: bool) -> Found { Right.second_search(x, rate, first, false) }
    }
    LargestByWholeMeans, "the largest of those with the same whole mean", Search {
        fn better(&self, mean: Mean, least: Mean, largest: bool) -> bool {
            mean.below(least) || (largest && mean.whole() == least.whole())
        }
    }
    SmallestByWholeMeans, "the smallest of those with the same whole mean", Search {
        fn better(&self, mean: Mean, least: Mean, largest: bool) -> bool {
            if largest { Right.better(mean, least, largest) } else { mean.whole() < least.whole() }
        }
    }
    LargestOfSilenceAlone, "the largest only where the sum is 0", Search {
        fn better(&self, mean: Mean, least: Mean, largest: bool) -> bool { Right.better(mean, least, largest && mean.sum == 0) }
    }
    LargestButForSilence, "the smallest where the sum is 0", Search {
        fn better(&self, mean: Mean, least: Mean, largest: bool) -> bool { Right.better(mean, least, largest && mean.sum > 0) }
    }
    LargestLeavesOutLast, "the largest leaves out the longest period", Search {
        fn search(&self, x: &[i16], low: usize, high: usize, largest: bool) -> Found {
            Right.search(x, low, if largest && high > low { high - 1 } else { high }, largest)
        }
    }
    LargestChangesGreatest, "the largest takes the least mean for the greatest, too", Search {
        fn search(&self, x: &[i16], low: usize, high: usize, largest: bool) -> Found {
            let found = Right.search(x, low, high, largest);
            if largest { Found { greatest: found.least, ..found } } else { found }
        }
    }
    LargestKeepsPrevious, "with the largest the previous period at 2·least = 3·previous", Search {
        fn previous_better(&self, stream: &Stream, found: Found) -> bool {
            let equal = 2 * found.least.whole() == 3 * stream.prev_min_diff && stream.ties != 0;
            let before = Stream { prev_min_diff: stream.prev_min_diff.saturating_sub(usize::from(equal)), ..*stream };
            Right.previous_better(&before, found)
        }
    }
    LargestWithoutPrevious, "with the largest no previous period", Search {
        fn previous_better(&self, stream: &Stream, found: Found) -> bool { stream.ties == 0 && Right.previous_better(stream, found) }
    }
    LargestRecordsUsed, "with the largest the record takes the period used", Search {
        fn record(&self, stream: &mut Stream, found: Found, used: usize) {
            let period = if stream.ties == 0 { found.period } else { used };
            Right.record(stream, Found { period, ..found }, used);
        }
    }
    OpeningAsItCame, "an opening writes the number as it came", Settings {
        fn fresh_ties(&self, ties: u32) -> u32 { ties }
    }
    OpeningByLowBit, "an opening takes the lowest bit", Settings {
        fn fresh_ties(&self, ties: u32) -> u32 { ties & 1 }
    }
    OpeningReversed, "an opening takes 0 for the largest", Settings {
        fn fresh_ties(&self, ties: u32) -> u32 { u32::from(ties == 0) }
    }
    OpeningForgets, "an opening forgets the choice", Settings {
        fn fresh_ties(&self, _: u32) -> u32 { 0 }
    }
    RefusedOpeningKeeps, "a refused opening's stream has the choice", Settings {
        fn opening(&self, rate: u32, channels: u32, ties: u32) -> Opened {
            let opened = Right.opening(rate, channels, ties);
            Opened { stream: Stream { ties: self.fresh_ties(ties), ..opened.stream }, ..opened }
        }
    }
    TiesOutOfOrder, "3 refuses the value 7", Order {
        fn in_order(&self, stream: &Stream, rates: (usize, usize)) -> bool { Right.in_order(stream, rates) && stream.ties < 2 }
    }
    SpeedResetsTies, "a speed resets the choice", Settings {
        fn changed(&self, stream: Stream, setting: Setting) -> Stream { reset_if(matches!(setting, Setting::Speed(_)), stream, setting) }
    }
    PitchResetsTies, "a pitch resets the choice", Settings {
        fn changed(&self, stream: Stream, setting: Setting) -> Stream { reset_if(matches!(setting, Setting::Pitch(_)), stream, setting) }
    }
    VolumeResetsTies, "a volume resets the choice", Settings {
        fn changed(&self, stream: Stream, setting: Setting) -> Stream { reset_if(matches!(setting, Setting::Volume(_)), stream, setting) }
    }
    StepOverResetsTies, "stepping over resets the choice", Settings {
        fn changed(&self, stream: Stream, setting: Setting) -> Stream { reset_if(matches!(setting, Setting::StepOver(_)), stream, setting) }
    }
    SettingNormalizesTies, "a setting hands the value 7 back as 1", Settings {
        fn changed(&self, stream: Stream, setting: Setting) -> Stream { Right.changed(Stream { ties: stream.ties.min(1), ..stream }, setting) }
    }
    FlushResetsTies, "a flush resets the choice", Flush {
        fn clear(&self, work: &mut Work) {
            Right.clear(work);
            work.stream.ties = 0;
        }
    }
    ReadResetsTies, "a read resets the choice", Flush {
        fn stream_read(&self, stream: Stream, frames: usize) -> Stream { Stream { ties: 0, ..Right.stream_read(stream, frames) } }
    }
    WorkNormalizesTies, "a write or flush hands the value 7 back as 1", Write {
        fn commit(&self, work: Work, areas: Areas<'_>) -> Wrote {
            let mut wrote = Right.commit(work, areas);
            wrote.stream.ties = wrote.stream.ties.min(1);
            wrote
        }
    }
    RefusalNormalizesTies, "a refused write or flush hands the value 7 back as 1", Order {
        fn refused(&self, refusal: u32, stream: Stream, areas: Areas<'_>) -> Wrote {
            Right.refused(refusal, Stream { ties: stream.ties.min(1), ..stream }, areas)
        }
    }
}
