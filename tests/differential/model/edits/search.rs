//! Wrong edits of docs/RULES.md, "Period search".

use std::borrow::Cow;

use super::Edit;
use crate::interface::Stream;
use crate::model::rules::{Part, Right};
use crate::model::search::{difference, Found, Mean, Search, COARSE_RATE};
use crate::model::settings::{max_period, min_period};

/// Differences that are added up before a sum is compared with the least one.
const BLOCK: usize = 16;
/// Frames of a long period.
const LONG: usize = 256;

/// The mean of a period as far as its differences are added up: behind each block the sum may be ended.
fn ended(x: &[i16], q: usize, ends: impl Fn(u64) -> bool) -> Mean {
    let differences: Vec<u64> = x[..q].iter().zip(&x[q..]).map(|(a, b)| u64::from(a.abs_diff(*b))).collect();
    let mut sum = 0;
    for block in differences.chunks(BLOCK) {
        sum += block.iter().sum::<u64>();
        if ends(sum) {
            break;
        }
    }
    Mean { sum, period: q as u64 }
}

/// A mean with its fraction.
fn exact(mean: Mean) -> f64 {
    mean.sum as f64 / mean.period as f64
}

edits! {
    "Period search";
    SilenceHasLongestPeriod, "silence has the longest period", Search {
        fn search(&self, x: &[i16], low: usize, high: usize, largest: bool) -> Found {
            let found = Right.search(x, low, high, largest);
            if found.greatest.sum == 0 { Found { period: high, ..found } } else { found }
        }
    }
    MeansOfFirstSearch, "the means of the first search", Search {
        fn second_search(&self, x: &[i16], rate: u32, first: Found, largest: bool) -> Found {
            Found { period: Right.second_search(x, rate, first, largest).period, ..first }
        }
    }
    MeansComparedExactly, "means compared with their fractions", Search {
        fn previous_better(&self, stream: &Stream, found: Found) -> bool {
            let (least, greatest, previous) = (exact(found.least), exact(found.greatest), stream.prev_min_diff as f64);
            stream.prev_period != 0 && found.least.whole() != 0 && greatest <= 3.0 * least && 2.0 * least > 3.0 * previous
        }
    }
    RecordWithoutSilence, "no record of a search with least 0", Search {
        fn record(&self, stream: &mut Stream, found: Found, used: usize) {
            if found.least.whole() != 0 {
                Right.record(stream, found, used);
            }
        }
    }
    SkipAboveEightThousand, "skip 1 up to 8,000 Hz", Search {
        fn skip(&self, rate: u32) -> usize { if rate as usize > 2 * COARSE_RATE { Right.skip(rate) } else { 1 } }
    }
    TieToLaterPeriod, "a tie goes to the later period by either choice", Search {
        fn better(&self, mean: Mean, least: Mean, _: bool) -> bool { !least.below(mean) }
    }
    MeanRoundedDown, "the mean of negatives rounded down", Search {
        fn average(&self, samples: &[i16]) -> i16 {
            samples.iter().map(|&sample| i32::from(sample)).sum::<i32>().div_euclid(samples.len() as i32) as i16
        }
    }
    RecordTakesPeriodUsed, "the record takes the period used", Search {
        fn record(&self, stream: &mut Stream, found: Found, used: usize) { Right.record(stream, Found { period: used, ..found }, used); }
    }
    PreviousAtEqualMeans, "previous period at 2·least = 3·previous", Search {
        fn mean_worse(&self, least: usize, previous: usize) -> bool { 2 * least >= 3 * previous }
    }
    PreviousBelowThrice, "previous period only below 3·least", Search {
        fn means_close(&self, least: usize, greatest: usize) -> bool { greatest < 3 * least }
    }
    SecondSearchNarrow, "the second search within 4", Search {
        fn second_range(&self, rate: u32, middle: usize) -> (usize, usize) {
            (min_period(rate).max(middle.saturating_sub(4)), max_period(rate).min(middle + 4))
        }
    }
    SecondSearchBelowShortest, "the second search below min_period", Search {
        fn second_range(&self, rate: u32, middle: usize) -> (usize, usize) {
            (middle.saturating_sub(4 * self.skip(rate)).max(1), Right.second_range(rate, middle).1)
        }
    }
    FirstChannelSearched, "the first channel searched alone", Search {
        fn mixed<'a>(&self, x: &'a [i16], channels: usize, count: usize) -> Cow<'a, [i16]> {
            x.iter().step_by(channels).take(count).copied().collect()
        }
    }
    LongestPeriodLeftOut, "the longest period left out", Search {
        fn search(&self, x: &[i16], low: usize, high: usize, largest: bool) -> Found {
            Right.search(x, low, if high > low { high - 1 } else { high }, largest)
        }
    }
    PreviousNever, "the greatest mean never asked for: no previous period", Search {
        fn means_close(&self, _: usize, _: usize) -> bool { false }
    }
    PreviousUnasked, "the previous period without asking for the greatest mean", Search {
        fn means_close(&self, _: usize, _: usize) -> bool { true }
    }
    GreatestOfFirstSearch, "the greatest mean of the first search", Search {
        fn second_search(&self, x: &[i16], rate: u32, first: Found, largest: bool) -> Found {
            Found { greatest: first.greatest, ..Right.second_search(x, rate, first, largest) }
        }
    }
    GreatestOfEndedSums, "the greatest mean of sums that end once they cannot win", Search {
        fn search(&self, x: &[i16], low: usize, high: usize, largest: bool) -> Found {
            let found = Right.search(x, low, high, largest);
            let (least, best) = (found.least.sum, found.least.period);
            let means = (low..=high).map(|q| ended(x, q, |sum| sum * best > least * q as u64));
            let greatest = means.reduce(|greatest, mean| if greatest.below(mean) { mean } else { greatest });
            Found { greatest: greatest.unwrap_or(found.greatest), ..found }
        }
    }
    EndedSumsWin, "a sum that ends once it cannot win counts as it is", Search {
        fn search(&self, x: &[i16], low: usize, high: usize, largest: bool) -> Found {
            let mut found = Right.search(x, low, low, largest);
            for q in low + 1..=high {
                let (least, best) = (found.least.sum, found.least.period);
                let mean = ended(x, q, |sum| sum >= least);
                if self.better(mean, Mean { sum: least, period: best }, largest) {
                    found = Found { period: q, sum: mean.sum as usize, least: mean, ..found };
                }
            }
            Found { greatest: Right.search(x, low, high, largest).greatest, ..found }
        }
    }
    TieEndedEarly, "with the largest, a sum that is as high as it may be before its last block is ended", Search {
        fn search(&self, x: &[i16], low: usize, high: usize, largest: bool) -> Found {
            let found = Right.search(x, low, high, largest);
            let (least, best) = (found.least.sum, found.least.period);
            let before_last = |q: usize| ended(&x[..q + (q - 1) / BLOCK * BLOCK], q, |_| false).sum;
            let lost = |q: usize| least > 0 && before_last(q) * best >= least * q as u64;
            let tied = (low..=high).filter(|&q| difference(x, q).equals(found.least));
            let period = if largest { tied.filter(|&q| !lost(q)).last().unwrap_or(found.period) } else { found.period };
            Found { period, sum: difference(x, period).sum as usize, ..found }
        }
    }
    SecondSearchKeepsBegin, "the second search gives a tie to the period where it begins", Search {
        fn second_search(&self, x: &[i16], rate: u32, first: Found, largest: bool) -> Found {
            let (found, begin) = (Right.second_search(x, rate, first, largest), (first.period * self.skip(rate)).max(min_period(rate)));
            let tied = difference(x, begin).equals(found.least);
            if tied { Found { period: begin, sum: difference(x, begin).sum as usize, ..found } } else { found }
        }
    }
    SecondSearchLargest, "the second search of two finds the largest by either choice", Search {
        fn second_search(&self, x: &[i16], rate: u32, first: Found, _: bool) -> Found { Right.second_search(x, rate, first, true) }
    }
    SecondSearchLongTies, "the second search gives a tie of long periods to the other side", Search {
        fn second_search(&self, x: &[i16], rate: u32, first: Found, largest: bool) -> Found {
            let long = first.period * self.skip(rate) >= LONG;
            Right.second_search(x, rate, first, largest != long)
        }
    }
}
