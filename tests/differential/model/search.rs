//! The pitch period search: docs/RULES.md, "Period search".

use std::borrow::Cow;

use super::events::Event;
use super::settings::{max_period, max_required, min_period};
use super::{Model, Work};
use crate::interface::Stream;

/// Samples per second that the first search is held to.
pub const COARSE_RATE: usize = 4_000;

/// From this rate on the previous periods used, and those not used, are counted apart.
const HIGH_RATE: u32 = 16_000;

/// What a search gives: the period and its sum of differences, the least and the greatest mean difference, and whether it met the least mean
/// twice.
#[derive(Clone, Copy)]
pub struct Found {
    pub period: usize,
    pub sum: usize,
    pub least: Mean,
    pub greatest: Mean,
    pub tied: bool,
}

/// A sum of differences over the period that it was taken for.
#[derive(Clone, Copy)]
pub struct Mean {
    pub sum: u64,
    pub period: u64,
}

impl Mean {
    /// The whole part.
    pub fn whole(self) -> usize {
        (self.sum / self.period) as usize
    }

    /// Whether this mean is below the other.
    pub fn below(self, other: Mean) -> bool {
        self.sum * other.period < other.sum * self.period
    }

    /// Whether both are equal, as fractions.
    pub fn equals(self, other: Mean) -> bool {
        self.sum * other.period == other.sum * self.period
    }
}

/// D(q): the sum of |x[i] − x[i+q]| over i < q, at most 7,692·65,535.
pub fn difference(x: &[i16], q: usize) -> Mean {
    let (first, second) = x[..2 * q].split_at(q);
    let sum = first.iter().zip(second).fold(0u32, |sum, (&a, &b)| sum.wrapping_add(u32::from(a.abs_diff(b))));
    Mean { sum: u64::from(sum), period: q as u64 }
}

/// The rules of the period search.
pub trait Search {
    /// Whether a stream's value of ties asks for the largest of several best periods.
    fn asks_for_largest(&self, ties: u32) -> bool {
        ties != 0
    }

    /// The smallest or the largest period with the least mean difference, and the least and the greatest mean.
    fn search(&self, x: &[i16], low: usize, high: usize, largest: bool) -> Found {
        let first = difference(x, low);
        let mut found = Found { period: low, sum: first.sum as usize, least: first, greatest: first, tied: false };
        for q in low + 1..=high {
            let mean = difference(x, q);
            found.tied |= mean.equals(found.least);
            if self.better(mean, found.least, largest) {
                found = Found { period: q, sum: mean.sum as usize, least: mean, ..found };
            }
            if found.greatest.below(mean) {
                found.greatest = mean;
            }
        }
        found
    }

    /// Whether a later period's mean is better than the least one, or as good where the largest period is asked for.
    fn better(&self, mean: Mean, least: Mean, largest: bool) -> bool {
        mean.below(least) || (largest && mean.equals(least))
    }

    /// Samples per value of the first search.
    fn skip(&self, rate: u32) -> usize {
        if rate as usize > COARSE_RATE { rate as usize / COARSE_RATE } else { 1 }
    }

    /// The average of some samples, cut toward zero.
    fn average(&self, samples: &[i16]) -> i16 {
        (samples.iter().map(|&sample| i32::from(sample)).sum::<i32>() / samples.len() as i32) as i16
    }

    /// Averages of so many samples each.
    fn averages(&self, x: &[i16], per: usize, count: usize) -> Vec<i16> {
        x.chunks(per).take(count).map(|samples| self.average(samples)).collect()
    }

    /// One value per frame: the average of the channels.
    fn mixed<'a>(&self, x: &'a [i16], channels: usize, count: usize) -> Cow<'a, [i16]> {
        if channels == 1 { x.into() } else { self.averages(x, channels, count).into() }
    }

    /// The search of one step, in the frames from its position on.
    fn found(&self, x: &[i16], rate: u32, channels: usize, largest: bool) -> Found {
        let (low, high, required, skip) = (min_period(rate), max_period(rate), max_required(rate), self.skip(rate));
        let mixed = self.mixed(x, channels, required);
        if skip == 1 {
            return self.search(&mixed, low, high, largest);
        }
        let averages = self.averages(x, channels * skip, required / skip);
        let first = self.first_search(&averages, (low / skip, high / skip), largest);
        let second = self.second_search(&mixed, rate, first, largest);
        Found { tied: first.tied || second.tied, ..second }
    }

    /// The first search of two, of averages.
    fn first_search(&self, averages: &[i16], (low, high): (usize, usize), largest: bool) -> Found {
        self.search(averages, low, high, largest)
    }

    /// The second search, at full rate: its period and its means.
    fn second_search(&self, x: &[i16], rate: u32, first: Found, largest: bool) -> Found {
        let (low, high) = self.second_range(rate, first.period * self.skip(rate));
        self.search(x, low, high, largest)
    }

    /// The periods of the second search: within 4·skip of the first one's, inside the range.
    fn second_range(&self, rate: u32, middle: usize) -> (usize, usize) {
        let around = 4 * self.skip(rate);
        (min_period(rate).max(middle.saturating_sub(around)), max_period(rate).min(middle + around))
    }

    /// Whether the previous period is used in place of the one found.
    fn previous_better(&self, stream: &Stream, found: Found) -> bool {
        let (least, greatest) = (found.least.whole(), found.greatest.whole());
        stream.prev_period != 0 && least != 0 && self.means_close(least, greatest) && self.mean_worse(least, stream.prev_min_diff)
    }

    /// Whether the greatest mean is not far from the least.
    fn means_close(&self, least: usize, greatest: usize) -> bool {
        greatest <= 3 * least
    }

    /// Whether the least mean is worse than the previous one.
    fn mean_worse(&self, least: usize, previous: usize) -> bool {
        2 * least > 3 * previous
    }

    /// The record takes the period found, whichever is used, and its mean.
    fn record(&self, stream: &mut Stream, found: Found, _used: usize) {
        stream.prev_period = found.period;
        stream.prev_min_diff = found.least.whole();
    }
}

impl Model {
    /// Counts a previous period that is used, and one that is not since the greatest mean is too far from the least.
    fn count_previous(&self, work: &Work, found: Found, used: bool) {
        let rules = self.rules.search;
        let close = Found { greatest: found.least, ..found };
        if used {
            work.saw(Event::PreviousPeriod);
        }
        if work.stream.rate >= HIGH_RATE && rules.previous_better(&work.stream, close) {
            work.saw(if used { Event::PreviousAtHighRate } else { Event::PreviousFarAtHighRate });
        }
    }

    /// The period that the next step uses.
    pub fn period(&self, work: &mut Work) -> usize {
        let (rules, channels, rate) = (self.rules.search, work.channels(), work.stream.rate);
        let largest = rules.asks_for_largest(work.stream.ties);
        let x = &work.input[work.position * channels..];
        let found = rules.found(x, rate, channels, largest);
        let decided = found.tied && rules.found(x, rate, channels, !largest).period != found.period;
        if rules.skip(rate) > 1 {
            work.saw(Event::SecondSearch);
        }
        let previous = rules.previous_better(&work.stream, found);
        self.count_previous(work, found, previous);
        let used = if previous { work.stream.prev_period } else { found.period };
        let sum = self.rules.sums.sum_of(x, channels, found, used);
        work.sum = Some(self.rules.sums.after_search(work.sum, sum));
        work.decided = decided;
        rules.record(&mut work.stream, found, used);
        used
    }
}
