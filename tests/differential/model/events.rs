//! What the model counts of the inside of its calls.

use std::cell::Cell;

/// What a run may meet inside a call.
#[derive(Clone, Copy, Debug)]
pub enum Event {
    CopyingFast,
    CopyingSlow,
    CopyingAll,
    SkipWhole,
    SkipPart,
    InsertWhole,
    InsertPart,
    InsertOne,
    StalledAtOnce,
    StalledLater,
    PassedOver,
    PassedInfinite,
    PassedAlone,
    PassedAndMade,
    SecondSearch,
    TieToSmallest,
    TieToLargest,
    PreviousPeriod,
    PreviousAtHighRate,
    PreviousFarAtHighRate,
    FewPhases,
    FewPhasesShort,
    FewPhasesFull,
    ManyPhases,
    PositionsWrapped,
    LowestSample,
    Trimmed,
    TailAside,
}

/// Every event with the words for it.
pub const EVENTS: [(Event, &str); 28] = [
    (Event::CopyingFast, "copying steps, s above 1"),
    (Event::CopyingSlow, "copying steps, s below 1"),
    (Event::CopyingAll, "copying steps of all frames left"),
    (Event::SkipWhole, "skip steps, s below 2"),
    (Event::SkipPart, "skip steps, s from 2 on"),
    (Event::InsertWhole, "insert steps, s above 0.5"),
    (Event::InsertPart, "insert steps, s up to 0.5"),
    (Event::InsertOne, "insert steps of one frame"),
    (Event::StalledAtOnce, "stalls at the first step"),
    (Event::StalledLater, "stalls after frames were made"),
    (Event::PassedOver, "periods passed over"),
    (Event::PassedInfinite, "periods passed over, s infinite"),
    (Event::PassedAlone, "calls that passed over every step"),
    (Event::PassedAndMade, "calls that passed over some steps"),
    (Event::SecondSearch, "second searches"),
    (Event::TieToSmallest, "calls that ended with another period than by the largest"),
    (Event::TieToLargest, "calls that ended with another period than by the smallest"),
    (Event::PreviousPeriod, "previous periods used"),
    (Event::PreviousAtHighRate, "those from 16,000 Hz on"),
    (Event::PreviousFarAtHighRate, "previous periods from 16,000 Hz on not used for the greatest mean alone"),
    (Event::FewPhases, "conversions of 32 phases or fewer, two rounds or more"),
    (Event::FewPhasesShort, "conversions of 32 phases or fewer, less than two rounds"),
    (Event::FewPhasesFull, "outputs full in a conversion of 32 phases or fewer, two rounds or more"),
    (Event::ManyPhases, "conversions of 33 phases or more"),
    (Event::PositionsWrapped, "times both positions became 0"),
    (Event::LowestSample, "interpolated samples of -32768"),
    (Event::Trimmed, "flushes that dropped frames"),
    (Event::TailAside, "calls accepted with tail and frames above the stage"),
];

/// How often each event was met.
#[derive(Default)]
pub struct Seen([Cell<u64>; EVENTS.len()]);

impl Seen {
    /// Counts an event.
    pub fn saw(&self, event: Event) {
        let count = &self.0[event as usize];
        count.set(count.get() + 1);
    }

    /// How often an event was met.
    pub fn met(&self, event: Event) -> u64 {
        self.0[event as usize].get()
    }
}
