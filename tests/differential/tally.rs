//! Counts of what the runs met.

use crate::interface::{COPIED, EMPTY, STALLED, STRETCHED, WAITING};
use crate::model::events::{Event, EVENTS};
use crate::model::Model;
use crate::run::Call;
use crate::session::Answer;

/// The names of the calls.
const CALLS: [&str; 6] = ["open", "set", "available", "write", "read", "flush"];
/// The names of the outcomes.
const OUTCOMES: [&str; 5] = ["empty", "copied", "waiting", "stretched", "stalled"];
/// Outcomes that a flush can have.
const OF_FLUSH: [u32; 3] = [COPIED, STRETCHED, STALLED];
/// Outcomes that a write can have.
const OF_WRITE: [u32; 5] = [EMPTY, COPIED, WAITING, STRETCHED, STALLED];
/// The refusals that each call can meet.
const REFUSALS: [&[u32]; 6] = [&[1, 2], &[3], &[3], &[3, 4, 5, 6, 7, 12], &[3, 4], &[3, 4, 5, 6, 7, 12]];

/// Fewer calls than this that a choice of ties decides are too few.
const TIES: u64 = 1_000;
/// Fewer searches than this, at rates from 16,000 Hz on, in which the greatest mean decides on the previous period are too few, either way.
const PREVIOUS: u64 = 100;

/// How often an event has to be met.
fn least(event: Event) -> u64 {
    match event {
        Event::TieToSmallest | Event::TieToLargest => TIES,
        Event::PreviousAtHighRate | Event::PreviousFarAtHighRate => PREVIOUS,
        _ => 1,
    }
}

/// The counts.
#[derive(Clone, Default)]
pub struct Tally {
    pub runs: u64,
    pub calls: u64,
    pub frames: u64,
    passed: [u64; 6],
    refusals: [[u64; 13]; 6],
    outcomes: [[u64; 5]; 6],
}

impl Tally {
    /// Counts a call and its answer.
    pub fn count(&mut self, call: &Call, answer: Option<&Answer>) {
        let kind = match call {
            Call::Open { .. } => 0,
            Call::Made { .. } => return,
            Call::Set(_) => 1,
            Call::Available => 2,
            Call::Write { .. } => 3,
            Call::Read { .. } => 4,
            Call::Flush { .. } => 5,
        };
        self.calls += 1;
        let Some(answer) = answer else { return };
        self.refusals[kind][answer.refusal as usize] += 1;
        if answer.refusal == 0 && (kind == 3 || kind == 5) {
            self.outcomes[kind][answer.outcome as usize] += 1;
            self.frames += answer.frames as u64;
            self.passed[kind] += answer.passed as u64;
        }
    }

    /// What could be met and was not.
    pub fn missing(&self, judge: &Model) -> Vec<String> {
        let mut all = Vec::new();
        for (kind, name) in CALLS.iter().enumerate() {
            let unmet = [0].iter().chain(REFUSALS[kind]).filter(|&&number| self.refusals[kind][number as usize] == 0);
            all.extend(unmet.map(|number| format!("{name} with refusal {number}")));
        }
        for (kind, possible) in [(3, &OF_WRITE[..]), (5, &OF_FLUSH[..])] {
            let unmet = possible.iter().filter(|&&outcome| self.outcomes[kind][outcome as usize] == 0);
            all.extend(unmet.map(|&outcome| format!("{} answering {}", CALLS[kind], OUTCOMES[outcome as usize])));
            all.extend((self.passed[kind] == 0).then(|| format!("{} passing over", CALLS[kind])));
        }
        let few = EVENTS.iter().filter(|(event, _)| judge.met(*event) < least(*event));
        all.extend(few.map(|(event, words)| format!("{words}, {} times", least(*event))));
        all
    }

    /// Prints the counts.
    pub fn print(&self, judge: &Model) {
        println!("  {} runs, {} calls compared, {} frames made", self.runs, self.calls, self.frames);
        for (kind, name) in CALLS.iter().enumerate() {
            let refusals: Vec<String> = REFUSALS[kind].iter().map(|&n| format!("{n}: {}", self.refusals[kind][n as usize])).collect();
            print!("  {name}: accepted {}; refused {}", self.refusals[kind][0], refusals.join(", "));
            if kind == 3 || kind == 5 {
                let outcomes = OUTCOMES.iter().zip(self.outcomes[kind]).filter(|(_, count)| *count > 0);
                print!("; {}", outcomes.map(|(name, count)| format!("{name} {count}")).collect::<Vec<_>>().join(", "));
                print!("; periods passed over {}", self.passed[kind]);
            }
            println!();
        }
        let events: Vec<String> = EVENTS.iter().map(|(event, words)| format!("{words} {}", judge.met(*event))).collect();
        println!("  {}", events.join(", "));
    }
}
