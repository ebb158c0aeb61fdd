//! The module of docs/RULES.md in plain Rust, written from that text and requests C-12 and C-16 to C-18 alone. It says which calls are refused
//! and how the accepted ones go. The rules are traits, whose methods can be overridden: a model with one of them wrong (edits/) has to be
//! found out by the comparison.

pub mod calls;
pub mod edits;
pub mod events;
pub mod flush;
pub mod order;
pub mod rate;
pub mod rules;
pub mod search;
pub mod settings;
pub mod step_over;
pub mod steps;
pub mod sums;
pub mod totals;
pub mod volume;
pub mod write;

use std::rc::Rc;

use crate::interface::{Balance, Stream, EMPTY};
use events::{Event, Seen};
use rules::Rules;

/// The model: its rules, and what it met.
pub struct Model {
    pub rules: Rules,
    seen: Rc<Seen>,
}

impl Model {
    /// A model of these rules.
    pub fn new(rules: Rules) -> Model {
        Model { rules, seen: Rc::default() }
    }

    /// How often an event was met.
    pub fn met(&self, event: Event) -> u64 {
        self.seen.met(event)
    }
}

/// Frames that the stage and the output can take.
#[derive(Clone, Copy)]
pub struct Room {
    pub stage: usize,
    pub output: usize,
}

/// A call under way.
pub struct Work {
    /// The stream as it came, and as the call has it by now.
    pub entering: Stream,
    pub stream: Stream,
    /// The samples held with those added, and the frames that were added.
    pub input: Vec<i16>,
    pub added: usize,
    /// The frames before the next step's.
    pub position: usize,
    /// The samples that were copied or stretched and have not gone on, and the frames that they were.
    pub stretched: Vec<i16>,
    pub staged: usize,
    pub tail: Vec<i16>,
    /// The samples that go out.
    pub made: Vec<i16>,
    /// The frames of periods that the steps have skipped and inserted, and the periods passed over.
    pub counted: Balance,
    pub passed: usize,
    /// The sum of the last search, if there was one, and whether the choice of ties decided its period.
    pub sum: Option<usize>,
    pub decided: bool,
    pub outcome: u32,
    seen: Rc<Seen>,
}

impl Work {
    /// The channels.
    pub fn channels(&self) -> usize {
        self.stream.channels as usize
    }

    /// The frames in the input.
    pub fn held(&self) -> usize {
        self.input.len() / self.channels()
    }

    /// The frames that were copied or stretched and have not gone on.
    pub fn frames(&self) -> usize {
        self.stretched.len() / self.channels()
    }

    /// Takes frames from the front of the input.
    pub fn remove(&mut self, frames: usize) {
        let samples = frames * self.channels();
        self.input.drain(..samples);
    }

    /// Counts an event.
    fn saw(&self, event: Event) {
        self.seen.saw(event);
    }
}

impl Model {
    /// A call that starts with a stream, the samples of its held frames, those added with the play time that they make, and the tail.
    fn work(&self, stream: Stream, held: &[i16], added: &write::Added, tail: &[i16]) -> Work {
        Work {
            entering: stream,
            stream: Stream { input_play_time: added.play_time, ..stream },
            input: [held, &added.samples].concat(),
            added: added.samples.len() / stream.channels as usize,
            position: 0,
            stretched: Vec::new(),
            staged: 0,
            tail: tail.to_vec(),
            made: Vec::new(),
            counted: Balance::default(),
            passed: 0,
            sum: None,
            decided: false,
            outcome: EMPTY,
            seen: Rc::clone(&self.seen),
        }
    }
}
