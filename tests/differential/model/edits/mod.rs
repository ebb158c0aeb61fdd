//! The wrong edits, numbered from 1: each overrides one rule. They are in the order of the parts of docs/RULES.md; "Contracts" are the
//! wrong programs of its "How firm each contract is", "Balance" is request C-16, "Stepping over" C-18, "Moving the rest down" C-13, "The tail
//! at pitch 1" C-12, "Ties" and "The sum" C-17.

/// Makes the edits of a part and the table of them. Each has a name, its words, the rules that it overrides, and its method.
macro_rules! edits {
    ($part:literal; $($name:ident, $words:literal, $rules:ident { $($method:tt)* })*) => {
        $(
            struct $name;
            impl $rules for $name {
                $($method)*
            }
        )*
        /// The edits of this part.
        pub const EDITS: &[Edit] = &[$(Edit { part: $part, words: $words, wrong: Part::$rules(&$name) },)*];
    };
}

mod balance;
mod contracts;
mod flush;
mod order;
mod rate;
mod removal;
mod search;
mod settings;
mod step_over;
mod steps;
mod sums;
mod tail;
mod ties;
mod volume;
mod write;

use super::rules::{Part, Rules, RIGHT};

/// A wrong edit: the part of the rules that it breaks, its words, and the wrong rules.
#[derive(Clone, Copy)]
pub struct Edit {
    pub part: &'static str,
    pub words: &'static str,
    wrong: Part,
}

/// Every wrong edit, from number 1 on.
pub fn edits() -> Vec<Edit> {
    let rules = [order::EDITS, settings::EDITS, write::EDITS, search::EDITS, steps::EDITS, rate::EDITS, volume::EDITS, flush::EDITS];
    let requests = [contracts::EDITS, balance::EDITS, step_over::EDITS, removal::EDITS, tail::EDITS, ties::EDITS, sums::EDITS];
    [rules.concat(), requests.concat()].concat()
}

/// The rules with the wrong edit of a number; 0 is none.
pub fn rules(number: usize) -> Rules {
    if number == 0 { RIGHT } else { RIGHT.with(edits()[number - 1].wrong) }
}
