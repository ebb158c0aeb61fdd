//! The rules, a trait for each part of docs/RULES.md and of requests C-12 and C-16 to C-18. Its methods are the right ones unless overridden;
//! those of one part know nothing of the other parts, and the model joins them.

use super::flush::Flush;
use super::order::Order;
use super::rate::Rate;
use super::search::Search;
use super::settings::Settings;
use super::step_over::StepOver;
use super::steps::Steps;
use super::sums::Sums;
use super::totals::Totals;
use super::volume::Volume;
use super::write::Write;

/// Makes the rules of all parts, and the right ones, from one list.
macro_rules! parts {
    ($($part:ident, $rules:ident;)*) => {
        /// The rules of every part.
        #[derive(Clone, Copy)]
        pub struct Rules {
            $(pub $part: &'static dyn $rules,)*
        }

        /// The rules of one part.
        #[derive(Clone, Copy)]
        pub enum Part {
            $($rules(&'static dyn $rules),)*
        }

        /// The right rules of any part.
        pub struct Right;
        $(impl $rules for Right {})*

        /// The right rules of every part.
        pub const RIGHT: Rules = Rules { $($part: &Right,)* };

        impl Rules {
            /// These rules with others for one part.
            pub fn with(mut self, part: Part) -> Rules {
                match part {
                    $(Part::$rules(rules) => self.$part = rules,)*
                }
                self
            }
        }
    };
}

parts! {
    order, Order;
    settings, Settings;
    write, Write;
    search, Search;
    steps, Steps;
    rate, Rate;
    volume, Volume;
    flush, Flush;
    totals, Totals;
    step_over, StepOver;
    sums, Sums;
}
