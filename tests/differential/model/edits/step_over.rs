//! Wrong edits of stepping over, request C-18.

use super::Edit;
use crate::interface::{Areas, Balance, Changed, Opened, Setting, Stream, Wrote, STALLED};
use crate::model::flush::Flush;
use crate::model::order::Order;
use crate::model::rules::{Part, Right};
use crate::model::settings::Settings;
use crate::model::step_over::StepOver;
use crate::model::steps::{Step, Steps};
use crate::model::totals::Totals;
use crate::model::write::Write;
use crate::model::Work;

edits! {
    "Stepping over";
    // Every second one uses its period, so that a call comes to its end.
    PassedUsesNothing, "a period passed over uses nothing", StepOver {
        fn pass(&self, work: &mut Work, step: Step) -> usize {
            let used = Right.pass(work, step);
            if work.passed % 2 == 1 { 0 } else { used }
        }
    }
    PassedUsesOneMore, "a period passed over uses a frame more", StepOver {
        fn pass(&self, work: &mut Work, step: Step) -> usize { Right.pass(work, step) + 1 }
    }
    PassedUsesFound, "the period found passed over in place of the previous one used", StepOver {
        fn pass(&self, work: &mut Work, step: Step) -> usize { Right.pass(work, Step { period: work.stream.prev_period, ..step }) }
    }
    PassedMakesSilence, "a period passed over makes a silent frame", StepOver {
        fn pass(&self, work: &mut Work, step: Step) -> usize {
            work.stretched.resize(work.stretched.len() + work.channels(), 0);
            Right.pass(work, step)
        }
    }
    PassedMovesError, "a period passed over moves the time error", StepOver {
        fn pass(&self, work: &mut Work, step: Step) -> usize {
            work.stream.time_error = Right.error_moved(&work.stream, step, 0, step.period);
            Right.pass(work, step)
        }
    }
    PassedTellsStalled, "a call that passed over tells stalled", Write {
        fn commit(&self, work: Work, areas: Areas<'_>) -> Wrote {
            let outcome = if work.passed > 0 { STALLED } else { work.outcome };
            Right.commit(Work { outcome, ..work }, areas)
        }
    }
    PassedAloneKeepsInput, "a call without frames removes nothing", Write {
        fn leave_input(&self, work: &mut Work, frames: usize) {
            if !work.stretched.is_empty() {
                Right.leave_input(work, frames);
            }
        }
    }
    OnePassedAtMost, "a second step without a frame stalls", StepOver {
        fn passes(&self, work: &Work, step: Step) -> bool { work.passed == 0 && Right.passes(work, step) }
    }
    InfiniteSpeedStalls, "s = infinity stalls", StepOver {
        fn passes(&self, work: &Work, step: Step) -> bool { step.s.is_finite() && Right.passes(work, step) }
    }
    CallCountedForPeriods, "the call counted and not the periods", Write {
        fn commit(&self, work: Work, areas: Areas<'_>) -> Wrote { Right.commit(Work { passed: work.passed.min(1), ..work }, areas) }
    }
    FramesToldForPeriods, "frames skipped told in place of periods", Write {
        fn commit(&self, work: Work, areas: Areas<'_>) -> Wrote {
            let passed = if work.passed > 0 { work.counted.skipped as usize } else { 0 };
            Right.commit(Work { passed, ..work }, areas)
        }
    }
    FlushTellsNone, "a flush tells none of the periods passed over", Flush {
        fn clear(&self, work: &mut Work) {
            Right.clear(work);
            work.passed = 0;
        }
    }
    RefusedTellsPassed, "a refused call tells the periods that it would pass over", StepOver {
        fn passed_refused(&self, would_pass: &dyn Fn() -> usize) -> usize { would_pass() }
    }
    PassedNotCounted, "the totals do not count a period passed over", Totals {
        fn count_skip(&self, counted: &mut Balance, step: Step) {
            if step.k > 0 {
                Right.count_skip(counted, step);
            }
        }
    }
    PassedWhenOff, "passed over when off", StepOver {
        fn steps_over(&self, _: u32) -> bool { true }
    }
    TwoIsOff, "the value 2 is off", StepOver {
        fn steps_over(&self, value: u32) -> bool { value == 1 }
    }
    TwoOutOfOrder, "3 refuses the value 2", Order {
        fn in_order(&self, stream: &Stream, rates: (usize, usize)) -> bool { Right.in_order(stream, rates) && stream.step_over < 2 }
    }
    WorkNormalizes, "a write or flush hands the value 2 back as 1", Write {
        fn commit(&self, work: Work, areas: Areas<'_>) -> Wrote {
            let mut wrote = Right.commit(work, areas);
            wrote.stream.step_over = wrote.stream.step_over.min(1);
            wrote
        }
    }
    RefusalNormalizes, "a refused write or flush hands the value 2 back as 1", Order {
        fn refused(&self, refusal: u32, stream: Stream, areas: Areas<'_>) -> Wrote {
            Right.refused(refusal, Stream { step_over: stream.step_over.min(1), ..stream }, areas)
        }
    }
    SettingAsItCame, "the setting writes the number as it came", Settings {
        fn set_step_over(&self, stream: &mut Stream, on: u32) { stream.step_over = on; }
    }
    StepOverResetsPositions, "the setting puts p and n to 0", Settings {
        fn set_step_over(&self, stream: &mut Stream, on: u32) {
            Right.set_step_over(stream, on);
            (stream.old_rate_position, stream.new_rate_position) = (0, 0);
        }
    }
    StepOverClearsHeld, "the setting clears what is held", Settings {
        fn set_step_over(&self, stream: &mut Stream, on: u32) {
            Right.set_step_over(stream, on);
            stream.held = 0;
        }
    }
    StepOverRefused, "the setting refused while frames are held", Settings {
        fn change(&self, stream: Stream, in_order: bool, setting: Setting) -> Changed {
            let refused = matches!(setting, Setting::StepOver(_)) && stream.held > 0;
            Right.change(stream, in_order && !refused, setting)
        }
    }
    PitchSwitchesOff, "a pitch switches it off", Settings {
        fn set_pitch(&self, stream: &mut Stream, pitch: f32) {
            Right.set_pitch(stream, pitch);
            stream.step_over = 0;
        }
    }
    SpeedSwitchesOff, "a speed switches it off", Settings {
        fn set_speed(&self, stream: &mut Stream, speed: f32) {
            Right.set_speed(stream, speed);
            stream.step_over = 0;
        }
    }
    FlushSwitchesOff, "a flush switches it off", Flush {
        fn clear(&self, work: &mut Work) {
            Right.clear(work);
            work.stream.step_over = 0;
        }
    }
    FreshStepsOver, "a fresh stream steps over", Settings {
        fn fresh(&self, rate: u32, channels: u32, ties: u32) -> Stream { Stream { step_over: 1, ..Right.fresh(rate, channels, ties) } }
    }
    RefusedOpeningStepsOver, "a refused opening's stream steps over", Settings {
        fn opening(&self, rate: u32, channels: u32, ties: u32) -> Opened {
            let opened = Right.opening(rate, channels, ties);
            if opened.refusal == 0 { opened } else { Opened { stream: Stream { step_over: 1, ..opened.stream }, ..opened } }
        }
    }
}
