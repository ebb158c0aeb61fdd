//! Wrong edits of docs/RULES.md, "Stretch steps".

use super::Edit;
use crate::interface::Stream;
use crate::model::rules::{Part, Right};
use crate::model::settings::max_period;
use crate::model::steps::{Fade, Step, Steps};
use crate::model::Work;

edits! {
    "Stretch steps";
    CopyCountInSingle, "the copying count in f32 throughout", Steps {
        fn copy_count(&self, error: f32, s: f32, period: f32, left: usize) -> usize {
            ((1.0 - (error * s) / (period * (s - 1.0))) as usize).min(left)
        }
    }
    CopyCountNotRounded, "the copying count cut from the f64", Steps {
        fn copy_count(&self, error: f32, s: f32, period: f32, left: usize) -> usize {
            ((1.0 - f64::from(error * s) / (f64::from(period) * (f64::from(s) - 1.0))) as usize).min(left)
        }
    }
    CopyErrorInSingle, "time error after a copying step in f32", Steps {
        fn error_copied(&self, stream: &Stream, s: f32, count: usize) -> f32 {
            stream.time_error + count as f32 * stream.sample_period * (s - 1.0) / s
        }
    }
    ErrorOrder, "time error plus frames made, then minus frames used", Steps {
        fn error_moved(&self, stream: &Stream, step: Step, made: usize, used: usize) -> f32 {
            (stream.time_error + made as f32 * stream.sample_period) - (used as f32 * stream.input_play_time) / step.held as f32
        }
    }
    SkipErrorAtTwo, "time error moves at s = 2", Steps {
        fn error_skipped(&self, stream: &Stream, step: Step) -> f32 {
            if step.s == 2.0 { Right.error_moved(stream, step, step.k, step.period + step.k) } else { Right.error_skipped(stream, step) }
        }
    }
    InsertErrorAtHalf, "time error moves at s = 0.5", Steps {
        fn error_inserted(&self, stream: &Stream, step: Step) -> f32 {
            if step.s == 0.5 { Right.error_moved(stream, step, step.period + step.k, step.k) } else { Right.error_inserted(stream, step) }
        }
    }
    ErrorByFramesLeft, "time error divides by the frames left", Steps {
        fn error_moved(&self, stream: &Stream, step: Step, made: usize, used: usize) -> f32 {
            Right.error_moved(stream, Step { held: step.held - step.position, ..step }, made, used)
        }
    }
    SkipCountInDouble, "skip's k in f64", Steps {
        fn skip_count(&self, s: f32, period: usize) -> usize {
            if s < 2.0 { period } else { (period as f64 / (f64::from(s) - 1.0)) as usize }
        }
    }
    InsertCountGrouped, "insert's k is period·(s/(1 − s))", Steps {
        fn insert_count(&self, s: f32, period: usize) -> usize {
            if s > 0.5 { period } else { ((period as f32 * (s / (1.0 - s))) as usize).max(1) }
        }
    }
    NegativeZeroErrorCopies, "time error -0 copies", Steps {
        fn copying_due(&self, s: f32, error: f32) -> bool {
            let zero = error == 0.0 && error.is_sign_negative();
            Right.copying_due(s, if zero { -f32::MIN_POSITIVE } else { error })
        }
    }
    NanErrorCopies, "time error NaN copies", Steps {
        fn copying_due(&self, s: f32, error: f32) -> bool {
            Right.copying_due(s, if error.is_nan() && s > 1.0 { -1.0 } else { error })
        }
    }
    InfiniteErrorIgnored, "an infinite time error does not copy", Steps {
        fn copying_due(&self, s: f32, error: f32) -> bool { !error.is_infinite() && Right.copying_due(s, error) }
    }
    StallDropsInput, "a stall removes the frames before the position", Steps {
        fn stall(&self, work: &mut Work) {
            Right.stall(work);
            work.remove(work.position);
        }
    }
    StallRestoresPlayTime, "a stall puts play time back", Steps {
        fn stall(&self, work: &mut Work) {
            Right.stall(work);
            work.stream.input_play_time = work.entering.input_play_time;
        }
    }
    StallKeepsRecord, "a stall puts the record back", Steps {
        fn stall(&self, work: &mut Work) {
            Right.stall(work);
            (work.stream.prev_period, work.stream.prev_min_diff) = (work.entering.prev_period, work.entering.prev_min_diff);
        }
    }
    StallDropsFrames, "a stall drops the frames made", Steps {
        fn stall(&self, work: &mut Work) {
            Right.stall(work);
            work.stretched.clear();
        }
    }
    StalledBeforeSearch, "stalled told without a search", Steps {
        fn skip_period(&self, s: f32, rate: u32, search: &mut dyn FnMut() -> usize) -> (usize, usize) {
            let longest = max_period(rate);
            if s > longest as f32 + 1.0 { (longest, 0) } else { Right.skip_period(s, rate, search) }
        }
    }
    InsertOfNothing, "insert with k = 0", Steps {
        fn insert_count(&self, s: f32, period: usize) -> usize {
            if s > 0.5 { period } else { (period as f32 * s / (1.0 - s)) as usize }
        }
    }
    CopyingLeavesOne, "a copying step leaves one frame", Steps {
        fn copy_count(&self, error: f32, s: f32, period: f32, left: usize) -> usize { Right.copy_count(error, s, period, left - 1) }
    }
    WaitingAtRequired, "waiting at max_required frames", Steps {
        fn waits(&self, held: usize, required: usize) -> bool { held <= required }
    }
    LastStepLeftOut, "no step with exactly max_required ahead", Steps {
        fn step_at(&self, position: usize, required: usize, held: usize) -> bool { position + required < held }
    }
    CrossfadeRoundedDown, "a crossfade rounded down", Steps {
        fn crossfade(&self, down: i32, up: i32, t: i32, k: i32) -> i16 { (down * (k - t) + up * t).div_euclid(k) as i16 }
    }
    CrossfadeOneAhead, "a crossfade one frame ahead", Steps {
        fn crossfade(&self, down: i32, up: i32, t: i32, k: i32) -> i16 { Right.crossfade(down, up, t + 1, k) }
    }
    SkipFadesBackward, "a skip fades backward", Steps {
        fn skip_frames(&self, work: &mut Work, step: Step) {
            self.fade(work, Fade { down: step.position + step.period, up: step.position, k: step.k });
        }
    }
    InsertFadesForward, "an insert fades forward", Steps {
        fn insert_frames(&self, work: &mut Work, step: Step) {
            self.copy_period(work, step);
            self.fade(work, Fade { down: step.position, up: step.position + step.period, k: step.k });
        }
    }
    InsertFadesFirst, "an insert's crossfade before the period", Steps {
        fn insert_frames(&self, work: &mut Work, step: Step) {
            self.fade(work, Fade { down: step.position + step.period, up: step.position, k: step.k });
            self.copy_period(work, step);
        }
    }
}
