//! Wrong edits of docs/RULES.md, "Read and flush".

use super::Edit;
use crate::interface::{Stream, STALLED};
use crate::model::flush::Flush;
use crate::model::rules::{Part, Right};
use crate::model::settings::max_required;
use crate::model::Work;

edits! {
    "Read and flush";
    ExpectedInDouble, "e in f64", Flush {
        fn expected_frames(&self, stream: &Stream) -> usize {
            let (speed, pitch) = (f64::from(stream.speed), f64::from(stream.pitch));
            ((stream.held as f64 / (speed / pitch) + stream.tail as f64) / pitch + 0.5) as usize
        }
    }
    ExpectedWithoutHalf, "e without 0.5", Flush {
        fn expected_frames(&self, stream: &Stream) -> usize {
            ((stream.held as f32 / (stream.speed / stream.pitch) + stream.tail as f32) / stream.pitch) as usize
        }
    }
    ReadByReciprocal, "a read multiplies by 1/32767", Flush {
        fn sample_out(&self, sample: i16) -> f32 { f32::from(sample) * (1.0 / 32767.0) }
    }
    FlushKeepsStalledInput, "a stalled flush keeps its input", Flush {
        fn clear(&self, work: &mut Work) {
            let input = work.input.clone();
            Right.clear(work);
            if work.outcome == STALLED {
                work.input = input;
            }
        }
    }
    ExpectedWithSilence, "e counts the silent frames", Flush {
        fn expected_frames(&self, stream: &Stream) -> usize {
            Right.expected_frames(&Stream { held: stream.held + 2 * max_required(stream.rate), ..*stream })
        }
    }
    TailOutsideExpected, "e leaves out the tail", Flush {
        fn expected_frames(&self, stream: &Stream) -> usize { Right.expected_frames(&Stream { tail: 0, ..*stream }) }
    }
    EmptyFlushIgnored, "a flush of nothing does nothing", Flush {
        fn flush(&self, stream: Stream, room: usize, write: &dyn Fn(&[f32], usize) -> Result<Work, u32>) -> Result<Work, u32> {
            if stream.held > 0 || stream.tail > 0 {
                return Right.flush(stream, room, write);
            }
            write(&[], room).map(|work| Work { stream, ..work })
        }
    }
    FlushClearsPositions, "a flush clears p and n", Flush {
        fn clear(&self, work: &mut Work) {
            Right.clear(work);
            (work.stream.old_rate_position, work.stream.new_rate_position) = (0, 0);
        }
    }
    FlushClearsRecord, "a flush clears the record", Flush {
        fn clear(&self, work: &mut Work) {
            Right.clear(work);
            (work.stream.prev_period, work.stream.prev_min_diff) = (0, 0);
        }
    }
    AvailableCountsTail, "available counts the tail", Flush {
        fn frames_available(&self, stream: &Stream) -> usize { stream.waiting.wrapping_add(stream.tail) }
    }
    ReadIgnoresMost, "a read ignores the maximum", Flush {
        fn frames_read(&self, waiting: usize, _: usize, slice: usize) -> usize { waiting.min(slice) }
    }
    ReadClearsRest, "a read clears the rest of the slice", Flush {
        fn give(&self, samples: &[i16], slice: &mut [f32]) {
            Right.give(samples, slice);
            slice[samples.len()..].fill(0.0);
        }
    }
    FlushKeepsTimeError, "a flush keeps the time error", Flush {
        fn clear(&self, work: &mut Work) {
            let time_error = work.stream.time_error;
            Right.clear(work);
            work.stream.time_error = time_error;
        }
    }
    TrimCountsWaiting, "a flush keeps e frames with those waiting", Flush {
        fn trim(&self, work: &mut Work, expected: usize) { Right.trim(work, expected.saturating_sub(work.stream.waiting)); }
    }
}
