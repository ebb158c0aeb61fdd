//! Wrong edits of docs/RULES.md, "A write".

use super::Edit;
use crate::interface::{Stream, EMPTY, WAITING};
use crate::model::rules::{Part, Right};
use crate::model::write::{Added, Write};
use crate::model::Work;

edits! {
    "A write";
    PlayTimeByPitch, "play time grows by frames·T·pitch/speed", Write {
        fn play_time_grown(&self, stream: &Stream, frames: usize) -> f32 {
            stream.input_play_time + frames as f32 * stream.sample_period * stream.pitch / stream.speed
        }
    }
    SettingForLocalSpeed, "s is speed/pitch", Write {
        fn local_speed(&self, stream: &Stream, _: usize) -> f32 { stream.speed / stream.pitch }
    }
    BordersInSingle, "0.99999 and 1.00001 compared in f32", Write {
        fn stretches(&self, s: f32) -> bool { s < 0.99999 || s > 1.00001 }
    }
    PlayTimeLeftGrouped, "play time left is play time·(left/held)", Write {
        fn play_time_left(&self, play_time: f32, left: usize, held: usize) -> f32 { play_time * (left as f32 / held as f32) }
    }
    PlayTimeZeroAfterCopy, "play time +0 after every copy", Write {
        fn copy_all(&self, work: &mut Work) {
            Right.copy_all(work);
            work.stream.input_play_time = 0.0;
        }
    }
    SampleProductInDouble, "a sample times 32767 in f64", Write {
        fn sample_in(&self, sample: f32) -> i16 {
            if sample.is_nan() { 0 } else { (f64::from(sample.max(-1.0).min(1.0)) * 32767.0) as i16 }
        }
    }
    SampleNanToLowerEnd, "a NaN sample becomes -32767", Write {
        fn sample_in(&self, sample: f32) -> i16 { if sample.is_nan() { -32767 } else { Right.sample_in(sample) } }
    }
    SampleRounded, "a sample rounded to the nearest", Write {
        fn sample_in(&self, sample: f32) -> i16 {
            if sample.is_nan() { 0 } else { (sample.max(-1.0).min(1.0) * 32767.0).round() as i16 }
        }
    }
    NanSpeedStretches, "s = NaN stretches", Write {
        fn stretches(&self, s: f32) -> bool { s.is_nan() || Right.stretches(s) }
    }
    EmptyWriteIgnored, "a write of no frames does nothing", Write {
        fn outcome_at_once(&self, held: usize, added: usize) -> Option<u32> {
            (added == 0).then_some(if held == 0 { EMPTY } else { WAITING })
        }
    }
    CopyClearsRecord, "a copy clears the record", Write {
        fn copy_all(&self, work: &mut Work) {
            Right.copy_all(work);
            (work.stream.prev_period, work.stream.prev_min_diff) = (0, 0);
        }
    }
    PartialFrameFilled, "a partial frame filled up with silence", Write {
        fn add(&self, stream: &Stream, samples: &[f32]) -> Added {
            let mut filled = samples.to_vec();
            filled.resize(samples.len().next_multiple_of(stream.channels as usize), 0.0);
            Right.add(stream, &filled)
        }
    }
    PlayTimeOfPartialFrame, "play time grows by a partial frame", Write {
        fn add(&self, stream: &Stream, samples: &[f32]) -> Added {
            let partial = samples.len() % stream.channels as usize > 0;
            let entering = if partial { Stream { input_play_time: Right.play_time_grown(stream, 1), ..*stream } } else { *stream };
            Right.add(&entering, samples)
        }
    }
}
