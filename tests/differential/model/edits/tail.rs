//! Wrong edits of the tail at pitch 1, request C-12.

use super::Edit;
use crate::interface::{Areas, Stream, Wrote};
use crate::model::flush::Flush;
use crate::model::order::Order;
use crate::model::rate::Rate;
use crate::model::rules::{Part, Right};
use crate::model::settings::max_required;
use crate::model::volume::Volume;
use crate::model::write::Write;
use crate::model::{Room, Work};

edits! {
    "The tail at pitch 1";
    TailCountsAtOne, "6 counts the tail at pitch 1, too", Order {
        fn tail_counts(&self, _: f32) -> bool { true }
    }
    TailNeverCounts, "6 leaves out the tail at every pitch", Order {
        fn tail_counts(&self, _: f32) -> bool { false }
    }
    TailOutsideNearOne, "6 leaves out the tail at a pitch close to 1", Order {
        fn tail_counts(&self, pitch: f32) -> bool { (pitch - 1.0).abs() >= 1e-6 }
    }
    StageUnlimitedAtOne, "no 6 at pitch 1", Order {
        fn stage_refusal(&self, work: &Work, room: Room) -> Result<(), u32> {
            if work.stream.pitch == 1.0 { Ok(()) } else { Right.stage_refusal(work, room) }
        }
    }
    TailAboveStageIsSix, "at pitch 1 a stage shorter than the tail is 6 and not 4", Order {
        fn early_refusal(&self, stream: &Stream, in_order: bool, areas: &Areas<'_>) -> Option<u32> {
            let refusal = Right.early_refusal(stream, in_order, areas);
            let tail_alone = refusal.is_some() && Right.early_refusal(&Stream { tail: 0, ..*stream }, in_order, areas).is_none();
            if stream.pitch == 1.0 && tail_alone { Some(6) } else { refusal }
        }
    }
    OutputEndsSteps, "at pitch 1, 7 told at the first step that the output does not hold", Order {
        fn stage_refusal(&self, work: &Work, room: Room) -> Result<(), u32> {
            Right.stage_refusal(work, room)?;
            if work.stream.pitch == 1.0 && work.frames() > room.output { Err(7) } else { Ok(()) }
        }
    }
    FlushStagesTrimmed, "a flush's 6 at pitch 1 counts after trimming", Order {
        fn stage_refusal(&self, work: &Work, room: Room) -> Result<(), u32> {
            let flush = work.stream.pitch == 1.0 && work.added == 2 * max_required(work.stream.rate);
            let kept = if flush { Right.expected_frames(&work.entering) } else { usize::MAX };
            if self.stage_needed(&work.stream, work.frames().min(kept)) > room.stage { Err(6) } else { Ok(()) }
        }
    }
    TailGoesOutAtOne, "at pitch 1 the tail goes out before the frames", Rate {
        fn straight_out(&self, work: &mut Work) {
            Right.straight_out(work);
            work.made.splice(0..0, work.tail.drain(..));
        }
    }
    FramesOverTail, "at pitch 1 the frames are put over the tail", Rate {
        fn straight_out(&self, work: &mut Work) {
            let both = work.tail.len().min(work.stretched.len());
            work.tail[..both].copy_from_slice(&work.stretched[..both]);
            Right.straight_out(work);
        }
    }
    PitchOneConverted, "pitch 1 is converted as any other", Rate {
        fn goes_straight(&self, _: f32) -> bool { false }
    }
    NoVolumeAtOne, "no volume at pitch 1", Volume {
        fn convert_and_scale(&self, work: &mut Work, convert: &dyn Fn(&mut Work) -> Result<(), u32>) -> Result<(), u32> {
            if work.stream.pitch == 1.0 { convert(work) } else { Right.convert_and_scale(work, convert) }
        }
    }
    FramesOverWaiting, "at pitch 1 the frames are put over those waiting, too", Write {
        fn commit(&self, work: Work, areas: Areas<'_>) -> Wrote {
            if work.stream.pitch == 1.0 {
                areas.output[..work.made.len()].copy_from_slice(&work.made);
            }
            Right.commit(work, areas)
        }
    }
    RefusalOverwritesWaiting, "refusals 6 and 7 write over the frames waiting", Order {
        fn refused(&self, refusal: u32, stream: Stream, areas: Areas<'_>) -> Wrote {
            if [6, 7].contains(&refusal) && stream.waiting > 0 {
                areas.output[0] = areas.output[0].wrapping_add(1);
            }
            Right.refused(refusal, stream, areas)
        }
    }
    FlushKeepsTailAtOne, "a flush at pitch 1 keeps the tail", Flush {
        fn clear(&self, work: &mut Work) {
            let tail = work.tail.clone();
            Right.clear(work);
            if work.stream.pitch == 1.0 {
                work.tail = tail;
            }
        }
    }
}
