//! Wrong edits of docs/RULES.md, "Areas and refusals".

use super::Edit;
use crate::interface::{Areas, Changed, Setting, Stream, Wrote};
use crate::model::flush::Flush;
use crate::model::order::{Order, GREATEST_MEAN};
use crate::model::rules::{Part, Right};
use crate::model::settings::{max_required, Settings};
use crate::model::write::Write;
use crate::model::{Room, Work};

/// Frames of the output that a flush may fill before it is trimmed.
const WIDE: usize = 1 << 20;

edits! {
    "Areas and refusals";
    AnySamplePeriod, "3 does not look at T", Order {
        fn sample_period_in_order(&self, _: &Stream) -> bool { true }
    }
    VolumeEndInDouble, "3 compares the volume with the f64 0.01", Order {
        fn volume_in_order(&self, volume: f32) -> bool { Right.volume_in_order(volume) && f64::from(volume) >= 0.01 }
    }
    FlushRoomOnce, "a flush adds max_required for 5", Order {
        fn input_full(&self, stream: &Stream, added: usize, room: usize) -> bool {
            let flush = added == 2 * max_required(stream.rate);
            Right.input_full(stream, if flush { added / 2 } else { added }, room)
        }
    }
    CountsWrap, "held·channels wraps in 4", Order {
        fn reaches(&self, area: &[i16], frames: usize, channels: u32) -> bool { frames.wrapping_mul(channels as usize) <= area.len() }
    }
    ReadOfAnyLength, "a read takes an area above 16,777,216", Order {
        fn output_in_order(&self, stream: &Stream, output: &[i16]) -> bool { self.reaches(output, stream.waiting, stream.channels) }
    }
    AnyPreviousPeriod, "3 does not look at the previous period", Order {
        fn previous_period_in_order(&self, _: &Stream) -> bool { true }
    }
    LeastMeanOneHigher, "3 accepts a least mean of 65,536", Order {
        fn least_mean_in_order(&self, mean: usize) -> bool { mean <= GREATEST_MEAN + 1 }
    }
    NewPositionAhead, "3 accepts n above the least", Order {
        fn positions_in_order(&self, stream: &Stream, new: usize, old: usize) -> bool {
            let (p, n) = (stream.old_rate_position, stream.new_rate_position);
            p < old && n >= (p * new).div_ceil(old)
        }
    }
    SettingOfAnyStream, "a setting never meets 3", Settings {
        fn change(&self, stream: Stream, _: bool, setting: Setting) -> Changed { Right.change(stream, true, setting) }
    }
    AreasBeforeOrder, "4 told before 3", Order {
        fn early_refusal(&self, stream: &Stream, in_order: bool, areas: &Areas<'_>) -> Option<u32> {
            let refused = stream.channels > 0 && !self.areas_in_order(stream, areas);
            if refused { Some(4) } else { Right.early_refusal(stream, in_order, areas) }
        }
    }
    AnyAreaLength, "4 accepts areas above 16,777,216", Order {
        fn short_enough(&self, _: &[i16]) -> bool { true }
    }
    ScratchOneShort, "4 accepts a scratch of max_required - 1", Order {
        fn scratch_reaches(&self, scratch: &[i16], rate: u32) -> bool { scratch.len() >= max_required(rate) - 1 }
    }
    StageBeforeInput, "6 told before 5", Order {
        fn refuse_in_turn(&self, full: bool, room: Room, process: &dyn Fn(Room) -> Result<Work, u32>) -> Result<Work, u32> {
            process(room).and_then(|work| if full { Err(5) } else { Ok(work) })
        }
    }
    OutputBeforeStage, "7 told before 6", Order {
        fn refuse_in_turn(&self, full: bool, room: Room, process: &dyn Fn(Room) -> Result<Work, u32>) -> Result<Work, u32> {
            let wide = Room { stage: 2 * room.stage + 1_000, ..room };
            if !full && process(wide).err() == Some(7) { Err(7) } else { Right.refuse_in_turn(full, room, process) }
        }
    }
    FlushTrimsBeforeRoom, "a flush's 7 counts after trimming", Flush {
        fn flush(&self, stream: Stream, room: usize, write: &dyn Fn(&[f32], usize) -> Result<Work, u32>) -> Result<Work, u32> {
            let work = Right.flush(stream, WIDE, write)?;
            if work.made.len() / work.channels() > room { Err(7) } else { Ok(work) }
        }
    }
    RefusalGrowsPlayTime, "a refusal hands back a grown play time", Order {
        fn refused(&self, refusal: u32, mut stream: Stream, areas: Areas<'_>) -> Wrote {
            if refusal >= 5 {
                stream.input_play_time = Right.play_time_grown(&stream, 1);
            }
            Right.refused(refusal, stream, areas)
        }
    }
    RefusalWritesOverHeld, "refusal 6 writes over the held input", Order {
        fn refused(&self, refusal: u32, stream: Stream, areas: Areas<'_>) -> Wrote {
            if refusal == 6 && stream.held > 0 {
                areas.input[0] = areas.input[0].wrapping_add(1);
            }
            Right.refused(refusal, stream, areas)
        }
    }
    RefusalOverwritesTail, "refusal 7 writes over the tail", Order {
        fn refused(&self, refusal: u32, stream: Stream, areas: Areas<'_>) -> Wrote {
            if refusal == 7 && stream.tail > 0 {
                areas.stage[0] = areas.stage[0].wrapping_add(1);
            }
            Right.refused(refusal, stream, areas)
        }
    }
}
