//! Wrong edits of docs/RULES.md, "Volume".

use super::Edit;
use crate::interface::{Areas, Wrote};
use crate::model::rules::{Part, Right};
use crate::model::volume::Volume;
use crate::model::write::Write;
use crate::model::Work;

edits! {
    "Volume";
    GainRounded, "g rounded to the nearest", Volume {
        fn gain(&self, volume: f32) -> i32 { (volume * 256.0).round() as i32 }
    }
    UnityGainLeftOut, "g = 256 leaves the samples", Volume {
        fn leaves_samples(&self, volume: f32) -> bool { self.gain(volume) == 256 }
    }
    VolumeBeforeConversion, "volume before the rate conversion", Volume {
        fn convert_and_scale(&self, work: &mut Work, convert: &dyn Fn(&mut Work) -> Result<(), u32>) -> Result<(), u32> {
            self.scale(&mut work.stretched, work.stream.volume);
            convert(work)
        }
    }
    VolumeOfWaiting, "volume on frames waiting, too", Write {
        fn commit(&self, work: Work, areas: Areas<'_>) -> Wrote {
            if !work.made.is_empty() {
                Right.scale(&mut areas.output[..work.stream.waiting * work.channels()], work.stream.volume);
            }
            Right.commit(work, areas)
        }
    }
    GainHeldAtLowest, "volume held to -32768", Volume {
        fn scaled(&self, sample: i16, gain: i32) -> i16 { ((i32::from(sample) * gain) >> 8).max(-32768).min(32767) as i16 }
    }
    GainAsDivision, "the gain as a division", Volume {
        fn scaled(&self, sample: i16, gain: i32) -> i16 { (i32::from(sample) * gain / 256).max(-32767).min(32767) as i16 }
    }
}
