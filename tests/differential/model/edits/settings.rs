//! Wrong edits of docs/RULES.md, "Opening and settings".

use super::Edit;
use crate::interface::{Opened, Stream};
use crate::model::rules::{Part, Right};
use crate::model::settings::{Settings, PITCHES};

edits! {
    "Opening and settings";
    SettingNanToUpperEnd, "a NaN setting becomes the upper end", Settings {
        fn held_to(&self, value: f32, ends: (f32, f32)) -> f32 { if value.is_nan() { ends.1 } else { Right.held_to(value, ends) } }
    }
    SamePitchKeepsPositions, "the same pitch keeps p and n", Settings {
        fn set_pitch(&self, stream: &mut Stream, pitch: f32) {
            if self.held_to(pitch, PITCHES) != stream.pitch {
                Right.set_pitch(stream, pitch);
            }
        }
    }
    PitchClearsTail, "a pitch clears the tail", Settings {
        fn set_pitch(&self, stream: &mut Stream, pitch: f32) {
            Right.set_pitch(stream, pitch);
            stream.tail = 0;
        }
    }
    SpeedResetsPositions, "a speed puts p and n to 0", Settings {
        fn set_speed(&self, stream: &mut Stream, speed: f32) {
            Right.set_speed(stream, speed);
            (stream.old_rate_position, stream.new_rate_position) = (0, 0);
        }
    }
    GivenIsTheRate, "2 carries the rate", Settings {
        fn opening(&self, rate: u32, channels: u32, ties: u32) -> Opened {
            let opened = Right.opening(rate, channels, ties);
            if opened.refusal == 2 { Opened { given: rate, ..opened } } else { opened }
        }
    }
    RefusedOpeningIsFresh, "a refused opening hands back a fresh stream", Settings {
        fn opening(&self, rate: u32, channels: u32, ties: u32) -> Opened {
            let opened = Right.opening(rate, channels, ties);
            if opened.refusal == 0 { opened } else { Opened { stream: Right.fresh(rate.max(1), channels, 0), ..opened } }
        }
    }
    LowestRateRefused, "1,000 Hz refused", Settings {
        fn rate_refused(&self, rate: u32) -> bool { rate == 1_000 || Right.rate_refused(rate) }
    }
    RateOneHigher, "500,001 Hz accepted", Settings {
        fn rate_refused(&self, rate: u32) -> bool { rate != 500_001 && Right.rate_refused(rate) }
    }
    ChannelsOneHigher, "33 channels accepted", Settings {
        fn channels_refused(&self, channels: u32) -> bool { channels != 33 && Right.channels_refused(channels) }
    }
}
