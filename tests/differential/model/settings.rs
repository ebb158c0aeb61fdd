//! What follows from a rate, fresh streams and settings: docs/RULES.md, "Opening and settings".

use super::order::{CHANNELS, RATES};
use crate::interface::{Changed, Opened, Setting, Stream};

/// The lower and upper end of a speed.
pub const SPEEDS: (f32, f32) = (0.05, 20.0);
/// The lower and upper end of a pitch.
pub const PITCHES: (f32, f32) = (0.05, 20.0);
/// The lower and upper end of a volume.
pub const VOLUMES: (f32, f32) = (0.01, 100.0);

/// The shortest period of a rate.
pub fn min_period(rate: u32) -> usize {
    rate as usize / 400
}

/// The longest period of a rate.
pub fn max_period(rate: u32) -> usize {
    rate as usize / 65
}

/// The frames that a search needs.
pub fn max_required(rate: u32) -> usize {
    2 * max_period(rate)
}

/// The sample period T: 1/R in f64, rounded to f32.
pub fn sample_period(rate: u32) -> f32 {
    (1.0 / f64::from(rate)) as f32
}

/// The rules of opening and of settings.
pub trait Settings {
    /// Whether a rate is refused.
    fn rate_refused(&self, rate: u32) -> bool {
        !RATES.contains(&rate)
    }

    /// Whether a channel count is refused.
    fn channels_refused(&self, channels: u32) -> bool {
        !CHANNELS.contains(&channels)
    }

    /// The value of ties in a fresh stream: 1 for any number but 0.
    fn fresh_ties(&self, ties: u32) -> u32 {
        u32::from(ties != 0)
    }

    /// A fresh stream.
    fn fresh(&self, rate: u32, channels: u32, ties: u32) -> Stream {
        let ones = Stream { speed: 1.0, pitch: 1.0, volume: 1.0, ..Stream::default() };
        Stream { rate, channels, sample_period: sample_period(rate), ties: self.fresh_ties(ties), ..ones }
    }

    /// An opening; a refused one carries the number given, and a stream with every field 0.
    fn opening(&self, rate: u32, channels: u32, ties: u32) -> Opened {
        if self.rate_refused(rate) {
            return Opened { refusal: 1, given: rate, stream: Stream::default() };
        }
        if self.channels_refused(channels) {
            return Opened { refusal: 2, given: channels, stream: Stream::default() };
        }
        Opened { refusal: 0, given: 0, stream: self.fresh(rate, channels, ties) }
    }

    /// A setting held to its range, a NaN to the lower end.
    fn held_to(&self, value: f32, (low, high): (f32, f32)) -> f32 {
        if value.is_nan() { low } else { value.max(low).min(high) }
    }

    /// Sets the speed.
    fn set_speed(&self, stream: &mut Stream, speed: f32) {
        stream.speed = self.held_to(speed, SPEEDS);
    }

    /// Sets the pitch, and puts p and n to 0.
    fn set_pitch(&self, stream: &mut Stream, pitch: f32) {
        stream.pitch = self.held_to(pitch, PITCHES);
        stream.old_rate_position = 0;
        stream.new_rate_position = 0;
    }

    /// Sets the volume.
    fn set_volume(&self, stream: &mut Stream, volume: f32) {
        stream.volume = self.held_to(volume, VOLUMES);
    }

    /// Sets whether the stream steps over: 1 for any number but 0.
    fn set_step_over(&self, stream: &mut Stream, on: u32) {
        stream.step_over = u32::from(on != 0);
    }

    /// A stream with a setting changed.
    fn changed(&self, mut stream: Stream, setting: Setting) -> Stream {
        match setting {
            Setting::Speed(speed) => self.set_speed(&mut stream, speed),
            Setting::Pitch(pitch) => self.set_pitch(&mut stream, pitch),
            Setting::Volume(volume) => self.set_volume(&mut stream, volume),
            Setting::StepOver(on) => self.set_step_over(&mut stream, on),
        }
        stream
    }

    /// A setting, which meets 3 alone.
    fn change(&self, stream: Stream, in_order: bool, setting: Setting) -> Changed {
        if in_order { Changed { refusal: 0, stream: self.changed(stream, setting) } } else { Changed { refusal: 3, stream } }
    }
}
