//! The calls of include/kelpladder.h: its structures as the Rust crate declares them, and a trait for whatever answers them.

#[path = "../../bindings/rust/src/calls.rs"]
#[cfg_attr(not(library), allow(dead_code))]
pub mod calls;

pub use calls::{Areas, Available, Balance, Changed, Gave, Opened, Stream, Told, Wrote};

/// Numbers of an accepted write or flush.
pub const EMPTY: u32 = 0;
/// All frames held went on unstretched.
pub const COPIED: u32 = 1;
/// A stretch is due, and too few frames are held.
pub const WAITING: u32 = 2;
/// Stretched.
pub const STRETCHED: u32 = 3;
/// A step gave no frame, and ended the call.
pub const STALLED: u32 = 4;

/// The names of the float fields, in the order of `floats`.
const FLOAT_NAMES: [&str; 6] = ["speed", "pitch", "volume", "sample_period", "input_play_time", "time_error"];

/// The names of the whole fields, in the order of `wholes`.
const WHOLE_NAMES: [&str; 9] =
    ["rate", "channels", "old_rate_position", "new_rate_position", "prev_period", "prev_min_diff", "held", "tail", "waiting"];

/// The names of the totals, in the order of `totals`.
const TOTAL_NAMES: [&str; 2] = ["skipped", "inserted"];

impl Stream {
    /// The float fields.
    fn floats(&self) -> [f32; 6] {
        [self.speed, self.pitch, self.volume, self.sample_period, self.input_play_time, self.time_error]
    }

    /// The whole fields.
    fn wholes(&self) -> [usize; 9] {
        let (rate, channels) = (self.rate as usize, self.channels as usize);
        let (p, n) = (self.old_rate_position, self.new_rate_position);
        [rate, channels, p, n, self.prev_period, self.prev_min_diff, self.held, self.tail, self.waiting]
    }

    /// The totals.
    fn totals(&self) -> [u64; 2] {
        [self.balance.skipped, self.balance.inserted]
    }

    /// The first field in which two streams differ, with both values. Floats are compared by bits, a NaN as a NaN.
    pub fn difference(&self, other: &Stream) -> Option<String> {
        for (name, (a, b)) in FLOAT_NAMES.iter().zip(self.floats().into_iter().zip(other.floats())) {
            if !same_float(a, b) {
                return Some(format!("{name} {a:?} ({:08x}) in place of {b:?} ({:08x})", a.to_bits(), b.to_bits()));
            }
        }
        let wholes = |stream: &Stream| {
            let totals = stream.totals().into_iter().chain([stream.step_over, stream.ties].map(u64::from));
            stream.wholes().map(|whole| whole as u64).into_iter().chain(totals)
        };
        let names = WHOLE_NAMES.iter().chain(&TOTAL_NAMES).chain(&["step_over", "ties"]);
        let fields = names.zip(wholes(self).zip(wholes(other)));
        fields.filter(|(_, (a, b))| a != b).map(|(name, (a, b))| format!("{name} {a} in place of {b}")).next()
    }
}

/// Whether two floats have the same bits, or are both NaN.
pub fn same_float(a: f32, b: f32) -> bool {
    a.to_bits() == b.to_bits() || (a.is_nan() && b.is_nan())
}

/// One of the four settings.
#[derive(Clone, Copy, Debug)]
pub enum Setting {
    Speed(f32),
    Pitch(f32),
    Volume(f32),
    StepOver(u32),
}

/// What answers the calls.
pub trait Subject {
    /// Opens a stream; with a choice of ties, by the opening that takes one.
    fn open(&mut self, rate: u32, channels: u32, ties: Option<u32>) -> Opened;
    /// Sets the speed, the pitch, the volume or whether it steps over.
    fn set(&mut self, stream: Stream, setting: Setting) -> Changed;
    /// Counts the frames waiting.
    fn available(&mut self, stream: Stream) -> Available;
    /// Writes samples.
    fn write(&mut self, stream: Stream, samples: &[f32], areas: Areas<'_>) -> Wrote;
    /// Reads frames into the slice.
    fn read(&mut self, stream: Stream, most: usize, slice: &mut [f32], output: &mut [i16]) -> Gave;
    /// Makes frames of what is held.
    fn flush(&mut self, stream: Stream, areas: Areas<'_>) -> Wrote;
}
