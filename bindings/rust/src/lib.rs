//! Changes the speed, the pitch and the volume of speech. The interface is that of libsonic-rs; the computation is Kelpladder's, which
//! is proved to meet its specification and runs as a static library.
//!
//! ```
//! use kelpladder::{Outcome, SonicStream};
//!
//! let mut stream = SonicStream::new(8_000, 1)?;
//! stream.set_speed(2.0);
//! let second: Vec<f32> = (0..8_000).map(|i| (i % 62) as f32 / 62.0 - 0.5).collect();
//! if stream.write_f32(&second).outcome == Outcome::Stalled {
//!     eprintln!("this speed is too high for the voice");
//! }
//! stream.flush();
//! assert_eq!(stream.read_f32(usize::MAX).len(), 4_000);
//! # Ok::<(), kelpladder::SonicError>(())
//! ```
//!
//! # In place of libsonic-rs
//!
//! Types, functions and their arguments are the same, and so is every sample. What differs:
//!
//! - [`write_f32`](SonicStream::write_f32) and [`flush`](SonicStream::flush) give a [`Told`] with an [`Outcome`], where libsonic-rs gives
//!   nothing. As a statement, `stream.flush();`, a call compiles as before and without a warning: what is told is not marked `must_use`,
//!   because code that only swaps the module would then warn at every write. Where a call's value was used as `()`, as the last expression
//!   of a function or in an arm of a match, it now needs a semicolon.
//! - [`balance`](SonicStream::balance) is not in libsonic-rs: it gives the frames of the periods skipped and inserted so far.
//! - [`set_step_over`](SonicStream::set_step_over) is not in libsonic-rs: a stream that steps over does not stall. A new one does not step
//!   over.
//! - [`with_ties`](SonicStream::with_ties) is not in libsonic-rs: where several periods fit a voice equally well, such a stream takes the
//!   largest in place of the smallest. [`new`](SonicStream::new) opens one that takes the smallest. Nor is [`Told::sum`], which says how
//!   well the last period found fits.
//! - [`read_wave`] and [`write_wave`] are not in libsonic-rs: they read and write WAVE files of 16-bit samples.
//! - A stream has a limit. Frames held, frames between two steps and frames waiting each have at most [`MAX_SAMPLES`] samples, and a
//!   write or flush that would pass this answers [`Outcome::Full`] and changes nothing. In libsonic-rs they grow until memory ends.
//! - The texts of [`SonicError`] are worded differently.
//! - The `Debug` text of a stream leaves out its samples.
//!
//! # What the library asks of its caller
//!
//! include/kelpladder.h says what a caller of the C library owes. This crate makes most of it true by construction: pointers and lengths
//! come from slices and from vectors of its own, which are valid, aligned and apart; each call borrows the stream by `&mut self`, so that
//! nobody else uses its areas meanwhile; a stream's value comes from an accepted opening and from the calls after it, never from outside.
//! The build stops on processors other than x86-64. What it cannot make true:
//!
//! - the floating-point environment of the calling thread is the default one, as Rust asks of all code: round to nearest even, exceptions
//!   masked, neither flush-to-zero nor denormals-are-zero (MXCSR). The last two were not seen to change an answer; another rounding does.
//! - the thread has 6,000 bytes of stack for the library, beside those of this crate.

#![deny(missing_docs)]

mod areas;
mod calls;
mod error;
mod outcome;
#[cfg(test)]
mod tests;
mod ties;
mod wave;

pub use areas::MAX_SAMPLES;
pub use calls::Balance;
pub use error::SonicError;
pub use outcome::{Outcome, Told};
pub use ties::Ties;
pub use wave::{read_wave, write_wave, WaveError, WaveFile};

use areas::OwnedAreas;
use calls::{Areas, Opened, Stream, Wrote};
use std::fmt;

// Numbers of refusal.
const ACCEPTED: u32 = 0;
const BAD_RATE: u32 = 1;
const BAD_CHANNELS: u32 = 2;
const INPUT_FULL: u32 = 5;
const STAGE_FULL: u32 = 6;
const OUTPUT_FULL: u32 = 7;
const NOT_WAVE: u32 = 8;
const BAD_SIZE: u32 = 9;
const TOTAL_FULL: u32 = 12;

/// A stream of frames whose speed, pitch and volume are changed. A frame is one sample per channel; frames are interleaved.
pub struct SonicStream {
    value: Stream,
    areas: OwnedAreas,
}

impl SonicStream {
    /// Opens a stream of `channels` channels at `sample_rate` frames a second. Speed, pitch and volume are 1, it does not step over, and of
    /// several periods that fit equally well it takes the smallest.
    ///
    /// # Errors
    ///
    /// [`SonicError::SampleRateOutOfRange`] for a rate outside 1,000 to 500,000, else [`SonicError::ChannelsOutOfRange`] for a count
    /// of channels outside 1 to 32.
    pub fn new(sample_rate: u32, channels: u32) -> Result<Self, SonicError> {
        Self::of_opening(calls::open(sample_rate, channels))
    }

    /// Opens a stream as [`new`](Self::new) does, with the period that its searches take of several that fit equally well. No setting
    /// changes that later.
    ///
    /// # Errors
    ///
    /// As [`new`](Self::new).
    pub fn with_ties(sample_rate: u32, channels: u32, ties: Ties) -> Result<Self, SonicError> {
        Self::of_opening(calls::open_with_ties(sample_rate, channels, ties.number()))
    }

    fn of_opening(opened: Opened) -> Result<Self, SonicError> {
        match opened.refusal {
            ACCEPTED => Ok(Self { value: opened.stream, areas: OwnedAreas::new(opened.stream) }),
            BAD_RATE => Err(SonicError::SampleRateOutOfRange(opened.given)),
            _ => Err(SonicError::ChannelsOutOfRange(opened.given)),
        }
    }

    /// Sets the speed, held to 0.05 to 20. A NaN sets 0.05.
    pub fn set_speed(&mut self, speed: f32) {
        self.value = calls::set_speed(self.value, speed).stream;
    }

    /// Sets the factor of the pitch, held to 0.05 to 20, and begins the rate conversion's count of positions anew, also if the pitch is
    /// the same. A NaN sets 0.05.
    pub fn set_pitch(&mut self, pitch: f32) {
        self.value = calls::set_pitch(self.value, pitch).stream;
    }

    /// Sets the factor of the volume, held to 0.01 to 100. A NaN sets 0.01.
    pub fn set_volume(&mut self, volume: f32) {
        self.value = calls::set_volume(self.value, volume).stream;
    }

    /// Sets whether the stream steps over: where a step gives no frame, because the voice's period is too short for speed over pitch, the
    /// stream uses up this period, makes nothing, and goes on behind it. No call answers [`Outcome::Stalled`] then, and [`Told::passed`]
    /// counts the periods passed over. Switched on after a stall, the next write, even of no samples, goes on over what is held.
    pub fn set_step_over(&mut self, on: bool) {
        self.value = calls::set_step_over(self.value, u32::from(on)).stream;
    }

    /// Writes the whole frames of `samples` and makes frames of what is held. A partial last frame is dropped. Each sample is held to
    /// −1 to 1, and a NaN counts as 0.
    ///
    /// The outcome says how it went; it may be ignored. [`Outcome::Stalled`] and [`Outcome::Full`] mean that recorded frames did not
    /// get through. Room is made as needed. A write leaves room for the silence of a later [`flush`](Self::flush), and answers
    /// [`Outcome::Full`] if it cannot.
    pub fn write_f32(&mut self, samples: &[f32]) -> Told {
        let frames = samples.len() / self.channels();
        if !areas::leaves_room_to_flush(self.value, frames) {
            return Told::FULL;
        }
        self.work(|value, areas| calls::write_f32(value, samples, areas))
    }

    /// Makes frames of what is held, filled up with silence, and clears what is held. In the middle of a word this can be heard.
    ///
    /// The outcome tells of the held frames and the silence together. Where speed over pitch is so high that the shortest period gives
    /// no frame (above 21 at 8,000 frames a second), or the longest with [`Ties::Largest`] (above 124), the silence alone answers
    /// [`Outcome::Stalled`], and nothing is amiss. A stream that steps over passes over the silence's periods too, and [`Told::passed`]
    /// counts them with the others.
    pub fn flush(&mut self) -> Told {
        self.work(calls::flush)
    }

    /// The frames that wait to be read.
    pub fn available_frames(&self) -> usize {
        calls::available_frames(self.value).frames
    }

    /// The frames of the periods skipped and inserted, over all writes and flushes that were taken and did not stall. Periods passed over
    /// count as skipped. No call lowers them.
    pub fn balance(&self) -> Balance {
        self.value.balance
    }

    /// Takes the first waiting frames, at most `max_frames`, and gives their samples. The frames that wait on are moved to the front, so a
    /// read of few frames out of many costs most; one of all moves nothing.
    pub fn read_f32(&mut self, max_frames: usize) -> Vec<f32> {
        let frames = self.available_frames().min(max_frames);
        let mut samples = vec![0.0; frames * self.channels()];
        self.value = calls::read_f32(self.value, max_frames, &mut samples, &mut self.areas.output).stream;
        samples
    }

    fn channels(&self) -> usize {
        self.value.channels as usize
    }

    /// Makes a call; as long as it is refused for want of room, makes the area longer and calls again. A refused call has changed
    /// nothing that is kept.
    fn work(&mut self, call: impl Fn(Stream, Areas<'_>) -> Wrote) -> Told {
        loop {
            let answer = call(self.value, self.areas.lend());
            let grown = match answer.refusal {
                ACCEPTED => {
                    self.value = answer.stream;
                    return Told::of_answer(answer.told);
                }
                INPUT_FULL => areas::grow(&mut self.areas.input),
                STAGE_FULL => areas::grow(&mut self.areas.stage),
                OUTPUT_FULL => areas::grow(&mut self.areas.output),
                TOTAL_FULL => false,
                refusal => unreachable!("refusal {refusal}: the stream and its areas belong together"),
            };
            if !grown {
                return Told::FULL;
            }
        }
    }
}

impl fmt::Debug for SonicStream {
    fn fmt(&self, f: &mut fmt::Formatter<'_>) -> fmt::Result {
        f.debug_struct("SonicStream").field("value", &self.value).finish_non_exhaustive()
    }
}
