//! WAVE files of 16-bit samples: the head of one is read, and one is written.

use crate::calls;
use crate::{ACCEPTED, BAD_CHANNELS, BAD_RATE, BAD_SIZE, NOT_WAVE};
use std::error::Error;
use std::fmt;

/// What the head of a WAVE file says.
#[derive(Debug, Clone, Copy, PartialEq, Eq, Hash)]
#[non_exhaustive]
pub struct WaveFile {
    /// Frames a second, 1,000 to 500,000.
    pub rate: u32,
    /// The count of channels, 1 to 32.
    pub channels: u32,
    /// The count of whole frames. A partial last frame is left out.
    pub frames: usize,
    /// The byte of the file at which their samples begin: 16 bits each, the low byte first, channels interleaved.
    pub begin: usize,
}

impl WaveFile {
    /// The samples of the whole frames. `bytes` are those that were read; where they end sooner, so do the samples.
    ///
    /// A stream takes the sample `n` as `f32::from(n) / 32_767.0`. Each comes back as itself, but −32,768 as −32,767.
    pub fn samples<'a>(&self, bytes: &'a [u8]) -> impl ExactSizeIterator<Item = i16> + 'a {
        let count = self.frames.saturating_mul(self.channels as usize);
        let pairs = bytes.get(self.begin..).unwrap_or_default().chunks_exact(2);
        pairs.take(count).map(|pair| i16::from_le_bytes([pair[0], pair[1]]))
    }
}

/// Why a WAVE file was not read or not written.
#[derive(Debug, Clone, PartialEq, Eq)]
#[non_exhaustive]
pub enum WaveError {
    /// Reading: the file does not begin with RIFF and WAVE.
    NotWave,
    /// Reading: a chunk up to and including data ends past the file. Writing: the file would have more than
    /// [`MAX_SAMPLES`](crate::MAX_SAMPLES) samples, or the destination is too short for it.
    BadSize,
    /// Reading: the file has no data chunk, or its samples are not of a format that is read: 16-bit PCM with a rate and a count of channels
    /// that a stream takes, in a fmt chunk before the data with format tag 1. Files of more than two channels often have another tag.
    BadFormat,
    /// Writing: the rate given is below 1,000 or above 500,000.
    SampleRateOutOfRange(u32),
    /// Writing: the count of channels given is 0 or above 32.
    ChannelsOutOfRange(u32),
}

impl fmt::Display for WaveError {
    fn fmt(&self, f: &mut fmt::Formatter<'_>) -> fmt::Result {
        match self {
            Self::NotWave => write!(f, "the file does not begin with RIFF and WAVE"),
            Self::BadSize => {
                write!(f, "a chunk ends past the WAVE file, or one to write has over 16777216 samples or does not fit its destination")
            }
            Self::BadFormat => {
                write!(f, "the WAVE file has no samples that are read: 16-bit PCM, 1000 to 500000 frames a second, 1 to 32 channels")
            }
            Self::SampleRateOutOfRange(rate) => write!(f, "a WAVE file cannot have {rate} frames a second, only 1000 to 500000"),
            Self::ChannelsOutOfRange(channels) => write!(f, "a WAVE file cannot have {channels} channels, only 1 to 32"),
        }
    }
}

impl Error for WaveError {}

/// The error of a refusal, with the number that was given.
fn error(refusal: u32, given: u32) -> WaveError {
    match refusal {
        BAD_RATE => WaveError::SampleRateOutOfRange(given),
        BAD_CHANNELS => WaveError::ChannelsOutOfRange(given),
        NOT_WAVE => WaveError::NotWave,
        BAD_SIZE => WaveError::BadSize,
        _ => WaveError::BadFormat,
    }
}

/// Reads the head of a WAVE file of 16-bit PCM, up to its data chunk, and copies no sample. Other chunks are passed over. Neither the size
/// behind RIFF nor anything behind the samples is looked at.
///
/// ```
/// use kelpladder::{read_wave, write_wave, SonicStream};
///
/// let second: Vec<i16> = (0..8_000).map(|i| (i % 62) * 400 - 12_000).collect();
/// let mut file = vec![0; 44 + 2 * second.len()];
/// write_wave(&mut file, 8_000, 1, &second)?;
///
/// let head = read_wave(&file)?;
/// assert_eq!((head.rate, head.channels, head.frames, head.begin), (8_000, 1, 8_000, 44));
/// let mut stream = SonicStream::new(head.rate, head.channels)?;
/// let samples: Vec<f32> = head.samples(&file).map(|n| f32::from(n) / 32_767.0).collect();
/// stream.write_f32(&samples);
/// assert_eq!(stream.available_frames(), 8_000);
/// # Ok::<(), Box<dyn std::error::Error>>(())
/// ```
///
/// # Errors
///
/// [`WaveError::NotWave`], else [`WaveError::BadSize`], else [`WaveError::BadFormat`].
pub fn read_wave(bytes: &[u8]) -> Result<WaveFile, WaveError> {
    let calls::Wave { refusal, rate, channels, frames, begin } = calls::wave_read(bytes);
    match refusal {
        ACCEPTED => Ok(WaveFile { rate, channels, frames, begin }),
        _ => Err(error(refusal, 0)),
    }
}

/// Writes a WAVE file of the whole frames of `samples` to the front of `dest`, and gives its length in bytes: 44, and two for each sample. A
/// partial last frame is left out. Behind the file, and where there is an error, `dest` stays as it is.
///
/// # Errors
///
/// [`WaveError::SampleRateOutOfRange`] and [`WaveError::ChannelsOutOfRange`] as in [`SonicStream::new`](crate::SonicStream::new), else
/// [`WaveError::BadSize`].
pub fn write_wave(dest: &mut [u8], rate: u32, channels: u32, samples: &[i16]) -> Result<usize, WaveError> {
    let answer = calls::wave_write(dest, rate, channels, samples);
    match answer.refusal {
        ACCEPTED => Ok(answer.bytes),
        refusal => Err(error(refusal, answer.given)),
    }
}
