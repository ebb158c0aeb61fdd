//! Openings that are refused.

use std::error::Error;
use std::fmt;

/// Why a stream was not opened.
#[derive(Debug, Clone, PartialEq, Eq)]
#[non_exhaustive]
pub enum SonicError {
    /// The rate given is below 1,000 or above 500,000.
    SampleRateOutOfRange(u32),
    /// The count of channels given is 0 or above 32.
    ChannelsOutOfRange(u32),
}

impl fmt::Display for SonicError {
    fn fmt(&self, f: &mut fmt::Formatter<'_>) -> fmt::Result {
        match self {
            Self::SampleRateOutOfRange(rate) => write!(f, "a stream cannot have {rate} frames a second, only 1000 to 500000"),
            Self::ChannelsOutOfRange(channels) => write!(f, "a stream cannot have {channels} channels, only 1 to 32"),
        }
    }
}

impl Error for SonicError {}
