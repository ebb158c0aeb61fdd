//! The areas of samples that a stream owns, to lend them to each call.

use crate::calls::{Areas, Stream};

/// The most samples that a stream holds, has between two steps, or keeps waiting, each for itself: 16,777,216.
pub const MAX_SAMPLES: usize = 1 << 24;

/// The length of an area at first; it doubles from here to [`MAX_SAMPLES`].
const FIRST_SAMPLES: usize = 1 << 12;

/// Written frames not yet used; the tail, and behind it the frames of a call; the frames that wait; and the averages of the search. At
/// pitch 1 the frames of a call do not go through the stage, but it has to be as long as they are.
pub struct OwnedAreas {
    pub input: Vec<i16>,
    pub stage: Vec<i16>,
    pub output: Vec<i16>,
    pub scratch: Vec<i16>,
}

impl OwnedAreas {
    pub fn new(stream: Stream) -> Self {
        let area = || vec![0; FIRST_SAMPLES];
        Self { input: area(), stage: area(), output: area(), scratch: vec![0; max_required(stream)] }
    }

    pub fn lend(&mut self) -> Areas<'_> {
        Areas { input: &mut self.input, stage: &mut self.stage, output: &mut self.output, scratch: &mut self.scratch }
    }
}

/// The frames that a step of the stretch needs: two of the longest period, that of 65 Hz.
fn max_required(stream: Stream) -> usize {
    2 * (stream.rate as usize / 65)
}

/// Whether the input, with these frames more, still has room for the silence of a flush. Writes that stall leave all frames held, and a
/// flush clears them at any settings, so the input has room for one after every write.
pub fn leaves_room_to_flush(stream: Stream, frames: usize) -> bool {
    let most = MAX_SAMPLES / stream.channels as usize;
    frames <= most && stream.held + frames + 2 * max_required(stream) <= most
}

/// Doubles an area; false if it has its greatest length already.
pub fn grow(area: &mut Vec<i16>) -> bool {
    let length = area.len();
    if length < MAX_SAMPLES {
        area.resize(2 * length, 0);
    }
    length < MAX_SAMPLES
}
