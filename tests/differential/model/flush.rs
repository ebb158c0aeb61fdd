//! Frames out, and the end of a sound: docs/RULES.md, "Read and flush".

use super::events::Event;
use super::settings::max_required;
use super::Work;
use crate::interface::Stream;

/// The rules of `available`, read and flush.
pub trait Flush {
    /// The frames that can be read.
    fn frames_available(&self, stream: &Stream) -> usize {
        stream.waiting
    }

    /// A sample on its way out.
    fn sample_out(&self, sample: i16) -> f32 {
        f32::from(sample) / 32767.0
    }

    /// The frames that a read gives: the least of those waiting, the maximum named, and the slice's.
    fn frames_read(&self, waiting: usize, most: usize, slice: usize) -> usize {
        waiting.min(most).min(slice)
    }

    /// Gives samples to the front of a slice; the rest of it is unchanged.
    fn give(&self, samples: &[i16], slice: &mut [f32]) {
        for (place, &sample) in slice.iter_mut().zip(samples) {
            *place = self.sample_out(sample);
        }
    }

    /// Removes samples from the front of an area: those that remain stand at the front in their order, and every place behind them is as it
    /// stood.
    fn remove_front(&self, area: &mut [i16], count: usize, kept: usize) {
        area.copy_within(count..count + kept, 0);
    }

    /// The stream after a read of so many frames.
    fn stream_read(&self, stream: Stream, frames: usize) -> Stream {
        Stream { waiting: stream.waiting - frames, ..stream }
    }

    /// The frames e that a flush keeps: (held/(speed/pitch) + tail)/pitch + 0.5, cut.
    fn expected_frames(&self, stream: &Stream) -> usize {
        ((stream.held as f32 / (stream.speed / stream.pitch) + stream.tail as f32) / stream.pitch + 0.5) as usize
    }

    /// The silent frames that a flush writes.
    fn silence(&self, stream: &Stream) -> Vec<f32> {
        vec![0.0; 2 * max_required(stream.rate) * stream.channels as usize]
    }

    /// A flush: silent frames are written, with so many frames free in the output, then it trims and clears. 7 counts before the trimming.
    fn flush(&self, stream: Stream, room: usize, write: &dyn Fn(&[f32], usize) -> Result<Work, u32>) -> Result<Work, u32> {
        let expected = self.expected_frames(&stream);
        let mut work = write(&self.silence(&stream), room)?;
        self.trim(&mut work, expected);
        self.clear(&mut work);
        Ok(work)
    }

    /// At most e of the frames made are kept.
    fn trim(&self, work: &mut Work, expected: usize) {
        let most = expected.saturating_mul(work.channels());
        if work.made.len() > most {
            work.saw(Event::Trimmed);
            work.made.truncate(most);
        }
    }

    /// Input, tail, play time and time error are cleared, after a stall too.
    fn clear(&self, work: &mut Work) {
        work.input.clear();
        work.tail.clear();
        work.stream.input_play_time = 0.0;
        work.stream.time_error = 0.0;
    }
}
