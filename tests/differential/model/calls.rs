//! The model's calls.

use super::events::Event;
use super::write::Needs;
use super::{Model, Work};
use crate::interface::{Areas, Available, Changed, Gave, Opened, Setting, Stream, Subject, Told, Wrote};

/// Frames that no call of a run needs.
const AMPLE: usize = 1 << 20;

/// The frames free in the output.
fn output_free(stream: &Stream, areas: &Areas<'_>) -> usize {
    areas.output.len() / stream.channels as usize - stream.waiting
}

impl Model {
    /// Refusal 3 or 4 of a write or a flush, if met.
    fn early_refusal(&self, stream: &Stream, areas: &Areas<'_>) -> Option<u32> {
        self.rules.order.early_refusal(stream, self.in_order(stream), areas)
    }

    /// The end of a write or a flush of samples.
    fn answer(&self, stream: Stream, samples: &[f32], ended: Result<Work, u32>, areas: Areas<'_>) -> Wrote {
        match ended {
            Ok(work) => self.accept(work, areas),
            Err(5) => self.rules.order.refused(5, stream, areas),
            Err(refusal) => {
                let would = || self.would_need(stream, samples, &areas);
                let passed = self.rules.step_over.passed_refused(&|| would().map_or(0, |needs| needs.passed));
                let sum = self.rules.sums.sum_refused(&|| would().map_or(0, |needs| needs.sum));
                let wrote = self.rules.order.refused(refusal, stream, areas);
                Wrote { told: Told { passed, sum, ..wrote.told }, ..wrote }
            }
        }
    }

    /// The end of an accepted write or flush.
    fn accept(&self, work: Work, areas: Areas<'_>) -> Wrote {
        if work.decided {
            work.saw(if work.stream.ties == 0 { Event::TieToSmallest } else { Event::TieToLargest });
        }
        let sum = self.rules.sums.told(&work);
        let wrote = self.rules.write.commit(work, areas);
        Wrote { told: Told { sum, ..wrote.told }, ..wrote }
    }

    /// What a write or a flush of samples would need and tell, with room for all.
    fn would_need(&self, stream: Stream, samples: &[f32], areas: &Areas<'_>) -> Option<Needs> {
        let channels = stream.channels as usize;
        let (held, tail) = (&areas.input[..stream.held * channels], &areas.stage[..stream.tail * channels]);
        let added = self.rules.write.add(&stream, samples).samples;
        self.needs(stream, held, tail, &added, AMPLE)
    }
}

impl Subject for Model {
    fn open(&mut self, rate: u32, channels: u32, ties: Option<u32>) -> Opened {
        self.rules.settings.opening(rate, channels, ties.unwrap_or(0))
    }

    fn set(&mut self, stream: Stream, setting: Setting) -> Changed {
        self.rules.settings.change(stream, self.in_order(&stream), setting)
    }

    fn available(&mut self, stream: Stream) -> Available {
        if !self.in_order(&stream) {
            return Available { refusal: 3, frames: 0, stream };
        }
        Available { refusal: 0, frames: self.rules.flush.frames_available(&stream), stream }
    }

    fn write(&mut self, stream: Stream, samples: &[f32], areas: Areas<'_>) -> Wrote {
        if let Some(refusal) = self.early_refusal(&stream, &areas) {
            return self.rules.order.refused(refusal, stream, areas);
        }
        let ended = self.add(stream, samples, &areas, output_free(&stream, &areas));
        self.answer(stream, samples, ended, areas)
    }

    fn read(&mut self, stream: Stream, most: usize, slice: &mut [f32], output: &mut [i16]) -> Gave {
        if !self.in_order(&stream) {
            return Gave { refusal: 3, frames: 0, stream };
        }
        if !self.rules.order.output_in_order(&stream, output) {
            return Gave { refusal: 4, frames: 0, stream };
        }
        let (rules, channels) = (self.rules.flush, stream.channels as usize);
        let frames = rules.frames_read(stream.waiting, most, slice.len() / channels);
        rules.give(&output[..frames * channels], slice);
        rules.remove_front(output, frames * channels, (stream.waiting - frames) * channels);
        Gave { refusal: 0, frames, stream: rules.stream_read(stream, frames) }
    }

    fn flush(&mut self, stream: Stream, areas: Areas<'_>) -> Wrote {
        if let Some(refusal) = self.early_refusal(&stream, &areas) {
            return self.rules.order.refused(refusal, stream, areas);
        }
        let room = output_free(&stream, &areas);
        let ended = self.rules.flush.flush(stream, room, &|samples, output| self.add(stream, samples, &areas, output));
        self.answer(stream, &self.rules.flush.silence(&stream), ended, areas)
    }
}
