//! The two implementations, as a job uses them.

use crate::calls;
use crate::judges::stepping_over;
use crate::reels::{Job, Reel};
use crate::SonicStream;
use std::hint::black_box;

const STALLED: u32 = 4;

/// One of the two implementations, as a job uses it. Frames read are handed to `sink`, and a read tells how many samples they have.
pub trait Side {
    fn open(reel: Reel, job: Job) -> Self;
    fn write(&mut self, samples: &[f32]);
    fn read(&mut self, most: usize, sink: &mut dyn FnMut(&[f32])) -> usize;
    fn flush(&mut self);
}

/// Frames that a period search looks at.
pub fn required(reel: Reel) -> usize {
    2 * (reel.rate as usize / 65)
}

/// The stream with the areas lent to it.
pub struct Ours {
    stream: calls::Stream,
    input: Vec<i16>,
    stage: Vec<i16>,
    output: Vec<i16>,
    scratch: Vec<i16>,
    frames: Vec<f32>,
}

impl Ours {
    /// A fresh stream with the job's settings, and areas of this length.
    pub fn with_areas(reel: Reel, job: Job, length: usize) -> Ours {
        let faster = calls::set_speed(calls::open(reel.rate, reel.channels).stream, job.speed);
        let lower = calls::set_pitch(faster.stream, job.pitch);
        let stream = calls::set_step_over(lower.stream, u32::from(job.step_over)).stream;
        let area = || vec![0i16; length];
        Ours { stream, input: area(), stage: area(), output: area(), scratch: vec![0; required(reel)], frames: vec![0.0; length] }
    }

    /// The frames held.
    pub fn held(&self) -> usize {
        self.stream.held
    }

    fn lend(&mut self) -> calls::Areas<'_> {
        calls::Areas { input: &mut self.input, stage: &mut self.stage, output: &mut self.output, scratch: &mut self.scratch }
    }

    /// Takes the stream of an accepted write or flush, and gives the outcome.
    fn accept(&mut self, answer: calls::Wrote) -> u32 {
        assert_eq!(answer.refusal, 0, "a write or flush was refused");
        self.stream = answer.stream;
        answer.told.outcome
    }
}

impl Side for Ours {
    fn open(reel: Reel, job: Job) -> Self {
        let frames = (8 * required(reel)).max(job.chunk);
        Ours::with_areas(reel, job, (frames * reel.channels as usize).max(65_536))
    }

    fn write(&mut self, samples: &[f32]) {
        let answer = calls::write_f32(self.stream, samples, self.lend());
        assert_ne!(self.accept(answer), STALLED, "the voice stalled");
    }

    fn read(&mut self, most: usize, sink: &mut dyn FnMut(&[f32])) -> usize {
        let answer = calls::read_f32(self.stream, most, &mut self.frames, &mut self.output);
        assert_eq!(answer.refusal, 0, "a read was refused");
        self.stream = answer.stream;
        let samples = answer.frames * self.stream.channels as usize;
        sink(&self.frames[..samples]);
        samples
    }

    // At speed 20 the silence of a flush stalls, unless the stream steps over: its period is the least of the range.
    fn flush(&mut self) {
        let answer = calls::flush(self.stream, self.lend());
        self.accept(answer);
    }
}

/// Makes a stream of the original, or of its copy that steps over, a side.
macro_rules! original_side {
    ($stream:ty) => {
        impl Side for $stream {
            fn open(reel: Reel, job: Job) -> Self {
                let mut stream = <$stream>::new(reel.rate, reel.channels).expect("in range");
                stream.set_speed(black_box(job.speed));
                stream.set_pitch(black_box(job.pitch));
                stream
            }

            fn write(&mut self, samples: &[f32]) {
                self.write_f32(samples);
            }

            fn read(&mut self, most: usize, sink: &mut dyn FnMut(&[f32])) -> usize {
                let frames = self.read_f32(most);
                sink(&frames);
                frames.len()
            }

            fn flush(&mut self) {
                <$stream>::flush(self);
            }
        }
    };
}

original_side!(SonicStream);
original_side!(stepping_over::SonicStream);
