//! One answer beside another, and the counts of both.

use crate::calls::{self, Wave, WaveWritten};
use crate::model::{Model, Right};
use std::collections::BTreeMap;

/// What is compared with the model: the library, or the model with a wrong edit.
pub trait Subject {
    fn read(&self, bytes: &[u8]) -> Wave;
    fn write(&self, dest: &mut [u8], rate: u32, channels: u32, samples: &[i16]) -> WaveWritten;
}

pub struct Library;

impl Subject for Library {
    fn read(&self, bytes: &[u8]) -> Wave {
        calls::wave_read(bytes)
    }

    fn write(&self, dest: &mut [u8], rate: u32, channels: u32, samples: &[i16]) -> WaveWritten {
        calls::wave_write(dest, rate, channels, samples)
    }
}

/// The first difference, in words.
pub type Compared = Result<(), String>;

/// A write: the settings, the samples, and the length of the destination.
pub struct Job<'a> {
    pub rate: u32,
    pub channels: u32,
    pub samples: &'a [i16],
    pub room: usize,
}

/// The bytes before and behind a destination, which no write may touch.
const BESIDE: usize = 16;

/// The byte that a destination has in a place before a write.
fn filling(place: usize) -> u8 {
    (place * 151 + 77) as u8
}

/// A subject beside the model, with the counts of answers by their refusal.
pub struct Beside<'a> {
    pub subject: &'a dyn Subject,
    pub reads: BTreeMap<u32, usize>,
    pub writes: BTreeMap<u32, usize>,
}

impl<'a> Beside<'a> {
    pub fn new(subject: &'a dyn Subject) -> Self {
        Self { subject, reads: BTreeMap::new(), writes: BTreeMap::new() }
    }

    /// A read that has to give this answer.
    pub fn read_gives(&mut self, words: &str, bytes: &[u8], wanted: Wave) -> Compared {
        let answer = self.subject.read(bytes);
        *self.reads.entry(wanted.refusal).or_default() += 1;
        if answer == wanted {
            Ok(())
        } else {
            Err(format!("{words}: {answer:?} in place of {wanted:?}, reading {:02x?}", &bytes[..bytes.len().min(200)]))
        }
    }

    /// A read that has to give the model's answer.
    pub fn read(&mut self, words: &str, bytes: &[u8]) -> Compared {
        self.read_gives(words, bytes, Model(&Right).read(bytes))
    }

    /// A write that has to give this answer and leave this destination.
    pub fn write_gives(&mut self, words: &str, job: &Job, wanted: WaveWritten, dest: &[u8]) -> Compared {
        let mut memory: Vec<u8> = (0..job.room + 2 * BESIDE).map(filling).collect();
        let answer = self.subject.write(&mut memory[BESIDE..BESIDE + job.room], job.rate, job.channels, job.samples);
        *self.writes.entry(wanted.refusal).or_default() += 1;
        let words = format!("{words}: writing {} samples, {} {} {}", job.samples.len(), job.rate, job.channels, job.room);
        if answer != wanted {
            return Err(format!("{words}: {answer:?} in place of {wanted:?}"));
        }
        let wanted = |place: usize| place.checked_sub(BESIDE).and_then(|byte| dest.get(byte)).copied().unwrap_or(filling(place));
        match (0..memory.len()).find(|&place| memory[place] != wanted(place)) {
            Some(place) => Err(format!("{words}: byte {} of the destination is {}", place as isize - BESIDE as isize, memory[place])),
            None => Ok(()),
        }
    }

    /// A write that has to give the model's answer and leave the model's destination; a file that is written has to read back.
    pub fn write(&mut self, words: &str, job: &Job) -> Compared {
        let mut dest: Vec<u8> = (BESIDE..BESIDE + job.room).map(filling).collect();
        let wanted = Model(&Right).write(&mut dest, job.rate, job.channels, job.samples);
        self.write_gives(words, job, wanted, &dest)?;
        if wanted.refusal != 0 {
            return Ok(());
        }
        let frames = job.samples.len() / job.channels as usize;
        self.read_gives(words, &dest, Wave { refusal: 0, rate: job.rate, channels: job.channels, frames, begin: 44 })?;
        let back = dest[44..].chunks_exact(2).map(|pair| i16::from_le_bytes([pair[0], pair[1]]));
        let same = back.take(frames * job.channels as usize).eq(job.samples[..frames * job.channels as usize].iter().copied());
        same.then_some(()).ok_or(format!("{words}: the samples do not read back"))
    }
}
