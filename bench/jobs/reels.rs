//! The jobs, and the recordings that are made for them.

use crate::signals::{speech, voice};

/// Settings, frames of a write, the most frames of a read, and whether the reads behind a write go on until one gives none; else it is one.
#[derive(Clone, Copy)]
pub struct Job {
    pub name: &'static str,
    pub speed: f32,
    pub pitch: f32,
    pub step_over: bool,
    pub chunk: usize,
    pub most: usize,
    pub until_none: bool,
}

pub const fn job(name: &'static str, speed: f32, pitch: f32) -> Job {
    Job { name, speed, pitch, step_over: false, chunk: 4_096, most: usize::MAX, until_none: false }
}

pub const JOBS: [Job; 8] = [
    job("skim", 20.0, 0.5),
    job("speed-2", 2.0, 1.0),
    job("speed-0.5", 0.5, 1.0),
    job("pitch-0.5", 1.0, 0.5),
    job("copy", 1.0, 1.0),
    Job { chunk: 160, most: 160, ..job("short", 2.0, 1.0) },
    Job { chunk: 160, ..job("read-all", 1.0, 1.0) },
    SHORT_READS,
];

/// A skim track that steps over.
pub const STEPPING: Job = Job { step_over: true, ..job("step-over", 20.0, 0.5) };

/// Short reads out of each write, and out of one long write.
const SHORT_READS: Job = Job { most: 160, until_none: true, ..job("read-160", 1.0, 1.0) };
const LONG_WRITE: Job = Job { name: "long-write", chunk: 480_000, ..SHORT_READS };

/// What is to be heard: a voice of one period in frames, or speech of several voices with noise and pauses, for one channel.
#[derive(Clone, Copy)]
pub enum Sound {
    Voice(usize),
    Speech,
}

/// A recording to be made.
#[derive(Clone, Copy)]
pub struct Reel {
    pub name: &'static str,
    pub rate: u32,
    pub channels: u32,
    pub seconds: usize,
    pub sound: Sound,
}

pub const REELS: [Reel; 3] = [
    Reel { name: "mono", rate: 8_000, channels: 1, seconds: 600, sound: Sound::Voice(62) },
    Reel { name: "mono-16k", rate: 16_000, channels: 1, seconds: 300, sound: Sound::Voice(124) },
    Reel { name: "stereo", rate: 44_100, channels: 2, seconds: 60, sound: Sound::Voice(341) },
];

/// A reel at which a skim track stalls unless it steps over.
pub const SPEECH: Reel = Reel { name: "speech", rate: 8_000, channels: 1, seconds: 600, sound: Sound::Speech };

/// A minute, which the long write writes at once.
pub const MINUTE: Reel = Reel { name: "minute", seconds: 60, ..REELS[0] };

/// Jobs with a reel of their own.
pub const OWN_REELS: [(Job, Reel); 2] = [(STEPPING, SPEECH), (LONG_WRITE, MINUTE)];

/// Every job of the list with every reel of the list, and those with a reel of their own.
pub fn pairs() -> impl Iterator<Item = (Job, Reel)> {
    REELS.into_iter().flat_map(|reel| JOBS.map(|job| (job, reel))).chain(OWN_REELS)
}

/// The samples of a recording.
pub fn samples_of(reel: Reel) -> Vec<f32> {
    let frames = reel.rate as usize * reel.seconds;
    match reel.sound {
        Sound::Voice(period) => voice(period, frames, reel.channels as usize),
        Sound::Speech => speech(frames),
    }
}
