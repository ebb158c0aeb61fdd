//! Runs that several tests share. Their reels are saws, which are the same on every machine.
#![allow(dead_code)]

#[path = "../../../../tests/signals.rs"]
pub mod signals;

use signals::saw;

/// A stream of either implementation.
pub trait Stretcher {
    fn open(rate: u32, channels: u32) -> Self;
    fn set(&mut self, speed: f32, pitch: f32, volume: f32);
    fn write(&mut self, samples: &[f32]);
    fn flush(&mut self);
    fn available(&self) -> usize;
    fn read(&mut self, most: usize) -> Vec<f32>;
}

/// Makes a type with the interface of libsonic-rs a stretcher. The calls stand as statements, as in code written for it.
#[macro_export]
macro_rules! stretcher {
    ($stream:ty) => {
        impl $crate::common::Stretcher for $stream {
            fn open(rate: u32, channels: u32) -> Self {
                <$stream>::new(rate, channels).expect("in range")
            }

            fn set(&mut self, speed: f32, pitch: f32, volume: f32) {
                self.set_speed(speed);
                self.set_pitch(pitch);
                self.set_volume(volume);
            }

            fn write(&mut self, samples: &[f32]) {
                self.write_f32(samples);
            }

            fn flush(&mut self) {
                <$stream>::flush(self);
            }

            fn available(&self) -> usize {
                self.available_frames()
            }

            fn read(&mut self, most: usize) -> Vec<f32> {
                self.read_f32(most)
            }
        }
    };
}

/// A run: settings, a voice, and how it is written and read.
pub struct Case {
    pub name: &'static str,
    pub rate: u32,
    pub channels: u32,
    pub settings: (f32, f32, f32),
    pub period: usize,
    pub noise: u32,
    pub frames: usize,
    pub chunk: usize,
    pub most: usize,
}

const fn case(name: &'static str, rate: u32, channels: u32, settings: (f32, f32, f32), period: usize) -> Case {
    Case { name, rate, channels, settings, period, noise: 300, frames: 12_000, chunk: 1_000, most: usize::MAX }
}

pub const CASES: [Case; 15] = [
    case("copied", 8_000, 1, (1.0, 1.0, 1.0), 62),
    case("twice-as-fast", 8_000, 1, (2.0, 1.0, 1.0), 62),
    case("half-as-fast", 8_000, 1, (0.5, 1.0, 1.0), 62),
    case("slightly-faster", 44_100, 2, (1.3, 1.0, 1.0), 339),
    case("slightly-slower", 11_025, 1, (0.7, 1.0, 1.0), 85),
    case("very-slow", 8_000, 1, (0.05, 1.0, 1.0), 62),
    case("lower", 8_000, 1, (1.0, 0.5, 1.0), 62),
    case("higher", 44_100, 2, (1.0, 2.0, 1.0), 339),
    case("skimmed", 8_000, 1, (20.0, 0.5, 1.0), 62),
    case("stalled", 8_000, 1, (20.0, 0.5, 1.0), 34),
    case("louder", 4_000, 1, (1.0, 1.0, 30.0), 31),
    case("everything", 16_000, 3, (2.7, 0.8, 0.6), 124),
    case("lowest-rate", 1_000, 1, (1.5, 1.1, 1.0), 8),
    Case { frames: 70_000, chunk: 70_000, ..case("highest-rate", 500_000, 1, (3.0, 1.0, 1.0), 3_846) },
    Case { chunk: 160, most: 160, ..case("short", 8_000, 1, (2.0, 1.0, 1.0), 62) },
];

/// The samples that a run gives, with a flush and the same settings again in its middle and a flush at its end.
pub fn run<S: Stretcher>(case: &Case) -> Vec<f32> {
    let mut stream = S::open(case.rate, case.channels);
    let (speed, pitch, volume) = case.settings;
    stream.set(speed, pitch, volume);
    let samples = saw(0, case.frames, case.channels as usize, case.period, case.noise);
    let chunks: Vec<&[f32]> = samples.chunks(case.chunk * case.channels as usize).collect();
    let mut given = Vec::new();
    for (i, chunk) in chunks.iter().enumerate() {
        stream.write(chunk);
        given.extend(stream.read(case.most));
        if 2 * i == chunks.len() {
            stream.flush();
            stream.set(speed, pitch, volume);
        }
    }
    stream.flush();
    given.extend(stream.read(usize::MAX));
    assert_eq!(stream.available(), 0);
    given
}

/// One line that stands for samples: how many, a checksum of their bits, and eight from the middle as 16-bit numbers.
pub fn summary(name: &str, samples: &[f32]) -> String {
    let step = |sum: u64, byte: u8| (sum ^ u64::from(byte)).wrapping_mul(0x100_0000_01b3);
    let sum = samples.iter().flat_map(|x| x.to_bits().to_le_bytes()).fold(0xcbf2_9ce4_8422_2325, step);
    let middle = samples.iter().skip(samples.len() / 2).take(8);
    let shown: Vec<String> = middle.map(|x| ((x * 32_767.0).round() as i32).to_string()).collect();
    format!("{name} {} {sum:016x} {}", samples.len(), shown.join(" "))
}
