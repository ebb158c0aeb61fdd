//! The random numbers, the noise and the voices of the tests, the benchmarks and the tools in Rust. Stored answers and figures rest on
//! them: crates/vectors on `levels`, bindings/rust/tests/stored.txt on `saw`.
#![allow(dead_code)]

use std::f64::consts::TAU;
use std::sync::OnceLock;

/// A linear congruential generator. Its low bits repeat soon, so that they are shifted out.
#[derive(Clone)]
pub struct Congruential(pub u32);

impl Congruential {
    /// The next 32 bits.
    pub fn next(&mut self) -> u32 {
        self.0 = self.0.wrapping_mul(1_664_525).wrapping_add(1_013_904_223);
        self.0
    }

    /// A number below the limit.
    pub fn below(&mut self, limit: usize) -> usize {
        (self.next() >> 8) as usize % limit
    }

    /// One of the choices.
    pub fn one_of<T: Copy>(&mut self, choices: &[T]) -> T {
        choices[self.below(choices.len())]
    }

    /// A number from 0 to below 1.
    pub fn unit(&mut self) -> f64 {
        f64::from(self.next() >> 16) / 65_536.0
    }
}

/// A xorshift generator, for long runs: the congruential one comes round after 2^32 numbers.
#[derive(Clone)]
pub struct Random(u64);

impl Random {
    /// A generator for a seed; neighbouring seeds give unlike numbers.
    pub fn new(seed: u64) -> Random {
        let mut mixed = seed.wrapping_add(0x9e37_79b9_7f4a_7c15);
        mixed = (mixed ^ (mixed >> 30)).wrapping_mul(0xbf58_476d_1ce4_e5b9);
        mixed = (mixed ^ (mixed >> 27)).wrapping_mul(0x94d0_49bb_1331_11eb);
        Random((mixed ^ (mixed >> 31)) | 1)
    }

    /// The next 64 bits.
    pub fn next(&mut self) -> u64 {
        self.0 ^= self.0 << 13;
        self.0 ^= self.0 >> 7;
        self.0 ^= self.0 << 17;
        self.0.wrapping_mul(0x2545_f491_4f6c_dd1d)
    }

    /// A number below the limit.
    pub fn below(&mut self, limit: usize) -> usize {
        ((self.next() >> 11) % limit.max(1) as u64) as usize
    }

    /// A number from the first to the last.
    pub fn between(&mut self, first: usize, last: usize) -> usize {
        first + self.below(last - first + 1)
    }

    /// True once in so many times.
    pub fn once_in(&mut self, times: usize) -> bool {
        self.below(times) == 0
    }

    /// One of the choices.
    pub fn one_of<T: Copy>(&mut self, choices: &[T]) -> T {
        choices[self.below(choices.len())]
    }

    /// A number from 0 to below 1.
    pub fn unit(&mut self) -> f64 {
        (self.next() >> 11) as f64 / (1u64 << 53) as f64
    }

    /// A value between two ends, evenly on the scale of ratios.
    pub fn ratio(&mut self, low: f64, high: f64) -> f32 {
        (low * (high / low).powf(self.unit())) as f32
    }

    /// A float some steps beside another.
    pub fn beside(&mut self, value: f32) -> f32 {
        f32::from_bits(value.to_bits().wrapping_add(self.below(9) as u32).wrapping_sub(4))
    }
}

/// Samples at the ends of the floats and beside the places where a rule turns.
pub const SPECIAL: [f32; 22] = [
    0.0,
    -0.0,
    1.0,
    -1.0,
    0.99999994,
    -0.99999994,
    1.0000001,
    -1.0000001,
    2.0,
    -2.0,
    f32::NAN,
    f32::INFINITY,
    f32::NEG_INFINITY,
    f32::MAX,
    f32::MIN,
    f32::MIN_POSITIVE,
    1e-45,
    -1e-45,
    0.5,
    -0.5,
    0.50001526,
    3.0517578e-5,
];

/// Eight harmonics at a phase in periods; harmonic h is ahead by h times an angle.
fn harmonics(phase: f64, ahead: f64) -> f64 {
    (1..9).map(f64::from).map(|h| (phase * h * TAU + h * ahead).sin() / h).sum()
}

/// Points of one period of a voice.
const POINTS: usize = 1_024;

/// One period of a voice whose harmonics do not begin together.
fn period_of_voice() -> &'static [f32; POINTS] {
    static TABLE: OnceLock<[f32; POINTS]> = OnceLock::new();
    TABLE.get_or_init(|| std::array::from_fn(|at| (harmonics(at as f64 / POINTS as f64, 1.0) / 2.0) as f32))
}

/// The kinds of sound; the last is noise that repeats exactly, at least twice within the longest period.
#[derive(Clone, Copy, PartialEq)]
pub enum Sound {
    Silence,
    Noise,
    Voice,
    Changing,
    Speech,
    Special,
    Square,
    Faint,
    Constant,
    Repeats,
}

/// A sound that goes on from write to write.
#[derive(Clone)]
pub struct Signal {
    sound: Sound,
    shortest: f64,
    longest: f64,
    period: f64,
    phase: f64,
    loud: f32,
    noise: f32,
    left: usize,
    pause: bool,
    frame: u64,
}

impl Signal {
    /// A random sound for a rate.
    pub fn new(random: &mut Random, rate: u32) -> Signal {
        use Sound::{Changing, Constant, Faint, Noise, Repeats, Silence, Special, Speech, Square, Voice};
        let sounds =
            [Voice, Voice, Voice, Changing, Changing, Speech, Speech, Noise, Square, Faint, Silence, Special, Constant, Repeats, Repeats];
        let sound = random.one_of(&sounds);
        Signal::of(random, rate, sound)
    }

    /// A sound of a kind.
    pub fn of(random: &mut Random, rate: u32, sound: Sound) -> Signal {
        let (shortest, longest) = (f64::from(rate / 400), f64::from(rate / 65));
        let loud = random.one_of(&[1.3, 0.7, 0.3, 0.05]);
        let noise = random.one_of(&[0.0, 0.0, 0.01, 0.1]);
        let mut signal = Signal { sound, shortest, longest, period: longest, phase: 0.0, loud, noise, left: 0, pause: false, frame: 0 };
        signal.change(random);
        signal
    }

    /// A voice of one period in frames, without noise.
    pub fn voice(period: f64, loud: f32) -> Signal {
        let (shortest, longest) = (period, period);
        Signal { sound: Sound::Voice, shortest, longest, period, phase: 0.0, loud, noise: 0.0, left: usize::MAX, pause: false, frame: 0 }
    }

    /// Takes another period, and begins or ends a pause.
    fn change(&mut self, random: &mut Random) {
        let wide = random.once_in(8);
        let (low, high) = match self.sound {
            Sound::Repeats => (self.shortest, self.longest / 2.0),
            _ if wide => (self.shortest * 0.5, self.longest * 2.0),
            _ => (self.shortest, self.longest),
        };
        let period = f64::from(random.ratio(low, high)).max(1.0);
        self.period = if self.sound != Sound::Repeats && random.once_in(3) { period } else { period.round() };
        self.pause = self.sound == Sound::Speech && random.once_in(4);
        self.left = random.between(1, 8 * self.longest as usize);
    }

    /// The next value, before the channels.
    fn next(&mut self, random: &mut Random) -> f32 {
        if self.left == 0 && self.sound != Sound::Voice {
            self.change(random);
        }
        self.left = self.left.saturating_sub(1);
        self.frame += 1;
        let bend = if self.sound == Sound::Speech { 1.0 + 0.02 * (self.phase * 0.1).sin() } else { 1.0 };
        self.phase += bend / self.period;
        let voice = period_of_voice()[(self.phase.fract() * POINTS as f64) as usize % POINTS];
        let noise = (random.unit() - 0.5) as f32;
        match self.sound {
            Sound::Silence => 0.0,
            Sound::Noise => self.loud * 2.0 * noise,
            Sound::Speech if self.pause => 0.001 * noise,
            Sound::Voice | Sound::Changing | Sound::Speech => self.loud * voice + self.noise * noise,
            Sound::Special => random.one_of(&SPECIAL),
            Sound::Square if self.phase.fract() < 0.5 => 1.0,
            Sound::Square => -1.0,
            Sound::Faint => (noise * 6.0 + voice * 3.0) / 32767.0,
            Sound::Constant => self.loud,
            Sound::Repeats => self.loud * (Random::new(self.frame % self.period as u64).unit() - 0.5) as f32,
        }
    }

    /// The next frames; the channels differ, and here and there stands a special sample.
    pub fn frames(&mut self, random: &mut Random, frames: usize, channels: usize) -> Vec<f32> {
        let mut all = Vec::with_capacity(frames * channels);
        for _ in 0..frames {
            let value = self.next(random);
            for channel in 0..channels {
                all.push(if channel % 3 == 1 { -0.5 * value } else { value / (channel + 1) as f32 });
            }
        }
        if frames > 0 && random.once_in(10) {
            let place = random.below(all.len());
            all[place] = random.one_of(&SPECIAL);
        }
        all
    }

    /// The next frames as samples of an area; some are the lowest sample, which no write gives.
    pub fn samples(&mut self, random: &mut Random, frames: usize, channels: usize) -> Vec<i16> {
        let lowest = random.once_in(3);
        let values = self.frames(random, frames, channels);
        let sample = |value: f32| (value * 32768.0) as i16;
        values.into_iter().map(|v| if lowest { sample(v) } else { sample(v).max(-32767) }).collect()
    }
}

/// One period in frames of a voice whose harmonics begin together.
fn period_of(frames: usize) -> Vec<f64> {
    (0..frames).map(|f| harmonics(f as f64 / frames as f64, 0.0)).collect()
}

/// A voice of a period in frames with some noise; the channels differ in loudness.
pub fn voice(period: usize, frames: usize, channels: usize) -> Vec<f32> {
    let (tone, mut noise) = (period_of(period), Congruential(12345));
    let sample = |f: usize, c: usize, rustle: f64| (tone[f % period] * 0.3 / (c + 1) as f64 + rustle * 0.008) as f32;
    (0..frames * channels).map(|i| sample(i / channels, i % channels, noise.unit() - 0.5)).collect()
}

/// The periods of the voices of speech, in frames: at speed 20 and pitch 0.5 those below 39 give no frame.
const VOICES: [usize; 10] = [34, 36, 38, 41, 47, 55, 62, 71, 84, 100];
/// The least and the most frames of one sound of speech.
const LENGTHS: (usize, usize) = (400, 3_200);

/// A sound of speech: one period of its voice, how loud that and its noise are, and its frames. Of eight, five are voices, one is noise, one
/// a faint pause, and one silence.
fn sound_of_speech(noise: &mut Congruential) -> (Vec<f64>, f64, f64, usize) {
    let mut below = |count: usize| (noise.unit() * count as f64) as usize;
    let frames = LENGTHS.0 + below(LENGTHS.1 - LENGTHS.0 + 1);
    match below(8) {
        0..=4 => (period_of(VOICES[below(VOICES.len())]), 0.05 * (1 + below(6)) as f64, 0.02, frames),
        5 => (vec![0.0], 0.0, 0.3, frames),
        6 => (vec![0.0], 0.0, 0.001, frames),
        _ => (vec![0.0], 0.0, 0.0, frames),
    }
}

/// So many frames of speech for one channel: voices of several periods, noise and pauses, one after the other.
pub fn speech(frames: usize) -> Vec<f32> {
    let (mut noise, mut all) = (Congruential(12345), Vec::with_capacity(frames + LENGTHS.1));
    while all.len() < frames {
        let (tone, loud, rustle, length) = sound_of_speech(&mut noise);
        all.extend((0..length).map(|f| (tone[f % tone.len()] * loud + (noise.unit() - 0.5) * rustle) as f32));
    }
    all.truncate(frames);
    all
}

/// A voice of a period, of one pulse in each.
pub fn pulses(frames: usize, period: usize) -> Vec<i16> {
    (0..frames).map(|at| if at % period == 0 { 9_000 } else { ((at % period) * 37) as i16 }).collect()
}

/// The offsets of six blocks, as multiples of a step d, at which the block, twice and three times it have the same mean of differences, d: one
/// block differs from the next by d; two from the next two by d and d; three from the next three by 2d, 0 and d.
pub const TIED: [i16; 6] = [0, 1, 1, 2, 1, 2];

/// A voice of one block of samples, of a period in frames, that repeats, each repeat with an offset of its own.
pub fn blocks(period: usize, frames: usize, offset: impl Fn(usize) -> i16) -> Vec<i16> {
    let mut noise = Congruential(period as u32);
    let block: Vec<i16> = (0..period).map(|_| 1_000 + noise.below(9_000) as i16).collect();
    (0..frames).map(|i| block[i % period] + offset(i / period)).collect()
}

/// A choir of such blocks with the offsets of `TIED`; d is 0, or far below the differences inside a block.
pub fn choir(period: usize, frames: usize, d: i16) -> Vec<i16> {
    blocks(period, frames, |block| d * TIED[block % 6])
}

/// Samples of an area as a write takes them.
pub fn to_write(samples: &[i16]) -> Vec<f32> {
    samples.iter().map(|&sample| (f32::from(sample) + 0.5) / 32_767.0).collect()
}

/// A saw of a period in frames, from frame `from` on; each channel is weaker than the one before, and noise of `noise` levels is added. All
/// its arithmetic is exact, so that it is the same on every machine.
pub fn saw(from: usize, frames: usize, channels: usize, period: usize, noise: u32) -> Vec<f32> {
    let mut random = Congruential(from as u32 + 12345);
    let mut all = Vec::with_capacity(frames * channels);
    for f in from..from + frames {
        let saw = (f % period) as i32 * 24_000 / period as i32 - 12_000;
        for c in 1..=channels as i32 {
            let rustle = if noise == 0 { 0 } else { random.below(noise as usize) as i32 - noise as i32 / 2 };
            all.push((saw / c + rustle) as f32 / 32_768.0);
        }
    }
    all
}

/// Two channels of a saw; the period of the first changes from frame to frame.
pub fn changing_saws(frames: usize) -> Vec<f32> {
    (0..frames).flat_map(|f| [f % (50 + f / 97 % 40), f % 71].map(|level| level as f32 / 90.0 - 0.5)).collect()
}

/// The signals that crates/scripts/src/signal.rt makes, by their numbers there.
pub mod levels {
    use super::Congruential;

    pub const SILENCE: u64 = 0;
    pub const NOISE: u64 = 1;
    pub const SQUARE: u64 = 2;
    pub const TRIANGLE: u64 = 3;
    pub const VOICE: u64 = 4;
    pub const TWO_VOICES: u64 = 5;
    pub const PATTERNS: u64 = 6;

    fn square(place: u64, period: u64) -> u64 {
        if place % period < period / 2 {
            52_768
        } else {
            12_768
        }
    }

    fn triangle(place: u64, period: u64) -> u64 {
        let phase = place % period;
        phase.min(period - phase) * 131_070 / period % 65_536
    }

    /// The level of a signal at a place, from 0 to 65,535.
    fn level(kind: u64, state: u32, place: u64, period: u64) -> u64 {
        match kind {
            NOISE => u64::from(state / 65_536),
            SQUARE => square(place, period),
            TRIANGLE => triangle(place, period),
            VOICE => triangle(place, period) * 3 / 4 + u64::from(state / 0x4_0000),
            TWO_VOICES if place % 2 == 0 => triangle(place, period),
            TWO_VOICES => square(place, period + 14),
            _ => 32_768,
        }
    }

    /// A signal: its kind, the noise's first state and the voice's first place, the voice's period and the divisor of its levels.
    pub fn signal(kind: u64, seed: u32, period: u32, divisor: u16, count: usize) -> Vec<f32> {
        let mut noise = Congruential(seed);
        let sample = |i| {
            let state = noise.next();
            if kind == PATTERNS {
                return f32::from_bits(state);
            }
            let place = u64::from(seed) + i as u64;
            (level(kind, state, place, u64::from(period.max(1))) as f32 - 32_768.0) / f32::from(divisor)
        };
        (0..count).map(sample).collect()
    }
}
