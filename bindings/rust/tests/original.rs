//! Runs beside the original, where its text is there: KELPLADDER_ORIGINAL names the file, or it stands where the repository expects it.
#![cfg(original)]

mod common;

use common::signals::{saw, Congruential};
use common::{run, summary, Case, Stretcher, CASES};
use kelpladder::{Outcome, SonicStream, Ties};

include!(concat!(env!("OUT_DIR"), "/original.rs"));

stretcher!(SonicStream);
stretcher!(original::SonicStream);
stretcher!(stepping_over::SonicStream);
stretcher!(largest::SonicStream);
stretcher!(largest_stepping_over::SonicStream);

/// Ours, with a choice of ties, and stepping over from the opening on or not.
struct Chosen<const LARGEST: bool, const OVER: bool>(SonicStream);

type SteppingOver = Chosen<false, true>;
type Largest = Chosen<true, false>;
type LargestSteppingOver = Chosen<true, true>;

impl<const LARGEST: bool, const OVER: bool> Stretcher for Chosen<LARGEST, OVER> {
    fn open(rate: u32, channels: u32) -> Self {
        let ties = if LARGEST { Ties::Largest } else { Ties::Smallest };
        let mut stream = SonicStream::with_ties(rate, channels, ties).expect("in range");
        stream.set_step_over(OVER);
        Chosen(stream)
    }

    fn set(&mut self, speed: f32, pitch: f32, volume: f32) {
        self.0.set(speed, pitch, volume);
    }

    fn write(&mut self, samples: &[f32]) {
        assert!(self.0.write_f32(samples).outcome != Outcome::Stalled || !OVER);
    }

    fn flush(&mut self) {
        assert!(self.0.flush().outcome != Outcome::Stalled || !OVER);
    }

    fn available(&self) -> usize {
        self.0.available_frames()
    }

    fn read(&mut self, most: usize) -> Vec<f32> {
        self.0.read_f32(most)
    }
}

fn bits(samples: &[f32]) -> Vec<u32> {
    samples.iter().map(|x| x.to_bits()).collect()
}

/// Both streams, given the same calls.
struct Pair<A, B> {
    ours: A,
    theirs: B,
    channels: usize,
}

/// Ours and the original.
type Plain = Pair<SonicStream, original::SonicStream>;

impl<A: Stretcher, B: Stretcher> Pair<A, B> {
    fn open(rate: u32, channels: u32) -> Self {
        Pair { ours: Stretcher::open(rate, channels), theirs: Stretcher::open(rate, channels), channels: channels as usize }
    }

    fn set(&mut self, speed: f32, pitch: f32, volume: f32) {
        self.ours.set(speed, pitch, volume);
        self.theirs.set(speed, pitch, volume);
    }

    fn write(&mut self, samples: &[f32]) {
        self.ours.write(samples);
        self.theirs.write(samples);
        assert_eq!(self.ours.available(), self.theirs.available());
    }

    fn flush(&mut self) {
        self.ours.flush();
        self.theirs.flush();
        assert_eq!(self.ours.available(), self.theirs.available());
    }

    fn read(&mut self, most: usize) {
        assert_eq!(bits(&self.ours.read(most)), bits(&self.theirs.read(most)));
    }
}

/// A setting: mostly inside its range, at times outside or a NaN.
fn setting(random: &mut Congruential) -> f32 {
    const SETTINGS: [f32; 16] = [1.0, 1.0, 1.0, 0.5, 2.0, 1.5, 0.7, 0.05, 20.0, 3.3, 0.31, 1.00001, 0.99998, 1000.0, -1.0, f32::NAN];
    SETTINGS[random.below(SETTINGS.len())]
}

/// A voice with at times a sample that no recording has.
fn samples(random: &mut Congruential, channels: usize) -> Vec<f32> {
    const ODD: [f32; 6] = [f32::NAN, f32::INFINITY, f32::NEG_INFINITY, 1.0, -1.5, -0.0];
    let (frames, period, noise) = (random.below(2_500), 20 + random.below(100), random.below(3_000) as u32);
    let mut all = saw(random.below(1_000), frames, channels, period, noise);
    all.extend(vec![0.25; random.below(channels)]);
    if random.below(3) == 0 && !all.is_empty() {
        let place = random.below(all.len());
        all[place] = ODD[random.below(ODD.len())];
    }
    all
}

fn call<A: Stretcher, B: Stretcher>(pair: &mut Pair<A, B>, random: &mut Congruential) {
    match random.below(12) {
        0 => pair.set(setting(random), setting(random), setting(random)),
        1 => pair.flush(),
        2 => pair.read(0),
        3..=5 => pair.read(random.below(3_000)),
        _ => {
            let samples = samples(random, pair.channels);
            pair.write(&samples);
        }
    }
}

/// The pseudorandom run of a seed.
fn random<A: Stretcher, B: Stretcher>(seed: u32) {
    const RATES: [u32; 8] = [1_000, 3_999, 4_000, 8_000, 8_000, 11_025, 22_050, 44_100];
    let mut random = Congruential(seed);
    random.next();
    let mut pair: Pair<A, B> = Pair::open(RATES[random.below(RATES.len())], 1 + random.below(4) as u32);
    for _ in 0..30 {
        call(&mut pair, &mut random);
    }
    pair.read(usize::MAX);
}

#[test]
fn pseudorandom_calls_give_the_same() {
    (0..150).for_each(random::<SonicStream, original::SonicStream>);
}

#[test]
fn pseudorandom_calls_stepping_over_give_the_same() {
    (0..50).for_each(random::<SteppingOver, stepping_over::SonicStream>);
}

#[test]
fn pseudorandom_calls_with_the_largest_give_the_same() {
    (0..50).for_each(random::<Largest, largest::SonicStream>);
    (0..50).for_each(random::<LargestSteppingOver, largest_stepping_over::SonicStream>);
}

/// A skim track of voices and silence.
fn skim_track<A: Stretcher, B: Stretcher>() {
    let mut pair: Pair<A, B> = Pair::open(8_000, 1);
    pair.set(20.0, 0.5, 1.0);
    for (period, noise) in [(62, 0), (34, 300), (20, 0), (90, 3_000), (34, 0), (75, 300)] {
        saw(0, 9_000, 1, period, noise).chunks(700).for_each(|chunk| pair.write(chunk));
        pair.write(&[0.0; 2_000]);
    }
    pair.flush();
    pair.read(usize::MAX);
}

#[test]
fn skim_tracks_give_the_same() {
    skim_track::<SteppingOver, stepping_over::SonicStream>();
    skim_track::<Largest, largest::SonicStream>();
    skim_track::<LargestSteppingOver, largest_stepping_over::SonicStream>();
}

/// Runs a case on both sides.
fn same_run<A: Stretcher, B: Stretcher>(case: &Case) {
    assert_eq!(bits(&run::<A>(case)), bits(&run::<B>(case)), "{}", case.name);
}

#[test]
fn runs_give_the_same() {
    for case in &CASES {
        same_run::<SonicStream, original::SonicStream>(case);
        same_run::<SteppingOver, stepping_over::SonicStream>(case);
        same_run::<Largest, largest::SonicStream>(case);
        same_run::<LargestSteppingOver, largest_stepping_over::SonicStream>(case);
    }
}

#[test]
fn one_long_write_gives_the_same() {
    let mut pair = Plain::open(8_000, 2);
    pair.set(0.3, 0.7, 1.0);
    pair.write(&saw(0, 200_000, 2, 62, 300));
    pair.flush();
    pair.read(usize::MAX);
}

/// The tail of the lowered voice stays at pitch 1, and goes out first when the voice is lowered again. The writes at pitch 1 come up to the
/// 4,096 samples that an area has at first, and past them.
#[test]
fn a_voice_lowered_and_set_back_gives_the_same() {
    for (speed, volume, channels) in [(1.0, 1.0, 1), (1.0, 0.6, 3), (2.0, 1.0, 1), (0.7, 1.3, 2)] {
        for samples in [60, 4_084, 4_085, 4_096, 4_100] {
            let mut pair = Plain::open(8_000, channels as u32);
            pair.set(0.5, 0.5, 1.0);
            pair.write(&saw(0, 24, channels, 62, 300));
            pair.set(speed, 1.0, volume);
            pair.write(&saw(24, samples / channels, channels, 62, 300));
            pair.set(0.5, 0.5, 1.0);
            pair.write(&saw(5_000, 400, channels, 62, 300));
            pair.flush();
            pair.read(usize::MAX);
        }
    }
}

#[test]
fn most_channels_give_the_same() {
    let mut pair = Plain::open(8_000, 32);
    pair.set(1.7, 1.2, 0.4);
    pair.write(&saw(0, 3_000, 32, 62, 300));
    pair.flush();
    pair.read(usize::MAX);
}

#[test]
fn openings_are_refused_alike() {
    for (rate, channels) in [(999, 1), (1_000, 1), (500_000, 32), (500_001, 32), (8_000, 0), (8_000, 33), (0, 0)] {
        let ours = SonicStream::new(rate, channels).map(|_| ()).map_err(|error| format!("{error:?}"));
        let theirs = original::SonicStream::new(rate, channels).map(|_| ()).map_err(|error| format!("{error:?}"));
        assert_eq!(ours, theirs);
    }
}

/// Prints the lines of tests/stored.txt: `cargo test --offline --test original -- --ignored --nocapture print_stored`.
#[test]
#[ignore]
fn print_stored() {
    for case in &CASES {
        println!("{}", summary(case.name, &run::<original::SonicStream>(case)));
    }
}
