//! Skim tracks at 8,000 frames a second, speed 20 and pitch 0.5: a period above 38 frames gives a frame; at a shorter one the stream stalls,
//! or steps over it.

mod common;

use common::signals::saw;
use kelpladder::{Outcome, SonicStream};

const CHUNK: usize = 4_096;

/// The frames that a step needs to be held.
const REQUIRED: usize = 246;

fn skim() -> SonicStream {
    let mut stream = SonicStream::new(8_000, 1).expect("in range");
    stream.set_speed(20.0);
    stream.set_pitch(0.5);
    stream
}

/// The outcomes of chunks of a voice of this period, one after the other.
fn write_chunks(stream: &mut SonicStream, period: usize, count: usize) -> Vec<Outcome> {
    let samples = saw(0, count * CHUNK, 1, period, 0);
    samples.chunks(CHUNK).map(|chunk| stream.write_f32(chunk).outcome).collect()
}

fn all_are(outcomes: &[Outcome], outcome: Outcome) -> bool {
    outcomes.iter().all(|&each| each == outcome)
}

#[test]
fn a_low_voice_runs_to_its_end() {
    let mut stream = skim();
    assert!(all_are(&write_chunks(&mut stream, 62, 100), Outcome::Stretched));
    // A step uses 63 frames and makes one; all but the twelve last become two each.
    let steps = (100 * CHUNK - REQUIRED) / 63 + 1;
    assert_eq!(stream.available_frames(), 2 * (steps - 12));
    stream.flush();
    assert!(stream.available_frames() > 2 * (steps - 12));
}

#[test]
fn a_high_voice_stalls_and_later_writes_say_so() {
    let mut stream = skim();
    assert!(all_are(&write_chunks(&mut stream, 62, 5), Outcome::Stretched));
    assert!(all_are(&write_chunks(&mut stream, 34, 5), Outcome::Stalled));
    assert!(all_are(&write_chunks(&mut stream, 62, 5), Outcome::Stalled));
    assert_eq!(stream.write_f32(&[]).outcome, Outcome::Stalled);
}

/// At speed 10.5 and pitch 0.5 silence, of period 20, gives a frame or none by the last bit of the local speed, which is near 21.
#[test]
fn a_later_write_can_leave_a_stall() {
    let mut stream = skim();
    stream.set_speed(10.5);
    assert_eq!(stream.write_f32(&[0.0; 355]).outcome, Outcome::Stalled);
    assert_eq!(stream.write_f32(&[0.0; 1]).outcome, Outcome::Stretched);
}

#[test]
fn a_flush_ends_a_stall() {
    let mut stream = skim();
    assert!(all_are(&write_chunks(&mut stream, 34, 3), Outcome::Stalled));
    assert_eq!(stream.flush().outcome, Outcome::Stalled);
    assert_eq!(stream.write_f32(&[]).outcome, Outcome::Empty);
    assert!(all_are(&write_chunks(&mut stream, 62, 5), Outcome::Stretched));
}

/// A skim track that steps over.
fn stepping_over() -> SonicStream {
    let mut stream = skim();
    stream.set_step_over(true);
    stream
}

#[test]
fn a_low_voice_has_no_period_to_pass_over() {
    let (mut plain, mut stream) = (skim(), stepping_over());
    for chunk in saw(0, 20 * CHUNK, 1, 62, 0).chunks(CHUNK) {
        assert_eq!(stream.write_f32(chunk), plain.write_f32(chunk));
    }
    assert_eq!(stream.read_f32(usize::MAX), plain.read_f32(usize::MAX));
}

#[test]
fn a_high_voice_is_passed_over_and_the_track_goes_on() {
    let mut stream = stepping_over();
    assert!(all_are(&write_chunks(&mut stream, 62, 5), Outcome::Stretched));
    let (before, made) = (stream.balance(), stream.available_frames());
    let told: Vec<_> = saw(0, 5 * CHUNK, 1, 34, 0).chunks(CHUNK).map(|chunk| stream.write_f32(chunk)).collect();
    let passed: usize = told.iter().map(|told| told.passed).sum();
    assert!(told.iter().all(|told| told.outcome == Outcome::Stretched && told.passed > 0));
    assert!(stream.balance().skipped - before.skipped >= 34 * passed as u64);
    assert!(all_are(&write_chunks(&mut stream, 62, 5), Outcome::Stretched));
    assert!(stream.available_frames() >= made + 5 * CHUNK * 2 / 63 - 12);
}

#[test]
fn a_flush_counts_the_periods_of_its_silence() {
    let mut stream = stepping_over();
    for flushes in 1..=3 {
        let told = stream.flush();
        // The silence has period 20: of its 492 frames, 13 steps use 20 each.
        assert_eq!((told.outcome, told.passed), (Outcome::Stretched, 13));
        assert_eq!(stream.balance().skipped, 260 * flushes);
    }
}

#[test]
fn switched_on_after_a_stall_it_goes_on_over_what_is_held() {
    let mut stream = skim();
    assert_eq!(stream.write_f32(&[0.0; 300]).outcome, Outcome::Stalled);
    stream.set_step_over(true);
    let told = stream.write_f32(&[]);
    assert_eq!((told.outcome, told.passed), (Outcome::Stretched, 3));
    assert_eq!(stream.balance().skipped, 60);
    stream.set_step_over(false);
    let told = stream.write_f32(&[0.0; 6]);
    assert_eq!((told.outcome, told.passed), (Outcome::Stalled, 0));
}
