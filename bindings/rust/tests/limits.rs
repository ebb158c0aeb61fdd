//! The limit of 16,777,216 samples: a call that would pass it answers `Full` and changes nothing.

mod common;

use common::signals::saw;
use kelpladder::{Outcome, SonicStream, MAX_SAMPLES};

const QUARTER: usize = MAX_SAMPLES / 4;

fn stream(speed: f32, pitch: f32) -> SonicStream {
    let mut stream = SonicStream::new(8_000, 1).expect("in range");
    stream.set_speed(speed);
    stream.set_pitch(pitch);
    stream
}

#[test]
fn frames_that_wait_fill_up_and_a_read_makes_room() {
    let (mut stream, quarter) = (stream(1.0, 1.0), vec![0.5; QUARTER]);
    for _ in 0..4 {
        assert_eq!(stream.write_f32(&quarter).outcome, Outcome::Copied);
    }
    assert_eq!(stream.available_frames(), MAX_SAMPLES);
    assert_eq!(stream.write_f32(&[0.5]).outcome, Outcome::Full);
    assert_eq!(stream.available_frames(), MAX_SAMPLES);
    assert_eq!(stream.read_f32(1), [16_383.0 / 32_767.0]);
    assert_eq!(stream.write_f32(&[-0.5]).outcome, Outcome::Copied);
    assert_eq!(stream.read_f32(usize::MAX).last(), Some(&(-16_383.0 / 32_767.0)));
}

#[test]
fn a_write_that_is_too_long_is_not_taken() {
    let mut stream = stream(1.0, 1.0);
    assert_eq!(stream.write_f32(&vec![0.0; MAX_SAMPLES + 1]).outcome, Outcome::Full);
    assert_eq!(stream.available_frames(), 0);
    assert_eq!(stream.write_f32(&[0.5]).outcome, Outcome::Copied);
    assert_eq!(stream.available_frames(), 1);
}

#[test]
fn a_stretch_that_is_too_long_is_not_taken() {
    let mut stream = stream(0.05, 1.0);
    assert_eq!(stream.write_f32(&saw(0, 1_000_000, 1, 62, 0)).outcome, Outcome::Full);
    assert_eq!(stream.write_f32(&saw(0, 10_000, 1, 62, 0)).outcome, Outcome::Stretched);
}

#[test]
fn a_call_that_is_not_taken_passes_over_nothing() {
    let mut stream = stream(20.0, 0.5);
    stream.set_step_over(true);
    let told = stream.write_f32(&vec![0.0; MAX_SAMPLES + 1]);
    assert_eq!((told.outcome, told.passed), (Outcome::Full, 0));
    assert_eq!(stream.balance().skipped, 0);
}

#[test]
fn a_full_stall_can_be_flushed() {
    let (mut stream, quarter) = (stream(20.0, 0.5), saw(0, QUARTER, 1, 34, 0));
    for _ in 0..3 {
        assert_eq!(stream.write_f32(&quarter).outcome, Outcome::Stalled);
    }
    assert_eq!(stream.write_f32(&quarter).outcome, Outcome::Full);
    assert_eq!(stream.write_f32(&quarter[..QUARTER - 2 * 246]).outcome, Outcome::Stalled);
    assert_eq!(stream.write_f32(&[0.0]).outcome, Outcome::Full);
    assert_eq!(stream.flush().outcome, Outcome::Stalled);
    assert_eq!(stream.write_f32(&saw(0, 10_000, 1, 62, 0)).outcome, Outcome::Stretched);
}
