//! The frames of periods skipped and inserted, in runs of a voice of period 62 at 8,000 frames a second.

mod common;

use common::signals::saw;
use kelpladder::{Balance, Outcome, SonicStream};

/// The frames that a step needs to be held.
const REQUIRED: usize = 246;

/// The frames written to a stream at a speed.
const FRAMES: usize = 10_000;

fn stream(speed: f32) -> SonicStream {
    let mut stream = SonicStream::new(8_000, 1).expect("in range");
    stream.set_speed(speed);
    stream
}

/// A stream to which the voice was written in chunks.
fn written(speed: f32) -> SonicStream {
    let mut stream = stream(speed);
    for chunk in saw(0, FRAMES, 1, 62, 0).chunks(700) {
        assert_eq!(stream.write_f32(chunk).outcome, Outcome::Stretched);
    }
    stream
}

#[test]
fn a_new_stream_has_skipped_and_inserted_nothing() {
    assert_eq!(stream(2.0).balance(), Balance::default());
}

#[test]
fn skips_count_their_periods() {
    // A step uses 82 frames and gives 20.
    let (stream, steps) = (written(4.0), (FRAMES - REQUIRED) / 82 + 1);
    assert_eq!(stream.balance(), Balance { skipped: 62 * steps as u64, inserted: 0 });
    assert_eq!(stream.available_frames(), 20 * steps);
}

#[test]
fn inserts_count_their_periods() {
    // A step uses 20 frames and gives 82.
    let (stream, steps) = (written(0.25), (FRAMES - REQUIRED) / 20 + 1);
    assert_eq!(stream.balance(), Balance { skipped: 0, inserted: 62 * steps as u64 });
    assert_eq!(stream.available_frames(), 82 * steps);
}

#[test]
fn a_copy_counts_nothing() {
    let mut stream = stream(1.0);
    assert_eq!(stream.write_f32(&saw(0, FRAMES, 1, 62, 0)).outcome, Outcome::Copied);
    assert_eq!(stream.balance(), Balance::default());
}

#[test]
fn a_stalled_write_counts_nothing() {
    let mut stream = stream(20.0);
    stream.set_pitch(0.5);
    assert_eq!(stream.write_f32(&saw(0, FRAMES, 1, 62, 0)).outcome, Outcome::Stretched);
    let balance = stream.balance();
    assert!(balance.skipped > 0);
    assert_eq!(stream.write_f32(&saw(0, FRAMES, 1, 34, 0)).outcome, Outcome::Stalled);
    assert_eq!(stream.balance(), balance);
}

#[test]
fn settings_and_reads_leave_the_totals() {
    let mut stream = written(4.0);
    let balance = stream.balance();
    stream.set_speed(0.5);
    stream.set_pitch(2.0);
    stream.set_volume(0.5);
    assert!(!stream.read_f32(usize::MAX).is_empty());
    assert_eq!(stream.balance(), balance);
}

#[test]
fn a_flush_counts_its_steps_and_clears_nothing() {
    // The silence has period 20: of 492 frames, 7 skips use 40 each, and none of the frames they give is kept.
    let mut stream = stream(2.0);
    for flushes in 1..=3 {
        assert_eq!(stream.flush().outcome, Outcome::Stretched);
        assert_eq!(stream.balance(), Balance { skipped: 140 * flushes, inserted: 0 });
        assert_eq!(stream.available_frames(), 0);
    }
    // 13 inserts use 20 each.
    stream.set_speed(0.5);
    stream.flush();
    assert_eq!(stream.balance(), Balance { skipped: 420, inserted: 260 });
}
