//! The choice of ties and the sum told, in numbers. At 8,000 frames a second a step needs 246 frames, and at speed 2 it skips one period and
//! gives another.

mod common;

use common::signals::{choir, to_write};
use kelpladder::{Outcome, SonicError, SonicStream, Ties, Told};

const REQUIRED: usize = 246;

/// A choir in which the periods 40, 80 and 120 have the same mean of differences, d.
fn voice(d: usize) -> Vec<f32> {
    to_write(&choir(40, REQUIRED, d as i16))
}

fn stream(ties: Ties, speed: f32, pitch: f32) -> SonicStream {
    let mut stream = SonicStream::with_ties(8_000, 1, ties).expect("in range");
    stream.set_speed(speed);
    stream.set_pitch(pitch);
    stream
}

/// The period of the one step of a write, and what is told of it.
fn step(mut stream: SonicStream, samples: &[f32]) -> (usize, Told) {
    let told = stream.write_f32(samples);
    assert_eq!((told.outcome, told.passed), (Outcome::Stretched, 0));
    assert_eq!(stream.balance().skipped, stream.available_frames() as u64);
    (stream.available_frames(), told)
}

#[test]
fn a_choir_has_its_shortest_or_its_longest_period() {
    for d in [0, 30] {
        for (ties, period) in [(Ties::Smallest, 40), (Ties::Largest, 120)] {
            let (found, told) = step(stream(ties, 2.0, 1.0), &voice(d));
            assert_eq!((found, told.sum), (period, period * d));
        }
    }
}

#[test]
fn a_new_stream_has_the_smallest() {
    assert_eq!(Ties::default(), Ties::Smallest);
    let mut plain = SonicStream::new(8_000, 1).expect("in range");
    plain.set_speed(2.0);
    assert_eq!(step(plain, &voice(30)).0, 40);
}

#[test]
fn openings_out_of_range_are_errors_with_either_choice() {
    for ties in [Ties::Smallest, Ties::Largest] {
        let rate = SonicStream::with_ties(999, 33, ties).map(|_| ()).expect_err("rate");
        let channels = SonicStream::with_ties(8_000, 33, ties).map(|_| ()).expect_err("channels");
        assert_eq!((rate, channels), (SonicError::SampleRateOutOfRange(999), SonicError::ChannelsOutOfRange(33)));
    }
}

#[test]
fn settings_flushes_and_reads_leave_the_choice() {
    let mut stream = stream(Ties::Largest, 2.0, 0.5);
    stream.set_volume(2.0);
    stream.set_step_over(true);
    stream.write_f32(&voice(0));
    stream.flush();
    stream.read_f32(usize::MAX);
    stream.set_step_over(false);
    stream.set_pitch(1.0);
    assert_eq!((stream.write_f32(&voice(30)).sum, stream.available_frames()), (120 * 30, 120));
}

#[test]
fn only_a_call_that_searches_tells_a_sum() {
    let mut stream = stream(Ties::Largest, 2.0, 1.0);
    let samples = voice(30);
    assert_eq!(stream.write_f32(&[]).sum, 0);
    assert_eq!(stream.write_f32(&samples[..REQUIRED - 1]).sum, 0);
    assert_eq!(stream.write_f32(&samples[REQUIRED - 1..]).sum, 120 * 30);
    assert_eq!(stream.write_f32(&[]).sum, 0);
    stream.flush();
    stream.set_speed(1.0);
    let told = stream.write_f32(&samples);
    assert_eq!((told.outcome, told.sum), (Outcome::Copied, 0));
}

/// The smallest period of silence, 20, gives no frame at this speed; the largest, 123, gives 3.
#[test]
fn silence_does_not_stall_with_the_largest() {
    let silence = [0.0; 1_000];
    assert_eq!(stream(Ties::Smallest, 20.0, 0.5).write_f32(&silence).outcome, Outcome::Stalled);
    let mut stream = stream(Ties::Largest, 20.0, 0.5);
    for _ in 0..9 {
        assert_eq!(stream.write_f32(&silence).outcome, Outcome::Stretched);
    }
    assert_eq!(stream.flush().outcome, Outcome::Stretched);
}
