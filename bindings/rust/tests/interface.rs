//! The interface: openings and settings, errors, outcomes, and code that was written for libsonic-rs.
#![deny(warnings)]

use kelpladder::{Outcome, SonicError, SonicStream};

/// As code for libsonic-rs is written: what is told is ignored, and nothing warns.
fn convert(samples: &[f32]) -> Result<Vec<f32>, SonicError> {
    let mut stream = SonicStream::new(8_000, 2)?;
    stream.set_speed(1.0);
    stream.set_pitch(1.0);
    stream.set_volume(2.0);
    stream.write_f32(samples);
    stream.flush();
    let frames: usize = stream.available_frames();
    Ok(stream.read_f32(frames))
}

#[test]
fn code_for_the_original_compiles_and_runs() {
    let given = convert(&[0.25, -0.25, 0.5, 1.0, 0.5]).expect("in range");
    assert_eq!(given, [16_382.0 / 32_767.0, -16_382.0 / 32_767.0, 32_766.0 / 32_767.0, 1.0]);
}

#[test]
fn openings_out_of_range_are_errors() {
    let rate = SonicStream::new(999, 33).map(|_| ()).expect_err("rate");
    let channels = SonicStream::new(8_000, 33).map(|_| ()).expect_err("channels");
    assert_eq!(rate, SonicError::SampleRateOutOfRange(999));
    assert_eq!(channels, SonicError::ChannelsOutOfRange(33));
    assert!(rate.to_string().contains("999") && rate.to_string().contains("1000 to 500000"));
    assert!(channels.to_string().contains("33 channels") && channels.to_string().contains("1 to 32"));
    let _: Box<dyn std::error::Error + Send + Sync> = Box::new(channels.clone());
}

#[test]
fn writes_and_flushes_say_how_they_went() {
    let mut stream = SonicStream::new(8_000, 1).expect("in range");
    assert_eq!(stream.write_f32(&[]).outcome, Outcome::Empty);
    assert_eq!(stream.write_f32(&[0.5; 100]).outcome, Outcome::Copied);
    stream.set_speed(2.0);
    assert_eq!(stream.write_f32(&[0.5; 245]).outcome, Outcome::Waiting);
    assert_eq!(stream.write_f32(&[0.5]).outcome, Outcome::Stretched);
    assert_eq!(stream.flush().outcome, Outcome::Stretched);
}

#[test]
fn settings_are_held_to_their_ranges() {
    let mut stream = SonicStream::new(8_000, 1).expect("in range");
    stream.set_speed(f32::NAN);
    stream.set_pitch(21.0);
    stream.set_volume(-1.0);
    let text = format!("{stream:?}");
    for setting in ["speed: 0.05", "pitch: 20.0", "volume: 0.01"] {
        assert!(text.contains(setting), "{text}");
    }
}

#[test]
fn a_read_takes_no_more_than_waits() {
    let mut stream = SonicStream::new(8_000, 2).expect("in range");
    stream.write_f32(&[1.0, -1.0, 0.0, 1.0]);
    assert_eq!(stream.read_f32(0), []);
    assert_eq!(stream.read_f32(1), [1.0, -1.0]);
    assert_eq!(stream.read_f32(usize::MAX), [0.0, 1.0]);
    assert_eq!(stream.read_f32(5), []);
}

#[test]
fn streams_go_between_threads() {
    fn shared<T: Send + Sync>() {}
    shared::<SonicStream>();
}
