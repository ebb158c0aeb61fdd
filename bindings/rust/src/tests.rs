//! Tests of the balance, of stepping over and of the tail that look at the frames held or at the areas, or set the totals, which no caller
//! can.

#[path = "../../../tests/signals.rs"]
mod signals;

use crate::{Balance, Outcome, SonicStream};
use signals::changing_saws;

fn stream(speed: f32) -> SonicStream {
    let mut stream = SonicStream::new(8_000, 2).expect("in range");
    stream.set_speed(speed);
    stream
}

/// The law, which at pitch 1 shows in the frames read: no rate conversion lies between.
#[test]
fn frames_out_and_skipped_are_frames_used_and_inserted() {
    for speed in [0.05, 0.3, 0.5, 0.7, 0.97, 1.0, 1.03, 1.6, 2.0, 3.3, 20.0] {
        let (mut stream, mut out, mut written) = (stream(speed), 0, 0);
        for chunk in changing_saws(9_000).chunks(2 * 700) {
            stream.write_f32(chunk);
            written += chunk.len() / 2;
            out += stream.read_f32(usize::MAX).len() / 2;
            let (used, balance) = (written - stream.value.held, stream.balance());
            assert_eq!(out as u64 + balance.skipped, used as u64 + balance.inserted, "speed {speed}");
        }
        let Balance { skipped, inserted } = stream.balance();
        assert_eq!((skipped > 0, inserted > 0), (speed > 1.0, speed < 1.0));
    }
}

/// The law where periods are passed over: they are used and skipped, and nothing comes out of them. At 4,000 frames a second the silence
/// has period 10 and gives no frame at speed 20.
#[test]
fn periods_passed_over_are_used_and_skipped() {
    let (mut stream, mut out, mut written, mut passed) = (SonicStream::new(4_000, 2).expect("in range"), 0, 0, 0);
    stream.set_speed(20.0);
    stream.set_step_over(true);
    for chunk in [changing_saws(3_000), vec![0.0; 6_000], changing_saws(3_000)].concat().chunks(2 * 700) {
        let told = stream.write_f32(chunk);
        assert_eq!(told.outcome, Outcome::Stretched);
        passed += told.passed;
        written += chunk.len() / 2;
        out += stream.read_f32(usize::MAX).len() / 2;
        assert_eq!(out as u64 + stream.balance().skipped, (written - stream.value.held) as u64);
    }
    assert!(passed > 250 && out > 0);
}

#[test]
fn a_total_that_would_pass_its_end_is_full() {
    let (mut stream, voice) = (stream(2.0), changing_saws(1_000));
    stream.value.balance = Balance { skipped: u64::MAX, inserted: u64::MAX };
    assert_eq!(stream.write_f32(&voice).outcome, Outcome::Full);
    assert_eq!(stream.flush().outcome, Outcome::Full);
    stream.set_speed(0.5);
    assert_eq!(stream.write_f32(&voice).outcome, Outcome::Full);
    assert_eq!((stream.value.held, stream.available_frames()), (0, 0));
    stream.set_speed(1.0);
    assert_eq!(stream.write_f32(&voice).outcome, Outcome::Copied);
    assert_eq!(stream.balance(), Balance { skipped: u64::MAX, inserted: u64::MAX });
}

/// At pitch 1 the tail of a lowered voice takes no room of the stage, which has 4,096 samples at first; at another pitch it does.
#[test]
fn a_tail_takes_no_room_at_pitch_one() {
    let mut stream = SonicStream::new(8_000, 1).expect("in range");
    for (pitch, frames, stage, waiting) in [(0.5, 24, 4_096, 24), (1.0, 4_096, 4_096, 4_120), (0.5, 4_096, 8_192, 12_312)] {
        stream.set_speed(pitch);
        stream.set_pitch(pitch);
        assert_eq!(stream.write_f32(&vec![0.25; frames]).outcome, Outcome::Copied);
        assert_eq!((stream.value.tail, stream.areas.stage.len(), stream.available_frames()), (12, stage, waiting));
    }
}
