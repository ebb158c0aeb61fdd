//! Ten minutes of synthetic speech, read by espeak-ng (tools/make_speech.sh), stepped over.

use crate::judges::stepping_over;
use crate::reels::{Reel, SPEECH, STEPPING};
use crate::{beside, line_name};
use std::process::{Command, Stdio};

/// The programs that the speech is made with, both Debian packages.
const MAKERS: [&str; 2] = ["espeak-ng", "sox"];

/// Whether a program can be run.
fn is_there(program: &str) -> bool {
    Command::new(program).arg("--version").stdout(Stdio::null()).stderr(Stdio::null()).status().is_ok()
}

/// The speech: at 8,000 Hz, mono, as the reel of arithmetic is.
fn samples() -> Vec<f32> {
    let tool = std::env::current_exe().expect("this program").with_file_name("../../tools/make_speech.sh");
    let made = Command::new(tool).stderr(Stdio::inherit()).output().expect("tools/make_speech.sh");
    assert!(made.status.success(), "tools/make_speech.sh failed");
    made.stdout.chunks_exact(2).map(|b| f32::from(i16::from_le_bytes([b[0], b[1]])) / 32_767.0).collect()
}

/// Times the speech beside the copy of the original that steps over, or says what is missing.
pub fn beside_stepping_over() {
    let reel = Reel { name: "espeak", ..SPEECH };
    let missing: Vec<&str> = MAKERS.into_iter().filter(|program| !is_there(program)).collect();
    if !missing.is_empty() {
        println!("{:18} not timed; not there: {}", line_name(STEPPING, reel), missing.join(", "));
        return;
    }
    let samples = samples();
    assert_eq!(samples.len(), reel.rate as usize * reel.seconds, "tools/make_speech.sh made another length");
    beside::<stepping_over::SonicStream>(STEPPING, reel, &samples);
}
