//! Instructions, counted by valgrind in runs of this program.

use crate::judges::stepping_over;
use crate::reels::{job, pairs, Job, Reel, MINUTE};
use crate::sides::{Ours, Side};
use crate::{line_name, run, SonicStream};
use std::hint::black_box;
use std::process::Command;

const COUNTED_SECONDS: usize = 2;

/// What valgrind counts: the work of one job on one side, with the reel made beforehand.
#[no_mangle]
#[inline(never)]
pub extern "C" fn measured(ours: bool, job: &Job, reel: &Reel, samples: &Vec<f32>) {
    let mut sink = |frames: &[f32]| { black_box(frames); };
    if ours {
        run::<Ours>(*job, *reel, samples, &mut sink);
    } else if job.step_over {
        run::<stepping_over::SonicStream>(*job, *reel, samples, &mut sink);
    } else {
        run::<SonicStream>(*job, *reel, samples, &mut sink);
    }
}

/// What valgrind counts: one read that takes all frames waiting.
#[no_mangle]
#[inline(never)]
pub extern "C" fn measured_read(side: &mut Ours) {
    side.read(usize::MAX, &mut |frames| { black_box(frames); });
}

/// A read that takes all of 160 frames out of an output of this length.
pub fn read_all(length: usize) {
    let mut side = Ours::with_areas(MINUTE, job("read-all", 1.0, 1.0), length);
    side.write(&[0.5; 160]);
    measured_read(&mut side);
}

/// Instructions of a function, counted by valgrind in a run of this program with these words; none if valgrind cannot be run.
fn instructions_of(function: &str, words: &[&str]) -> Option<f64> {
    let program = std::env::current_exe().ok()?;
    let profile = program.with_file_name(format!("callgrind.{}", words.join(".")));
    let answer = Command::new("valgrind")
        .args(["--tool=callgrind", &format!("--toggle-collect={function}")])
        .arg(format!("--callgrind-out-file={}", profile.display()))
        .arg(&program)
        .args(words)
        .output()
        .ok()?;
    let text = String::from_utf8_lossy(&answer.stderr).into_owned();
    let count = text.lines().find_map(|line| line.split("Collected :").nth(1))?;
    count.trim().parse().ok()
}

/// Instructions of one job on one side.
fn instructions(side: &str, job: Job, reel: Reel, seconds: usize) -> Option<f64> {
    instructions_of("measured", &[side, job.name, reel.name, &seconds.to_string()])
}

/// Instructions of a job: ours, the original's, and ours with four times the reel.
fn counts_of(job: Job, reel: Reel) -> Option<[f64; 3]> {
    let longer = instructions("ours", job, reel, 4 * COUNTED_SECONDS)?;
    Some([instructions("ours", job, reel, COUNTED_SECONDS)?, instructions("original", job, reel, COUNTED_SECONDS)?, longer])
}

pub fn count_instructions() {
    let longer = 4 * COUNTED_SECONDS;
    println!("instructions for {COUNTED_SECONDS} seconds: ratio, ours and the original's in millions; ours for {longer} seconds over ours");
    for (job, reel) in pairs() {
        let Some([ours, original, longer]) = counts_of(job, reel) else {
            println!("not counted: valgrind is not there, or gave no count");
            return;
        };
        println!("{:18} {:.2}  {:.2} {:.2}  {:.2}", line_name(job, reel), ours / original, ours / 1e6, original / 1e6, longer / ours);
    }
}

/// The instructions of a read that takes all, with a short output area and the longest.
pub fn count_read_all() {
    let count = |length: &str| instructions_of("measured_read", &["read", length]);
    if let (Some(short), Some(long)) = (count("65536"), count("16777216")) {
        println!("a read that takes all of 160 frames: {short} instructions with an output of 65,536 samples, {long} with one of 16,777,216");
    }
}
