//! The skim tool beside the library: the user's job on ten minutes of PCM, with the tool's start, its reads and its writes in its time.

use crate::reels::{samples_of, Job, Reel, JOBS, REELS};
use crate::sides::{required, Ours, Side};
use crate::{rounds, run, times};
use std::fs::{read, write, File};
use std::hint::black_box;
use std::path::Path;
use std::process::{Command, Stdio};

/// Processor time of one run of the tool, from one file to another.
fn time_of_tool(tool: &Path, reel: &Path, track: &Path) -> f64 {
    let start = times::of_children();
    let (input, output) = (File::open(reel).expect("a reel"), File::create(track).expect("a track"));
    let status = Command::new(tool).stdin(input).stdout(output).stderr(Stdio::null()).status().expect("the tool");
    assert!(status.success());
    times::of_children() - start
}

/// The job in the tool's own writes: each fills the input as far as one step uses, and none goes past the end of a block of 4,096 samples.
fn run_by_steps(job: Job, reel: Reel, samples: &[f32], sink: &mut dyn FnMut(&[f32])) {
    let full = required(reel) + reel.rate as usize / 400 - 1;
    let mut side = Ours::open(reel, job);
    for mut block in samples.chunks(4_096) {
        while !block.is_empty() {
            let (step, rest) = block.split_at((full - side.held()).min(block.len()));
            side.write(step);
            block = rest;
        }
        side.read(usize::MAX, sink);
    }
    side.flush();
    side.read(usize::MAX, sink);
}

/// The frames that a job gives, as 16-bit little-endian PCM.
fn bytes_of(work: impl Fn(&mut dyn FnMut(&[f32]))) -> Vec<u8> {
    let mut bytes = Vec::new();
    work(&mut |frames| bytes.extend(frames.iter().flat_map(|x| ((x * 32_767.0).round() as i16).to_le_bytes())));
    bytes
}

fn time_of(work: impl Fn(&mut dyn FnMut(&[f32]))) -> f64 {
    let start = times::of_thread();
    work(&mut |frames| { black_box(frames); });
    times::of_thread() - start
}

/// Prints the tool's time over the library's, and both in milliseconds: the least of the rounds, since a process that is started anew for
/// each round varies more than a thread. The bytes are compared first. Then the same beside the library in the tool's own writes.
pub fn beside_library() {
    let here = std::env::current_exe().expect("this program");
    let (tool, reel_file, track_file) = (here.with_file_name("../bin/skim"), here.with_file_name("reel.pcm"), here.with_file_name("track.pcm"));
    let (job, reel) = (JOBS[0], REELS[0]);
    let bytes: Vec<u8> = samples_of(reel).iter().flat_map(|x| ((x * 32_767.0) as i16).to_le_bytes()).collect();
    let samples: Vec<f32> = bytes.chunks(2).map(|b| f32::from(i16::from_le_bytes([b[0], b[1]])) / 32_767.0).collect();
    write(&reel_file, &bytes).expect("the reel can be written");

    let library = |sink: &mut dyn FnMut(&[f32])| run::<Ours>(job, reel, &samples, sink);
    let by_steps = |sink: &mut dyn FnMut(&[f32])| run_by_steps(job, reel, &samples, sink);
    time_of_tool(&tool, &reel_file, &track_file);
    let track = read(&track_file).expect("a track");
    assert!(!track.is_empty() && track == bytes_of(library) && track == bytes_of(by_steps), "the tool's frames differ");

    let (mut tools, mut writes, mut steps) = (Vec::new(), Vec::new(), Vec::new());
    for _ in 0..rounds() {
        tools.push(time_of_tool(&tool, &reel_file, &track_file));
        writes.push(time_of(library));
        steps.push(time_of(by_steps));
    }
    let (a, b, c) = (times::least(&tools), times::least(&writes), times::least(&steps));
    println!("the tool over the library, {} {} s: {:.2}  {a:.1} {b:.1}", job.name, reel.seconds, a / b);
    println!("the tool over the library in the tool's writes, {} {} s: {:.2}  {a:.1} {c:.1}", job.name, reel.seconds, a / c);
}
