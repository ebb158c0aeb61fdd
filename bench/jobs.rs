
// ---- Whole jobs of Kelpladder beside the stream above. This text is joined to the original's, which is otherwise unchanged. A job that steps
// over is beside a copy of the original's text with one return taken out, in the module `judges`.
// `jobs` compares the frames of both sides and prints for each job and reel: its name, our time over the original's (medians of
// interleaved rounds over the whole reel), and both medians in milliseconds. Times are processor times of the thread, so that other work
// on the machine counts less. Both sides read in their own way: the original gives a new vector, ours fills a slice that is lent.
// Then it does the same with synthetic speech, where espeak-ng and sox are there, times the skim tool beside the library and the reading of a
// WAVE file's head, counts instructions by valgrind, where that is there, and paints a stack to see how much of it the calls use.
// ROUNDS in the environment gives the rounds, 15 if it is not set; with fewer, instructions are not counted.
// `jobs JOB REEL` times one job only, `jobs synthetic` the synthetic speech, `jobs tool` the tool, `jobs wave` the heads, `jobs stack` measures
// the stack only. `jobs SIDE JOB REEL SECONDS` runs one job on one side (ours, original), `jobs read LENGTH` a read that takes all, out of an
// output of that length, for a profiler.

#[path = "../../bindings/rust/src/calls.rs"]
#[allow(dead_code)]
mod calls;
#[path = "../../bench/jobs/instructions.rs"]
mod instructions;
#[path = "../judges.rs"]
mod judges;
#[path = "../../bench/jobs/reels.rs"]
mod reels;
#[path = "../../bench/jobs/sides.rs"]
mod sides;
#[path = "../../tests/signals.rs"]
mod signals;
#[path = "../../bench/jobs/stack.rs"]
mod stack;
#[path = "../../bench/jobs/synthetic.rs"]
mod synthetic;
#[path = "../../bench/jobs/times.rs"]
mod times;
#[path = "../../bench/jobs/tool.rs"]
mod tool;
#[path = "../../bench/jobs/wave.rs"]
mod wave;

use judges::stepping_over;
use reels::{pairs, samples_of, Job, Reel};
use sides::{Ours, Side};
use std::hint::black_box;

const ROUNDS: usize = 15;

fn rounds() -> usize {
    std::env::var("ROUNDS").map_or(ROUNDS, |word| word.parse().expect("ROUNDS is a number"))
}

/// The whole work of a job, from opening to the read after the flush.
#[inline(never)]
fn run<S: Side>(job: Job, reel: Reel, samples: &[f32], sink: &mut dyn FnMut(&[f32])) {
    let mut side = S::open(reel, job);
    for chunk in samples.chunks(job.chunk * reel.channels as usize) {
        side.write(chunk);
        while side.read(job.most, sink) > 0 && job.until_none {}
    }
    side.flush();
    side.read(usize::MAX, sink);
}

fn frames_of<S: Side>(job: Job, reel: Reel, samples: &[f32]) -> Vec<u32> {
    let mut bits = Vec::new();
    run::<S>(job, reel, samples, &mut |frames| bits.extend(frames.iter().map(|x| x.to_bits())));
    bits
}

fn time_of<S: Side>(job: Job, reel: Reel, samples: &[f32]) -> f64 {
    let start = times::of_thread();
    run::<S>(job, reel, samples, &mut |frames| { black_box(frames); });
    times::of_thread() - start
}

fn line_name(job: Job, reel: Reel) -> String {
    format!("{}-{}", job.name, reel.name)
}

/// Compares the frames of both sides, then times them in turn; the side that begins changes from round to round.
fn beside<Original: Side>(job: Job, reel: Reel, samples: &[f32]) {
    let (ours, original) = (frames_of::<Ours>(job, reel, samples), frames_of::<Original>(job, reel, samples));
    assert!(!ours.is_empty() && ours == original, "{} {}: the frames differ", job.name, reel.name);
    let (mut a, mut b) = (Vec::new(), Vec::new());
    for round in 0..rounds() {
        if round % 2 == 0 {
            a.push(time_of::<Ours>(job, reel, samples));
        }
        b.push(time_of::<Original>(job, reel, samples));
        if round % 2 == 1 {
            a.push(time_of::<Ours>(job, reel, samples));
        }
    }
    let (a, b) = (times::median(&mut a), times::median(&mut b));
    println!("{:18} {:.2}  {a:.1} {b:.1}", line_name(job, reel), a / b);
}

/// The same with the original, or with its copy that steps over if the job does.
fn beside_original(job: Job, reel: Reel) {
    let samples = samples_of(reel);
    if job.step_over { beside::<stepping_over::SonicStream>(job, reel, &samples) } else { beside::<SonicStream>(job, reel, &samples) }
}

fn find_job(name: &str) -> Job {
    pairs().map(|(job, _)| job).find(|job| job.name == name).expect("a job's name")
}

fn find_reel(name: &str) -> Reel {
    pairs().map(|(_, reel)| reel).find(|reel| reel.name == name).expect("a reel's name")
}

fn everything() {
    for (job, reel) in pairs() {
        beside_original(job, reel);
    }
    synthetic::beside_stepping_over();
    tool::beside_library();
    wave::read_heads();
    if rounds() >= ROUNDS {
        instructions::count_instructions();
        instructions::count_read_all();
    }
    stack::measure_stack();
}

fn main() {
    let words: Vec<String> = std::env::args().skip(1).collect();
    let words: Vec<&str> = words.iter().map(String::as_str).collect();
    match words.as_slice() {
        [side, job, reel, seconds] => {
            let reel = Reel { seconds: seconds.parse().expect("seconds"), ..find_reel(reel) };
            instructions::measured(*side == "ours", &find_job(job), &reel, &samples_of(reel));
        }
        ["read", length] => instructions::read_all(length.parse().expect("samples")),
        [job, reel] => beside_original(find_job(job), find_reel(reel)),
        ["synthetic"] => synthetic::beside_stepping_over(),
        ["tool"] => tool::beside_library(),
        ["wave"] => wave::read_heads(),
        ["stack"] => stack::measure_stack(),
        _ => everything(),
    }
}
