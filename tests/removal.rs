//! Frames removed from the front of an area. Random removals first, each beside a vector of which the same samples are removed. Then, since
//! no contract shows how often a sample is moved, that is counted: this program runs itself with the word `calls` under lackey, the tool
//! of valgrind's that lists every load and every store, and compares those in the areas with what each call may do to them: nothing is
//! moved where no frames go or none remain, and else each remaining sample once; and at pitch 1 the frames go from the input straight to
//! the output, and the stage is not touched at all. Where valgrind is not there it says so.

#[path = "../bindings/rust/src/calls.rs"]
#[allow(dead_code)]
mod calls;
#[path = "signals.rs"]
mod signals;

use std::ops::Range;
use std::process::Command;
use std::sync::atomic::{AtomicUsize, Ordering::Relaxed};

extern "C" {
    fn kernel_remove_front(area: *mut i16, area_length: usize, count: usize, kept: usize);
}

fn remove_front(area: &mut [i16], count: usize, kept: usize) {
    assert!(count + kept <= area.len());
    unsafe { kernel_remove_front(area.as_mut_ptr(), area.len(), count, kept) }
}

fn random_removals() {
    let mut random = signals::Random::new(13);
    const REMOVALS: usize = 20_000;
    for _ in 0..REMOVALS {
        let length = random.below(200);
        let count = random.below(length + 1);
        let kept = random.below(length - count + 1);
        let mut area: Vec<i16> = (0..length).map(|_| random.next() as i16).collect();
        let mut wanted = area[count..count + kept].to_vec();
        wanted.extend(&area[kept..]);
        remove_front(&mut area, count, kept);
        assert_eq!(area, wanted, "{count} of {} samples removed", count + kept);
    }
    println!("removal: {REMOVALS} random removals agree");
}

/// Samples of an area. Input, stage and output lie in this order in one piece of memory; places in it are given in samples.
const LENGTH: usize = 4_096;
const STAGE: usize = LENGTH;
const OUTPUT: usize = 2 * LENGTH;
const MEMORY: usize = 3 * LENGTH;

const COPIED: u32 = 1;
const WAITING: u32 = 2;
const STRETCHED: u32 = 3;

const STAGE_FULL: u32 = 6;
const OUTPUT_FULL: u32 = 7;

/// Stored to before and after each call that is looked at.
static MARK: AtomicUsize = AtomicUsize::new(0);

/// What one call may do to the areas: the places stored to, and those loaded from.
struct Case {
    name: &'static str,
    stored: Places,
    loaded: Places,
}

/// Places touched, each once for each range; only those within a part are looked at.
struct Places {
    within: Range<usize>,
    touched: Vec<Range<usize>>,
}

/// These places and no others.
fn only(touched: Vec<Range<usize>>) -> Places {
    Places { within: 0..MEMORY, touched }
}

/// None of the stage; the other areas are not looked at.
fn none_of_stage() -> Places {
    Places { within: STAGE..OUTPUT, touched: Vec::new() }
}

/// Any places.
fn any() -> Places {
    Places { within: 0..0, touched: Vec::new() }
}

/// The place of `count` samples from `from` on.
fn span(from: usize, count: usize) -> Range<usize> {
    from..from + count
}

/// The rest that is moved to the front of an area when `gone` samples go.
fn moved(area: usize, gone: usize, rest: usize) -> Range<usize> {
    span(area, if gone == 0 { 0 } else { rest })
}

/// A mono stream with its areas, and the calls so far.
struct Calls {
    stream: calls::Stream,
    memory: Vec<i16>,
    cases: Vec<Case>,
}

impl Calls {
    fn new() -> Calls {
        Calls { stream: calls::open(8_000, 1).stream, memory: vec![0; MEMORY], cases: Vec::new() }
    }

    fn look<T>(&mut self, call: impl FnOnce(&mut [i16]) -> T) -> T {
        MARK.store(1, Relaxed);
        let answer = call(&mut self.memory);
        MARK.store(2, Relaxed);
        answer
    }

    fn remove(&mut self, name: &'static str, count: usize, kept: usize) {
        self.look(|memory| remove_front(&mut memory[..LENGTH], count, kept));
        let rest = moved(0, count, kept);
        let loaded = vec![span(count, rest.len())];
        self.cases.push(Case { name, stored: only(vec![rest]), loaded: only(loaded) });
    }

    fn set(&mut self, speed: f32, pitch: f32) {
        self.stream = calls::set_pitch(calls::set_speed(self.stream, speed).stream, pitch).stream;
    }

    /// A write with so many samples of stage and output.
    fn write_in(&mut self, frames: usize, stage_length: usize, output_length: usize) -> calls::Wrote {
        let (stream, samples, mut scratch) = (self.stream, signals::voice(62, frames, 1), [0; 246]);
        self.look(|memory| {
            let (input, others) = memory.split_at_mut(LENGTH);
            let (stage, output) = others.split_at_mut(LENGTH);
            let (stage, output) = (&mut stage[..stage_length], &mut output[..output_length]);
            calls::write_f32(stream, &samples, calls::Areas { input, stage, output, scratch: &mut scratch })
        })
    }

    /// A write; at another pitch than 1 all of them here copy.
    fn write(&mut self, name: &'static str, frames: usize, outcome: u32) {
        let (before, answer) = (self.stream, self.write_in(frames, LENGTH, LENGTH));
        assert_eq!((answer.refusal, answer.told.outcome), (0, outcome), "{name}");
        let after = answer.stream;
        let (used, made) = (before.held + frames - after.held, after.waiting - before.waiting);
        let mut stored = vec![span(before.held, frames), span(OUTPUT + before.waiting, made), moved(0, used, after.held)];
        if before.pitch != 1.0 {
            stored.extend([span(STAGE + before.tail, used), moved(STAGE, before.tail + used - after.tail, after.tail)]);
        }
        self.stream = after;
        let loaded = if before.pitch == 1.0 { none_of_stage() } else { any() };
        self.cases.push(Case { name, stored: only(stored), loaded });
    }

    /// A write at pitch 1 that is refused.
    fn refused(&mut self, name: &'static str, frames: usize, (stage, output): (usize, usize), refusal: u32) {
        assert_eq!((self.write_in(frames, stage, output).refusal, self.stream.pitch), (refusal, 1.0), "{name}");
        self.cases.push(Case { name, stored: none_of_stage(), loaded: none_of_stage() });
    }

    /// A flush at pitch 1.
    fn flush(&mut self, name: &'static str, outcome: u32) {
        let (before, mut scratch) = (self.stream, [0; 246]);
        let answer = self.look(|memory| {
            let (input, others) = memory.split_at_mut(LENGTH);
            let (stage, output) = others.split_at_mut(LENGTH);
            calls::flush(before, calls::Areas { input, stage, output, scratch: &mut scratch })
        });
        assert_eq!((answer.refusal, answer.told.outcome, before.pitch), (0, outcome, 1.0), "{name}");
        self.stream = answer.stream;
        self.cases.push(Case { name, stored: none_of_stage(), loaded: none_of_stage() });
    }

    fn read(&mut self, name: &'static str, most: usize) {
        let (before, mut slice) = (self.stream, [0.0; LENGTH]);
        let answer = self.look(|memory| calls::read_f32(before, most, &mut slice, &mut memory[OUTPUT..]));
        assert_eq!(answer.refusal, 0, "{name}");
        let rest = moved(OUTPUT, answer.frames, answer.stream.waiting);
        let loaded = vec![span(OUTPUT, answer.frames), span(OUTPUT + answer.frames, rest.len())];
        self.stream = answer.stream;
        self.cases.push(Case { name, stored: only(vec![rest]), loaded: only(loaded) });
    }
}

/// All calls that are looked at.
fn every_call() -> Calls {
    let mut calls = Calls::new();
    calls.remove("removal of none", 0, 1_000);
    calls.remove("removal of all", 1_000, 0);
    calls.remove("removal of none of none", 0, 0);
    calls.remove("removal of one", 1, 999);
    calls.remove("removal of 160", 160, 2_000);
    calls.remove("removal of all but one", 999, 1);
    calls.remove("removal of half", 500, 500);
    calls.remove("removal of 7, 13 remain", 7, 13);
    calls.remove("removal of 3, 8 remain", 3, 8);
    calls.set(0.5, 0.5);
    calls.write("copied, all input used, a tail left", 1_000, COPIED);
    calls.read("read of 160", 160);
    calls.read("read of none", 0);
    calls.read("read of all", usize::MAX);
    calls.read("read of nothing waiting", usize::MAX);
    calls.set(1.0, 1.0);
    calls.write("copied at pitch 1, the tail stays", 500, COPIED);
    calls.refused("copied at pitch 1, the stage full", 20, (19, LENGTH), STAGE_FULL);
    calls.refused("copied at pitch 1, the output full", 20, (LENGTH, 519), OUTPUT_FULL);
    calls.set(2.0, 1.0);
    calls.write("waiting, no input used", 100, WAITING);
    calls.refused("stretched, the output full and then the stage", 900, (300, 600), STAGE_FULL);
    calls.write("stretched, some input left", 300, STRETCHED);
    assert!(calls.stream.held > 0 && calls.stream.tail > 0);
    calls.read("read of all behind a stretch", usize::MAX);
    calls.set(0.7, 1.0);
    calls.write("stretched to more frames", 600, STRETCHED);
    calls.flush("flushed, stretched", STRETCHED);
    calls.set(1.0, 1.0);
    calls.flush("flushed, copied", COPIED);
    calls
}

/// How often each place is covered.
fn times(places: &[Range<usize>]) -> Vec<u32> {
    let mut times = vec![0; MEMORY];
    places.iter().cloned().flatten().for_each(|place| times[place] += 1);
    times
}

/// Loads and stores of one call: how often each byte of the areas is touched.
struct Touched {
    loaded: Vec<u32>,
    stored: Vec<u32>,
}

/// The touched bytes of each call, out of the list of all loads and stores, by the addresses of the memory and of the mark.
fn touched_in(list: &str, memory: usize, mark: usize) -> Vec<Touched> {
    let (mut all, mut looking) = (Vec::new(), false);
    for line in list.lines() {
        let Some((kind, place)) = line.strip_prefix(' ').and_then(|rest| rest.split_once(' ')) else { continue };
        let Some((address, size)) = place.split_once(',') else { continue };
        let (Ok(address), Ok(size)) = (usize::from_str_radix(address.trim(), 16), size.parse::<usize>()) else { continue };
        if address == mark && kind == "S" {
            looking = !looking;
            if looking {
                all.push(Touched { loaded: vec![0; 2 * MEMORY], stored: vec![0; 2 * MEMORY] });
            }
        }
        let Some(touched) = all.last_mut().filter(|_| looking) else { continue };
        let bytes = (address..address + size).filter_map(|byte| byte.checked_sub(memory)).filter(|&byte| byte < 2 * MEMORY);
        for byte in bytes {
            touched.loaded[byte] += u32::from(kind != "S");
            touched.stored[byte] += u32::from(kind != "L");
        }
    }
    all
}

/// The area of a place, and the place in it.
fn area(place: usize) -> String {
    format!("{} of the {}", place % LENGTH, ["input", "stage", "output"][place / LENGTH])
}

/// That both bytes of each sample are touched as often as is wanted.
fn compare(case: &str, what: &str, bytes: &[u32], wanted: &Places) {
    let times = times(&wanted.touched);
    for place in wanted.within.clone() {
        let (counts, right) = (&bytes[2 * place..2 * place + 2], times[place]);
        assert!(counts == [right; 2], "{case}: the sample at {} is {what} {counts:?} times, and should be {right} times", area(place));
    }
}

fn count_moves() {
    let calls = every_call();
    let program = std::env::current_exe().expect("this program");
    let list = program.with_extension("list");
    let lackey = Command::new("valgrind")
        .args(["--tool=lackey", "--trace-mem=yes", &format!("--log-file={}", list.display())])
        .arg(&program)
        .arg("calls")
        .output();
    let Ok(answer) = lackey else {
        println!("removal: valgrind is not there, moves not counted");
        return;
    };
    assert!(answer.status.success(), "under valgrind: {}", String::from_utf8_lossy(&answer.stderr));
    let addresses = String::from_utf8_lossy(&answer.stdout).into_owned();
    let addresses: Vec<usize> = addresses.split_whitespace().map(|word| word.parse().expect("an address")).collect();
    let text = std::fs::read_to_string(&list).expect("the list");
    std::fs::remove_file(&list).expect("the list");
    let touched = touched_in(&text, addresses[0], addresses[1]);
    assert_eq!(touched.len(), calls.cases.len());
    for (case, touched) in calls.cases.iter().zip(&touched) {
        compare(case.name, "stored to", &touched.stored, &case.stored);
        compare(case.name, "loaded from", &touched.loaded, &case.loaded);
    }
    let moves: u32 = touched.iter().flat_map(|touched| &touched.stored).sum();
    println!("removal: in {} calls each sample is stored as often as it may be, {} times in all", touched.len(), moves / 2);
}

fn main() {
    if std::env::args().nth(1).is_some() {
        let calls = every_call();
        println!("{} {}", calls.memory.as_ptr() as usize, MARK.as_ptr() as usize);
    } else {
        random_removals();
        count_moves();
    }
}
