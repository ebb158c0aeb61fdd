//! WAVE files: the library beside answers that are known, and beside a model of reading and writing by the words of request C-11: every
//! beginning and every changed byte of small files, random files, and writes around each limit. Each wrong edit of the model has to be found
//! twice, by the known answers alone and by the comparison with the model; those of a limit at the limit. Besides, the division on the way
//! into a write.

#[path = "../bindings/rust/src/calls.rs"]
#[allow(dead_code)]
mod calls;
#[path = "wave/compare.rs"]
mod compare;
#[path = "wave/edits.rs"]
mod edits;
#[path = "wave/files.rs"]
mod files;
#[path = "wave/known.rs"]
mod known;
#[path = "wave/model.rs"]
mod model;
#[path = "wave/reading.rs"]
mod reading;
#[path = "signals.rs"]
mod signals;
#[path = "wave/stored.rs"]
mod stored;
#[path = "wave/writing.rs"]
mod writing;

use compare::{Beside, Compared, Library};
use edits::{Edit, EDITS, LIMIT_EDITS, LONG_EDITS};
use model::{Model, Right};
use reading::{Zeros, LONG};
use std::collections::BTreeMap;

/// Answers known without the model.
fn known_answers(beside: &mut Beside) -> Compared {
    known::reads(beside)?;
    known::writes(beside)
}

/// Answers of the model.
fn answers_of_model(beside: &mut Beside) -> Compared {
    use reading::{beginnings, changes, sizes};
    use writing::{every_sample, lengths, settings};
    let parts = [lengths, settings, every_sample, beginnings, sizes, changes, reading::random, writing::random];
    parts.into_iter().try_for_each(|part| part(beside))
}

/// The most samples of a file, and more.
fn limits(beside: &mut Beside) -> Compared {
    reading::past_the_limit(beside)?;
    writing::most(beside)
}

/// The edits that are not found by a part.
fn missed(edits: &'static [Edit], mut part: impl FnMut(&mut Beside) -> Compared) -> Vec<&'static str> {
    let not_found = edits.iter().filter(|edit| part(&mut Beside::new(&Model(edit.wrong))).is_ok());
    not_found.map(|edit| edit.words).collect()
}

/// Every sample of a file, divided by 32,767 in f32 on its way into a write, is stored and read as it was, but −32,768 as −32,767.
fn division() -> Compared {
    const EVERY: usize = 65_536;
    let samples: Vec<f32> = (i16::MIN..=i16::MAX).map(|sample| f32::from(sample) / 32_767.0).collect();
    let (mut input, mut stage, mut output, mut scratch) = (vec![0; EVERY], vec![0; EVERY], vec![0; EVERY], vec![0; 246]);
    let areas = calls::Areas { input: &mut input, stage: &mut stage, output: &mut output, scratch: &mut scratch };
    let wrote = calls::write_f32(calls::open(8_000, 1).stream, &samples, areas);
    let stored = (i16::MIN..=i16::MAX).map(|sample| sample.max(-32_767));
    if wrote.refusal != 0 || !stored.clone().eq(output.iter().copied()) {
        return Err("a sample divided by 32,767 is stored as another".to_string());
    }
    let mut slice = vec![0.0; EVERY];
    let gave = calls::read_f32(wrote.stream, EVERY, &mut slice, &mut output);
    let back = slice.iter().zip(&samples).skip(1).all(|(x, y)| x.to_bits() == y.to_bits());
    (gave.frames == EVERY && back && slice[0] == -1.0).then_some(()).ok_or("a sample divided by 32,767 is read as another".to_string())
}

fn counts(answers: &BTreeMap<u32, usize>) -> String {
    let parts: Vec<String> = answers.iter().map(|(refusal, count)| format!("{refusal}: {count}")).collect();
    format!("{} ({})", answers.values().sum::<usize>(), parts.join(", "))
}

/// That the model without an edit passes, and that no wrong edit does; the count of edits.
fn bites(zeros: &mut Option<Zeros>) -> Result<usize, String> {
    known_answers(&mut Beside::new(&Model(&Right))).map_err(|found| format!("the model without an edit: {found}"))?;
    let mut left = [missed(EDITS, known_answers), missed(EDITS, answers_of_model), missed(LIMIT_EDITS, limits)].concat();
    let mut count = EDITS.len() + LIMIT_EDITS.len();
    if let Some(zeros) = zeros {
        count += LONG_EDITS.len();
        left.extend(missed(LONG_EDITS, |beside| reading::past_32_bits(beside, zeros)));
    }
    left.is_empty().then_some(count).ok_or(format!("wrong edits of the model that are not found: {}", left.join("; ")))
}

fn run() -> Result<String, String> {
    let (mut beside, mut zeros) = (Beside::new(&Library), Zeros::new(LONG));
    known_answers(&mut beside)?;
    let known: usize = beside.reads.values().chain(beside.writes.values()).sum();
    let files = stored::files(&mut beside)?;
    answers_of_model(&mut beside)?;
    limits(&mut beside)?;
    match &mut zeros {
        Some(zeros) => reading::past_32_bits(&mut beside, zeros)?,
        None => println!("wave: no room for a file of 4 GiB, not read"),
    }
    division()?;
    let edits = bites(&mut zeros)?;
    let (reads, writes) = (counts(&beside.reads), counts(&beside.writes));
    Ok(format!(
        "reads {reads} and writes {writes}, by their refusals, agree, {known} of them known and {files} files of sox and ffmpeg; \
         {edits} of {edits} wrong edits of the model found"
    ))
}

fn main() {
    match run() {
        Ok(summary) => println!("wave: {summary}"),
        Err(found) => {
            eprintln!("wave: {found}");
            std::process::exit(1);
        }
    }
}
