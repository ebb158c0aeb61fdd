//! Shows that the runs bite: each wrong edit of the model has to be found by them.

use std::time::Instant;

use crate::fixed::{first_runs, fixed_runs};
use crate::model::edits::edits;
use crate::model_with;
use crate::run::text;
use crate::runner::{Bench, Failure};
use crate::shrink::shrink;

/// Random runs when the judge is wrong, too.
const RUNS_ALONE: u64 = 300;

/// Runs the fixed test against the model with an edit: the calls compared until it was found, and how.
fn find(number: usize) -> (u64, Option<Failure>) {
    let mut wrong = model_with(number);
    let mut bench = Bench::new(&mut wrong);
    let failure = fixed_runs(&mut bench).err();
    (bench.tally.calls, failure)
}

/// The same where the model that judges carries the edit, too: only the original and the known answers can find it.
fn find_alone(number: usize) -> (u64, Option<Failure>) {
    let mut wrong = model_with(number);
    let mut bench = Bench::judged_by(&mut wrong, model_with(number));
    let failure = first_runs(&mut bench, RUNS_ALONE).err();
    (bench.tally.calls, failure)
}

/// Tries every edit with one of the two and prints a table; how many were found, and how many there are.
fn table(find: fn(usize) -> (u64, Option<Failure>)) -> (usize, usize) {
    let (edits, mut found) = (edits(), 0);
    println!("| no. | part | wrong edit | found after calls | by |\n|---|---|---|---|---|");
    for (number, edit) in (1..).zip(&edits) {
        let (calls, failure) = find(number);
        found += usize::from(failure.is_some());
        let by = failure.map_or("NOT FOUND".to_string(), |failure| failure.what);
        println!("| {number} | {} | {} | {calls} | {} |", edit.part, edit.words, by.split(':').next().unwrap_or(""));
    }
    (found, edits.len())
}

/// The model passes the fixed test, and no wrong edit does.
pub fn bites() -> bool {
    let start = Instant::now();
    let (calls, failure) = find(0);
    if let Some(failure) = failure {
        println!("differential bites: without an edit: {}", failure.what);
        return false;
    }
    println!("differential bites: without an edit all {calls} calls agree");
    let (found, all) = table(find);
    println!("differential bites: {found} of {all} wrong edits found, {:.0} s", start.elapsed().as_secs_f64());
    found == all
}

/// The original and the known answers find every wrong edit even when the model that judges has it, too.
pub fn bites_alone() -> bool {
    let start = Instant::now();
    let ((found, all), time) = (table(find_alone), start.elapsed().as_secs_f64());
    println!("differential bites alone: {found} of {all} wrong edits found by the original and the known answers, {time:.0} s");
    found == all
}

/// Finds one wrong edit, and prints the smallest run that shows it.
pub fn bite(number: usize) -> bool {
    let (calls, failure) = find(number);
    let Some(failure) = failure else {
        println!("differential bites: edit {number} not found in {calls} calls");
        return false;
    };
    println!("differential bites: edit {number} found after {calls} calls: {}", failure.what);
    let shrunk = shrink(failure, &mut model_with(number));
    println!("{}\n{}", shrunk.what, text(&shrunk.calls));
    true
}
