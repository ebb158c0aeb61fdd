//! The modes that compare the subject: the fixed runs, the long ones, and one run again.

use std::time::Instant;

use crate::borders::{openings, orders, rooms, tails, Border};
use crate::figures::{every_rate, figures, large, rate_borders, Figure};
use crate::phases::phases;
use crate::run::{parse, text};
use crate::runner::{Bench, Failure};
use crate::searches::{high_rates, searches};
use crate::shrink::shrink;
use crate::{model_with, subject};

/// Random runs of the fixed test.
const FIXED_RUNS: u64 = 5_000;
/// Made-up streams whose calls are tried in areas just long enough and one sample short.
const BORDER_SEEDS: u64 = 300;
/// Made-up streams with a tail whose calls are tried in stages around it.
const TAIL_SEEDS: u64 = 150;

/// Says what differs from what is known, if it is known.
fn known<T: PartialEq + std::fmt::Debug>(what: &str, wanted: &Option<T>, got: &T) -> Option<String> {
    let wanted = wanted.as_ref().filter(|wanted| *wanted != got)?;
    Some(format!("{what} {got:?} in place of {wanted:?}"))
}

/// Plays a figure; its last answer has to be the one known, and so has whatever else is known of it.
fn play_figure(bench: &mut Bench<'_>, figure: Figure) -> Result<(), Failure> {
    let answer = bench.play(&figure.calls)?;
    let answered = (answer.refusal, answer.outcome, answer.frames);
    let stream = bench.stream;
    let what = known("answer", &Some(figure.wanted), &answered)
        .or_else(|| known("output", &figure.output, &bench.output))
        .or_else(|| known("totals", &figure.balance, &stream.balance))
        .or_else(|| known("periods passed over", &figure.passed, &answer.passed))
        .or_else(|| known("step_over", &figure.step_over, &stream.step_over))
        .or_else(|| known("sum", &figure.sum, &answer.sum))
        .or_else(|| known("period", &figure.period, &stream.prev_period))
        .or_else(|| known("ties", &figure.ties, &stream.ties));
    what.map_or(Ok(()), |what| Err(Failure { what: format!("{}: {what}", figure.name), calls: figure.calls }))
}

/// Plays a run at a border; its last call has to meet the refusal known.
fn play_border(bench: &mut Bench<'_>, border: Border) -> Result<(), Failure> {
    let answer = bench.play(&border.calls)?;
    if answer.refusal == border.refusal {
        return Ok(());
    }
    Err(Failure { what: format!("{}: refusal {} in place of {}", border.name, answer.refusal, border.refusal), calls: border.calls })
}

/// The runs with known answers, and random runs: figures, openings, borders, rates where a rule turns, phases, searches.
pub fn first_runs(bench: &mut Bench<'_>, random_runs: u64) -> Result<(), Failure> {
    figures().into_iter().try_for_each(|figure| play_figure(bench, figure))?;
    openings().into_iter().try_for_each(|opening| play_border(bench, opening))?;
    orders().into_iter().try_for_each(|border| play_border(bench, border))?;
    let model = model_with(0);
    (0..BORDER_SEEDS).flat_map(|seed| rooms(&model, seed)).try_for_each(|border| play_border(bench, border))?;
    (0..TAIL_SEEDS).flat_map(|seed| tails(&model, seed)).try_for_each(|border| play_border(bench, border))?;
    rate_borders().into_iter().try_for_each(|calls| bench.play(&calls).map(|_| ()))?;
    phases().into_iter().try_for_each(|figure| play_figure(bench, figure))?;
    searches().into_iter().try_for_each(|figure| play_figure(bench, figure))?;
    (0..random_runs).try_for_each(|seed| bench.random(seed))
}

/// The fixed runs: the first ones, then sounds at high rates, every rate and the longest inputs.
pub fn fixed_runs(bench: &mut Bench<'_>) -> Result<(), Failure> {
    first_runs(bench, FIXED_RUNS)?;
    high_rates().try_for_each(|calls| bench.play(&calls).map(|_| ()))?;
    every_rate().try_for_each(|call| bench.play(&[call]).map(|_| ()))?;
    large().into_iter().try_for_each(|figure| play_figure(bench, figure))
}

/// Prints a failed run as it is, then shrunk.
fn report(failure: Failure) {
    println!("differential: {} after {} calls; shrinking", failure.what, failure.calls.len());
    let (_, mut subject) = subject();
    let shrunk = shrink(failure, &mut *subject);
    println!("differential: {}\nThe run, which `differential replay` plays again:\n{}", shrunk.what, text(&shrunk.calls));
}

/// Prints how a comparison ended.
fn conclude(mode: &str, name: &str, ended: Result<(), Failure>, bench: &Bench<'_>, start: Instant) -> bool {
    if let Err(failure) = ended {
        report(failure);
        return false;
    }
    println!("differential {mode}: the {name} agrees with the original, {:.0} s", start.elapsed().as_secs_f64());
    bench.tally.print(&bench.judge);
    let missing = bench.tally.missing(&bench.judge);
    if !missing.is_empty() {
        println!("differential {mode}: not met: {}", missing.join(", "));
    }
    missing.is_empty()
}

/// The fixed test.
pub fn fixed() -> bool {
    let start = Instant::now();
    let (name, mut subject) = subject();
    let mut bench = Bench::new(&mut *subject);
    let ended = fixed_runs(&mut bench);
    conclude("fixed", name, ended, &bench, start)
}

/// Random runs of a seed until so many million calls were compared.
pub fn long(seed: u64, millions: f64) -> bool {
    println!("differential long: seed {seed}, {millions} million calls");
    let start = Instant::now();
    let (name, mut subject) = subject();
    let mut bench = Bench::new(&mut *subject);
    let mut ended = Ok(());
    let mut run = seed << 32;
    while ended.is_ok() && (bench.tally.calls as f64) < millions * 1e6 {
        ended = bench.random(run);
        run += 1;
    }
    conclude("long", name, ended, &bench, start)
}

/// Plays a run from a file, or given as text.
pub fn replay(run: &str) -> bool {
    let text = std::fs::read_to_string(run).unwrap_or_else(|_| run.replace(';', "\n"));
    let (name, mut subject) = subject();
    let mut bench = Bench::new(&mut *subject);
    let ended = parse(&text).and_then(|calls| bench.play(&calls).map_err(|failure| format!("call {}: {}", failure.calls.len(), failure.what)));
    match &ended {
        Ok(answer) => println!("differential replay: the {name} agrees with the original on {} calls; last: {answer:?}", bench.tally.calls),
        Err(what) => println!("differential replay: {what}"),
    }
    ended.is_ok()
}
