//! Plays runs, listed or random, and says which call went wrong.

use std::fs::File;
use std::io::Write;
use std::panic::{catch_unwind, AssertUnwindSafe};
use std::sync::atomic::{AtomicBool, Ordering};

use crate::interface::{Stream, Subject};
use crate::lending::Buffers;
use crate::model::Model;
use crate::model_with;
use crate::run::Call;
use crate::session::{Answer, Session};
use crate::streams::Scenario;
use crate::tally::Tally;

/// A run that failed: its calls up to the one that went wrong, and what was wrong.
pub struct Failure {
    pub calls: Vec<Call>,
    pub what: String,
}

/// What takes part in a comparison: the subject, the model that judges, the counts, the output and the stream that the last run left, and
/// the areas.
pub struct Bench<'a> {
    subject: &'a mut dyn Subject,
    pub judge: Model,
    pub tally: Tally,
    pub output: Vec<i16>,
    pub stream: Stream,
    buffers: Buffers,
}

/// The file for the calls of the run under way, if the environment names one as TRACE. Each call is written before it is made, so
/// that one that ends the program, or does not end, can be played again.
fn trace() -> Option<File> {
    std::env::var_os("TRACE").map(|name| File::create(name).expect("a file to write to"))
}

/// Whether a run is under way, whose panics are its failures and are told as such.
static RUNNING: AtomicBool = AtomicBool::new(false);

/// Keeps the panics inside runs from being printed.
pub fn quiet_runs() {
    let outside = std::panic::take_hook();
    std::panic::set_hook(Box::new(move |panic| {
        if !RUNNING.load(Ordering::Relaxed) {
            outside(panic);
        }
    }));
}

/// The words of a panic.
fn panic_words(panic: &(dyn std::any::Any + Send)) -> String {
    let words = panic.downcast_ref::<String>().map(String::as_str).or_else(|| panic.downcast_ref::<&str>().copied());
    format!("a panic: {}", words.unwrap_or("without words"))
}

impl<'a> Bench<'a> {
    /// A comparison of a subject, with nothing counted.
    pub fn new(subject: &'a mut dyn Subject) -> Bench<'a> {
        Bench::judged_by(subject, model_with(0))
    }

    /// A comparison with a model of one's choice as the judge.
    pub fn judged_by(subject: &'a mut dyn Subject, judge: Model) -> Bench<'a> {
        let (tally, output, stream, buffers) = (Tally::default(), Vec::new(), Stream::default(), Buffers::new());
        Bench { subject, judge, tally, output, stream, buffers }
    }

    /// A run that has not begun.
    pub fn session(&mut self) -> Session<'_> {
        Session::new(self.subject, &mut self.judge, &mut self.tally, &mut self.buffers)
    }

    /// Makes calls until there is none, or one goes wrong; a panic counts as wrong. Gives the last answer.
    fn run(&mut self, mut next: impl FnMut(&Session<'_>) -> Option<Call>) -> Result<Answer, Failure> {
        let mut calls = Vec::new();
        let mut last = Answer::default();
        let mut trace = trace();
        let mut session = self.session();
        RUNNING.store(true, Ordering::Relaxed);
        let ended = catch_unwind(AssertUnwindSafe(|| {
            while let Some(call) = next(&session) {
                if let Some(file) = &mut trace {
                    writeln!(file, "{call}").expect("a file that can be written");
                }
                calls.push(call);
                last = session.step(&calls[calls.len() - 1])?;
            }
            Ok(())
        }));
        RUNNING.store(false, Ordering::Relaxed);
        (self.stream, self.output) = (session.stream, session.kept.output);
        self.tally.runs += 1;
        match ended {
            Ok(Ok(())) => Ok(last),
            Ok(Err(what)) => Err(Failure { calls, what }),
            Err(panic) => Err(Failure { calls, what: panic_words(&*panic) }),
        }
    }

    /// Plays listed calls.
    pub fn play(&mut self, calls: &[Call]) -> Result<Answer, Failure> {
        let mut rest = calls.iter();
        self.run(|_| rest.next().cloned())
    }

    /// Plays the random run of a seed.
    pub fn random(&mut self, seed: u64) -> Result<(), Failure> {
        let mut scenario = Scenario::new(seed);
        self.run(|session| scenario.next(session)).map(|_| ())
    }
}
