
// ---- The differential test: the C interface of include/kelpladder.h beside the original, call by call. This text is joined to the
// original's, which is otherwise unchanged, so that its private fields can be set and compared. A stream that finds the largest of several best
// periods, or steps over, is judged by a copy of the original's text, in the module `judges`. Without `--cfg library` the model takes the
// library's place.
//
//   differential fixed            the fixed runs
//   differential long [SEED] [N]  N million calls of random runs, 2 unless told; the seed is that of the day unless told
//   differential replay RUN       a run, from a file or as text
//   differential bites            the fixed runs find every wrong edit of the model
//   differential bites alone      the same where the model that judges is wrong, too
//   differential bites NUMBER     the smallest run that finds one
//   differential reels            two reels, one of which stalls unless the stream steps over
//
// With TRACE=FILE in the environment the calls of the run under way are written to the file before they are made.

#[path = "../../tests/differential/balances.rs"]
mod balances;
#[path = "../../tests/differential/bites.rs"]
mod bites;
#[path = "../../tests/differential/borders.rs"]
mod borders;
#[path = "../../tests/differential/figures.rs"]
mod figures;
#[path = "../../tests/differential/fixed.rs"]
mod fixed;
#[path = "../../tests/differential/interface.rs"]
mod interface;
#[path = "../judges.rs"]
mod judges;
#[path = "../../tests/differential/lending.rs"]
mod lending;
#[cfg(library)]
#[path = "../../tests/differential/library.rs"]
mod library;
#[path = "../../tests/differential/made_up.rs"]
mod made_up;
#[path = "../../tests/differential/model/mod.rs"]
mod model;
#[path = "../../tests/differential/original.rs"]
mod original;
#[path = "../../tests/differential/passes.rs"]
mod passes;
#[path = "../../tests/differential/phases.rs"]
mod phases;
#[path = "../../tests/differential/reels.rs"]
mod reels;
#[path = "../../tests/differential/run.rs"]
mod run;
#[path = "../../tests/differential/runner.rs"]
mod runner;
#[path = "../../tests/differential/searches.rs"]
mod searches;
#[path = "../../tests/differential/session.rs"]
mod session;
#[path = "../../tests/differential/shrink.rs"]
mod shrink;
#[path = "../../tests/signals.rs"]
mod signals;
#[path = "../../tests/differential/streams.rs"]
mod streams;
#[path = "../../tests/differential/tails.rs"]
mod tails;
#[path = "../../tests/differential/tally.rs"]
mod tally;
#[path = "../../tests/differential/ties.rs"]
mod ties;

/// The model without a wrong edit, or with the one of a number.
fn model_with(number: usize) -> model::Model {
    model::Model::new(model::edits::rules(number))
}

/// What is compared with the original: the library, if it is linked.
#[cfg(library)]
fn subject() -> (&'static str, Box<dyn interface::Subject>) {
    ("library", Box::new(library::Library))
}

/// What is compared with the original: the model, if there is no library.
#[cfg(not(library))]
fn subject() -> (&'static str, Box<dyn interface::Subject>) {
    ("model", Box::new(model_with(0)))
}

/// The number of an argument.
fn number<T: std::str::FromStr>(argument: Option<&String>, otherwise: T) -> T {
    argument.map_or(otherwise, |text| text.parse().ok().expect("a number"))
}

/// The days since 1970.
fn seed_of_the_day() -> u64 {
    let now = std::time::SystemTime::now().duration_since(std::time::UNIX_EPOCH).expect("a time after 1970");
    now.as_secs() / 86_400
}

fn main() {
    runner::quiet_runs();
    let arguments: Vec<String> = std::env::args().skip(1).collect();
    let passed = match arguments.first().map(String::as_str) {
        Some("fixed") => fixed::fixed(),
        Some("long") => fixed::long(number(arguments.get(1), seed_of_the_day()), number(arguments.get(2), 2.0)),
        Some("replay") if arguments.len() == 2 => fixed::replay(&arguments[1]),
        Some("bites") if arguments.get(1).is_some_and(|word| word == "alone") => bites::bites_alone(),
        Some("bites") if arguments.len() == 2 => bites::bite(number(arguments.get(1), 0)),
        Some("bites") => bites::bites(),
        Some("reels") => reels::reels(),
        _ => {
            eprintln!("differential fixed | long [SEED] [MILLIONS] | replay RUN | bites [alone | NUMBER] | reels");
            false
        }
    };
    std::process::exit(i32::from(!passed));
}
