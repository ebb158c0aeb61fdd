//! Runs held to what the original gave for them: tests/stored.txt has its samples' count, checksum and eight samples of each.

mod common;

use common::{run, summary, CASES};
use kelpladder::SonicStream;

stretcher!(SonicStream);

#[test]
fn runs_give_the_samples_stored() {
    let stored: Vec<&str> = include_str!("stored.txt").lines().collect();
    assert_eq!(stored.len(), CASES.len());
    for (case, line) in CASES.iter().zip(stored) {
        assert_eq!(summary(case.name, &run::<SonicStream>(case)), line);
    }
}
