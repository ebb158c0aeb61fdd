//! The files in tests/wave that sox and ffmpeg made, with the answers in answers.txt. A line there has the name of a file, the five fields of
//! the answer, and the samples.

use crate::calls::Wave;
use crate::compare::{Beside, Compared};
use std::fs;

const FOLDER: &str = "tests/wave";

/// The samples of a file that was read.
fn samples(bytes: &[u8], head: Wave) -> Vec<i16> {
    let pairs = bytes[head.begin..].chunks_exact(2).map(|pair| i16::from_le_bytes([pair[0], pair[1]]));
    pairs.take(head.frames * head.channels as usize).collect()
}

fn number<T: std::str::FromStr>(word: Option<&str>) -> T {
    word.and_then(|word| word.parse().ok()).expect("a number in answers.txt")
}

/// Reads each file, and tells how many there are.
pub fn files(beside: &mut Beside) -> Result<usize, String> {
    let text = fs::read_to_string(format!("{FOLDER}/answers.txt")).map_err(|error| format!("{FOLDER}/answers.txt: {error}"))?;
    let lines: Vec<&str> = text.lines().filter(|line| !line.starts_with('#')).collect();
    lines.iter().try_for_each(|line| file(beside, line))?;
    Ok(lines.len())
}

fn file(beside: &mut Beside, line: &str) -> Compared {
    let mut words = line.split_whitespace();
    let name = words.next().unwrap_or_default();
    let wanted = Wave {
        refusal: number(words.next()),
        rate: number(words.next()),
        channels: number(words.next()),
        frames: number(words.next()),
        begin: number(words.next()),
    };
    let bytes = fs::read(format!("{FOLDER}/{name}")).map_err(|error| format!("{FOLDER}/{name}: {error}"))?;
    beside.read(name, &bytes)?;
    beside.read_gives(name, &bytes, wanted)?;
    let stored: Vec<i16> = words.map(|word| number(Some(word))).collect();
    let same = wanted.refusal != 0 || samples(&bytes, wanted) == stored;
    same.then_some(()).ok_or(format!("{name}: other samples than in answers.txt"))
}
