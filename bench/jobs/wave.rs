//! Reading the head of a WAVE file, of a short one and of a long one.

use crate::{calls, rounds, times};
use std::hint::black_box;

const RATE: u32 = 44_100;
const CHANNELS: u32 = 2;
const CALLS: u32 = 100_000;

/// A file of so many seconds. Its samples are zeros that are never touched, and take no memory.
fn file(seconds: usize) -> Vec<u8> {
    let size = seconds * (2 * RATE * CHANNELS) as usize;
    let mut bytes = vec![0; 44 + size];
    assert_eq!(calls::wave_write(&mut bytes, RATE, CHANNELS, &[]).refusal, 0);
    bytes[40..44].copy_from_slice(&(size as u32).to_le_bytes());
    assert_eq!(calls::wave_read(&bytes).frames, seconds * RATE as usize);
    bytes
}

/// The time of a read in nanoseconds.
fn time_of(bytes: &[u8]) -> f64 {
    let start = times::of_thread();
    for _ in 0..CALLS {
        black_box(calls::wave_read(black_box(bytes)));
    }
    (times::of_thread() - start) * 1e6 / f64::from(CALLS)
}

/// A read of an hour's head over one of a second's, by turns.
pub fn read_heads() {
    let (second, hour) = (file(1), file(3_600));
    let (mut short, mut long) = (Vec::new(), Vec::new());
    for _ in 0..rounds() {
        short.push(time_of(&second));
        long.push(time_of(&hour));
    }
    let (short, long) = (times::median(&mut short), times::median(&mut long));
    println!("the head of a WAVE file, 1 h over 1 s, in ns: {:.2}  {long:.1} {short:.1}", long / short);
}

/// A file written and read, for the stack that the calls use.
pub fn both_calls() {
    let mut bytes = [0; 48];
    assert_eq!(calls::wave_write(&mut bytes, RATE, CHANNELS, &[1, 2]).bytes, 48);
    assert_eq!(calls::wave_read(&bytes).frames, 1);
}
