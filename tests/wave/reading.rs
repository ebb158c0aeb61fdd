//! Files read by the library and by the model: cut, changed and random ones, and long ones.

use crate::calls::Wave;
use crate::compare::{Beside, Compared};
use crate::files::{chunk, fields, format, riff, sized, small};
use crate::model::{refused, BAD_FORMAT, BAD_SIZE};
use crate::signals::Random;
use std::alloc::{alloc_zeroed, dealloc, Layout};

const RANDOM_FILES: usize = 40_000;

/// Every beginning of some files. The bytes behind it stay where they are, and may not be looked at.
pub fn beginnings(beside: &mut Beside) -> Compared {
    let format_of = |size: usize| chunk(b"fmt ", &[fields(1, 1, 8_000, 16), vec![1; size - 16]].concat());
    let files = [
        small(),
        riff(&[format_of(16), chunk(b"data", &[1; 8])]),
        riff(&[format_of(17), chunk(b"fact", &[1; 4]), chunk(b"data", &[1; 7]), chunk(b"LIST", b"abc")]),
        riff(&[format_of(40), chunk(b"a   ", b"1"), chunk(b"b   ", b""), chunk(b"c   ", b"123"), chunk(b"data", b"")]),
        riff(&[chunk(b"data", &[1; 8]), format_of(18)]),
        riff(&[format(3, 1, 8_000, 32), chunk(b"odd ", b"1"), chunk(b"data", &[1; 8])]),
    ];
    files.iter().try_for_each(|file| (0..=file.len()).try_for_each(|length| beside.read("a beginning", &file[..length])))
}

/// A file with each of its bytes changed in turn to all 256 values.
pub fn changes(beside: &mut Beside) -> Compared {
    let mut file = small();
    for place in 0..file.len() {
        let before = file[place];
        for value in 0..=255 {
            file[place] = value;
            beside.read("a byte changed", &file)?;
        }
        file[place] = before;
    }
    Ok(())
}

/// Chunks of these sizes, each with so many bytes as it says, fewer and more, in each place.
pub fn sizes(beside: &mut Beside) -> Compared {
    let (right, data) = (format(1, 1, 8_000, 16), chunk(b"data", &[1; 8]));
    for size in [0, 1, 2, 14, 15, 16, 17, 18, 1 << 31, (1 << 31) + 1, u32::MAX - 8, u32::MAX - 7, u32::MAX - 1, u32::MAX] {
        for length in (0..=20).chain(40..=41) {
            let body = [fields(1, 2, 44_100, 16), vec![2; 40]].concat();
            for id in [b"fmt ", b"data", b"LIST"] {
                let sized = sized(id, size, &body[..length]);
                beside.read("a size, first", &riff(&[sized.clone(), right.clone(), data.clone()]))?;
                beside.read("a size, between", &riff(&[right.clone(), sized.clone(), data.clone()]))?;
                beside.read("a size, last", &riff(&[right.clone(), sized.clone()]))?;
                beside.read("a size, behind", &riff(&[right.clone(), data.clone(), sized]))?;
            }
        }
    }
    Ok(())
}

/// The fields of a fmt chunk, mostly right.
fn random_fields(random: &mut Random) -> Vec<u8> {
    let wrong = |random: &mut Random| random.once_in(20);
    let tag = if wrong(random) { random.one_of(&[0, 2, 3, 65_534]) } else { 1 };
    let channels = if wrong(random) { random.one_of(&[0, 33, 257]) } else { random.between(1, 32) as u16 };
    let rate = if wrong(random) { random.one_of(&[0, 999, 500_001, u32::MAX]) } else { random.between(1_000, 500_000) as u32 };
    let bits = if wrong(random) { random.one_of(&[8, 15, 24, 32]) } else { 16 };
    fields(tag, channels, rate, bits)
}

/// A chunk whose size is mostly right.
fn random_chunk(random: &mut Random) -> Vec<u8> {
    let id = random.one_of(&[b"fmt ", b"fmt ", b"data", b"data", b"LIST", b"fact", b"FMT ", b"Data", b"RIFF", b"\0\0\0\0"]);
    let length = if id == b"fmt " { random.one_of(&[16, 16, 16, 16, 17, 18, 40, 15, 14, 0]) } else { random.below(24) };
    let mut body = if id == b"fmt " { random_fields(random) } else { Vec::new() };
    body.resize_with(length, || random.next() as u8);
    let size = match random.below(60) {
        0 => random.one_of(&[0, 1, 15, 16, 17, 1 << 31, u32::MAX - 7, u32::MAX]),
        1 => length as u32 + 1,
        2 => (length as u32).wrapping_sub(1),
        _ => length as u32,
    };
    let padding = if random.once_in(60) { random.below(2) } else { length % 2 };
    [sized(id, size, &body), vec![random.next() as u8; padding]].concat()
}

fn random_file(random: &mut Random) -> Vec<u8> {
    let mut file = riff(&[]);
    let first = random.once_in(2);
    if first {
        file.extend(chunk(b"fmt ", &random_fields(random)));
    }
    for _ in 0..random.below(6) {
        file.extend(random_chunk(random));
    }
    if random.once_in(30) {
        file[..4].copy_from_slice(random.one_of(&[b"RIFX", b"RF64", b"riff", b"FORM"]));
    }
    if random.once_in(30) {
        let place = random.below(file.len());
        file[place] = random.next() as u8;
    }
    if random.once_in(4) {
        file.truncate(random.between(8, file.len()));
    }
    if random.once_in(8) {
        file.resize_with(file.len() + random.below(10), || 0);
    }
    file
}

/// Random files made of random chunks, at any address.
pub fn random(beside: &mut Beside) -> Compared {
    let mut random = Random::new(11);
    for _ in 0..RANDOM_FILES {
        let (shift, file) = (random.below(8), random_file(&mut random));
        let memory = [vec![b'R'; shift], file].concat();
        beside.read("a random file", &memory[shift..])?;
    }
    Ok(())
}

/// Zeros of which the pages that are not written take no memory.
pub struct Zeros {
    place: *mut u8,
    layout: Layout,
}

impl Zeros {
    /// None if the system does not give so many.
    pub fn new(length: usize) -> Option<Zeros> {
        let layout = Layout::from_size_align(length, 1).ok()?;
        let place = unsafe { alloc_zeroed(layout) };
        (!place.is_null()).then_some(Zeros { place, layout })
    }

    fn bytes(&mut self) -> &mut [u8] {
        unsafe { std::slice::from_raw_parts_mut(self.place, self.layout.size()) }
    }
}

impl Drop for Zeros {
    fn drop(&mut self) {
        unsafe { dealloc(self.place, self.layout) }
    }
}

/// Files of more samples than a write takes.
pub fn past_the_limit(beside: &mut Beside) -> Compared {
    for (channels, samples) in [(1u16, 16_777_216u32), (1, 16_777_217), (2, 16_777_218), (32, 20_000_001)] {
        let head = riff(&[format(1, channels, 8_000, 16), sized(b"data", 2 * samples, &[])]);
        let mut zeros = Zeros::new(44 + 2 * samples as usize).ok_or("no room for 40 MB")?;
        zeros.bytes()[..44].copy_from_slice(&head);
        let channels = u32::from(channels);
        let wanted = Wave { refusal: 0, rate: 8_000, channels, frames: (samples / channels) as usize, begin: 44 };
        beside.read_gives("reading has no limit", zeros.bytes(), wanted)?;
    }
    Ok(())
}

/// The bytes of the file that `past_32_bits` reads.
pub const LONG: usize = (1 << 32) + 1_000;

/// Chunks of up to 2^32 − 1 bytes in a file longer than that.
pub fn past_32_bits(beside: &mut Beside, zeros: &mut Zeros) -> Compared {
    let bytes = zeros.bytes();
    let put = |bytes: &mut [u8], place: usize, chunk: &[u8]| bytes[place..place + chunk.len()].copy_from_slice(chunk);
    put(bytes, 0, &riff(&[format(1, 1, 8_000, 16)]));
    for size in [u32::MAX, u32::MAX - 1, u32::MAX - 7] {
        let long = size as usize;
        let behind = 44 + long + long % 2;
        put(bytes, 36, &sized(b"data", size, &[]));
        let wanted = Wave { refusal: 0, rate: 8_000, channels: 1, frames: long / 2, begin: 44 };
        beside.read_gives("long data", bytes, wanted)?;
        beside.read_gives("long data, no padding", &bytes[..44 + long], wanted)?;
        beside.read_gives("long data, cut", &bytes[..44 + long - 1], refused(BAD_SIZE))?;
        put(bytes, 36, &sized(b"LIST", size, &[]));
        put(bytes, behind, &sized(b"data", 9, &[]));
        let wanted = Wave { refusal: 0, rate: 8_000, channels: 1, frames: 4, begin: behind + 8 };
        beside.read_gives("a long chunk before data", bytes, wanted)?;
        beside.read_gives("a long chunk, data cut", &bytes[..behind + 16], refused(BAD_SIZE))?;
        beside.read_gives("a long chunk, no data", &bytes[..behind], refused(BAD_FORMAT))?;
        beside.read_gives("a long chunk, cut", &bytes[..behind - 1], refused(BAD_SIZE))?;
        put(bytes, behind, &[0; 8]);
    }
    Ok(())
}
