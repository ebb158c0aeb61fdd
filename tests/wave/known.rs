//! Answers known without the model: those of each sentence of request C-11 and of the points that it leaves to a careful reader.

use crate::calls::{Wave, WaveWritten};
use crate::compare::{Beside, Compared, Job};
use crate::files::{chunk, fields, format, riff, sized};
use crate::model::{refused, BAD_FORMAT, BAD_SIZE, NOT_WAVE};

const SAMPLES: &[u8] = &[1, 2, 3, 4, 5, 6, 7, 8];

fn file(rate: u32, channels: u32, frames: usize, begin: usize) -> Wave {
    Wave { refusal: 0, rate, channels, frames, begin }
}

/// A fmt chunk that is read: stereo at 8,000 frames a second.
fn right() -> Vec<u8> {
    format(1, 2, 8_000, 16)
}

fn data() -> Vec<u8> {
    chunk(b"data", SAMPLES)
}

/// The file whose fmt chunk has these fields.
fn with(tag: u16, channels: u16, rate: u32, bits: u16) -> Vec<u8> {
    riff(&[format(tag, channels, rate, bits), data()])
}

/// A fmt chunk of this size with fields that are read.
fn format_of(size: usize) -> Vec<u8> {
    let mut body = [fields(1, 2, 8_000, 16), vec![0; 64]].concat();
    body.truncate(size);
    chunk(b"fmt ", &body)
}

/// A file with another id of four bytes in place of the one at `at`.
fn renamed(at: usize, id: &[u8; 4]) -> Vec<u8> {
    let mut bytes = riff(&[right(), data()]);
    bytes[at..at + 4].copy_from_slice(id);
    bytes
}

/// The head of a file, and ids.
fn heads(beside: &mut Beside) -> Compared {
    let whole = riff(&[right(), data()]);
    beside.read_gives("a file", &whole, file(8_000, 2, 2, 44))?;
    for length in 0..12 {
        beside.read_gives("fewer than 12 bytes", &whole[..length], refused(NOT_WAVE))?;
    }
    beside.read_gives("12 bytes", &whole[..12], refused(BAD_FORMAT))?;
    for id in [b"RIFX", b"RF64", b"riff", b"RIFf", b"FORM", b"\0\0\0\0"] {
        beside.read_gives("no RIFF", &renamed(0, id), refused(NOT_WAVE))?;
    }
    for id in [b"wave", b"WAVe", b"AVI ", b"WAV ", b"RIFF"] {
        beside.read_gives("no WAVE", &renamed(8, id), refused(NOT_WAVE))?;
    }
    for id in [b"FMT ", b"fmt\0", b"Fmt ", b"fmt_", b" fmt", b"fmtx"] {
        beside.read_gives("an unknown chunk in place of fmt", &renamed(12, id), refused(BAD_FORMAT))?;
    }
    for id in [b"DATA", b"Data", b"dat\0", b"dat ", b"fmt "] {
        beside.read_gives("an unknown chunk in place of data", &renamed(36, id), refused(BAD_FORMAT))?;
    }
    beside.read_gives("8 before 9", &[b"RIFX".to_vec(), whole[4..44].to_vec()].concat(), refused(NOT_WAVE))
}

/// Where the file ends among chunks.
fn ends(beside: &mut Beside) -> Compared {
    for before in [vec![], vec![right()], vec![right(), chunk(b"LIST", b"abc")]] {
        let begun = riff(&before);
        beside.read_gives("no data chunk", &begun, refused(BAD_FORMAT))?;
        for bytes in 1..8 {
            let cut = [&begun[..], &b"data\0\0\0"[..bytes]].concat();
            beside.read_gives("a chunk's head is cut", &cut, refused(BAD_SIZE))?;
            let behind = [begun.clone(), data(), vec![7; bytes]].concat();
            let wanted = if before.is_empty() { refused(BAD_FORMAT) } else { file(8_000, 2, 2, begun.len() + 8) };
            beside.read_gives("a cut head behind data", &behind, wanted)?;
        }
    }
    let behind: [Vec<u8>; 6] = [
        chunk(b"LIST", b"abcd"),
        sized(b"LIST", u32::MAX, b"ab"),
        chunk(b"data", &[9; 40]),
        sized(b"data", 1_000, &[]),
        format(3, 99, 1, 24),
        sized(b"fmt ", 16, &[]),
    ];
    for behind in behind {
        beside.read_gives("a chunk behind data", &riff(&[right(), data(), behind]), file(8_000, 2, 2, 44))?;
    }
    beside.read_gives("fmt behind data", &riff(&[data(), right()]), refused(BAD_FORMAT))?;
    beside.read_gives("fmt behind data, again data", &riff(&[data(), right(), data()]), refused(BAD_FORMAT))
}

/// 9 comes before 10 for the whole way to data.
fn order(beside: &mut Beside) -> Compared {
    let bad = [vec![], format(3, 2, 8_000, 16), format(1, 0, 8_000, 16), format(1, 2, 999, 16), format(1, 2, 8_000, 24), format_of(15)];
    for bad in bad {
        beside.read_gives("10 alone", &riff(&[bad.clone(), data()]), refused(BAD_FORMAT))?;
        beside.read_gives("data too long and 10", &riff(&[bad.clone(), sized(b"data", 9, SAMPLES)]), refused(BAD_SIZE))?;
        beside.read_gives("a chunk too long and 10", &riff(&[bad.clone(), sized(b"LIST", 5, b"abcd")]), refused(BAD_SIZE))?;
        beside.read_gives("a head cut and 10", &riff(&[bad.clone(), b"dat".to_vec()]), refused(BAD_SIZE))?;
        beside.read_gives("no data and 10", &riff(&[bad, chunk(b"LIST", b"abcd")]), refused(BAD_FORMAT))?;
    }
    beside.read_gives("the last chunk too long, no data", &riff(&[right(), sized(b"LIST", 5, b"abcd")]), refused(BAD_SIZE))?;
    beside.read_gives("fmt too long, no data", &riff(&[sized(b"fmt ", 17, &fields(1, 2, 8_000, 16))]), refused(BAD_SIZE))
}

/// Padding.
fn padding(beside: &mut Beside) -> Compared {
    for size in [1, 3, 15] {
        let odd = chunk(b"LIST", &vec![b'd'; size]);
        let cut = odd[..odd.len() - 1].to_vec();
        beside.read_gives("an odd chunk", &riff(&[odd.clone(), right(), data()]), file(8_000, 2, 2, 44 + 9 + size))?;
        beside.read_gives("an odd chunk last", &riff(&[right(), odd]), refused(BAD_FORMAT))?;
        beside.read_gives("its padding is not there", &riff(&[right(), cut.clone()]), refused(BAD_SIZE))?;
        beside.read_gives("padding is passed over, whatever follows", &riff(&[right(), cut, data()]), refused(BAD_SIZE))?;
        for padding in [0, 1, 0xff, b'd'] {
            let bytes = riff(&[right(), sized(b"LIST", size as u32, &[vec![b'd'; size], vec![padding]].concat()), data()]);
            beside.read_gives("the padding's value", &bytes, file(8_000, 2, 2, 44 + 9 + size))?;
        }
    }
    beside.read_gives("fmt of 17 bytes", &riff(&[format_of(17), data()]), file(8_000, 2, 2, 46))?;
    let cut = riff(&[format_of(17)]);
    beside.read_gives("its padding is not there", &cut[..cut.len() - 1], refused(BAD_SIZE))?;
    beside.read_gives("its padding is there", &cut, refused(BAD_FORMAT))?;
    beside.read_gives("data needs no padding", &riff(&[right(), sized(b"data", 7, &SAMPLES[..7])]), file(8_000, 2, 1, 44))?;
    beside.read_gives("data with padding", &riff(&[right(), chunk(b"data", &SAMPLES[..7])]), file(8_000, 2, 1, 44))?;
    beside.read_gives("data one byte too long", &riff(&[right(), sized(b"data", 8, &SAMPLES[..7])]), refused(BAD_SIZE))
}

/// The fmt chunk that is used.
fn formats(beside: &mut Beside) -> Compared {
    for size in 0..=15 {
        beside.read_gives("fmt too short", &riff(&[format_of(size), data()]), refused(BAD_FORMAT))?;
        let begin = 20 + size + size % 2 + 24 + 8;
        let bytes = riff(&[format_of(size), format(1, 1, 44_100, 16), data()]);
        beside.read_gives("fmt too short, then another", &bytes, file(44_100, 1, 4, begin))?;
    }
    for size in [16, 17, 18, 20, 40] {
        let begin = 20 + size + size % 2 + 8;
        beside.read_gives("fmt long enough", &riff(&[format_of(size), data()]), file(8_000, 2, 2, begin))?;
    }
    let other = format(1, 1, 44_100, 16);
    beside.read_gives("two fmt chunks", &riff(&[right(), other.clone(), data()]), file(8_000, 2, 2, 68))?;
    for bad in [format(3, 2, 8_000, 16), format(1, 2, 8_000, 8), format(1, 33, 8_000, 16), format(1, 2, 999, 16)] {
        beside.read_gives("the first fmt chunk is bad", &riff(&[bad.clone(), other.clone(), data()]), refused(BAD_FORMAT))?;
        beside.read_gives("the second fmt chunk is bad", &riff(&[right(), bad, data()]), file(8_000, 2, 2, 68))?;
    }
    for tag in [0, 2, 3, 6, 7, 80, 256, 257, 65_534, 65_535] {
        beside.read_gives("tag", &with(tag, 2, 8_000, 16), refused(BAD_FORMAT))?;
    }
    for bits in [0, 1, 8, 12, 15, 17, 24, 32, 4_096, 4_112] {
        beside.read_gives("bits", &with(1, 2, 8_000, bits), refused(BAD_FORMAT))?;
    }
    for rate in [0, 1, 999, 500_001, 65_536 * 8_000, 1 << 31, u32::MAX] {
        beside.read_gives("rate", &with(1, 2, rate, 16), refused(BAD_FORMAT))?;
    }
    for rate in [1_000, 1_001, 65_535, 65_536, 96_000, 499_999, 500_000] {
        beside.read_gives("rate", &with(1, 2, rate, 16), file(rate, 2, 2, 44))?;
    }
    for channels in [0, 33, 256, 257, 258, 65_535] {
        beside.read_gives("channels", &with(1, channels, 8_000, 16), refused(BAD_FORMAT))?;
    }
    for channels in 1..=32 {
        beside.read_gives("channels", &with(1, channels, 8_000, 16), file(8_000, channels.into(), 4 / channels as usize, 44))?;
    }
    Ok(())
}

/// Sizes that no file here has; added to a place in 32 bits, some lead back to it or before it.
const PAST: [u32; 10] =
    [0x7fff_ffff, 0x8000_0000, 0x8000_0001, u32::MAX - 43, u32::MAX - 19, u32::MAX - 8, u32::MAX - 7, u32::MAX - 6, u32::MAX - 1, u32::MAX];

/// Sizes, and what the data chunk has.
fn sizes(beside: &mut Beside) -> Compared {
    for size in PAST {
        for id in [b"LIST", b"data", b"fmt "] {
            beside.read_gives("a size past the file", &riff(&[right(), sized(id, size, SAMPLES), data()]), refused(BAD_SIZE))?;
            beside.read_gives("a size past the file, first", &riff(&[sized(id, size, SAMPLES), right(), data()]), refused(BAD_SIZE))?;
            beside.read_gives("a size past the file, no bytes", &riff(&[right(), sized(id, size, &[]), data()]), refused(BAD_SIZE))?;
        }
    }
    for size in 0..=64 {
        let bytes = riff(&[right(), chunk(b"data", &vec![0; size])]);
        beside.read_gives("a partial frame is left out", &bytes, file(8_000, 2, size / 4, 44))?;
        let bytes = riff(&[format(1, 3, 8_000, 16), sized(b"data", size as u32, &[0; 64])]);
        beside.read_gives("the data chunk's size counts", &bytes, file(8_000, 3, size / 6, 44))?;
    }
    beside.read_gives("no samples: the file's length", &riff(&[right(), chunk(b"data", &[])]), file(8_000, 2, 0, 44))?;
    beside.read_gives("chunks of size 0", &riff(&[chunk(b"a   ", &[]), right(), chunk(b"b   ", &[]), data()]), file(8_000, 2, 2, 60))?;
    for size in [0u32, 1, 4, 36, 44, 52, u32::MAX] {
        let mut bytes = riff(&[right(), data()]);
        bytes[4..8].copy_from_slice(&size.to_le_bytes());
        beside.read_gives("the size behind RIFF is free", &bytes, file(8_000, 2, 2, 44))?;
    }
    for byte in [0, 1, 4, 0xff] {
        let mut bytes = riff(&[right(), data()]);
        bytes[28..34].fill(byte);
        beside.read_gives("the byte rate and the block size are free", &bytes, file(8_000, 2, 2, 44))?;
    }
    Ok(())
}

pub fn reads(beside: &mut Beside) -> Compared {
    [heads, ends, order, padding, formats, sizes].into_iter().try_for_each(|part| part(beside))
}

/// The samples −32,768 and others, mono, byte by byte.
const WRITTEN: [i16; 4] = [-32_768, 32_767, -2, 258];
const MONO: &[u8] = b"RIFF\x2c\0\0\0WAVEfmt \x10\0\0\0\x01\0\x01\0\x40\x1f\0\0\x80\x3e\0\0\x02\0\x10\0data\x08\0\0\0\
    \0\x80\xff\x7f\xfe\xff\x02\x01";
/// Three of them, in one frame of three channels at 500,000 frames a second.
const THREE: &[u8] = b"RIFF\x2a\0\0\0WAVEfmt \x10\0\0\0\x01\0\x03\0\x20\xa1\x07\0\xc0\xc6\x2d\0\x06\0\x10\0data\x06\0\0\0\
    \0\x80\xff\x7f\xfe\xff";
/// No samples, 32 channels at 44,100 frames a second.
const NONE: &[u8] = b"RIFF\x24\0\0\0WAVEfmt \x10\0\0\0\x01\0\x20\0\x44\xac\0\0\0\x11\x2b\0\x40\0\x10\0data\0\0\0\0";

fn written(bytes: usize) -> WaveWritten {
    WaveWritten { refusal: 0, given: 0, bytes }
}

fn not_written(refusal: u32, given: u32) -> WaveWritten {
    WaveWritten { refusal, given, bytes: 0 }
}

/// Files written, with more room and with none.
fn files_written(beside: &mut Beside) -> Compared {
    for (rate, channels, file) in [(8_000, 1, MONO), (500_000, 3, THREE), (44_100, 32, NONE)] {
        for room in 0..=file.len() + 9 {
            let job = Job { rate, channels, samples: &WRITTEN, room };
            if room < file.len() {
                beside.write_gives("too short", &job, not_written(BAD_SIZE, 0), &[])?;
            } else {
                beside.write_gives("long enough", &job, written(file.len()), file)?;
            }
        }
    }
    let empty = Job { rate: 44_100, channels: 32, samples: &[], room: 44 };
    beside.write_gives("no samples", &empty, written(44), NONE)
}

/// 1 before 2 before 9, with what was given.
fn writes_refused(beside: &mut Beside) -> Compared {
    for (samples, room) in [(&WRITTEN[..], 0), (&WRITTEN, 51), (&WRITTEN, 52), (&[], 43), (&[], 44), (&WRITTEN, 200)] {
        for channels in [0, 1, 2, 32, 33, 256, 257, 65_537, u32::MAX] {
            for rate in [0, 999, 500_001, 1 << 31, u32::MAX] {
                let job = Job { rate, channels, samples, room };
                beside.write_gives("1 comes first", &job, not_written(1, rate), &[])?;
            }
        }
        for channels in [0, 33, 256, 257, 65_537, u32::MAX] {
            for rate in [1_000, 8_000, 500_000] {
                let job = Job { rate, channels, samples, room };
                beside.write_gives("2 comes next", &job, not_written(2, channels), &[])?;
            }
        }
    }
    Ok(())
}

pub fn writes(beside: &mut Beside) -> Compared {
    files_written(beside)?;
    writes_refused(beside)
}
