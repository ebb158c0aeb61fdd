//! Reading and writing WAVE files by the words of request C-11, in plain Rust: first the chunks of a file are listed, then they are judged.
//! The rules are methods, so that a wrong edit can override one.

use crate::calls::{Wave, WaveWritten};
use crate::compare::Subject;

pub const NOT_WAVE: u32 = 8;
pub const BAD_SIZE: u32 = 9;
pub const BAD_FORMAT: u32 = 10;

/// No file here has so many chunks; with a wrong edit the walk may go in circles.
const MOST_CHUNKS: usize = 10_000;

/// A chunk: its id, the byte at which its head begins, and its size.
#[derive(Clone, Copy)]
pub struct Chunk {
    pub id: [u8; 4],
    pub at: u64,
    pub size: u64,
}

/// The fields of a fmt chunk that are read.
#[derive(Clone, Copy)]
pub struct Format {
    pub tag: u64,
    pub channels: u64,
    pub rate: u64,
    pub bits: u64,
}

pub fn refused(refusal: u32) -> Wave {
    Wave { refusal, ..Wave::default() }
}

/// The number of these bytes, the lowest first.
pub fn number(bytes: &[u8]) -> u64 {
    bytes.iter().rev().fold(0, |number, &byte| 256 * number + u64::from(byte))
}

/// The number of `count` bytes from a place on; 0 past the file, where only a wrong edit looks.
pub fn number_at(bytes: &[u8], place: u64, count: usize) -> u64 {
    bytes.get(place as usize..place as usize + count).map_or(0, number)
}

pub trait Rules: Sync {
    fn is_wave(&self, bytes: &[u8]) -> bool {
        bytes.len() >= 12 && bytes.starts_with(b"RIFF") && bytes[8..].starts_with(b"WAVE")
    }

    fn is_data(&self, chunk: Chunk) -> bool {
        chunk.id == *b"data"
    }

    fn is_format(&self, chunk: Chunk) -> bool {
        chunk.id == *b"fmt " && chunk.size >= 16
    }

    fn size(&self, field: &[u8]) -> u64 {
        number(field)
    }

    /// The byte at which the chunk behind this one begins.
    fn next(&self, _bytes: &[u8], chunk: Chunk) -> u64 {
        chunk.at + 8 + chunk.size + chunk.size % 2
    }

    /// The byte up to which the file has to reach.
    fn end(&self, bytes: &[u8], chunk: Chunk) -> u64 {
        if self.is_data(chunk) {
            chunk.at + 8 + chunk.size
        } else {
            self.next(bytes, chunk)
        }
    }

    /// The length of the file.
    fn length(&self, bytes: &[u8]) -> u64 {
        bytes.len() as u64
    }

    /// The refusal of 1 to 7 bytes where a chunk would begin.
    fn cut_head(&self) -> Option<u32> {
        Some(BAD_SIZE)
    }

    /// The refusal of a chunk that ends past the file.
    fn cut_chunk(&self, _chunk: Chunk) -> Option<u32> {
        Some(BAD_SIZE)
    }

    /// A refusal before the end of a chunk is looked at.
    fn at_once(&self, _bytes: &[u8], _before: &[Chunk], _chunk: Chunk) -> Option<u32> {
        None
    }

    /// Whether nothing behind a chunk is looked at.
    fn is_last(&self, chunk: Chunk) -> bool {
        self.is_data(chunk)
    }

    /// The chunks up to data, or all of them if there is none; or the refusal of one of them.
    fn chunks(&self, bytes: &[u8]) -> Result<Vec<Chunk>, u32> {
        let (mut list, mut at, length) = (Vec::new(), 12, self.length(bytes));
        while at < length && list.len() < MOST_CHUNKS {
            if length - at < 8 {
                return self.cut_head().map_or(Ok(list), Err);
            }
            let head = &bytes[at as usize..][..8];
            let chunk = Chunk { id: [head[0], head[1], head[2], head[3]], at, size: self.size(&head[4..]) };
            if let Some(refusal) = self.at_once(bytes, &list, chunk) {
                return Err(refusal);
            }
            if self.end(bytes, chunk) > length {
                return self.cut_chunk(chunk).map_or(Ok(list), Err);
            }
            list.push(chunk);
            if self.is_last(chunk) {
                break;
            }
            at = self.next(bytes, chunk);
        }
        Ok(list)
    }

    /// The fmt chunk that is used, of those before data.
    fn used(&self, _bytes: &[u8], before: &[Chunk], _data: Chunk) -> Option<Chunk> {
        before.iter().copied().find(|&chunk| self.is_format(chunk))
    }

    fn format(&self, bytes: &[u8], chunk: Chunk) -> Format {
        let field = |place, count| number_at(bytes, chunk.at + 8 + place, count);
        Format { tag: field(0, 2), channels: field(2, 2), rate: field(4, 4), bits: field(14, 2) }
    }

    fn tag_is_read(&self, tag: u64) -> bool {
        tag == 1
    }

    fn bits_are_read(&self, bits: u64) -> bool {
        bits == 16
    }

    fn rate_fits(&self, rate: u64) -> bool {
        (1_000..=500_000).contains(&rate)
    }

    fn channels_fit(&self, channels: u64) -> bool {
        (1..=32).contains(&channels)
    }

    fn is_read(&self, format: Format) -> bool {
        self.tag_is_read(format.tag) && self.bits_are_read(format.bits) && self.rate_fits(format.rate) && self.channels_fit(format.channels)
    }

    /// The whole frames of the data chunk; `used` is the fmt chunk.
    fn frames(&self, _bytes: &[u8], data: Chunk, _used: Chunk, channels: u64) -> u64 {
        data.size / (2 * channels)
    }

    fn begin(&self, data: Chunk) -> u64 {
        data.at + 8
    }

    /// The answer for these chunks, if the samples are read.
    fn file(&self, bytes: &[u8], chunks: &[Chunk]) -> Option<Wave> {
        let (&data, before) = chunks.split_last()?;
        let used = if self.is_data(data) { self.used(bytes, before, data) } else { None }?;
        let Format { rate, channels, .. } = Some(self.format(bytes, used)).filter(|&format| self.is_read(format))?;
        let (frames, begin) = (self.frames(bytes, data, used, channels) as usize, self.begin(data) as usize);
        Some(Wave { refusal: 0, rate: rate as u32, channels: channels as u32, frames, begin })
    }

    fn read(&self, bytes: &[u8]) -> Wave {
        if !self.is_wave(bytes) {
            return refused(NOT_WAVE);
        }
        match self.chunks(bytes) {
            Ok(chunks) => self.file(bytes, &chunks).unwrap_or(refused(BAD_FORMAT)),
            Err(refusal) => refused(refusal),
        }
    }

    /// The samples in whole frames.
    fn whole(&self, count: usize, channels: usize) -> usize {
        count / channels * channels
    }

    fn too_many(&self, whole: usize, _count: usize, _channels: usize) -> bool {
        whole > 16_777_216
    }

    fn too_short(&self, room: usize, file: usize) -> bool {
        room < file
    }

    fn size_is_bad(&self, room: usize, channels: u32, count: usize) -> bool {
        let whole = self.whole(count, channels as usize);
        self.too_many(whole, count, channels as usize) || self.too_short(room, 44 + 2 * whole)
    }

    /// The refusal of a write and what it carries.
    fn write_refusal(&self, room: usize, rate: u32, channels: u32, count: usize) -> Option<(u32, u32)> {
        if !self.rate_fits(rate.into()) {
            Some((1, rate))
        } else if !self.channels_fit(channels.into()) {
            Some((2, channels))
        } else {
            self.size_is_bad(room, channels, count).then_some((BAD_SIZE, 0))
        }
    }

    /// The numbers of the head with the bytes that each has: the size behind RIFF; the size of fmt, tag, channels, rate, byte rate, block
    /// size and bits; the size of data.
    fn fields(&self, rate: u32, channels: u32, size: u32) -> [(u32, usize); 9] {
        let (bytes, block) = (2 * rate * channels, 2 * channels);
        [(36 + size, 4), (16, 4), (1, 2), (channels, 2), (rate, 4), (bytes, 4), (block, 2), (16, 2), (size, 4)]
    }

    fn head(&self, rate: u32, channels: u32, size: u32) -> Vec<u8> {
        let [riff, format @ .., data] = self.fields(rate, channels, size).map(|(number, count)| number.to_le_bytes()[..count].to_vec());
        [b"RIFF".to_vec(), riff, b"WAVEfmt ".to_vec(), format.concat(), b"data".to_vec(), data].concat()
    }

    fn sample(&self, sample: i16) -> [u8; 2] {
        sample.to_le_bytes()
    }

    fn put(&self, dest: &mut [u8], file: &[u8]) {
        dest[..file.len()].copy_from_slice(file);
    }

    fn refuse(&self, _dest: &mut [u8]) {}

    fn answer(&self, file: &[u8]) -> usize {
        file.len()
    }

    fn write(&self, dest: &mut [u8], rate: u32, channels: u32, samples: &[i16]) -> WaveWritten {
        if let Some((refusal, given)) = self.write_refusal(dest.len(), rate, channels, samples.len()) {
            self.refuse(dest);
            return WaveWritten { refusal, given, bytes: 0 };
        }
        let whole = &samples[..self.whole(samples.len(), channels as usize)];
        let mut file = self.head(rate, channels, 2 * whole.len() as u32);
        file.extend(whole.iter().flat_map(|&sample| self.sample(sample)));
        self.put(dest, &file);
        WaveWritten { refusal: 0, given: 0, bytes: self.answer(&file) }
    }
}

/// The rules without an edit.
pub struct Right;
impl Rules for Right {}

/// A model by these rules.
pub struct Model(pub &'static dyn Rules);

impl Subject for Model {
    fn read(&self, bytes: &[u8]) -> Wave {
        self.0.read(bytes)
    }

    fn write(&self, dest: &mut [u8], rate: u32, channels: u32, samples: &[i16]) -> WaveWritten {
        self.0.write(dest, rate, channels, samples)
    }
}
