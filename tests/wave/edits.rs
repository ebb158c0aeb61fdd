//! The wrong edits of the model: each overrides one rule.

use crate::calls::{Wave, WaveWritten};
use crate::model::{number, number_at, refused, Chunk, Format, Right, Rules, BAD_FORMAT, BAD_SIZE};

/// A wrong edit: its words and the wrong rules.
pub struct Edit {
    pub words: &'static str,
    pub wrong: &'static dyn Rules,
}

/// Makes the edits and the table of them. Each has a name, its words, and its method.
macro_rules! edits {
    ($table:ident; $($name:ident, $words:literal { $($method:tt)* })*) => {
        $(
            struct $name;
            impl Rules for $name {
                $($method)*
            }
        )*
        pub const $table: &[Edit] = &[$(Edit { words: $words, wrong: &$name },)*];
    };
}

/// The numbers of a written head with one of them changed: its place among them, and the number.
fn changed(fields: [(u32, usize); 9], place: usize, number: u32) -> [(u32, usize); 9] {
    let mut wrong = fields;
    wrong[place].0 = number;
    wrong
}

/// The field of a fmt chunk: its place behind the head and its bytes.
fn field(bytes: &[u8], chunk: Chunk, place: u64, count: usize) -> u64 {
    number_at(bytes, chunk.at + 8 + place, count)
}

edits! {
    EDITS;

    // The head of the file, and ids.
    ThirteenBytes, "a file of 12 bytes is too short for 8" {
        fn is_wave(&self, bytes: &[u8]) -> bool { bytes.len() > 12 && Right.is_wave(bytes) }
    }
    RiffAlone, "WAVE is not looked at" {
        fn is_wave(&self, bytes: &[u8]) -> bool { bytes.len() >= 12 && bytes.starts_with(b"RIFF") }
    }
    WaveAlone, "RIFF is not looked at" {
        fn is_wave(&self, bytes: &[u8]) -> bool { bytes.len() >= 12 && bytes[8..].starts_with(b"WAVE") }
    }
    Rifx, "RIFX is taken" {
        fn is_wave(&self, bytes: &[u8]) -> bool { Right.is_wave(bytes) || (bytes.starts_with(b"RIFX") && bytes[8..].starts_with(b"WAVE")) }
    }
    Rf64, "RF64 is taken" {
        fn is_wave(&self, bytes: &[u8]) -> bool { Right.is_wave(bytes) || (bytes.starts_with(b"RF64") && bytes[8..].starts_with(b"WAVE")) }
    }
    SmallLetters, "riff and wave are taken" {
        fn is_wave(&self, bytes: &[u8]) -> bool {
            bytes.len() >= 12 && bytes[..4].eq_ignore_ascii_case(b"RIFF") && bytes[8..12].eq_ignore_ascii_case(b"WAVE")
        }
    }
    ShortIsTen, "RIFF in fewer than 12 bytes is 10" {
        fn is_wave(&self, bytes: &[u8]) -> bool { Right.is_wave(bytes) || (bytes.len() < 12 && bytes.starts_with(b"RIFF")) }
    }
    GreatData, "DATA is data" {
        fn is_data(&self, chunk: Chunk) -> bool { chunk.id.eq_ignore_ascii_case(b"data") }
    }
    GreatFormat, "FMT is fmt" {
        fn is_format(&self, chunk: Chunk) -> bool { chunk.id.eq_ignore_ascii_case(b"fmt ") && chunk.size >= 16 }
    }
    ThreeLetters, "fmt is compared in three letters" {
        fn is_format(&self, chunk: Chunk) -> bool { chunk.id.starts_with(b"fmt") && chunk.size >= 16 }
    }

    // The walk.
    NotPadded, "no chunk is padded" {
        fn next(&self, _: &[u8], chunk: Chunk) -> u64 { chunk.at + 8 + chunk.size }
    }
    PaddedToFour, "chunks are padded to four bytes" {
        fn next(&self, _: &[u8], chunk: Chunk) -> u64 { chunk.at + 8 + chunk.size.next_multiple_of(4) }
    }
    EvenPadded, "chunks of even size are padded too" {
        fn next(&self, _: &[u8], chunk: Chunk) -> u64 { chunk.at + 9 + chunk.size }
    }
    FormatNotPadded, "fmt of 17 bytes is not padded" {
        fn next(&self, bytes: &[u8], chunk: Chunk) -> u64 { Right.next(bytes, chunk) - if self.is_format(chunk) { chunk.size % 2 } else { 0 } }
    }
    PaddingRead, "padding other than 0 is no padding" {
        fn next(&self, bytes: &[u8], chunk: Chunk) -> u64 {
            let end = chunk.at + 8 + chunk.size;
            end + u64::from(chunk.size % 2 == 1 && bytes.get(end as usize) == Some(&0))
        }
    }
    DataPadded, "the padding of data is needed" {
        fn end(&self, bytes: &[u8], chunk: Chunk) -> u64 { self.next(bytes, chunk) }
    }
    PaddingNotNeeded, "padding is not needed" {
        fn end(&self, _: &[u8], chunk: Chunk) -> u64 { chunk.at + 8 + chunk.size }
    }
    OneByteShort, "a chunk may end one byte past the file" {
        fn end(&self, bytes: &[u8], chunk: Chunk) -> u64 { Right.end(bytes, chunk) - 1 }
    }
    OneByteMore, "a chunk must end before the end of the file" {
        fn end(&self, bytes: &[u8], chunk: Chunk) -> u64 { Right.end(bytes, chunk) + 1 }
    }
    HeadNotCounted, "the head of a chunk does not count" {
        fn end(&self, bytes: &[u8], chunk: Chunk) -> u64 { Right.end(bytes, chunk) - 8 }
    }
    ThirtyTwoBits, "ends are added in 32 bits" {
        fn next(&self, bytes: &[u8], chunk: Chunk) -> u64 { u64::from(Right.next(bytes, chunk) as u32) }
        fn end(&self, bytes: &[u8], chunk: Chunk) -> u64 { u64::from(Right.end(bytes, chunk) as u32) }
    }
    PaddedInThirtyTwoBits, "the padding is added in 32 bits" {
        fn next(&self, _: &[u8], chunk: Chunk) -> u64 { chunk.at + 8 + u64::from((chunk.size + chunk.size % 2) as u32) }
    }
    ThirtyOneBits, "sizes have 31 bits" {
        fn size(&self, field: &[u8]) -> u64 { number(field) & 0x7fff_ffff }
    }
    SixteenBits, "sizes have 16 bits" {
        fn size(&self, field: &[u8]) -> u64 { number(&field[..2]) }
    }
    HighByteFirst, "sizes have their high byte first" {
        fn size(&self, field: &[u8]) -> u64 { field.iter().fold(0, |size, &byte| 256 * size + u64::from(byte)) }
    }
    RiffSizeRead, "the file ends where the size behind RIFF says" {
        fn length(&self, bytes: &[u8]) -> u64 { (number(&bytes[4..8]) + 8).clamp(12.min(bytes.len() as u64), bytes.len() as u64) }
    }
    CutHeadPassed, "a head that is cut is not looked at" {
        fn cut_head(&self) -> Option<u32> { None }
    }
    CutChunkPassed, "a chunk before data that is cut is not looked at" {
        fn cut_chunk(&self, chunk: Chunk) -> Option<u32> { Right.is_data(chunk).then_some(BAD_SIZE) }
    }
    CutDataTaken, "data that is cut is 10" {
        fn cut_chunk(&self, chunk: Chunk) -> Option<u32> { Some(if Right.is_data(chunk) { BAD_FORMAT } else { BAD_SIZE }) }
    }
    FormatFirst, "10 before 9: a fmt chunk that is not read ends the walk" {
        fn at_once(&self, bytes: &[u8], before: &[Chunk], chunk: Chunk) -> Option<u32> {
            let used = before.iter().copied().find(|&chunk| self.is_format(chunk))?;
            (chunk.at > used.at && !self.is_read(self.format(bytes, used))).then_some(BAD_FORMAT)
        }
    }
    NoFormatFirst, "10 before 9: data without fmt ends the walk" {
        fn at_once(&self, _: &[u8], before: &[Chunk], chunk: Chunk) -> Option<u32> {
            (self.is_data(chunk) && !before.iter().any(|&chunk| self.is_format(chunk))).then_some(BAD_FORMAT)
        }
    }
    NoDataIsNine, "a file without data is 9" {
        fn read(&self, bytes: &[u8]) -> Wave {
            let none = Right.is_wave(bytes) && Right.chunks(bytes).is_ok_and(|chunks| !chunks.last().is_some_and(|&chunk| self.is_data(chunk)));
            if none { refused(BAD_SIZE) } else { Right.read(bytes) }
        }
    }
    LastData, "the last data chunk is used" {
        fn is_last(&self, _: Chunk) -> bool { false }
    }
    EmptyDataPassed, "an empty data chunk is passed over" {
        fn is_data(&self, chunk: Chunk) -> bool { Right.is_data(chunk) && chunk.size > 0 }
    }
    FormatMustComeFirst, "fmt must be the first chunk" {
        fn used(&self, _: &[u8], before: &[Chunk], _: Chunk) -> Option<Chunk> { before.first().copied().filter(|&chunk| self.is_format(chunk)) }
    }

    // The format.
    FifteenBytes, "fmt of 15 bytes is taken" {
        fn is_format(&self, chunk: Chunk) -> bool { chunk.id == *b"fmt " && chunk.size >= 15 }
    }
    FourteenBytes, "fmt of 14 bytes is taken" {
        fn is_format(&self, chunk: Chunk) -> bool { chunk.id == *b"fmt " && chunk.size >= 14 }
    }
    SixteenAlone, "fmt of more than 16 bytes is not taken" {
        fn is_format(&self, chunk: Chunk) -> bool { chunk.id == *b"fmt " && chunk.size == 16 }
    }
    SeventeenBytes, "fmt of 16 bytes is not taken" {
        fn is_format(&self, chunk: Chunk) -> bool { chunk.id == *b"fmt " && chunk.size > 16 }
    }
    ShortEnds, "a fmt chunk that is too short is the one used, and is 10" {
        fn used(&self, _: &[u8], before: &[Chunk], _: Chunk) -> Option<Chunk> {
            before.iter().copied().find(|chunk| chunk.id == *b"fmt ").filter(|&chunk| self.is_format(chunk))
        }
    }
    LastFormat, "the last fmt chunk is used" {
        fn used(&self, _: &[u8], before: &[Chunk], _: Chunk) -> Option<Chunk> { before.iter().copied().rfind(|&chunk| self.is_format(chunk)) }
    }
    FirstGoodFormat, "the first fmt chunk that can be read is used" {
        fn used(&self, bytes: &[u8], before: &[Chunk], _: Chunk) -> Option<Chunk> {
            before.iter().copied().find(|&chunk| self.is_format(chunk) && self.is_read(self.format(bytes, chunk)))
        }
    }
    FormatBehind, "a fmt chunk behind data is used" {
        fn used(&self, bytes: &[u8], before: &[Chunk], data: Chunk) -> Option<Chunk> {
            let at = Right.next(bytes, data);
            let behind = Chunk { id: *b"fmt ", at, size: number_at(bytes, at + 4, 4) };
            let is_there = number_at(bytes, at, 4) == number(b"fmt ");
            Right.used(bytes, before, data).or(Some(behind).filter(|&chunk| is_there && self.is_format(chunk)))
        }
    }
    AnyTag, "the tag is not read" {
        fn tag_is_read(&self, _: u64) -> bool { true }
    }
    Extensible, "tag 65,534 is taken" {
        fn tag_is_read(&self, tag: u64) -> bool { tag == 1 || tag == 65_534 }
    }
    TagInOneByte, "the tag has one byte" {
        fn tag_is_read(&self, tag: u64) -> bool { tag % 256 == 1 }
    }
    AnyBits, "bits are not read" {
        fn bits_are_read(&self, _: u64) -> bool { true }
    }
    BitsInWholeBytes, "bits are rounded up to whole bytes" {
        fn bits_are_read(&self, bits: u64) -> bool { bits.div_ceil(8) == 2 }
    }
    BitsByBlock, "bits are found by the block size" {
        fn format(&self, bytes: &[u8], chunk: Chunk) -> Format {
            let format = Right.format(bytes, chunk);
            Format { bits: 8 * field(bytes, chunk, 12, 2) / format.channels.max(1), ..format }
        }
    }
    RateInTwoBytes, "the rate has two bytes" {
        fn format(&self, bytes: &[u8], chunk: Chunk) -> Format { Format { rate: field(bytes, chunk, 4, 2), ..Right.format(bytes, chunk) } }
    }
    ChannelsInOneByte, "the channels have one byte" {
        fn format(&self, bytes: &[u8], chunk: Chunk) -> Format { Format { channels: field(bytes, chunk, 2, 1), ..Right.format(bytes, chunk) } }
    }
    ByteRateTested, "a wrong byte rate is 10" {
        fn format(&self, bytes: &[u8], chunk: Chunk) -> Format {
            let format = Right.format(bytes, chunk);
            let fits = field(bytes, chunk, 8, 4) == 2 * format.rate * format.channels;
            Format { tag: if fits { format.tag } else { 0 }, ..format }
        }
    }
    BlockRead, "frames are counted by the block size" {
        fn frames(&self, bytes: &[u8], data: Chunk, used: Chunk, _: u64) -> u64 { data.size / field(bytes, used, 12, 2).max(1) }
    }
    RateFrom999, "999 frames a second fit" {
        fn rate_fits(&self, rate: u64) -> bool { (999..=500_000).contains(&rate) }
    }
    RateFrom1001, "1,000 frames a second do not fit" {
        fn rate_fits(&self, rate: u64) -> bool { (1_001..=500_000).contains(&rate) }
    }
    RateTo499999, "500,000 frames a second do not fit" {
        fn rate_fits(&self, rate: u64) -> bool { (1_000..500_000).contains(&rate) }
    }
    RateTo500001, "500,001 frames a second fit" {
        fn rate_fits(&self, rate: u64) -> bool { (1_000..=500_001).contains(&rate) }
    }
    ChannelsTo31, "32 channels do not fit" {
        fn channels_fit(&self, channels: u64) -> bool { (1..32).contains(&channels) }
    }
    ChannelsTo33, "33 channels fit" {
        fn channels_fit(&self, channels: u64) -> bool { (1..=33).contains(&channels) }
    }
    ChannelsFrom2, "one channel does not fit" {
        fn channels_fit(&self, channels: u64) -> bool { (2..=32).contains(&channels) }
    }

    // The answer of a read.
    PartialCounted, "a partial last frame is counted" {
        fn frames(&self, _: &[u8], data: Chunk, _: Chunk, channels: u64) -> u64 { data.size.div_ceil(2 * channels) }
    }
    SamplesCounted, "samples are counted in place of frames" {
        fn frames(&self, _: &[u8], data: Chunk, _: Chunk, _: u64) -> u64 { data.size / 2 }
    }
    ToTheEnd, "frames are counted up to the end of the file" {
        fn frames(&self, bytes: &[u8], data: Chunk, _: Chunk, channels: u64) -> u64 { (bytes.len() as u64 - data.at - 8) / (2 * channels) }
    }
    BeginAtHead, "the samples begin at the head of the data chunk" {
        fn begin(&self, data: Chunk) -> u64 { data.at }
    }
    BeginAt44, "the samples begin at 44" {
        fn begin(&self, _: Chunk) -> u64 { 44 }
    }
    RefusedTellsRate, "a file that is refused with 10 tells its rate" {
        fn read(&self, bytes: &[u8]) -> Wave {
            let (answer, chunks) = (Right.read(bytes), Right.chunks(bytes).unwrap_or_default());
            let used = chunks.iter().copied().find(|&chunk| Right.is_format(chunk)).filter(|_| answer.refusal == BAD_FORMAT);
            used.map_or(answer, |used| Wave { rate: Right.format(bytes, used).rate as u32, ..answer })
        }
    }

    // Refusals of a write.
    ChannelsFirst, "2 before 1" {
        fn write_refusal(&self, room: usize, rate: u32, channels: u32, count: usize) -> Option<(u32, u32)> {
            if Right.channels_fit(channels.into()) { Right.write_refusal(room, rate, channels, count) } else { Some((2, channels)) }
        }
    }
    SizeFirst, "9 before 1 and 2" {
        fn write_refusal(&self, room: usize, rate: u32, channels: u32, count: usize) -> Option<(u32, u32)> {
            if Right.size_is_bad(room, channels.max(1), count) { Some((BAD_SIZE, 0)) } else { Right.write_refusal(room, rate, channels, count) }
        }
    }
    GivenNothing, "a refusal carries nothing" {
        fn write_refusal(&self, room: usize, rate: u32, channels: u32, count: usize) -> Option<(u32, u32)> {
            Right.write_refusal(room, rate, channels, count).map(|(refusal, _)| (refusal, 0))
        }
    }
    GivenRate, "2 carries the rate" {
        fn write_refusal(&self, room: usize, rate: u32, channels: u32, count: usize) -> Option<(u32, u32)> {
            Right.write_refusal(room, rate, channels, count).map(|(refusal, given)| (refusal, if refusal == 2 { rate } else { given }))
        }
    }
    GivenWithNine, "9 carries the channels" {
        fn write_refusal(&self, room: usize, rate: u32, channels: u32, count: usize) -> Option<(u32, u32)> {
            Right.write_refusal(room, rate, channels, count).map(|(refusal, given)| (refusal, if refusal == 9 { channels } else { given }))
        }
    }
    OneByteOfRoom, "a destination of the file's length is too short" {
        fn too_short(&self, room: usize, file: usize) -> bool { room <= file }
    }
    RoomOneShort, "a destination may be one byte too short" {
        fn too_short(&self, room: usize, file: usize) -> bool { room + 1 < file }
        fn put(&self, dest: &mut [u8], file: &[u8]) {
            let count = file.len().min(dest.len());
            dest[..count].copy_from_slice(&file[..count]);
        }
    }
    RoomForPartial, "the destination needs room for a partial frame" {
        fn size_is_bad(&self, room: usize, channels: u32, count: usize) -> bool {
            Right.size_is_bad(room, channels, count) || room < 44 + 2 * count
        }
    }
    NoFramesRefused, "no whole frame is 9" {
        fn size_is_bad(&self, room: usize, channels: u32, count: usize) -> bool {
            Right.size_is_bad(room, channels, count) || count < channels as usize
        }
    }
    RefusedClears, "a refusal clears the destination" {
        fn refuse(&self, dest: &mut [u8]) { dest.fill(0); }
    }
    RefusedBegins, "a refusal leaves RIFF" {
        fn refuse(&self, dest: &mut [u8]) {
            if dest.len() >= 4 {
                dest[..4].copy_from_slice(b"RIFF");
            }
        }
    }

    // What is written.
    PartialWritten, "a partial frame is written" {
        fn whole(&self, count: usize, _: usize) -> usize { count }
        fn size_is_bad(&self, room: usize, channels: u32, count: usize) -> bool { Right.size_is_bad(room, channels, count) || room < 44 + 2 * count }
    }
    LeastHeld, "−32,768 is written as −32,767" {
        fn sample(&self, sample: i16) -> [u8; 2] { sample.max(-32_767).to_le_bytes() }
    }
    SampleHighByteFirst, "samples have their high byte first" {
        fn sample(&self, sample: i16) -> [u8; 2] { sample.to_be_bytes() }
    }
    RiffWithItself, "the size behind RIFF counts the whole file" {
        fn fields(&self, rate: u32, channels: u32, size: u32) -> [(u32, usize); 9] { changed(Right.fields(rate, channels, size), 0, 44 + size) }
    }
    RiffOfSamples, "the size behind RIFF is that of data" {
        fn fields(&self, rate: u32, channels: u32, size: u32) -> [(u32, usize); 9] { changed(Right.fields(rate, channels, size), 0, size) }
    }
    FormatOf18, "the size of fmt is 18" {
        fn fields(&self, rate: u32, channels: u32, size: u32) -> [(u32, usize); 9] { changed(Right.fields(rate, channels, size), 1, 18) }
    }
    TagOfMany, "the tag is 65,534 for more than two channels" {
        fn fields(&self, rate: u32, channels: u32, size: u32) -> [(u32, usize); 9] {
            changed(Right.fields(rate, channels, size), 2, if channels > 2 { 65_534 } else { 1 })
        }
    }
    ByteRateOfSamples, "the byte rate counts samples" {
        fn fields(&self, rate: u32, channels: u32, size: u32) -> [(u32, usize); 9] {
            changed(Right.fields(rate, channels, size), 5, rate * channels)
        }
    }
    ByteRateOfMono, "the byte rate leaves out the channels" {
        fn fields(&self, rate: u32, channels: u32, size: u32) -> [(u32, usize); 9] { changed(Right.fields(rate, channels, size), 5, 2 * rate) }
    }
    BlockOfSamples, "the block size counts samples" {
        fn fields(&self, rate: u32, channels: u32, size: u32) -> [(u32, usize); 9] { changed(Right.fields(rate, channels, size), 6, channels) }
    }
    BlockOfMono, "the block size is 2" {
        fn fields(&self, rate: u32, channels: u32, size: u32) -> [(u32, usize); 9] { changed(Right.fields(rate, channels, size), 6, 2) }
    }
    BitsOfFrame, "the bits are those of a frame" {
        fn fields(&self, rate: u32, channels: u32, size: u32) -> [(u32, usize); 9] {
            changed(Right.fields(rate, channels, size), 7, 16 * channels)
        }
    }
    DataInSamples, "the size of data counts samples" {
        fn fields(&self, rate: u32, channels: u32, size: u32) -> [(u32, usize); 9] { changed(Right.fields(rate, channels, size), 8, size / 2) }
    }
    RestCleared, "the destination behind the file is cleared" {
        fn put(&self, dest: &mut [u8], file: &[u8]) {
            dest.fill(0);
            Right.put(dest, file);
        }
    }
    OneByteBehind, "one byte behind the file is written" {
        fn put(&self, dest: &mut [u8], file: &[u8]) {
            Right.put(dest, file);
            if let Some(byte) = dest.get_mut(file.len()) {
                *byte = 0;
            }
        }
    }
    AnswerWithoutHead, "the answer of a write leaves out the head" {
        fn answer(&self, file: &[u8]) -> usize { file.len() - 44 }
    }
    AnswerOfRoom, "the answer of a write is the destination's length" {
        fn write(&self, dest: &mut [u8], rate: u32, channels: u32, samples: &[i16]) -> WaveWritten {
            let answer = Right.write(dest, rate, channels, samples);
            WaveWritten { bytes: if answer.refusal == 0 { dest.len() } else { 0 }, ..answer }
        }
    }
}

// Those that only the most samples of a file show.
edits! {
    LIMIT_EDITS;
    LimitInReading, "reading has the limit of 16,777,216 samples" {
        fn read(&self, bytes: &[u8]) -> Wave {
            let answer = Right.read(bytes);
            if answer.frames * answer.channels as usize > 16_777_216 { refused(BAD_SIZE) } else { answer }
        }
    }
    NoLimit, "writing has no limit" {
        fn too_many(&self, _: usize, _: usize, _: usize) -> bool { false }
    }
    LowerLimit, "16,777,216 samples are too many" {
        fn too_many(&self, whole: usize, _: usize, _: usize) -> bool { whole >= 16_777_216 }
    }
    LimitOfAll, "the limit counts a partial frame" {
        fn too_many(&self, _: usize, count: usize, _: usize) -> bool { count > 16_777_216 }
    }
    LimitOfFrames, "the limit counts frames" {
        fn too_many(&self, whole: usize, _: usize, channels: usize) -> bool { whole / channels > 16_777_216 }
    }
    LimitOfBytes, "the limit counts bytes" {
        fn too_many(&self, whole: usize, _: usize, _: usize) -> bool { 2 * whole > 16_777_216 }
    }
}

// Those that only a file longer than 4 GiB shows.
edits! {
    LONG_EDITS;
    FramesIn30Bits, "frames are counted in 30 bits" {
        fn frames(&self, bytes: &[u8], data: Chunk, used: Chunk, channels: u64) -> u64 { Right.frames(bytes, data, used, channels) % (1 << 30) }
    }
    BeginIn32Bits, "the byte at which the samples begin has 32 bits" {
        fn begin(&self, data: Chunk) -> u64 { u64::from((data.at + 8) as u32) }
    }
    LengthIn32Bits, "the length of the file has 32 bits" {
        fn length(&self, bytes: &[u8]) -> u64 { u64::from(bytes.len() as u32) }
    }
}
