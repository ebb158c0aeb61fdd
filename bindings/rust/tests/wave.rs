//! WAVE files: what is read, what is written, and what is an error.

use kelpladder::{read_wave, write_wave, Outcome, SonicStream, WaveError, MAX_SAMPLES};

/// A file of these samples.
fn written(rate: u32, channels: u32, samples: &[i16]) -> Vec<u8> {
    let mut file = vec![0; 44 + 2 * samples.len()];
    let bytes = write_wave(&mut file, rate, channels, samples).expect("a file");
    file.truncate(bytes);
    file
}

#[test]
fn what_is_written_reads_back() {
    let samples = [1, -2, 32_767, -32_768, 256, -256];
    for channels in [1, 2, 3, 6] {
        for rate in [1_000, 8_000, 44_100, 500_000] {
            let file = written(rate, channels, &samples);
            let head = read_wave(&file).expect("a file");
            assert_eq!((head.rate, head.channels, head.frames, head.begin), (rate, channels, 6 / channels as usize, 44));
            assert_eq!(head.samples(&file).len(), 6);
            assert!(head.samples(&file).eq(samples));
        }
    }
}

#[test]
fn a_partial_frame_is_left_out() {
    let file = written(8_000, 2, &[1, 2, 3]);
    assert_eq!(file.len(), 48);
    assert!(read_wave(&file).expect("a file").samples(&file).eq([1, 2]));
    let mut longer = [file.clone(), vec![3, 0, 9]].concat();
    longer[40] = 7;
    assert!(read_wave(&longer).expect("a file").samples(&longer).eq([1, 2]));
}

#[test]
fn other_chunks_are_passed_over() {
    let file = written(8_000, 1, &[5, -5]);
    let longer = [&file[..12], b"LIST\x03\0\0\0abc\0", &file[12..], b"data\0\0\0\0"].concat();
    let head = read_wave(&longer).expect("a file");
    assert_eq!((head.frames, head.begin), (2, 56));
    assert!(head.samples(&longer).eq([5, -5]));
}

/// Bytes that are not those of the file: as many samples as are there, and no panic.
#[test]
fn samples_end_with_the_bytes() {
    let file = written(8_000, 1, &[5, -5]);
    let head = read_wave(&file).expect("a file");
    assert!(head.samples(&file[..47]).eq([5]));
    assert_eq!(head.samples(&file[..44]).len(), 0);
    assert_eq!(head.samples(&file[..43]).len(), 0);
    assert_eq!(head.samples(&[]).len(), 0);
}

#[test]
fn files_that_are_not_read_are_errors() {
    let file = written(8_000, 1, &[5, -5]);
    let changed = |place: usize, byte: u8| {
        let mut wrong = file.clone();
        wrong[place] = byte;
        read_wave(&wrong)
    };
    assert_eq!(read_wave(&[]), Err(WaveError::NotWave));
    assert_eq!(changed(3, b'X'), Err(WaveError::NotWave));
    assert_eq!(read_wave(&file[..47]), Err(WaveError::BadSize));
    assert_eq!(changed(40, 5), Err(WaveError::BadSize));
    assert_eq!(read_wave(&file[..36]), Err(WaveError::BadFormat));
    assert_eq!(changed(20, 3), Err(WaveError::BadFormat));
    assert_eq!(changed(22, 33), Err(WaveError::BadFormat));
    assert_eq!(changed(34, 24), Err(WaveError::BadFormat));
}

/// Files that sox and ffmpeg made: answers.txt has the name of each, the number of its refusal, rate, channels, frames, begin and the samples.
#[test]
fn files_of_other_programs_are_read() {
    let folder = concat!(env!("CARGO_MANIFEST_DIR"), "/../../tests/wave");
    for line in include_str!("../../../tests/wave/answers.txt").lines().filter(|line| !line.starts_with('#')) {
        let (name, numbers) = line.split_once(' ').expect("a name");
        let numbers: Vec<i64> = numbers.split(' ').map(|word| word.parse().expect("a number")).collect();
        let file = std::fs::read(format!("{folder}/{name}")).expect("a file");
        match (numbers[0], read_wave(&file)) {
            (0, Ok(head)) => {
                let fields = [0, head.rate.into(), head.channels.into(), head.frames as i64, head.begin as i64];
                let given: Vec<i64> = fields.into_iter().chain(head.samples(&file).map(i64::from)).collect();
                assert_eq!(given, numbers, "{name}");
            }
            (8, answer) => assert_eq!(answer, Err(WaveError::NotWave), "{name}"),
            (9, answer) => assert_eq!(answer, Err(WaveError::BadSize), "{name}"),
            (_, answer) => assert_eq!(answer, Err(WaveError::BadFormat), "{name}"),
        }
    }
}

#[test]
fn files_that_are_not_written_are_errors() {
    let mut dest = [7; 50];
    assert_eq!(write_wave(&mut dest, 999, 33, &[0; 9]), Err(WaveError::SampleRateOutOfRange(999)));
    assert_eq!(write_wave(&mut dest, 8_000, 33, &[0; 9]), Err(WaveError::ChannelsOutOfRange(33)));
    assert_eq!(write_wave(&mut dest, 8_000, 1, &[0; 4]), Err(WaveError::BadSize));
    assert_eq!(dest, [7; 50]);
    assert_eq!(write_wave(&mut dest, 8_000, 1, &[0, 0]), Ok(48));
    assert_eq!(dest[44..], [0, 0, 0, 0, 7, 7]);
}

#[test]
fn a_file_has_no_more_than_the_most_samples() {
    let (samples, mut dest) = (vec![0; MAX_SAMPLES + 1], vec![7; 44 + 2 * (MAX_SAMPLES + 1)]);
    assert_eq!(write_wave(&mut dest, 8_000, 1, &samples), Err(WaveError::BadSize));
    assert_eq!(dest[0], 7);
    assert_eq!(write_wave(&mut dest, 8_000, 2, &samples), Ok(44 + 2 * MAX_SAMPLES));
}

#[test]
fn errors_have_texts() {
    let texts = [
        (WaveError::NotWave, "RIFF and WAVE"),
        (WaveError::BadSize, "16777216 samples"),
        (WaveError::BadFormat, "16-bit PCM, 1000 to 500000 frames a second, 1 to 32 channels"),
        (WaveError::SampleRateOutOfRange(999), "999 frames a second, only 1000 to 500000"),
        (WaveError::ChannelsOutOfRange(33), "33 channels, only 1 to 32"),
    ];
    for (error, text) in texts {
        assert!(error.to_string().contains(text), "{error}");
        let _: Box<dyn std::error::Error + Send + Sync> = Box::new(error);
    }
}

/// Each sample of a file, divided by 32,767 on its way into a write, comes back as itself, but −32,768 as −32,767.
#[test]
fn samples_go_through_a_stream_as_they_are() {
    let every: Vec<i16> = (i16::MIN..=i16::MAX).collect();
    let file = written(8_000, 1, &every);
    let samples: Vec<f32> = read_wave(&file).expect("a file").samples(&file).map(|n| f32::from(n) / 32_767.0).collect();
    let mut stream = SonicStream::new(8_000, 1).expect("in range");
    assert_eq!(stream.write_f32(&samples).outcome, Outcome::Copied);
    let back: Vec<i16> = stream.read_f32(usize::MAX).iter().map(|x| (x * 32_767.0).round() as i16).collect();
    assert_eq!((back[0], &back[1..]), (-32_767, &every[1..]));
}
