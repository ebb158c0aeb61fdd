//! Files written by the library and by the model.

use crate::compare::{Beside, Compared, Job};
use crate::model::{Right, Rules, BAD_SIZE};
use crate::signals::Random;

const RANDOM_WRITES: usize = 4_000;

/// The most samples of a file.
const MOST: usize = 16_777_216;

/// Every count of samples up to 12, in each of some counts of channels, to destinations around the file's length.
pub fn lengths(beside: &mut Beside) -> Compared {
    let samples: Vec<i16> = (0..12).map(|i| 1_000 * i - 5_500).collect();
    for channels in [1, 2, 3, 5, 12, 13, 32] {
        for count in 0..=12 {
            let file = 44 + 2 * (count / channels as usize * channels as usize);
            for room in [0, 1, 12, 43].into_iter().chain(file - 3..=file + 4) {
                beside.write("lengths", &Job { rate: 8_000, channels, samples: &samples[..count], room })?;
            }
        }
    }
    Ok(())
}

/// Rates and channels at their ends and beside them, with a destination that is long enough and with one that is not.
pub fn settings(beside: &mut Beside) -> Compared {
    let samples = [1, 2, 3];
    for rate in [0, 1, 999, 1_000, 1_001, 32_768, 65_535, 65_536, 499_999, 500_000, 500_001, 1 << 31, u32::MAX] {
        for channels in (0..=34).chain([255, 256, 257, 65_535, 65_536, 65_537, u32::MAX]) {
            for room in [0, 43, 44, 50, 200] {
                beside.write("settings", &Job { rate, channels, samples: &samples, room })?;
            }
        }
    }
    Ok(())
}

/// A file of all 65,536 samples, and one of two channels.
pub fn every_sample(beside: &mut Beside) -> Compared {
    let samples: Vec<i16> = (i16::MIN..=i16::MAX).collect();
    for channels in [1, 2] {
        beside.write("every sample", &Job { rate: 44_100, channels, samples: &samples, room: 44 + 2 * samples.len() })?;
    }
    Ok(())
}

pub fn random(beside: &mut Beside) -> Compared {
    let mut random = Random::new(12);
    for _ in 0..RANDOM_WRITES {
        let samples: Vec<i16> = (0..random.below(100)).map(|_| random.next() as i16).collect();
        let rate = if random.once_in(12) { random.next() as u32 } else { random.between(1_000, 500_000) as u32 };
        let channels = if random.once_in(12) { random.next() as u32 % 70_000 } else { random.between(1, 32) as u32 };
        let room = if random.once_in(6) { random.below(60) } else { 44 + random.between(0, 4) + 2 * samples.len() };
        beside.write("a random write", &Job { rate, channels, samples: &samples, room })?;
    }
    Ok(())
}

/// The most samples of a file, and more: a partial frame does not count, and one frame more is refused. Each line: channels, samples more
/// than the most, and the refusal, which is known.
const AROUND_MOST: [(u32, usize, u32); 8] =
    [(1, 0, 0), (1, 1, BAD_SIZE), (2, 1, 0), (2, 2, BAD_SIZE), (3, 0, 0), (3, 2, BAD_SIZE), (32, 31, 0), (32, 32, BAD_SIZE)];

pub fn most(beside: &mut Beside) -> Compared {
    let samples: Vec<i16> = (0..MOST + 32).map(|i| ((i * 40_503) >> 4) as i16).collect();
    let room = 44 + 2 * samples.len();
    for (channels, more, refusal) in AROUND_MOST {
        let count = MOST + more;
        assert_eq!(Right.write_refusal(room, 8_000, channels, count).map_or(0, |(refusal, _)| refusal), refusal, "the model");
        beside.write("the most samples", &Job { rate: 8_000, channels, samples: &samples[..count], room })?;
    }
    for room in [44 + 2 * MOST - 1, 44 + 2 * MOST] {
        beside.write("the most samples", &Job { rate: 8_000, channels: 2, samples: &samples[..MOST + 1], room })?;
    }
    Ok(())
}
