//! How a write or a flush went.

use crate::calls;

/// How a write or a flush went.
#[derive(Debug, Clone, Copy, PartialEq, Eq, Hash)]
pub enum Outcome {
    /// Nothing is held, and nothing was made.
    Empty,
    /// All frames held went on unstretched.
    Copied,
    /// A stretch is due, and too few frames are held for a step. They stay held.
    Waiting,
    /// Frames held were stretched; those that the steps did not reach stay held.
    Stretched,
    /// A step gave no frame: the voice's period is too short for speed over pitch. The frames made before it wait, and nothing has left
    /// what is held: the next write begins at the same frames, so that those before the stall are made a second time, and mostly stalls
    /// there too. It need not: the local speed is found anew in each write, and where the period is the local speed less 1, its last bit
    /// decides. Other settings can end a stall as well; a flush clears what is held; and a stream that
    /// [steps over](crate::SonicStream::set_step_over) does not stall.
    Stalled,
    /// Not taken: more than [`MAX_SAMPLES`](crate::MAX_SAMPLES) samples would be held, be between two steps, or wait. The stream is as
    /// before the call. Frames that wait can be read and the call made again; a shorter write may fit; a flush clears what is held.
    ///
    /// Or a total of the [`balance`](crate::SonicStream::balance) would pass 64 bits, which no recording comes near.
    Full,
}

impl Outcome {
    /// The outcome with this number in the C interface.
    pub(crate) fn of_number(number: u32) -> Self {
        match number {
            0 => Self::Empty,
            1 => Self::Copied,
            2 => Self::Waiting,
            3 => Self::Stretched,
            _ => Self::Stalled,
        }
    }
}

/// What is told of a write or a flush; it may be ignored.
#[derive(Debug, Clone, Copy, PartialEq, Eq, Hash)]
#[non_exhaustive]
pub struct Told {
    /// How it went.
    pub outcome: Outcome,
    /// The periods passed over in this call, by a stream that [steps over](crate::SonicStream::set_step_over); 0 if it does not, or if the
    /// call was not taken. A flush counts those of its own silence too.
    pub passed: usize,
    /// The sum of differences of the period that the last search of this call found: over one period, how far each sample is from the one
    /// a period later, of the averages of the channels where there are several. It is told even where the period before is used. 0 if the
    /// call made no search or was not taken, and also where the period repeats exactly.
    pub sum: usize,
}

impl Told {
    /// What is told of a call that was not taken.
    pub(crate) const FULL: Self = Self { outcome: Outcome::Full, passed: 0, sum: 0 };

    /// What the C interface tells of an accepted call.
    pub(crate) fn of_answer(told: calls::Told) -> Self {
        Self { outcome: Outcome::of_number(told.outcome), passed: told.passed, sum: told.sum }
    }
}
