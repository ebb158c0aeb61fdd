//! Streams in order, areas that reach, and the turn of the refusals: docs/RULES.md, "Areas and refusals".

use super::settings::{max_period, max_required, min_period, sample_period, PITCHES, SPEEDS, VOLUMES};
use super::{Model, Room, Work};
use crate::interface::{Areas, Stream, Told, Wrote};

/// The longest area, in samples.
pub const LONGEST_AREA: usize = 16_777_216;
/// The greatest least mean.
pub const GREATEST_MEAN: usize = 65_535;
/// The rates that can be opened.
pub const RATES: std::ops::RangeInclusive<u32> = 1_000..=500_000;
/// The channel counts that can be opened.
pub const CHANNELS: std::ops::RangeInclusive<u32> = 1..=32;

/// Whether a value lies in its range.
fn within(value: f32, (low, high): (f32, f32)) -> bool {
    low <= value && value <= high
}

/// The rules for what is refused, and in which turn.
pub trait Order {
    /// Whether a stream is in order, N and O being its rates.
    fn in_order(&self, stream: &Stream, (new, old): (usize, usize)) -> bool {
        RATES.contains(&stream.rate)
            && CHANNELS.contains(&stream.channels)
            && within(stream.speed, SPEEDS)
            && within(stream.pitch, PITCHES)
            && self.volume_in_order(stream.volume)
            && self.previous_period_in_order(stream)
            && self.least_mean_in_order(stream.prev_min_diff)
            && self.positions_in_order(stream, new, old)
            && self.sample_period_in_order(stream)
    }

    /// Whether a volume is in order.
    fn volume_in_order(&self, volume: f32) -> bool {
        within(volume, VOLUMES)
    }

    /// Whether the previous period is 0 or in range.
    fn previous_period_in_order(&self, stream: &Stream) -> bool {
        let periods = min_period(stream.rate)..=max_period(stream.rate);
        stream.prev_period == 0 || periods.contains(&stream.prev_period)
    }

    /// Whether a previous least mean is in order.
    fn least_mean_in_order(&self, mean: usize) -> bool {
        mean <= GREATEST_MEAN
    }

    /// Whether p is below O, and n the least whole number with n·O ≥ p·N.
    fn positions_in_order(&self, stream: &Stream, new: usize, old: usize) -> bool {
        let (p, n) = (stream.old_rate_position, stream.new_rate_position);
        p < old && n == (p * new).div_ceil(old)
    }

    /// Whether T is that of the rate.
    fn sample_period_in_order(&self, stream: &Stream) -> bool {
        stream.sample_period == sample_period(stream.rate)
    }

    /// Whether an area is not too long.
    fn short_enough(&self, area: &[i16]) -> bool {
        area.len() <= LONGEST_AREA
    }

    /// Whether the scratch is long enough.
    fn scratch_reaches(&self, scratch: &[i16], rate: u32) -> bool {
        scratch.len() >= max_required(rate)
    }

    /// Whether an area holds so many frames.
    fn reaches(&self, area: &[i16], frames: usize, channels: u32) -> bool {
        frames <= area.len() / channels as usize
    }

    /// Whether the areas of a write or a flush are those that the stream needs.
    fn areas_in_order(&self, stream: &Stream, areas: &Areas<'_>) -> bool {
        let all = [&*areas.input, &*areas.stage, &*areas.output, &*areas.scratch];
        all.iter().all(|area| self.short_enough(area))
            && self.scratch_reaches(areas.scratch, stream.rate)
            && self.reaches(areas.input, stream.held, stream.channels)
            && self.reaches(areas.stage, stream.tail, stream.channels)
            && self.reaches(areas.output, stream.waiting, stream.channels)
    }

    /// Whether the output area of a read is what the stream needs.
    fn output_in_order(&self, stream: &Stream, output: &[i16]) -> bool {
        self.short_enough(output) && self.reaches(output, stream.waiting, stream.channels)
    }

    /// Refusal 3 or 4 of a write or a flush, if met.
    fn early_refusal(&self, stream: &Stream, in_order: bool, areas: &Areas<'_>) -> Option<u32> {
        if !in_order {
            return Some(3);
        }
        (!self.areas_in_order(stream, areas)).then_some(4)
    }

    /// Whether frames held and frames added exceed the input.
    fn input_full(&self, stream: &Stream, added: usize, room: usize) -> bool {
        stream.held + added > room
    }

    /// Whether 6 counts the tail at a pitch: not at 1, where the frames go straight out and the tail stays where it is.
    fn tail_counts(&self, pitch: f32) -> bool {
        pitch != 1.0
    }

    /// The frames that the stage has to hold when so many are copied or stretched; it holds the tail by 4.
    fn stage_needed(&self, stream: &Stream, frames: usize) -> usize {
        if self.tail_counts(stream.pitch) { stream.tail + frames } else { stream.tail.max(frames) }
    }

    /// Refusal 6, if the frames copied or stretched so far meet it; whether the output is full by then does not matter.
    fn stage_refusal(&self, work: &Work, room: Room) -> Result<(), u32> {
        if self.stage_needed(&work.stream, work.frames()) > room.stage { Err(6) } else { Ok(()) }
    }

    /// Refusal 5 before those that the work meets: 6, 7 and then 12.
    fn refuse_in_turn(&self, full: bool, room: Room, process: &dyn Fn(Room) -> Result<Work, u32>) -> Result<Work, u32> {
        if full { Err(5) } else { process(room) }
    }

    /// A refused write or flush: the stream as it came, and the areas as they were.
    fn refused(&self, refusal: u32, stream: Stream, _areas: Areas<'_>) -> Wrote {
        Wrote { refusal, told: Told::default(), stream }
    }
}

impl Model {
    /// Whether a stream is in order.
    pub fn in_order(&self, stream: &Stream) -> bool {
        self.rules.order.in_order(stream, self.rules.rate.rates(stream.rate, stream.pitch))
    }
}
