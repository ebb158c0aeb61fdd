//! The original beside the subject. It is joined to this test as text, so its private fields can be set and compared. The calls of a stream
//! that finds the largest of several best periods, or steps over, are those of a copy of the text: tools/judges.py makes it.

use crate::interface::{same_float, Balance, Setting, Stream, Told, COPIED, EMPTY, STALLED, STRETCHED, WAITING};
use crate::judges::Text;
use crate::run::Kept;
use crate::{SonicError, SonicStream};

/// The original's stream, and what it does not have: the totals, whether it steps over, and which of several best periods it finds.
pub struct Original {
    stream: SonicStream,
    balance: Balance,
    step_over: u32,
    ties: u32,
}

/// What becomes of a call: what is told of it, the totals after it, and the stream after its stretch or copy.
struct Expected {
    told: Told,
    balance: Balance,
    after: SonicStream,
}

impl Original {
    /// Opens it; an error gives the number of the refusal and the number that was given.
    pub fn open(rate: u32, channels: u32, ties: u32) -> Result<Original, (u32, u32)> {
        match SonicStream::new(rate, channels) {
            Ok(stream) => Ok(Original { stream, balance: Balance::default(), step_over: 0, ties: u32::from(ties != 0) }),
            Err(SonicError::SampleRateOutOfRange(given)) => Err((1, given)),
            Err(SonicError::ChannelsOutOfRange(given)) => Err((2, given)),
        }
    }

    /// Puts it into the state of a stream in order with its kept samples.
    pub fn made(stream: &Stream, kept: &Kept) -> Original {
        let mut made = Original::open(stream.rate, stream.channels, 0).ok().expect("a rate and channels in range");
        let inside = &mut made.stream;
        inside.speed = stream.speed;
        inside.pitch = stream.pitch;
        inside.volume = stream.volume;
        inside.input_play_time = stream.input_play_time;
        inside.time_error = stream.time_error;
        inside.old_rate_position = stream.old_rate_position as i32;
        inside.new_rate_position = stream.new_rate_position as i32;
        inside.prev_period = stream.prev_period as i32;
        inside.prev_min_diff = stream.prev_min_diff as i32;
        inside.input.clone_from(&kept.input);
        inside.pitch_buffer.clone_from(&kept.tail);
        inside.output.clone_from(&kept.output);
        Original { balance: stream.balance, step_over: stream.step_over, ties: stream.ties, ..made }
    }

    /// Its state as a stream's value.
    pub fn value(&self) -> Stream {
        let inside = &self.stream;
        Stream {
            rate: inside.sample_rate as u32,
            channels: inside.channels as u32,
            speed: inside.speed,
            pitch: inside.pitch,
            volume: inside.volume,
            sample_period: inside.sample_period,
            input_play_time: inside.input_play_time,
            time_error: inside.time_error,
            old_rate_position: inside.old_rate_position as usize,
            new_rate_position: inside.new_rate_position as usize,
            prev_period: inside.prev_period as usize,
            prev_min_diff: inside.prev_min_diff as usize,
            held: inside.input_frames(),
            tail: inside.pitch_frames(),
            waiting: inside.output_frames(),
            balance: self.balance,
            step_over: self.step_over,
            ties: self.ties,
        }
    }

    /// Its input, tail and output.
    pub fn samples(&self) -> [&[i16]; 3] {
        [&self.stream.input, &self.stream.pitch_buffer, &self.stream.output]
    }

    /// Sets the speed, the pitch, the volume or whether it steps over.
    pub fn set(&mut self, setting: Setting) {
        match setting {
            Setting::Speed(speed) => self.stream.set_speed(speed),
            Setting::Pitch(pitch) => self.stream.set_pitch(pitch),
            Setting::Volume(volume) => self.stream.set_volume(volume),
            Setting::StepOver(on) => self.step_over = u32::from(on != 0),
        }
    }

    /// The frames that it says are waiting.
    pub fn available(&self) -> usize {
        self.stream.available_frames()
    }

    /// Reads frames.
    pub fn read(&mut self, most: usize) -> Vec<f32> {
        self.stream.read_f32(most)
    }

    /// The text that judges it.
    fn text(&self) -> Text {
        Text { largest: self.ties != 0, over: self.step_over != 0 }
    }

    /// A second one with these samples added, which stretches at pitch 1; and whether it copies. At first it always has too few frames for
    /// a stretch, so that only a copy takes frames from its input.
    fn added(&self, samples: &[f32]) -> (bool, SonicStream) {
        let kept = Kept { input: self.stream.input.clone(), ..Kept::default() };
        let mut other = Original::made(&self.value(), &kept).stream;
        other.max_required = usize::MAX;
        other.write_f32(samples);
        (other.max_required, other.pitch) = (self.stream.max_required, 1.0);
        (other.input.is_empty(), other)
    }

    /// The totals after a stretch that has used so many frames and given others, or refusal 12. A skip uses more than it gives, an insert
    /// gives more.
    fn counted(&self, used: usize, given: usize) -> Result<Balance, u32> {
        let more = |total: u64, frames: usize| total.checked_add(frames as u64).ok_or(12u32);
        let skipped = more(self.balance.skipped, used.saturating_sub(given))?;
        Ok(Balance { skipped, inserted: more(self.balance.inserted, given.saturating_sub(used))? })
    }

    /// What becomes of a call that adds these samples, or refusal 12.
    fn expected(&self, samples: &[f32]) -> Result<Expected, u32> {
        let held = self.stream.input_frames() + samples.len() / self.stream.channels;
        let (copies, after) = self.added(samples);
        let outcome = match held {
            0 => EMPTY,
            _ if copies => COPIED,
            _ if held < self.stream.max_required => WAITING,
            _ => return self.stretched(after),
        };
        Ok(Expected { told: Told { outcome, ..Told::default() }, balance: self.balance, after })
    }

    /// What becomes of a call that stretches, step by step, or refusal 12.
    fn stretched(&self, mut after: SonicStream) -> Result<Expected, u32> {
        let (held, text) = (after.input_frames(), self.text());
        let speed = held as f32 * after.sample_period / after.input_play_time;
        let (mut told, mut used) = (Told { outcome: STRETCHED, ..Told::default() }, 0);
        while used + after.max_required <= held {
            let step = after.step_as(text, speed, used);
            used += step.used;
            let Some(searched) = step.searched else { continue };
            told.sum = searched.sum;
            if searched.k == 0 && !text.over {
                return Ok(Expected { told: Told { outcome: STALLED, ..told }, balance: self.balance, after });
            }
            told.passed += usize::from(searched.k == 0);
        }
        let balance = self.counted(used, after.output_frames())?;
        after.remove_input_samples(used);
        Ok(Expected { told, balance, after })
    }

    /// Makes a call of the text that judges, which has to leave the record and, until a flush clears them, the time error and the frames
    /// held of the stream expected.
    fn work(&mut self, expected: Expected, flushes: bool, call: impl FnOnce(&mut SonicStream, Text)) -> Told {
        let text = self.text();
        call(&mut self.stream, text);
        let (done, after) = (&self.stream, &expected.after);
        let record = (done.prev_period, done.prev_min_diff) == (after.prev_period, after.prev_min_diff);
        let held = same_float(done.time_error, after.time_error) && done.input == after.input;
        assert!(record && (flushes || held), "the original's own steps are others");
        self.balance = expected.balance;
        expected.told
    }

    /// Writes samples: what is told of it, or refusal 12.
    pub fn write(&mut self, samples: &[f32]) -> Result<Told, u32> {
        let expected = self.expected(samples)?;
        Ok(self.work(expected, false, |stream, text| stream.write_as(text, samples)))
    }

    /// Flushes: what is told of it with the silence that it adds, or refusal 12.
    pub fn flush(&mut self) -> Result<Told, u32> {
        let expected = self.expected(&vec![0.0; 2 * self.stream.max_required * self.stream.channels])?;
        Ok(self.work(expected, true, SonicStream::flush_as))
    }
}
