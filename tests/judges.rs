// ---- The judges: the original, and the copies of its text that tools/judges.py makes. This text and the copies, a module each, make one
// module of the original's text with a test joined to it, so that a stream of the original can go to a copy and back.

/// The text that judges a stream: by whether the largest of several best periods is found, and whether it steps over.
#[derive(Clone, Copy)]
pub struct Text {
    pub largest: bool,
    pub over: bool,
}

/// The calls of a text, private ones among them.
pub trait Calls {
    fn write(&mut self, samples: &[f32]);
    fn flush(&mut self);
    fn process(&mut self);
    fn stretch(&mut self, speed: f32);
    fn search(&mut self, position: usize) -> usize;
}

/// Makes them of a text's stream.
macro_rules! calls {
    ($stream:path) => {
        impl $crate::judges::Calls for $stream {
            fn write(&mut self, samples: &[f32]) {
                self.write_f32(samples);
            }

            fn flush(&mut self) {
                <$stream>::flush(self);
            }

            fn process(&mut self) {
                self.process_stream_input();
            }

            fn stretch(&mut self, speed: f32) {
                self.change_speed(speed);
            }

            fn search(&mut self, position: usize) -> usize {
                self.find_pitch_period(position, true) as usize
            }
        }
    };
}

/// Makes a stream of one text from one of another, with every field.
macro_rules! moves {
    ($from:path, $to:path) => {
        impl From<&mut $from> for $to {
            fn from(s: &mut $from) -> Self {
                Self {
                    input: std::mem::take(&mut s.input),
                    output: std::mem::take(&mut s.output),
                    pitch_buffer: std::mem::take(&mut s.pitch_buffer),
                    down_sample: std::mem::take(&mut s.down_sample),
                    speed: s.speed,
                    volume: s.volume,
                    pitch: s.pitch,
                    sample_period: s.sample_period,
                    input_play_time: s.input_play_time,
                    time_error: s.time_error,
                    old_rate_position: s.old_rate_position,
                    new_rate_position: s.new_rate_position,
                    channels: s.channels,
                    sample_rate: s.sample_rate,
                    min_period: s.min_period,
                    max_period: s.max_period,
                    max_required: s.max_required,
                    prev_period: s.prev_period,
                    prev_min_diff: s.prev_min_diff,
                }
            }
        }
    };
}

/// Makes a judge of a copy.
macro_rules! judge {
    () => {
        calls!(SonicStream);
        moves!(crate::SonicStream, SonicStream);
        moves!(SonicStream, crate::SonicStream);
    };
}

calls!(crate::SonicStream);

/// Has a copy's stream work in place of the original's.
fn copy_works<C, T>(stream: &mut crate::SonicStream, work: impl FnOnce(&mut dyn Calls) -> T) -> T
where
    C: Calls + for<'a> From<&'a mut crate::SonicStream>,
    crate::SonicStream: for<'a> From<&'a mut C>,
{
    let mut copy = C::from(&mut *stream);
    let done = work(&mut copy);
    *stream = crate::SonicStream::from(&mut copy);
    done
}

/// What a step of a stretch did: the frames that it used, and unless it is a copying step, what it searched.
pub struct Step {
    pub used: usize,
    pub searched: Option<Searched>,
}

/// The period that a step uses, its k, and the sum of differences of the period that its search found.
#[derive(Clone, Copy)]
pub struct Searched {
    pub period: usize,
    pub k: usize,
    pub sum: usize,
}

/// What the text does.
impl crate::SonicStream {
    fn by<T>(&mut self, text: Text, work: impl FnOnce(&mut dyn Calls) -> T) -> T {
        match (text.largest, text.over) {
            (false, false) => work(self),
            (false, true) => copy_works::<stepping_over::SonicStream, T>(self, work),
            (true, false) => copy_works::<largest::SonicStream, T>(self, work),
            (true, true) => copy_works::<largest_stepping_over::SonicStream, T>(self, work),
        }
    }

    pub fn write_as(&mut self, text: Text, samples: &[f32]) {
        self.by(text, |s| s.write(samples));
    }

    pub fn flush_as(&mut self, text: Text) {
        self.by(text, |s| s.flush());
    }

    pub fn process_as(&mut self, text: Text) {
        self.by(text, |s| s.process());
    }

    pub fn change_speed_as(&mut self, text: Text, speed: f32) {
        self.by(text, |s| s.stretch(speed));
    }

    /// The next step of a stretch, at a position, by the original's functions and the text's search, in the order of `change_speed`.
    pub fn step_as(&mut self, text: Text, speed: f32, position: usize) -> Step {
        let error = self.time_error;
        if (speed > 1.0 && speed < 2.0 && error < 0.0) || (speed < 1.0 && speed > 0.5 && error > 0.0) {
            return Step { used: self.copy_unmodified_samples(speed, position), searched: None };
        }
        let period = self.by(text, |s| s.search(position));
        let sum = self.difference(position, self.prev_period as usize);
        assert_eq!(sum / self.prev_period as usize, self.prev_min_diff as usize, "the sum belongs to another period than the mean");
        let (k, made, used) = if speed > 1.0 {
            let k = self.skip_pitch_period(speed, position, period);
            (k, k, period + k)
        } else {
            let k = self.insert_pitch_period(speed, position, period);
            (k, period + k, k)
        };
        if speed > 0.5 && speed < 2.0 {
            self.time_error += made as f32 * self.sample_period - used as f32 * self.input_play_time / self.input_frames() as f32;
        }
        Step { used, searched: Some(Searched { period, k, sum }) }
    }

    /// D: the sum of |x[i] − x[i + period]| over i < period, from a position on, x being the average of the channels, cut toward zero.
    fn difference(&self, position: usize, period: usize) -> usize {
        let average = |frame: usize| {
            let samples = &self.input[frame * self.channels..(frame + 1) * self.channels];
            samples.iter().map(|&sample| i32::from(sample)).sum::<i32>() / self.channels as i32
        };
        let sizes = (position..position + period).map(|i| average(i).abs_diff(average(i + period)) as usize);
        sizes.sum()
    }
}
