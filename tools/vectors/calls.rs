
// ---- The calls: each is refused by the table of docs/RULES.md, or made on the original.

/// What the places of a read's slice hold before it.
const UNREAD: f32 = 0.5;

/// The state that the lines before have left: the stream's fields, the original's stream unless its opening was refused, and the
/// lengths of input, stage, output and scratch.
struct Session {
    fields: Fields,
    original: Option<SonicStream>,
    lent: [usize; 4],
    census: Census,
}

/// A call tried: the original's stream before it, with the frames added, and after it; what the stretch does, and the totals after it.
struct Tried {
    before: SonicStream,
    added: SonicStream,
    done: SonicStream,
    stretched: Stretched,
    totals: [u64; 2],
}

impl Session {
    fn new() -> Self {
        Self { fields: [0; 19], original: None, lent: [0; 4], census: Census::new() }
    }

    fn open(&mut self, rate: u32, channels: u32, ties: u64) -> String {
        let (answer, fields, original) = match SonicStream::new(rate, channels) {
            Ok(s) => (String::new(), fields_of(&s, [0, 0, 0, u64::from(ties != 0)]), Some(s)),
            Err(SonicError::SampleRateOutOfRange(given)) => (format!(" refused 1 {given}"), [0; 19], None),
            Err(SonicError::ChannelsOutOfRange(given)) => (format!(" refused 2 {given}"), [0; 19], None),
        };
        (self.fields, self.original) = (fields, original);
        answer
    }

    /// Sets a field, and the original's if it has one for it.
    fn edit(&mut self, field: usize, value: u64) {
        self.fields[field] = value;
        let Some(s) = &mut self.original else { return };
        match field {
            SPEED => s.speed = float(value),
            PITCH => s.pitch = float(value),
            VOLUME => s.volume = float(value),
            PLAY_TIME => s.input_play_time = float(value),
            TIME_ERROR => s.time_error = float(value),
            OLD_POSITION => s.old_rate_position = value as i32,
            NEW_POSITION => s.new_rate_position = value as i32,
            PREV_PERIOD => s.prev_period = value as i32,
            PREV_MIN_DIFF => s.prev_min_diff = value as i32,
            _ => (),
        }
    }

    /// Whether an area of so many samples has room for so many frames.
    fn room(&self, frames: u64, samples: usize) -> bool {
        frames <= samples as u64 / self.fields[CHANNELS]
    }

    /// Refusals 3 and 4. A read is lent the output alone.
    fn refusal(&self, read: bool) -> Option<u32> {
        if !in_order(&self.fields) {
            return Some(3);
        }
        let [input, stage, output, scratch] = self.lent;
        let short = !self.room(self.fields[WAITING], output);
        let more = !self.room(self.fields[HELD], input) || !self.room(self.fields[TAIL], stage) || (scratch as u64) < 2 * (self.fields[RATE] / 65);
        if short || (!read && more) { Some(4) } else { None }
    }

    /// The original's stream, which an accepted call needs to be the stream that the fields speak of.
    fn stream(&mut self) -> &mut SonicStream {
        let others = self.others();
        let s = self.original.as_mut().expect("no stream");
        assert_eq!(fields_of(s, others), self.fields, "an accepted call on fields that the original does not have");
        s
    }

    fn totals(&self) -> [u64; 2] {
        [self.fields[SKIPPED], self.fields[INSERTED]]
    }

    /// The fields that the original does not have.
    fn others(&self) -> [u64; 4] {
        [self.fields[SKIPPED], self.fields[INSERTED], self.fields[STEP_OVER], self.fields[TIES]]
    }

    /// The text that judges the stream.
    fn text(&self) -> Text {
        Text { largest: self.fields[TIES] != 0, over: self.fields[STEP_OVER] != 0 }
    }

    /// The totals after a call that adds to them, or none if one of them would pass 64 bits.
    fn totals_after(&self, counted: [u64; 2]) -> Option<[u64; 2]> {
        let [skipped, inserted] = self.totals();
        Some([skipped.checked_add(counted[0])?, inserted.checked_add(counted[1])?])
    }

    /// What a call does whose frames `add` puts behind those held, tried on copies; or its refusal.
    fn tried(&mut self, frames: usize, add: impl Fn(&mut SonicStream)) -> Result<Tried, u32> {
        if let Some(number) = self.refusal(false) {
            return Err(number);
        }
        let [input, stage, output, _] = self.lent;
        if !self.room(self.fields[HELD] + frames as u64, input) {
            return Err(5);
        }
        let before = copy_of(self.stream());
        let mut added = copy_of(&before);
        add(&mut added);
        let stretched = stretched(&added, self.text());
        let tail = if before.pitch == 1.0 { 0 } else { before.pitch_frames() };
        if !self.room((tail + stretched.made) as u64, stage) {
            self.count_with_tail(stretched.made, 6);
            return Err(6);
        }
        let mut done = copy_of(&added);
        done.process_as(self.text());
        let totals = self.totals_after(stretched.counted);
        if !self.room(done.output_frames() as u64, output) {
            if totals.is_none() {
                self.census.count("7 before 12");
            }
            self.count_with_tail(stretched.made, 7);
            return Err(7);
        }
        if totals.is_none() && stretched.passed > 0 {
            self.census.count("12 where periods would be passed over");
        }
        let totals = totals.ok_or(12u32)?;
        self.count_with_tail(stretched.made, 0);
        Ok(Tried { before, added, done, stretched, totals })
    }

    /// Counts a call at pitch 1 that finds a tail and copies or stretches so many frames, by its refusal and the room that it finds.
    fn count_with_tail(&mut self, frames: usize, refusal: u32) {
        let ([_, stage, output, _], tail, frames) = (self.lent, self.fields[TAIL], frames as u64);
        if tail == 0 || float(self.fields[PITCH]) != 1.0 {
            return;
        }
        match refusal {
            0 if !self.room(tail + frames, stage) => self.census.count("tail and frames above the stage"),
            0 => (),
            6 if !self.room(self.fields[WAITING] + frames, output) => self.census.count("6 with a tail at pitch 1, the output full"),
            number => self.census.count(&format!("{number} with a tail at pitch 1")),
        }
    }

    /// A write or a flush: `add` puts its frames behind those held, `call` is the call of the text that judges.
    fn work(&mut self, frames: usize, add: impl Fn(&mut SonicStream), call: impl Fn(&mut SonicStream, Text)) -> String {
        let Tried { before, added, done, stretched, totals } = match self.tried(frames, add) {
            Ok(tried) => tried,
            Err(number) => return format!(" refused {number}"),
        };
        let (text, [_, _, step_over, ties]) = (self.text(), self.others());
        let s = self.stream();
        call(s, text);
        assert!(done.output.starts_with(&s.output) && done.prev_min_diff == s.prev_min_diff, "the original's call adds other frames");
        self.fields = fields_of(s, [totals[0], totals[1], step_over, ties]);
        if stretched.passed > 0 && (self.lent[1], self.lent[2]) == (0, 0) {
            self.census.count("passes over without room for a frame");
        }
        self.census.steps(&added, &stretched, totals, text);
        self.census.rate(&before, &done, stretched.made);
        format!(" {} {} {}", stretched.outcome, stretched.passed, stretched.sum)
    }

    fn write(&mut self, samples: &[f32]) -> String {
        let channels = self.fields[CHANNELS].max(1) as usize;
        let frames = samples.len() / channels;
        let add = |s: &mut SonicStream| {
            s.input.extend(samples[..frames * channels].iter().map(|&x| (x.clamp(-1.0, 1.0) * 32767.0) as i16));
            s.input_play_time += frames as f32 * s.sample_period / (s.speed / s.pitch);
        };
        self.work(frames, add, |s, text| s.write_as(text, samples))
    }

    fn flush(&mut self) -> String {
        let frames = 4 * (self.fields[RATE] / 65) as usize;
        let add = |s: &mut SonicStream| {
            s.input.resize(s.input.len() + frames * s.channels, 0);
            s.input_play_time += frames as f32 * s.sample_period / (s.speed / s.pitch);
        };
        self.work(frames, add, SonicStream::flush_as)
    }

    fn read(&mut self, most: u64, values: usize) -> String {
        let mut slice = vec![UNREAD; values];
        if let Some(number) = self.refusal(true) {
            return format!(" refused {number} {:08x}", sum(slice.iter().copied()));
        }
        let s = self.original.as_mut().expect("no stream");
        let given = s.read_f32((values / s.channels).min(most as usize));
        slice[..given.len()].copy_from_slice(&given);
        let frames = given.len() / s.channels;
        self.fields[WAITING] -= frames as u64;
        format!(" {frames} {:08x}", sum(slice.iter().copied()))
    }

    /// Refusal 3, or a setting of the original's.
    fn set(&mut self, act: impl Fn(&mut SonicStream)) -> String {
        if !in_order(&self.fields) {
            return " refused 3".to_string();
        }
        let others = self.others();
        let s = self.stream();
        act(s);
        self.fields = fields_of(s, others);
        String::new()
    }

    /// Refusal 3, or whether the stream steps over from now on.
    fn set_step_over(&mut self, on: u64) -> String {
        let answer = self.set(|_| ());
        if answer.is_empty() {
            self.fields[STEP_OVER] = u64::from(on != 0);
        }
        answer
    }

    fn available(&self) -> String {
        if in_order(&self.fields) { format!(" {}", self.fields[WAITING]) } else { " refused 3".to_string() }
    }
}
