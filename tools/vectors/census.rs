
// ---- What the runs touch: counted by name, each name that has to be there listed.

use std::collections::BTreeMap;

/// How often the runs touch each thing by name.
struct Census(BTreeMap<String, usize>);

/// What a stream searches.
fn kind_of_search(s: &SonicStream) -> &'static str {
    match (s.channels, s.sample_rate / AMDF_FREQ) {
        (1, 0 | 1) => "search of samples",
        (_, 0 | 1) => "search of averages, skip 1",
        (1, _) => "search twice, 1 channel",
        _ => "search twice, more channels",
    }
}

/// Both totals at their end.
const FULL: [u64; 2] = [u64::MAX; 2];

/// Counts of phases of the rate conversion that are counted.
const PHASES: [u64; 6] = [1, 2, 5, 31, 32, 33];

/// What the runs have to touch.
const TOUCHED: [&str; 108] = [
    "write empty", "write copied", "write waiting", "write stretched", "write stalled", "flush copied", "flush stretched", "flush stalled",
    "open refused 1", "open refused 2", "speed refused 3", "pitch refused 3", "volume refused 3", "available refused 3",
    "read refused 3", "read refused 4",
    "write refused 3", "write refused 4", "write refused 5", "write refused 6", "write refused 7", "write refused 12",
    "flush refused 3", "flush refused 4", "flush refused 5", "flush refused 6", "flush refused 7", "flush refused 12",
    "7 before 12", "write counts skipped", "write counts inserted", "flush counts skipped", "flush counts inserted",
    "write fills skipped", "write fills inserted", "flush fills skipped", "flush fills inserted",
    "empty with full totals", "copied with full totals", "waiting with full totals", "stalled with full totals",
    "step stall after frames with full totals",
    "step over accepted", "step over refused 3", "write passes over", "flush passes over", "every step passed over",
    "step passed over", "step passed over, s infinite", "step passed over after frames", "step passed over, previous period",
    "passes over by another value than 1", "passes over what had stalled", "write fills skipped, passing over",
    "flush fills skipped, passing over", "passes over without room for a frame", "12 where periods would be passed over",
    "step copying, s > 1", "step copying, s < 1", "step copying all that is left", "step skip, s < 2", "step skip, s >= 2", "step insert, s > 0.5",
    "step insert, s <= 0.5", "step insert of 1 frame", "step stall after frames", "previous period used",
    "search of samples", "search of averages, skip 1", "search twice, 1 channel", "search twice, more channels",
    "tail kept at pitch 1", "tail and frames above the stage", "6 with a tail at pitch 1", "6 with a tail at pitch 1, the output full",
    "7 with a tail at pitch 1", "rates halved", "rate positions back to 0",
    "phases 1, two rounds or more", "phases 2, two rounds or more", "phases 5, two rounds or more", "phases 31, two rounds or more",
    "phases 32, two rounds or more", "phases 33, two rounds or more", "phases 1, less than two rounds", "phases 2, less than two rounds",
    "phases 5, less than two rounds", "phases 31, less than two rounds", "phases 32, less than two rounds", "phases 33, less than two rounds",
    "open, ties 0", "open, ties 1", "open, ties of another value", "open refused 1, ties asked for", "open refused 2, ties asked for",
    "smallest: another period than the largest", "largest: another period than the smallest", "largest: another period, the sum above 0",
    "largest: another period, search of samples", "largest: another period, search of averages, skip 1",
    "largest: another period, search twice, 1 channel", "largest: another period, search twice, more channels",
    "stretched by another value of ties than 1", "largest and stepping over: a step passed over", "sum of a stalled call",
    "sum of a search that copying steps follow", "sum where the previous period is used", "no sum of copying steps alone",
];

impl Census {
    fn new() -> Self {
        Self(BTreeMap::new())
    }

    fn count(&mut self, name: &str) {
        *self.0.entry(name.to_string()).or_default() += 1;
    }

    fn call(&mut self, line: &str, answer: &str, before: &Fields, fields: &Fields) {
        let kind = match line.as_bytes()[0] {
            b'o' => "open",
            b's' => "speed",
            b'p' => "pitch",
            b'v' => "volume",
            b't' => "step over",
            b'a' => "available",
            b'w' => "write",
            b'f' => "flush",
            _ => "read",
        };
        let words: Vec<&str> = answer.split(' ').skip(1).collect();
        match words.first() {
            Some(&"refused") => self.count(&format!("{kind} refused {}", words[1])),
            Some(word) if matches!(kind, "write" | "flush") => {
                self.count(&format!("{kind} {word}"));
                self.totals(kind, word, before, fields);
                self.passes(kind, words[1], before, fields);
                self.count_if(before[TIES] > 1 && *word == "stretched", "stretched by another value of ties than 1");
            }
            _ => self.count(&format!("{kind} accepted")),
        }
        if kind == "open" {
            self.opening(line, answer, fields);
        }
    }

    /// An opening, with a choice of ties or without.
    fn opening(&mut self, line: &str, answer: &str, fields: &Fields) {
        let ties = line.split(' ').nth(3).map(number);
        if fields[RATE] != 0 {
            self.count(&format!("rate {}", fields[RATE]));
            self.count(&format!("channels {}", fields[CHANNELS]));
            match ties {
                None => (),
                Some(ties @ (0 | 1)) => self.count(&format!("open, ties {ties}")),
                Some(_) => self.count("open, ties of another value"),
            }
        } else if ties.is_some_and(|ties| ties != 0) {
            self.count(&format!("open refused {}, ties asked for", &answer[9..10]));
        }
    }

    /// What an accepted write or flush adds to the totals, and how it goes when both are at their end.
    fn totals(&mut self, kind: &str, word: &str, before: &Fields, after: &Fields) {
        for (field, name) in [(SKIPPED, "skipped"), (INSERTED, "inserted")] {
            if after[field] > before[field] {
                self.count(&format!("{kind} {} {name}", if after[field] == u64::MAX { "fills" } else { "counts" }));
            }
        }
        if [before[SKIPPED], before[INSERTED]] == FULL {
            self.count(&format!("{word} with full totals"));
        }
    }

    /// What an accepted write or flush passes over.
    fn passes(&mut self, kind: &str, passed: &str, before: &Fields, after: &Fields) {
        if passed == "0" {
            return;
        }
        self.count(&format!("{kind} passes over"));
        if before[STEP_OVER] != 1 {
            self.count("passes over by another value than 1");
        }
        if kind == "write" && before[HELD] >= 2 * (before[RATE] / 65) {
            self.count("passes over what had stalled");
        }
        if after[SKIPPED] == u64::MAX {
            self.count(&format!("{kind} fills skipped, passing over"));
        }
    }

    /// The steps of a stretch, if it is due, in the order of `change_speed`. Their periods are what it adds to the totals.
    fn steps(&mut self, added: &SonicStream, stretched: &Stretched, totals: [u64; 2], text: Text) {
        let (held, mut position, mut periods) = (added.input_frames(), 0, [0; 2]);
        let (mut copied_last, mut previous_last) = (false, false);
        let Some(speed) = due(added) else { return };
        let (mut s, mut whole) = (copy_of(added), copy_of(added));
        while position + s.max_required <= held {
            let (before, at) = (copy_of(&s), position);
            let step = s.step_as(text, speed, position);
            position += step.used;
            copied_last = step.searched.is_none();
            let Some(Searched { period, k, sum }) = step.searched else {
                self.copying(speed, position == held);
                continue;
            };
            previous_last = period != s.prev_period as usize;
            self.step(&s, speed, (period, k));
            self.tie(&before, &s, text, at, sum);
            if k == 0 && text.over {
                self.passed(speed, s.output.len() > added.output.len(), previous_last);
                self.count_if(text.largest, "largest and stepping over: a step passed over");
            } else if k == 0 {
                self.stall(at, totals, sum);
                periods = [0; 2];
                break;
            }
            periods[usize::from(speed < 1.0)] += period as u64;
        }
        assert_eq!(periods, stretched.counted, "the periods are counted wrong");
        self.count_if(stretched.passed > 0 && s.output == added.output, "every step passed over");
        self.count_if(copied_last && stretched.sum > 0, "sum of a search that copying steps follow");
        self.count_if(previous_last && stretched.sum > 0, "sum where the previous period is used");
        self.count_if(copied_last && periods == [0; 2] && s.prev_min_diff > 0, "no sum of copying steps alone");
        whole.change_speed_as(text, speed);
        assert!(whole.output == s.output && bits(whole.time_error) == bits(s.time_error), "the steps are counted wrong");
    }

    fn count_if(&mut self, met: bool, name: &str) {
        if met {
            self.count(name);
        }
    }

    /// A copying step.
    fn copying(&mut self, speed: f32, all: bool) {
        self.count(if speed > 1.0 { "step copying, s > 1" } else { "step copying, s < 1" });
        self.count_if(all, "step copying all that is left");
    }

    /// A step without a frame at a position, which ends its call.
    fn stall(&mut self, position: usize, totals: [u64; 2], sum: usize) {
        self.count(match position {
            0 => "step stall",
            _ if totals == FULL => "step stall after frames with full totals",
            _ => "step stall after frames",
        });
        self.count_if(sum > 0, "sum of a stalled call");
    }

    /// A search at a position, on the stream before it and after it: whether the other choice of ties finds another period.
    fn tie(&mut self, before: &SonicStream, after: &SonicStream, text: Text, position: usize, sum: usize) {
        let mut other = copy_of(before);
        other.step_as(Text { largest: !text.largest, ..text }, 2.0, position);
        if other.prev_period == after.prev_period {
            return;
        }
        if !text.largest {
            return self.count("smallest: another period than the largest");
        }
        self.count("largest: another period than the smallest");
        self.count(&format!("largest: another period, {}", kind_of_search(after)));
        self.count_if(sum > 0, "largest: another period, the sum above 0");
    }

    /// A period passed over: behind frames made in the same call or not, the previous one or the one found.
    fn passed(&mut self, speed: f32, after_frames: bool, previous: bool) {
        self.count("step passed over");
        if previous {
            self.count("step passed over, previous period");
        }
        if speed.is_infinite() {
            self.count("step passed over, s infinite");
        }
        if after_frames {
            self.count("step passed over after frames");
        }
    }

    /// A skip or an insert, on the stream after it, with its period and k.
    fn step(&mut self, s: &SonicStream, speed: f32, (period, k): (usize, usize)) {
        self.count_if(period != s.prev_period as usize, "previous period used");
        self.count(kind_of_search(s));
        if speed > 1.0 {
            return self.count(if speed < 2.0 { "step skip, s < 2" } else { "step skip, s >= 2" });
        }
        self.count(if speed > 0.5 { "step insert, s > 0.5" } else { "step insert, s <= 0.5" });
        self.count_if(k == 1, "step insert of 1 frame");
    }

    /// What the rate conversion of a call does to the tail and the positions.
    fn rate(&mut self, before: &SonicStream, after: &SonicStream, made: usize) {
        if made == 0 {
            return;
        }
        if after.pitch == 1.0 {
            if after.pitch_frames() > 0 {
                self.count("tail kept at pitch 1");
            }
            return;
        }
        let new = (after.sample_rate as f32 / after.pitch) as i32;
        if new > 1 << 14 || after.sample_rate > 1 << 14 {
            self.count("rates halved");
        }
        let [phases, round] = round_of(after.sample_rate as u64, after.pitch);
        let consumed = before.pitch_frames() + made - after.pitch_frames();
        if PHASES.contains(&phases) {
            self.count(&format!("phases {phases}, {}", if consumed as u64 >= 2 * round { "two rounds or more" } else { "less than two rounds" }));
        }
        if after.old_rate_position < before.old_rate_position {
            self.count("rate positions back to 0");
        }
    }

    /// Fails unless everything is touched; tells what is.
    fn check(&self) {
        for name in TOUCHED {
            assert!(self.0.contains_key(name), "no run touches: {name}");
        }
        for (name, times) in &self.0 {
            println!("{times:5}  {name}");
        }
    }
}
