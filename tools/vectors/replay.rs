
// ---- The replay: every line of a text is followed, and the answers stand below the calls.

use std::fmt::Write as _;

impl Session {
    /// The sum over the samples that a count of frames speaks of.
    fn part(&self, field: usize) -> u64 {
        let (count, channels) = (self.fields[field], self.fields[CHANNELS]);
        if channels == 0 || count > ROOM as u64 / channels {
            return 0;
        }
        let area = self.original.as_ref().map_or(&[][..], |s| match field {
            HELD => &s.input,
            TAIL => &s.pitch_buffer,
            _ => &s.output,
        });
        assert!(count == 0 || count * channels == area.len() as u64, "a count of frames that are not known");
        sum(area[..(count * channels) as usize].iter().map(|&x| f32::from(x) / 32767.0))
    }

    /// The rest of an answer's line.
    fn told(&self) -> String {
        let mut line = String::new();
        for (i, &value) in self.fields.iter().enumerate() {
            if matches!(i, RATE | PLAY_TIME | HELD | SKIPPED) {
                line.push_str(" |");
            }
            let _ = if (SPEED..=TIME_ERROR).contains(&i) { write!(line, " {:08x}", bits(float(value))) } else { write!(line, " {value}") };
            if (HELD..=WAITING).contains(&i) {
                let _ = write!(line, " {:08x}", self.part(i));
            }
        }
        line
    }

    /// Follows a line, and answers what it prints.
    fn follow(&mut self, line: &str) -> Option<String> {
        let n: Vec<u64> = line.split(' ').skip(1).map(number).chain([0; 5]).collect();
        let before = self.fields;
        let answer = match line.as_bytes()[0] {
            b'#' => return None,
            b'l' => {
                self.lent = [n[0], n[1], n[2], n[3]].map(|x| (x as usize).min(ROOM));
                return None;
            }
            b'e' => {
                self.edit(n[0] as usize, n[1]);
                return None;
            }
            b'o' => self.open(n[0] as u32, n[1] as u32, n[2]),
            b's' => self.set(|s| s.set_speed(float(n[0]))),
            b'p' => self.set(|s| s.set_pitch(float(n[0]))),
            b'v' => self.set(|s| s.set_volume(float(n[0]))),
            b't' => self.set_step_over(n[0]),
            b'a' => self.available(),
            b'w' => self.write(&signal(n[0], n[1] as u32, n[2] as u32, n[3] as u16, (n[4] as usize).min(ROOM))),
            b'f' => self.flush(),
            _ => self.read(n[0], (n[1] as usize).min(ROOM)),
        };
        self.census.call(line, &answer, &before, &self.fields);
        Some(answer + &self.told())
    }
}

/// A number of a line: decimal, or hexadecimal behind an `x`. A word of a title counts as 0.
fn number(word: &str) -> u64 {
    word.strip_prefix('x').map_or_else(|| word.parse(), |hex| u64::from_str_radix(hex, 16)).unwrap_or(0)
}

/// Every line of a text, each call with its answer below it.
fn replay(text: &str) -> (String, Census) {
    let mut session = Session::new();
    let mut told = String::new();
    for line in text.lines() {
        told.push_str(line);
        told.push('\n');
        if let Some(answer) = session.follow(line) {
            told.push_str(&answer);
            told.push('\n');
        }
    }
    (told, session.census)
}
