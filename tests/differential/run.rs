//! A run: calls with their arguments and the lengths of the areas lent. Runs have a text form, one call in each line, that `replay`
//! reads: values that repeat are written once with a count, as in `0.0*246`.

use crate::interface::{Balance, Setting, Stream};

/// Samples kept between calls.
#[derive(Clone, Debug, Default)]
pub struct Kept {
    pub input: Vec<i16>,
    pub tail: Vec<i16>,
    pub output: Vec<i16>,
}

/// Lengths of the four areas, in samples.
#[derive(Clone, Copy, Debug)]
pub struct Lengths {
    pub input: usize,
    pub stage: usize,
    pub output: usize,
    pub scratch: usize,
}

/// A call, or a made-up stream that takes the place of the last one.
#[derive(Clone, Debug)]
pub enum Call {
    Open { rate: u32, channels: u32, ties: Option<u32> },
    Made { stream: Stream, kept: Kept },
    Set(Setting),
    Available,
    Write { samples: Vec<f32>, areas: Lengths },
    Read { most: usize, slice: usize, output: usize },
    Flush { areas: Lengths },
}

/// Values in a row, repeats with their count.
fn list<T: Copy + std::fmt::Debug>(values: &[T], same: impl Fn(T, T) -> bool) -> String {
    let mut text = String::new();
    let mut rest = values;
    while let Some(&first) = rest.first() {
        let count = rest.iter().take_while(|&&v| same(v, first)).count();
        text += &if count == 1 { format!(" {first:?}") } else { format!(" {first:?}*{count}") };
        rest = &rest[count..];
    }
    text
}

/// Samples of areas in a row.
fn samples(values: &[i16]) -> String {
    list(values, |a, b| a == b)
}

impl std::fmt::Display for Lengths {
    fn fmt(&self, f: &mut std::fmt::Formatter<'_>) -> std::fmt::Result {
        write!(f, "areas {} {} {} {}", self.input, self.stage, self.output, self.scratch)
    }
}

/// The text of a made-up stream.
fn made_text(s: &Stream, kept: &Kept) -> String {
    let floats = [s.speed, s.pitch, s.volume, s.sample_period, s.input_play_time, s.time_error];
    let wholes = [s.old_rate_position, s.new_rate_position, s.prev_period, s.prev_min_diff, s.held, s.tail, s.waiting];
    let totals = [s.balance.skipped, s.balance.inserted];
    let choices = [s.step_over, s.ties].map(|value| value.to_string());
    let wholes = wholes.iter().map(usize::to_string).chain(totals.iter().map(u64::to_string)).chain(choices);
    let fields: Vec<String> = floats.iter().map(|v| format!("{v:?}")).chain(wholes).collect();
    let parts = [("input", &kept.input), ("tail", &kept.tail), ("output", &kept.output)];
    let parts: Vec<String> = parts.iter().map(|(name, values)| format!("{name}{}", samples(values))).collect();
    format!("made {} {} {} {}", s.rate, s.channels, fields.join(" "), parts.join(" "))
}

impl std::fmt::Display for Call {
    fn fmt(&self, f: &mut std::fmt::Formatter<'_>) -> std::fmt::Result {
        match self {
            Call::Open { rate, channels, ties: None } => write!(f, "open {rate} {channels}"),
            Call::Open { rate, channels, ties: Some(ties) } => write!(f, "open {rate} {channels} {ties}"),
            Call::Made { stream, kept } => write!(f, "{}", made_text(stream, kept)),
            Call::Set(Setting::Speed(value)) => write!(f, "speed {value:?}"),
            Call::Set(Setting::Pitch(value)) => write!(f, "pitch {value:?}"),
            Call::Set(Setting::Volume(value)) => write!(f, "volume {value:?}"),
            Call::Set(Setting::StepOver(value)) => write!(f, "step_over {value}"),
            Call::Available => write!(f, "available"),
            Call::Write { samples, areas } => {
                write!(f, "write {areas} samples{}", list(samples, |a, b| a.to_bits() == b.to_bits()))
            }
            Call::Read { most, slice, output } => write!(f, "read {most} slice {slice} output {output}"),
            Call::Flush { areas } => write!(f, "flush {areas}"),
        }
    }
}

/// The words of a line.
type Words<'a> = std::iter::Peekable<std::str::SplitWhitespace<'a>>;

/// The next word as a value.
fn value<T: std::str::FromStr>(words: &mut Words<'_>) -> Result<T, String> {
    let word = words.next().ok_or("a value is missing")?;
    word.parse().map_err(|_| format!("{word} is no value"))
}

/// The next word, which has to be this one.
fn expect(words: &mut Words<'_>, wanted: &str) -> Result<(), String> {
    match words.next() {
        Some(word) if word == wanted => Ok(()),
        other => Err(format!("{wanted} in place of {other:?}")),
    }
}

/// Values up to the next name or the end.
fn values<T: std::str::FromStr + Copy>(words: &mut Words<'_>) -> Result<Vec<T>, String> {
    let mut all = Vec::new();
    while let Some(word) = words.next_if(|word| !["tail", "output"].contains(word)) {
        let (first, count) = word.split_once('*').unwrap_or((word, "1"));
        let value = first.parse().map_err(|_| format!("{word} is no value"))?;
        let count: usize = count.parse().map_err(|_| format!("{word} has no count"))?;
        all.resize(all.len() + count, value);
    }
    Ok(all)
}

/// The lengths of the four areas.
fn lengths(words: &mut Words<'_>) -> Result<Lengths, String> {
    expect(words, "areas")?;
    Ok(Lengths { input: value(words)?, stage: value(words)?, output: value(words)?, scratch: value(words)? })
}

/// A made-up stream.
fn made(words: &mut Words<'_>) -> Result<Call, String> {
    let stream = Stream {
        rate: value(words)?,
        channels: value(words)?,
        speed: value(words)?,
        pitch: value(words)?,
        volume: value(words)?,
        sample_period: value(words)?,
        input_play_time: value(words)?,
        time_error: value(words)?,
        old_rate_position: value(words)?,
        new_rate_position: value(words)?,
        prev_period: value(words)?,
        prev_min_diff: value(words)?,
        held: value(words)?,
        tail: value(words)?,
        waiting: value(words)?,
        balance: Balance { skipped: value(words)?, inserted: value(words)? },
        step_over: value(words)?,
        ties: value(words)?,
    };
    expect(words, "input")?;
    let input = values(words)?;
    expect(words, "tail")?;
    let tail = values(words)?;
    expect(words, "output")?;
    Ok(Call::Made { stream, kept: Kept { input, tail, output: values(words)? } })
}

/// An opening, with a choice of ties or without.
fn open(words: &mut Words<'_>) -> Result<Call, String> {
    let (rate, channels) = (value(words)?, value(words)?);
    let ties = if words.peek().is_some() { Some(value(words)?) } else { None };
    Ok(Call::Open { rate, channels, ties })
}

/// A read.
fn read(words: &mut Words<'_>) -> Result<Call, String> {
    let most = value(words)?;
    expect(words, "slice")?;
    let slice = value(words)?;
    expect(words, "output")?;
    Ok(Call::Read { most, slice, output: value(words)? })
}

/// A write.
fn write(words: &mut Words<'_>) -> Result<Call, String> {
    let areas = lengths(words)?;
    expect(words, "samples")?;
    Ok(Call::Write { samples: values(words)?, areas })
}

/// The call of one line.
fn call(line: &str) -> Result<Call, String> {
    let mut words = line.split_whitespace().peekable();
    let words = &mut words;
    match words.next() {
        Some("open") => open(words),
        Some("made") => made(words),
        Some("speed") => Ok(Call::Set(Setting::Speed(value(words)?))),
        Some("pitch") => Ok(Call::Set(Setting::Pitch(value(words)?))),
        Some("volume") => Ok(Call::Set(Setting::Volume(value(words)?))),
        Some("step_over") => Ok(Call::Set(Setting::StepOver(value(words)?))),
        Some("available") => Ok(Call::Available),
        Some("write") => write(words),
        Some("read") => read(words),
        Some("flush") => Ok(Call::Flush { areas: lengths(words)? }),
        other => Err(format!("no call: {other:?}")),
    }
}

/// The run of a text; empty lines and lines that begin with # are left out.
pub fn parse(text: &str) -> Result<Vec<Call>, String> {
    let lines = text.lines().enumerate().filter(|(_, line)| !line.trim().is_empty() && !line.trim().starts_with('#'));
    lines.map(|(number, line)| call(line).map_err(|error| format!("line {}: {error}", number + 1))).collect()
}

/// The text of a run.
pub fn text(calls: &[Call]) -> String {
    calls.iter().map(|call| format!("{call}\n")).collect()
}
