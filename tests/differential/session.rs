//! One run under way: each call goes to the subject, to the model, which says whether it is refused and how it goes, and, if it is
//! accepted, to the original. After every call all that docs/RULES.md, "Areas and refusals", does not leave free is
//! compared.

use crate::interface::{same_float, Gave, Setting, Stream, Subject, Told, Wrote};
use crate::lending::{slice_with_guard, Buffers};
use crate::model::Model;
use crate::original::Original;
use crate::run::{Call, Kept, Lengths};
use crate::signals::Congruential;
use crate::tally::Tally;

/// Samples that a part can keep in this test; a stream that claims more cannot be told by the original.
const KEPT_AT_MOST: usize = 1 << 25;

/// The answer of a call: its refusal, its outcome, its frames, the periods passed over, and the sum of its last search.
#[derive(Clone, Copy, Debug, Default)]
pub struct Answer {
    pub refusal: u32,
    pub outcome: u32,
    pub frames: usize,
    pub passed: usize,
    pub sum: usize,
}

/// A run under way.
pub struct Session<'a> {
    subject: &'a mut dyn Subject,
    judge: &'a mut Model,
    tally: &'a mut Tally,
    original: Option<Original>,
    pub stream: Stream,
    pub kept: Kept,
    pub last: Answer,
    buffers: &'a mut Buffers,
    leftovers: Congruential,
}

/// Says what differs, unless both are equal.
fn equal<T: PartialEq + std::fmt::Debug>(what: &str, ours: T, theirs: T) -> Result<(), String> {
    if ours == theirs { Ok(()) } else { Err(format!("{what}: {ours:?} in place of {theirs:?}")) }
}

/// Says in which field two streams differ, if they do.
fn equal_streams(what: &str, ours: &Stream, theirs: &Stream) -> Result<(), String> {
    ours.difference(theirs).map_or(Ok(()), |difference| Err(format!("{what}: {difference}")))
}

/// Says at which sample two lists differ, if they do.
fn equal_samples(what: &str, ours: &[i16], theirs: &[i16]) -> Result<(), String> {
    if ours == theirs {
        return Ok(());
    }
    equal(&format!("{what}, samples"), ours.len(), theirs.len())?;
    let place = ours.iter().zip(theirs).position(|(a, b)| a != b).unwrap_or(0);
    Err(format!("{what}, sample {place}: {} in place of {}", ours[place], theirs[place]))
}

impl<'a> Session<'a> {
    /// A run that has not begun: its stream is the one that is never in order.
    pub fn new(subject: &'a mut dyn Subject, judge: &'a mut Model, tally: &'a mut Tally, buffers: &'a mut Buffers) -> Session<'a> {
        let (stream, kept, last, leftovers) = (Stream::default(), Kept::default(), Answer::default(), Congruential(1));
        Session { subject, judge, tally, original: None, stream, kept, last, buffers, leftovers }
    }

    /// The model that judges.
    pub fn judge(&self) -> &Model {
        self.judge
    }

    /// Makes one call everywhere and compares.
    pub fn step(&mut self, call: &Call) -> Result<Answer, String> {
        let answer = match call {
            Call::Open { rate, channels, ties } => self.open(*rate, *channels, *ties),
            Call::Made { stream, kept } => {
                self.make_up(stream, kept);
                return Ok(Answer::default());
            }
            Call::Set(setting) => self.set(*setting),
            Call::Available => self.available(),
            Call::Write { samples, areas } => self.write(samples, areas),
            Call::Read { most, slice, output } => self.read(*most, *slice, *output),
            Call::Flush { areas } => self.flush(areas),
        };
        self.tally.count(call, answer.as_ref().ok());
        self.last = answer.as_ref().map_or(self.last, |answer| *answer);
        answer
    }

    /// Opens.
    fn open(&mut self, rate: u32, channels: u32, ties: Option<u32>) -> Result<Answer, String> {
        let said = self.judge.open(rate, channels, ties);
        let got = self.subject.open(rate, channels, ties);
        equal("refusal", got.refusal, said.refusal)?;
        equal("number given", got.given, said.given)?;
        equal_streams("stream", &got.stream, &said.stream)?;
        self.original = match Original::open(rate, channels, ties.unwrap_or(0)) {
            Ok(original) => {
                equal("refusal by the original", got.refusal, 0)?;
                equal_streams("stream of the original", &got.stream, &original.value())?;
                Some(original)
            }
            Err((refusal, given)) => {
                equal("refusal by the original", got.refusal, refusal)?;
                equal("number given by the original", got.given, given)?;
                equal_streams("stream of a refused opening", &got.stream, &Stream::default())?;
                None
            }
        };
        self.stream = got.stream;
        self.kept = Kept::default();
        Ok(Answer { refusal: got.refusal, ..Answer::default() })
    }

    /// Takes a made-up stream: the original is put into its state if it is in order. Parts that could be held at all are.
    fn make_up(&mut self, stream: &Stream, kept: &Kept) {
        self.stream = *stream;
        self.kept = kept.clone();
        let parts = [(&mut self.kept.input, stream.held), (&mut self.kept.tail, stream.tail), (&mut self.kept.output, stream.waiting)];
        for (part, frames) in parts {
            let samples = frames.saturating_mul(stream.channels as usize);
            part.resize(if samples <= KEPT_AT_MOST { samples } else { part.len().min(64) }, 0);
        }
        self.original = self.judge.in_order(stream).then(|| Original::made(stream, &self.kept));
    }

    /// The stream that the original stands for. A count that it cannot tell is the entering one.
    fn value_of_original(&self) -> Result<Stream, String> {
        let value = self.original.as_ref().ok_or("accepted without a stream in order")?.value();
        let channels = self.stream.channels as usize;
        let told = |frames: usize, entering: usize| if entering.saturating_mul(channels) > KEPT_AT_MOST { entering } else { frames };
        let (held, tail) = (told(value.held, self.stream.held), told(value.tail, self.stream.tail));
        Ok(Stream { held, tail, waiting: told(value.waiting, self.stream.waiting), ..value })
    }

    /// The original, which stands behind every accepted call.
    fn original(&mut self) -> Result<&mut Original, String> {
        self.original.as_mut().ok_or_else(|| "accepted without a stream in order".to_string())
    }

    /// Compares the stream handed back, and keeps it.
    fn take(&mut self, got: Stream, said: Stream, refusal: u32) -> Result<(), String> {
        if refusal != 0 {
            return equal_streams("stream after a refusal", &got, &self.stream);
        }
        let value = self.value_of_original()?;
        equal_streams("stream", &got, &value)?;
        equal_streams("the model and the original part: stream", &said, &value)?;
        self.stream = got;
        Ok(())
    }

    /// Sets.
    fn set(&mut self, setting: Setting) -> Result<Answer, String> {
        let said = self.judge.set(self.stream, setting);
        let got = self.subject.set(self.stream, setting);
        equal("refusal", got.refusal, said.refusal)?;
        if got.refusal == 0 {
            self.original()?.set(setting);
        }
        self.take(got.stream, said.stream, got.refusal)?;
        Ok(Answer { refusal: got.refusal, ..Answer::default() })
    }

    /// Counts the frames waiting.
    fn available(&mut self) -> Result<Answer, String> {
        let said = self.judge.available(self.stream);
        let got = self.subject.available(self.stream);
        equal("refusal", got.refusal, said.refusal)?;
        equal("frames waiting", got.frames, said.frames)?;
        if got.refusal == 0 && self.stream.waiting <= KEPT_AT_MOST {
            equal("frames waiting in the original", got.frames, self.original()?.available())?;
        }
        self.take(got.stream, said.stream, got.refusal)?;
        Ok(Answer { refusal: got.refusal, frames: got.frames, ..Answer::default() })
    }

    /// Makes the areas of a call, for the subject and for the judge with different leftovers.
    fn make_areas(&mut self, lengths: &Lengths) {
        self.buffers.lent.make(&self.kept, lengths, &mut self.leftovers);
        self.buffers.judged.make(&self.kept, lengths, &mut self.leftovers);
    }

    /// Writes.
    fn write(&mut self, samples: &[f32], lengths: &Lengths) -> Result<Answer, String> {
        self.make_areas(lengths);
        let said = self.judge.write(self.stream, samples, self.buffers.judged.areas());
        let got = self.subject.write(self.stream, samples, self.buffers.lent.areas());
        self.settle(said, got, |original| original.write(samples))
    }

    /// Flushes.
    fn flush(&mut self, lengths: &Lengths) -> Result<Answer, String> {
        self.make_areas(lengths);
        let said = self.judge.flush(self.stream, self.buffers.judged.areas());
        let got = self.subject.flush(self.stream, self.buffers.lent.areas());
        self.settle(said, got, Original::flush)
    }

    /// Compares what a write or a flush gave. The original tells refusal 12 from its own totals.
    fn settle(&mut self, said: Wrote, got: Wrote, original: impl FnOnce(&mut Original) -> Result<Told, u32>) -> Result<Answer, String> {
        let Told { outcome, passed, sum } = got.told;
        equal("refusal", got.refusal, said.refusal)?;
        equal("outcome", outcome, said.told.outcome)?;
        equal("periods passed over", passed, said.told.passed)?;
        equal("sum of the last search", sum, said.told.sum)?;
        let waiting = self.stream.waiting;
        let mut told = Told::default();
        if [0, 12].contains(&got.refusal) {
            let answer = original(self.original()?);
            equal("refusal by the original", got.refusal, answer.err().unwrap_or(0))?;
            told = answer.unwrap_or_default();
        }
        equal("outcome of the original", outcome, told.outcome)?;
        equal("periods that the original passes over", passed, told.passed)?;
        equal("sum of the original's last search", sum, told.sum)?;
        self.take(got.stream, said.stream, got.refusal)?;
        self.compare_kept(got.refusal)?;
        Ok(Answer { refusal: got.refusal, outcome, frames: self.stream.waiting.wrapping_sub(waiting), passed, sum })
    }

    /// Compares the kept parts of the areas: with the original's if the call was accepted, with those lent if it was refused.
    fn compare_kept(&mut self, refusal: u32) -> Result<(), String> {
        if refusal == 0 {
            let [input, tail, output] = self.original.as_ref().ok_or("no original")?.samples();
            self.kept = Kept { input: input.to_vec(), tail: tail.to_vec(), output: output.to_vec() };
        }
        let (lent, kept) = (&self.buffers.lent, &self.kept);
        let parts = [("input", &lent.input, &kept.input), ("tail", &lent.stage, &kept.tail), ("output", &lent.output, &kept.output)];
        for (name, area, kept) in parts {
            let reach = if refusal == 0 { kept.len() } else { kept.len().min(area.samples().len()) };
            equal_samples(name, area.samples().get(..reach).ok_or("more kept than the area takes")?, &kept[..reach])?;
        }
        lent.check_guards()
    }

    /// Reads.
    fn read(&mut self, most: usize, slice: usize, output: usize) -> Result<Answer, String> {
        let mut wanted = slice_with_guard(slice, &mut self.leftovers);
        let (mut ours, mut theirs) = (wanted.clone(), wanted.clone());
        self.buffers.lent.make_output(&self.kept, output, &mut self.leftovers);
        self.buffers.judged.make_output(&self.kept, output, &mut self.leftovers);
        let entry = self.buffers.lent.output.front(self.kept.output.len()).to_vec();
        let said = self.judge.read(self.stream, most, &mut theirs[..slice], self.buffers.judged.output.lent());
        let got = self.subject.read(self.stream, most, &mut ours[..slice], self.buffers.lent.output.lent());
        equal("refusal", got.refusal, said.refusal)?;
        equal("frames", got.frames, said.frames)?;
        if got.refusal == 0 {
            let channels = self.stream.channels as usize;
            let given = self.original()?.read(most.min(slice / channels));
            equal("frames of the original", got.frames, given.len() / channels)?;
            wanted[..given.len()].copy_from_slice(&given);
        }
        self.compare_slice(&ours, &wanted)?;
        let answer = self.settle_read(said, got)?;
        self.compare_behind(&entry)?;
        Ok(answer)
    }

    /// Compares a read's slice, by bits.
    fn compare_slice(&self, ours: &[f32], wanted: &[f32]) -> Result<(), String> {
        let place = ours.iter().zip(wanted).position(|(a, b)| !same_float(*a, *b));
        place.map_or(Ok(()), |at| Err(format!("slice, place {at}: {:?} in place of {:?}", ours[at], wanted[at])))
    }

    /// Compares the output behind the frames that a read leaves with what stood there: a read removes frames and does nothing else to it.
    fn compare_behind(&self, entry: &[i16]) -> Result<(), String> {
        let kept = self.kept.output.len().min(entry.len());
        equal_samples("output behind the frames left", &self.buffers.lent.output.samples()[kept..entry.len()], &entry[kept..])
    }

    /// Compares the stream and the output that a read leaves.
    fn settle_read(&mut self, said: Gave, got: Gave) -> Result<Answer, String> {
        self.take(got.stream, said.stream, got.refusal)?;
        if got.refusal == 0 {
            let output = self.original()?.samples()[2].to_vec();
            self.kept.output = output;
        }
        let (area, kept) = (self.buffers.lent.output.samples(), &self.kept.output);
        let reach = if got.refusal == 0 { kept.len() } else { kept.len().min(area.len()) };
        equal_samples("output", area.get(..reach).ok_or("more kept than the area takes")?, &kept[..reach])?;
        self.buffers.lent.check_guards()?;
        Ok(Answer { refusal: got.refusal, frames: got.frames, ..Answer::default() })
    }
}
