//! Random runs: which call comes next, with which arguments and areas.

use crate::interface::{Setting, STALLED};
use crate::made_up;
use crate::model::settings::max_required;
use crate::run::{Call, Lengths};
use crate::session::Session;
use crate::signals::{Random, Signal, Sound};

/// Rates at and beside each place where a rule turns, and those in common use.
const RATES: [u32; 30] = [
    1_000, 1_001, 1_064, 3_999, 4_000, 4_001, 7_999, 8_000, 8_001, 8_192, 11_025, 11_999, 12_000, 12_001, 15_999, 16_000, 16_001, 16_383, 16_384,
    16_385, 22_050, 32_767, 32_768, 32_769, 44_100, 48_000, 65_536, 96_000, 192_000, 500_000,
];

/// Choices of ties of an opening.
const TIES: [Option<u32>; 8] = [None, None, Some(0), Some(1), Some(1), Some(1), Some(7), Some(u32::MAX)];

/// Samples that the stage of an ordinary call takes at most, unless one search needs more.
const AMPLE: usize = 4_000;

/// Settings outside their limits.
const OUTSIDE: [f32; 10] = [f32::NAN, f32::INFINITY, f32::NEG_INFINITY, 0.0, -0.0, -1.0, 0.049_999_997, 20.000_002, 1e-45, 100.000_01];

/// What a run is mostly about.
#[derive(Clone, Copy, PartialEq)]
enum Mood {
    Ordinary,
    MadeUp,
    Stall,
    Copy,
    Lowered,
    Tight,
    Refused,
}

/// A random run under way.
pub struct Scenario {
    random: Random,
    rate: u32,
    channels: u32,
    ties: Option<u32>,
    signal: Signal,
    mood: Mood,
    left: usize,
    begun: bool,
    after_made: bool,
    next: Vec<Call>,
}

/// A random rate; high ones seldom, since their searches are long.
fn random_rate(random: &mut Random) -> u32 {
    let rate = match random.below(100) {
        0..=29 => 8_000,
        30..=39 => random.between(1_000, 4_200) as u32,
        40..=54 => random.between(1_000, 20_000) as u32,
        55..=58 => random.between(1_000, 50_000) as u32,
        59 => random.between(1_000, 500_000) as u32,
        _ => random.one_of(&RATES),
    };
    if rate > 60_000 && !random.once_in(4) { 1_000 + rate % 16_000 } else { rate }
}

/// A random channel count.
fn random_channels(random: &mut Random, rate: u32) -> u32 {
    match random.below(10) {
        0..=5 => 1,
        6 | 7 => 2,
        8 => 3,
        _ => random.between(1, if rate > 30_000 { 6 } else { 32 }) as u32,
    }
}

impl Scenario {
    /// The run of a seed.
    pub fn new(seed: u64) -> Scenario {
        let mut random = Random::new(seed);
        use Mood::{Copy, Lowered, MadeUp, Ordinary, Refused, Stall, Tight};
        let moods = [Ordinary, Ordinary, Ordinary, Ordinary, MadeUp, MadeUp, MadeUp, MadeUp, Stall, Copy, Copy, Lowered, Tight, Tight];
        let mood = if random.once_in(30) { Refused } else { random.one_of(&moods) };
        let rate = random_rate(&mut random);
        let channels = random_channels(&mut random, rate);
        let signal = Signal::new(&mut random, rate);
        let left = random.between(4, 40);
        let ties = random.one_of(&TIES);
        Scenario { random, rate, channels, ties, signal, mood, left, begun: false, after_made: false, next: Vec::new() }
    }

    /// The next call, or none at the end of the run.
    pub fn next(&mut self, session: &Session<'_>) -> Option<Call> {
        if !self.begun {
            self.begun = true;
            self.begin();
        }
        if let Some(call) = self.next.pop() {
            return Some(call);
        }
        self.left = self.left.checked_sub(1)?;
        Some(self.choose(session))
    }

    /// The first calls of a run.
    fn begin(&mut self) {
        let random = &mut self.random;
        if self.mood == Mood::Refused {
            self.rate = random.one_of(&[0, 999, 500_001, u32::MAX, 1_000, 500_000]);
            self.channels = random.one_of(&[0, 33, u32::MAX, 1, 32]);
        }
        let (speed, pitch) = match self.mood {
            Mood::Stall => (random.ratio(8.0, 20.0), random.ratio(0.2, 1.0)),
            Mood::Copy => {
                let both = made_up::ratio(random);
                (both, both)
            }
            Mood::Lowered => (0.5, 0.5),
            _ => (made_up::ratio(random), if random.once_in(3) { 1.0 } else { made_up::ratio(random) }),
        };
        self.next = vec![Call::Set(Setting::Pitch(pitch)), Call::Set(Setting::Speed(speed))];
        if random.once_in(3) {
            self.next.push(Call::Set(Setting::Volume(made_up::volume(random))));
        }
        if random.once_in(if self.mood == Mood::Stall { 2 } else { 4 }) {
            self.next.push(Call::Set(Setting::StepOver(1)));
        }
        self.next.push(self.opening());
    }

    /// An opening of the run's rate, channels and choice of ties.
    fn opening(&self) -> Call {
        Call::Open { rate: self.rate, channels: self.channels, ties: self.ties }
    }

    /// A call of a kind that fits the run; a stream out of order, or with a total at its end, is soon opened anew, and one that stalled may
    /// step over.
    fn choose(&mut self, session: &Session<'_>) -> Call {
        let crowded = session.stream.waiting > 4_000;
        if std::mem::take(&mut self.after_made) && self.random.once_in(2) {
            return self.write_of(session, 0);
        }
        if [3, 12].contains(&session.last.refusal) && self.mood != Mood::Refused && self.random.once_in(3) {
            return self.opening();
        }
        if session.last.outcome == STALLED && self.random.once_in(12) {
            self.after_made = true;
            return Call::Set(Setting::StepOver(made_up::choice(&mut self.random)));
        }
        match self.random.below(100) {
            0..=4 if self.mood == Mood::Refused => {
                Call::Open { rate: self.random.one_of(&RATES), channels: 1 + self.random.below(33) as u32, ties: self.ties }
            }
            0..=29 if self.mood == Mood::MadeUp => self.made_up(session),
            0..=29 if self.mood == Mood::Lowered => self.turn_pitch(session),
            0..=2 => self.made_up(session),
            3..=6 => self.setting(session),
            7 => Call::Available,
            8..=10 => self.change_sound(session),
            11..=18 => self.flush(session),
            19..=34 => self.read(session),
            35..=60 if crowded => self.read(session),
            _ => self.write(session),
        }
    }

    /// A made-up stream of the run's rate and channels; seldom of others. A write of no frames, which keeps its play time, often follows.
    fn made_up(&mut self, session: &Session<'_>) -> Call {
        self.after_made = true;
        if self.mood == Mood::Refused || self.random.once_in(5) {
            self.rate = random_rate(&mut self.random);
            self.channels = random_channels(&mut self.random, self.rate);
            self.signal = Signal::new(&mut self.random, self.rate);
        }
        made_up::call(&mut self.random, session.judge(), self.rate, self.channels, &mut self.signal)
    }

    /// Another sound, then a write.
    fn change_sound(&mut self, session: &Session<'_>) -> Call {
        self.signal = if self.random.once_in(4) {
            Signal::of(&mut self.random, self.rate.max(1_000), Sound::Silence)
        } else {
            Signal::new(&mut self.random, self.rate.max(1_000))
        };
        self.write(session)
    }

    /// A setting at, inside or outside its limits; sometimes the same again.
    fn setting(&mut self, session: &Session<'_>) -> Call {
        let random = &mut self.random;
        let outside = random.once_in(6);
        let same = random.once_in(4);
        let setting = match random.below(4) {
            0 => Setting::Speed(if outside { random.one_of(&OUTSIDE) } else if same { session.stream.pitch } else { made_up::ratio(random) }),
            1 => Setting::Pitch(if outside { random.one_of(&OUTSIDE) } else if same { session.stream.pitch } else { made_up::ratio(random) }),
            2 => Setting::Volume(if outside { random.one_of(&OUTSIDE) } else { made_up::volume(random) }),
            _ => Setting::StepOver(if same { session.stream.step_over } else { made_up::choice(random) }),
        };
        Call::Set(setting)
    }

    /// The pitch back to 1, or away from it, and then a speed, often one at which frames are copied.
    fn turn_pitch(&mut self, session: &Session<'_>) -> Call {
        let random = &mut self.random;
        let away = if random.once_in(2) { made_up::ratio(random) } else { random.one_of(&[0.5, 0.8, 2.0, 0.99999994, 1.0000001]) };
        let pitch = if session.stream.pitch == 1.0 { away } else { 1.0 };
        let speed = if random.once_in(2) { pitch } else { random.one_of(&[2.0, 0.5, 1.3, 0.8, 20.0]) };
        self.next.push(Call::Set(Setting::Speed(speed)));
        Call::Set(Setting::Pitch(pitch))
    }

    /// The frames of a write.
    fn write_frames(&mut self) -> usize {
        let required = max_required(self.rate.clamp(1_000, 500_000));
        match self.random.below(12) {
            0 => 0,
            1 => 1,
            2 => required - 1,
            3 => required,
            4 => required + 1,
            5 => self.random.between(required, 5 * required),
            6 | 7 => self.random.below(50),
            _ => self.random.below(required + required / 2),
        }
    }

    /// A write of some frames.
    fn write(&mut self, session: &Session<'_>) -> Call {
        let frames = self.write_frames();
        self.write_of(session, frames)
    }

    /// A write of so many frames, with a partial frame here and there.
    fn write_of(&mut self, session: &Session<'_>, frames: usize) -> Call {
        let channels = (self.channels as usize).clamp(1, 33);
        let partial = if self.random.once_in(4) { self.random.below(channels) } else { 0 };
        let mut samples = self.signal.frames(&mut self.random, frames, channels);
        samples.extend((0..partial).map(|_| 0.75));
        let areas = self.areas(session, &samples, frames);
        Call::Write { samples, areas }
    }

    /// A flush.
    fn flush(&mut self, session: &Session<'_>) -> Call {
        let frames = 2 * max_required(self.rate.clamp(1_000, 500_000));
        let silence = vec![0.0; frames * (self.channels as usize).clamp(1, 33)];
        Call::Flush { areas: self.areas(session, &silence, frames) }
    }

    /// Areas for a call that adds frames: ample, or exactly what it needs, or one less in one of them.
    fn areas(&mut self, session: &Session<'_>, samples: &[f32], frames: usize) -> Lengths {
        let tight = if [Mood::Tight, Mood::Lowered].contains(&self.mood) { 2 } else { 8 };
        if self.random.once_in(tight) {
            if let Some(exact) = self.exact_areas(session, samples, frames) {
                return exact;
            }
        }
        self.ample_areas(session, frames)
    }

    /// Areas with room, as far as it can be guessed; much of it after a refusal for want of room.
    fn ample_areas(&mut self, session: &Session<'_>, frames: usize) -> Lengths {
        let (stream, channels) = (&session.stream, (self.channels as usize).clamp(1, 33));
        let held = stream.held.min(1 << 20) + frames;
        let slow = (stream.pitch / stream.speed).clamp(1.0, 400.0);
        let more = (1.0 / stream.pitch).clamp(1.0, 20.0);
        let required = max_required(self.rate.clamp(1_000, 500_000));
        let wide = [6, 7].contains(&session.last.refusal) || self.random.once_in(30);
        let most = if wide { 12 } else { 1 } * (required + AMPLE / channels);
        let staged = ((held as f32 * slow * 1.3) as usize + 4 * required).min(most);
        let made = ((staged as f32 * more * 1.1) as usize + 100).min(3 * most);
        let slack = self.random.below(20);
        Lengths {
            input: held * channels + slack,
            stage: (stream.tail.min(1 << 20) + staged) * channels + slack,
            output: (stream.waiting.min(1 << 20) + made) * channels + slack,
            scratch: required + slack,
        }
    }

    /// The least areas that the call needs; each of them may be one sample less, or a partial frame more.
    fn exact_areas(&mut self, session: &Session<'_>, samples: &[f32], frames: usize) -> Option<Lengths> {
        let (stream, channels) = (&session.stream, session.stream.channels as usize);
        let unheld = [stream.held, stream.tail, stream.waiting].iter().any(|&count| count > 1 << 20);
        if unheld || !session.judge().in_order(stream) || frames * channels > samples.len() {
            return None;
        }
        let added: Vec<i16> = samples[..frames * channels].iter().map(|&x| session.judge().rules.write.sample_in(x)).collect();
        let needs = session.judge().needs(*stream, &session.kept.input, &session.kept.tail, &added, AMPLE / channels)?;
        let exact = [stream.held + frames, needs.staged, stream.waiting + needs.made].map(|count| count * channels);
        let [input, stage, output] = exact.map(|length| self.near(length, channels));
        let parts = [stream.tail, needs.frames, stream.tail + needs.frames].map(|frames| frames * channels);
        let stage = if self.mood == Mood::Lowered && self.random.once_in(2) { self.random.one_of(&parts) } else { stage };
        let required = max_required(stream.rate);
        let scratch = if self.random.once_in(12) { required - 1 } else { required };
        Some(Lengths { input, stage, output, scratch })
    }

    /// A length, mostly as it is; sometimes one sample less, a partial frame more, or much less.
    fn near(&mut self, length: usize, channels: usize) -> usize {
        match self.random.below(16) {
            0 | 1 => length.saturating_sub(1),
            2 => length.saturating_sub(channels),
            3 => length + channels - 1,
            4 => self.random.below(length + 1),
            5 => length + self.random.below(100),
            _ => length,
        }
    }

    /// A read: short, long or of nothing, into a slice that may end in a partial frame.
    fn read(&mut self, session: &Session<'_>) -> Call {
        let (channels, waiting) = ((self.channels as usize).clamp(1, 33), session.stream.waiting.min(1 << 20));
        let random = &mut self.random;
        let most = [0, 1, random.below(waiting + 2), waiting, waiting + 1, usize::MAX, usize::MAX];
        let slice = [0, channels - 1, random.below(waiting * channels + 2), waiting * channels, waiting * channels + 5, waiting * channels + 40];
        let (most, slice) = (random.one_of(&most), random.one_of(&slice));
        let held = waiting * channels;
        let output = if random.once_in(12) { held.saturating_sub(1) } else { held + random.below(30) };
        Call::Read { most, slice, output }
    }
}
