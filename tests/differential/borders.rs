//! Runs at the borders of the refusals: each field of a stream at its ends and just past them, areas that are exactly long enough or one
//! sample too short, totals that come to their end or pass it, and stages around a tail near pitch 1. The last call's refusal is known.

use crate::interface::{Balance, Setting, Stream};
use crate::made_up;
use crate::model::settings::{max_required, sample_period};
use crate::model::write::Needs as ModelNeeds;
use crate::model::Model;
use crate::run::{Call, Kept, Lengths};
use crate::signals::{Random, Signal};

/// A run with the refusal of its last call.
pub struct Border {
    pub name: &'static str,
    pub calls: Vec<Call>,
    pub refusal: u32,
}

/// Changes one field of a stream.
type Edit = fn(&mut Stream);

/// A float so many steps beside another.
fn beside(value: f32, steps: i32) -> f32 {
    f32::from_bits(value.to_bits().wrapping_add_signed(steps))
}

/// A stream at 8,000 Hz and pitch 0.5, with positions 3 and 6 in order.
fn stream_in_order() -> Stream {
    let (old_rate_position, new_rate_position) = (3, 6);
    let fresh = Stream { rate: 8_000, channels: 2, speed: 1.0, pitch: 0.5, volume: 1.0, ..Stream::default() };
    Stream { sample_period: sample_period(8_000), old_rate_position, new_rate_position, ..fresh }
}

/// Fields at their ends.
const AT_THE_ENDS: [(&str, Edit); 24] = [
    ("lowest speed", |s| s.speed = 0.05),
    ("highest speed", |s| s.speed = 20.0),
    ("lowest volume", |s| s.volume = 0.01),
    ("highest volume", |s| s.volume = 100.0),
    ("lowest pitch", |s| (s.pitch, s.new_rate_position) = (0.05, 60)),
    ("highest pitch", |s| (s.pitch, s.new_rate_position) = (20.0, 1)),
    ("shortest period", |s| s.prev_period = 20),
    ("longest period", |s| s.prev_period = 123),
    ("highest mean", |s| s.prev_min_diff = 65_535),
    ("last positions", |s| (s.old_rate_position, s.new_rate_position) = (7_999, 15_998)),
    ("positions 0", |s| (s.old_rate_position, s.new_rate_position) = (0, 0)),
    ("lowest rate", |s| (s.rate, s.sample_period) = (1_000, sample_period(1_000))),
    ("32 channels", |s| s.channels = 32),
    ("play time NaN", |s| s.input_play_time = f32::NAN),
    ("time error infinite", |s| s.time_error = f32::NEG_INFINITY),
    ("waiting absurd", |s| s.waiting = usize::MAX),
    ("skipped at its end", |s| s.balance.skipped = u64::MAX),
    ("inserted at its end", |s| s.balance.inserted = u64::MAX),
    ("step over 1", |s| s.step_over = 1),
    ("step over 2", |s| s.step_over = 2),
    ("step over at its end", |s| s.step_over = u32::MAX),
    ("ties 1", |s| s.ties = 1),
    ("ties 7", |s| s.ties = 7),
    ("ties at their end", |s| s.ties = u32::MAX),
];

/// Fields just past their ends.
const PAST_THE_ENDS: [(&str, Edit); 30] = [
    ("rate 999", |s| (s.rate, s.sample_period) = (999, sample_period(999))),
    ("rate 500,001", |s| (s.rate, s.sample_period) = (500_001, sample_period(500_001))),
    ("rate 0", |s| s.rate = 0),
    ("no channels", |s| s.channels = 0),
    ("33 channels", |s| s.channels = 33),
    ("speed too low", |s| s.speed = beside(0.05, -1)),
    ("speed too high", |s| s.speed = beside(20.0, 1)),
    ("speed NaN", |s| s.speed = f32::NAN),
    ("speed 30", |s| s.speed = 30.0),
    ("pitch too low", |s| (s.pitch, s.new_rate_position) = (beside(0.05, -1), 60)),
    ("pitch too high", |s| (s.pitch, s.new_rate_position) = (beside(20.0, 1), 1)),
    ("pitch NaN", |s| s.pitch = f32::NAN),
    ("pitch 0", |s| s.pitch = 0.0),
    ("volume too low", |s| s.volume = beside(0.01, -1)),
    ("volume too high", |s| s.volume = beside(100.0, 1)),
    ("volume NaN", |s| s.volume = f32::NAN),
    ("volume 0", |s| s.volume = 0.0),
    ("sample period too low", |s| s.sample_period = beside(s.sample_period, -1)),
    ("sample period too high", |s| s.sample_period = beside(s.sample_period, 1)),
    ("sample period NaN", |s| s.sample_period = f32::NAN),
    ("period too short", |s| s.prev_period = 19),
    ("period too long", |s| s.prev_period = 124),
    ("period absurd", |s| s.prev_period = usize::MAX),
    ("mean too high", |s| s.prev_min_diff = 65_536),
    ("p = O", |s| (s.old_rate_position, s.new_rate_position) = (8_000, 16_000)),
    ("p absurd", |s| (s.old_rate_position, s.new_rate_position) = (1 << 63, 0)),
    ("n too low", |s| s.new_rate_position = 5),
    ("n too high", |s| s.new_rate_position = 7),
    ("n absurd", |s| s.new_rate_position = usize::MAX),
    ("n of another pitch", |s| s.pitch = 0.7),
];

/// Each kind of call on a stream, in areas with room.
fn every_call() -> Vec<Call> {
    let areas = Lengths { input: 40_000, stage: 90_000, output: 90_000, scratch: 300 };
    let settings = [Setting::Speed(1.5), Setting::Pitch(0.5), Setting::Volume(2.0), Setting::StepOver(0), Setting::StepOver(1)].map(Call::Set);
    let others = [Call::Available, Call::Write { samples: vec![0.5; 64], areas }, Call::Read { most: 1, slice: 40, output: 90_000 }];
    settings.into_iter().chain(others).chain([Call::Flush { areas }]).collect()
}

/// The refusal of a call on a stream in order: absurd counts are met by 4 where an area has to hold them, and a total at its end by 12
/// where a flush, whose local speed is 2, skips periods of silence.
fn refusal_in_order(stream: &Stream, call: &Call) -> u32 {
    match call {
        Call::Write { .. } | Call::Read { .. } | Call::Flush { .. } if stream.waiting > 90_000 => 4,
        Call::Flush { .. } if stream.balance.skipped == u64::MAX => 12,
        _ => 0,
    }
}

/// Every call on streams with one field at an end or past it.
pub fn orders() -> Vec<Border> {
    let ends = AT_THE_ENDS.iter().map(|end| (end, 0)).chain(PAST_THE_ENDS.iter().map(|end| (end, 3)));
    let mut all = Vec::new();
    for ((name, edit), refusal) in ends {
        let mut stream = stream_in_order();
        edit(&mut stream);
        for call in every_call() {
            let refusal = if refusal == 0 { refusal_in_order(&stream, &call) } else { refusal };
            all.push(Border { name: *name, calls: vec![Call::Made { stream, kept: Kept::default() }, call], refusal });
        }
    }
    all
}

/// Openings of rates and channel counts at the ends and past them, with a choice of ties and without.
pub fn openings() -> Vec<Border> {
    [None, Some(0), Some(1), Some(7), Some(1 << 31), Some(u32::MAX)].into_iter().flat_map(openings_with).collect()
}

/// Such openings with one choice.
fn openings_with(ties: Option<u32>) -> Vec<Border> {
    let border = |rate, channels, refusal| Border { name: "opening", calls: vec![Call::Open { rate, channels, ties }], refusal };
    let low = (0..1_000).step_by(37).chain([999]).map(|rate| border(rate, 1, 1));
    let inside = (1_000..=1_010).chain(499_990..=500_000).map(|rate| border(rate, 32, 0));
    let high = [500_001, 500_002, 1 << 31, u32::MAX].map(|rate| border(rate, 33, 1));
    let channels = (1..=32).map(|channels| border(8_000, channels, 0));
    let others = [0, 33, 34, 256, 1 << 31, u32::MAX].map(|channels| border(8_000, channels, 2));
    low.chain(inside).chain(high).chain(channels).chain(others).collect()
}

/// What a call on a made-up stream needs: frames in the input, the stage and the output, and those that are there before; and what it adds
/// to the totals.
struct Needs {
    counts: [usize; 3],
    before: [usize; 3],
    counted: Balance,
}

/// What a call needs that adds these samples.
fn needs(judge: &Model, stream: &Stream, kept: &Kept, added: &[i16]) -> Option<Needs> {
    let needs = judge.needs(*stream, &kept.input, &kept.tail, added, 20_000)?;
    let counts = [stream.held + added.len() / stream.channels as usize, needs.staged, stream.waiting + needs.made];
    Some(Needs { counts, before: [stream.held, stream.tail, stream.waiting], counted: needs.counted })
}

/// Totals that a call brings to their end; and if it adds to one, those that it would carry one frame past it. Each with the refusal.
fn full_totals(counted: Balance) -> Vec<(Balance, u32)> {
    let last = Balance { skipped: u64::MAX - counted.skipped, inserted: u64::MAX - counted.inserted };
    let (skips, inserts) = (counted.skipped > 0, counted.inserted > 0);
    let past = Balance { skipped: last.skipped + u64::from(skips), inserted: last.inserted + u64::from(inserts) };
    [(last, 0), (past, 12)].into_iter().take(1 + usize::from(skips || inserts)).collect()
}

/// The call in areas exactly long enough, where it meets this refusal, and in the same with one of them a sample shorter.
fn around(needs: &Needs, stream: Stream, kept: &Kept, refusal: u32, call: &dyn Fn(Lengths) -> Call) -> Vec<Border> {
    let lengths = needs.counts.map(|count| count * stream.channels as usize);
    let scratch = max_required(stream.rate);
    let of = |[input, stage, output]: [usize; 3], scratch| Lengths { input, stage, output, scratch };
    let made = || Call::Made { stream, kept: kept.clone() };
    let mut all = vec![
        Border { name: "areas just long enough", calls: vec![made(), call(of(lengths, scratch))], refusal },
        Border { name: "scratch one short", calls: vec![made(), call(of(lengths, scratch - 1))], refusal: 4 },
    ];
    let names = ["input one short", "stage one short", "output one short"];
    for area in (0..3).filter(|&area| lengths[area] > 0) {
        let mut short = lengths;
        short[area] -= 1;
        let refusal = if needs.counts[area] > needs.before[area] { 5 + area as u32 } else { 4 };
        all.push(Border { name: names[area], calls: vec![made(), call(of(short, scratch))], refusal });
    }
    all
}

/// The call on a stream with totals that it brings to their end or past it, in such areas.
fn at_full_totals(needs: &Needs, stream: Stream, kept: &Kept, call: &dyn Fn(Lengths) -> Call) -> Vec<Border> {
    let totals = full_totals(needs.counted).into_iter();
    totals.flat_map(|(balance, refusal)| around(needs, Stream { balance, ..stream }, kept, refusal, call)).collect()
}

/// Writes and flushes on made-up streams, in areas exactly long enough and one sample short, with totals that come to their end or pass it.
pub fn rooms(judge: &Model, seed: u64) -> Vec<Border> {
    let mut random = Random::new(seed);
    let rate = random.one_of(&[1_000, 2_345, 4_001, 8_000]);
    let channels = random.between(1, 3);
    let mut signal = Signal::new(&mut random, rate);
    let (stream, kept) = made_up::in_order(&mut random, judge, rate, channels as u32, &mut signal);
    let frames = random.one_of(&[0, 1, 40, max_required(rate)]);
    let samples = signal.frames(&mut random, frames, channels);
    let added: Vec<i16> = samples.iter().map(|&sample| judge.rules.write.sample_in(sample)).collect();
    let silence = vec![0; 2 * max_required(rate) * channels];
    let write = needs(judge, &stream, &kept, &added);
    let flush = needs(judge, &stream, &kept, &silence);
    let writes = write.map(|needs| at_full_totals(&needs, stream, &kept, &|areas| Call::Write { samples: samples.clone(), areas }));
    let flushes = flush.map(|needs| at_full_totals(&needs, stream, &kept, &|areas| Call::Flush { areas }));
    writes.into_iter().chain(flushes).flatten().collect()
}

/// The refusal of a call on a stream with a tail, in a stage and an output of so many samples. At pitch 1 the stage has to hold the tail, by
/// 4, and the frames, by 6; at another both together.
fn refusal_with_tail(stream: &Stream, needs: &ModelNeeds, stage: usize, output: usize) -> u32 {
    let room = |samples: usize| samples / stream.channels as usize;
    let beside = if stream.pitch == 1.0 { 0 } else { stream.tail };
    if room(stage) < stream.tail || room(output) < stream.waiting {
        4
    } else if room(stage) < beside + needs.frames {
        6
    } else if room(output) < stream.waiting + needs.made {
        7
    } else {
        0
    }
}

/// A call on a stream with a tail, in stages that hold the tail, the frames, or both, or one sample less; and in outputs that hold what is
/// made, one sample less, or what waits and no more.
fn around_tail(needs: &ModelNeeds, stream: Stream, kept: &Kept, input: usize, call: &dyn Fn(Lengths) -> Call) -> Vec<Border> {
    let (channels, scratch) = (stream.channels as usize, max_required(stream.rate));
    let stages = [stream.tail, needs.frames, stream.tail + needs.frames].map(|frames| frames * channels);
    let (before, after) = (stream.waiting * channels, (stream.waiting + needs.made) * channels);
    let mut lengths: Vec<(usize, usize)> = Vec::new();
    for stage in stages.into_iter().flat_map(|stage| [stage, stage.saturating_sub(1)]) {
        lengths.extend([before, after.saturating_sub(1), after].map(|output| (stage, output)));
    }
    lengths.sort_unstable();
    lengths.dedup();
    let border = |(stage, output)| Border {
        name: "a tail near pitch 1",
        calls: vec![Call::Made { stream, kept: kept.clone() }, call(Lengths { input: input * channels, stage, output, scratch })],
        refusal: refusal_with_tail(&stream, needs, stage, output),
    };
    lengths.into_iter().map(border).collect()
}

/// Writes and flushes on made-up streams with a tail, at pitch 1 or just beside it, in such areas.
pub fn tails(judge: &Model, seed: u64) -> Vec<Border> {
    let mut random = Random::new(seed);
    let rate = random.one_of(&[1_000, 2_345, 4_001, 8_000]);
    let channels = random.between(1, 3);
    let mut signal = Signal::new(&mut random, rate);
    let (stream, kept) = made_up::with_tail(&mut random, judge, rate, channels as u32, &mut signal);
    let frames = random.one_of(&[1, 5, 12, 40, max_required(rate)]);
    let samples = signal.frames(&mut random, frames, channels);
    let added: Vec<i16> = samples.iter().map(|&sample| judge.rules.write.sample_in(sample)).collect();
    let silence = 2 * max_required(rate);
    let needs = |added: &[i16]| judge.needs(stream, &kept.input, &kept.tail, added, 20_000);
    let around = |needs: ModelNeeds, more, call: &dyn Fn(Lengths) -> Call| around_tail(&needs, stream, &kept, stream.held + more, call);
    let writes = needs(&added).map(|needs| around(needs, frames, &|areas| Call::Write { samples: samples.clone(), areas }));
    let flushes = needs(&vec![0; silence * channels]).map(|needs| around(needs, silence, &|areas| Call::Flush { areas }));
    writes.into_iter().chain(flushes).flatten().collect()
}
