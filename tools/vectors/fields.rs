
// ---- Answers to the calls of crates/vectors/stdin, by the functions above: this text is joined to the original's, which is otherwise
// unchanged. The original has neither refusals nor outcomes nor totals: a refusal is decided by the table of docs/RULES.md with the original's
// own counts, an outcome and what a call adds to the totals by the original's state before and after. A stream that steps over, or finds the
// largest of several best periods, is worked on by a copy of the original's text, in the module `judges`; the periods passed over are counted,
// and the sum of the last search is found, step by step.

#[path = "../judges.rs"]
mod judges;

use judges::{Searched, Text};

/// The most samples of an area, of a write and of a read, as in crates/vectors/src/main.rt.
const ROOM: usize = 32_768;

/// A stream's fields in the order of the library's struct, floats as their bits.
type Fields = [u64; 19];

const RATE: usize = 0;
const CHANNELS: usize = 1;
const SPEED: usize = 2;
const PITCH: usize = 3;
const VOLUME: usize = 4;
const PERIOD_OF_SAMPLE: usize = 5;
const PLAY_TIME: usize = 6;
const TIME_ERROR: usize = 7;
const OLD_POSITION: usize = 8;
const NEW_POSITION: usize = 9;
const PREV_PERIOD: usize = 10;
const PREV_MIN_DIFF: usize = 11;
const HELD: usize = 12;
const TAIL: usize = 13;
const WAITING: usize = 14;
const SKIPPED: usize = 15;
const INSERTED: usize = 16;
const STEP_OVER: usize = 17;
const TIES: usize = 18;

/// The bits of a float, those of one NaN for every NaN.
fn bits(x: f32) -> u64 {
    u64::from(if x.is_nan() { 0x7fc0_0000 } else { x.to_bits() })
}

fn float(bits: u64) -> f32 {
    f32::from_bits(bits as u32)
}

fn copy_of(s: &SonicStream) -> SonicStream {
    SonicStream {
        input: s.input.clone(),
        output: s.output.clone(),
        pitch_buffer: s.pitch_buffer.clone(),
        down_sample: s.down_sample.clone(),
        ..*s
    }
}

/// A stream's fields, with what the original does not have: the totals of frames skipped and inserted, whether it steps over, and the choice
/// of ties.
fn fields_of(s: &SonicStream, [skipped, inserted, step_over, ties]: [u64; 4]) -> Fields {
    [
        s.sample_rate as u64, s.channels as u64, bits(s.speed), bits(s.pitch), bits(s.volume), bits(s.sample_period), bits(s.input_play_time),
        bits(s.time_error), s.old_rate_position as u64, s.new_rate_position as u64, s.prev_period as u64, s.prev_min_diff as u64,
        s.input_frames() as u64, s.pitch_frames() as u64, s.output_frames() as u64, skipped, inserted, step_over, ties,
    ]
}

/// What docs/RULES.md calls in order.
fn in_order(f: &Fields) -> bool {
    let within = |x: f32, low: f32, high: f32| x >= low && x <= high;
    if !(1_000..=500_000).contains(&f[RATE]) || !(1..=32).contains(&f[CHANNELS]) || f[PERIOD_OF_SAMPLE] != bits((1.0 / f[RATE] as f64) as f32) {
        return false;
    }
    if !within(float(f[SPEED]), 0.05, 20.0) || !within(float(f[PITCH]), 0.05, 20.0) || !within(float(f[VOLUME]), 0.01, 100.0) {
        return false;
    }
    if (f[PREV_PERIOD] != 0 && !(f[RATE] / 400..=f[RATE] / 65).contains(&f[PREV_PERIOD])) || f[PREV_MIN_DIFF] > 65_535 {
        return false;
    }
    let [new, old] = rates_of(f[RATE], float(f[PITCH]));
    f[OLD_POSITION] < old && f[NEW_POSITION] == (f[OLD_POSITION] * new).div_ceil(old)
}

/// The local speed of a stream whose frames are added, if its stretch is due.
fn due(added: &SonicStream) -> Option<f32> {
    let speed = added.input_frames() as f32 * added.sample_period / added.input_play_time;
    (f64::from(speed) > 1.00001 || f64::from(speed) < 0.99999).then_some(speed)
}

/// What a call does to a stream whose frames are added: its outcome, the frames of its stretch or copy, the frames of periods that it skips
/// and inserts, the periods that it passes over, and the sum of its last search.
#[derive(Default)]
struct Stretched {
    outcome: &'static str,
    made: usize,
    counted: [u64; 2],
    passed: usize,
    sum: usize,
}

/// The periods that a stretch passes over, and the sum of its last search.
fn searched(added: &SonicStream, text: Text, speed: f32) -> (usize, usize) {
    let (mut s, mut position, mut passed, mut last) = (copy_of(added), 0, 0, 0);
    while position + s.max_required <= s.input_frames() {
        let step = s.step_as(text, speed, position);
        position += step.used;
        let Some(Searched { k, sum, .. }) = step.searched else { continue };
        last = sum;
        if k == 0 && !text.over {
            break;
        }
        passed += usize::from(k == 0);
    }
    (passed, last)
}

/// What a call does, by the text that judges its stream.
fn stretched(added: &SonicStream, text: Text) -> Stretched {
    let held = added.input_frames();
    if held == 0 {
        return Stretched { outcome: "empty", ..Stretched::default() };
    }
    let Some(speed) = due(added) else { return Stretched { outcome: "copied", made: held, ..Stretched::default() } };
    let mut after = copy_of(added);
    after.change_speed_as(text, speed);
    let (used, made) = (held - after.input_frames(), after.output_frames() - added.output_frames());
    let (outcome, counted) = match used {
        _ if held < added.max_required => ("waiting", [0; 2]),
        0 => ("stalled", [0; 2]),
        _ if speed > 1.0 => ("stretched", [(used - made) as u64, 0]),
        _ => ("stretched", [0, (made - used) as u64]),
    };
    let (passed, sum) = searched(added, text, speed);
    Stretched { outcome, made, counted, passed, sum }
}
