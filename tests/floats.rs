//! The compiled float steps against Rust's own operations, on every exponent with digits near ties and on random bits.
//! `floats N` tries N million random inputs of each.

mod signals;

use signals::Random;

extern "C" {
    fn kernel_f64_to_f32(x: f64) -> f32;
    fn kernel_f32_to_i32(x: f32) -> i32;
    fn kernel_f32_to_usize(x: f32) -> usize;
    fn kernel_clamp(value: f32, low: f32, high: f32) -> f32;
    fn kernel_sample_period(rate: u32) -> f32;
    fn kernel_sample_in(x: f32) -> i16;
    fn kernel_sample_out(v: i16) -> f32;
    fn kernel_play_time_grown(play: f32, n: usize, period: f32, speed: f32, pitch: f32) -> f32;
    fn kernel_play_time_left(play: f32, left: usize, held: usize) -> f32;
    fn kernel_local_speed(held: usize, period: f32, play: f32) -> f32;
    fn kernel_speed_changes(s: f32) -> bool;
    fn kernel_expected_frames(held: usize, tail: usize, speed: f32, pitch: f32) -> usize;
    fn kernel_copying_due(s: f32, error: f32) -> bool;
    fn kernel_copy_count(error: f32, s: f32, period: f32, left: usize) -> usize;
    fn kernel_skip_count(s: f32, period: usize) -> usize;
    fn kernel_insert_count(s: f32, period: usize) -> usize;
    fn kernel_error_copied(error: f32, s: f32, period: f32, n: usize) -> f32;
    fn kernel_error_skipped(error: f32, s: f32, period: f32, play: f32, held: usize, p: usize, k: usize) -> f32;
    fn kernel_error_inserted(error: f32, s: f32, period: f32, play: f32, held: usize, p: usize, k: usize) -> f32;
    fn kernel_new_rate(rate: u32, pitch: f32) -> usize;
    fn kernel_gain(volume: f32) -> usize;
}

/// Random inputs.
struct Inputs(Random);

impl Inputs {
    /// Any bits, or a value near 1, or a special one.
    fn float(&mut self) -> f32 {
        const SPECIAL: [f32; 14] = [
            0.0, -0.0, 1.0, -1.0, 2.0, 0.5, f32::NAN, f32::INFINITY, f32::NEG_INFINITY, f32::MAX, f32::MIN_POSITIVE, 1e-45, -1e-45, 20.0,
        ];
        match self.0.below(4) {
            0 => f32::from_bits(self.0.next() as u32),
            1 => SPECIAL[self.0.below(14)],
            2 => f32::from_bits(0x3f80_0000u32.wrapping_add((self.0.below(1 << 25) as u32).wrapping_sub(1 << 24))),
            _ => (self.0.below(2_000_001) as f32 - 1_000_000.0) / 100_000.0,
        }
    }

    fn frames(&mut self) -> usize {
        match self.0.below(3) {
            0 => self.0.below(8),
            1 => self.0.below(20_000),
            _ => self.0.below((1 << 24) + 1),
        }
    }

    fn period(&mut self) -> usize {
        1 + self.0.below(7_692)
    }
}

fn same(what: &str, ours: f32, rust: f32, input: &dyn std::fmt::Debug) {
    if ours.to_bits() != rust.to_bits() && !(ours.is_nan() && rust.is_nan()) {
        fail(what, &ours, &rust, input);
    }
}

fn equal<T: PartialEq + std::fmt::Debug>(what: &str, ours: T, rust: T, input: &dyn std::fmt::Debug) {
    if ours != rust {
        fail(what, &ours, &rust, input);
    }
}

fn fail(what: &str, ours: &dyn std::fmt::Debug, rust: &dyn std::fmt::Debug, input: &dyn std::fmt::Debug) -> ! {
    println!("floats: {what} of {input:?}: ours {ours:?}, Rust's {rust:?}");
    std::process::exit(1)
}

fn narrow(bits: u64) {
    let x = f64::from_bits(bits);
    same("f64_to_f32", unsafe { kernel_f64_to_f32(x) }, x as f32, &bits);
}

/// The casts and the sample, at one f32.
fn cast(bits: u32) {
    let x = f32::from_bits(bits);
    unsafe {
        equal("f32_to_i32", kernel_f32_to_i32(x), x as i32, &bits);
        equal("f32_to_usize", kernel_f32_to_usize(x), x as usize, &bits);
        equal("sample_in", kernel_sample_in(x), (x.clamp(-1.0, 1.0) * 32767.0) as i16, &bits);
        equal("speed_changes", kernel_speed_changes(x), f64::from(x) > 1.00001 || f64::from(x) < 0.99999, &bits);
    }
}

/// Digits beside each place where rounding or cutting turns.
fn near_ties(width: u32) -> Vec<u64> {
    let mut all = vec![0, 1, (1 << width) - 1];
    for k in 0..width {
        for d in [-1i64, 0, 1] {
            all.push(((1i64 << k) + d) as u64 & ((1 << width) - 1));
            all.push(((1i64 << width) - (1i64 << k) + d) as u64 & ((1 << width) - 1));
            if k > 0 {
                all.push(((3i64 << (k - 1)) + d) as u64 & ((1 << width) - 1));
            }
        }
    }
    all.sort_unstable();
    all.dedup();
    all
}

fn exponents() -> u64 {
    let mut tried = 0;
    for sign in 0..2u64 {
        for exponent in 0..2048u64 {
            for &digits in &near_ties(52) {
                narrow(sign << 63 | exponent << 52 | digits);
                tried += 1;
            }
        }
        for exponent in 0..256u64 {
            for &digits in &near_ties(23) {
                cast((sign << 31 | exponent << 23 | digits) as u32);
                tried += 1;
            }
        }
    }
    for bits in 0x3f7f_f000..0x3f80_1000 {
        cast(bits);
        tried += 1;
    }
    tried
}

fn clamp(value: f32, min: f32, max: f32) -> f32 {
    if value >= min {
        if value <= max { value } else { max }
    } else {
        min
    }
}

fn settings_and_times(r: &mut Inputs) {
    let (a, b, c, d) = (r.float(), r.float(), r.float(), r.float());
    let (n, held) = (r.frames(), r.frames());
    unsafe {
        same("clamp", kernel_clamp(a, 0.05, 20.0), clamp(a, 0.05, 20.0), &a);
        same("play_time_grown", kernel_play_time_grown(a, n, b, c, d), a + n as f32 * b / (c / d), &(a, n, b, c, d));
        same("play_time_left", kernel_play_time_left(a, n, held), a * n as f32 / held as f32, &(a, n, held));
        same("local_speed", kernel_local_speed(n, a, b), n as f32 * a / b, &(n, a, b));
        let kept = ((n as f32 / (a / b) + held as f32) / b + 0.5) as usize;
        equal("expected_frames", kernel_expected_frames(n, held, a, b), kept, &(n, held, a, b));
        equal("new_rate", kernel_new_rate(n as u32, a), (n as f32 / a) as usize, &(n, a));
        equal("gain", kernel_gain(a), (a * 256.0) as usize, &a);
    }
}

fn steps(r: &mut Inputs) {
    let (error, s, t, play) = (r.float(), r.float(), r.float(), r.float());
    let (n, held, p, k) = (r.frames(), r.frames(), r.period(), r.period());
    let fast = s > 1.0 && s < 2.0 && error < 0.0;
    let slow = s < 1.0 && s > 0.5 && error > 0.0;
    let to_copy = (1.0f64 - f64::from(error * s) / (f64::from(t) * (f64::from(s) - 1.0))) as f32;
    let copied = if to_copy > n as f32 { n } else { (to_copy as i32).max(0) as usize };
    let skipped = if s >= 2.0 { (p as f32 / (s - 1.0)) as usize } else { p };
    let inserted = if s <= 0.5 { (p as f32 * s / (1.0 - s)) as usize } else { p }.max(1);
    let after_copy = (f64::from(error) + f64::from(n as f32 * t) * (f64::from(s) - 1.0) / f64::from(s)) as f32;
    let moved = |made: usize, used: usize| error + (made as f32 * t - used as f32 * play / held as f32);
    let after_skip = if s < 2.0 { moved(k, p + k) } else { error };
    let after_insert = if s > 0.5 { moved(p + k, k) } else { error };
    let input = (error, s, t, play, n, held, p, k);
    unsafe {
        equal("copying_due", kernel_copying_due(s, error), fast || slow, &input);
        equal("copy_count", kernel_copy_count(error, s, t, n), copied, &input);
        equal("skip_count", kernel_skip_count(s, p), skipped, &input);
        equal("insert_count", kernel_insert_count(s, p), inserted, &input);
        same("error_copied", kernel_error_copied(error, s, t, n), after_copy, &input);
        same("error_skipped", kernel_error_skipped(error, s, t, play, held, p, k), after_skip, &input);
        same("error_inserted", kernel_error_inserted(error, s, t, play, held, p, k), after_insert, &input);
    }
}

fn main() {
    let millions: u64 = std::env::args().nth(1).map_or(1, |a| a.parse().expect("a number of millions"));
    let mut tried = exponents();
    for v in i16::MIN..=i16::MAX {
        same("sample_out", unsafe { kernel_sample_out(v) }, f32::from(v) / 32767.0, &v);
    }
    for rate in 1_000..=500_000 {
        same("sample_period", unsafe { kernel_sample_period(rate) }, (1.0 / f64::from(rate)) as f32, &rate);
    }
    let mut r = Inputs(Random::new(0));
    for _ in 0..millions * 1_000_000 {
        narrow(r.0.next());
        cast(r.0.next() as u32);
        settings_and_times(&mut r);
        steps(&mut r);
        tried += 4;
    }
    println!("floats: {tried} inputs agree with Rust's own operations");
}
