
// ---- The kernels of Kelpladder beside the functions above. This text is joined to the original's, which is otherwise unchanged.
// Each line: the kernel, our time over the original's (medians of interleaved rounds), and both times in nanoseconds. The original's
// numbers pass through `black_box`, so that it is not compiled for one of them.

#[path = "../../tests/signals.rs"]
mod signals;

use std::hint::black_box;
use std::time::Instant;

#[repr(C)]
struct Search {
    period: usize,
    min_diff: usize,
    max_diff: usize,
    sum: usize,
}

#[repr(C)]
struct Best {
    period: usize,
    sum: usize,
}

extern "C" {
    fn kernel_samples_in(source: *const f32, source_len: usize, area: *mut i16, area_len: usize);
    fn kernel_samples_out(area: *const i16, area_len: usize, slice: *mut f32, slice_len: usize);
    fn kernel_find_pitch_period_in_range(samples: *const i16, len: usize, low: usize, high: usize, ties: u32) -> Search;
    fn kernel_best_in_range(samples: *const i16, len: usize, low: usize, high: usize, near: usize, ties: u32) -> Best;
    fn kernel_down_sample_input(samples: *const i16, len: usize, out: *mut i16, out_len: usize, count: usize, per: usize);
    fn kernel_interpolate_frame(
        table: *const i16, table_len: usize, stage: *const i16, stage_len: usize, channels: usize, ratio: usize, width: usize, out: *mut i16, out_len: usize,
    );
    fn kernel_overlap_add(k: usize, channels: usize, input: *const i16, input_len: usize, down: usize, up: usize, stage: *mut i16, stage_len: usize);
    fn kernel_scale_samples(area: *mut i16, area_len: usize, volume: f32);
    fn kernel_remove_front(area: *mut i16, area_len: usize, count: usize, kept: usize);
}

/// The rounds: 41, or those that ROUNDS in the environment says.
fn rounds() -> usize {
    std::env::var("ROUNDS").map_or(41, |word| word.parse().expect("ROUNDS is a number"))
}

/// Times both sides in turn and prints the ratio of their medians.
fn beside(name: &str, calls: u32, mut ours: impl FnMut(), mut original: impl FnMut()) {
    let mut times = [Vec::new(), Vec::new()];
    for _ in 0..rounds() {
        let sides: [&mut dyn FnMut(); 2] = [&mut ours, &mut original];
        for (side, run) in sides.into_iter().enumerate() {
            let start = Instant::now();
            for _ in 0..calls {
                run();
            }
            times[side].push(start.elapsed().as_nanos() as f64 / f64::from(calls));
        }
    }
    let median = |t: &mut Vec<f64>| {
        t.sort_by(f64::total_cmp);
        t[t.len() / 2]
    };
    let (a, b) = (median(&mut times[0]), median(&mut times[1]));
    println!("{name:34} {:.2}  {a:.1} {b:.1}", a / b);
}

/// A voice of a period in frames, as samples of an area.
fn voice(frames: usize, channels: usize, period: usize) -> Vec<i16> {
    signals::voice(period, frames, channels).iter().map(|x| (x * 30_000.0) as i16).collect()
}

/// A voice of one channel with noise.
fn noisy_voice(frames: usize, period: usize) -> Vec<i16> {
    let mut noise = signals::Congruential(1);
    voice(frames, 1, period).iter().map(|s| s / 2 + noise.below(2_048) as i16 - 1_024).collect()
}

fn bench_samples_in() {
    for (name, loud) in [("sample in, speech", 0.3f32), ("sample in, full scale", 1.2)] {
        let source: Vec<f32> = voice(16_384, 1, 62).iter().map(|&s| f32::from(s) / 16_384.0 * loud).collect();
        let mut area = vec![0i16; source.len()];
        let mut queue: Vec<i16> = Vec::with_capacity(source.len());
        beside(
            name,
            20,
            || unsafe { kernel_samples_in(source.as_ptr(), source.len(), area.as_mut_ptr(), area.len()) },
            || {
                queue.clear();
                queue.extend(black_box(&source).iter().map(|&s| (s.clamp(-1.0, 1.0) * 32767.0) as i16));
                black_box(&queue);
            },
        );
        assert_eq!(area, queue);
    }
}

fn bench_samples_out() {
    let area = voice(16_384, 1, 62);
    let mut slice = vec![0f32; area.len()];
    let mut given: Vec<f32> = Vec::with_capacity(area.len());
    beside(
        "sample out",
        20,
        || unsafe { kernel_samples_out(area.as_ptr(), area.len(), slice.as_mut_ptr(), slice.len()) },
        || {
            given.clear();
            given.extend(black_box(&area).iter().map(|&s| f32::from(s) / 32767.0));
            black_box(&given);
        },
    );
    assert_eq!(slice, given);
}

/// Searches of a voice without ties, in which both choices find what the original finds.
fn bench_search() {
    for (low, high, period) in [(10, 61, 31), (20, 123, 62), (110, 678, 339)] {
        let x = voice(2 * high, 1, period);
        let theirs = find_pitch_period_in_range(&x, low as i32, high as i32);
        let differences = (0..theirs.0 as usize).map(|i| usize::from(x[i].abs_diff(x[i + theirs.0 as usize])));
        let sum: usize = differences.sum();
        for (ties, choice) in [(0, ""), (1, ", largest")] {
            let search = || unsafe { kernel_find_pitch_period_in_range(black_box(x.as_ptr()), x.len(), low, high, ties) };
            let ours = search();
            assert_eq!((ours.period as i32, ours.min_diff as i32, ours.max_diff as i32, ours.sum), (theirs.0, theirs.1, theirs.2, sum));
            beside(
                &format!("search {low}..{high}{choice}"),
                if high > 200 { 20 } else { 400 },
                || { black_box(search()); },
                || { black_box(find_pitch_period_in_range(black_box(&x), black_box(low as i32), black_box(high as i32))); },
            );
        }
    }
}

/// Searches for the least mean alone, of a noisy voice: from its period outward, as a step's first search looks from the previous period, and
/// over 4·skip on both sides of a period, as the second search does.
fn bench_best() {
    for (low, high, period) in [(10, 61, 31), (20, 123, 62), (295, 383, 339), (110, 678, 339)] {
        let x = noisy_voice(2 * high, period);
        let theirs = find_pitch_period_in_range(&x, low as i32, high as i32);
        let sum = (0..theirs.0 as usize).map(|i| usize::from(x[i].abs_diff(x[i + theirs.0 as usize]))).sum::<usize>();
        for (near, from) in [(period, ""), (0, " from below")] {
            let search = || unsafe { kernel_best_in_range(black_box(x.as_ptr()), x.len(), low, high, black_box(near), 0) };
            let ours = search();
            assert_eq!((ours.period as i32, ours.sum), (theirs.0, sum));
            beside(
                &format!("least mean {low}..{high}{from}"),
                if high > 200 { 20 } else { 400 },
                || { black_box(search()); },
                || { black_box(find_pitch_period_in_range(black_box(&x), black_box(low as i32), black_box(high as i32))); },
            );
        }
    }
}

fn bench_averages() {
    for (rate, channels, per) in [(8_000, 1, 2), (44_100, 2, 22), (44_100, 2, 2)] {
        let required = 2 * (rate / 65);
        let count = required * channels / per;
        let x = voice(required, channels, 200);
        let (mut ours, mut theirs) = (vec![0i16; required], vec![0i16; required]);
        beside(
            &format!("averages of {per}, {channels} channels"),
            200,
            || unsafe { kernel_down_sample_input(x.as_ptr(), x.len(), ours.as_mut_ptr(), ours.len(), count, per) },
            || {
                down_sample_input(black_box(&x), &mut theirs, count, black_box(per));
                black_box(&theirs);
            },
        );
        assert_eq!(ours[..count], theirs[..count]);
    }
}

fn bench_interpolation() {
    for channels in [1usize, 2] {
        let x = voice(12, channels, 31);
        let mut stream = SonicStream::new(8_000, channels as u32).expect("in range");
        let (n, o) = (16_000, 8_000);
        let (mut ours, mut theirs) = (vec![0i16; channels], vec![0i16; channels]);
        let mut p = 0;
        let mut positions = || {
            p = (p + 1) % 8_000;
            (p, 2 * p + p % 2)
        };
        let ratio = |p: i32, at: i32| ((p + 1) * n - at * o - 1) as usize;
        let mut next = positions;
        let mut other = (0, 0);
        beside(
            &format!("interpolated frame, {channels} channels"),
            2_000,
            || {
                let (p, at) = next();
                unsafe {
                    kernel_interpolate_frame(
                        SINC_TABLE.as_ptr(), 601, x.as_ptr(), x.len(), channels, ratio(p, at), n as usize, ours.as_mut_ptr(), channels,
                    )
                }
            },
            || {
                other.0 = (other.0 + 1) % 8_000;
                other.1 = 2 * other.0 + other.0 % 2;
                stream.old_rate_position = other.0;
                stream.new_rate_position = other.1;
                for c in 0..channels {
                    theirs[c] = stream.interpolate(black_box(&x[c..]), black_box(o), black_box(n));
                }
                black_box(&theirs);
            },
        );
        assert_eq!(ours, theirs);
    }
}

fn bench_crossfade() {
    for (channels, k) in [(1, 62), (1, 339), (2, 62), (2, 339)] {
        let x = voice(2 * k, channels, k);
        let (mut ours, mut theirs) = (vec![0i16; k * channels], vec![0i16; k * channels]);
        beside(
            &format!("crossfade of {k}, {channels} channels"),
            1_000,
            || unsafe { kernel_overlap_add(k, channels, x.as_ptr(), x.len(), 0, k * channels, ours.as_mut_ptr(), ours.len()) },
            || {
                overlap_add(black_box(k), black_box(channels), &mut theirs, black_box(&x), black_box(&x[k * channels..]));
                black_box(&theirs);
            },
        );
        assert_eq!(ours, theirs);
    }
}

fn bench_volume() {
    let x = voice(4_096, 1, 62);
    let (mut ours, mut theirs) = (x.clone(), x.clone());
    beside(
        "volume",
        200,
        || {
            ours.copy_from_slice(black_box(&x));
            unsafe { kernel_scale_samples(ours.as_mut_ptr(), ours.len(), 1.7) }
        },
        || {
            theirs.copy_from_slice(black_box(&x));
            scale_samples(&mut theirs, black_box(1.7));
            black_box(&theirs);
        },
    );
    assert_eq!(ours, theirs);
}

fn bench_removal() {
    const COUNT: usize = 160;
    for kept in [4_096, 480_000] {
        let x = voice(COUNT + kept, 1, 62);
        let (mut ours, mut theirs) = (x.clone(), x.clone());
        beside(
            &format!("removal of {COUNT}, {kept} remain"),
            if kept > 100_000 { 20 } else { 1_000 },
            || unsafe { kernel_remove_front(ours.as_mut_ptr(), ours.len(), COUNT, kept) },
            || {
                theirs.drain(..black_box(COUNT));
                theirs.extend_from_slice(&x[kept..]);
                black_box(&theirs);
            },
        );
        assert_eq!(ours, theirs);
    }
}

fn main() {
    bench_samples_in();
    bench_samples_out();
    bench_search();
    bench_best();
    bench_averages();
    bench_interpolation();
    bench_crossfade();
    bench_volume();
    bench_removal();
}
