
// ---- Writes, the stretch, rate and volume, reads and flushes

fn writes(r: &mut Runs) {
    r.run("copied, and a read of each kind", AREAS, 8_000, 1).write(VOICE, 1, 62, 0).write(VOICE, 1, 62, 1).write(VOICE, 2, 62, 300);
    r.available();
    r.read(0, 10).read(10, 0).read(7, 20).read(100, 50).read(1 << 62, 300).available().read(5, 5).flush();
    r.run("partial frames", AREAS, 8_000, 3);
    (0..8).for_each(|n| { r.write(NOISE, 9, 1, n); });
    r.read(1, 2).read(1, 5).read(2, 7).read(9, 9).flush();
    for (rate, required) in [(1_000, 30), (4_000, 122), (8_000, 246), (22_050, 678), (44_100, 1_356)] {
        r.run(&format!("a write of max_required at {rate} Hz"), AREAS, rate, 1).speed(1.7).write(VOICE, 1, required / 4, required - 1);
        r.write(VOICE, 1, 9, 0).write(VOICE, required as u32, required / 4, 1).write(VOICE, 1, required / 4, required);
        r.write(TRIANGLE, 1, required / 3, 2 * required).flush();
        r.read(3_000, 3_000);
    }
    for (title, kind, divisor) in [
        ("every pattern of bits", PATTERNS, 1), ("NaN", SILENCE, 0), ("infinities", NOISE, 0), ("past full scale", NOISE, 8_000),
        ("full scale", NOISE, 32_767), ("faint", NOISE, 65_535),
    ] {
        r.run(&format!("samples: {title}"), AREAS, 8_000, 1).write_loud(kind, 77, 1, divisor, 300).read(300, 300).speed(3.0);
        r.write_loud(kind, 5, 1, divisor, 300).read(300, 300);
    }
}

fn speeds(r: &mut Runs) {
    for speed in [0.05, 0.3, 0.5, 0.51, 0.75, 0.95, 0.99999, 1.00001, 1.05, 1.3, 1.99, 2.0, 2.01, 3.7, 7.0, 20.0] {
        r.run(&format!("speed {speed}"), AREAS, 8_000, 1).speed(speed).write(VOICE, 1, 62, 32).write(VOICE, 33, 62, 450);
        r.write(NOISE, 7, 1, 300).read(200, 200).flush().read(12_000, 12_000);
    }
    for (rate, channels) in [
        (1_000, 1), (1_001, 2), (3_999, 1), (4_000, 2), (4_001, 1), (7_999, 3), (8_000, 2), (11_025, 1), (16_384, 2), (22_050, 1),
        (44_100, 2), (48_000, 1), (8_000, 32),
    ] {
        let wide = [28_000, 28_000, 28_000, 2_000];
        let voice = (rate / 130 * channels) as usize;
        r.run(&format!("{rate} Hz, {channels} channels"), wide, rate, channels).speed(1.4).pitch(1.2).write(VOICE, 1, voice, 4 * voice);
        r.write(TWO_VOICES, 1, voice, 3 * voice);
        r.speed(0.8).write(NOISE, 1, 1, 3 * voice).read(100, 100).flush().read(12_000, 12_000);
    }
    for rate in [7_999, 8_000, 11_999, 12_000] {
        r.run(&format!("noise at {rate} Hz"), AREAS, rate, 1).speed(2.5).write(NOISE, 3, 1, 2_000).flush();
    }
    r.run("500,000 Hz", [32_768; 4], 500_000, 1).speed(2.5).write(VOICE, 1, 2_000, 15_384).flush().read(32_768, 32_768);
    r.run("the previous period, after silence", AREAS, 8_000, 1).speed(1.5).write(SILENCE, 1, 1, 300).write(NOISE, 3, 1, 600);
    r.write(VOICE, 1, 62, 300).write(NOISE, 4, 1, 600).read(900, 900);
    r.run("the previous period, set", AREAS, 8_000, 1).speed(2.5).edit(PREV_PERIOD, 123).edit(PREV_MIN_DIFF, 1).write(NOISE, 3, 1, 246);
    r.edit(PREV_PERIOD, 20).edit(PREV_MIN_DIFF, 65_535).write(NOISE, 4, 1, 400);
    r.run("the record survives", AREAS, 8_000, 1).speed(3.0).write(VOICE, 1, 62, 300).speed(1.0).flush().write(VOICE, 1, 62, 50).pitch(1.0);
    r.volume(2.0).speed(3.0).write(NOISE, 1, 1, 300);
}

/// Noise at 1,000 Hz whose search gives means at the limits of the previous period's rule.
fn previous_period_limits(r: &mut Runs) {
    let search = |seed: &u32| {
        let samples: Vec<i16> = signal(NOISE, *seed, 1, 49_152, 30).iter().map(|x| (x * 32767.0) as i16).collect();
        find_pitch_period_in_range(&samples, 2, 15)
    };
    let triple = (0..).find(|seed| search(seed).2 == 3 * search(seed).1).expect("a seed");
    r.run("the previous period: greatest 3 times least", AREAS, 1_000, 1).speed(2.5).edit(PREV_PERIOD, 10).write(NOISE, triple, 1, 30);
    let even = (0..).find(|seed| search(seed).1 % 3 == 0 && search(seed).2 < 3 * search(seed).1).expect("a seed");
    for above in [1, 0] {
        let previous = 2 * search(&even).1 as u64 / 3 - above;
        r.run(&format!("the previous period: twice least is 3 times previous + {}", 3 * above), AREAS, 1_000, 1).speed(2.5);
        r.edit(PREV_PERIOD, 10).edit(PREV_MIN_DIFF, previous).write(NOISE, even, 1, 30);
    }
}

/// Time errors at which one rounding of a copying step decides how many frames it copies: that of the product, and that of the count.
fn deciding_errors(speed: f32, sample_period: f32) -> [f32; 2] {
    let count = |product: f64| 1.0 - product / (f64::from(sample_period) * (f64::from(speed) - 1.0));
    let copied = |error: f32| (count(f64::from(error * speed)) as f32) as i32;
    let errors = || (0xbb83_0000..0xbc00_0000).map(f32::from_bits);
    let product = errors().find(|&e| (count(f64::from(e) * f64::from(speed)) as f32) as i32 != copied(e));
    let rounded = errors().find(|&e| count(f64::from(e * speed)) as i32 != copied(e));
    [product.expect("an error"), rounded.expect("an error")]
}

/// The first speed, pitch and count of frames held for which one rounding decides how many frames a flush keeps.
fn deciding_flush() -> (f32, f32, usize) {
    let tenths = || (1..30).map(|i| i as f32 * 0.1);
    let cases = tenths().flat_map(|speed| tenths().flat_map(move |pitch| (1..245).map(move |held| (speed, pitch, held))));
    let decides = |&(speed, pitch, held): &(f32, f32, usize)| {
        let kept = |used: f32| (used / pitch + 0.5) as usize;
        speed > pitch && kept(held as f32 / (speed / pitch)) != kept(held as f32 * pitch / speed)
    };
    cases.into_iter().find(decides).expect("a case")
}

/// Runs that turn on one rounding: of a copying step, of a skip of period 8, of an insert of period 9, of a flush.
fn roundings(r: &mut Runs) {
    let local = |frames: f32, speed: f32| frames * 0.001 / (frames * 0.001 / speed);
    for error in deciding_errors(local(90.0, 1.3), 0.001) {
        r.run(&format!("time error {error:?}"), AREAS, 1_000, 1).speed(1.3).edit_float(TIME_ERROR, error).write(VOICE, 1, 9, 90);
    }
    for (period, speed) in [(8, 0x406a_aaab), (9, 0x3ecc_cccd)] {
        let speed = f32::from_bits(speed);
        let frames = (30..90).find(|&n| local(n as f32, speed) == speed).expect("a count");
        r.run(&format!("period {period} at {speed}"), AREAS, 1_000, 1).speed(speed).write(TRIANGLE, 1, period, frames);
    }
    let (speed, pitch, held) = deciding_flush();
    r.run(&format!("a flush of {held} frames"), AREAS, 8_000, 1).pitch(pitch).speed(speed).write(VOICE, 1, 62, held).flush();
}

/// Local speeds at the limits of the stretch, by a play time set for a write of no frames.
fn limits(r: &mut Runs) {
    for speed in [0x3f80_0053, 0x3f80_0054, 0x3f7f_ff58, 0x3f7f_ff59] {
        let (speed, held) = (f32::from_bits(speed), 300f32);
        let near = held * 0.000_125 / speed;
        let play = (0..200).map(|i| f32::from_bits(near.to_bits() - 100 + i)).find(|play| held * 0.000_125 / play == speed);
        let Some(play) = play else { continue };
        r.run(&format!("local speed {:08x}", speed.to_bits()), AREAS, 8_000, 1).speed(20.0).pitch(0.5).write(SILENCE, 1, 1, 300);
        r.edit_float(PLAY_TIME, play).write(VOICE, 1, 1, 0);
    }
    for play in [0.0, -0.0, f32::INFINITY, f32::NEG_INFINITY, f32::NAN, -0.01] {
        r.run(&format!("play time {play:?} after a stall"), AREAS, 1_000, 1).speed(20.0).write(VOICE, 1, 9, 60).edit_float(PLAY_TIME, play);
        r.write(VOICE, 61, 9, 0).write(VOICE, 61, 9, 10).flush().read(900, 900);
    }
    r.run("local speeds 2 and 0.5 with a time error", AREAS, 11_025, 1).speed(2.0).edit_float(TIME_ERROR, -0.002).write(VOICE, 1, 99, 700);
    r.flush();
    r.speed(0.5).edit_float(TIME_ERROR, 0.002).write(VOICE, 1, 99, 700).flush();
    for error in [f32::NAN, f32::INFINITY, f32::NEG_INFINITY, -0.0, 0.004, -0.004] {
        r.run(&format!("time error {error:?}"), AREAS, 1_000, 1).speed(1.3).edit_float(TIME_ERROR, error).write(VOICE, 1, 9, 90).speed(0.8);
        r.write(VOICE, 1, 9, 90).flush();
    }
}

fn stalls(r: &mut Runs) {
    r.run("silence stalls; flush after a stall", AREAS, 8_000, 1).speed(20.0).pitch(0.5).write(SILENCE, 1, 1, 245).write(SILENCE, 1, 1, 1);
    r.write(VOICE, 1, 62, 0).write(VOICE, 1, 62, 60).flush().read(99, 99);
    r.run("frames before a stall, made again", AREAS, 8_000, 1).speed(20.0).pitch(0.5).write(VOICE, 1, 110, 700).write(SILENCE, 1, 1, 500);
    r.write(SILENCE, 1, 1, 0).write(SILENCE, 1, 1, 0).flush().write(VOICE, 1, 62, 300).read(99, 99);
    r.run("a stall at pitch 1", AREAS, 4_000, 2).speed(20.0).write(VOICE, 1, 110, 300).write(SILENCE, 1, 1, 400).speed(2.0);
    r.write(NOISE, 1, 1, 3).read(99, 99).write(NOISE, 1, 1, 300).flush();
    r.run("stalled until the input is full", [700, 700, 700, 300], 8_000, 1).speed(20.0).pitch(0.5).write(SILENCE, 1, 1, 300);
    r.write(SILENCE, 1, 1, 300).write(SILENCE, 1, 1, 101).flush().write(SILENCE, 1, 1, 100).flush();
    for (speed, title) in [(21.0, "21"), (22.0, "22"), (0.25, "0.25")] {
        r.run(&format!("silence at s = {title}"), AREAS, 8_000, 1).speed(if speed > 20.0 { 20.0 } else { speed });
        r.pitch(if speed > 20.0 { 20.0 / speed } else { 1.0 }).write(SILENCE, 1, 1, 246).flush();
    }
}

fn pitches(r: &mut Runs) {
    for pitch in [0.05, 0.5, 0.7, 0.999_999_94, 1.5, 2.0, 20.0] {
        r.run(&format!("pitch {pitch}, copied"), AREAS, 8_000, 1).pitch(pitch).speed(pitch).write(VOICE, 1, 62, 12).write(VOICE, 13, 62, 1);
        r.write(VOICE, 14, 62, 99).read(40, 40).write(NOISE, 1, 1, 200).flush().read(9_000, 9_000);
        r.run(&format!("pitch {pitch}, speed 1"), AREAS, 8_000, 2).pitch(pitch).write(VOICE, 1, 124, 600).write(TWO_VOICES, 1, 124, 400);
        r.flush().read(6_000, 12_000);
    }
    for (rate, pitch) in [(44_100, 2.0), (16_384, 0.5), (16_385, 1.1), (1_000, 0.06)] {
        r.run(&format!("rates halved: {rate} Hz, pitch {pitch}"), AREAS, rate, 1).pitch(pitch).speed(pitch).write(VOICE, 1, 62, 600);
        r.write(NOISE, 1, 1, 60).read(100, 100);
    }
    r.run("positions go back to 0", AREAS, 1_000, 1).pitch(3.0).speed(3.0).write(VOICE, 1, 9, 900).write(VOICE, 901, 9, 120).read(900, 900);
    r.run("the tail stays at pitch 1", AREAS, 8_000, 1).pitch(0.8).speed(0.8).write(VOICE, 1, 50, 40).pitch(1.0).speed(1.0);
    r.write(VOICE, 41, 50, 20).pitch(2.0).speed(2.0).write(VOICE, 61, 50, 20).pitch(1.0).flush().read(99, 99);
    r.run("a flush of a tail and nothing held", AREAS, 8_000, 1).pitch(2.0).speed(2.0).write(VOICE, 1, 50, 40).pitch(1.0).flush();
    r.read(99, 99);
    r.run("positions stay at a flush", AREAS, 8_000, 1).pitch(0.52).speed(0.52);
    (0..3).for_each(|i| { r.write(VOICE, 1, 50, 40).flush().read(99, 99).speed(0.52); if i == 1 { r.pitch(0.52); } });
    r.run("the same pitch again", AREAS, 8_000, 1).pitch(0.7).speed(0.7).write(VOICE, 1, 50, 45).pitch(0.7).write(VOICE, 46, 50, 45);
    r.pitch(f32::NAN).write(VOICE, 1, 50, 15).read(900, 900);
    r.run("flushes of a fresh stream", AREAS, 8_000, 1).flush().speed(2.0).flush().pitch(0.5).speed(20.0).flush().speed(0.3).flush();
    r.read(9, 9);
    r.run("interpolation past full scale", AREAS, 8_000, 1).pitch(0.9).speed(0.9).write_loud(SQUARE, 1, 24, 16_384, 200).read(300, 300);
    r.volume(1.001).write_loud(SQUARE, 1, 24, 16_384, 200).read(300, 300);
}

fn volumes(r: &mut Runs) {
    for volume in [0.01, 0.5, 0.999, 1.001, 1.003, 1.5, 100.0] {
        r.run(&format!("volume {volume}"), AREAS, 8_000, 2).volume(volume).write(NOISE, 1, 1, 200).read(100, 200).speed(2.0);
        r.write(VOICE, 1, 124, 600).pitch(0.9).write(VOICE, 1, 124, 600).read(500, 1_000);
    }
    r.run("the volume of the call that makes the frame", AREAS, 8_000, 1).pitch(1.1).speed(1.1).write(VOICE, 1, 50, 40).volume(3.0);
    r.write(VOICE, 41, 50, 40).volume(1.0).write(VOICE, 81, 50, 40).read(99, 99);
}
