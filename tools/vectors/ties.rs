
// ---- Ties. A sound that repeats exactly after a period has the mean of differences 0 there, at twice and at three times that; silence has it
// at every period.

/// Divisors of a square's levels at which its samples are so much, as much more as d, and more by twice d.
fn tied_divisors() -> [u16; 3] {
    let height = |divisor: u16| (20_000.0 / f32::from(divisor) * 32_767.0) as i32;
    let d = height(40_000) - height(40_100);
    let at = |wanted: i32| (30_000..=40_100).rev().find(|&divisor| height(divisor) == wanted).expect("a divisor");
    [0, 1, 2].map(|times| at(height(40_100) + times * d))
}

/// Six writes, each a square of one period, whose heights are such that the period, twice and three times it have the same mean, d.
fn tied(r: &mut Runs, period: usize) -> &mut Runs {
    let divisors = tied_divisors();
    [0, 1, 1, 2, 1, 2].iter().for_each(|&times: &usize| { r.write_loud(SQUARE, 0, period, divisors[times], period); });
    r
}

fn ties(r: &mut Runs) {
    for ties in [0, 1] {
        let title = ["smallest", "largest"][ties as usize];
        r.titled(&format!("repeats and silence, the {title}"), AREAS).open_with_ties(8_000, 1, ties).speed(2.0).write(TRIANGLE, 0, 40, 246);
        r.write(TRIANGLE, 246, 40, 300).write(SILENCE, 1, 1, 300).flush().read(900, 900).pitch(0.5).speed(20.0).write(SILENCE, 1, 1, 300);
        r.flush().write(TRIANGLE, 0, 30, 600).flush().write(VOICE, 0, 30, 600).write(VOICE, 1, 30, 3).flush().read(99, 99);
        r.titled(&format!("a tie with a sum, the {title}"), AREAS).open_with_ties(4_000, 1, ties).speed(2.0);
        tied(r, 20).write(SQUARE, 0, 20, 2).write(NOISE, 1, 1, 1).open_with_ties(8_000, 1, ties).speed(2.0);
        tied(r, 40).write(SQUARE, 0, 40, 6).speed(1.0).flush().write(NOISE, 1, 1, 9).speed(0.6).write(SQUARE, 0, 40, 500).read(900, 900);
        r.titled(&format!("several channels, the {title}"), AREAS).open_with_ties(4_000, 2, ties).speed(3.0).write(TRIANGLE, 0, 40, 500);
        r.write(TWO_VOICES, 0, 46, 500).open_with_ties(8_000, 3, ties).speed(0.4).write(TRIANGLE, 0, 120, 900).flush().read(900, 2_700);
    }
    for (rate, period) in [(1_000, 5), (16_000, 80), (44_100, 220)] {
        r.run_largest(&format!("{rate} Hz, the largest"), AREAS, rate, 1).speed(1.4).write(TRIANGLE, 0, period, 12 * period);
        r.write(SILENCE, 1, 1, 9 * period).write(VOICE, 1, period, 9 * period).flush().read(9_000, 9_000);
    }
    r.run_largest("stepping over, the largest", AREAS, 8_000, 1).speed(20.0).pitch(0.5).step_over(1).write(SILENCE, 1, 1, 300);
    r.write(NOISE, 3, 1, 900).write(VOICE, 1, 30, 900).flush().read(99, 99);
    r.run_largest("the previous period and its sum, the largest", AREAS, 8_000, 1).speed(2.5).edit(PREV_PERIOD, 123).edit(PREV_MIN_DIFF, 1);
    r.write(NOISE, 3, 1, 246).edit(PREV_PERIOD, 20).edit(PREV_MIN_DIFF, 65_535).write(NOISE, 4, 1, 400);
    r.run_largest("copying steps behind a search, and alone", AREAS, 8_000, 1).speed(1.02).write(VOICE, 1, 40, 400);
    r.edit_float(TIME_ERROR, -0.05).write(VOICE, 1, 40, 300).write(VOICE, 1, 40, 240).flush().read(999, 999);
    r.run_largest("values of the field", AREAS, 8_000, 1).speed(2.0).edit(TIES, 7).pitch(1.0).volume(2.0).step_over(0).available();
    r.write(TRIANGLE, 0, 40, 246).edit(TIES, u64::from(u32::MAX)).write(TRIANGLE, 246, 40, 246).flush().read(9, 9).edit(TIES, 0);
    r.write(TRIANGLE, 0, 40, 246).edit(TIES, 2).lend([246, 119, 900, 300]).write(TRIANGLE, 246, 40, 80).lend([900, 900, 9, 300]);
    r.write(SILENCE, 1, 1, 0).edit_float(SPEED, 30.0).write(SILENCE, 1, 1, 9).speed(2.0).flush();
    r.titled("openings with a choice", AREAS).open_with_ties(8_000, 1, 7).open_with_ties(8_000, 2, u32::MAX).open(8_000, 1);
    r.open_with_ties(999, 1, 1).available().write(NOISE, 1, 1, 9).open_with_ties(8_000, 33, 7).speed(2.0).flush().read(4, 4);
}
