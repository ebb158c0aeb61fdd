
// ---- The phases of the rate conversion, N/gcd(N, O): its ratios come again after a round of O/gcd(N, O) tail frames. At speed = pitch frames
// are copied, and behind a tail of twelve a write consumes as many tail frames as it has.

/// N and O.
fn rates_of(rate: u64, pitch: f32) -> [u64; 2] {
    let (mut new, mut old) = ((rate as f32 / pitch) as u64, rate);
    while new > 16_384 || old > 16_384 {
        (new, old) = (new / 2, old / 2);
    }
    [new, old]
}

/// The phases, and the tail frames of a round.
fn round_of(rate: u64, pitch: f32) -> [u64; 2] {
    let rates = rates_of(rate, pitch);
    let [mut divisor, mut rest] = rates;
    while rest > 0 {
        (divisor, rest) = (rest, divisor % rest);
    }
    rates.map(|rate| rate / divisor)
}

/// Twelve frames at speed = pitch; then a frame less than two rounds, two rounds, and some frames more, behind refusals for want of output.
fn rounds(r: &mut Runs, channels: usize, pitch: f32, round: usize) -> &mut Runs {
    r.pitch(pitch).speed(pitch).write(NOISE, 1, 1, 12 * channels).write(NOISE, 2, 1, (2 * round - 1) * channels);
    r.write(NOISE, 3, 1, 2 * round * channels).read(999, 1_998);
    for output in [0, round * channels, 12_000] {
        r.lend([12_000, 12_000, output, 1_400]).write(NOISE, 4, 1, (2 * round + 3) * channels);
    }
    r.read(999, 1_998)
}

fn phases(r: &mut Runs) {
    for (rate, channels, pitch, phases) in [(16_000, 1, 0.8, 5), (16_000, 2, 32.0 / 33.0, 33), (44_100, 1, 1.4, 5), (44_100, 2, 25.0 / 33.0, 33)] {
        let [found, round] = round_of(u64::from(rate), pitch);
        assert_eq!(found, phases, "phases of pitch {pitch} at {rate} Hz");
        let (width, voice) = (channels as usize, rate as usize / 130);
        r.run(&format!("{phases} phases at {rate} Hz, {channels} channels"), AREAS, rate, channels);
        rounds(r, width, pitch, round as usize).speed(2.5 * pitch).write(VOICE, 1, voice * width, 6 * voice * width);
        r.write(NOISE, 5, 1, 4 * voice * width).flush().read(6_000, 6_000 * width);
    }
    r.run("from one count of phases to another", AREAS, 16_000, 1);
    for (pitch, phases) in [(0.5, 2), (0.78125, 32), (32.0 / 33.0, 33), (2.0, 1), (32.0 / 31.0, 31), (0.78125, 32), (0.8, 5)] {
        let [found, round] = round_of(16_000, pitch);
        assert_eq!(found, phases, "phases of pitch {pitch} at 16,000 Hz");
        rounds(r, 1, pitch, round as usize);
    }
    r.flush();
    r.run("a fit that gets worse at 16,000 Hz", AREAS, 16_000, 1).speed(2.0);
    for divisor in [60_000, 30_000, 15_000, 7_000] {
        r.write_loud(VOICE, 1, 120, 60_000, 500).write_loud(NOISE, 7, 1, divisor, 500);
    }
    r.flush().read(6_000, 6_000);
}
