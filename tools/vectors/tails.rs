
// ---- The tail at pitch 1. 24 frames at pitch and speed 0.5 give 24, and 12 stay in the tail.

/// A voice lowered, and back at pitch 1.
fn lowered<'a>(r: &'a mut Runs, title: &str, rate: u32, channels: usize, speed: f32) -> &'a mut Runs {
    r.run(title, AREAS, rate, channels as u32).pitch(0.5).speed(0.5).write(VOICE, 1, 50, 24 * channels).read(20, 20 * channels);
    r.pitch(1.0).speed(speed)
}

/// The same write in one stage and output after another.
fn tried_in(r: &mut Runs, (kind, seed, period): (u64, u32, usize), count: usize, lengths: &[(usize, usize)]) {
    lengths.iter().for_each(|&(stage, output)| { r.lend([900, stage, output, 300]).write(kind, seed, period, count); });
}

fn tails(r: &mut Runs) {
    lowered(r, "a tail at pitch 1: stages of 11, 19 and 20 for 20 frames, and lower again", 8_000, 1, 1.0);
    tried_in(r, (VOICE, 25, 50), 20, &[(11, 24), (12, 24), (19, 24), (19, 23), (19, 4), (20, 23), (20, 4), (20, 24)]);
    r.lend([900, 32, 900, 300]).read(22, 22).pitch(0.5).speed(0.5).write(VOICE, 45, 50, 21).write(VOICE, 45, 50, 20).read(99, 99).flush();
    lowered(r, "a tail at pitch 1: fewer frames than it, as many, and one more", 8_000, 1, 1.0).volume(2.0);
    tried_in(r, (NOISE, 3, 1), 0, &[(11, 99), (12, 4)]);
    tried_in(r, (NOISE, 3, 1), 5, &[(11, 99), (12, 99)]);
    tried_in(r, (NOISE, 4, 1), 12, &[(11, 99), (12, 99)]);
    tried_in(r, (NOISE, 5, 1), 13, &[(12, 99), (13, 33), (13, 34)]);
    r.read(99, 99).lend(AREAS).pitch(2.0).speed(2.0).write(VOICE, 25, 50, 40).read(99, 99);
    for (speed, frames, made) in [(2.0, 500, 186), (0.5, 300, 124)] {
        let (stage, output) = (made, 4 + made);
        lowered(r, &format!("a tail at pitch 1: stretched at speed {speed}"), 8_000, 1, speed);
        let full = [(stage - 1, output), (stage - 1, output - 1), (stage - 1, 66), (stage - 1, 65), (stage - 1, 4), (stage / 2, 66)];
        tried_in(r, (TRIANGLE, 1, 62), frames, &full);
        tried_in(r, (TRIANGLE, 1, 62), frames, &[(stage, 4), (stage, 65), (stage, output - 1), (stage, output)]);
        r.lend(AREAS).pitch(0.5).speed(0.5).write(VOICE, 25, 50, 300).flush().read(900, 900);
    }
    lowered(r, "a tail at pitch 1: flushed", 8_000, 1, 1.0);
    [(11, 496), (12, 496), (491, 496), (491, 16), (492, 495), (492, 496)].iter().for_each(|&(s, o)| { r.lend([492, s, o, 300]).flush(); });
    r.read(99, 99).lend(AREAS).pitch(0.5).speed(0.5).write(VOICE, 25, 50, 20).read(99, 99);
    for pitch in [0.999_999_94, 1.000_000_1] {
        lowered(r, &format!("a tail at pitch {pitch} counts"), 8_000, 1, pitch).pitch(pitch);
        tried_in(r, (VOICE, 25, 50), 20, &[(11, 24), (20, 24), (31, 24), (32, 23), (32, 24)]);
        r.read(99, 99);
    }
    lowered(r, "a tail at pitch 1: two channels", 8_000, 2, 1.0).volume(0.5);
    tried_in(r, (TWO_VOICES, 25, 50), 41, &[(23, 48), (24, 48), (39, 48), (39, 8), (40, 47), (41, 49)]);
    r.lend(AREAS).speed(1.3).write(TWO_VOICES, 65, 124, 800).flush().read(900, 1_800);
    lowered(r, "a tail at pitch 1: a stall, and silence passed over", 4_000, 1, 20.0).write(TRIANGLE, 1, 50, 500);
    tried_in(r, (SILENCE, 1, 1), 200, &[(11, 40), (12, 40)]);
    r.step_over(1);
    tried_in(r, (SILENCE, 1, 1), 0, &[(11, 40), (12, 40)]);
    lowered(r, "a tail at pitch 1: 12 behind 6 and 7", 8_000, 1, 2.0).edit_total(SKIPPED, 19);
    tried_in(r, (SILENCE, 1, 1), 246, &[(19, 24), (20, 23), (20, 24)]);
    r.edit_total(SKIPPED, 20);
    tried_in(r, (SILENCE, 1, 1), 246, &[(20, 24)]);
}
