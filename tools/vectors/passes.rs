
// ---- Stepping over. At 8,000 Hz, speed 20 and pitch 0.5 silence has period 20 and gives no frame; 246 frames of it are one step, and a flush
// of nothing has 13.

fn passes(r: &mut Runs) {
    r.run("periods passed over; off, a stall; on, what is held", AREAS, 8_000, 1).speed(20.0).pitch(0.5);
    r.step_over(1).write(SILENCE, 1, 1, 246).write(SILENCE, 1, 1, 74).step_over(0).write(VOICE, 1, 110, 500).write(SILENCE, 1, 1, 300);
    r.step_over(1).write(SILENCE, 1, 1, 0).write(VOICE, 1, 30, 600).read(99, 99);
    r.run("flushes that pass over; settings, flushes, reads leave it on", AREAS, 8_000, 1).step_over(1).speed(20.0).pitch(0.5).flush();
    r.volume(2.0).write(VOICE, 1, 62, 300).flush().read(99, 99).available().step_over(0).flush().step_over(2).open(8_000, 1);
    r.run("passed over after frames, two channels at pitch 1", AREAS, 4_000, 2).speed(20.0).step_over(1).write(VOICE, 1, 110, 300);
    r.write(SILENCE, 1, 1, 400).write(TWO_VOICES, 1, 90, 600).flush().read(99, 198);
    r.run("the previous period passed over", AREAS, 8_000, 1).speed(20.0).pitch(0.5).step_over(1).edit(PREV_PERIOD, 21);
    r.edit(PREV_MIN_DIFF, 1).write(NOISE, 3, 1, 246).write(NOISE, 4, 1, 900).flush();
    r.run("values of the field, and 3", AREAS, 8_000, 1).speed(20.0).pitch(0.5).edit(STEP_OVER, 2).write(SILENCE, 1, 1, 246);
    r.edit(STEP_OVER, u64::from(u32::MAX)).flush().speed(20.0).edit_float(SPEED, 30.0).step_over(0).step_over(1).write(SILENCE, 1, 1, 300);
    r.edit_float(SPEED, 20.0).write(SILENCE, 1, 1, 300).step_over(0).write(SILENCE, 1, 1, 40);
    r.run("12 for periods passed over", AREAS, 8_000, 1).speed(20.0).pitch(0.5).step_over(1).edit_total(SKIPPED, 19);
    r.write(SILENCE, 1, 1, 246).edit_total(SKIPPED, 20).write(SILENCE, 1, 1, 246).edit_total(SKIPPED, 479).flush();
    r.edit_total(SKIPPED, 480).flush().step_over(0).write(SILENCE, 1, 1, 300);
    r.run("no room for frames", [700, 0, 0, 300], 8_000, 1).speed(20.0).step_over(1).pitch(0.9).write(SILENCE, 1, 1, 300);
    r.lend([700, 9, 0, 300]).write(VOICE, 1, 110, 460).lend([700, 10, 0, 300]).write(VOICE, 1, 110, 460);
    r.lend([700, 99, 8, 300]).write(SILENCE, 1, 1, 450).lend([700, 99, 9, 300]).write(SILENCE, 1, 1, 450);
    r.run("a play time of 0 passes over; the time error stays", AREAS, 1_000, 1).speed(20.0).write(VOICE, 1, 9, 60).step_over(1);
    r.edit_float(PLAY_TIME, 0.0).edit_float(TIME_ERROR, -0.25).write(VOICE, 61, 9, 0).write(VOICE, 61, 9, 40).flush().read(9, 9);
}
