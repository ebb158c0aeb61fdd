
// ---- The totals. Silence has period 20 at 8,000 Hz; 246 frames of it are one step, and a flush of nothing has 492.

fn balances(r: &mut Runs) {
    r.run("a skip and an insert counted; settings, reads and flushes leave the totals", AREAS, 8_000, 1).speed(4.0);
    r.write(TRIANGLE, 1, 62, 246).pitch(1.0).volume(2.0).read(9, 9).flush().speed(0.25).write(TRIANGLE, 1, 62, 246).flush().speed(1.0);
    r.write(NOISE, 1, 1, 9).available().flush().open(8_000, 1);
    for (name, field, speed, flushed) in [("skipped", SKIPPED, 2.0, 140), ("inserted", INSERTED, 0.5, 260)] {
        r.run(&format!("12: {name}, of a write"), AREAS, 8_000, 1).speed(speed).edit_total(field, 19).write(SILENCE, 1, 1, 246);
        r.edit_total(field, 20).write(SILENCE, 1, 1, 246).write(SILENCE, 1, 1, 100).speed(1.0 / speed).write(VOICE, 1, 62, 900);
        r.read(99, 99);
        r.run(&format!("12: {name}, of a flush"), AREAS, 8_000, 1).speed(speed).edit_total(field, flushed - 1).flush();
        r.edit_total(field, flushed).flush().flush().speed(1.0 / speed).flush();
    }
    r.run("12 after 6 and 7", [300, 19, 19, 300], 8_000, 1).speed(2.0).edit_total(SKIPPED, 19).write(SILENCE, 1, 1, 246);
    r.lend([300, 20, 19, 300]).write(SILENCE, 1, 1, 246).lend([300, 20, 20, 300]).write(SILENCE, 1, 1, 246).edit_total(SKIPPED, 20);
    r.write(SILENCE, 1, 1, 246).lend([698, 300, 159, 300]).flush().lend([698, 300, 300, 300]).flush();
    r.run("12 with a tail and frames waiting", AREAS, 8_000, 2).pitch(0.8).speed(0.8).write(VOICE, 1, 80, 100).speed(2.0);
    r.edit_total(SKIPPED, 0).write(VOICE, 101, 80, 600).flush().edit(SKIPPED, 0).write(VOICE, 101, 80, 600).flush().read(500, 1_000);
    r.run("no 12 where nothing is counted", AREAS, 8_000, 1).edit_total(SKIPPED, 0).edit_total(INSERTED, 0).write(SILENCE, 1, 1, 0);
    r.write(NOISE, 1, 1, 50).flush().speed(20.0).pitch(0.5).write(VOICE, 1, 110, 245).write(SILENCE, 1, 1, 400).flush().available();
    r.volume(0.5).read(99, 99);
}
