
// ---- The runs: a text of lines, as docs/VECTORS.md has them.

/// Lengths of input, stage, output and scratch with room for all that most runs make.
const AREAS: [usize; 4] = [12_000, 12_000, 12_000, 1_400];

struct Runs {
    text: String,
    runs: usize,
}

impl Runs {
    fn line(&mut self, words: std::fmt::Arguments) -> &mut Self {
        let _ = writeln!(self.text, "{words}");
        self
    }

    /// Begins a run: its title, lengths and opening.
    fn run(&mut self, title: &str, lent: [usize; 4], rate: u32, channels: u32) -> &mut Self {
        self.titled(title, lent).open(rate, channels)
    }

    /// Begins a run that finds the largest of several best periods.
    fn run_largest(&mut self, title: &str, lent: [usize; 4], rate: u32, channels: u32) -> &mut Self {
        self.titled(title, lent).open_with_ties(rate, channels, 1)
    }

    /// Begins a run without its opening.
    fn titled(&mut self, title: &str, lent: [usize; 4]) -> &mut Self {
        self.runs += 1;
        self.line(format_args!("# {title}")).lend(lent)
    }

    fn lend(&mut self, [input, stage, output, scratch]: [usize; 4]) -> &mut Self {
        self.line(format_args!("l {input} {stage} {output} {scratch}"))
    }

    fn open(&mut self, rate: u32, channels: u32) -> &mut Self {
        self.line(format_args!("o {rate} {channels}"))
    }

    /// Opens with a choice of ties.
    fn open_with_ties(&mut self, rate: u32, channels: u32, ties: u32) -> &mut Self {
        self.line(format_args!("o {rate} {channels} {ties}"))
    }

    fn edit(&mut self, field: usize, value: u64) -> &mut Self {
        self.line(format_args!("e {field} {value}"))
    }

    /// Sets a total to so many frames below its end.
    fn edit_total(&mut self, field: usize, below: u64) -> &mut Self {
        self.line(format_args!("e {field} x{:x}", u64::MAX - below))
    }

    fn edit_float(&mut self, field: usize, value: f32) -> &mut Self {
        self.line(format_args!("e {field} x{:08x}", value.to_bits()))
    }

    fn speed(&mut self, value: f32) -> &mut Self {
        self.line(format_args!("s x{:08x}", value.to_bits()))
    }

    fn pitch(&mut self, value: f32) -> &mut Self {
        self.line(format_args!("p x{:08x}", value.to_bits()))
    }

    fn volume(&mut self, value: f32) -> &mut Self {
        self.line(format_args!("v x{:08x}", value.to_bits()))
    }

    fn step_over(&mut self, on: u64) -> &mut Self {
        self.line(format_args!("t {on}"))
    }

    /// Writes so many samples of a signal at two thirds of full scale.
    fn write(&mut self, kind: u64, seed: u32, period: usize, count: usize) -> &mut Self {
        self.write_loud(kind, seed, period, 49_152, count)
    }

    fn write_loud(&mut self, kind: u64, seed: u32, period: usize, divisor: u16, count: usize) -> &mut Self {
        self.line(format_args!("w {kind} {seed} {period} {divisor} {count}"))
    }

    fn available(&mut self) -> &mut Self {
        self.line(format_args!("a"))
    }

    fn flush(&mut self) -> &mut Self {
        self.line(format_args!("f"))
    }

    fn read(&mut self, most: usize, values: usize) -> &mut Self {
        self.line(format_args!("r {most} {values}"))
    }
}

// ---- Opening, settings, refusals

fn openings(r: &mut Runs) {
    for (rate, channels) in [(999, 1), (8_000, 33), (0, 0), (500_001, 2), (1_000, 0), (u32::MAX, u32::MAX)] {
        r.run(&format!("refused opening: {rate} Hz, {channels} channels"), AREAS, rate, channels);
        r.available().speed(2.0).pitch(2.0).volume(2.0).write(NOISE, 1, 1, 10).flush().read(4, 4);
    }
    r.run("openings at the limits", AREAS, 1_000, 1).open(1_000, 32).open(500_000, 1).open(500_000, 32).open(44_100, 2).available();
}

fn settings(r: &mut Runs) {
    let ends = [0.05f32, 20.0, 0.01, 100.0];
    let mut values: Vec<f32> = ends.iter().flat_map(|x| [x.next_down(), *x, x.next_up()]).collect();
    values.extend([0.0, -0.0, 1.0, -1.0, 1e-40, 3.5, f32::MAX, f32::INFINITY, f32::NEG_INFINITY, f32::NAN, -f32::NAN]);
    r.run("speeds", AREAS, 8_000, 1);
    values.iter().for_each(|&x| { r.speed(x); });
    r.run("pitches", AREAS, 8_000, 1);
    values.iter().for_each(|&x| { r.pitch(x); });
    r.run("volumes", AREAS, 8_000, 1);
    values.iter().for_each(|&x| { r.volume(x); });
}

/// Fields out of order, and back in order, each with every call.
fn out_of_order(r: &mut Runs) {
    let floats = [
        (SPEED, 30.0, 2.0), (PITCH, f32::NAN, 2.0), (PITCH, 0.049, 2.0), (VOLUME, 0.009_999_999, 0.01),
        (PERIOD_OF_SAMPLE, 0.000_125_000_01, 0.000_125),
    ];
    for (field, bad, good) in floats {
        r.run(&format!("out of order: field {field} at {bad}"), AREAS, 8_000, 2).edit_float(field, bad);
        r.available().speed(1.5).pitch(1.5).volume(1.5).write(VOICE, 5, 60, 80).flush().read(8, 16);
        r.edit_float(field, good).write(VOICE, 5, 60, 80).read(8, 16);
    }
    r.run("out of order: whole numbers", AREAS, 8_000, 2);
    for (field, values) in [
        (RATE, [999, 500_001, 8_001, 8_000]), (CHANNELS, [0, 33, u64::from(u32::MAX), 2]),
        (PREV_PERIOD, [1, 19, 124, 123]), (PREV_MIN_DIFF, [65_536, 1 << 40, 1 << 63, 65_535]),
        (OLD_POSITION, [8_000, 4_001, 1 << 63, 0]), (NEW_POSITION, [1, 8_000, 1 << 63, 0]),
    ] {
        values.iter().for_each(|&value| { r.edit(field, value).available(); });
    }
    r.run("positions in order", AREAS, 8_000, 1).pitch(1.5);
    for (old, new) in [(7, 5), (7, 4), (7_999, 5_333), (7_998, 5_332), (8_000, 5_333)] {
        r.edit(OLD_POSITION, old).edit(NEW_POSITION, new).write(VOICE, 3, 40, 30);
    }
}

/// Refusals 4 to 7 at their limits, alone and together.
fn short_areas(r: &mut Runs) {
    r.run("4: scratch", [500, 500, 500, 245], 8_000, 1).write(NOISE, 1, 1, 10).flush().read(0, 4).lend([500, 500, 500, 246]);
    r.write(NOISE, 1, 1, 10);
    r.run("4: held, tail and waiting", [600, 600, 600, 300], 8_000, 2).pitch(2.0).speed(2.0).write(VOICE, 1, 90, 80).speed(1.0);
    r.write(VOICE, 81, 90, 40);
    r.lend([39, 600, 600, 300]).write(SILENCE, 1, 1, 0).flush().read(1, 2).lend([40, 23, 600, 300]).write(SILENCE, 1, 1, 0).flush();
    r.lend([40, 24, 25, 300]).write(SILENCE, 1, 1, 0).flush().read(1, 2).lend([40, 24, 26, 300]).write(SILENCE, 1, 1, 0).read(1, 2).flush();
    for field in [HELD, TAIL, WAITING] {
        r.run(&format!("4: field {field} past every area"), AREAS, 8_000, 2).edit(field, 1 << 63).write(NOISE, 1, 1, 8).flush().read(1, 2);
        r.available();
    }
    r.run("5: input of 100", [100, 500, 500, 300], 8_000, 1).write(NOISE, 1, 1, 101).write(NOISE, 1, 1, 100).flush().read(200, 200);
    r.run("5: frames held count", [100, 500, 500, 300], 8_000, 1).speed(2.0).write(NOISE, 1, 1, 60).write(NOISE, 2, 1, 41);
    r.write(NOISE, 3, 1, 40).write(NOISE, 4, 1, 1);
    r.run("5: flush", [551, 900, 900, 300], 8_000, 1).speed(2.0).write(NOISE, 1, 1, 60).flush().lend([552, 900, 900, 300]).flush();
    r.read(900, 900);
    r.run("6: stage of 50", [500, 50, 500, 300], 8_000, 1).write(NOISE, 1, 1, 51).write(NOISE, 1, 1, 50).flush().read(90, 90);
    r.run("6: the tail counts, but not at pitch 1", [900, 60, 900, 300], 8_000, 1).pitch(2.0).speed(2.0).write(VOICE, 1, 50, 60);
    r.write(VOICE, 61, 50, 49);
    r.write(VOICE, 61, 50, 48).pitch(1.0).speed(1.0).write(VOICE, 109, 50, 61).write(VOICE, 109, 50, 60).flush().read(200, 200);
    r.run("6: of a stretch", [2_000, 243, 2_000, 300], 8_000, 1).speed(0.7).write(VOICE, 1, 62, 400).lend([2_000, 600, 2_000, 300]);
    r.write(VOICE, 1, 62, 400).flush();
    r.run("7: output of 50, stage of 60", [500, 60, 50, 300], 8_000, 1).write(NOISE, 1, 1, 51).write(NOISE, 1, 1, 50).write(NOISE, 2, 1, 1);
    r.read(20, 20).write(NOISE, 2, 1, 21);
    r.write(NOISE, 2, 1, 20).read(90, 90);
    r.run("7: of a flush, before its trimming", [600, 600, 521, 300], 8_000, 1).write(NOISE, 1, 1, 30).flush().lend([600, 600, 522, 300]);
    r.flush().available();
    r.run("7: at another pitch", [600, 600, 80, 300], 8_000, 1).pitch(0.5).speed(0.5).write(VOICE, 1, 50, 53).write(VOICE, 1, 50, 52);
    r.read(10, 10).write(VOICE, 53, 50, 6).write(VOICE, 53, 50, 5);
    r.run("the order of the refusals", [50, 40, 30, 245], 8_000, 1).edit_float(SPEED, 30.0).write(NOISE, 1, 1, 60).edit_float(SPEED, 1.0);
    r.write(NOISE, 1, 1, 60);
    r.lend([50, 40, 30, 246]).write(NOISE, 1, 1, 60).write(NOISE, 1, 1, 45).write(NOISE, 1, 1, 35).write(NOISE, 1, 1, 30);
}
