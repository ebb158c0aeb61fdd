
// ---- Runs from a seed, and the files

fn seeded_call(r: &mut Runs, g: &mut Congruential, rate: usize, channels: usize) {
    let length = rate / 65 * channels;
    let settings = [
        0.05, 0.2, 0.4, 0.5, 0.6, 0.8, 0.9, 0.99, 1.0, 1.0, 1.01, 1.1, 1.25, 1.5, 1.9, 2.0, 2.2, 3.0, 5.0, 11.0, 20.0,
    ];
    let kinds = [NOISE, SQUARE, TRIANGLE, VOICE, VOICE, TWO_VOICES, SILENCE];
    match g.below(16) {
        0 | 1 => r.speed(g.one_of(&settings)),
        2 => r.pitch(g.one_of(&settings)),
        3 => r.volume(g.one_of(&settings)),
        4 | 5 => {
            let most = g.below(400);
            r.read(most, most * channels + g.below(3))
        }
        6 => r.flush(),
        7 => {
            let areas = [0; 3].map(|_| g.below(6 * length));
            r.lend([areas[0], areas[1], areas[2], 2 * rate / 65 + g.below(4)])
        }
        8 => r.lend(AREAS),
        _ => {
            let (kind, seed, period) = (g.one_of(&kinds), g.below(4_096), 1 + g.below(length));
            r.write(kind, seed as u32, period, g.below(4 * length))
        }
    };
}

fn seeded(r: &mut Runs, count: usize) {
    let mut g = Congruential(1);
    for i in 0..count {
        let rate = g.one_of(&[1_000, 1_000, 2_345, 4_000, 4_001, 8_000, 8_000, 11_025, 16_000]);
        let channels = g.one_of(&[1, 1, 1, 2, 2, 3]);
        r.run(&format!("seeded {i}"), AREAS, rate as u32, channels as u32).speed(g.one_of(&[0.4, 0.7, 1.0, 1.3, 1.8, 2.0, 4.0]));
        (0..9).for_each(|_| seeded_call(r, &mut g, rate, channels));
        r.lend(AREAS).flush().read(ROOM, ROOM);
    }
}

fn main() {
    let mut r = Runs { text: String::new(), runs: 0 };
    let refused = [openings, settings, out_of_order, short_areas];
    let stretched = [writes, speeds, previous_period_limits, roundings, limits, stalls, pitches, volumes, balances, passes, tails, ties, phases];
    refused.iter().chain(&stretched).for_each(|section| section(&mut r));
    seeded(&mut r, 30);
    let (told, census) = replay(&r.text);
    assert!(r.text.len() <= 65_536, "more than the program reads");
    let folder = std::env::args().nth(1).expect("the folder to write to");
    std::fs::write(format!("{folder}/stdin"), &r.text).expect("stdin");
    std::fs::write(format!("{folder}/stdout"), &told).expect("stdout");
    census.check();
    let calls = told.lines().filter(|line| line.starts_with(' ')).count();
    println!("{} runs, {calls} calls; {} and {} bytes", r.runs, r.text.len(), told.len());
}
