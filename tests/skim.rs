// Joined to the text of the Rust original, or to a copy of it (tools/judges.py) that steps over, as the tool does without --as-original,
// or finds the largest of several best periods, as it does with --longest-period, or both: driven through the writes that the skim tool
// makes. Arguments and files are the tool's, and --map FILE may stand before them; standard error gets the tool's last line, without its
// status. After a write that stalls the next one is tried, until a flush would have no room behind another frame.
use std::io::{Read, Write};

// The samples that are read at a time, and those of the tool's areas.
const BLOCK: usize = 4096;
const INPUT: usize = 196_608;
const STAGE: usize = 1_048_576;
const OUTPUT: usize = 1_048_576;

// The most frames that a call of the tool holds.
fn limit(stream: &SonicStream, rate: usize, channels: usize) -> usize {
    let growth = ((stream.pitch / stream.speed * 3.0) as usize).min(stream.max_period as usize) + 1;
    let (mut new, mut old) = ((rate as f32 / stream.pitch) as usize, rate);
    while new > 16_384 || old > 16_384 {
        (new, old) = (new / 2, old / 2);
    }
    let made = (OUTPUT / channels - 2 - BLOCK / channels) * old / new;
    let within = |room: usize| room.saturating_sub(12) / growth;
    (INPUT / channels).min(within(STAGE / channels)).min(within(made))
}

// The frames that a write fills the input up to.
fn full(stream: &SonicStream) -> usize {
    let s = (stream.speed / stream.pitch) as usize;
    if s >= stream.min_period as usize {
        stream.max_required + stream.min_period as usize - 1
    } else {
        3 * stream.max_required
    }
}

// A stream on which a write stalled holds as many frames as a search looks at.
fn stalled(stream: &SonicStream) -> bool {
    stream.input_frames() >= stream.max_required
}

// What is waiting, as bytes.
fn take(stream: &mut SonicStream, out: &mut Vec<u8>) {
    for x in stream.read_f32(usize::MAX / 64) {
        let v = (f64::from(x) * 32767.0).round() as i16;
        out.extend_from_slice(&v.to_le_bytes());
    }
}

fn open(words: &[&str]) -> SonicStream {
    let mut stream = SonicStream::new(words[0].parse().unwrap(), words[1].parse().unwrap()).unwrap();
    stream.set_speed(words[2].parse().unwrap());
    stream.set_pitch(words[3].parse().unwrap());
    stream.set_volume(words.get(4).map_or(1.0, |word| word.parse().unwrap()));
    stream
}

// The original once more, without rate conversion, so that its output shows what each stretch gives; and the frames of periods that
// its stretches skipped and inserted.
struct Stretch {
    stream: SonicStream,
    skipped: usize,
    inserted: usize,
}

impl Stretch {
    // Goes on with a write, and gives the frames that it passed over: those that it used if it made none. While the stream has too few
    // frames for a stretch, only a copy takes frames from its input.
    fn write(&mut self, samples: &[f32]) -> usize {
        let stream = &mut self.stream;
        let (required, pitch) = (stream.max_required, stream.pitch);
        stream.max_required = usize::MAX;
        stream.write_f32(samples);
        stream.output.clear();
        (stream.max_required, stream.pitch) = (required, 1.0);
        let held = stream.input_frames();
        stream.process_stream_input();
        stream.pitch = pitch;
        let (used, given) = (held - stream.input_frames(), stream.output_frames());
        if used > 0 {
            self.skipped += used.saturating_sub(given);
            self.inserted += given.saturating_sub(used);
        }
        if given == 0 { used } else { 0 }
    }

    // The first frame held before a flush that stalls, told by the silence that it adds.
    fn flush(&mut self, channels: usize, frames: usize) -> Option<usize> {
        let held = self.stream.input_frames();
        self.write(&vec![0.0; 2 * self.stream.max_required * channels]);
        stalled(&self.stream).then(|| frames - held)
    }
}

// The periods that writes passed over, and the stretches of the reel of which nothing came out, each with its first frame and its frames.
struct Passes {
    periods: usize,
    stretches: Vec<(usize, usize)>,
}

impl Passes {
    fn note(&mut self, first: usize, frames: usize) {
        match self.stretches.last_mut() {
            Some((start, length)) if *start + *length == first => *length += frames,
            _ if frames > 0 => self.stretches.push((first, frames)),
            _ => (),
        }
    }
}

// Seconds, with three digits behind the point, as the tool cuts them.
fn seconds(frames: usize, rate: usize) -> String {
    format!("{}.{:03}", frames / rate, frames % rate * 1000 / rate)
}

fn map(stretches: &[(usize, usize)], rate: usize) -> String {
    let mut text = "first_frame\tframes\tstart_seconds\tlength_seconds\n".to_string();
    for &(first, frames) in stretches {
        text += &format!("{first}\t{frames}\t{}\t{}\n", seconds(first, rate), seconds(frames, rate));
    }
    text
}

// The writes that stalled, the first frame held before the first of them and before the last one, if that stalled; and whether the run
// stopped there.
#[derive(Default)]
struct Stalls {
    count: usize,
    first: Option<usize>,
    open: Option<usize>,
    stopped: bool,
}

// Writes whole frames as the tool does.
fn write_all(
    stream: &mut SonicStream,
    stretch: &mut Stretch,
    passes: &mut Passes,
    (channels, limit): (usize, usize),
    samples: &[f32],
    out: &mut Vec<u8>,
) -> Stalls {
    let (mut written, full, mut stalls) = (0, full(stream), Stalls::default());
    for block in samples.chunks(BLOCK / channels * channels) {
        let mut at = 0;
        while at < block.len() && !stalls.stopped {
            let held = stream.input_frames();
            let before = stream.output_frames() + stream.pitch_frames();
            let frames = if held < full { full - held } else { 1 };
            let end = block.len().min(at + frames * channels);
            stream.write_f32(&block[at..end]);
            let passed = stretch.write(&block[at..end]);
            if passed > 0 {
                assert_eq!(before, stream.output_frames() + stream.pitch_frames(), "a write that passes over a period makes no frame");
                assert!(passed <= stream.max_period as usize, "a write passes over one period");
                passes.periods += 1;
                passes.note(written - held, passed);
            }
            stalls.open = stalled(stream).then(|| written - held);
            stalls.count += usize::from(stalls.open.is_some());
            stalls.first = stalls.first.or(stalls.open);
            stalls.stopped = stalls.open.is_some() && stream.input_frames() + 1 + 2 * stream.max_required > limit;
            written += (end - at) / channels;
            at = end;
        }
        take(stream, out);
    }
    stalls
}

fn told(frame: Option<usize>) -> String {
    frame.map_or("none".to_string(), |f| f.to_string())
}

fn main() {
    let mut words: Vec<String> = std::env::args().skip(1).collect();
    let map_file = (words.first().map(String::as_str) == Some("--map")).then(|| words.drain(..2).nth(1).unwrap());
    let words: Vec<&str> = if words.is_empty() { vec!["8000", "1", "20", "0.5"] } else { words.iter().map(String::as_str).collect() };
    let (rate, channels): (usize, usize) = (words[0].parse().unwrap(), words[1].parse().unwrap());
    let mut bytes = Vec::new();
    std::io::stdin().read_to_end(&mut bytes).unwrap();
    let mut samples: Vec<f32> = bytes.chunks_exact(2).map(|b| f32::from(i16::from_le_bytes([b[0], b[1]])) / 32767.0).collect();
    let frames = samples.len() / channels;
    samples.truncate(frames * channels);

    let (mut stream, mut out, mut at_flush) = (open(&words), Vec::new(), None);
    let mut stretch = Stretch { stream: open(&words), skipped: 0, inserted: 0 };
    let mut passes = Passes { periods: 0, stretches: Vec::new() };
    let most = limit(&stream, rate, channels);
    let mut stalls = write_all(&mut stream, &mut stretch, &mut passes, (channels, most), &samples, &mut out);
    let mut gave = false;
    if !stalls.stopped && frames > 0 {
        let (held, before) = (stream.input_frames(), out.len());
        let cut = stretch.flush(channels, frames);
        stream.flush();
        take(&mut stream, &mut out);
        gave = out.len() > before;
        match (stalls.open, cut) {
            (Some(_), Some(_)) => (),
            (Some(_), None) => stalls.open = None,
            (None, _) => at_flush = cut,
        }
        if !gave && stalls.open.is_none() {
            passes.note(frames - held, held);
        }
    }
    std::io::stdout().write_all(&out).unwrap();
    let (passed, passed_frames) = (passes.periods, passes.stretches.iter().map(|(_, n)| n).sum::<usize>());
    passes.stretches.extend(stalls.open.filter(|_| !gave).map(|first| (first, frames - first)));
    if let Some(file) = map_file {
        std::fs::write(file, map(&passes.stretches, rate)).unwrap();
    }
    let (frames_out, count) = (out.len() / 2 / channels, stalls.count);
    let (at_write, at_flush, Stretch { skipped, inserted, .. }) = (told(stalls.first), told(at_flush), stretch);
    eprint!("skim: frames_in={frames} frames_out={frames_out} stalls={count} stalled_at={at_write} flush_stalled_at={at_flush}");
    eprintln!(" refusal=0 skipped={skipped} inserted={inserted} passed={passed} passed_frames={passed_frames}");
}
