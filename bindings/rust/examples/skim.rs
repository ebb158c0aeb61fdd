//! Makes a skim track: 16-bit little-endian samples from standard input to standard output.
//!
//!     skim RATE CHANNELS [SPEED PITCH] < recording > track
//!
//! Speed 20 and pitch 0.5 unless given. Pitch periods that give no frame are passed over, and standard error says how many. If a
//! write is not taken, the track ends there, standard error says before which second of the recording, and the exit status is 1.

use kelpladder::{Outcome, SonicStream};
use std::error::Error;
use std::io::{self, Read, Write};
use std::process::ExitCode;

/// The frames of a write.
const FRAMES: usize = 4_096;

/// The numbers of the command line.
struct Settings {
    rate: u32,
    channels: u32,
    speed: f32,
    pitch: f32,
}

fn settings(words: &[String]) -> Result<Settings, Box<dyn Error>> {
    let (rate, channels, speed, pitch) = match words {
        [rate, channels] => (rate, channels, "20", "0.5"),
        [rate, channels, speed, pitch] => (rate, channels, speed.as_str(), pitch.as_str()),
        _ => return Err("give RATE CHANNELS [SPEED PITCH]".into()),
    };
    Ok(Settings { rate: rate.parse()?, channels: channels.parse()?, speed: speed.parse()?, pitch: pitch.parse()? })
}

/// The next bytes, as many as asked for unless the input ends.
fn read_bytes(source: &mut impl Read, count: usize) -> io::Result<Vec<u8>> {
    let mut bytes = Vec::with_capacity(count);
    source.take(count as u64).read_to_end(&mut bytes)?;
    Ok(bytes)
}

fn to_samples(bytes: &[u8]) -> Vec<f32> {
    bytes.chunks_exact(2).map(|pair| f32::from(i16::from_le_bytes([pair[0], pair[1]])) / 32_767.0).collect()
}

/// Writes all frames that wait.
fn pass_on(stream: &mut SonicStream, track: &mut impl Write) -> io::Result<()> {
    let samples = stream.read_f32(usize::MAX);
    let bytes: Vec<u8> = samples.iter().flat_map(|x| ((x * 32_767.0).round() as i16).to_le_bytes()).collect();
    track.write_all(&bytes)
}

/// What became of a recording: the periods passed over before the flush, and the frame before which the track ended, if that is not the
/// recording's end.
struct Skimmed {
    passed: usize,
    ended: Option<usize>,
}

fn skim(settings: &Settings, recording: &mut impl Read, track: &mut impl Write) -> Result<Skimmed, Box<dyn Error>> {
    let mut stream = SonicStream::new(settings.rate, settings.channels)?;
    stream.set_speed(settings.speed);
    stream.set_pitch(settings.pitch);
    stream.set_step_over(true);
    let frame_bytes = 2 * settings.channels as usize;
    let (mut frames, mut passed) = (0, 0);
    loop {
        let bytes = read_bytes(recording, FRAMES * frame_bytes)?;
        frames += bytes.len() / frame_bytes;
        let told = stream.write_f32(&to_samples(&bytes));
        passed += told.passed;
        pass_on(&mut stream, track)?;
        if told.outcome == Outcome::Full {
            return Ok(Skimmed { passed, ended: Some(frames) });
        }
        if bytes.len() < FRAMES * frame_bytes {
            break;
        }
    }
    // A flush can pass over periods of its own silence, so what it tells is not counted.
    stream.flush();
    pass_on(&mut stream, track)?;
    Ok(Skimmed { passed, ended: None })
}

fn run() -> Result<ExitCode, Box<dyn Error>> {
    let words: Vec<String> = std::env::args().skip(1).collect();
    let settings = settings(&words)?;
    let skimmed = skim(&settings, &mut io::stdin().lock(), &mut io::stdout().lock())?;
    eprintln!("skim: {} pitch periods passed over, the flush apart", skimmed.passed);
    if let Some(frames) = skimmed.ended {
        eprintln!("skim: ended before second {:.1}; what follows is not in the track", frames as f64 / f64::from(settings.rate));
        return Ok(ExitCode::FAILURE);
    }
    Ok(ExitCode::SUCCESS)
}

fn main() -> ExitCode {
    run().unwrap_or_else(|error| {
        eprintln!("skim: {error}");
        ExitCode::from(2)
    })
}
