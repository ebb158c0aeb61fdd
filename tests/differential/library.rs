//! The library through its C interface. Built only with `--cfg library`, and linked with `libsonic_c.a`.

use crate::interface::{calls, Areas, Available, Changed, Gave, Opened, Setting, Stream, Subject, Wrote};

/// The linked library.
pub struct Library;

impl Subject for Library {
    fn open(&mut self, rate: u32, channels: u32, ties: Option<u32>) -> Opened {
        ties.map_or_else(|| calls::open(rate, channels), |ties| calls::open_with_ties(rate, channels, ties))
    }

    fn set(&mut self, stream: Stream, setting: Setting) -> Changed {
        match setting {
            Setting::Speed(speed) => calls::set_speed(stream, speed),
            Setting::Pitch(pitch) => calls::set_pitch(stream, pitch),
            Setting::Volume(volume) => calls::set_volume(stream, volume),
            Setting::StepOver(on) => calls::set_step_over(stream, on),
        }
    }

    fn available(&mut self, stream: Stream) -> Available {
        calls::available_frames(stream)
    }

    fn write(&mut self, stream: Stream, samples: &[f32], areas: Areas<'_>) -> Wrote {
        calls::write_f32(stream, samples, areas)
    }

    fn read(&mut self, stream: Stream, most: usize, slice: &mut [f32], output: &mut [i16]) -> Gave {
        calls::read_f32(stream, most, slice, output)
    }

    fn flush(&mut self, stream: Stream, areas: Areas<'_>) -> Wrote {
        calls::flush(stream, areas)
    }
}
