//! The calls of include/kelpladder.h. The functions below them take slices, so that a pointer always comes with its own length. The
//! repository's tests and benchmarks use this file too, so nothing in it depends on the rest of the crate.

/// The totals of a stream over all its accepted writes and flushes that did not stall. Over these calls, frames out of the stretch or
/// copy, before the rate conversion, plus skipped equals frames used plus inserted; frames that a flush clears are not used.
#[repr(C)]
#[derive(Debug, Default, Clone, Copy, PartialEq, Eq, Hash)]
pub struct Balance {
    /// Frames of the periods that were skipped, those passed over among them.
    pub skipped: u64,
    /// Frames of the periods that were inserted.
    pub inserted: u64,
}

/// The stream's value, field by field as in the header. Its samples are in the areas.
#[repr(C)]
#[derive(Debug, Default, Clone, Copy)]
pub struct Stream {
    pub rate: u32,
    pub channels: u32,
    pub speed: f32,
    pub pitch: f32,
    pub volume: f32,
    pub sample_period: f32,
    pub input_play_time: f32,
    pub time_error: f32,
    pub old_rate_position: usize,
    pub new_rate_position: usize,
    pub prev_period: usize,
    pub prev_min_diff: usize,
    pub held: usize,
    pub tail: usize,
    pub waiting: usize,
    pub balance: Balance,
    pub step_over: u32,
    pub ties: u32,
}

/// An opening.
#[repr(C)]
#[derive(Debug, Clone, Copy)]
pub struct Opened {
    pub refusal: u32,
    pub given: u32,
    pub stream: Stream,
}

/// A setting.
#[repr(C)]
#[derive(Debug, Clone, Copy)]
pub struct Changed {
    pub refusal: u32,
    pub stream: Stream,
}

/// The frames waiting.
#[repr(C)]
#[derive(Debug, Clone, Copy)]
pub struct Available {
    pub refusal: u32,
    pub frames: usize,
    pub stream: Stream,
}

/// What is told of an accepted write or flush; every field is 0 if refused.
#[repr(C)]
#[derive(Debug, Default, Clone, Copy)]
pub struct Told {
    pub outcome: u32,
    pub passed: usize,
    pub sum: usize,
}

/// A write or a flush.
#[repr(C)]
#[derive(Debug, Clone, Copy)]
pub struct Wrote {
    pub refusal: u32,
    pub told: Told,
    pub stream: Stream,
}

/// A read: the frames given.
#[repr(C)]
#[derive(Debug, Clone, Copy)]
pub struct Gave {
    pub refusal: u32,
    pub frames: usize,
    pub stream: Stream,
}

/// What reading a WAVE file answers; every field but the first is 0 if refused.
#[repr(C)]
#[derive(Debug, Default, Clone, Copy, PartialEq, Eq)]
pub struct Wave {
    pub refusal: u32,
    pub rate: u32,
    pub channels: u32,
    pub frames: usize,
    pub begin: usize,
}

/// What writing a WAVE file answers.
#[repr(C)]
#[derive(Debug, Default, Clone, Copy, PartialEq, Eq)]
pub struct WaveWritten {
    pub refusal: u32,
    pub given: u32,
    pub bytes: usize,
}

/// The four areas lent to a write or a flush.
pub struct Areas<'a> {
    pub input: &'a mut [i16],
    pub stage: &'a mut [i16],
    pub output: &'a mut [i16],
    pub scratch: &'a mut [i16],
}

extern "C" {
    fn kelpladder_open(rate: u32, channels: u32) -> Opened;
    fn kelpladder_open_with_ties(rate: u32, channels: u32, ties: u32) -> Opened;
    fn kelpladder_set_speed(stream: Stream, speed: f32) -> Changed;
    fn kelpladder_set_pitch(stream: Stream, pitch: f32) -> Changed;
    fn kelpladder_set_volume(stream: Stream, volume: f32) -> Changed;
    fn kelpladder_set_step_over(stream: Stream, on: u32) -> Changed;
    fn kelpladder_available_frames(stream: Stream) -> Available;
    fn kelpladder_write_f32(
        stream: Stream,
        samples: *const f32,
        samples_length: usize,
        input: *mut i16,
        input_length: usize,
        stage: *mut i16,
        stage_length: usize,
        output: *mut i16,
        output_length: usize,
        scratch: *mut i16,
        scratch_length: usize,
    ) -> Wrote;
    fn kelpladder_read_f32(
        stream: Stream,
        most_frames: usize,
        slice: *mut f32,
        slice_length: usize,
        output: *mut i16,
        output_length: usize,
    ) -> Gave;
    fn kelpladder_flush(
        stream: Stream,
        input: *mut i16,
        input_length: usize,
        stage: *mut i16,
        stage_length: usize,
        output: *mut i16,
        output_length: usize,
        scratch: *mut i16,
        scratch_length: usize,
    ) -> Wrote;
    fn kelpladder_wave_read(bytes: *const u8, bytes_length: usize) -> Wave;
    fn kelpladder_wave_write(
        dest: *mut u8,
        dest_length: usize,
        rate: u32,
        channels: u32,
        samples: *const i16,
        samples_length: usize,
    ) -> WaveWritten;
}

// The calls take any value of a stream and any lengths: a bad one is refused. They read and write within the lengths given, and keep no
// pointer. That is all that the blocks below rely on, beside the layout of the structs.

pub fn open(rate: u32, channels: u32) -> Opened {
    unsafe { kelpladder_open(rate, channels) }
}

/// Opens with the period that searches find of several with the same mean: 0 the smallest, any other number the largest.
pub fn open_with_ties(rate: u32, channels: u32, ties: u32) -> Opened {
    unsafe { kelpladder_open_with_ties(rate, channels, ties) }
}

pub fn set_speed(stream: Stream, speed: f32) -> Changed {
    unsafe { kelpladder_set_speed(stream, speed) }
}

pub fn set_pitch(stream: Stream, pitch: f32) -> Changed {
    unsafe { kelpladder_set_pitch(stream, pitch) }
}

pub fn set_volume(stream: Stream, volume: f32) -> Changed {
    unsafe { kelpladder_set_volume(stream, volume) }
}

/// Sets stepping over: 0 off, any other number on.
pub fn set_step_over(stream: Stream, on: u32) -> Changed {
    unsafe { kelpladder_set_step_over(stream, on) }
}

/// Counts the frames waiting.
pub fn available_frames(stream: Stream) -> Available {
    unsafe { kelpladder_available_frames(stream) }
}

pub fn write_f32(stream: Stream, samples: &[f32], areas: Areas<'_>) -> Wrote {
    let Areas { input, stage, output, scratch } = areas;
    unsafe {
        kelpladder_write_f32(
            stream,
            samples.as_ptr(),
            samples.len(),
            input.as_mut_ptr(),
            input.len(),
            stage.as_mut_ptr(),
            stage.len(),
            output.as_mut_ptr(),
            output.len(),
            scratch.as_mut_ptr(),
            scratch.len(),
        )
    }
}

/// Reads frames to the front of the slice.
pub fn read_f32(stream: Stream, most_frames: usize, slice: &mut [f32], output: &mut [i16]) -> Gave {
    unsafe { kelpladder_read_f32(stream, most_frames, slice.as_mut_ptr(), slice.len(), output.as_mut_ptr(), output.len()) }
}

pub fn flush(stream: Stream, areas: Areas<'_>) -> Wrote {
    let Areas { input, stage, output, scratch } = areas;
    unsafe {
        kelpladder_flush(
            stream,
            input.as_mut_ptr(),
            input.len(),
            stage.as_mut_ptr(),
            stage.len(),
            output.as_mut_ptr(),
            output.len(),
            scratch.as_mut_ptr(),
            scratch.len(),
        )
    }
}

/// Reads the head of a WAVE file.
pub fn wave_read(bytes: &[u8]) -> Wave {
    unsafe { kelpladder_wave_read(bytes.as_ptr(), bytes.len()) }
}

/// Writes a WAVE file to the front of the destination.
pub fn wave_write(dest: &mut [u8], rate: u32, channels: u32, samples: &[i16]) -> WaveWritten {
    unsafe { kelpladder_wave_write(dest.as_mut_ptr(), dest.len(), rate, channels, samples.as_ptr(), samples.len()) }
}
