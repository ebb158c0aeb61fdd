//! Volume: docs/RULES.md, "Volume".

use super::Work;

/// The rules of the volume.
pub trait Volume {
    /// The gain g in 256ths.
    fn gain(&self, volume: f32) -> i32 {
        (volume * 256.0) as i32
    }

    /// Whether a volume leaves the samples as they are.
    fn leaves_samples(&self, volume: f32) -> bool {
        volume == 1.0
    }

    /// A sample at a gain: sample·g shifted right by 8, held to ±32767.
    fn scaled(&self, sample: i16, gain: i32) -> i16 {
        ((i32::from(sample) * gain) >> 8).max(-32767).min(32767) as i16
    }

    /// Samples at a volume.
    fn scale(&self, samples: &mut [i16], volume: f32) {
        if !self.leaves_samples(volume) {
            let gain = self.gain(volume);
            samples.iter_mut().for_each(|sample| *sample = self.scaled(*sample, gain));
        }
    }

    /// The rate conversion, then the volume of what this call made.
    fn convert_and_scale(&self, work: &mut Work, convert: &dyn Fn(&mut Work) -> Result<(), u32>) -> Result<(), u32> {
        convert(work)?;
        self.scale(&mut work.made, work.stream.volume);
        Ok(())
    }
}
