//! The areas as they are lent to a call: kept parts in front, leftovers in the free parts, and guards on both sides that no call may
//! touch.

use crate::interface::Areas;
use crate::run::{Kept, Lengths};
use crate::signals::Congruential;

/// Samples of a guard.
const GUARD: usize = 16;
/// The sample that guards are made of.
const MARK: i16 = 0x5a5a;
/// So many free samples of an area differ from each other; behind them one sample repeats.
const LEFTOVERS: usize = 128;

/// One area between its guards.
pub struct Area(Vec<i16>);

impl Area {
    /// An empty area.
    fn new() -> Area {
        Area(vec![MARK; 2 * GUARD])
    }

    /// The area's samples.
    pub fn samples(&self) -> &[i16] {
        &self.0[GUARD..self.0.len() - GUARD]
    }

    /// The samples kept, and the free ones behind them that differ from each other.
    pub fn front(&self, kept: usize) -> &[i16] {
        &self.samples()[..self.samples().len().min(kept + LEFTOVERS)]
    }

    /// The area's samples, to be lent.
    pub fn lent(&mut self) -> &mut [i16] {
        let end = self.0.len() - GUARD;
        &mut self.0[GUARD..end]
    }

    /// Makes the area anew: the kept samples as far as it reaches, leftovers behind them.
    fn make(&mut self, kept: &[i16], length: usize, leftovers: &mut Congruential) {
        let reach = kept.len().min(length);
        self.0.resize(length + 2 * GUARD, MARK);
        self.0[GUARD + length..].fill(MARK);
        let area = self.lent();
        area[..reach].copy_from_slice(&kept[..reach]);
        let (near, far) = area[reach..].split_at_mut(LEFTOVERS.min(length - reach));
        near.iter_mut().for_each(|place| *place = (leftovers.next() >> 16) as i16);
        far.fill((leftovers.next() >> 16) as i16);
    }

    /// Whether both guards stand.
    fn guarded(&self) -> bool {
        let marked = |part: &[i16]| part.iter().all(|&sample| sample == MARK);
        marked(&self.0[..GUARD]) && marked(&self.0[self.0.len() - GUARD..])
    }
}

/// The four areas.
pub struct Lent {
    pub input: Area,
    pub stage: Area,
    pub output: Area,
    pub scratch: Area,
}

impl Lent {
    /// Empty areas.
    pub fn new() -> Lent {
        Lent { input: Area::new(), stage: Area::new(), output: Area::new(), scratch: Area::new() }
    }

    /// Makes all four.
    pub fn make(&mut self, kept: &Kept, lengths: &Lengths, leftovers: &mut Congruential) {
        self.input.make(&kept.input, lengths.input, leftovers);
        self.stage.make(&kept.tail, lengths.stage, leftovers);
        self.output.make(&kept.output, lengths.output, leftovers);
        self.scratch.make(&[], lengths.scratch, leftovers);
    }

    /// Makes the output alone.
    pub fn make_output(&mut self, kept: &Kept, length: usize, leftovers: &mut Congruential) {
        self.output.make(&kept.output, length, leftovers);
    }

    /// The areas for a call.
    pub fn areas(&mut self) -> Areas<'_> {
        Areas { input: self.input.lent(), stage: self.stage.lent(), output: self.output.lent(), scratch: self.scratch.lent() }
    }

    /// Says which area was written past, if any.
    pub fn check_guards(&self) -> Result<(), String> {
        let all = [("input", &self.input), ("stage", &self.stage), ("output", &self.output), ("scratch", &self.scratch)];
        let broken = all.iter().find(|(_, area)| !area.guarded());
        broken.map_or(Ok(()), |(name, _)| Err(format!("written past the {name}")))
    }
}

/// The areas of the subject and those of the judge, made once and lent in run after run.
pub struct Buffers {
    pub lent: Lent,
    pub judged: Lent,
}

impl Buffers {
    /// Empty areas.
    pub fn new() -> Buffers {
        Buffers { lent: Lent::new(), judged: Lent::new() }
    }
}

/// The floats that a read's slice is made of: those lent, and a guard behind them.
pub fn slice_with_guard(length: usize, leftovers: &mut Congruential) -> Vec<f32> {
    (0..length + GUARD).map(|_| f32::from_bits(leftovers.next())).collect()
}
