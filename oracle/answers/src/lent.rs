//! Memory that a test lends to a call, and sees what the call did with it.

use std::fmt::Debug;

/// Places before and behind each lent part, where nothing may be written.
const FENCE: usize = 8;

/// What a table holds: keys or places in the node tables, the bits of distances, places of first children, or levels.
pub trait Place: Copy + PartialEq + Debug {
    /// What stands in a fence.
    const FENCE: Self;
}

impl Place for u64 {
    const FENCE: Self = 0xfe2c_edfe_2ced_fe2c;
}

impl Place for u32 {
    const FENCE: Self = 0xfe2c_edfe;
}

impl Place for u16 {
    const FENCE: Self = 0xfe2c;
}

impl Place for u8 {
    const FENCE: Self = 0xfe;
}

/// Lent memory with a fence on both sides.
#[derive(Clone)]
pub struct Fenced<T> {
    memory: Vec<T>,
}

impl<T: Place> Fenced<T> {
    pub fn new(part: &[T]) -> Self {
        let mut memory = vec![T::FENCE; FENCE];
        memory.extend_from_slice(part);
        memory.resize(memory.len() + FENCE, T::FENCE);
        Fenced { memory }
    }

    pub fn part(&self) -> &[T] {
        &self.memory[FENCE..self.memory.len() - FENCE]
    }

    /// The part, for the call to write to.
    pub fn lend(&mut self) -> &mut [T] {
        let end = self.memory.len() - FENCE;
        &mut self.memory[FENCE..end]
    }

    /// What isn't as expected: the first place that differs, or that a fence was written to. Nothing, where all is well.
    pub fn difference(&self, expected: &[T], what: &str) -> Option<String> {
        let (before, rest) = self.memory.split_at(FENCE);
        let (part, behind) = rest.split_at(expected.len());
        if part != expected {
            let place = (0..part.len()).find(|&i| part[i] != expected[i]).expect("a place that differs");
            let (ours, model) = (part[place], expected[place]);
            return Some(format!("place {place} of the {what} is {ours:x?}, the model says {model:x?}"));
        }
        let kept = before.iter().chain(behind).all(|place| *place == T::FENCE);
        Some(format!("written beside the {what}")).filter(|_| !kept)
    }

    pub fn assert_holds(&self, expected: &[T], what: &str, call: &impl Fn() -> String) {
        if let Some(difference) = self.difference(expected, what) {
            panic!("{}: {difference}", call());
        }
    }
}

/// What a table of so many vertices holds before a call: each place something else, and nothing that a call writes.
pub fn vertices_before(length: usize) -> Vec<u64> {
    (0..length as u64).map(|place| 0x0bad_0000_0000_0000 + place).collect()
}

/// The same of levels.
pub fn levels_before(length: usize) -> Vec<u8> {
    (0..length).map(|place| 0x80 + (place % 0x70) as u8).collect()
}

/// The same of places in the node tables.
pub fn places_before(length: usize) -> Vec<u64> {
    (0..length as u64).map(|place| u64::MAX - place).collect()
}

/// The same of a report's slabs and numbers.
pub fn report_before(length: usize) -> Vec<u32> {
    (0..length as u32).map(|place| 0x0bad_0000 + place).collect()
}

/// No promise settles the bits of a NaN, which calls that trust a tree hand on: one stands for all.
pub fn one_nan(bits: u32) -> u32 {
    if f32::from_bits(bits).is_nan() {
        f32::NAN.to_bits()
    } else {
        bits
    }
}
