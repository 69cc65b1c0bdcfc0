//! Inputs for the comparisons, fixed and random: the same on every machine and in every run.

use crate::model;

/// The generator splitmix64.
pub struct Random(u64);

impl Random {
    pub fn new(seed: u64) -> Self {
        Random(seed)
    }

    /// Numbers of their own for each key, without a pattern from one to the next.
    pub fn of(seed: u64, key: u64) -> Self {
        Random(Random(seed ^ key.rotate_left(32)).bits())
    }

    /// One of a list.
    pub fn one_of<T: Copy>(&mut self, list: &[T]) -> T {
        list[self.below(list.len() as u64) as usize]
    }

    pub fn bits(&mut self) -> u64 {
        self.0 = self.0.wrapping_add(0x9e37_79b9_7f4a_7c15);
        let mut z = self.0;
        z = (z ^ (z >> 30)).wrapping_mul(0xbf58_476d_1ce4_e5b9);
        z = (z ^ (z >> 27)).wrapping_mul(0x94d0_49bb_1331_11eb);
        z ^ (z >> 31)
    }

    /// A number below the bound. (Slightly uneven, which no test here minds.)
    pub fn below(&mut self, bound: u64) -> u64 {
        ((self.bits() as u128 * bound as u128) >> 64) as u64
    }

    /// A cell key of any level, each level as often as the others.
    pub fn cell(&mut self) -> u64 {
        let level = self.below(22) as u32;
        self.cell_of(level)
    }

    pub fn cell_of(&mut self, level: u32) -> u64 {
        first_cell(level) + self.below(first_cell(level))
    }

    /// An inner vertex at a level from 1 to 20.
    pub fn vertex_of(&mut self, level: u32) -> u64 {
        let mut key = first_cell(level);
        for axis in 0..3 {
            let coordinate = 1 + self.below((1 << level) - 1);
            for i in 0..level {
                key |= (coordinate >> i & 1) << (3 * i + axis);
            }
        }
        key << (63 - 3 * level)
    }

    /// Any number, of the kinds where something can go wrong.
    pub fn number(&mut self) -> u64 {
        match self.below(8) {
            0 => self.bits(),
            1 => self.bits() >> self.below(64),
            2 => self.near(first_cell),
            3 => self.near(last_cell),
            4 => {
                let level = 1 + self.below(20) as u32;
                self.vertex_of(level)
            }
            _ => self.cell(),
        }
    }

    /// A little above or below the first or last cell of any level.
    fn near(&mut self, cell: fn(u32) -> u64) -> u64 {
        cell(self.below(22) as u32).wrapping_add(self.below(9)).wrapping_sub(4)
    }

    /// A level: mostly the one that is expected, else any.
    pub fn level(&mut self, expected: u32) -> u32 {
        match self.below(8) {
            0 => self.below(24) as u32,
            1 => expected.wrapping_add(1).wrapping_sub(self.below(3) as u32),
            2 => self.bits() as u32,
            _ => expected,
        }
    }

    /// A child, corner or side: mostly 0 to 7, else any.
    pub fn which(&mut self) -> u32 {
        match self.below(16) {
            0 => 8 + self.below(16) as u32,
            1 => self.bits() as u32,
            _ => self.below(8) as u32,
        }
    }

    /// A number and a level at which it is, or nearly is, an inner vertex.
    pub fn vertex_and_level(&mut self) -> (u64, u32) {
        let level = 1 + self.below(20) as u32;
        let vertex = match self.below(8) {
            0 => self.number(),
            1 | 2 => self.vertex_of(level) ^ 1 << self.below(64),
            // On a face of the cube: one coordinate is 0.
            3 => self.vertex_of(level) & !((0x1249_2492_4924_9249 << self.below(3)) & !(1 << 63)),
            _ => self.vertex_of(level),
        };
        (vertex, self.level(level))
    }

    /// A distance: any bits, or near where a cell of the level stops to be split.
    pub fn distance(&mut self, level: u32) -> f32 {
        let sign = (self.bits() as u32) << 31;
        let bits = match self.below(8) {
            0 | 1 => self.bits() as u32,
            2 => self.below(0x0080_0000) as u32,
            3 => 0x7f7f_fffc + self.below(8) as u32,
            _ => {
                let near = split_edge(level.min(model::DEEPEST) as i32 + self.below(3) as i32 - 1);
                near.to_bits() + self.below(7) as u32 - 3
            }
        };
        f32::from_bits(bits ^ sign)
    }

    /// A distance that no build takes: an infinity or a NaN of any bits, either sign.
    pub fn broken_distance(&mut self) -> f32 {
        let bits = match self.below(2) {
            0 => self.one_of(&BROKEN_DISTANCES),
            _ => self.bits() as u32 | EXPONENT,
        };
        f32::from_bits(bits)
    }

    /// The bits of any finite distance.
    pub fn finite_bits(&mut self) -> u32 {
        let bits = self.bits() as u32;
        // The exponent loses its last bit.
        bits ^ if bits & EXPONENT == EXPONENT { 1 << 23 } else { 0 }
    }

    /// From 0 up to less than 1.
    pub fn fraction(&mut self) -> f32 {
        self.below(1 << 24) as f32 / (1 << 24) as f32
    }

    /// A point of the cube.
    pub fn point(&mut self) -> [f32; 3] {
        [self.fraction(), self.fraction(), self.fraction()]
    }

    /// The float with either sign.
    pub fn signed(&mut self, x: f32) -> f32 {
        f32::from_bits(x.to_bits() ^ (self.bits() as u32) << 31)
    }

    /// A depth bound: mostly near the level, else any.
    pub fn bound(&mut self, level: u32) -> u32 {
        match self.below(4) {
            0 => self.below(24) as u32,
            1 => self.bits() as u32,
            _ => level.wrapping_add(1).wrapping_sub(self.below(3) as u32).wrapping_add(1),
        }
    }
}

/// The bits of an f32's exponent, which are all ones in an infinity and in a NaN.
const EXPONENT: u32 = 0x7f80_0000;

/// The bits of distances that no build takes: infinities, then quiet and signalling NaNs with the least and the most bits, each with both
/// signs.
pub const BROKEN_DISTANCES: [u32; 10] = [
    0x7f80_0000,
    0xff80_0000,
    0x7fc0_0000,
    0xffc0_0000,
    0x7f80_0001,
    0xff80_0001,
    0x7fbf_ffff,
    0xffbf_ffff,
    0x7fff_ffff,
    0xffff_ffff,
];

/// The finite distances next to the infinities.
pub const GREATEST_DISTANCES: [f32; 2] = [f32::MAX, f32::MIN];

/// The greatest distance at which a cell of the level is split: 14529495 / 2^(24 + L).
pub fn split_edge(level: i32) -> f32 {
    let exponent = (127 - 1 - level) as u32;
    f32::from_bits(exponent << 23 | (14529495 - (1 << 23)))
}

/// The split edge of the level, and the f32s just below and above it.
pub fn around_split_edge(level: i32) -> [f32; 3] {
    let bits = split_edge(level).to_bits();
    [bits - 1, bits, bits + 1].map(f32::from_bits)
}

/// Numbers at which something changes: every power of 2 (and so of 8) with both neighbours, and 0.
pub fn powers() -> Vec<u64> {
    let mut numbers: Vec<u64> = (0..64).flat_map(|i| [(1u64 << i) - 1, 1 << i, (1 << i) + 1]).collect();
    numbers.push(u64::MAX);
    numbers.sort_unstable();
    numbers.dedup();
    numbers
}

/// Distances at which something changes, for a cell of the level: the edge and its neighbours, zeros, the smallest and the
/// greatest numbers, infinities and NaN, each with both signs.
pub fn distances(level: u32) -> Vec<f32> {
    let mut bits =
        vec![0, 1, 2, 0x007f_ffff, 0x0080_0000, 0x3f80_0000, 0x7f7f_ffff, 0x7f80_0000, 0x7f80_0001, 0x7fc0_0000, 0x7fff_ffff];
    for near in -1..=1 {
        bits.extend(around_split_edge(level.min(model::DEEPEST) as i32 + near).map(f32::to_bits));
    }
    bits.iter().flat_map(|&b| [b, b | 1 << 31]).map(f32::from_bits).collect()
}

/// The least cell key of a level: 8^L.
pub fn first_cell(level: u32) -> u64 {
    1 << (3 * level)
}

/// The greatest cell key of a level: 2 x 8^L - 1.
pub fn last_cell(level: u32) -> u64 {
    first_cell(level) - 1 + first_cell(level)
}

#[cfg(test)]
mod tests {
    use super::*;

    #[test]
    fn the_cells_and_vertices_are_what_they_should_be() {
        let mut random = Random::new(1);
        for _ in 0..100_000 {
            assert!(model::is_cell(random.cell()));
            let level = 1 + random.below(20) as u32;
            assert!(model::is_inner(random.vertex_of(level), level));
        }
        for level in 0..=model::DEEPEST {
            assert_eq!(model::level(first_cell(level)), level);
            assert_eq!(model::level(last_cell(level)), level);
            assert!(model::is_cell(last_cell(level)) && !model::is_cell(last_cell(level).wrapping_add(1)));
        }
    }

    /// By the language's own test too, which the model doesn't use.
    #[test]
    fn distances_are_finite_or_broken_as_they_should_be() {
        let (mut random, mut seen) = (Random::new(2), [0; 4]);
        let is_finite = |distance: f32| {
            assert_eq!(model::is_finite(distance), distance.is_finite(), "{:#x}", distance.to_bits());
            distance.is_finite()
        };
        for bits in BROKEN_DISTANCES {
            assert!(!is_finite(f32::from_bits(bits)));
        }
        for _ in 0..100_000 {
            let broken = random.broken_distance();
            assert!(!is_finite(broken) && is_finite(f32::from_bits(random.finite_bits())));
            seen[broken.is_nan() as usize + 2 * broken.is_sign_negative() as usize] += 1;
        }
        for greatest in GREATEST_DISTANCES {
            assert!(is_finite(greatest) && !is_finite(f32::from_bits(greatest.to_bits() + 1)));
        }
        assert!(seen.iter().all(|&seen| seen > 1000), "{seen:?}");
    }
}
