//! What to ask a tree: keys that are there or near, and start places and lengths for a list.

use crate::inputs::Random;
use crate::model::reading::Tables;
use crate::model::{level, DEEPEST};

/// A descendant of a cell, at a level that is at least its own.
pub fn below(key: u64, at: u32, random: &mut Random) -> u64 {
    let deeper = 3 * (at - level(key));
    key << deeper | random.bits() & ((1 << deeper) - 1)
}

/// A number that asks for something in the tree, or beside it.
pub fn asked(tables: &Tables, random: &mut Random) -> u64 {
    let keys = &tables.keys;
    let key = if keys.is_empty() { random.number() } else { keys[random.below(keys.len() as u64) as usize] };
    match random.below(8) {
        0 | 1 => key,
        2 => below(key, (level(key) + 1 + random.below(3) as u32).min(DEEPEST), random),
        3 | 4 => below(key, level(key) + random.below((DEEPEST - level(key) + 1) as u64) as u32, random),
        5 => key.wrapping_add(random.below(9)).wrapping_sub(4),
        6 => random.cell(),
        _ => random.number(),
    }
}

/// Start places so great that a sum with the number of vertices runs over, or nearly.
pub fn great_starts(count: usize) -> [usize; 7] {
    let to_zero = usize::MAX - count.max(1) + 1;
    [usize::MAX, usize::MAX - 1, to_zero, to_zero - 1, 1 << 63, 1 << 32, 1 << 16]
}

/// Lengths around a start place and around the end of the list.
pub fn lengths(start: usize, count: usize) -> Vec<usize> {
    let mut lengths = vec![0, 1, start, start + 1, start + count / 2, start + count, start + count + 1, start + count + 9];
    lengths.extend([start, start + count].iter().filter_map(|edge| edge.checked_sub(1)));
    lengths.sort_unstable();
    lengths.dedup();
    lengths
}
