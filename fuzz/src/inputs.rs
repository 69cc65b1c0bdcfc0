//! What calls are fed with: numbers, levels and tables where something can go wrong, and those beside them.

use oracle_answers::inputs::Random;

/// Any number, of the kinds where something can go wrong, and those beside them.
pub fn number(random: &mut Random) -> u64 {
    let number = random.number();
    match random.below(10) {
        0 => number ^ 1 << random.below(64),
        1 => number.wrapping_add(random.below(17)).wrapping_sub(8),
        2 => random.below(600),
        3 => random.bits(),
        4 => random.one_of(&[0, 1, 7, 8, 15, 16, 1 << 63, u64::MAX]),
        _ => number,
    }
}

/// A level, bound or exponent: what is given, or in one of five cases any number at which something may change.
pub fn or_edge(given: u32, random: &mut Random) -> u32 {
    const EDGES: [u32; 20] = [0, 1, 2, 14, 15, 16, 17, 19, 20, 21, 22, 31, 32, 33, 63, 64, 256, 1 << 16, 1 << 31, u32::MAX];
    match random.below(10) {
        0 => random.one_of(&EDGES),
        1 => random.bits() as u32,
        _ => given,
    }
}

/// A number and a level at which it may be an inner vertex.
pub fn vertex_and_level(random: &mut Random) -> (u64, u32) {
    let (vertex, level) = random.vertex_and_level();
    (if random.below(16) == 0 { number(random) } else { vertex }, or_edge(level, random))
}

/// Changes a table: a place, two places, or its length.
pub fn disturb<T: Copy>(table: &mut Vec<T>, value: T, random: &mut Random) {
    let length = table.len() as u64;
    match random.below(4) {
        0 if length > 0 => table[random.below(length) as usize] = value,
        1 if length > 0 => table.swap(random.below(length) as usize, random.below(length) as usize),
        2 => table.truncate(random.below(length + 1) as usize),
        _ => table.resize(table.len() + 1 + random.below(70) as usize, value),
    }
}
