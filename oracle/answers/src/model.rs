//! Document 01, "Keys" and the split rule, bit by bit and with whole numbers. It is slow on purpose: no masks, no shifts by
//! level, no logarithm, so that it shares no method with the library or the published text.

pub mod build;
pub mod lifetimes;
pub mod reading;

/// No cell key has a greater level.
pub const DEEPEST: u32 = 21;

/// The axes x, y and z, and the bits of each field.
const WIDTHS: [u32; 3] = [22, 21, 21];

/// What a call that can refuse answers: the number of its refusal is the error.
pub type Answer<T> = Result<T, u32>;

fn power_of_8(level: u32) -> u128 {
    8u128.pow(level)
}

/// 0 for 0, else the largest L with 8^L at most the number.
pub fn level(number: u64) -> u32 {
    let mut level = 0;
    while power_of_8(level + 1) <= number as u128 {
        level += 1;
    }
    level
}

/// A cell key of level L (0 to 21) is a number from 8^L up to 2 x 8^L - 1.
pub fn is_cell(number: u64) -> bool {
    let first = power_of_8(level(number));
    (first..2 * first).contains(&(number as u128))
}

pub fn parent(number: u64) -> u64 {
    (number / 8).max(1)
}

/// Every third bit of a number, from that of the axis on, as many as asked.
fn every_third_bit(number: u64, axis: u32, bits: u32) -> u64 {
    (0..bits).map(|i| (number >> (3 * i + axis) & 1) << i).sum()
}

fn fields(number: u64) -> [u64; 3] {
    [0, 1, 2].map(|axis| every_third_bit(number, axis as u32, WIDTHS[axis]))
}

fn from_fields(fields: [u64; 3]) -> u64 {
    let mut number = 0;
    for axis in 0..3 {
        for i in 0..WIDTHS[axis] {
            number += (fields[axis] >> i & 1) << (3 * i + axis as u32);
        }
    }
    number
}

/// Each field by itself, x modulo 2^22, y and z modulo 2^21.
pub fn add(a: u64, b: u64) -> u64 {
    let (a, b) = (fields(a), fields(b));
    from_fields([0, 1, 2].map(|axis| (a[axis] + b[axis]) % 2u64.pow(WIDTHS[axis])))
}

pub fn sub(a: u64, b: u64) -> u64 {
    let (a, b) = (fields(a), fields(b));
    from_fields([0, 1, 2].map(|axis| {
        let modulus = 2u64.pow(WIDTHS[axis]);
        (a[axis] + modulus - b[axis]) % modulus
    }))
}

/// The coordinates of a cell key: its fields without the leading one.
fn coordinates(key: u64, level: u32) -> [u64; 3] {
    [0, 1, 2].map(|axis| every_third_bit(key, axis, level))
}

/// The cell key of a level that has these coordinates.
fn cell(level: u32, coordinates: [u64; 3]) -> u64 {
    power_of_8(level) as u64 + from_fields(coordinates)
}

fn corner_bit(corner: u32, axis: usize) -> u64 {
    [corner % 2, corner / 2 % 2, corner / 4 % 2][axis] as u64
}

pub fn child(key: u64, which: u32) -> Answer<u64> {
    if !is_cell(key) {
        Err(1)
    } else if which > 7 {
        Err(2)
    } else if level(key) == DEEPEST {
        Err(3)
    } else {
        Ok(8 * key + which as u64)
    }
}

/// A fraction of whole numbers, which an f32 holds exactly wherever this is called.
fn exact(above: u64, below: u64) -> f32 {
    let quotient = above as f64 / below as f64;
    assert_eq!(quotient * below as f64, above as f64);
    assert_eq!(quotient as f32 as f64, quotient);
    quotient as f32
}

pub fn half_size(key: u64) -> Answer<f32> {
    if !is_cell(key) {
        return Err(1);
    }
    Ok(exact(1, 2u64.pow(level(key) + 1)))
}

pub fn centre(key: u64) -> Answer<[f32; 3]> {
    if !is_cell(key) {
        return Err(1);
    }
    let level = level(key);
    Ok(coordinates(key, level).map(|c| exact(2 * c + 1, 2u64.pow(level + 1))))
}

/// Each coordinate lies from 1 to 2^L - 1.
fn is_inside(level: u32, coordinates: [u64; 3]) -> bool {
    coordinates.iter().all(|c| (1..2u64.pow(level)).contains(c))
}

/// The vertex, or 0 for none.
pub fn vertex(key: u64, given_level: u32, corner: u32) -> Answer<u64> {
    if !is_cell(key) {
        return Err(1);
    }
    if corner > 7 {
        return Err(2);
    }
    if given_level != level(key) {
        return Err(3);
    }
    if given_level == DEEPEST {
        return Ok(0);
    }
    let mut at = coordinates(key, given_level);
    for (axis, c) in at.iter_mut().enumerate() {
        *c += corner_bit(corner, axis);
    }
    if !is_inside(given_level, at) {
        return Ok(0);
    }
    Ok(cell(given_level, at) * power_of_8(DEEPEST - given_level) as u64)
}

pub fn is_inner(vertex: u64, level: u32) -> bool {
    if !(1..=20).contains(&level) {
        return false;
    }
    let scale = power_of_8(DEEPEST - level) as u64;
    vertex >= 1 << 63 && vertex % scale == 0 && is_inside(level, coordinates(vertex / scale, level))
}

pub fn side(vertex: u64, level: u32, which: u32) -> Answer<u64> {
    if which > 7 {
        return Err(2);
    }
    if !is_inner(vertex, level) {
        return Err(4);
    }
    let mut at = coordinates(vertex / power_of_8(DEEPEST - level) as u64, level);
    for (axis, c) in at.iter_mut().enumerate() {
        *c -= corner_bit(which, axis);
    }
    Ok(cell(level, at))
}

/// `SQRT_OF_3` as f32 is this, over 2^23.
const ROOT_OF_3: u128 = 14529495;

/// The bits of a float's exponent.
fn exponent(float: f32) -> u32 {
    float.to_bits() >> 23 & 0xff
}

/// Neither an infinity nor a NaN: their exponents are all ones.
pub fn is_finite(distance: f32) -> bool {
    exponent(distance) != 0xff
}

/// Whether |d| is at most 14529495 / 2^23 / 2^(L+1), compared as whole numbers; of a finite d.
fn is_near(level: u32, distance: f32) -> bool {
    let fraction = distance.to_bits() & 0x7f_ffff;
    // |d| is whole / 2^149, times 2^shift.
    let (whole, shift) = match exponent(distance) {
        0 => (fraction as u128, 0),
        e => (fraction as u128 + (1 << 23), e - 1),
    };
    // So the question is whether whole * 2^(24 + L + shift) is at most 14529495 * 2^149.
    let (left, right) = (24 + level + shift, 149);
    if whole == 0 || left + 24 <= right {
        true
    } else if left > right + 24 {
        false
    } else {
        // The powers differ by less than 49, so that both sides fit.
        let common = left.min(right);
        whole << (left - common) <= ROOT_OF_3 << (right - common)
    }
}

/// L < 2, or L < bound and |d| <= half size times the root; never for a distance that isn't finite, nor for a level that no cell has.
pub fn should_refine(level: u32, bound: u32, distance: f32) -> bool {
    level <= DEEPEST && is_finite(distance) && (level < 2 || (level < bound && is_near(level, distance)))
}
