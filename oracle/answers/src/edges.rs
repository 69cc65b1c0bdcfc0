//! Which cell keys the published `level` gets wrong, and what that does to them.
//!
//! It multiplies `ln` of the key by a constant that is a little too small, so the first keys of a level, from 8^L on, get one
//! level too few.

use crate::inputs::{first_cell, last_cell, Random};
use crate::{integer, model, published};
use std::ops::Range;
use std::thread;

/// How many keys of each level from 1 to 21 are wrong, as found on x86-64 with glibc. docs/DIFFERENCES.md has the table.
pub const RECORDED: [u64; 21] =
    [1, 1, 1, 1, 1, 1, 1, 1, 1, 1, 2, 11, 93, 796, 6819, 58185, 494559, 4189142, 35375569, 297895808, 2502362113];

/// All keys of a level can be tried up to here.
pub const GREATEST_TRIED_WHOLE: u32 = 10;

/// How many keys on each side of an edge are tried one after another, of those that an f64 can tell apart, and as many random
/// ones. That is every wrong key, at every level; and the error of `ln`, about one unit of its last place, is at most 32 of them.
const WINDOW: u64 = 5 << 18;

/// How far an edge may lie from the recorded one elsewhere: C libraries don't promise that `ln` is rounded correctly, and two
/// units of its last place are at most 2^-46 of the key. That is less than one key up to level 15.
pub fn tolerance(level: u32) -> u64 {
    first_cell(level) >> 46
}

fn is_right(key: u64, level: u32) -> bool {
    published::level(key) == level as usize
}

/// The number of wrong keys of a level, every key tried. Panics unless they are the first ones.
pub fn wrong_by_all(level: u32) -> u64 {
    assert!((1..=GREATEST_TRIED_WHOLE).contains(&level));
    let keys = first_cell(level);
    let threads = thread::available_parallelism().map_or(1, |n| n.get() as u64);
    let part = |i: u64| keys + keys * i / threads..keys + keys * (i + 1) / threads;
    let wrong: Vec<u64> = thread::scope(|scope| {
        let parts: Vec<_> = (0..threads).map(|i| scope.spawn(move || wrong_in(part(i), level))).collect();
        parts.into_iter().flat_map(|p| p.join().expect("a part that ends")).collect()
    });
    for (i, &key) in wrong.iter().enumerate() {
        assert_eq!(key, keys + i as u64, "the wrong keys of level {level} are not the first ones");
    }
    wrong.len() as u64
}

fn wrong_in(keys: Range<u64>, level: u32) -> Vec<u64> {
    keys.filter(|&key| !is_right(key, level)).inspect(|&key| check_effect(key, level)).collect()
}

/// The number of wrong keys of a level, by halving. Panics unless the keys around the edge and random keys on both sides are
/// wrong below it and right from it on.
pub fn wrong_by_edge(level: u32) -> u64 {
    let (mut wrong, mut right) = (first_cell(level), last_cell(level));
    assert!(!is_right(wrong, level) && is_right(right, level));
    while right - wrong > 1 {
        let middle = wrong + (right - wrong) / 2;
        if is_right(middle, level) {
            right = middle;
        } else {
            wrong = middle;
        }
    }
    confirm(level, right);
    right - first_cell(level)
}

fn confirm(level: u32, edge: u64) {
    let (first, last) = (first_cell(level), last_cell(level));
    let check = |key: u64| {
        assert_eq!(is_right(key, level), key >= edge, "key {key} of level {level}, with the edge at {edge}");
        if key < edge {
            check_effect(key, level);
        }
    };
    // The keys of the level that an f64 holds exactly; every other key is rounded to one of them.
    let step = 1 << (3 * level).saturating_sub(52);
    let nearest = (edge - 1) / step * step + step;
    for i in 0..WINDOW {
        check(nearest.saturating_add(i * step).min(last));
        check(nearest.saturating_sub((i + 1) * step).max(first));
    }
    let mut random = Random::new(level as u64);
    for _ in 0..WINDOW {
        check(first + random.below(edge - first));
        check(edge + random.below(last - edge + 1));
    }
}

/// A wrong key has one level too few, and with it twice the half size and twice each coordinate of the centre.
fn check_effect(key: u64, level: u32) {
    assert_eq!(published::level(key) as u32, level - 1, "key {key}");
    assert_eq!(integer::level(key) as u32, level, "key {key}");
    assert_eq!(model::level(key), level, "key {key}");
    assert_eq!(published::size(key), 2.0 * integer::size(key), "key {key}");
    assert_eq!(published::center(key), integer::center(key).map(|c| 2.0 * c), "key {key}");
}
