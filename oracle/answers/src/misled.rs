//! Trees whose first children lead astray: what a way down by places alone would go round in for ever, or go through again and again;
//! and tables that hold no sound tree, though the way down comes far.

use crate::inputs::Random;
use crate::model::reading::{firsts_of, Tables};

/// The eight places that a place is among, by the first of them; of the root's, 1.
fn own_eight(place: usize) -> u16 {
    (8 * (place.saturating_sub(1) / 8) + 1) as u16
}

/// The first of any eight places of a table, or of the eight behind it.
fn some_eight(places: usize, random: &mut Random) -> u16 {
    (8 * random.below(places as u64 / 8 + 1) + 1) as u16
}

/// Gives each node a first child by its place.
fn lead(tables: &mut Tables, first: impl FnMut(usize) -> u16) {
    tables.firsts = (0..tables.keys.len()).map(first).collect();
}

/// Puts a key at each place that the test holds for, and leaves the first children as they are.
fn forge_keys(tables: &mut Tables, is: impl Fn(usize) -> bool, mut key: impl FnMut() -> u64) {
    for (_, place) in tables.keys.iter_mut().enumerate().filter(|(place, _)| is(*place)) {
        *place = key();
    }
}

/// A way to forge a tree that was sound.
pub type Forge = fn(&mut Tables, &mut Random);

pub const FORGERIES: [(&str, Forge); 17] = [
    ("the first eight for all", |tables, _| lead(tables, |_| 1)),
    ("some eight for all", |tables, random| {
        let eight = some_eight(tables.keys.len(), random);
        lead(tables, |_| eight);
    }),
    ("some eight for all, with their parent's children", |tables, random| {
        let eight = some_eight(tables.keys.len(), random);
        let own = tables.firsts.clone();
        lead(tables, |place| if random.below(2) == 0 { eight } else { own[place] });
    }),
    ("their own eight", |tables, _| lead(tables, own_eight)),
    ("their parent's eight", |tables, _| {
        let mut parents = vec![1; tables.keys.len()];
        for (place, &first) in tables.firsts.iter().enumerate().filter(|(_, &first)| first > 0) {
            (0..8).for_each(|child| parents[first as usize + child] = own_eight(place));
        }
        tables.firsts = parents;
    }),
    ("any eight", |tables, random| {
        let places = tables.keys.len();
        lead(tables, |_| some_eight(places, random));
    }),
    ("any place", |tables, random| lead(tables, |_| random.bits() as u16)),
    ("no place of a first child", |tables, random| {
        let by = 1 + random.below(7) as u16;
        tables.firsts.iter_mut().for_each(|first| *first = first.wrapping_add(by));
    }),
    ("all eights moved on by fewer places", |tables, random| {
        // Each is led to where it stands, which no step takes for a first child's place.
        let by = 1 + random.below(7) as usize;
        tables.keys.splice(1..1, vec![0; by]);
        tables.distances.splice(1..1, vec![0; by]);
        tables.firsts = firsts_of(&tables.keys);
    }),
    ("places about the end", |tables, random| {
        let places = tables.keys.len() as u16;
        let some = [places, places.wrapping_sub(7), places.wrapping_sub(8), places.wrapping_sub(1), u16::MAX, u16::MAX - 6];
        lead(tables, |_| random.one_of(&some));
    }),
    ("one key for all", |tables, random| {
        let key = [0, 1, 8, 64, u64::MAX, random.number()][random.below(6) as usize];
        forge_keys(tables, |_| true, || key);
    }),
    ("one key for all, and the first eight", |tables, random| {
        let key = [0, 1, 8, 64, u64::MAX, random.number()][random.below(6) as usize];
        forge_keys(tables, |_| true, || key);
        lead(tables, |_| 1);
    }),
    ("any keys but for the first of eight", |tables, random| forge_keys(tables, |place| place % 8 != 1, || random.number())),
    ("the first of eight without another key", |tables, random| {
        let which = 8 * random.below(tables.keys.len() as u64 / 8 + 1) as usize + 1;
        forge_keys(tables, |place| place == which, || random.number());
    }),
    ("the eights in another order", |tables, random| {
        // Each eight is led to where it stands: so the way down comes to every node.
        for eight in (1..tables.keys.len() / 8).rev() {
            let other = random.below(eight as u64 + 1) as usize;
            for child in 1..9 {
                tables.keys.swap(8 * eight + child, 8 * other + child);
                tables.distances.swap(8 * eight + child, 8 * other + child);
            }
        }
        tables.firsts = firsts_of(&tables.keys);
    }),
    ("fewer keys", |tables, random| tables.keys.truncate(random.below(tables.keys.len() as u64 + 1) as usize)),
    ("fewer first children", |tables, random| tables.firsts.truncate(random.below(tables.keys.len() as u64 + 1) as usize)),
];
