//! Trees that are nearly sound: ways to break each condition of "a sound tree", and changes of any kind.

use crate::inputs::{first_cell, last_cell, Random};
use crate::model::level;
use crate::model::reading::{firsts_of, Tables};

/// Of a list, one that the test holds for; none, where it holds for none.
fn one_of(keys: &[u64], random: &mut Random, test: impl Fn(u64) -> bool) -> Option<u64> {
    let fitting: Vec<u64> = keys.iter().copied().filter(|&key| test(key)).collect();
    Some(fitting.len() as u64).filter(|&n| n > 0).map(|n| fitting[random.below(n) as usize])
}

/// Gives every key the place of its first child, so that no other condition than the one that was broken is.
fn mend(tables: &mut Tables) {
    tables.firsts = firsts_of(&tables.keys);
}

fn insert_at(tables: &mut Tables, place: usize, key: u64) {
    tables.keys.insert(place, key);
    tables.distances.insert(place, place as u32);
    mend(tables);
}

/// Puts a node where its key belongs.
fn insert(tables: &mut Tables, key: u64) {
    let place = tables.keys.binary_search(&key).expect_err("a new key");
    insert_at(tables, place, key);
}

fn insert_leaf(tables: &mut Tables, key: u64) {
    let place = tables.leaves.binary_search(&key).expect_err("a new leaf");
    tables.leaves.insert(place, key);
}

fn remove(tables: &mut Tables, key: u64) {
    let place = tables.keys.binary_search(&key).expect("a key");
    tables.keys.remove(place);
    tables.distances.remove(place);
    mend(tables);
}

fn remove_leaf(tables: &mut Tables, key: u64) {
    let place = tables.leaves.binary_search(&key).expect("a leaf");
    tables.leaves.remove(place);
}

/// Puts some children of a leaf in the tree, as leaves of their own.
fn split(tables: &mut Tables, leaf: u64, children: impl Iterator<Item = u64>) {
    remove_leaf(tables, leaf);
    for child in children {
        insert(tables, 8 * leaf + child);
        insert_leaf(tables, 8 * leaf + child);
    }
}

/// A node that is a leaf, or one that is none.
fn node(tables: &Tables, is_leaf: bool, random: &mut Random) -> Option<u64> {
    one_of(&tables.keys, random, |key| tables.leaves.binary_search(&key).is_ok() == is_leaf)
}

fn node_place(tables: &Tables, is_leaf: bool, random: &mut Random) -> Option<usize> {
    tables.keys.binary_search(&node(tables, is_leaf, random)?).ok()
}

/// Puts an infinity or a NaN beside a key.
fn break_distance(tables: &mut Tables, key: u64, random: &mut Random) -> Option<()> {
    let place = tables.keys.binary_search(&key).ok()?;
    tables.distances[place] = random.broken_distance().to_bits();
    Some(())
}

fn swap_neighbours<T>(table: &mut [T], random: &mut Random) -> Option<()> {
    let at = random.below(table.len().checked_sub(1).filter(|&pairs| pairs > 0)? as u64) as usize;
    table.swap(at, at + 1);
    Some(())
}

/// Changes the place of a node's first child to one that isn't right.
fn lead_astray(tables: &mut Tables, place: usize, first: u16) -> Option<()> {
    let right = std::mem::replace(&mut tables.firsts[place], first);
    Some(()).filter(|_| right != first)
}

/// Moves the place of a split node's first child.
fn lead_on(tables: &mut Tables, by: i32, random: &mut Random) -> Option<()> {
    let place = node_place(tables, false, random)?;
    lead_astray(tables, place, (tables.firsts[place] as i32 + by) as u16)
}

/// A way to break one condition and no other, as far as the others let it; none, where the tree has nothing to break.
pub type Break = fn(&mut Tables, &mut Random) -> Option<()>;

pub const BREAKS: [(&str, Break); 41] = [
    ("a distance too few", |tables, _| tables.distances.pop().map(|_| ())),
    ("a distance too many", |tables, random| {
        tables.distances.resize(tables.keys.len() + 1 + random.below(9) as usize, 0);
        Some(())
    }),
    ("no distances", |tables, _| {
        tables.distances.clear();
        Some(())
    }),
    ("the root's distance broken", |tables, random| break_distance(tables, 1, random)),
    ("the last distance broken", |tables, random| break_distance(tables, *tables.keys.last()?, random)),
    ("a leaf's distance broken", |tables, random| {
        let leaf = one_of(&tables.leaves, random, |_| true)?;
        break_distance(tables, leaf, random)
    }),
    ("a split node's distance broken", |tables, random| {
        let split = node(tables, false, random)?;
        break_distance(tables, split, random)
    }),
    ("two keys swapped", |tables, random| {
        swap_neighbours(&mut tables.keys, random)?;
        mend(tables);
        Some(())
    }),
    ("a leaf twice among the keys", |tables, random| {
        let key = one_of(&tables.leaves, random, |_| true)?;
        let place = tables.keys.binary_search(&key).ok()?;
        insert_at(tables, place, key);
        Some(())
    }),
    ("the last key twice, as a leaf twice", |tables, _| {
        let last = *tables.keys.last()?;
        insert_at(tables, tables.keys.len(), last);
        tables.leaves.push(last);
        Some(())
    }),
    ("no root", |tables, _| {
        remove(tables, 1);
        Some(())
    }),
    ("0 before the root", |tables, random| {
        insert(tables, 0);
        if random.below(2) == 0 {
            tables.leaves.insert(0, 0);
        }
        Some(())
    }),
    ("another number for the root", |tables, random| {
        tables.keys[0] = [0, 2, 7][random.below(3) as usize];
        if tables.leaves[0] == 1 {
            tables.leaves[0] = tables.keys[0];
        }
        mend(tables);
        Some(())
    }),
    ("no cell key, but a parent and no child", |tables, random| {
        let key = 2 + random.below(6);
        insert(tables, key);
        insert_leaf(tables, key);
        Some(())
    }),
    ("no cell keys, eight children and a parent", |tables, random| {
        let key = 2 + random.below(6);
        insert(tables, key);
        insert_leaf(tables, key);
        split(tables, key, 0..8);
        Some(())
    }),
    ("no cell key beside a level", |tables, random| {
        let at = random.below(22) as u32;
        let key = [last_cell(at).wrapping_add(1), first_cell(at) - 1, random.bits()][random.below(3) as usize];
        tables.keys.binary_search(&key).err()?;
        insert(tables, key);
        insert_leaf(tables, key);
        Some(())
    }),
    ("level 16", |tables, random| {
        let leaf = one_of(&tables.leaves, random, |leaf| level(leaf) == 15)?;
        split(tables, leaf, 0..8);
        Some(())
    }),
    ("a parent that isn't there", |tables, random| {
        let leaf = one_of(&tables.leaves, random, |leaf| level(leaf) <= 13)?;
        let child = 8 * leaf + random.below(8);
        insert_leaf(tables, child);
        split(tables, child, 0..8);
        Some(())
    }),
    ("one of eight children missing", |tables, random| {
        let leaf = one_of(&tables.leaves, random, |leaf| leaf != 1)?;
        remove(tables, leaf);
        remove_leaf(tables, leaf);
        Some(())
    }),
    ("another number for a leaf, both times", |tables, random| {
        let last = *tables.keys.last()?;
        let gap = |leaf: u64| match tables.keys.iter().find(|&&key| key > leaf) {
            Some(next) => next - leaf,
            None => 20,
        };
        let leaf = one_of(&tables.leaves, random, |leaf| leaf != 1 && (leaf == last || gap(leaf) > 1))?;
        let other = leaf + 1 + random.below(gap(leaf) - 1);
        remove(tables, leaf);
        remove_leaf(tables, leaf);
        insert(tables, other);
        insert_leaf(tables, other);
        Some(())
    }),
    ("some children of a leaf", |tables, random| {
        let leaf = one_of(&tables.leaves, random, |leaf| level(leaf) < 15)?;
        let some = 1 + random.below(254);
        split(tables, leaf, (0..8).filter(|child| some >> child & 1 == 1));
        Some(())
    }),
    ("a leaf missing", |tables, random| {
        let leaf = one_of(&tables.leaves, random, |_| true)?;
        remove_leaf(tables, leaf);
        Some(())
    }),
    ("no leaves", |tables, _| {
        tables.leaves.clear();
        Some(())
    }),
    ("a split node among the leaves", |tables, random| {
        let split = node(tables, false, random)?;
        insert_leaf(tables, split);
        Some(())
    }),
    ("a leaf that isn't there", |tables, random| {
        let leaf = [8 * tables.leaves[0], u64::MAX, 0, *tables.keys.last()? + 1][random.below(4) as usize];
        tables.keys.binary_search(&leaf).err()?;
        insert_leaf(tables, leaf);
        Some(())
    }),
    ("a leaf twice", |tables, random| {
        let at = random.below(tables.leaves.len() as u64) as usize;
        tables.leaves.insert(at, tables.leaves[at]);
        Some(())
    }),
    ("two leaves swapped", |tables, random| swap_neighbours(&mut tables.leaves, random)),
    ("a split node instead of a leaf", |tables, random| {
        let split = node(tables, false, random)?;
        let leaf = one_of(&tables.leaves, random, |_| true)?;
        remove_leaf(tables, leaf);
        insert_leaf(tables, split);
        Some(())
    }),
    ("a first child too few", |tables, _| tables.firsts.pop().map(|_| ())),
    ("a first child too many", |tables, random| {
        tables.firsts.resize(tables.keys.len() + 1 + random.below(9) as usize, 0);
        Some(())
    }),
    ("no first children", |tables, _| {
        tables.firsts.clear();
        Some(())
    }),
    ("the first child one place on", |tables, random| lead_on(tables, 1, random)),
    ("the first child one place back", |tables, random| lead_on(tables, -1, random)),
    ("the first child eight places on", |tables, random| lead_on(tables, 8, random)),
    ("the first child eight places back", |tables, random| lead_on(tables, -8, random)),
    ("a bit of the first child's place turned", |tables, random| {
        let place = random.below(tables.keys.len() as u64) as usize;
        lead_astray(tables, place, tables.firsts[place] ^ 1 << random.below(16))
    }),
    ("no first child of a split node", |tables, random| {
        let place = node_place(tables, false, random)?;
        lead_astray(tables, place, 0)
    }),
    ("the first child of another split node", |tables, random| {
        let [place, other] = [(); 2].map(|()| node_place(tables, false, random));
        lead_astray(tables, place?, tables.firsts[other?])
    }),
    ("a first child of a leaf", |tables, random| {
        let place = node_place(tables, true, random)?;
        let behind = tables.keys.len() as u16;
        lead_astray(
            tables,
            place,
            [1, place as u16, behind, 8 * random.below(8192) as u16 + 1, u16::MAX][random.below(5) as usize],
        )
    }),
    ("a split node's first child at a leaf", |tables, random| {
        let [leaf, split] = [true, false].map(|leaf| node_place(tables, leaf, random));
        lead_astray(tables, leaf?, tables.firsts[split?])
    }),
    ("a first child of the last node", |tables, _| {
        let last = tables.keys.len() - 1;
        lead_astray(tables, last, tables.keys.len() as u16)
    }),
];

/// Another key, near the one that stands there or not.
fn other_key(key: u64, random: &mut Random) -> u64 {
    match random.below(3) {
        0 => key ^ 1 << random.below(64),
        1 => random.number(),
        _ => key.wrapping_add([1, u64::MAX, 8, u64::MAX - 7][random.below(4) as usize]),
    }
}

/// Another place of a first child, often of one that a step could lead to.
fn other_first(first: u16, random: &mut Random) -> u16 {
    match random.below(4) {
        0 => first ^ 1 << random.below(16),
        1 => random.bits() as u16,
        2 => 8 * random.below(20) as u16 + 1,
        _ => first.wrapping_add([1, u16::MAX, 8, u16::MAX - 7][random.below(4) as usize]),
    }
}

/// Changes one place of a table, its length or its order.
fn change_table<T: Copy + Default>(table: &mut Vec<T>, other: fn(T, &mut Random) -> T, random: &mut Random) {
    if table.is_empty() {
        table.push(other(T::default(), random));
        return;
    }
    let [at, from] = [(); 2].map(|()| random.below(table.len() as u64) as usize);
    match random.below(8) {
        0..=2 => table[at] = other(table[at], random),
        3 => table[at] = table[from],
        4 => drop(table.remove(at)),
        5 => table.insert(at, other(T::default(), random)),
        6 => table.truncate(at),
        _ => table.swap(at, from),
    }
}

/// Changes one table of a tree. Where the keys are more or fewer then, the other tables mostly follow.
pub fn change(tables: &mut Tables, random: &mut Random) {
    match random.below(3) {
        0 => change_table(&mut tables.keys, other_key, random),
        1 => change_table(&mut tables.leaves, other_key, random),
        _ => change_table(&mut tables.firsts, other_first, random),
    }
    let nodes = tables.keys.len();
    if random.below(4) > 0 {
        tables.distances.resize(nodes, 7);
    }
    match random.below(8) {
        0 => {}
        1 | 2 => mend(tables),
        _ => tables.firsts.resize(nodes, 0),
    }
}
