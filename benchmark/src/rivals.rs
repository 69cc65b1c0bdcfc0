//! Two other ways to look keys up, a few lines each, as one would write them who has no library: a hash map of keys, and nodes that own
//! their children. They check nothing, and hold the same tree.

use mittenhelm::Tree;
use std::collections::HashMap;

/// The sum of the keys found and of the bits of their distances.
fn sum_of(keys: &[u64], look_up: impl Fn(u64) -> Option<(u64, f32)>) -> u64 {
    let bits = |(key, distance): (u64, f32)| key.wrapping_add(distance.to_bits() as u64);
    keys.iter().fold(0, |sum, &key| sum.wrapping_add(look_up(key).map_or(0, bits)))
}

/// Each key's distance, by the standard hasher, which the published Rust's own map has too.
pub struct Hashed(HashMap<u64, f32>);

impl Hashed {
    pub fn of(tree: Tree) -> Self {
        Hashed(tree.keys.iter().copied().zip(tree.distances.iter().copied()).collect())
    }

    pub fn look_ups(&self, keys: &[u64]) -> u64 {
        sum_of(keys, |key| self.look_up(key))
    }

    fn look_up(&self, mut key: u64) -> Option<(u64, f32)> {
        while key > 1 {
            if let Some(&distance) = self.0.get(&key) {
                return Some((key, distance));
            }
            key /= 8;
        }
        None
    }
}

/// A node that owns its children.
pub struct Pointed {
    distance: f32,
    children: Option<Box<[Pointed; 8]>>,
}

impl Pointed {
    pub fn of(tree: Tree) -> Self {
        Pointed::at(&Hashed::of(tree), 1)
    }

    fn at(nodes: &Hashed, key: u64) -> Self {
        let children =
            nodes.0.contains_key(&(8 * key)).then(|| [0, 1, 2, 3, 4, 5, 6, 7].map(|which| Pointed::at(nodes, 8 * key + which)));
        Pointed { distance: nodes.0[&key], children: children.map(Box::new) }
    }

    pub fn look_ups(&self, keys: &[u64]) -> u64 {
        sum_of(keys, |key| self.look_up(key))
    }

    fn look_up(&self, key: u64) -> Option<(u64, f32)> {
        let (mut node, mut left) = (self, (63 - key.leading_zeros()) / 3);
        while let (Some(children), true) = (&node.children, left > 0) {
            left -= 1;
            node = &children[(key >> (3 * left)) as usize % 8];
        }
        Some((key >> (3 * left), node.distance)).filter(|&(found, _)| found > 1)
    }
}
