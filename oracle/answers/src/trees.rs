//! Whole trees over a field: by the rule of document 01, and by both builds of the published text.

use crate::inputs::Random;
use crate::model::build::{Request, TABLES};
use crate::model::reading::{firsts_of, Tables};
use crate::{integer, model, published};
use std::collections::VecDeque;

/// A distance for each point of the cube. The published text knows no other fields.
pub type Field = dyn Fn([f32; 3]) -> f32;

/// A node as it was asked for, and the distance that was given.
#[derive(Clone, Copy, Debug)]
pub struct Node {
    pub request: Request,
    pub distance: f32,
}

/// The nodes in the order in which they were asked for, and the leaves in order. Both ascend.
pub struct Tree {
    pub nodes: Vec<Node>,
    pub leaves: Vec<u64>,
}

impl Tree {
    fn of((nodes, leaves): (Vec<integer::Node>, Vec<u64>)) -> Self {
        let node = |(key, centre, half, distance)| Node { request: Request { key, centre, half }, distance };
        let tree = Tree { nodes: nodes.into_iter().map(node).collect(), leaves };
        assert!(tree.nodes.windows(2).all(|two| two[0].request.key < two[1].request.key));
        assert!(tree.leaves.windows(2).all(|two| two[0] < two[1]));
        tree
    }

    /// As the text with the integer level builds it.
    pub fn by_integer(bound: u32, field: &Field) -> Self {
        Tree::of(integer::build_octree(bound as usize, field))
    }

    /// As the text builds it.
    pub fn by_published(bound: u32, field: &Field) -> Self {
        Tree::of(published::build_octree(bound as usize, field))
    }

    /// As document 01's split rule says, without rooms.
    pub fn by_rule(bound: u32, field: &Field) -> Self {
        let (mut nodes, mut leaves) = (Vec::new(), Vec::new());
        let mut queue = VecDeque::from([1]);
        while let Some(key) = queue.pop_front() {
            let (centre, half) = (model::centre(key).expect("a cell"), model::half_size(key).expect("a cell"));
            let distance = field(centre);
            nodes.push((key, centre, half, distance));
            if model::should_refine(model::level(key), bound, distance) {
                queue.extend((0..8).map(|which| 8 * key + which));
            } else {
                leaves.push(key);
            }
        }
        Tree::of((nodes, leaves))
    }

    /// As it is read.
    pub fn tables(&self) -> Tables {
        let keys: Vec<u64> = self.nodes.iter().map(|node| node.request.key).collect();
        Tables {
            distances: self.nodes.iter().map(|node| node.distance.to_bits()).collect(),
            firsts: firsts_of(&keys),
            leaves: self.leaves.clone(),
            keys,
        }
    }

    pub fn is_leaf(&self, key: u64) -> bool {
        self.leaves.binary_search(&key).is_ok()
    }

    pub fn place_of(&self, key: u64) -> Option<usize> {
        self.nodes.binary_search_by_key(&key, |node| node.request.key).ok()
    }

    /// How many items wait while each node is asked for.
    pub fn waiting(&self) -> Vec<usize> {
        let mut queued = 1;
        let waiting = self.nodes.iter().enumerate().map(|(taken, node)| {
            let waiting = queued - taken - 1;
            queued += if self.is_leaf(node.request.key) { 0 } else { 8 };
            waiting
        });
        waiting.collect()
    }

    /// The least lengths with which its build finishes: node keys, node distances, first children, leaves and queue.
    pub fn needs(&self) -> [usize; TABLES] {
        let splits = self.nodes.iter().zip(self.waiting()).filter(|(node, _)| !self.is_leaf(node.request.key));
        let queue = splits.map(|(_, waiting)| waiting + 8).max().expect("the root is split");
        let nodes = self.nodes.len();
        [nodes, nodes, nodes, self.leaves.len(), queue]
    }
}

/// For each node of the integer tree that no differing level reaches, its place in the published one: the published level of its
/// key is right, and at no ancestor did a wrong level change whether it is split.
pub fn unreached(integer: &Tree, published: &Tree) -> Vec<Option<usize>> {
    // Whether the children of a node are in both trees or in neither.
    let mut alike = Vec::with_capacity(integer.nodes.len());
    let mut places = Vec::with_capacity(integer.nodes.len());
    for node in &integer.nodes {
        let key = node.request.key;
        let in_both = integer.place_of(key / 8).into_iter().all(|parent| alike[parent]);
        if !in_both {
            alike.push(false);
            places.push(None);
            continue;
        }
        let place = published.place_of(key).unwrap_or_else(|| panic!("the published tree has no node {key}"));
        let is_right = published::level(key) == integer::level(key);
        let same = integer.is_leaf(key) == published.is_leaf(key);
        assert!(same || !is_right, "both give {key} its level, and only one splits it");
        alike.push(same);
        places.push(Some(place).filter(|_| is_right));
    }
    places
}

/// How the leaf to be split next is chosen.
#[derive(Clone, Copy, Debug, PartialEq, Eq)]
pub enum Growth {
    /// The one that has waited longest: level by level.
    Even,
    /// Any.
    Any,
    /// Mostly one of the eight that came last.
    Deep,
}

pub const GROWTHS: [Growth; 3] = [Growth::Even, Growth::Any, Growth::Deep];

/// A sound tree of so many splits, no level above the deepest: the root alone too, and others that no build makes. Its distances
/// are any finite ones, and odd ones.
pub fn grown(growth: Growth, splits: usize, deepest: u32, random: &mut Random) -> Tables {
    let (mut split, mut open, mut shut) = (Vec::new(), VecDeque::from([1]), Vec::new());
    while let Some(last) = open.len().checked_sub(1).filter(|_| split.len() < splits) {
        let at = match growth {
            Growth::Even => 0,
            Growth::Deep if random.below(8) > 0 => last - random.below(last.min(7) as u64 + 1) as usize,
            _ => random.below(last as u64 + 1) as usize,
        };
        let key = open.remove(at).expect("a place in the queue");
        if model::level(key) == deepest {
            shut.push(key);
            continue;
        }
        open.extend((0..8).map(|which| 8 * key + which));
        split.push(key);
    }
    let mut leaves: Vec<u64> = open.into_iter().chain(shut).collect();
    leaves.sort_unstable();
    let mut keys: Vec<u64> = split.into_iter().chain(leaves.iter().copied()).collect();
    keys.sort_unstable();
    let distances = keys.iter().map(|_| if random.below(4) == 0 { odd(random) } else { random.finite_bits() }).collect();
    Tables { firsts: firsts_of(&keys), keys, distances, leaves }
}

/// The tree in which these cells are split, with a distance for each place: sound, if with each cell those above it are split.
pub fn of_splits(split: &[u64], distance: impl Fn(usize) -> u32) -> Tables {
    let mut keys: Vec<u64> = split.iter().flat_map(|key| (0..8).map(move |child| 8 * key + child)).collect();
    keys.push(1);
    keys.sort_unstable();
    let leaves = keys.iter().copied().filter(|key| !split.contains(key)).collect();
    Tables { distances: (0..keys.len()).map(distance).collect(), firsts: firsts_of(&keys), keys, leaves }
}

/// A tree of a few nodes, often with leaves of level 15.
pub fn small(random: &mut Random) -> Tables {
    let growth = GROWTHS[random.below(3) as usize];
    let splits = [random.below(4), random.below(20), 15 + random.below(20)][random.below(3) as usize];
    grown(growth, splits as usize, [15, 15, 3][random.below(3) as usize], random)
}

/// The bits of a zero, of the least and the greatest subnormal, of the number above that or of the greatest, of either sign.
fn odd(random: &mut Random) -> u32 {
    [0, 1, 0x007f_ffff, 0x0080_0000, 0x7f7f_ffff][random.below(5) as usize] | (random.bits() as u32) << 31
}
