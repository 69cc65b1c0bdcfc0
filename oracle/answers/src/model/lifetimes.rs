//! From which slab to which each leaf is needed: cell by cell, leaf by leaf and slab by slab. No slab's number is made from another's.

use super::reading::{Height, Reach, Reading, Slabs, Tables, Walk, GREATEST_EXPONENT};
use super::Answer;
use std::collections::BTreeMap;

/// No sound tree has more nodes, since the place of a first child has 16 bits.
const MOST_NODES: usize = 65_537;

/// A listed cell: the leaves that it has, by their numbers, and from where to where it reaches.
struct Listed {
    leaves: Vec<usize>,
    reach: Reach,
}

/// What a tree needs its leaves for: how many leaves a report has places for, and the listed cells.
pub struct Needs {
    pub leaves: usize,
    cells: Vec<Listed>,
}

/// A report: for each leaf its first and its last slab, for each slab how many leaves are needed at it, and the greatest of these numbers.
#[derive(Clone, Debug, PartialEq, Eq)]
pub struct Lifetimes {
    pub first: Vec<u32>,
    pub last: Vec<u32>,
    pub needed: Vec<u32>,
    pub greatest: u32,
}

impl Needs {
    /// Those of a sound tree: a cell has the leaves whose keys its dual cell has.
    pub fn of_sound(tables: &Tables, reading: &Reading) -> Answer<Self> {
        let numbers: BTreeMap<u64, usize> = tables.leaves.iter().copied().zip(0..).collect();
        let listed = |(vertex, level)| {
            let cell = reading.dual_cell(vertex, level)?;
            Ok(Listed { leaves: cell.keys.iter().map(|key| numbers[key]).collect(), reach: cell.reach() })
        };
        let cells: Answer<Vec<Listed>> = reading.vertices()?.into_iter().map(listed).collect();
        Ok(Needs { leaves: tables.leaves.len(), cells: cells? })
    }

    /// Those of any tables, by the walk of one who trusts them: of a cell's eight places only the leaves of the report count.
    pub fn of_trusted(tables: &Tables, walk: &Walk) -> Self {
        let nodes = tables.keys.len().min(MOST_NODES);
        let leaves = nodes - nodes.saturating_sub(1) / 8;
        let is_childless = |&place: &usize| tables.firsts.get(place).map_or(true, |&first| first == 0);
        let numbers: BTreeMap<usize, usize> = (0..nodes).filter(is_childless).take(leaves).zip(0..).collect();
        let listed = |places: [u64; 8]| {
            let counting: Vec<usize> = places.iter().map(|&p| p as usize).filter(|place| numbers.contains_key(place)).collect();
            let heights: Vec<Height> = counting.iter().map(|&place| Height::of_centre(tables.keys[place])).collect();
            let leaves = counting.iter().map(|place| numbers[place]).collect();
            Reach::of(&heights).map(|reach| Listed { leaves, reach })
        };
        Needs { leaves, cells: walk.placed.iter().filter_map(|at| listed(at.places)).collect() }
    }

    pub fn lifetimes(&self, exponent: u32) -> Answer<Lifetimes> {
        if exponent > GREATEST_EXPONENT {
            return Err(5);
        }
        let mut spans: Vec<Option<Slabs>> = vec![None; self.leaves];
        for cell in &self.cells {
            let Slabs { first, last } = cell.reach.slabs(exponent)?;
            for &leaf in &cell.leaves {
                let before = spans[leaf].unwrap_or(Slabs { first, last });
                spans[leaf] = Some(Slabs { first: before.first.min(first), last: before.last.max(last) });
            }
        }
        let mut needed = vec![0; 2usize.pow(exponent)];
        for Slabs { first, last } in spans.iter().flatten() {
            needed[*first as usize..=*last as usize].iter_mut().for_each(|leaves| *leaves += 1);
        }
        Ok(Lifetimes {
            first: spans.iter().map(|span| span.map_or(1, |slabs| slabs.first)).collect(),
            last: spans.iter().map(|span| span.map_or(0, |slabs| slabs.last)).collect(),
            greatest: needed.iter().copied().max().unwrap_or(0),
            needed,
        })
    }
}

impl Lifetimes {
    /// Writes the report into tables that have room. The answer is the greatest number.
    pub fn write(&self, first: &mut [u32], last: &mut [u32], needed: &mut [u32]) -> Answer<u32> {
        if first.len() < self.first.len() || last.len() < self.last.len() || needed.len() < self.needed.len() {
            return Err(17);
        }
        first[..self.first.len()].copy_from_slice(&self.first);
        last[..self.last.len()].copy_from_slice(&self.last);
        needed[..self.needed.len()].copy_from_slice(&self.needed);
        Ok(self.greatest)
    }
}
