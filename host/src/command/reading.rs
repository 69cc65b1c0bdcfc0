//! What is read from a finished tree: its leaves and when they are needed, its vertices, and the dual cell of each with the slabs that it
//! reaches.

use super::fault::Fault;
use super::fields::Point;
use super::progress::Progress;
use mittenhelm::{DualCell, Refusal, SoundTree, Tree};
use std::ops::RangeInclusive;

#[derive(Clone, Copy)]
pub struct Leaf {
    pub key: u64,
    pub centre: Point,
    pub half: f32,
    pub distance: f32,
    /// Where it stands among the tree's nodes.
    pub place: usize,
    /// From which slab to which it is needed.
    pub first: u32,
    pub last: u32,
}

/// A vertex with its dual cell.
pub struct Cell {
    pub vertex: u64,
    pub level: u32,
    /// The slabs that it reaches.
    pub slabs: RangeInclusive<u32>,
    pub dual: DualCell,
}

/// How many dual cells there are, or reach a slab, and how many of them the surface goes through.
#[derive(Clone, Copy, Default, PartialEq, Eq)]
pub struct Count {
    pub cells: usize,
    pub crossed: usize,
}

/// What a slab has: the cells that reach it, and how many leaves are needed at it.
#[derive(Clone, Copy, Default, PartialEq, Eq)]
pub struct Slab {
    pub count: Count,
    pub needed: u32,
}

pub struct Reading {
    pub nodes: usize,
    pub leaves: Vec<Leaf>,
    pub cells: Vec<Cell>,
    pub slabs: Vec<Slab>,
    /// The most leaves that are needed at a slab.
    pub greatest: u32,
    /// How many places were lent for the list of vertices.
    pub list_places: usize,
}

impl Reading {
    pub fn new(tree: &Tree, exponent: u32, progress: &mut Progress) -> Result<Self, Fault> {
        let sound = tree.checked()?;
        let list_places = mittenhelm::most_vertices(tree.keys.len());
        let (mut vertices, mut levels) = (vec![0; list_places], vec![0; list_places]);
        let count = sound.list(0, &mut vertices, &mut levels)?;
        let mut cells = Vec::with_capacity(count);
        for (&vertex, &level) in vertices.iter().zip(&levels).take(count) {
            cells.push(Cell::of(&sound, vertex, level.into(), exponent)?);
            progress.say_part("dual cells", cells.len(), count);
        }
        let [mut first, mut last] = [(); 2].map(|()| vec![0; tree.leaves.len()]);
        let mut needed = vec![0; 1 << exponent];
        let greatest = sound.lifetimes(exponent, &mut first, &mut last, &mut needed)?;
        let mut slabs: Vec<Slab> = needed.into_iter().map(|needed| Slab { needed, ..Slab::default() }).collect();
        for cell in &cells {
            let is_crossed = cell.is_crossed();
            cell.slabs.clone().for_each(|slab| slabs[slab as usize].count.add(is_crossed));
        }
        Ok(Reading { nodes: tree.keys.len(), leaves: leaves(tree, &first, &last)?, cells, slabs, greatest, list_places })
    }

    /// The slabs at which the most leaves are needed, ascending.
    pub fn fullest(&self) -> Vec<usize> {
        (0..self.slabs.len()).filter(|&slab| self.slabs[slab].needed == self.greatest).collect()
    }

    pub fn together(&self) -> Count {
        let mut count = Count::default();
        self.cells.iter().for_each(|cell| count.add(cell.is_crossed()));
        count
    }
}

impl Count {
    fn add(&mut self, is_crossed: bool) {
        self.cells += 1;
        self.crossed += usize::from(is_crossed);
    }
}

impl Cell {
    fn of(tree: &SoundTree, vertex: u64, level: u32, exponent: u32) -> Result<Self, Refusal> {
        let slabs = tree.slabs(vertex, level, exponent)?;
        Ok(Cell { vertex, level, slabs, dual: tree.dual_cell(vertex, level)? })
    }

    /// Whether the part's surface goes through: some of its nodes are inside, and some aren't.
    pub fn is_crossed(&self) -> bool {
        let inside = self.dual.distances.iter().filter(|&&distance| distance < 0.0).count();
        (1..8).contains(&inside)
    }

    pub fn reaches(&self, slab: u32) -> bool {
        self.slabs.contains(&slab)
    }

    /// Where the vertex lies: it is the low corner of the cell of level 21 whose key it is.
    pub fn point(&self) -> Result<Point, Refusal> {
        let half = mittenhelm::half_size(self.vertex)?;
        Ok(mittenhelm::centre(self.vertex)?.map(|middle| middle - half))
    }
}

/// The leaves of a sound tree are its nodes without a first child, in the same order: so each is read where it stands, with its slabs.
fn leaves(tree: &Tree, first: &[u32], last: &[u32]) -> Result<Vec<Leaf>, Refusal> {
    let leaf = |(number, place): (usize, usize)| {
        let (key, distance) = (tree.keys[place], tree.distances[place]);
        let (centre, half) = (mittenhelm::centre(key)?, mittenhelm::half_size(key)?);
        Ok(Leaf { key, centre, half, distance, place, first: first[number], last: last[number] })
    };
    (0..tree.keys.len()).filter(|&place| tree.firsts[place] == 0).enumerate().map(leaf).collect()
}
