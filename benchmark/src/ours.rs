//! What is measured of ours: each call as a host makes it, over tables that it lends.

use mittenhelm::{distance, most_vertices, start, DualCell, Lookup, Refusal, Request, SoundTree, State, Tables, Tree};
use std::ops::RangeInclusive;

/// No build has more nodes.
pub const MOST_NODES: usize = 4096;

/// So many places are enough for the leaves, and for the queue, of every tree of so many nodes.
const MOST_LEAVES: usize = (7 * MOST_NODES + 1) / 8;

/// The memory of a build.
pub struct Building {
    keys: Vec<u64>,
    distances: Vec<f32>,
    firsts: Vec<u16>,
    leaves: Vec<u64>,
    queue: Vec<u64>,
}

impl Building {
    pub fn new() -> Self {
        Building {
            keys: vec![0; MOST_NODES],
            distances: vec![0.0; MOST_NODES],
            firsts: vec![0; MOST_NODES],
            leaves: vec![0; MOST_LEAVES],
            queue: vec![0; MOST_LEAVES],
        }
    }

    /// Builds a tree from the distances that are given for its requests, one after another.
    pub fn build(&mut self, bound: u32, mut distance_of: impl FnMut(Request) -> f32) -> Result<State, Refusal> {
        let mut tables = self.tables();
        let (mut state, mut request) = start(bound, &tables)?;
        loop {
            match distance(&mut state, &mut tables, distance_of(request))? {
                Some(next) => request = next,
                None => return Ok(state),
            }
        }
    }

    /// The same from distances that are ready, in the order in which they are asked for.
    pub fn build_ready(&mut self, bound: u32, distances: &[f32]) -> Result<State, Refusal> {
        let mut asked = 0;
        self.build(bound, |_| {
            asked += 1;
            distances[asked - 1]
        })
    }

    pub fn finished(&mut self, state: State) -> Finished {
        let tables = self.tables();
        let tree = state.tree(&tables).expect("a finished build");
        Finished {
            keys: tree.keys.to_vec(),
            distances: tree.distances.to_vec(),
            firsts: tree.firsts.to_vec(),
            leaves: tree.leaves.to_vec(),
        }
    }

    fn tables(&mut self) -> Tables<'_> {
        let Building { keys, distances, firsts, leaves, queue } = self;
        Tables { keys, distances, firsts, leaves, queue }
    }
}

impl Default for Building {
    fn default() -> Self {
        Building::new()
    }
}

/// A finished tree.
#[derive(Clone)]
pub struct Finished {
    pub keys: Vec<u64>,
    pub distances: Vec<f32>,
    pub firsts: Vec<u16>,
    pub leaves: Vec<u64>,
}

impl Finished {
    pub fn tree(&self) -> Tree<'_> {
        Tree { keys: &self.keys, distances: &self.distances, firsts: &self.firsts, leaves: &self.leaves }
    }
}

/// The memory of a list.
pub struct Listing {
    vertices: Vec<u64>,
    levels: Vec<u8>,
    count: usize,
}

impl Listing {
    pub fn new() -> Self {
        let places = most_vertices(MOST_NODES);
        Listing { vertices: vec![0; places], levels: vec![0; places], count: 0 }
    }

    /// Lists a tree's vertices in room for as many as it could have, and says how many there are.
    pub fn list(&mut self, tree: Tree) -> usize {
        let places = most_vertices(tree.keys.len());
        let listed = tree.list(0, &mut self.vertices[..places], &mut self.levels[..places]);
        self.count = listed.expect("a sound tree, and room");
        self.count
    }

    /// The vertices listed last, with their levels.
    pub fn listed(&self) -> impl Iterator<Item = (u64, u32)> + '_ {
        self.vertices.iter().zip(&self.levels).take(self.count).map(|(&vertex, &level)| (vertex, level.into()))
    }

    /// Checks the tree, and finds the dual cell of each vertex listed last; the sum of the bits of their distances.
    pub fn dual_cells(&self, tree: Tree) -> u64 {
        let tree = checked(tree);
        let bits = |cell: DualCell| cell.distances.iter().map(|distance| distance.to_bits() as u64).sum::<u64>();
        self.listed().map(|(vertex, level)| bits(dual_cell(tree, vertex, level))).sum()
    }

    /// Checks the tree, and finds the slabs of the dual cell of each vertex listed last; the sum of what is told of them.
    pub fn slabs(&self, tree: Tree) -> u64 {
        let tree = checked(tree);
        let of = |(vertex, level)| {
            let (first, last) = slabs(tree, vertex, level).into_inner();
            told(vertex, first, last)
        };
        self.listed().map(of).fold(0, u64::wrapping_add)
    }
}

/// Slabs of a cell are asked for with this exponent.
pub const EXPONENT: u32 = 8;

/// A cell's part in a sum over all cells, which come in any order: its slabs, weighed by its vertex, so that the slabs of another cell
/// give another sum.
pub fn told(vertex: u64, first: u32, last: u32) -> u64 {
    // The high bits of a vertex tell it from the others.
    u64::from(first | last << 16).wrapping_mul(vertex.rotate_left(21) | 1)
}

impl Default for Listing {
    fn default() -> Self {
        Listing::new()
    }
}

/// So many vertices are asked for at a time.
pub const BATCH: usize = 512;

/// The memory of vertices with the places of their nodes.
pub struct Batch {
    vertices: Vec<u64>,
    levels: Vec<u8>,
    places: Vec<u64>,
}

impl Batch {
    pub fn new() -> Self {
        Batch { vertices: vec![0; BATCH], levels: vec![0; BATCH], places: vec![0; 8 * BATCH] }
    }

    /// Checks the tree, and finds all vertices with the nodes of their dual cells; the sum of the bits of their distances.
    pub fn dual_cells(&mut self, tree: Tree) -> u64 {
        let mut sum = 0;
        let bits = |&place: &u64| tree.distances[place as usize].to_bits() as u64;
        self.each(tree, |places| sum += places.iter().map(bits).sum::<u64>());
        sum
    }

    /// The places of all dual cells.
    pub fn places(&mut self, tree: Tree) -> Vec<[u64; 8]> {
        let mut all = Vec::new();
        let eight = |places: &[u64]| <[u64; 8]>::try_from(places).expect("eight places");
        self.each(tree, |places| all.extend(places.chunks_exact(8).map(eight)));
        all
    }

    /// Checks the tree, and hands on the places of each batch.
    fn each(&mut self, tree: Tree, mut take: impl FnMut(&[u64])) {
        let (sound, mut from) = (checked(tree), 0);
        loop {
            let count = sound.cells(from, &mut self.vertices, &mut self.levels, &mut self.places);
            take(&self.places[..8 * count]);
            if count < BATCH {
                return;
            }
            from = self.vertices[BATCH - 1] + 1;
        }
    }
}

impl Default for Batch {
    fn default() -> Self {
        Batch::new()
    }
}

/// The memory of all vertices of a tree with the places of their nodes, by one call, and of a report of lifetimes.
pub struct Reporting {
    vertices: Vec<u64>,
    levels: Vec<u8>,
    places: Vec<u64>,
    first: Vec<u32>,
    last: Vec<u32>,
    needed: Vec<u32>,
}

impl Reporting {
    /// Room for a tree, and for so many slabs at most.
    pub fn new(tree: Tree, slabs: usize) -> Self {
        let (cells, leaves) = (most_vertices(tree.keys.len()), tree.leaves.len());
        Reporting {
            vertices: vec![0; cells],
            levels: vec![0; cells],
            places: vec![0; 8 * cells],
            first: vec![0; leaves],
            last: vec![0; leaves],
            needed: vec![0; slabs],
        }
    }

    /// All vertices with the places of their nodes; their number.
    pub fn cells(&mut self, tree: SoundTree) -> usize {
        tree.cells(0, &mut self.vertices, &mut self.levels, &mut self.places)
    }

    /// Reports when each leaf is needed; the greatest number.
    pub fn lifetimes(&mut self, tree: SoundTree, exponent: u32) -> u32 {
        let report = tree.lifetimes(exponent, &mut self.first, &mut self.last, &mut self.needed);
        report.expect("room for the report")
    }

    /// Whether a report is what the cells come to, each with its slabs.
    pub fn is_of_cells(&mut self, tree: SoundTree, exponent: u32) -> bool {
        let count = self.cells(tree);
        let mut spans = vec![(1, 0); self.first.len()];
        for (i, places) in self.places.chunks_exact(8).take(count).enumerate() {
            let slabs = tree.slabs(self.vertices[i], self.levels[i].into(), exponent);
            let (first, last) = slabs.expect("a vertex of the tree").into_inner();
            for &place in places {
                let key = tree.tree().keys[place as usize];
                let span: &mut (u32, u32) = &mut spans[tree.tree().leaves.binary_search(&key).expect("a leaf")];
                *span = if span.0 > span.1 { (first, last) } else { (span.0.min(first), span.1.max(last)) };
            }
        }
        let needed = |slab: u32| spans.iter().filter(|(first, last)| (*first..=*last).contains(&slab)).count() as u32;
        let needed: Vec<u32> = (0..1 << exponent).map(needed).collect();
        let greatest = self.lifetimes(tree, exponent);
        let reported = self.first.iter().copied().zip(self.last.iter().copied());
        reported.eq(spans.iter().copied()) && self.needed[..needed.len()] == needed && needed.iter().max() == Some(&greatest)
    }
}

/// Checks the tree, and looks up each key; the sum of the keys found and of the bits of their distances.
pub fn look_ups(tree: Tree, keys: &[u64]) -> u64 {
    let tree = checked(tree);
    keys.iter().fold(0, |sum, &key| match look_up(tree, key) {
        Lookup::Found { key, distance, .. } => sum.wrapping_add(key).wrapping_add(distance.to_bits() as u64),
        Lookup::Nothing { .. } => sum,
    })
}

// The three calls that read one place of a tree: here alone is it chosen which form of them is measured.

/// Said of that form in the report.
pub const FORM: &str = "the forms that trust a tree, after one check of it that is timed with them";

pub fn checked(tree: Tree) -> SoundTree {
    tree.checked().expect("a sound tree")
}

pub fn dual_cell(tree: SoundTree, vertex: u64, level: u32) -> DualCell {
    tree.dual_cell(vertex, level).expect("a vertex of the tree")
}

pub fn slabs(tree: SoundTree, vertex: u64, level: u32) -> RangeInclusive<u32> {
    tree.slabs(vertex, level, EXPONENT).expect("a vertex of the tree")
}

fn look_up(tree: SoundTree, key: u64) -> Lookup {
    tree.look_up(key).expect("a cell key")
}
