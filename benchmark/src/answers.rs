//! What each side answers for a tree, so that only equal work is timed.

use crate::ours::{checked, dual_cell, look_ups, slabs, told, Batch, Building, Finished, Listing, EXPONENT};
use crate::text::Text;
use mittenhelm::DualCell;

/// The answers of one side, floats as their bits.
#[derive(Clone, Debug, PartialEq, Eq)]
pub struct Answers {
    pub nodes: Vec<(u64, u32)>,
    pub leaves: Vec<u64>,
    /// With their levels, ascending: the Rust has no order of its own.
    pub vertices: Vec<(u64, u32)>,
    /// The keys of each vertex's dual cell.
    pub cells: Vec<[u64; 8]>,
    /// Where in the node tables they stand.
    pub places: Vec<[u64; 8]>,
    /// The same by the list and all dual cells.
    pub listed_places: Vec<[u64; 8]>,
    /// The first and the last slab of each. None, where centres aren't known.
    pub slabs: Option<Vec<(u32, u32)>>,
    /// What the timed search for all dual cells sums up to.
    pub sum_of_cells: u64,
    /// The same for the list and all dual cells.
    pub sum_of_listed_cells: u64,
    /// The same for all slabs.
    pub sum_of_slabs: Option<u64>,
    /// What the timed lookups sum up to.
    pub sum_of_look_ups: u64,
}

impl Answers {
    /// Ours, for ready distances.
    pub fn ours(bound: u32, distances: &[f32], keys: &[u64]) -> Self {
        let mut building = Building::new();
        let state = building.build_ready(bound, distances).expect("room for the tree");
        Answers::of_ours(&building.finished(state), keys)
    }

    fn of_ours(finished: &Finished, keys: &[u64]) -> Self {
        let tree = finished.tree();
        let mut listing = Listing::new();
        listing.list(tree);
        let cells: Vec<DualCell> = listing.listed().map(|(vertex, level)| dual_cell(checked(tree), vertex, level)).collect();
        Answers {
            nodes: finished.keys.iter().copied().zip(finished.distances.iter().map(|distance| distance.to_bits())).collect(),
            leaves: finished.leaves.clone(),
            vertices: listing.listed().collect(),
            cells: cells.iter().map(|cell| cell.keys).collect(),
            places: cells.iter().map(|cell| cell.places).collect(),
            listed_places: Batch::new().places(tree),
            slabs: Some(listing.listed().map(|(vertex, level)| slabs(checked(tree), vertex, level).into_inner()).collect()),
            sum_of_cells: listing.dual_cells(tree),
            sum_of_listed_cells: Batch::new().dual_cells(tree),
            sum_of_slabs: Some(listing.slabs(tree)),
            sum_of_look_ups: look_ups(tree, keys),
        }
    }

    /// Those of a build of the text. The dual cells' nodes are searched for in the tree that it built.
    pub fn of_text<T: Text>(bound: u32, distances: &[f32], keys: &[u64]) -> Self {
        let octree = T::octree(bound, distances);
        let (nodes, leaves) = T::nodes_and_leaves(&octree);
        let vertices = T::vertices(&octree);
        let listed = T::listed(&vertices);
        let node_keys: Vec<u64> = nodes.iter().map(|&(key, _)| key).collect();
        let sum_of_slabs = Some(T::slabs(&octree, &vertices, 1 << EXPONENT, told)).filter(|_| T::KNOWS_CENTRES);
        let sum_of_cells = T::dual_cells(&octree, vertices);
        let found = |places: [Option<usize>; 8]| places.map(|place| place.expect("the text finds a node") as u64);
        let places: Vec<[u64; 8]> = T::places(&node_keys, &leaves, &listed).into_iter().map(found).collect();
        let cells: Vec<[u64; 8]> = places.iter().map(|eight| eight.map(|place| node_keys[place as usize])).collect();
        Answers {
            slabs: Some(cells.iter().map(|&keys| slabs_of::<T>(keys)).collect()).filter(|_| T::KNOWS_CENTRES),
            cells,
            listed_places: places.clone(),
            places,
            sum_of_cells,
            sum_of_listed_cells: sum_of_cells,
            sum_of_slabs,
            sum_of_look_ups: T::look_ups(&octree, keys),
            nodes: nodes.into_iter().map(|(key, distance)| (key, distance.to_bits())).collect(),
            vertices: listed.into_iter().map(|(vertex, level)| (vertex, level as u32)).collect(),
            leaves,
        }
    }

    /// Which part differs first, if any; of slabs, where both have them.
    pub fn difference(&self, other: &Answers) -> Option<&'static str> {
        let parts = [
            ("nodes", self.nodes == other.nodes),
            ("leaves", self.leaves == other.leaves),
            ("vertices", self.vertices == other.vertices),
            ("dual cells", self.cells == other.cells),
            ("places of the dual cells", self.places == other.places),
            ("places of the list's dual cells", self.listed_places == other.listed_places),
            ("slabs of the dual cells", same_or_none(&self.slabs, &other.slabs)),
            ("sum of the dual cells", self.sum_of_cells == other.sum_of_cells),
            ("sum of the list's dual cells", self.sum_of_listed_cells == other.sum_of_listed_cells),
            ("sum of the slabs", same_or_none(&self.sum_of_slabs, &other.sum_of_slabs)),
            ("sum of the lookups", self.sum_of_look_ups == other.sum_of_look_ups),
        ];
        parts.iter().find(|(_, same)| !same).map(|&(part, _)| part)
    }
}

fn same_or_none<T: PartialEq>(one: &Option<T>, other: &Option<T>) -> bool {
    one.is_none() || other.is_none() || one == other
}

/// The slabs of a dual cell with these nodes, by the text's centres.
fn slabs_of<T: Text>(keys: [u64; 8]) -> (u32, u32) {
    let slabs = keys.map(|key| (T::height(key) * (1 << EXPONENT) as f32) as u32);
    slabs.iter().fold((u32::MAX, 0), |(first, last), &slab| (first.min(slab), last.max(slab)))
}
