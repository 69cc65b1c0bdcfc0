//! The published Rust, in both builds: as published, and with only `level` replaced.

pub use oracle_answers::{integer, published};

/// A build of the text, in its own form.
pub trait Text {
    type Octree;
    type Vertices: Clone;

    /// Whether its `center` of each key is right, which takes the right level.
    const KNOWS_CENTRES: bool;

    /// The octree of distances that are ready, in the order in which they are asked for.
    fn octree(bound: u32, distances: &[f32]) -> Self::Octree;

    /// Every node's key and distance, ascending, and the leaves in order.
    fn nodes_and_leaves(octree: &Self::Octree) -> (Vec<(u64, f32)>, Vec<u64>);

    fn vertices(octree: &Self::Octree) -> Self::Vertices;

    /// The vertices with their levels, ascending.
    fn listed(vertices: &Self::Vertices) -> Vec<(u64, usize)>;

    /// Searches the eight nodes of each vertex; the sum of the bits of their distances.
    fn dual_cells(octree: &Self::Octree, vertices: Self::Vertices) -> u64;

    /// Searches the eight nodes of each vertex, and takes the slabs, of so many, that hold the lowest and the highest of their centres;
    /// the sum of what is told of the vertex with these two.
    fn slabs(octree: &Self::Octree, vertices: &Self::Vertices, count: u32, told: fn(u64, u32, u32) -> u64) -> u64;

    /// Looks up each key; the sum of the keys found and of the bits of their distances.
    fn look_ups(octree: &Self::Octree, keys: &[u64]) -> u64;

    /// For each vertex with a level, the places of its eight nodes in a tree. This one is not timed.
    fn places(keys: &[u64], leaves: &[u64], vertices: &[(u64, usize)]) -> Vec<[Option<usize>; 8]>;

    /// The height of a key's centre. Nor is this.
    fn height(key: u64) -> f32;
}

macro_rules! a_text {
    ($name:ident, $timed:ident, $recorded:ident, $knows_centres:literal) => {
        pub struct $name;

        impl Text for $name {
            type Octree = $timed::timed::Octree;
            type Vertices = $timed::timed::Vertices;

            const KNOWS_CENTRES: bool = $knows_centres;

            fn octree(bound: u32, distances: &[f32]) -> Self::Octree {
                $timed::timed::octree(bound as usize, distances)
            }

            fn nodes_and_leaves(octree: &Self::Octree) -> (Vec<(u64, f32)>, Vec<u64>) {
                $timed::timed::nodes_and_leaves(octree)
            }

            fn vertices(octree: &Self::Octree) -> Self::Vertices {
                $timed::timed::vertices(octree)
            }

            fn listed(vertices: &Self::Vertices) -> Vec<(u64, usize)> {
                $timed::timed::listed(vertices)
            }

            fn dual_cells(octree: &Self::Octree, vertices: Self::Vertices) -> u64 {
                $timed::timed::dual_cells(octree, vertices)
            }

            fn slabs(octree: &Self::Octree, vertices: &Self::Vertices, count: u32, told: fn(u64, u32, u32) -> u64) -> u64 {
                $timed::timed::slabs(octree, vertices, count as f32, told)
            }

            fn look_ups(octree: &Self::Octree, keys: &[u64]) -> u64 {
                $timed::timed::look_ups(octree, keys)
            }

            fn places(keys: &[u64], leaves: &[u64], vertices: &[(u64, usize)]) -> Vec<[Option<usize>; 8]> {
                $recorded::search_eight_nodes(keys, leaves, vertices)
            }

            fn height(key: u64) -> f32 {
                $recorded::center(key)[2]
            }
        }
    };
}

a_text!(Published, oracle_published_timed, published, false);
a_text!(Integer, oracle_integer_timed, integer, true);
