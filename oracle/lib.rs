//! The published files of isosurface 0.0.4, and their answers on plain numbers. Two packages compile this file: for
//! `oracle-published` the text is unchanged, for `oracle-integer` the body of `level` is replaced (build.rs). Two more compile it to
//! be timed, with as little of ours around the same texts as can be: `oracle-published-timed` and `oracle-integer-timed`.

#[cfg(published_text)]
use std::cell::RefCell;
#[cfg(published_text)]
use std::collections::HashMap;

#[cfg(debug_assertions)]
compile_error!("the published text relies on the release build, which wraps: add --release");

// With overflow checks on, this sum stops the compiler: the published text needs them off.
#[allow(dead_code)]
const OVERFLOW_CHECKS_ARE_OFF: u8 = one_more(u8::MAX);

const fn one_more(n: u8) -> u8 {
    n + 1
}

/// Whether the published text was found when this was compiled. Where not, every function below panics.
pub const FOUND: bool = cfg!(published_text);

/// Where it was looked for.
pub const FOLDER: &str = env!("PUBLISHED_FOLDER");

// These stand in for the crate's own modules, which were not among the published files at hand.

#[cfg(published_text)]
mod math {
    #[derive(Clone, Copy)]
    pub struct Vec3 {
        pub x: f32,
        pub y: f32,
        pub z: f32,
    }

    impl Vec3 {
        pub fn new(x: f32, y: f32, z: f32) -> Self {
            Vec3 { x, y, z }
        }

        pub fn zero() -> Self {
            Vec3::new(0.0, 0.0, 0.0)
        }
    }
}

#[cfg(published_text)]
mod source {
    use math::Vec3;

    pub trait Source {
        fn sample(&self, x: f32, y: f32, z: f32) -> f32;
    }

    pub trait HermiteSource: Source {
        fn sample_normal(&self, x: f32, y: f32, z: f32) -> Vec3;
    }
}

// Triangles stay behind. What would make them from the eight nodes of a dual cell hands out those eight instead: the distances are
// kept, and each of the first eight edges goes from a node to itself, so that the point on it is the node's centre.

// Where the search for the eight is timed, no edge is asked for, so that the compiler drops what serves triangles alone: the centres
// and the map of edges. That takes a package of its own, since the text names the module.

#[cfg(published_text)]
mod marching_cubes_impl {
    use math::Vec3;
    #[cfg(timed)]
    use std::cell::Cell;
    #[cfg(not(timed))]
    use std::cell::RefCell;

    #[cfg(not(timed))]
    thread_local! {
        /// The distances of each dual cell since they were last taken, in the order of the marching cubes tables.
        pub static CELLS: RefCell<Vec<[f32; 8]>> = RefCell::new(Vec::new());
    }

    #[cfg(timed)]
    thread_local! {
        /// The sum of the bits of all distances since it was last set, so that none of them can be left out.
        pub static SUM: Cell<u64> = const { Cell::new(0) };
    }

    pub fn get_offset(_: f32, _: f32) -> f32 {
        0.0
    }

    pub fn interpolate(from: Vec3, _: Vec3, _: f32) -> Vec3 {
        from
    }

    #[cfg(not(timed))]
    pub fn march_cube<E: FnMut(usize)>(distances: &[f32; 8], mut edge: E) {
        CELLS.with(|cells| cells.borrow_mut().push(*distances));
        (0..8).for_each(|node| edge(node));
    }

    #[cfg(timed)]
    pub fn march_cube<E: FnMut(usize)>(distances: &[f32; 8], _: E) {
        let bits: u64 = distances.iter().map(|distance| distance.to_bits() as u64).sum();
        SUM.with(|sum| sum.set(sum.get() + bits));
    }
}

#[cfg(published_text)]
mod marching_cubes_tables {
    pub const EDGE_CONNECTION: [[usize; 2]; 12] =
        [[0; 2], [1; 2], [2; 2], [3; 2], [4; 2], [5; 2], [6; 2], [7; 2], [0; 2], [0; 2], [0; 2], [0; 2]];
}

#[cfg(published_text)]
#[allow(dead_code)]
mod morton {
    include!(concat!(env!("OUT_DIR"), "/morton.rs"));
}

#[cfg(published_text)]
#[allow(dead_code)]
mod linear_hashed_octree {
    include!(concat!(env!("OUT_DIR"), "/linear_hashed_octree.rs"));

    impl<Node: Copy> LinearHashedOctree<Node> {
        /// Every node with its key, ascending. The text itself hands out only the node of a key that is known.
        pub fn all(&self) -> Vec<(Morton, Node)> {
            let mut all: Vec<_> = self.nodes.iter().map(|(&key, &node)| (key, node)).collect();
            all.sort_by_key(|&(key, _)| key);
            all
        }
    }
}

#[cfg(published_text)]
#[allow(dead_code)]
mod linear_hashed_marching_cubes {
    include!(concat!(env!("OUT_DIR"), "/linear_hashed_marching_cubes.rs"));

    #[cfg(not(timed))]
    use marching_cubes_impl::CELLS;
    #[cfg(timed)]
    use marching_cubes_impl::SUM;

    // The text's own ways to what follows are private, and go on to triangles where they aren't.

    pub fn octree<S: Source>(max_depth: usize, source: &S) -> LinearHashedOctree<f32> {
        LinearHashedMarchingCubes::new(max_depth).build_octree(source)
    }

    pub fn primal_vertices(octree: &LinearHashedOctree<f32>) -> HashMap<Morton, usize> {
        LinearHashedMarchingCubes::new(0).compute_primal_vertices(octree)
    }

    /// Searches the eight nodes of each vertex with a level, and sums up the bits of their distances.
    #[cfg(timed)]
    pub fn sum_of_dual_cells(octree: &LinearHashedOctree<f32>, vertices: HashMap<Morton, usize>) -> u64 {
        SUM.with(|sum| sum.set(0));
        LinearHashedMarchingCubes::new(0).extract_surface(octree, vertices, &mut Vec::new(), &mut 0, |_| ());
        SUM.with(|sum| sum.get())
    }

    /// For each vertex with a level, the distances and the centres of the eight nodes that the text finds, in corner order.
    #[cfg(not(timed))]
    pub fn dual_cells(octree: &LinearHashedOctree<f32>, vertices: HashMap<Morton, usize>) -> HashMap<Morton, [(f32, Vec3); 8]> {
        // A map has one order as long as it isn't changed.
        let order: Vec<Morton> = vertices.keys().cloned().collect();
        let (mut indices, mut count, mut centres) = (Vec::new(), 0, Vec::new());
        CELLS.with(|cells| cells.borrow_mut().clear());
        LinearHashedMarchingCubes::new(0).extract_surface(octree, vertices, &mut indices, &mut count, |at| centres.push(at));
        let cells = CELLS.with(|cells| cells.borrow_mut().split_off(0));
        assert_eq!((cells.len(), indices.len(), centres.len()), (order.len(), 8 * order.len(), count as usize));
        let in_corner_order = |(distances, indices): (&[f32; 8], &[u32])| {
            let mut nodes = [(0.0, Vec3::zero()); 8];
            for i in 0..8 {
                nodes[REMAP_CUBE[i]] = (distances[i], centres[indices[i] as usize]);
            }
            nodes
        };
        order.into_iter().zip(cells.iter().zip(indices.chunks(8)).map(in_corner_order)).collect()
    }
}

#[cfg(published_text)]
use morton::Morton;

/// Declares functions that exist with and without the text, so that what calls them always compiles.
macro_rules! of_the_text {
    ($($(#[$doc:meta])* fn $name:ident($($arg:ident: $kind:ty),*) -> $out:ty $body:block)*) => {$(
        $(#[$doc])*
        #[cfg(published_text)]
        #[inline]
        pub fn $name($($arg: $kind),*) -> $out $body

        #[cfg(not(published_text))]
        pub fn $name($(_: $kind),*) -> $out {
            panic!("there is no published text in {}", FOLDER)
        }
    )*};
}

#[cfg(timed)]
pub mod timed;

of_the_text! {
    fn level(key: u64) -> usize {
        Morton::with_key(key).level()
    }

    fn parent(key: u64) -> u64 {
        number(Morton::with_key(key).parent())
    }

    fn child(key: u64, which: u8) -> u64 {
        number(Morton::with_key(key).child(which))
    }

    fn add(a: u64, b: u64) -> u64 {
        number(Morton::with_key(a) + Morton::with_key(b))
    }

    fn sub(a: u64, b: u64) -> u64 {
        number(Morton::with_key(a) - Morton::with_key(b))
    }

    fn size(key: u64) -> f32 {
        Morton::with_key(key).size()
    }

    fn center(key: u64) -> [f32; 3] {
        let at = Morton::with_key(key).center();
        [at.x, at.y, at.z]
    }

    fn primal_vertex(key: u64, level: usize, which: usize) -> u64 {
        number(Morton::with_key(key).primal_vertex(level, which))
    }

    fn dual_vertex(vertex: u64, level: usize, which: usize) -> u64 {
        number(Morton::with_key(vertex).dual_vertex(level, which))
    }

    /// The octree over a field: its nodes in the order in which their distances were asked for, and its leaves in order.
    fn build_octree(max_depth: usize, field: &dyn Fn([f32; 3]) -> f32) -> (Vec<Node>, Vec<u64>) {
        let samples = Samples { field, taken: RefCell::new(Vec::new()) };
        let octree = linear_hashed_marching_cubes::octree(max_depth, &samples);
        let mut leaves = Vec::new();
        octree.walk_leaves(|key| leaves.push(number(key)));
        (in_asked_order(&octree.all(), &samples.taken.into_inner()), leaves)
    }

    /// The vertices that the text computes for a tree, each with its level, ascending.
    fn compute_primal_vertices(keys: &[u64], leaves: &[u64]) -> Vec<(u64, usize)> {
        ascending(&linear_hashed_marching_cubes::primal_vertices(&octree_of(keys, leaves)))
    }
}

#[cfg(not(timed))]
of_the_text! {
    /// For each vertex with a level, the places of the eight nodes of a tree that the search of `extract_surface` finds, in corner
    /// order; none, where it finds nothing.
    fn search_eight_nodes(keys: &[u64], leaves: &[u64], vertices: &[(u64, usize)]) -> Vec<[Option<usize>; 8]> {
        let map = vertices.iter().map(|&(vertex, level)| (Morton::with_key(vertex), level)).collect();
        let cells = linear_hashed_marching_cubes::dual_cells(&octree_of(keys, leaves), map);
        let places = |nodes: &[(f32, math::Vec3); 8]| {
            let mut places = [None; 8];
            for (place, &(name, centre)) in places.iter_mut().zip(nodes) {
                // The text keeps a node's key beside its distance, and its centre tells of the key.
                let found = if name == 0.0 { Morton::new() } else { Morton::with_key(keys[name as usize - 1]) };
                assert_eq!([centre.x, centre.y, centre.z], center(number(found)), "the text keeps another key for {:?}", found);
                *place = (name as usize).checked_sub(1);
            }
            places
        };
        vertices.iter().map(|&(vertex, _)| places(&cells[&Morton::with_key(vertex)])).collect()
    }
}

/// A sound tree in the text's own form, built by the text. Its nodes have names for distances, which the search hands on without
/// a look at them: one more than the node's place, since 0 is what the text has before it finds anything.
#[cfg(published_text)]
fn octree_of(keys: &[u64], leaves: &[u64]) -> linear_hashed_octree::LinearHashedOctree<f32> {
    let mut octree = linear_hashed_octree::LinearHashedOctree::new();
    octree.build(
        |key, _| leaves.binary_search(&number(key)).is_err(),
        |key| 1.0 + keys.binary_search(&number(key)).expect("a node for each key of a sound tree") as f32,
    );
    octree
}

/// Key, centre, half size and distance.
pub type Node = (u64, [f32; 3], f32, f32);

/// No tree that is compared comes near this many nodes, and a deep one could fill any memory.
#[cfg(published_text)]
const MOST_NODES: usize = 100_000;

/// Keeps each point at which the text takes a distance, with that distance.
#[cfg(published_text)]
struct Samples<'a> {
    field: &'a dyn Fn([f32; 3]) -> f32,
    taken: RefCell<Vec<([f32; 3], f32)>>,
}

#[cfg(published_text)]
impl<'a> source::Source for Samples<'a> {
    fn sample(&self, x: f32, y: f32, z: f32) -> f32 {
        let distance = (self.field)([x, y, z]);
        let mut taken = self.taken.borrow_mut();
        assert!(taken.len() < MOST_NODES, "the field splits too much");
        taken.push(([x, y, z], distance));
        distance
    }
}

/// The text takes a distance at a point, and doesn't say for which key. It goes level by level, so that the keys ascend; that
/// each key's centre is the point, and its distance the one that was given there, is checked.
#[cfg(published_text)]
fn in_asked_order(nodes: &[(Morton, f32)], samples: &[([f32; 3], f32)]) -> Vec<Node> {
    assert_eq!(nodes.len(), samples.len(), "the text took a distance for each node, once");
    let with_sample = nodes.iter().zip(samples).map(|(&(key, distance), &(point, given))| {
        let centre = key.center();
        let bits = |[x, y, z]: [f32; 3]| [x.to_bits(), y.to_bits(), z.to_bits()];
        assert_eq!(bits([centre.x, centre.y, centre.z]), bits(point), "the text asked for {:?} at another turn", key);
        assert_eq!(distance.to_bits(), given.to_bits(), "the text kept another distance for {:?}", key);
        (number(key), point, key.size(), distance)
    });
    with_sample.collect()
}

/// Vertices and their levels, ascending.
#[cfg(published_text)]
fn ascending(vertices: &HashMap<Morton, usize>) -> Vec<(u64, usize)> {
    let mut vertices: Vec<_> = vertices.iter().map(|(&vertex, &level)| (number(vertex), level)).collect();
    vertices.sort();
    vertices
}

/// The published text hands its number out as `usize` alone.
#[cfg(published_text)]
fn number(key: Morton) -> u64 {
    usize::from(key) as u64
}
