//! Mittenhelm for Rust: safe functions over its C boundary, include/mittenhelm.h.
//!
//! The cube goes from 0 to 1 on each axis. A cell key of level L (0 to 21) is a number from 8^L up to 2 x 8^L - 1: a leading
//! one, then bits of z, y and x in turn, the lowest being x.
//!
//! A place says where in a tree's keys, distances and first children a node stands. It is a `u64`, and so is every length behind the
//! boundary: the proved code takes 8 bytes on every host, where a `usize` may have 4. So the calls write places straight into what is
//! lent to them.

use std::error::Error;
use std::fmt;
use std::ops::RangeInclusive;

/// The functions as C declares them: they take every value, and a refusal, returned as its number, leaves every out parameter,
/// state and table as it was. A `&mut`, or the pointer of a slice with its length, is all that a pointer has to be there, so each
/// call below is sound.
pub mod raw {
    // A `bool` of C is taken as a byte, so that no value of it could be undefined behaviour here.
    extern "C" {
        pub fn mittenhelm_level(key: u64) -> u32;
        pub fn mittenhelm_is_cell(key: u64) -> u8;
        pub fn mittenhelm_parent(key: u64) -> u64;
        pub fn mittenhelm_add(a: u64, b: u64) -> u64;
        pub fn mittenhelm_sub(a: u64, b: u64) -> u64;
        pub fn mittenhelm_child(key: u64, which: u32, child: &mut u64) -> u32;
        pub fn mittenhelm_half_size(key: u64, half_size: &mut f32) -> u32;
        pub fn mittenhelm_centre(key: u64, x: &mut f32, y: &mut f32, z: &mut f32) -> u32;
        pub fn mittenhelm_vertex(key: u64, level: u32, corner: u32, vertex: &mut u64) -> u32;
        pub fn mittenhelm_is_inner(vertex: u64, level: u32) -> u8;
        pub fn mittenhelm_side(vertex: u64, level: u32, which: u32, cell: &mut u64) -> u32;
        pub fn mittenhelm_should_refine(level: u32, bound: u32, distance: f32) -> u8;
        pub fn mittenhelm_start(
            bound: u32,
            keys: *const u64,
            keys_length: u64,
            distances: *const f32,
            distances_length: u64,
            firsts: *const u16,
            firsts_length: u64,
            leaves: *const u64,
            leaves_length: u64,
            queue: *const u64,
            queue_length: u64,
            state: *mut u64,
            state_length: u64,
            key: &mut u64,
            x: &mut f32,
            y: &mut f32,
            z: &mut f32,
            half: &mut f32,
        ) -> u32;
        pub fn mittenhelm_distance(
            state: *mut u64,
            state_length: u64,
            keys: *mut u64,
            keys_length: u64,
            distances: *mut f32,
            distances_length: u64,
            firsts: *mut u16,
            firsts_length: u64,
            leaves: *mut u64,
            leaves_length: u64,
            queue: *mut u64,
            queue_length: u64,
            distance: f32,
            key: &mut u64,
            x: &mut f32,
            y: &mut f32,
            z: &mut f32,
            half: &mut f32,
        ) -> u32;
        pub fn mittenhelm_sound(
            keys: *const u64,
            keys_length: u64,
            distances: *const f32,
            distances_length: u64,
            firsts: *const u16,
            firsts_length: u64,
            leaves: *const u64,
            leaves_length: u64,
        ) -> u8;
        pub fn mittenhelm_look_up(
            keys: *const u64,
            keys_length: u64,
            distances: *const f32,
            distances_length: u64,
            firsts: *const u16,
            firsts_length: u64,
            leaves: *const u64,
            leaves_length: u64,
            key: u64,
            found: &mut u64,
            distance: &mut f32,
            place: &mut u64,
            tried: &mut u32,
        ) -> u32;
        pub fn mittenhelm_list(
            keys: *const u64,
            keys_length: u64,
            distances: *const f32,
            distances_length: u64,
            firsts: *const u16,
            firsts_length: u64,
            leaves: *const u64,
            leaves_length: u64,
            start: u64,
            vertices: *mut u64,
            vertices_length: u64,
            levels: *mut u8,
            levels_length: u64,
            count: &mut u64,
        ) -> u32;
        pub fn mittenhelm_dual_cell(
            keys: *const u64,
            keys_length: u64,
            distances: *const f32,
            distances_length: u64,
            firsts: *const u16,
            firsts_length: u64,
            leaves: *const u64,
            leaves_length: u64,
            vertex: u64,
            level: u32,
            cell_keys: &mut [u64; 8],
            cell_distances: &mut [f32; 8],
            cell_places: &mut [u64; 8],
            tried: &mut u32,
        ) -> u32;
        pub fn mittenhelm_slabs(
            keys: *const u64,
            keys_length: u64,
            distances: *const f32,
            distances_length: u64,
            firsts: *const u16,
            firsts_length: u64,
            leaves: *const u64,
            leaves_length: u64,
            vertex: u64,
            level: u32,
            exponent: u32,
            first: &mut u32,
            last: &mut u32,
        ) -> u32;
        pub fn mittenhelm_lifetimes(
            keys: *const u64,
            keys_length: u64,
            distances: *const f32,
            distances_length: u64,
            firsts: *const u16,
            firsts_length: u64,
            leaves: *const u64,
            leaves_length: u64,
            exponent: u32,
            first_slabs: *mut u32,
            first_slabs_length: u64,
            last_slabs: *mut u32,
            last_slabs_length: u64,
            needed: *mut u32,
            needed_length: u64,
            greatest: &mut u32,
        ) -> u32;
        pub fn mittenhelm_look_up_trusting(
            keys: *const u64,
            keys_length: u64,
            distances: *const f32,
            distances_length: u64,
            firsts: *const u16,
            firsts_length: u64,
            key: u64,
            found: &mut u64,
            distance: &mut f32,
            place: &mut u64,
            tried: &mut u32,
        ) -> u32;
        pub fn mittenhelm_list_trusting(
            keys: *const u64,
            keys_length: u64,
            firsts: *const u16,
            firsts_length: u64,
            start: u64,
            vertices: *mut u64,
            vertices_length: u64,
            levels: *mut u8,
            levels_length: u64,
            count: &mut u64,
        ) -> u32;
        pub fn mittenhelm_cells_trusting(
            keys: *const u64,
            keys_length: u64,
            firsts: *const u16,
            firsts_length: u64,
            from: u64,
            vertices: *mut u64,
            vertices_length: u64,
            levels: *mut u8,
            levels_length: u64,
            places: *mut u64,
            places_length: u64,
        ) -> u64;
        pub fn mittenhelm_dual_cell_trusting(
            keys: *const u64,
            keys_length: u64,
            distances: *const f32,
            distances_length: u64,
            firsts: *const u16,
            firsts_length: u64,
            vertex: u64,
            level: u32,
            cell_keys: &mut [u64; 8],
            cell_distances: &mut [f32; 8],
            cell_places: &mut [u64; 8],
            tried: &mut u32,
        ) -> u32;
        pub fn mittenhelm_slabs_trusting(
            keys: *const u64,
            keys_length: u64,
            firsts: *const u16,
            firsts_length: u64,
            vertex: u64,
            level: u32,
            exponent: u32,
            first: &mut u32,
            last: &mut u32,
        ) -> u32;
        pub fn mittenhelm_lifetimes_trusting(
            keys: *const u64,
            keys_length: u64,
            firsts: *const u16,
            firsts_length: u64,
            exponent: u32,
            first_slabs: *mut u32,
            first_slabs_length: u64,
            last_slabs: *mut u32,
            last_slabs_length: u64,
            needed: *mut u32,
            needed_length: u64,
            greatest: &mut u32,
        ) -> u32;
    }
}

/// Why a call refused.
#[derive(Clone, Copy, Debug, PartialEq, Eq, Hash)]
pub struct Refusal {
    number: u32,
}

impl Refusal {
    pub fn number(self) -> u32 {
        self.number
    }

    pub fn reason(self) -> &'static str {
        match self.number {
            1 => "not a cell key",
            2 => "child, corner or side above 7",
            3 => "child of level 21, or the level given isn't the key's own",
            4 => "not an inner vertex at that level, or the tree is the root alone",
            5 => "bound or slab exponent above 15",
            6 => "no room for another node",
            7 => "no room for another leaf",
            8 => "no room in the queue for eight children",
            9 => "nothing is asked: the build is finished",
            10 => "the state doesn't fit the tables",
            11 => "not a sound tree",
            12 => "start place past the end of a table, or no room for all vertices",
            16 => "the distance is infinite or NaN",
            17 => "a report table too short",
            _ => "a number that this wrapper doesn't know",
        }
    }
}

impl fmt::Display for Refusal {
    fn fmt(&self, f: &mut fmt::Formatter<'_>) -> fmt::Result {
        write!(f, "refused {}: {}", self.number, self.reason())
    }
}

impl Error for Refusal {}

/// The result of a call, unless the number that it returned is a refusal.
#[inline]
fn accepted<T>(number: u32, result: T) -> Result<T, Refusal> {
    match number {
        0 => Ok(result),
        number => Err(Refusal { number }),
    }
}

/// The level of any number: 0 for 0, else the largest L with 8^L at most the number.
pub fn level(key: u64) -> u32 {
    unsafe { raw::mittenhelm_level(key) }
}

/// Whether the number is a cell key.
pub fn is_cell(key: u64) -> bool {
    unsafe { raw::mittenhelm_is_cell(key) != 0 }
}

/// The number divided by 8, rounded down, but at least 1.
pub fn parent(key: u64) -> u64 {
    unsafe { raw::mittenhelm_parent(key) }
}

/// The sum field by field: x modulo 2^22, y and z modulo 2^21.
pub fn add(a: u64, b: u64) -> u64 {
    unsafe { raw::mittenhelm_add(a, b) }
}

/// The difference field by field: x modulo 2^22, y and z modulo 2^21.
pub fn sub(a: u64, b: u64) -> u64 {
    unsafe { raw::mittenhelm_sub(a, b) }
}

/// Child `which` (0 to 7) of a cell.
pub fn child(key: u64, which: u32) -> Result<u64, Refusal> {
    let mut child = 0;
    let number = unsafe { raw::mittenhelm_child(key, which, &mut child) };
    accepted(number, child)
}

/// Half the side of a cell.
pub fn half_size(key: u64) -> Result<f32, Refusal> {
    let mut half_size = 0.0;
    let number = unsafe { raw::mittenhelm_half_size(key, &mut half_size) };
    accepted(number, half_size)
}

/// The middle of a cell: x, y and z.
pub fn centre(key: u64) -> Result<[f32; 3], Refusal> {
    let [mut x, mut y, mut z] = [0.0; 3];
    let number = unsafe { raw::mittenhelm_centre(key, &mut x, &mut y, &mut z) };
    accepted(number, [x, y, z])
}

/// The vertex at a corner (bit 0 is x, bit 1 y, bit 2 z) of a cell whose level is given, or 0 where there is none: the corner
/// lies on the cube's outside, or the level is 21.
pub fn vertex(key: u64, level: u32, corner: u32) -> Result<u64, Refusal> {
    let mut vertex = 0;
    let number = unsafe { raw::mittenhelm_vertex(key, level, corner, &mut vertex) };
    accepted(number, vertex)
}

/// Whether the number is an inner vertex at the level.
pub fn is_inner(vertex: u64, level: u32) -> bool {
    unsafe { raw::mittenhelm_is_inner(vertex, level) != 0 }
}

/// The cell key of the level on side `which` (0 to 7) of an inner vertex.
pub fn side(vertex: u64, level: u32, which: u32) -> Result<u64, Refusal> {
    let mut cell = 0;
    let number = unsafe { raw::mittenhelm_side(vertex, level, which, &mut cell) };
    accepted(number, cell)
}

/// Whether a distance splits an asked cell of the level under a depth bound; one that isn't finite splits none.
pub fn should_refine(level: u32, bound: u32, distance: f32) -> bool {
    unsafe { raw::mittenhelm_should_refine(level, bound, distance) != 0 }
}

/// What a build works in: tables that the caller lends to each of its calls, and that hold the tree in the end.
#[derive(Debug)]
pub struct Tables<'a> {
    /// The nodes' keys, ascending: one place for each node, at most 4,096 of them.
    pub keys: &'a mut [u64],
    /// The nodes' distances, as they were given: one place for each node.
    pub distances: &'a mut [f32],
    /// The place of each node's first child, 0 for a leaf: one place for each node.
    pub firsts: &'a mut [u16],
    /// The leaves' keys, ascending: one place for each leaf.
    pub leaves: &'a mut [u64],
    /// The cells that wait to be asked for, in a ring: at least 64 places, or no build finishes.
    pub queue: &'a mut [u64],
}

/// A cell whose distance is asked for: the field's value at its centre.
#[derive(Clone, Copy, Debug, PartialEq)]
pub struct Request {
    pub key: u64,
    pub centre: [f32; 3],
    pub half: f32,
}

/// How many words a state has.
pub const STATE_WORDS: usize = 9;

/// Where a build stands: words that a caller may keep and bring back with the tables. Words that don't fit are refused.
#[derive(Clone, Copy, Debug, PartialEq, Eq, Hash)]
pub struct State(pub [u64; STATE_WORDS]);

impl State {
    /// The depth bound of the start.
    pub fn bound(&self) -> u64 {
        self.0[0]
    }

    /// How many nodes there are so far.
    pub fn nodes(&self) -> u64 {
        self.0[1]
    }

    /// How many leaves there are so far.
    pub fn leaves(&self) -> u64 {
        self.0[2]
    }

    /// The key of the cell whose distance is asked for, unless the build is finished.
    #[inline]
    pub fn asked(&self) -> Option<u64> {
        Some(self.0[3]).filter(|&key| key != 0)
    }

    /// The tree that a finished build left in its tables: the first places of each, as many as there are nodes or leaves. None, where a
    /// cell is still asked for or the tables are shorter.
    pub fn tree<'a>(&self, tables: &'a Tables) -> Option<Tree<'a>> {
        if self.asked().is_some() {
            return None;
        }
        let (nodes, leaves) = (usize::try_from(self.nodes()).ok()?, usize::try_from(self.leaves()).ok()?);
        Some(Tree {
            keys: tables.keys.get(..nodes)?,
            distances: tables.distances.get(..nodes)?,
            firsts: tables.firsts.get(..nodes)?,
            leaves: tables.leaves.get(..leaves)?,
        })
    }
}

/// Begins a build of a depth bound (0 to 15) in the tables, none of which is read or written yet, and asks for the root.
#[inline]
pub fn start(bound: u32, tables: &Tables) -> Result<(State, Request), Refusal> {
    let mut state = [0; STATE_WORDS];
    let (mut key, [mut x, mut y, mut z, mut half]) = (0, [0.0; 4]);
    let number = unsafe {
        raw::mittenhelm_start(
            bound,
            tables.keys.as_ptr(),
            tables.keys.len() as u64,
            tables.distances.as_ptr(),
            tables.distances.len() as u64,
            tables.firsts.as_ptr(),
            tables.firsts.len() as u64,
            tables.leaves.as_ptr(),
            tables.leaves.len() as u64,
            tables.queue.as_ptr(),
            tables.queue.len() as u64,
            state.as_mut_ptr(),
            state.len() as u64,
            &mut key,
            &mut x,
            &mut y,
            &mut z,
            &mut half,
        )
    };
    accepted(number, (State(state), Request { key, centre: [x, y, z], half }))
}

/// Takes the distance of the cell that is asked for, and says which is asked for next; none, where the build is finished. One that
/// isn't finite is refused like all else that is: the state and the tables stay, and the same cell is asked for.
#[inline]
pub fn distance(state: &mut State, tables: &mut Tables, distance: f32) -> Result<Option<Request>, Refusal> {
    let (mut key, [mut x, mut y, mut z, mut half]) = (0, [0.0; 4]);
    let number = unsafe {
        raw::mittenhelm_distance(
            state.0.as_mut_ptr(),
            state.0.len() as u64,
            tables.keys.as_mut_ptr(),
            tables.keys.len() as u64,
            tables.distances.as_mut_ptr(),
            tables.distances.len() as u64,
            tables.firsts.as_mut_ptr(),
            tables.firsts.len() as u64,
            tables.leaves.as_mut_ptr(),
            tables.leaves.len() as u64,
            tables.queue.as_mut_ptr(),
            tables.queue.len() as u64,
            distance,
            &mut key,
            &mut x,
            &mut y,
            &mut z,
            &mut half,
        )
    };
    accepted(number, state.asked().map(|_| Request { key, centre: [x, y, z], half }))
}

/// Calls a function of the boundary with some of a tree's tables first, each a pointer and a length.
macro_rules! with_tables {
    ($call:ident, $tree:expr, [$($table:ident),*] $(, $more:expr)*) => {
        unsafe { raw::$call($($tree.$table.as_ptr(), $tree.$table.len() as u64,)* $($more),*) }
    };
}

/// The same with the three of the nodes.
macro_rules! with_nodes {
    ($call:ident, $tree:expr $(, $more:expr)*) => {
        with_tables!($call, $tree, [keys, distances, firsts] $(, $more)*)
    };
}

/// The same with all four.
macro_rules! with_tree {
    ($call:ident, $tree:expr $(, $more:expr)*) => {
        with_tables!($call, $tree, [keys, distances, firsts, leaves] $(, $more)*)
    };
}

/// A finished tree, from a build or from elsewhere. Every call that reads it goes over all of it first, and refuses one that isn't
/// sound; who reads much has it `checked` once.
#[derive(Clone, Copy, Debug)]
pub struct Tree<'a> {
    /// The nodes' keys, ascending.
    pub keys: &'a [u64],
    /// The nodes' distances, in the order of the keys.
    pub distances: &'a [f32],
    /// The place of each node's first child, 0 for a leaf, in the order of the keys.
    pub firsts: &'a [u16],
    /// The leaves' keys, ascending.
    pub leaves: &'a [u64],
}

/// The deepest ancestor of a cell key, which may be the key itself, and how many keys were tried. Whoever keeps data beside the node
/// tables finds the node's at its place, without a search.
#[derive(Clone, Copy, Debug, PartialEq)]
pub enum Lookup {
    Found { key: u64, distance: f32, place: u64, tried: u32 },
    Nothing { tried: u32 },
}

/// The nodes around a vertex with their places, and how many keys were tried for all eight.
///
/// Entry w is the cell that has the vertex at its corner w (bit 0 is x, bit 1 y, bit 2 z), or the node found over that cell: so entry 0
/// lies above the vertex on all axes, and entry 7 below on all. An example: the root and its eight children have the keys 1, 8, 9, .., 15
/// at the places 0 to 8. The vertex in the middle of the cube, 0xf000000000000000 at level 1, then has the dual cell with the keys 15,
/// 14, .., 8 at the places 8, 7, .., 1. Entry 0 is 15, the child above on all axes, whose corner 0 is the vertex; entry 7 is 8, whose
/// corner 7 is.
#[derive(Clone, Copy, Debug, PartialEq)]
pub struct DualCell {
    pub keys: [u64; 8],
    pub distances: [f32; 8],
    pub places: [u64; 8],
    pub tried: u32,
}

/// What a lookup answers that is handed its out parameters.
fn looked_up(look_up: impl FnOnce(&mut u64, &mut f32, &mut u64, &mut u32) -> u32) -> Result<Lookup, Refusal> {
    let (mut found, mut distance, mut place, mut tried) = (0, 0.0, 0, 0);
    let number = look_up(&mut found, &mut distance, &mut place, &mut tried);
    let answer = match found {
        0 => Lookup::Nothing { tried },
        key => Lookup::Found { key, distance, place, tried },
    };
    accepted(number, answer)
}

/// What a call for a list answers that is handed both tables with their lengths, and the count's place.
fn listed(
    vertices: &mut [u64],
    levels: &mut [u8],
    list: impl FnOnce(*mut u64, u64, *mut u8, u64, &mut u64) -> u32,
) -> Result<usize, Refusal> {
    let mut count = 0;
    let number = list(vertices.as_mut_ptr(), vertices.len() as u64, levels.as_mut_ptr(), levels.len() as u64, &mut count);
    // No greater than the tables' lengths.
    accepted(number, count as usize)
}

/// What a call for a dual cell answers that is handed its out parameters.
fn around(dual_cell: impl FnOnce(&mut [u64; 8], &mut [f32; 8], &mut [u64; 8], &mut u32) -> u32) -> Result<DualCell, Refusal> {
    let mut cell = DualCell { keys: [0; 8], distances: [0.0; 8], places: [0; 8], tried: 0 };
    let number = dual_cell(&mut cell.keys, &mut cell.distances, &mut cell.places, &mut cell.tried);
    accepted(number, cell)
}

/// What a call for slabs answers that is handed its out parameters.
fn reached(slabs: impl FnOnce(&mut u32, &mut u32) -> u32) -> Result<RangeInclusive<u32>, Refusal> {
    let (mut first, mut last) = (0, 0);
    let number = slabs(&mut first, &mut last);
    accepted(number, first..=last)
}

/// What a call for lifetimes answers that is handed the three tables with their lengths, and the place of the greatest number.
fn reported(
    [first, last, needed]: [&mut [u32]; 3],
    lifetimes: impl FnOnce(*mut u32, u64, *mut u32, u64, *mut u32, u64, &mut u32) -> u32,
) -> Result<u32, Refusal> {
    let mut greatest = 0;
    let [f, l, n] = [first.len(), last.len(), needed.len()].map(|length| length as u64);
    let number = lifetimes(first.as_mut_ptr(), f, last.as_mut_ptr(), l, needed.as_mut_ptr(), n, &mut greatest);
    accepted(number, greatest)
}

/// No tree of so many nodes has more vertices: each split adds at most the middles of its cell, of six faces and of twelve edges.
pub fn most_vertices(nodes: usize) -> usize {
    19 * (nodes.saturating_sub(1) / 8)
}

impl<'a> Tree<'a> {
    /// Whether the tree is sound: as many keys as distances and first children; each distance finite; keys strictly ascending, first 1,
    /// all cell keys of level at most 15; each other key's parent present; each key with all eight children, whose first stands at the
    /// place beside the key, or with none and 0 there; the leaves exactly those with none, ascending.
    #[inline]
    pub fn sound(&self) -> bool {
        let sound = with_tree!(mittenhelm_sound, self);
        sound != 0
    }

    /// The tree, if it is sound, for calls that don't check it again; else the refusal that they would all give.
    pub fn checked(self) -> Result<SoundTree<'a>, Refusal> {
        if self.sound() {
            Ok(SoundTree { tree: self })
        } else {
            Err(Refusal { number: 11 })
        }
    }

    /// The deepest present of a cell key and its ancestors of level 1 or more.
    #[inline]
    pub fn look_up(&self, key: u64) -> Result<Lookup, Refusal> {
        looked_up(|found, distance, place, tried| with_tree!(mittenhelm_look_up, self, key, found, distance, place, tried))
    }

    /// Writes every vertex with its level, ascending, from a start place on into both tables. The answer is their number. Where both
    /// have `most_vertices` places from there on, the tree is gone over once, else twice.
    #[inline]
    pub fn list(&self, start: usize, vertices: &mut [u64], levels: &mut [u8]) -> Result<usize, Refusal> {
        listed(vertices, levels, |vertices, v, levels, l, count| {
            with_tree!(mittenhelm_list, self, start as u64, vertices, v, levels, l, count)
        })
    }

    /// The deepest ancestors of the cells of the level on the eight sides of an inner vertex.
    #[inline]
    pub fn dual_cell(&self, vertex: u64, level: u32) -> Result<DualCell, Refusal> {
        around(|keys, distances, places, tried| {
            with_tree!(mittenhelm_dual_cell, self, vertex, level, keys, distances, places, tried)
        })
    }

    /// The slabs that the dual cell of an inner vertex at a level reaches, of 2^exponent slabs (0 to 15) along z: from that of the
    /// lowest of its eight nodes' centres to that of the highest. A host prints the cell in each of them, and needs its nodes that long.
    ///
    /// An example: of the tree with the keys 1, 8, 9, .., 15 the vertex in the middle of the cube, at level 1, has nodes with their
    /// centres at the heights 1/4 and 3/4. Of two slabs its cell reaches 0 and 1, of four 1 to 3.
    #[inline]
    pub fn slabs(&self, vertex: u64, level: u32, exponent: u32) -> Result<RangeInclusive<u32>, Refusal> {
        reached(|first, last| with_tree!(mittenhelm_slabs, self, vertex, level, exponent, first, last))
    }

    /// Writes from which slab to which each leaf is needed, of 2^exponent slabs (0 to 15) along z, in the order of the leaves: from the
    /// least first slab to the greatest last one of all listed cells whose `dual_cell` has it. Where none has, which is so of the root
    /// alone, these are 1 and 0. And for each slab how many leaves are needed at it; the answer is the greatest of those numbers. The first
    /// two take a place for each leaf, the third one for each slab; further places stay as they were.
    ///
    /// An example: of the tree with the keys 1, 8, 9, .., 15 one cell has all eight leaves, and of four slabs it reaches 1 to 3. So each is
    /// needed from 1 to 3, the numbers for the slabs are 0, 8, 8 and 8, and the answer is 8.
    #[inline]
    pub fn lifetimes(&self, exponent: u32, first: &mut [u32], last: &mut [u32], needed: &mut [u32]) -> Result<u32, Refusal> {
        reported([first, last, needed], |first, f, last, l, needed, n, greatest| {
            with_tree!(mittenhelm_lifetimes, self, exponent, first, f, last, l, needed, n, greatest)
        })
    }
}

/// A tree that was found sound. It borrows its tables, so they stay as they were when they were checked.
#[derive(Clone, Copy, Debug)]
pub struct SoundTree<'a> {
    tree: Tree<'a>,
}

impl<'a> SoundTree<'a> {
    /// The tables.
    #[inline]
    pub fn tree(&self) -> Tree<'a> {
        self.tree
    }

    /// As `Tree::look_up`, without a check of the tree.
    #[inline]
    pub fn look_up(&self, key: u64) -> Result<Lookup, Refusal> {
        looked_up(|found, distance, place, tried| {
            with_nodes!(mittenhelm_look_up_trusting, self.tree, key, found, distance, place, tried)
        })
    }

    /// As `Tree::list`, without a check of the tree.
    #[inline]
    pub fn list(&self, start: usize, vertices: &mut [u64], levels: &mut [u8]) -> Result<usize, Refusal> {
        listed(vertices, levels, |vertices, v, levels, l, count| {
            with_tables!(mittenhelm_list_trusting, self.tree, [keys, firsts], start as u64, vertices, v, levels, l, count)
        })
    }

    /// Writes the vertices that are no less than `from`, ascending and each with its level, as many as have room in all three
    /// tables, and answers how many. `places` takes eight for each: those of its `DualCell`, in the same order. Who wants all and has
    /// room for one at least begins with 0, goes on with the last vertex + 1, and is done when fewer came than have room.
    #[inline]
    pub fn cells(&self, from: u64, vertices: &mut [u64], levels: &mut [u8], places: &mut [u64]) -> usize {
        let (v, l, p) = (vertices.len() as u64, levels.len() as u64, places.len() as u64);
        let (vertices, levels, places) = (vertices.as_mut_ptr(), levels.as_mut_ptr(), places.as_mut_ptr());
        let count = with_tables!(mittenhelm_cells_trusting, self.tree, [keys, firsts], from, vertices, v, levels, l, places, p);
        // No greater than the tables' lengths.
        count as usize
    }

    /// As `Tree::dual_cell`, without a check of the tree.
    #[inline]
    pub fn dual_cell(&self, vertex: u64, level: u32) -> Result<DualCell, Refusal> {
        around(|keys, distances, places, tried| {
            with_nodes!(mittenhelm_dual_cell_trusting, self.tree, vertex, level, keys, distances, places, tried)
        })
    }

    /// As `Tree::slabs`, without a check of the tree.
    #[inline]
    pub fn slabs(&self, vertex: u64, level: u32, exponent: u32) -> Result<RangeInclusive<u32>, Refusal> {
        reached(|first, last| {
            with_tables!(mittenhelm_slabs_trusting, self.tree, [keys, firsts], vertex, level, exponent, first, last)
        })
    }

    /// As `Tree::lifetimes`, without a check of the tree.
    #[inline]
    pub fn lifetimes(&self, exponent: u32, first: &mut [u32], last: &mut [u32], needed: &mut [u32]) -> Result<u32, Refusal> {
        reported([first, last, needed], |first, f, last, l, needed, n, greatest| {
            with_tables!(
                mittenhelm_lifetimes_trusting,
                self.tree,
                [keys, firsts],
                exponent,
                first,
                f,
                last,
                l,
                needed,
                n,
                greatest
            )
        })
    }
}

#[cfg(test)]
mod tests {
    use super::*;

    #[test]
    fn a_refusal_tells_its_number_and_reason() {
        let told = |number| Refusal { number }.to_string();
        assert_eq!(told(1), "refused 1: not a cell key");
        assert_eq!(told(10), "refused 10: the state doesn't fit the tables");
        assert_eq!(told(11), "refused 11: not a sound tree");
        assert_eq!(told(16), "refused 16: the distance is infinite or NaN");
        assert_eq!(told(17), "refused 17: a report table too short");
        assert!((1..=12).all(|number| !told(number).contains("doesn't know")));
        for number in [13, 15, 18, 99] {
            assert_eq!(told(number), format!("refused {number}: a number that this wrapper doesn't know"));
        }
    }
}
