//! Vertices and dual cells of real trees against the published text: its `compute_primal_vertices`, as a set with levels, and the
//! search for eight nodes of its `extract_surface`. The slabs of the cells, and from which to which a leaf is needed, are those of the
//! heights that its `center` has.

use crate::calls::{Given, Seen};
use oracle_answers::fields::{field, Kind};
use oracle_answers::inputs::Random;
use oracle_answers::model::level;
use oracle_answers::model::reading::{DualCell, Tables};
use oracle_answers::trees::{grown, unreached, Tree, GROWTHS};
use oracle_answers::{compares_with_text, integer, published};
use std::collections::{BTreeMap, BTreeSet};

/// What was compared.
#[derive(Debug, Default)]
struct Compared {
    trees: u64,
    vertices: u64,
    /// Vertices that the published build has too, with the same level, for our tree; and those that a differing level reaches.
    published: u64,
    reached: u64,
    /// Dual cells of the published build's own tree that are ours; and those that a differing level reaches.
    own_cells: u64,
    own_reached: u64,
    /// Cells whose slabs are those of the published build's centres too, since no level of a node differs.
    published_slabs: u64,
    /// Leaves that are needed, by exponent.
    needed: [u64; 16],
}

type Vertices = Vec<(u64, usize)>;

/// Where the text found eight nodes.
fn found(places: [Option<usize>; 8]) -> [usize; 8] {
    places.map(|place| place.expect("the text finds a node"))
}

/// The eight nodes at these places of a tree. The text has no count of keys tried.
fn nodes(tables: &Tables, places: [usize; 8]) -> ([u64; 8], [u32; 8]) {
    (places.map(|place| tables.keys[place]), places.map(|place| tables.distances[place]))
}

/// The slabs of a cell at every exponent, by the centres that a build gives its nodes. An f32 holds a height times 2^15.
fn compare_slabs(given: &Given, vertex: u64, level: u32, centres: [[f32; 3]; 8]) {
    let heights = centres.map(|[_, _, z]| z);
    let (lowest, highest) = (heights.into_iter().fold(1.0, f32::min), heights.into_iter().fold(0.0, f32::max));
    for exponent in 0..16 {
        let slabs = [lowest, highest].map(|height| (height * (1 << exponent) as f32) as u32);
        assert_eq!(given.ask_slabs_trusting(vertex, level, exponent), (0, slabs), "{vertex:#x}, {level}, {exponent}");
    }
}

/// When each leaf is needed, by the integer build's centres of the nodes of all cells.
fn compare_lifetimes(given: &Given, cells: &[(u64, u32, DualCell)], exponent: u32, compared: &mut Compared) {
    let mut spans: BTreeMap<u64, [u32; 2]> = BTreeMap::new();
    for (_, _, cell) in cells {
        let slabs = cell.keys.map(|key| (integer::center(key)[2] * (1 << exponent) as f32) as u32);
        let (first, last) = slabs.iter().fold((u32::MAX, 0), |(first, last), &slab| (first.min(slab), last.max(slab)));
        for key in cell.keys {
            let span = spans.entry(key).or_insert([first, last]);
            *span = [span[0].min(first), span[1].max(last)];
        }
    }
    compared.needed[exponent as usize] += spans.len() as u64;
    // No cell has the root alone.
    let expected: Vec<[u32; 2]> = given.tables.leaves.iter().map(|leaf| spans.remove(leaf).unwrap_or([1, 0])).collect();
    assert!(spans.is_empty(), "cells have what is no leaf: {spans:?}");
    assert!(given.ask_lifetimes(exponent) == expected, "exponent {exponent} of {:?}", given.tables.keys);
}

fn eight(cell: DualCell) -> ([u64; 8], [u32; 8]) {
    (cell.keys, cell.distances)
}

/// The list of a tree and each dual cell with its slabs: ours, the model's and the integer build's. Hands on the vertices with their dual
/// cells.
fn compare(given: &Given, seen: &mut Seen, compared: &mut Compared) -> Vec<(u64, u32, DualCell)> {
    let vertices = given.vertices();
    assert_eq!(given.list(0, [vertices.len(); 2], seen), Ok(vertices.len()));
    let cell = |(vertex, level)| (vertex, level, given.dual_cell(vertex, level, seen).expect("a listed vertex"));
    let ours: Vec<_> = vertices.into_iter().map(cell).collect();
    if compares_with_text() {
        let Tables { keys, leaves, .. } = &given.tables;
        let listed: Vertices = ours.iter().map(|&(vertex, level, _)| (vertex, level as usize)).collect();
        assert!(listed == integer::compute_primal_vertices(keys, leaves), "ours and the integer build's vertices");
        for searched in [
            integer::search_eight_nodes(keys, leaves, &listed),
            // The search asks for no level of a key, so no differing one reaches it.
            published::search_eight_nodes(keys, leaves, &listed),
        ] {
            for (&(vertex, _, cell), places) in ours.iter().zip(searched.into_iter().map(found)) {
                assert_eq!(cell.places, places.map(|place| place as u64), "the dual cell of {vertex:#x}");
                assert_eq!(eight(cell), nodes(&given.tables, places), "the dual cell of {vertex:#x}");
            }
        }
        for &(vertex, level, cell) in &ours {
            compare_slabs(given, vertex, level, cell.keys.map(integer::center));
            if !cell.keys.iter().any(|&key| is_wrong(key)) {
                compare_slabs(given, vertex, level, cell.keys.map(published::center));
                compared.published_slabs += 1;
            }
        }
        // Each exponent in turn, and a fine one.
        for exponent in [compared.trees as u32 % 16, 15 - compared.trees as u32 % 2] {
            compare_lifetimes(given, &ours, exponent, compared);
        }
    }
    ours
}

/// The vertices that a leaf has by one of the builds.
fn given_by(leaf: u64, level: usize, vertex: fn(u64, usize, usize) -> u64) -> impl Iterator<Item = u64> {
    (0..8).map(move |corner| vertex(leaf, level, corner)).filter(|&vertex| vertex != 0)
}

fn is_wrong(leaf: u64) -> bool {
    published::level(leaf) != integer::level(leaf)
}

/// What leaves whose published level is wrong give by it.
fn wrongly_given(leaves: &[u64]) -> BTreeSet<u64> {
    let wrong = leaves.iter().filter(|&&leaf| is_wrong(leaf));
    wrong.flat_map(|&leaf| given_by(leaf, published::level(leaf), published::primal_vertex)).collect()
}

/// The published build's vertices of the same tree: those that no leaf of a wrong level gives, by either level, are the same.
fn compare_published(given: &Given, ours: &[(u64, u32, DualCell)], compared: &mut Compared) {
    let Tables { keys, leaves, .. } = &given.tables;
    let mut reached = wrongly_given(leaves);
    for &leaf in leaves.iter().filter(|&&leaf| is_wrong(leaf)) {
        reached.extend(given_by(leaf, integer::level(leaf), integer::primal_vertex));
    }
    let unreached = |&(vertex, _): &(u64, usize)| !reached.contains(&vertex);
    let ours: Vertices = ours.iter().map(|&(vertex, level, _)| (vertex, level as usize)).filter(unreached).collect();
    let theirs: Vertices = published::compute_primal_vertices(keys, leaves).into_iter().filter(unreached).collect();
    assert!(ours == theirs, "ours and the published build's vertices");
    compared.published += ours.len() as u64;
    compared.reached += reached.len() as u64;
}

/// The published build from the field on, over the tree that it builds itself. A dual cell whose eight nodes no differing level
/// reaches, all of them leaves there too, is the same, and its vertex has the same level, unless a leaf of a wrong level gives it.
fn compare_own(tree: &Tree, theirs: &Tree, ours: &[(u64, u32, DualCell)], compared: &mut Compared) {
    let places = unreached(tree, theirs);
    let tables = theirs.tables();
    let vertices = published::compute_primal_vertices(&tables.keys, &tables.leaves);
    let wrong = wrongly_given(&tables.leaves);
    let is_same = |key: &u64| theirs.is_leaf(*key) && tree.place_of(*key).map_or(false, |place| places[place].is_some());
    let (same, reached): (Vec<_>, Vec<_>) =
        ours.iter().partition(|(vertex, _, cell)| cell.keys.iter().all(is_same) && !wrong.contains(vertex));
    let levels: BTreeMap<u64, usize> = vertices.into_iter().collect();
    let listed: Vertices = same.iter().map(|&&(vertex, level, _)| (vertex, level as usize)).collect();
    for (vertex, level) in &listed {
        assert_eq!(levels.get(vertex), Some(level), "the published level of {vertex:#x}");
    }
    let searched = published::search_eight_nodes(&tables.keys, &tables.leaves, &listed);
    for (&&(vertex, _, cell), places) in same.iter().zip(searched) {
        assert_eq!(eight(cell), nodes(&tables, found(places)), "the published dual cell of {vertex:#x}");
    }
    compared.own_cells += same.len() as u64;
    compared.own_reached += reached.len() as u64;
}

/// So many vertices have room in the table that README.md says is enough: 27 of the nine splits of every build, 19 of each other.
fn assert_within_bound(nodes: usize, vertices: usize) {
    let others = ((nodes - 1) / 8).checked_sub(9).expect("the root and its children are split");
    assert!(vertices <= 27 + 19 * others, "{vertices} vertices of {nodes} nodes");
}

/// Fields of each kind and bound: with 13 kinds and 16 bounds, 1,248 trees, all but a few of up to 4,096 nodes.
const FIELDS: u64 = 6;

/// Trees of one kind, of every bound.
fn trees_of(kind: Kind) {
    let (mut compared, mut seen) = (Compared::default(), Seen::default());
    for bound in 0..16 {
        for seed in 0..FIELDS {
            let field = field(kind, bound, &mut Random::new((kind as u64) << 32 | (bound as u64) << 16 | 800 + seed));
            let tree = if compares_with_text() { Tree::by_integer(bound, &*field) } else { Tree::by_rule(bound, &*field) };
            if tree.nodes.len() > 4096 {
                continue;
            }
            let given = Given::new(tree.tables());
            let ours = compare(&given, &mut seen, &mut compared);
            assert_within_bound(tree.nodes.len(), ours.len());
            if compares_with_text() {
                compare_published(&given, &ours, &mut compared);
                compare_own(&tree, &Tree::by_published(bound, &*field), &ours, &mut compared);
            }
            compared.trees += 1;
            compared.vertices += ours.len() as u64;
        }
    }
    println!("{kind:?}: {compared:?}");
    assert!(compared.trees > 80 && compared.vertices > 27 * compared.trees, "{compared:?}");
    if compares_with_text() {
        assert!(compared.published > compared.vertices / 10 * 8 && compared.reached >= compared.trees, "{compared:?}");
        assert!(compared.own_cells > compared.vertices / 10 * 8 && compared.own_reached >= compared.trees, "{compared:?}");
        assert!(compared.published_slabs > compared.vertices / 10 * 8, "{compared:?}");
        assert!(compared.needed.iter().all(|&leaves| leaves > 64), "{compared:?}");
    }
}

of_each_kind!(trees_of);

/// Sound trees that no build makes: the text reads them alike.
#[test]
fn grown_trees() {
    let (mut random, mut seen, mut compared) = (Random::new(1), Seen::default(), Compared::default());
    let mut deepest = 0;
    for round in 0..600 {
        let given = Given::new(grown(GROWTHS[round % 3], round / 10, 15, &mut random));
        let ours = compare(&given, &mut seen, &mut compared);
        if compares_with_text() {
            compare_published(&given, &ours, &mut compared);
        }
        compared.trees += 1;
        deepest += (level(*given.tables.keys.last().expect("a root")) == 15) as u64;
    }
    println!("grown trees, {deepest} of level 15: {compared:?}");
    assert!(deepest > 50, "{deepest}");
}
