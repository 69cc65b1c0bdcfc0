//! Vertices of the published text: what it lacks where its `level` of a leaf is wrong.

use oracle_answers::fields::cell_at;
use oracle_answers::inputs::first_cell;
use oracle_answers::trees::{Field, Tree};
use oracle_answers::{compares_with_text, edges, integer, published};
use std::collections::BTreeMap;

/// A leaf whose level is wrong has no vertex by it: as a cell of the level above it would lie on the cube's outside.
#[test]
fn a_leaf_of_a_wrong_level_gives_no_vertex() {
    if !compares_with_text() {
        return;
    }
    for level in 1..=15 {
        for leaf in (first_cell(level)..).take(edges::RECORDED[level as usize - 1] as usize) {
            assert_eq!(published::level(leaf) + 1, level as usize);
            let vertices = |level| (0..8).map(move |corner| published::primal_vertex(leaf, level, corner));
            assert!(vertices(level as usize - 1).all(|vertex| vertex == 0), "key {leaf}");
            assert!(vertices(level as usize).any(|vertex| vertex != 0), "key {leaf}");
        }
    }
}

/// Up to level 11 a leaf beside it gives the same vertices. From 12 on all eight cells at the origin are wrong: of a tree that is
/// split there level by level, the vertices of these levels are missing, and one has the level 11 instead of its greatest.
#[test]
fn vertices_that_are_missing() {
    if !compares_with_text() {
        return;
    }
    for deepest in 2..=15 {
        let origin: &Field = &move |p| if (0..deepest).any(|level| cell_at(p) == first_cell(level)) { 0.0 } else { 1.0 };
        let tree = Tree::by_integer(deepest, origin).tables();
        let ours = integer::compute_primal_vertices(&tree.keys, &tree.leaves);
        let theirs: BTreeMap<u64, usize> = published::compute_primal_vertices(&tree.keys, &tree.leaves).into_iter().collect();
        let missing = ours.iter().filter(|(vertex, _)| !theirs.contains_key(vertex)).count();
        let lower: Vec<usize> =
            ours.iter().filter_map(|(vertex, level)| theirs.get(vertex).copied().filter(|l| l < level)).collect();
        assert_eq!(ours.len() - theirs.len(), missing);
        assert_eq!(missing, 7 * deepest.saturating_sub(11) as usize, "level {deepest}");
        assert_eq!(lower, if deepest < 12 { vec![] } else { vec![11] }, "level {deepest}");
    }
}
