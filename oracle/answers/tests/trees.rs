//! Trees of the published text: by the integer level they are document 01's; as published they differ. docs/DIFFERENCES.md tells
//! how.

use oracle_answers::fields::{cell_at, field, Kind, KINDS};
use oracle_answers::inputs::{first_cell, Random};
use oracle_answers::trees::{unreached, Field, Tree};
use oracle_answers::{compares_with_text, edges, integer, model, published};

fn keys(tree: &Tree) -> Vec<u64> {
    tree.nodes.iter().map(|node| node.request.key).collect()
}

fn deepest(tree: &Tree) -> u32 {
    tree.nodes.last().map_or(0, |node| model::level(node.request.key))
}

fn kinds_and_bounds() -> impl Iterator<Item = (Kind, u32)> {
    KINDS.into_iter().flat_map(|kind| (0..16).map(move |bound| (kind, bound)))
}

#[test]
fn the_integer_build_follows_the_rule() {
    if !compares_with_text() {
        return;
    }
    for (kind, bound) in kinds_and_bounds() {
        let field = field(kind, bound, &mut Random::new(bound as u64));
        let (rule, text) = (Tree::by_rule(bound, &*field), Tree::by_integer(bound, &*field));
        let bits = |tree: &Tree| -> Vec<_> {
            tree.nodes.iter().map(|n| (n.request.centre, n.request.half, n.distance.to_bits())).collect()
        };
        assert_eq!(keys(&rule), keys(&text), "{kind:?}, bound {bound}");
        assert!(bits(&rule) == bits(&text), "{kind:?}, bound {bound}");
        assert_eq!(rule.leaves, text.leaves, "{kind:?}, bound {bound}");
    }
}

/// Where nothing else is split, the published build still splits 64, whatever the bound: 81 nodes and 71 leaves, not 73 and 64.
#[test]
fn the_published_build_splits_64() {
    if !compares_with_text() {
        return;
    }
    for bound in 0..16 {
        for distance in [1.0, f32::MAX, f32::MIN] {
            let (ours, theirs) = (Tree::by_integer(bound, &move |_| distance), Tree::by_published(bound, &move |_| distance));
            assert_eq!((ours.nodes.len(), ours.leaves.len()), (73, 64));
            assert_eq!((theirs.nodes.len(), theirs.leaves.len()), (81, 71));
            assert_eq!(keys(&theirs)[..73], keys(&ours));
            assert_eq!(keys(&theirs)[73..], (512..520).collect::<Vec<u64>>());
            // All of the first 73 are compared but 8 and 64, the keys whose level is wrong.
            let reached = unreached(&ours, &theirs).iter().filter(|place| place.is_none()).count();
            assert_eq!(reached, 2);
        }
    }
}

/// A key whose level is wrong is asked for and tested as the cell of the level above that has its coordinates.
#[test]
fn what_a_wrong_key_is_taken_for() {
    if !compares_with_text() {
        return;
    }
    let mut random = Random::new(1);
    for level in 1..=21 {
        let (first, wrong) = (first_cell(level), edges::RECORDED[level as usize - 1]);
        for key in (0..wrong.min(10_000)).map(|i| first + i).chain((0..1000).map(|_| first + random.below(wrong))) {
            let taken_for = key - 7 * first_cell(level - 1);
            // Where `ln` is rounded otherwise the last ones may be right.
            if published::level(key) as u32 == level - 1 {
                assert_eq!(published::center(key), integer::center(taken_for), "key {key}");
                assert_eq!(published::size(key), integer::size(taken_for), "key {key}");
            }
        }
    }
}

/// For the first key that is its parent, which is split. So the published build splits each first key that the other asks for, and
/// ends a level below its bound.
#[test]
fn the_published_build_is_deeper() {
    if !compares_with_text() {
        return;
    }
    for bound in 2..16 {
        let origin: &Field = &|[x, y, z]| 0.5 * (x + y + z);
        let (ours, theirs) = (Tree::by_integer(bound, origin), Tree::by_published(bound, origin));
        assert_eq!((deepest(&ours), deepest(&theirs)), (bound, bound + 1));
        for first in (1..=bound).map(first_cell) {
            assert!(ours.place_of(first).is_some() && !theirs.is_leaf(first), "bound {bound}, key {first}");
        }
    }
    // The root and 8 are asked for at the same point, the root's centre.
    let asked: Vec<_> = Tree::by_published(2, &|_| 1.0).nodes.iter().map(|node| node.request.centre).collect();
    assert_eq!(asked[..2], [[0.5; 3]; 2]);
}

/// So no published tree is the other one: the first key that is a leaf there is split.
#[test]
fn no_published_tree_is_the_same() {
    if !compares_with_text() {
        return;
    }
    for (kind, bound) in kinds_and_bounds() {
        let field = field(kind, bound, &mut Random::new(bound as u64));
        let (ours, theirs) = (Tree::by_integer(bound, &*field), Tree::by_published(bound, &*field));
        let leaf = (0..=bound.max(2)).map(first_cell).find(|&first| ours.is_leaf(first)).expect("the tree ends somewhere");
        assert!(theirs.place_of(leaf).is_some() && !theirs.is_leaf(leaf), "{kind:?}, bound {bound}");
    }
}

/// Another wrong key, as there are from level 11 on, is taken for a cell that needn't be split: then the published build lacks
/// what the other has.
#[test]
fn the_published_build_lacks_nodes() {
    if !compares_with_text() {
        return;
    }
    let second = first_cell(11) + 1;
    let path: &Field = &move |p| if cell_at(p) == second || (0..11).any(|l| cell_at(p) == first_cell(l)) { 0.0 } else { 1.0 };
    let (ours, theirs) = (Tree::by_integer(12, path), Tree::by_published(12, path));
    assert_eq!((ours.is_leaf(second), theirs.is_leaf(second)), (false, true));
    assert!(ours.place_of(8 * second).is_some() && theirs.place_of(8 * second).is_none());
}
