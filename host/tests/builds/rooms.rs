//! Rooms that are exactly enough and one place too short, and a ring whose places are used again and again.

use crate::calls::Seen;
use crate::fields::{Case, Compared};
use oracle_answers::fields::{Kind, KINDS};
use oracle_answers::model::build::TABLES;

const BOUNDS: [u32; 8] = [0, 1, 2, 3, 4, 6, 9, 15];

/// The trees that fit in at most 4,096 nodes, of every kind and of bounds from the least to the greatest.
fn cases() -> impl Iterator<Item = Case> {
    let cases = KINDS.into_iter().flat_map(|kind| BOUNDS.map(|bound| Case::new(kind, bound, 500)));
    cases.filter(|case| case.tree.nodes.len() <= 4096)
}

/// The refusal where a table is too short.
const REFUSALS: [u32; TABLES] = [6, 6, 6, 7, 8];

/// Lengths with room for so many nodes.
fn rooms(nodes: usize, leaves: usize, queue: usize) -> [usize; TABLES] {
    [nodes, nodes, nodes, leaves, queue]
}

/// The lengths with one of them less.
fn short(needs: [usize; TABLES], table: usize, by: usize) -> [usize; TABLES] {
    let mut lengths = needs;
    lengths[table] -= by;
    lengths
}

/// Each table by itself: `Case::build` sees to it that the refusal comes at the right distance and changes nothing.
#[test]
fn exactly_enough_and_one_short() {
    let (mut compared, mut seen) = (Compared::default(), Seen::default());
    let mut tried = 0;
    for case in cases() {
        let needs = case.tree.needs();
        // README's memory table: n nodes have (7n + 1) / 8 leaves, and no longer a queue is needed.
        let [nodes, _, _, leaves, queue] = needs;
        assert!(leaves == (7 * nodes + 1) / 8 && queue <= leaves, "{needs:?}");
        assert_eq!(case.build(needs, &mut compared, &mut seen), None);
        for (table, refusal) in REFUSALS.into_iter().enumerate() {
            assert_eq!(case.build(short(needs, table, 1), &mut compared, &mut seen), Some(refusal));
            let longer = needs.map(|length| length + 1);
            assert_eq!(case.build(short(longer, table, 1), &mut compared, &mut seen), None);
            assert_eq!(case.build(short(longer, table, 2), &mut compared, &mut seen), Some(refusal));
        }
        tried += 1;
    }
    assert!(tried > 90, "{tried}");
    println!("{tried} trees: {compared:?}, {seen:?}");
}

/// Every length from 0 to what is needed, for a tree of 81 nodes, and queues beyond.
#[test]
fn every_length() {
    let (mut compared, mut seen) = (Compared::default(), Seen::default());
    let case = Case::of("document 01's tree of 81 nodes".to_string(), 3, Box::new(|p| if p == [0.125; 3] { 0.0 } else { 1.0 }));
    let needs = case.tree.needs();
    assert_eq!(needs, rooms(81, 71, 71));
    for (table, refusal) in REFUSALS.into_iter().enumerate() {
        for by in 1..=needs[table] {
            assert_eq!(case.build(short(needs, table, by), &mut compared, &mut seen), Some(refusal));
        }
    }
    for queue in 71..300 {
        assert_eq!(case.build(rooms(81, 71, queue), &mut compared, &mut seen), None);
    }
    // Where both are too short, nodes go before leaves and queue.
    assert_eq!(case.build([0; TABLES], &mut compared, &mut seen), Some(6));
    assert_eq!(case.build(rooms(1, 0, 0), &mut compared, &mut seen), Some(8));
    assert_eq!(case.build([80, 90, 90, 70, 71], &mut compared, &mut seen), Some(6));
    assert_eq!(case.build([90, 90, 80, 70, 71], &mut compared, &mut seen), Some(6));
}

/// Far more items than the ring has places pass through it, at every offset that a length of 64 to 90 gives.
#[test]
fn a_ring_goes_round() {
    let (mut compared, mut seen) = (Compared::default(), Seen::default());
    let mut most = 0;
    for seed in 0..20 {
        let case = Case::new(Kind::FarCorner, 15, seed);
        let [nodes, _, _, leaves, needed] = case.tree.needs();
        assert_eq!(needed, 64, "the last cells are split when few are waiting");
        most = most.max(case.tree.nodes.len() - 1);
        for queue in 64..=90 {
            assert_eq!(case.build(rooms(nodes, leaves, queue), &mut compared, &mut seen), None);
        }
    }
    assert!(most > 9 * 64, "at most {most} items went through a ring of 64");
}

/// A tree that doesn't end before 4,096 nodes, in tables that would hold more: with the longest queue that can be needed, and with
/// one place less.
#[test]
fn no_more_than_4096_nodes() {
    let (mut compared, mut seen) = (Compared::default(), Seen::default());
    let case = Case::of("all split".to_string(), 5, Box::new(|_| 0.0));
    let needs = 7 * 4095 + 8;
    for (lengths, refusal) in [
        (rooms(4096, 0, needs), 6),
        ([4097, 4096, 4098, 0, needs + 1], 6),
        (rooms(9000, 9000, needs + 8), 6),
        (rooms(9000, 1, needs - 1), 8),
        ([4095, 9000, 9000, 9000, needs - 1], 6),
        ([9000, 9000, 4095, 9000, needs - 1], 6),
    ] {
        assert_eq!(case.build(lengths, &mut compared, &mut seen), Some(refusal), "{lengths:?}");
    }
    // Leaves up to the last node that there is room for.
    let case = Case::of("level 4 whole".to_string(), 4, Box::new(|_| -0.0));
    assert_eq!(case.build(rooms(5000, 5000, 4100), &mut compared, &mut seen), Some(6));
    assert_eq!(case.build(rooms(5000, 4096 - 585, 4096), &mut compared, &mut seen), Some(6));
    assert_eq!(case.build(rooms(5000, 4095 - 585, 4096), &mut compared, &mut seen), Some(7));
    assert_eq!(case.build(rooms(5000, 4095 - 585, 4095), &mut compared, &mut seen), Some(8));
}
