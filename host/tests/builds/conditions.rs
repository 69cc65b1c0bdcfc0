//! Each condition of "a state fits its tables", broken alone and kept at its edge, and each order of refusals: with the numbers of
//! document 01 itself, beside the model's.

use crate::calls::{Pair, Seen};
use oracle_answers::forged::{garbage, Forged};
use oracle_answers::inputs::{first_cell, last_cell, BROKEN_DISTANCES, GREATEST_DISTANCES};
use oracle_answers::model::build::{STATE_WORDS, TABLES};

/// A state of so many nodes and leaves; every place of the queue holds 64, a cell of every grid.
fn state(bound: u64, n: u64, m: u64, asked: u64, lengths: [usize; TABLES]) -> Forged {
    let mut words = vec![bound, n, m, asked];
    words.extend(lengths.map(|length| length as u64));
    let mut tables = garbage(lengths);
    tables.queue.iter_mut().for_each(|key| *key = 64);
    Forged { words, tables }
}

/// The number that a distance is answered with.
fn said(forged: &Forged, distance: f32) -> u32 {
    let mut pair = Pair::new(forged.words.clone(), forged.tables.clone());
    pair.distance(distance, &mut Seen::default()).err().unwrap_or(0)
}

/// As above, for the greatest distances, which split no cell from level 2 on. A broken one, which is next to them, is refused by the same
/// number where that is 10 or 9, and else by 16.
fn number(forged: Forged) -> u32 {
    let [number, below] = GREATEST_DISTANCES.map(|greatest| said(&forged, greatest));
    assert_eq!(number, below);
    let broken = if [10, 9].contains(&number) { number } else { 16 };
    for bits in BROKEN_DISTANCES {
        assert_eq!(said(&forged, f32::from_bits(bits)), broken, "{bits:#x}");
    }
    number
}

/// Lengths for a state that asks for 100, a cell of level 2, while 8 of 24 places of the ring are taken: n is 16, m is 13.
const ENOUGH: [usize; TABLES] = [20, 21, 23, 22, 24];

/// The same but for leaves and queue.
fn nodes_and(leaves: usize, queue: usize) -> [usize; TABLES] {
    [20, 21, 23, leaves, queue]
}

/// Lengths with room for so many nodes.
fn rooms(nodes: usize, leaves: usize, queue: usize) -> [usize; TABLES] {
    [nodes, nodes, nodes, leaves, queue]
}

#[test]
fn lengths_are_those_of_the_start() {
    let whole = state(5, 16, 13, 100, ENOUGH);
    assert_eq!(number(whole.clone()), 0);
    for (table, right) in ENOUGH.into_iter().enumerate() {
        let right = right as u64;
        for length in [0, right - 1, right + 1, right + (1 << 32), right + (1 << 63), u64::MAX] {
            let mut other = whole.clone();
            other.words[4 + table] = length;
            assert_eq!(number(other), 10);
        }
        for longer in [false, true] {
            let mut other = whole.clone();
            other.resize(table, longer);
            assert_eq!(number(other), 10);
        }
    }
    for words in [0, 1, 7, STATE_WORDS - 1, STATE_WORDS + 1, 16] {
        let mut other = whole.clone();
        other.words.resize(words, 5);
        assert_eq!(number(other), 10);
    }
}

#[test]
fn the_bound_is_at_most_15() {
    for (bound, expected) in [(2, 0), (15, 0), (16, 10), (21, 10), (256, 10), (1 << 32, 10), (u64::MAX, 10)] {
        assert_eq!(number(state(bound, 16, 13, 100, ENOUGH)), expected, "bound {bound}");
    }
}

/// Where n equals the node room, no node has room; where m equals the leaf room, no leaf has, but a split needs none.
#[test]
fn counts_are_at_most_the_rooms() {
    for (nodes, expected) in [
        ([17, 17, 17], 0),
        ([16, 17, 17], 6),
        ([17, 16, 17], 6),
        ([17, 17, 16], 6),
        ([16, 16, 16], 6),
        ([15, 17, 17], 10),
        ([17, 15, 17], 10),
        ([17, 17, 15], 10),
        ([17, 17, 0], 10),
        ([0, 0, 0], 10),
    ] {
        let [keys, distances, firsts] = nodes;
        assert_eq!(number(state(5, 16, 13, 100, [keys, distances, firsts, 22, 24])), expected, "{nodes:?}");
    }
    for (n, m, expected) in [(4095, 3583, 0), (4096, 3584, 6), (4097, 3584, 10), (4104, 3591, 10)] {
        assert_eq!(number(state(5, n, m, 100, rooms(5000, 5000, 64))), expected, "n {n}");
    }
    for (leaves, unsplit, split) in [(14, 0, 0), (13, 7, 0), (12, 10, 10), (0, 10, 10)] {
        let other = state(5, 16, 13, 100, nodes_and(leaves, 24));
        assert_eq!((said(&other, 9.0), said(&other, 0.0)), (unsplit, split), "{leaves} leaves");
    }
}

/// 7n - 8m is at least 0 and at most the queue length; where fewer than 8 places are free, no split has room.
#[test]
fn waiting_items_are_at_most_the_queue() {
    for (n, m, expected) in
        [(16, 14, 0), (16, 15, 10), (17, 15, 10), (15, 13, 0), (15, 14, 10), (0, 0, 0), (0, 1, 10), (1, 2, 10)]
    {
        assert_eq!(number(state(5, n, m, 100, ENOUGH)), expected, "n {n}, m {m}");
    }
    for (queue, unsplit, split) in [(16, 0, 0), (15, 0, 8), (9, 0, 8), (8, 0, 8), (7, 10, 10), (1, 10, 10), (0, 10, 10)] {
        let other = state(5, 16, 13, 100, nodes_and(22, queue));
        assert_eq!((said(&other, 9.0), said(&other, 0.0)), (unsplit, split), "8 waiting in a queue of {queue}");
    }
    for (queue, split) in [(0, 8), (1, 8), (7, 8), (8, 0), (9, 0)] {
        let other = state(5, 16, 14, 100, nodes_and(22, queue));
        assert_eq!((said(&other, 9.0), said(&other, 0.0)), (0, split), "none waiting in a queue of {queue}");
    }
}

/// Numbers so great that 7n - 8m is 8 again, or 7n + 1 is 8m, modulo 2^64; and others that are cut to small ones.
#[test]
fn great_counts() {
    for (more_nodes, more_leaves) in [(0, 1 << 61), (0, 7 << 61), (1 << 63, 1 << 60), (1 << 62, 3 << 59)] {
        assert_eq!(number(state(5, 16 + more_nodes, 13 + more_leaves, 100, ENOUGH)), 10);
        assert_eq!(number(state(5, 17 + more_nodes, 15 + more_leaves, 0, ENOUGH)), 10);
    }
    for great in [1 << 32, 1 << 63, u64::MAX - 20] {
        assert_eq!(number(state(5, 16 + great, 13, 100, ENOUGH)), 10);
        assert_eq!(number(state(5, 16, 13 + great, 100, ENOUGH)), 10);
        assert_eq!(number(state(5, 16 + great, 13 + great, 100, ENOUGH)), 10);
    }
}

/// The asked key and the one that waits in front, of every bound.
#[test]
fn asked_and_next_key() {
    for bound in 0..16 {
        let finest = bound.max(2) as u32;
        let mut keys = vec![(1 << 63, 10), (u64::MAX, 10), (1 << 62, 10)];
        for level in 0..=21 {
            let expected = if level <= finest { 0 } else { 10 };
            keys.extend([(first_cell(level), expected), (last_cell(level), expected)]);
            if level < 21 {
                keys.extend([(last_cell(level) + 1, 10), (first_cell(level + 1) - 1, 10)]);
            }
        }
        for (key, expected) in keys {
            assert_eq!(number(state(bound, 16, 13, key, rooms(20, 20, 24))), expected, "bound {bound}, asked {key}");
            let mut next = state(bound, 16, 13, 64, rooms(20, 20, 24));
            next.tables.queue[16] = key;
            assert_eq!(number(next), expected, "bound {bound}, next {key}");
            // The key in front is read only if it waits.
            let mut last = state(bound, 16, 14, 64, rooms(20, 20, 24));
            last.tables.queue[16] = key;
            assert_eq!(number(last), 0, "bound {bound}, none waiting, {key} in the queue");
        }
        // 0 in front is no cell; as the asked key it says that nothing is asked.
        let mut next = state(bound, 16, 13, 64, rooms(20, 20, 24));
        next.tables.queue[16] = 0;
        assert_eq!(number(next), 10);
        for (n, m, expected) in [(17, 15, 9), (1, 1, 9), (9, 8, 9), (16, 13, 10), (16, 14, 10), (17, 14, 10), (0, 0, 10)] {
            assert_eq!(number(state(bound, n, m, 0, rooms(20, 20, 24))), expected, "bound {bound}, n {n}, m {m}, nothing asked");
        }
        // 9 goes before 6, and a finished tree may fill its tables.
        assert_eq!(number(state(bound, 17, 15, 0, rooms(17, 15, 0))), 9);
        assert_eq!(number(state(bound, 17, 15, 0, [16, 17, 17, 15, 0])), 10);
        assert_eq!(number(state(bound, 17, 15, 0, [17, 17, 16, 15, 0])), 10);
        assert_eq!(number(state(bound, 17, 15, 0, rooms(17, 14, 0))), 10);
    }
}

/// Where several refusals hold, the first in document 01's order is told.
#[test]
fn refusals_in_their_order() {
    let all = |forged: &Forged| [0.0, 9.0, f32::INFINITY, f32::NEG_INFINITY, f32::NAN].map(|distance| said(forged, distance));
    let full = state(5, 16, 13, 100, rooms(16, 13, 15));
    // No node, no leaf and no children have room: 6, whatever the distance, so long as it is one.
    assert_eq!(all(&full), [6, 6, 16, 16, 16]);
    let full = state(5, 16, 13, 100, rooms(17, 13, 15));
    assert_eq!(all(&full), [8, 7, 16, 16, 16]);
    assert_eq!(all(&state(5, 16, 13, 100, ENOUGH)), [0, 0, 16, 16, 16]);
    // Nothing is asked, in tables that a finished tree fills: 9.
    assert_eq!(all(&state(5, 17, 15, 0, rooms(17, 15, 0))), [9; 5]);
    // A state that doesn't fit: 10.
    for word in 0..STATE_WORDS {
        let mut other = full.clone();
        other.words[word] = u64::MAX;
        assert_eq!(all(&other), [10; 5]);
    }
}

/// A cell of level 0 or 1 is split by every finite distance, and by no broken one: 16, and not the 8 or 0 of a split.
#[test]
fn broken_distances_of_the_first_levels() {
    for asked in [1, 8, 15] {
        for (queue, split) in [(15, 8), (16, 0)] {
            let forged = state(5, 16, 13, asked, nodes_and(22, queue));
            assert_eq!(number(forged), split, "{asked} in a queue of {queue}");
        }
    }
}

/// Starts of every bound and other numbers, in tables of all lengths, with the words of a state and others.
#[test]
fn starts() {
    let mut seen = Seen::default();
    let bounds = (0..=20).chain([255, 256, 1 << 16, 1 << 31, (1 << 31) + 15, u32::MAX]);
    for bound in bounds {
        for words in [0, 1, 7, 8, 9, 10, 16] {
            for lengths in [[0; TABLES], [1, 2, 3, 4, 5], [4095, 4096, 4097, 4098, 5000], rooms(73, 64, 64), [5000, 0, 9, 1, 63]]
            {
                let mut pair = Pair::new(vec![0xbad; words], garbage(lengths));
                let expected = if bound > 15 {
                    Err(5)
                } else if words == STATE_WORDS {
                    Ok(1)
                } else {
                    Err(10)
                };
                let asked = pair.start(bound, &mut seen).map(|request| request.key);
                assert_eq!(asked, expected, "bound {bound}, {words} words, tables of {lengths:?}");
            }
        }
    }
    assert_eq!(seen.started, 16 * 5);
}
