//! Lists: every start place and every room around the edge, for both tables. `Given::list` sees to every place.

use crate::calls::{Given, Seen};
use mittenhelm::most_vertices;
use oracle_answers::inputs::Random;
use oracle_answers::model::Answer;
use oracle_answers::questions::{great_starts, lengths};
use oracle_answers::trees::{grown, of_splits, Growth, GROWTHS};

/// Start places, each with lengths of both tables, for a list of so many vertices: for each start of some all lengths around the
/// edges, and starts so great that none has room.
pub fn rooms(count: usize, starts: &[usize]) -> Vec<(usize, [usize; 2])> {
    let mut rooms = Vec::new();
    for &start in starts {
        let lengths = lengths(start, count);
        rooms.extend(lengths.iter().flat_map(|&vertices| lengths.iter().map(move |&levels| (start, [vertices, levels]))));
    }
    for start in great_starts(count) {
        for length in [0, 1, count, count + 1, count + 8] {
            rooms.extend([(start, [length, length + 3]), (start, [length + 3, length])]);
        }
    }
    rooms
}

/// What a list of so many vertices answers in a room.
pub fn in_room(count: usize, start: usize, lengths: [usize; 2]) -> Answer<usize> {
    let end = start.checked_add(count);
    Some(count).filter(|_| lengths.iter().all(|&length| matches!(end, Some(end) if end <= length))).ok_or(12)
}

fn list_around(given: &Given, starts: &[usize], seen: &mut Seen) {
    let count = given.vertices().len();
    for (start, lengths) in rooms(count, starts) {
        assert_eq!(given.list(start, lengths, seen), in_room(count, start, lengths));
    }
}

/// The root alone has an empty list, which fits at the end of a table; nine nodes have one vertex.
#[test]
fn every_start_and_length() {
    let (mut random, mut seen) = (Random::new(1), Seen::default());
    for (splits, count) in [(0, 0), (1, 1)] {
        let given = Given::new(grown(Growth::Even, splits, 15, &mut random));
        for start in 0..9 {
            for vertices in 0..12 {
                for levels in 0..12 {
                    let lengths = [vertices, levels];
                    assert_eq!(given.list(start, lengths, &mut seen), in_room(count, start, lengths));
                }
            }
        }
        list_around(&given, &(0..20).collect::<Vec<_>>(), &mut seen);
    }
    assert!(seen.empty_lists > 400 && seen.lists > 300, "{seen:?}");
    seen.assert_refused(1000, &[12]);
}

#[test]
fn around_the_edges() {
    let (mut random, mut seen) = (Random::new(2), Seen::default());
    for round in 0..60 {
        let given = Given::new(grown(GROWTHS[round % 3], 2 + round / 2, 15, &mut random));
        list_around(&given, &[0, 1, 2, random.below(50) as usize], &mut seen);
    }
    println!("lists around the edges: {seen:?}");
    assert!(seen.lists > 1500, "{seen:?}");
    seen.assert_refused(10_000, &[12]);
}

/// Trees of all sizes, in tables that are long enough.
#[test]
fn of_many_trees() {
    let (mut random, mut seen) = (Random::new(3), Seen::default());
    let mut levels = [0; 16];
    for round in 0..600 {
        let given = Given::new(grown(GROWTHS[round % 3], round / 5, 15, &mut random));
        let (start, more) = (random.below(30) as usize, random.below(3) as usize);
        let vertices = given.vertices();
        vertices.iter().for_each(|&(_, level)| levels[level as usize] += 1);
        assert_eq!(given.list(start, [start + vertices.len(), start + vertices.len() + more], &mut seen), Ok(vertices.len()));
    }
    println!("vertices of each level: {levels:?}");
    assert!(levels[1] > 3 && levels[2..].iter().all(|&seen| seen > 100), "{levels:?}");
    assert!(seen.lists > 550 && seen.empty_lists > 4, "{seen:?}");
}

#[test]
fn of_great_trees() {
    let (mut random, mut seen) = (Random::new(4), Seen::default());
    for (growth, splits) in [(Growth::Even, 512), (Growth::Any, 512), (Growth::Deep, 512), (Growth::Any, 700)] {
        let given = Given::new(grown(growth, splits, 15, &mut random));
        let count = given.vertices().len();
        for (start, lengths) in
            [(0, [count; 2]), (5, [count + 9, count + 5]), (5, [count + 4, count + 5]), (5, [count + 5, count + 4])]
        {
            assert_eq!(given.list(start, lengths, &mut seen), in_room(count, start, lengths));
        }
    }
}

/// The cells along the cube's diagonal, without those that touch its outside, after the nine splits of every build: two of them share a
/// corner at most, so each gives all 19 vertices that a split can. A list with fewer places than 19 of each split has to count first.
#[test]
fn of_the_most_vertices() {
    let mut seen = Seen::default();
    for splits in [9, 11, 200, 511] {
        let mut split: Vec<u64> = [1].into_iter().chain(8..16).chain([71, 120]).collect();
        // Of the eight children of such a cell, the first and the last lie on the diagonal.
        for next in 9.. {
            if split.len() >= splits {
                break;
            }
            split.extend([0, 7].map(|child| 8 * split[next] + child));
        }
        split.truncate(splits);
        let given = Given::new(of_splits(&split, |place| place as u32));
        let (count, most) = (given.vertices().len(), most_vertices(given.tables.keys.len()));
        assert_eq!((count, most), (27 + 19 * (splits - 9), 19 * splits));
        for start in [0, 5] {
            for room in [count - 1, count, 18 * splits - 1, 18 * splits, most - 1, most, most + 1] {
                for lengths in [[start + room, start + room], [start + room, start + most], [start + most, start + room]] {
                    assert_eq!(given.list(start, lengths, &mut seen), in_room(count, start, lengths));
                }
            }
        }
    }
    seen.assert_refused(24, &[12]);
}

/// A tree that isn't sound is told of first.
#[test]
fn refusals_in_their_order() {
    let (mut random, mut seen) = (Random::new(5), Seen::default());
    for splits in [0, 1, 9, 20] {
        let mut tables = grown(Growth::Any, splits, 15, &mut random);
        tables.leaves.pop();
        let given = Given::new(tables);
        for start in [0, 3, usize::MAX] {
            for lengths in [[0, 0], [2, 0], [300, 300]] {
                assert_eq!(given.list(start, lengths, &mut seen), Err(11));
            }
        }
    }
    seen.assert_refused(36, &[11]);
}
