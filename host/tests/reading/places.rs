//! Vertices with the places of the nodes round them, some at a time. `Given::list` asks for them too, in the tables of every list.
//! The places are those of the dual cells, on tables that hold no sound tree too.

use crate::calls::{Given, Seen};
use mittenhelm::{SoundTree, Tree};
use oracle_answers::inputs::Random;
use oracle_answers::misled::FORGERIES;
use oracle_answers::trees::{grown, Growth, GROWTHS};

/// All lengths of the three tables up to room for two, or for three with part of a fourth, from each number around each vertex on.
#[test]
fn every_room() {
    let (mut random, mut seen) = (Random::new(1), Seen::default());
    for splits in 0..4 {
        let given = Given::new(grown(Growth::Even, splits, 15, &mut random));
        let mut from = vec![0, 1, u64::MAX];
        for (vertex, _) in given.vertices().into_iter().take(4) {
            from.extend([vertex - 1, vertex, vertex + 1]);
        }
        for &from in &from {
            for vertices in 0..3 {
                for levels in 0..3 {
                    for places in 0..30 {
                        given.cells(from, [vertices, levels, places], &mut seen);
                    }
                }
            }
        }
    }
    println!("every room: {} whole, {} cut and {} empty", seen.all_placed, seen.some_placed, seen.none_placed);
    assert!([seen.all_placed, seen.some_placed, seen.none_placed].iter().all(|&seen| seen > 500), "{seen:?}");
}

/// Goes over all vertices by so many at a time, as a host does: each with its level and its places.
fn in_batches(tree: SoundTree, room: usize) -> Vec<(u64, u32, [u64; 8])> {
    let (mut vertices, mut levels, mut places) = (vec![0; room], vec![0; room], vec![0; 8 * room]);
    let (mut all, mut from) = (Vec::new(), 0);
    loop {
        let count = tree.cells(from, &mut vertices, &mut levels, &mut places);
        for (i, eight) in places.chunks_exact(8).take(count).enumerate() {
            all.push((vertices[i], levels[i].into(), eight.try_into().expect("eight places")));
        }
        if count < room {
            return all;
        }
        from = vertices[room - 1] + 1;
    }
}

/// All batches together are the list, and their places are those of the dual cells, whose keys and distances they hold.
#[test]
fn in_batches_of_every_size() {
    let mut random = Random::new(2);
    let (mut batches, mut levels) = (0, [0; 16]);
    for round in 0..240 {
        let tables = grown(GROWTHS[round % 3], round / 4, 15, &mut random);
        let distances: Vec<f32> = tables.distances.iter().map(|&bits| f32::from_bits(bits)).collect();
        let tree = Tree { keys: &tables.keys, distances: &distances, firsts: &tables.firsts, leaves: &tables.leaves };
        let tree = tree.checked().expect("a sound tree");
        let vertices = Given::new(tables.clone()).vertices();
        for room in [1, 2, 1 + random.below(60) as usize, vertices.len().max(1), vertices.len() + 1] {
            let all = in_batches(tree, room);
            batches += all.len() / room + 1;
            assert_eq!(all.iter().map(|&(vertex, level, _)| (vertex, level)).collect::<Vec<_>>(), vertices);
            for (vertex, level, places) in all {
                let cell = tree.dual_cell(vertex, level).expect("a listed vertex");
                assert_eq!(places, cell.places, "{vertex:#x} of level {level}");
                assert_eq!(places.map(|place| tables.keys[place as usize]), cell.keys, "{vertex:#x} of level {level}");
                assert_eq!(places.map(|place| distances[place as usize]), cell.distances, "{vertex:#x} of level {level}");
                levels[level as usize] += 1;
            }
        }
    }
    println!("{batches} batches, vertices of each level: {levels:?}");
    assert!(levels[1] > 10 && levels[2..].iter().all(|&seen| seen > 100), "{levels:?}");
}

/// As a great tree is read: 512 at a time, and cut elsewhere.
#[test]
fn of_great_trees() {
    let (mut random, mut seen) = (Random::new(3), Seen::default());
    for (growth, splits) in [(Growth::Even, 512), (Growth::Any, 512), (Growth::Deep, 700)] {
        let given = Given::new(grown(growth, splits, 15, &mut random));
        let vertices = given.vertices();
        for room in [512, 1 + random.below(900) as usize] {
            for first in (0..vertices.len()).step_by(room) {
                let count = given.cells(vertices[first].0, [room, room, 8 * room], &mut seen);
                assert_eq!(count, room.min(vertices.len() - first));
            }
        }
    }
    assert!(seen.all_placed >= 6 && seen.some_placed > 6, "{seen:?}");
}

/// Whatever first children and keys are forged: each vertex that is handed out has a dual cell, which has the same eight places.
#[test]
fn of_misled_tables() {
    let (mut random, mut seen) = (Random::new(4), Seen::default());
    let mut unsound = 0;
    for (what, forge) in FORGERIES {
        let before = unsound;
        for round in 0..90 {
            let mut tables = grown(GROWTHS[round % 3], 1 + round / 3, [15, 3, 21][random.below(3) as usize], &mut random);
            forge(&mut tables, &mut random);
            let given = Given::new(tables);
            let vertices = given.cells_as_dual_cells(&mut seen);
            unsound += if given.reading.is_sound() { 0 } else { vertices };
        }
        println!("{what}: {} vertices", unsound - before);
    }
    assert!(unsound > 40_000, "{unsound}");
    assert_eq!((seen.trusted.whole_cells, seen.trusted.empty_cells), (unsound as u64, 0));
}
