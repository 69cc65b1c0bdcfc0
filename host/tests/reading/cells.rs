//! Dual cells of the vertices that a tree lists, and of every other inner vertex.

use crate::calls::{Given, Seen};
use oracle_answers::inputs::{first_cell, Random};
use oracle_answers::model::{is_inner, level, vertex};
use oracle_answers::trees::{grown, Growth, GROWTHS};

/// All that a tree lists. Such a cell holds leaves only.
#[test]
fn of_listed_vertices() {
    let (mut random, mut seen) = (Random::new(1), Seen::default());
    for round in 0..480 {
        let given = Given::new(grown(GROWTHS[round % 3], round / 5, 15, &mut random));
        for (vertex, level) in given.vertices() {
            let cell = given.dual_cell(vertex, level, &mut seen).expect("a listed vertex");
            assert!(cell.keys.iter().all(|key| given.tables.leaves.binary_search(key).is_ok()));
            assert!((8..=8 * 15).contains(&cell.tried));
        }
    }
    println!("dual cells of listed vertices: {seen:?}");
    assert!(seen.cells[1] > 3 && seen.cells[2..=15].iter().all(|&seen| seen > 100), "{seen:?}");
    seen.assert_refused(0, &[]);
}

/// The vertices of a tree at every other level too, and below a leaf those of the levels that no tree has.
#[test]
fn at_every_level() {
    let (mut random, mut seen) = (Random::new(2), Seen::default());
    let mut split_nodes = 0;
    for round in 0..150 {
        let given = Given::new(grown(GROWTHS[round % 3], 1 + round / 4, 15, &mut random));
        for (vertex, _) in given.vertices() {
            for level in (0..24).chain([33, u32::MAX]) {
                if let Ok(cell) = given.dual_cell(vertex, level, &mut seen) {
                    split_nodes += cell.keys.iter().filter(|key| given.tables.leaves.binary_search(key).is_err()).count();
                }
            }
        }
        for _ in 0..100 {
            let leaf = given.tables.leaves[random.below(given.tables.leaves.len() as u64) as usize];
            let deeper = random.below((20 - level(leaf) + 1) as u64) as u32;
            let cell = leaf << (3 * deeper) | random.bits() & (first_cell(deeper) - 1);
            match vertex(cell, level(cell), random.below(8) as u32) {
                Ok(0) => {}
                at => assert!(given.dual_cell(at.expect("a cell of level 20 at most"), level(cell), &mut seen).is_ok()),
            }
        }
    }
    println!("dual cells at every level, with {split_nodes} split nodes: {seen:?}");
    assert!(seen.cells[1..].iter().all(|&seen| seen > 100) && split_nodes > 10_000, "{seen:?}");
    seen.assert_refused(1000, &[4]);
}

/// Any number at any level: vertices anywhere in the cube, and what is nearly one.
#[test]
fn of_any_number() {
    let (mut random, mut seen) = (Random::new(3), Seen::default());
    for round in 0..3000 {
        let given = Given::new(grown(GROWTHS[round % 3], 1 + round % 40, 15, &mut random));
        for _ in 0..60 {
            let (vertex, level) = random.vertex_and_level();
            assert_eq!(given.dual_cell(vertex, level, &mut seen).is_ok(), is_inner(vertex, level));
        }
    }
    println!("dual cells of any number: {seen:?}");
    assert!(seen.cells[1..].iter().all(|&seen| seen > 2000), "{seen:?}");
    seen.assert_refused(20_000, &[4]);
}

/// The root alone has no dual cell, not even of an inner vertex; an unsound tree is told of first.
#[test]
fn refusals() {
    let (mut random, mut seen) = (Random::new(4), Seen::default());
    let root = Given::new(grown(Growth::Even, 0, 15, &mut random));
    let nine = Given::new(grown(Growth::Even, 1, 15, &mut random));
    let mut unsound = root.tables.clone();
    unsound.distances.clear();
    let unsound = Given::new(unsound);
    for level in 0..23 {
        for _ in 0..200 {
            let inner = if (1..=20).contains(&level) { random.vertex_of(level) } else { random.vertex_of(20) };
            for vertex in [inner, 15 << 60, random.number()] {
                assert_eq!(root.dual_cell(vertex, level, &mut seen), Err(4));
                assert_eq!(unsound.dual_cell(vertex, level, &mut seen), Err(11));
                assert_eq!(nine.dual_cell(vertex, level, &mut seen).is_ok(), is_inner(vertex, level));
            }
        }
    }
    seen.assert_refused(10_000, &[4, 11]);
}
