//! Lookups of every kind: each level, keys that are there, keys whose ancestor is, and what is no cell key.

use crate::calls::{Given, Seen};
use oracle_answers::inputs::{first_cell, last_cell, powers, Random};
use oracle_answers::model::reading::Lookup;
use oracle_answers::model::{level, DEEPEST};
use oracle_answers::questions::below;
use oracle_answers::trees::{grown, Growth, GROWTHS};

/// The number of keys tried is that of the climb, which the levels settle.
fn assert_climbed(asked: u64, answer: Lookup) {
    match answer {
        Lookup::Found { key, tried, .. } => {
            assert_eq!(asked >> (3 * (tried - 1)), key);
            assert!((1..=21).contains(&tried) && key != 1);
        }
        Lookup::Nothing { tried } => assert_eq!(tried, level(asked)),
    }
}

#[test]
fn of_grown_trees() {
    let (mut random, mut seen) = (Random::new(1), Seen::default());
    for round in 0..4_000 {
        let growth = GROWTHS[round % 3];
        let given = Given::new(grown(growth, round / 3 % 60, 15, &mut random));
        for _ in 0..150 {
            let key = given.asked(&mut random);
            if let Ok(answer) = given.look_up(key, &mut seen) {
                assert_climbed(key, answer);
            }
        }
    }
    println!("lookups: {seen:?}");
    seen.assert_refused(10_000, &[1]);
    // The root is never found; deeper than level 15 nothing is there itself. Nothing at all is found for the root, or in it alone.
    assert!(seen.itself[1..=15].iter().all(|&seen| seen > 500) && seen.itself[0] == 0, "{seen:?}");
    assert!(seen.itself[16..].iter().all(|&seen| seen == 0), "{seen:?}");
    assert!(seen.ancestor[2..].iter().all(|&seen| seen > 500), "{seen:?}");
    assert!(seen.nothing.iter().all(|&seen| seen > 10), "{seen:?}");
}

/// Every key of a tree, and below each leaf the first, the last and one more of every level.
#[test]
fn of_every_key() {
    let (mut random, mut seen) = (Random::new(2), Seen::default());
    for (splits, growth) in [(0, Growth::Even), (1, Growth::Even), (9, Growth::Even), (40, Growth::Any), (40, Growth::Deep)] {
        let given = Given::new(grown(growth, splits, 15, &mut random));
        for (stands_at, &key) in (0..).zip(&given.tables.keys) {
            let answer = given.look_up(key, &mut seen);
            let itself = matches!(answer, Ok(Lookup::Found { key: k, place, tried: 1, .. }) if (k, place) == (key, stands_at));
            assert_eq!(itself, key != 1);
        }
        for &leaf in &given.tables.leaves {
            for at in level(leaf) + 1..=DEEPEST {
                let deeper = 3 * (at - level(leaf));
                let (first, last) = (leaf << deeper, (leaf << deeper) + ((1 << deeper) - 1));
                for key in [first, last, below(leaf, at, &mut random)] {
                    let answer = given.look_up(key, &mut seen).expect("a cell key");
                    let tried = at - level(leaf) + 1;
                    let found = |key, tried| matches!(answer, Lookup::Found { key: k, tried: t, .. } if (k, t) == (key, tried));
                    assert!(found(leaf, tried) || (leaf == 1 && answer == Lookup::Nothing { tried: at }), "{answer:?}");
                }
            }
        }
    }
    seen.assert_refused(0, &[]);
}

/// Numbers at which something changes, in a tree of one node and in others; the order 11, 1.
#[test]
fn of_any_number() {
    let (mut random, mut seen) = (Random::new(3), Seen::default());
    for splits in [0, 1, 2, 9, 30] {
        let mut given = Given::new(grown(Growth::Any, splits, 15, &mut random));
        let edges = (0..=DEEPEST).flat_map(|level| [first_cell(level), last_cell(level)]);
        let numbers: Vec<u64> = powers().into_iter().chain(edges).chain((0..2000).map(|_| random.number())).collect();
        for &number in &numbers {
            let _ = given.look_up(number, &mut seen);
        }
        assert_eq!(given.look_up(1, &mut seen), Ok(Lookup::Nothing { tried: 0 }));
        assert_eq!(given.look_up(0, &mut seen), Err(1));
        assert_eq!(given.look_up(8, &mut seen) == Ok(Lookup::Nothing { tried: 1 }), splits == 0);

        let mut tables = given.tables.clone();
        tables.distances.push(0);
        given = Given::new(tables);
        for &number in &numbers {
            assert_eq!(given.look_up(number, &mut seen), Err(11));
        }
    }
    seen.assert_refused(2000, &[1, 11]);
}
