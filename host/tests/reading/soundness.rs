//! Which trees are sound: real ones, each condition broken alone, and tables that hold anything.

use crate::calls::{Given, Seen};
use oracle_answers::broken::{change, BREAKS};
use oracle_answers::fields::{field, KINDS};
use oracle_answers::inputs::{first_cell, last_cell, Random, BROKEN_DISTANCES, GREATEST_DISTANCES};
use oracle_answers::model::level;
use oracle_answers::model::reading::{firsts_of, Tables};
use oracle_answers::trees::{grown, of_splits, small, Growth, Tree};

#[test]
fn each_condition_broken() {
    let (mut random, mut seen) = (Random::new(1), Seen::default());
    for (what, break_it) in BREAKS {
        let mut broken = 0;
        for _ in 0..40_000 {
            let mut tables = small(&mut random);
            if break_it(&mut tables, &mut random).is_none() {
                continue;
            }
            let given = Given::new(tables);
            assert!(!given.sound(&mut seen), "{what}: {:?}", given.tables);
            broken += 1;
            if broken == 2000 {
                break;
            }
            if broken % 4 == 0 {
                given.every_call(&mut random, &mut seen);
            }
        }
        assert_eq!(broken, 2000, "{what}");
    }
    println!("each condition broken: {seen:?}");
    assert!(seen.sound == 0 && seen.unsound > 78_000, "{seen:?}");
    seen.assert_refused(30_000, &[11]);
    seen.trusted.assert_every_answer(10);
}

/// A broken distance at every place of a tree, alone: no call that checks it reads it. The greatest distances are next to those, and sound.
#[test]
fn one_distance_broken() {
    let (mut random, mut seen) = (Random::new(6), Seen::default());
    for splits in [0, 1, 9, 10, 30] {
        let tables = grown(Growth::Any, splits, 15, &mut random);
        for place in 0..tables.keys.len() {
            for greatest in GREATEST_DISTANCES {
                let mut other = tables.clone();
                other.distances[place] = greatest.to_bits();
                assert!(Given::new(other).sound(&mut seen), "{greatest:e} at {place}");
            }
            for bits in BROKEN_DISTANCES {
                let mut other = tables.clone();
                other.distances[place] = bits;
                let given = Given::new(other);
                assert!(!given.sound(&mut seen), "{bits:#x} at {place}");
                assert_eq!(given.look_up(tables.keys[place], &mut seen), Err(11));
                assert_eq!(given.list(0, [2000; 2], &mut seen), Err(11));
                assert_eq!(given.dual_cell(15 << 60, 1, &mut seen), Err(11));
            }
        }
    }
    println!("one distance broken: {seen:?}");
    assert_eq!((seen.sound, seen.unsound, seen.refused[11]), (2 * 405, 10 * 405, 30 * 405));
}

/// Real trees of every kind and bound; grown ones, of the root alone, of nine nodes and up to level 15.
#[test]
fn sound_trees() {
    let (mut random, mut seen) = (Random::new(2), Seen::default());
    for kind in KINDS {
        for bound in 0..16 {
            let tree = Tree::by_rule(bound, &*field(kind, bound, &mut random));
            assert!(Given::new(tree.tables()).sound(&mut seen));
        }
    }
    let (mut least, mut deepest) = ([0, 0], 0);
    for _ in 0..5000 {
        let tables = small(&mut random);
        least[0] += (tables.keys.len() == 1) as u64;
        least[1] += (tables.keys.len() == 9) as u64;
        deepest += (level(*tables.keys.last().expect("a root")) == 15) as u64;
        let given = Given::new(tables);
        assert!(given.sound(&mut seen));
        given.every_call(&mut random, &mut seen);
    }
    println!("{least:?} of 1 and of 9 nodes, {deepest} of level 15: {seen:?}");
    assert!(least.iter().all(|&seen| seen > 100) && deepest > 200, "{least:?}, {deepest}");
    assert!(seen.unsound == 0);
}

/// A tree that is read may have more than 4,096 nodes, up to 65,537: whole, and with the last nodes broken.
#[test]
fn more_than_4096_nodes() {
    let (mut random, mut seen) = (Random::new(3), Seen::default());
    for (growth, splits) in
        [(Growth::Even, 585), (Growth::Even, 8192), (Growth::Any, 513), (Growth::Any, 2000), (Growth::Deep, 1000)]
    {
        let given = Given::new(grown(growth, splits, 15, &mut random));
        assert!(given.tables.keys.len() > 4096 && given.sound(&mut seen));
        given.look_up(given.tables.keys[8 * splits], &mut seen).expect("a cell key");
        let (last, leaf) = (given.tables.keys.len() - 1, given.tables.leaves.len() - 1);
        for change in [
            (|tables, _, _| tables.distances.truncate(tables.keys.len() - 1)) as fn(&mut Tables, usize, usize),
            |tables, last, _| tables.distances[last] = f32::NAN.to_bits(),
            |tables, last, _| tables.distances[last / 2] = f32::INFINITY.to_bits(),
            |tables, last, _| tables.keys[last] += 1,
            |tables, last, _| tables.keys.swap(last, last - 1),
            |tables, _, leaf| tables.leaves[leaf] -= 1,
            |tables, _, leaf| tables.leaves.truncate(leaf),
            |tables, _, _| tables.firsts.truncate(tables.keys.len() - 1),
            |tables, last, _| tables.firsts[last] = 1,
            |tables, last, _| *tables.firsts[..last].iter_mut().rev().find(|first| **first > 0).expect("a split node") += 8,
            |tables, last, leaf| {
                tables.keys.truncate(last);
                tables.distances.truncate(last);
                tables.firsts.truncate(last);
                tables.leaves.truncate(leaf);
            },
        ] {
            let mut tables = given.tables.clone();
            change(&mut tables, last, leaf);
            assert!(!Given::new(tables).sound(&mut seen));
        }
    }
}

/// A place has 16 bits, and children begin at 8j + 1: 8,192 splits are the most. With one more, the last first child stands at 65,537,
/// of which 1 is left; and no other number is right beside that node.
#[test]
fn no_more_than_65537_nodes() {
    let (mut random, mut seen) = (Random::new(7), Seen::default());
    for (growth, splits, sound) in [(Growth::Even, 8192, true), (Growth::Even, 8193, false), (Growth::Any, 8200, false)] {
        let tables = grown(growth, splits, 15, &mut random);
        assert_eq!(tables.keys.len(), 8 * splits + 1);
        let given = Given::new(tables);
        assert_eq!(given.sound(&mut seen), sound);
        let _ = given.look_up(*given.tables.keys.last().expect("a root"), &mut seen);
        let last_split = given.tables.keys.last().expect("a root") / 8;
        let place = given.tables.keys.binary_search(&last_split).expect("a node");
        for first in [0, 1, 9, u16::MAX - 6, u16::MAX] {
            let mut other = given.tables.clone();
            other.firsts[place] = first;
            assert_eq!(Given::new(other).sound(&mut seen), sound && first == u16::MAX - 6, "{first}");
        }
    }
}

/// Every place with every wrong first child of some, alone: no call that checks the tree reads it.
#[test]
fn one_first_child_wrong() {
    let (mut random, mut seen) = (Random::new(8), Seen::default());
    let mut wrong = 0;
    for splits in [0, 1, 9, 10, 20] {
        let tables = grown(Growth::Any, splits, 15, &mut random);
        for place in 0..tables.keys.len() {
            let eights = (0..=splits as u16).map(|eight| 8 * eight + 1);
            for first in eights.chain([0, 2, 8, 10, tables.keys.len() as u16, 0x8001, u16::MAX]) {
                let mut other = tables.clone();
                other.firsts[place] = first;
                let (is_right, given) = (first == tables.firsts[place], Given::new(other));
                assert_eq!(given.sound(&mut seen), is_right, "{first} at {place}");
                if !is_right && first % 16 == 1 {
                    assert_eq!(given.look_up(tables.keys[place], &mut seen), Err(11));
                    assert_eq!(given.list(0, [2000; 2], &mut seen), Err(11));
                    assert_eq!(given.dual_cell(15 << 60, 1, &mut seen), Err(11));
                }
                wrong += u64::from(!is_right);
            }
        }
    }
    assert_eq!((seen.sound, seen.unsound), (1 + 9 + 73 + 81 + 161, wrong));
    assert!(wrong > 5000, "{wrong}");
}

/// Levels 15 and 16 on a path, in the first cells, in the last ones and elsewhere.
#[test]
fn the_deepest_level() {
    let mut seen = Seen::default();
    for deepest in 1..=21 {
        for end in [first_cell(deepest), last_cell(deepest), Random::new(deepest as u64).cell_of(deepest)] {
            // All eight children of each ancestor of the end.
            let split: Vec<u64> = (1..=deepest).rev().map(|above| end >> (3 * above)).collect();
            let given = Given::new(of_splits(&split, |_| 0));
            assert_eq!(given.sound(&mut seen), deepest <= 15, "level {deepest}");
        }
    }
}

/// Trees near sound ones, with one to three changes; some of them are sound again.
#[test]
fn near_sound_trees() {
    let (mut random, mut seen) = (Random::new(4), Seen::default());
    for round in 0..200_000 {
        let mut tables = small(&mut random);
        for _ in 0..1 + random.below(3) {
            change(&mut tables, &mut random);
        }
        let given = Given::new(tables);
        given.sound(&mut seen);
        if round % 8 == 0 {
            given.every_call(&mut random, &mut seen);
        }
    }
    println!("near sound trees: {seen:?}");
    assert!(seen.sound > 1000 && seen.unsound > 150_000, "{seen:?}");
    seen.trusted.assert_every_answer(100);
}

/// Any tables at all, of any lengths, empty ones too.
#[test]
fn any_tables() {
    let (mut random, mut seen) = (Random::new(5), Seen::default());
    for lengths in 0..81 {
        let [keys, distances, firsts, leaves] = [lengths % 3, lengths / 3 % 3, lengths / 9 % 3, lengths / 27];
        let given = Given::new(Tables {
            keys: (1..=keys).collect(),
            distances: vec![0; distances as usize],
            firsts: vec![0; firsts as usize],
            leaves: (1..=leaves).collect(),
        });
        assert_eq!(given.sound(&mut seen), [keys, distances, firsts, leaves] == [1; 4]);
        given.every_call(&mut random, &mut seen);
    }
    for _ in 0..300_000 {
        let mut some = |most: u64| -> Vec<u64> {
            let (length, small) = (random.below(most), random.below(2) == 0);
            let mut keys: Vec<u64> = (0..length).map(|_| if small { random.below(20) } else { random.number() }).collect();
            if small {
                keys.sort_unstable();
                keys.dedup();
            }
            keys
        };
        let (keys, leaves) = (some(12), some(12));
        let given = Given::new(Tables { distances: vec![0; keys.len()], firsts: firsts_of(&keys), keys, leaves });
        given.sound(&mut seen);
    }
    println!("any tables: {seen:?}");
    assert!(seen.unsound > 290_000, "{seen:?}");
}
