//! The model's walk over tables, sound or not: the vertices that it finds.

use oracle_answers::inputs::{first_cell, Random};
use oracle_answers::model::reading::{firsts_of, Reading, Tables};
use oracle_answers::model::vertex;
use oracle_answers::trees::{grown, GROWTHS};

/// What the walk finds among keys that have their first children's places.
fn walked(keys: impl IntoIterator<Item = u64>) -> Vec<(u64, u32)> {
    let keys: Vec<u64> = keys.into_iter().collect();
    found(&keys, &firsts_of(&keys))
}

fn found(keys: &[u64], firsts: &[u16]) -> Vec<(u64, u32)> {
    Tables { keys: keys.into(), firsts: firsts.into(), ..Tables::default() }.descent().walk().vertices()
}

#[test]
fn the_walk_over_a_sound_tree_finds_its_vertices() {
    let mut random = Random::new(1);
    for round in 0..600 {
        let tables = grown(GROWTHS[round % 3], round / 10, 15, &mut random);
        let (reading, walk) = (Reading::of(&tables), tables.descent().walk());
        assert_eq!(Ok(walk.vertices()), reading.vertices());
        assert_eq!(Ok(walk.placed), reading.placed());
    }
}

/// The key 8 at place 1, with seven places behind it that hold anything, splits the root, whose middle is then a vertex. What stands at
/// place 0 isn't looked at.
#[test]
fn the_walk_over_a_few_keys() {
    let middle = vec![(0xf000_0000_0000_0000, 1)];
    for keys in [[1, 8, 9, 10, 11, 12, 13, 14, 15], [0, 8, 8, 8, 8, 8, 8, 8, 8], [8, 8, 1, 0, 9, 9, 9, 5, u64::MAX]] {
        assert_eq!(found(&keys, &[1]), middle, "{keys:?}");
        assert_eq!(found(&keys, &[1; 9]), middle, "{keys:?}");
        for first in [0, 2, 9, 17, u16::MAX] {
            assert_eq!(found(&keys, &[first; 9]), vec![], "{keys:?} at {first}");
        }
        assert_eq!(found(&keys, &[]), vec![], "{keys:?}");
        assert_eq!(found(&keys[..8], &[1; 9]), vec![], "{keys:?}");
    }
    for keys in [&[][..], &[1], &[1; 9], &[0; 9], &[8, 9, 10, 11, 12, 13, 14, 15, 8]] {
        assert_eq!(found(keys, &[1; 9]), vec![], "{keys:?}");
    }
    // At place 9 too; but not at place 2, which no child of a sound tree has first.
    let mut keys = [0; 17];
    keys[9] = 8;
    assert_eq!(found(&keys, &[9]), middle);
    keys[2] = 8;
    assert_eq!(found(&keys, &[2]), vec![]);
}

/// First children down to a level, each eight times, after one place of any key. A cell that is split at level 15 lacks its one inner corner, where the walk
/// would go on; what is split below makes no difference.
#[test]
fn the_walk_ends_at_level_15() {
    let down_to = |deepest| walked([1].into_iter().chain((1..=deepest).flat_map(|level| [first_cell(level); 8])));
    for deepest in 1..=15 {
        assert_eq!(down_to(deepest).len(), 1 + 7 * (deepest as usize - 1), "level {deepest}");
    }
    let corner = (vertex(first_cell(15), 15, 7).expect("a cell key with its own level"), 15);
    let without: Vec<_> = down_to(15).into_iter().filter(|&vertex| vertex != corner).collect();
    assert_eq!(without.len(), 98);
    for deepest in 16..=21 {
        assert_eq!(down_to(deepest), without, "level {deepest}");
    }
}
