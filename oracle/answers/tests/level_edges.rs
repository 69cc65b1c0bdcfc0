//! The recorded table of what the published `level` gets wrong, against a fresh search.

use oracle_answers::inputs::{around_split_edge, distances, first_cell};
use oracle_answers::{compares_with_text, edges, integer, published, say, splits_in_f32};

/// The test tries all keys up to here; tools/level-edges --all 10 tries more.
const TRIED_WHOLE: u32 = 7;

#[test]
fn the_wrong_keys_of_each_level_are_those_recorded() {
    if !compares_with_text() {
        return;
    }
    for level in 1..=21 {
        let recorded = edges::RECORDED[level as usize - 1];
        let found = edges::wrong_by_edge(level);
        let shift = found.abs_diff(recorded);
        assert!(shift <= edges::tolerance(level), "level {level}: {found} wrong keys, recorded are {recorded}");
        if shift > 0 {
            say(&format!("level {level}: {found} wrong keys here, recorded are {recorded}: `ln` is rounded differently"));
        }
        if level <= TRIED_WHOLE {
            assert_eq!(edges::wrong_by_all(level), found, "level {level}");
        }
    }
}

#[test]
fn the_table_is_exact_where_all_keys_were_tried() {
    for level in 1..=edges::GREATEST_TRIED_WHOLE {
        assert_eq!(edges::tolerance(level), 0);
    }
}

/// Whether a build splits a key, by the level and half size that it gives the key.
fn splits(level: usize, half_size: f32, bound: u32, distance: f32) -> bool {
    splits_in_f32(level as u32, bound, distance, half_size)
}

#[test]
fn a_wrong_level_splits_more() {
    if !compares_with_text() {
        return;
    }
    let by_published = |key, bound, distance| splits(published::level(key), published::size(key), bound, distance);
    let by_integer = |key, bound, distance| splits(integer::level(key), integer::size(key), bound, distance);
    // 64 is taken for a cell of level 1, and those are always split.
    for bound in 0..16 {
        for distance in distances(2) {
            assert!(by_published(64, bound, distance));
        }
    }
    assert!(!by_integer(64, 2, 0.0) && !by_integer(64, 15, 1.0));
    // Further down a first key is split one level below the bound, and at twice the distance.
    for level in 3..=21 {
        let (key, [_, edge, above]) = (first_cell(level), around_split_edge(level as i32));
        assert_eq!((by_published(key, level, 2.0 * edge), by_integer(key, level, 0.0)), (true, false));
        assert_eq!((by_published(key, level + 1, above), by_integer(key, level + 1, above)), (true, false));
        assert!(!by_published(key, level - 1, 0.0) && !by_published(key, level, 2.0 * above));
    }
}
