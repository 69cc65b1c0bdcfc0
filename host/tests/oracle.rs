//! Every call of the boundary against the published text, both builds of it, and against the model of document 01.

mod checks;

use checks::Checks;
use oracle_answers::inputs::{around_split_edge, distances, first_cell, last_cell, powers, Random};
use oracle_answers::model;

/// Random inputs for each call.
const MANY: u64 = 10_000_000;

/// Levels, bounds, children, corners and sides at which something changes.
const LEVELS: [u32; 8] = [0, 1, 2, 19, 20, 21, 22, u32::MAX];
const WHICH: [u32; 7] = [0, 1, 4, 7, 8, 256, u32::MAX];

/// Every cell key of the levels 0 to 7.
fn all_cells() -> impl Iterator<Item = (u32, u64)> {
    (0..8).flat_map(|level| (first_cell(level)..=last_cell(level)).map(move |key| (level, key)))
}

#[test]
fn all_cells_of_levels_0_to_7() {
    let mut checks = Checks::new();
    for (_, key) in all_cells() {
        checks.level(key);
        checks.is_cell(key);
        checks.parent(key);
        checks.half_size(key);
        checks.centre(key);
        for which in 0..8 {
            checks.child(key, which);
            checks.add(key, which as u64);
            checks.sub(key, which as u64);
        }
    }
    assert_eq!(checks.some, (0..8).map(first_cell).sum::<u64>());
    checks.assert_said(&[]);
    if checks.published > 0 {
        // 8^L for L from 1 to 7, in each of three calls.
        assert_eq!(checks.wrong_level, 3 * 7);
    }
}

#[test]
fn all_vertices_of_levels_0_to_7() {
    let mut checks = Checks::new();
    for (level, key) in all_cells() {
        for corner in 0..8 {
            let vertex = checks.vertex(key, level, corner).expect("a cell key with its own level");
            checks.is_inner(vertex, level);
            assert_eq!(model::is_inner(vertex, level), vertex != 0);
            for which in 0..8 {
                match checks.side(vertex, level, which) {
                    // Side w of the vertex of key and corner w gives the key back.
                    Ok(cell) => assert!(which != corner || cell == key, "side {which} of vertex {which} of {key} is {cell}"),
                    Err(_) => assert_eq!(vertex, 0),
                }
            }
        }
    }
    checks.assert_said(&[4]);
}

#[test]
fn splits_of_levels_0_to_7() {
    let mut checks = Checks::new();
    for level in 0..8 {
        for distance in distances(level) {
            for bound in (0..10).chain([u32::MAX]) {
                checks.should_refine(level, bound, distance);
            }
        }
    }
    for (level, key) in all_cells() {
        for distance in around_split_edge(level as i32) {
            checks.should_refine_key(key, level, level + 1, distance);
            checks.should_refine_key(key, level, level + 1, -distance);
            checks.should_refine_key(key, level, level, distance);
        }
    }
    assert!(0 < checks.some && checks.some < checks.said[0]);
}

#[test]
fn all_numbers_below_2_to_the_20() {
    let mut checks = Checks::new();
    let mut random = Random::new(20);
    for number in 0..1 << 20 {
        checks.level(number);
        checks.is_cell(number);
        checks.parent(number);
        let other = random.number();
        for (a, b) in [(number, 7), (7, number), (number, other), (other, number)] {
            checks.add(a, b);
            checks.sub(a, b);
        }
    }
}

#[test]
fn powers_and_their_neighbours_through_every_call() {
    let powers = powers();
    let mut checks = Checks::new();
    for &number in &powers {
        checks.level(number);
        checks.is_cell(number);
        checks.parent(number);
        checks.half_size(number);
        checks.centre(number);
        for &other in &powers {
            checks.add(number, other);
            checks.sub(number, other);
        }
        for which in WHICH {
            checks.child(number, which);
        }
        for level in (0..24).chain([u32::MAX]) {
            checks.is_inner(number, level);
            for which in (0..10).chain(WHICH) {
                // A refusal is an answer too.
                let _ = checks.vertex(number, level, which);
                let _ = checks.side(number, level, which);
            }
        }
    }
    checks.assert_said(&[1, 2, 3, 4]);
    if checks.published > 0 {
        assert!(checks.wrong_level > 0);
    }
}

#[test]
fn split_edges_of_every_level() {
    let mut checks = Checks::new();
    for level in (0..24).chain([32, 33, 64, u32::MAX]) {
        for distance in distances(level) {
            for bound in LEVELS.into_iter().chain([level, level.wrapping_add(1), level.wrapping_sub(1)]) {
                checks.should_refine(level, bound, distance);
            }
        }
    }
}

/// Where several conditions hold, the first one in the call's order is told.
#[test]
fn refusals_in_their_order() {
    let wrappers =
        |key, which| (mittenhelm::child(key, which), mittenhelm::vertex(key, 22, which), mittenhelm::side(key, 22, which));
    let numbers = |key, which| {
        let (child, vertex, side) = wrappers(key, which);
        [child, vertex, side].map(|answer| answer.map_or_else(|refusal| refusal.number(), |_| 0))
    };
    let deepest = last_cell(21);
    assert_eq!(numbers(16, 8), [1, 1, 2]);
    assert_eq!(numbers(16, 7), [1, 1, 4]);
    assert_eq!(numbers(0, u32::MAX), [1, 1, 2]);
    assert_eq!(numbers(deepest, 8), [2, 2, 2]);
    assert_eq!(numbers(deepest, 7), [3, 3, 4]);
    assert_eq!(numbers(9, 7), [0, 3, 4]);
    assert_eq!(mittenhelm::half_size(16).map_err(|r| r.number()), Err(1));
    assert_eq!(mittenhelm::centre(16).map_err(|r| r.number()), Err(1));
}

/// The safe functions hand on what the C functions say.
#[test]
fn wrappers() {
    let mut random = Random::new(0);
    for _ in 0..100_000 {
        let (key, other, which) = (random.number(), random.number(), random.which());
        let level = random.level(model::level(key));
        let (vertex, at) = random.vertex_and_level();
        let (distance, bound) = (random.distance(level), random.bound(level));
        let number = |refusal: mittenhelm::Refusal| refusal.number();
        assert_eq!(mittenhelm::level(key), model::level(key));
        assert_eq!(mittenhelm::is_cell(key), model::is_cell(key));
        assert_eq!(mittenhelm::parent(key), model::parent(key));
        assert_eq!(mittenhelm::add(key, other), model::add(key, other));
        assert_eq!(mittenhelm::sub(key, other), model::sub(key, other));
        assert_eq!(mittenhelm::child(key, which).map_err(number), model::child(key, which));
        assert_eq!(mittenhelm::half_size(key).map_err(number), model::half_size(key));
        assert_eq!(mittenhelm::centre(key).map_err(number), model::centre(key));
        assert_eq!(mittenhelm::vertex(key, level, which).map_err(number), model::vertex(key, level, which));
        assert_eq!(mittenhelm::is_inner(vertex, at), model::is_inner(vertex, at));
        assert_eq!(mittenhelm::side(vertex, at, which).map_err(number), model::side(vertex, at, which));
        assert_eq!(mittenhelm::should_refine(level, bound, distance), model::should_refine(level, bound, distance));
    }
}

/// Document 01's examples of keys and of the split rule.
#[test]
fn examples() {
    use mittenhelm::*;
    assert_eq!([0, 7, 8, 16, 64, 1 << 63].map(level), [0, 0, 1, 1, 2, 21]);
    assert_eq!([0, 15, 16].map(parent), [1, 1, 2]);
    assert_eq!(add(1, 7), 14);
    assert_eq!(add(0x9249_2492_4924_9249, 1), 0);
    assert_eq!(sub(0, 1), 0x9249_2492_4924_9249);
    assert_eq!((centre(9), half_size(9)), (Ok([0.75, 0.25, 0.25]), Ok(0.25)));
    assert_eq!(vertex(8, 1, 7), Ok(0xf000_0000_0000_0000));
    assert_eq!([vertex(8, 1, 0), vertex(15, 1, 1), vertex(1, 0, 7)], [Ok(0); 3]);
    assert_eq!(vertex(71, 2, 7), Ok(0xf000_0000_0000_0000));
    assert_eq!(side(0xf000_0000_0000_0000, 1, 7), Ok(8));
    assert!(should_refine(level(65), 3, 14529495.0 / 67108864.0));
    assert!(!should_refine(level(65), 3, 14529496.0 / 67108864.0));
    let corner = vertex(512, 3, 7).expect("a cell key with its own level");
    assert_eq!([0, 1, 2, 3, 4, 5, 6, 7].map(|which| side(corner, 3, which)), [519, 518, 517, 516, 515, 514, 513, 512].map(Ok));
}

/// Runs a check on many random inputs, and tells what was seen (to see it: tools/test -- --nocapture).
fn many(call: &str, seed: u64, refusals: &[usize], check: impl Fn(&mut Checks, &mut Random)) -> Checks {
    let mut checks = Checks::new();
    let mut random = Random::new(seed);
    for _ in 0..MANY {
        check(&mut checks, &mut random);
    }
    checks.assert_said(refusals);
    let mut told = format!("{call}: {MANY} random inputs");
    for &number in refusals {
        told += &format!(", {} refused {number}", checks.said[number]);
    }
    if checks.published > 0 {
        told += &format!("; {} compared with the published build", checks.published);
    }
    if checks.wrong_level > 0 {
        told += &format!(", whose level was wrong for {} more", checks.wrong_level);
    }
    println!("{told}");
    checks
}

#[test]
fn random_level() {
    many("level", 1, &[], |checks, random| checks.level(random.number()));
}

#[test]
fn random_is_cell() {
    let checks = many("is_cell", 2, &[], |checks, random| checks.is_cell(random.number()));
    assert!(0 < checks.some && checks.some < MANY);
}

#[test]
fn random_parent() {
    many("parent", 3, &[], |checks, random| checks.parent(random.number()));
}

#[test]
fn random_add() {
    many("add", 4, &[], |checks, random| checks.add(random.number(), random.number()));
}

#[test]
fn random_sub() {
    many("sub", 5, &[], |checks, random| checks.sub(random.number(), random.number()));
}

#[test]
fn random_child() {
    many("child", 6, &[1, 2, 3], |checks, random| checks.child(random.number(), random.which()));
}

#[test]
fn random_half_size() {
    many("half_size", 7, &[1], |checks, random| checks.half_size(random.number()));
}

#[test]
fn random_centre() {
    many("centre", 8, &[1], |checks, random| checks.centre(random.number()));
}

#[test]
fn random_vertex() {
    let checks = many("vertex", 9, &[1, 2, 3], |checks, random| {
        let key = random.number();
        let level = random.level(model::level(key));
        let _ = checks.vertex(key, level, random.which());
    });
    assert!(0 < checks.some && checks.some < checks.said[0]);
}

#[test]
fn random_is_inner() {
    let checks = many("is_inner", 10, &[], |checks, random| {
        let (vertex, level) = random.vertex_and_level();
        checks.is_inner(vertex, level);
    });
    assert!(0 < checks.some && checks.some < MANY);
}

#[test]
fn random_side() {
    many("side", 11, &[2, 4], |checks, random| {
        let (vertex, level) = random.vertex_and_level();
        let _ = checks.side(vertex, level, random.which());
    });
}

#[test]
fn random_should_refine() {
    let checks = many("should_refine", 12, &[], |checks, random| {
        let expected = random.below(22) as u32;
        let level = random.level(expected);
        let (bound, distance) = (random.bound(level), random.distance(level));
        checks.should_refine(level, bound, distance);
    });
    assert!(0 < checks.some && checks.some < MANY);
}
