//! The slabs that cells reach, of every exponent: those of the vertices that a tree lists, and of every other inner vertex.

use crate::calls::{out_of, Given, Seen};
use oracle_answers::inputs::{first_cell, last_cell, Random};
use oracle_answers::misled::FORGERIES;
use oracle_answers::model::reading::{Height, Reach, Slabs};
use oracle_answers::model::{is_inner, level, vertex};
use oracle_answers::questions::below;
use oracle_answers::trees::{grown, Growth, GROWTHS};
use std::collections::BTreeSet;

/// The exponents that are accepted.
const EXPONENTS: std::ops::Range<u32> = 0..16;

/// Those at which something could change, beside the ones from 0 to 17.
const GREAT: [u32; 5] = [21, 22, 32, 256, u32::MAX];

/// The middle of the cube.
const MIDDLE: u64 = 15 << 60;

/// The slab that holds the vertex itself: its z at level 21, by 2^(21-s).
fn slab_of_vertex(vertex: u64, exponent: u32) -> u32 {
    let z: u64 = (0..21).map(|i| (vertex >> (3 * i + 2) & 1) << i).sum();
    (z / 2u64.pow(21 - exponent)) as u32
}

/// The level of the node whose centre has this height.
fn level_at(height: Height) -> usize {
    height.below.trailing_zeros() as usize - 1
}

/// What was seen of many cells.
#[derive(Debug, Default)]
struct Counts {
    listed: u64,
    /// Other cells by their level, and those of them whose vertex lies in no slab that they reach, of some exponent.
    unlisted: [u64; 21],
    apart: u64,
    /// By exponent, how many cells reach one slab, two, and more.
    reached: [[u64; 3]; 16],
    /// How often an entry, by its index, was the lowest of its cell, and the highest.
    ends: [[u64; 8]; 2],
    /// The same of a node by its level, and the exponent that was then asked for.
    levels: [[[u64; 16]; 16]; 2],
}

impl Counts {
    fn cells(&self) -> u64 {
        self.listed + self.unlisted.iter().sum::<u64>()
    }

    fn count_ends(&mut self, keys: [u64; 8], reach: &Reach) {
        for (entry, height) in keys.map(Height::of_centre).into_iter().enumerate() {
            self.ends[0][entry] += (height == reach.lowest) as u64;
            self.ends[1][entry] += (height == reach.highest) as u64;
        }
    }

    fn count_slabs(&mut self, reach: &Reach, exponent: u32, slabs: Slabs) {
        let exponent = exponent as usize;
        self.levels[0][level_at(reach.lowest)][exponent] += 1;
        self.levels[1][level_at(reach.highest)][exponent] += 1;
        self.reached[exponent][(slabs.last - slabs.first).min(2) as usize] += 1;
    }
}

/// A vertex of the tree at any level, a corner of a cell in or below a leaf, or an inner vertex anywhere.
fn some_vertex(given: &Given, listed: &[(u64, u32)], random: &mut Random) -> (u64, u32) {
    match random.below(4) {
        0 => (random.one_of(listed).0, 1 + random.below(20) as u32),
        1 => {
            let level = 1 + random.below(20) as u32;
            (random.vertex_of(level), level)
        }
        _ => {
            let leaf = random.one_of(&given.tables.leaves);
            let at = level(leaf) + random.below((20 - level(leaf) + 1) as u64) as u32;
            (vertex(below(leaf, at, random), at, random.below(8) as u32).expect("a cell with its level"), at)
        }
    }
}

/// The call that trusts the tree at every exponent, since the model's heights are the same for all; the one that goes over the whole tree
/// first at one of them, in turn. And what holds of any cell, or of a listed one.
fn every_exponent(given: &Given, (vertex, level): (u64, u32), is_listed: bool, counts: &mut Counts) {
    let cell = given.reading.dual_cell(vertex, level).expect("an inner vertex");
    let reach = cell.reach();
    counts.count_ends(cell.keys, &reach);
    let is_even = cell.keys.iter().all(|&key| level_at(Height::of_centre(key)) == level as usize);
    let mut is_apart = false;
    let checked_at = (counts.cells() % 16) as u32;
    for exponent in EXPONENTS {
        let slabs = reach.slabs(exponent).expect("an exponent up to 15");
        let told = || format!("{vertex:#x}, {level}, {exponent} of {:?}", given.tables.keys);
        let expected = out_of(Ok(slabs));
        if exponent == checked_at {
            assert_eq!(given.ask_slabs(vertex, level, exponent), expected, "{}", told());
        }
        assert_eq!(given.ask_slabs_trusting(vertex, level, exponent), expected, "trusting {}", told());
        assert!(slabs.first <= slabs.last && slabs.last < 1 << exponent, "{}", told());
        assert!(!is_even || exponent > level || slabs.last - slabs.first <= 1, "one layer of cells: {}", told());
        let holds_vertex = (slabs.first..=slabs.last).contains(&slab_of_vertex(vertex, exponent));
        assert!(!is_listed || holds_vertex, "a listed vertex outside its cell's slabs: {}", told());
        is_apart |= !holds_vertex;
        counts.count_slabs(&reach, exponent, slabs);
    }
    if is_listed {
        counts.listed += 1;
    } else {
        counts.unlisted[level as usize] += 1;
        counts.apart += is_apart as u64;
    }
}

/// A thousand trees, each with a thousand cells, none twice: those that it lists, and others of all levels.
#[test]
fn a_million_cells_at_every_exponent() {
    let (mut random, mut seen, mut counts) = (Random::new(1), Seen::default(), Counts::default());
    for round in 0..1000 {
        let given = Given::new(grown(GROWTHS[round % 3], 1 + round / 20, 15, &mut random));
        let listed = given.vertices();
        for &at in &listed {
            every_exponent(&given, at, true, &mut counts);
        }
        let mut tried: BTreeSet<(u64, u32)> = listed.iter().copied().collect();
        while tried.len() < 1000 {
            let (vertex, level) = some_vertex(&given, &listed, &mut random);
            if is_inner(vertex, level) && tried.insert((vertex, level)) {
                every_exponent(&given, (vertex, level), false, &mut counts);
            }
        }
        // The tree's own tables are as they were.
        let _ = given.slabs(MIDDLE, 1, 15, &mut seen);
    }
    println!("{} cells: {counts:?}", counts.cells());
    let Counts { listed, unlisted, apart, reached, ends, levels } = &counts;
    assert!(counts.cells() >= 1_000_000 && *listed > 100_000 && *apart > 10_000);
    // A tree has one vertex of level 1.
    assert!(unlisted[1] > 500 && unlisted[2..].iter().all(|&seen| seen > 1000));
    // Of one slab, and of two, no cell reaches more than there are.
    assert!(reached[0] == [counts.cells(), 0, 0] && reached[1][..2].iter().all(|&seen| seen > 1000) && reached[1][2] == 0);
    assert!(reached[2..].iter().flatten().all(|&seen| seen > 1000));
    assert!(ends.iter().flatten().all(|&seen| seen > 10_000));
    // Every exponent with every level: below the level + 1 a height times 2^s is no whole number, from there on it is.
    assert!(levels.iter().all(|of_end| of_end[1..].iter().flatten().all(|&seen| seen > 1000)));
}

/// Every inner vertex at the levels 1 to 4, in trees that have none of these levels, some, or all.
#[test]
fn all_vertices_of_levels_1_to_4() {
    let (mut random, mut seen) = (Random::new(2), Seen::default());
    for (growth, splits) in [(Growth::Even, 0), (Growth::Even, 1), (Growth::Any, 5), (Growth::Even, 9), (Growth::Any, 40)] {
        let given = Given::new(grown(growth, splits, 15, &mut random));
        for level in 1..=4 {
            for cell in first_cell(level)..=last_cell(level) {
                let vertex = cell << (63 - 3 * level);
                for exponent in (0..18).chain(GREAT) {
                    let _ = given.slabs(vertex, level, exponent, &mut seen);
                }
            }
        }
    }
    assert!(seen.slabs.iter().all(|&seen| seen == 4 * (1 + 27 + 343 + 3375)), "{seen:?}");
    seen.assert_refused(10_000, &[4, 5]);
}

/// The lowest and the highest layer of each level, and those about the middle, at every other level too.
#[test]
fn edges_of_every_level() {
    let (mut random, mut seen) = (Random::new(3), Seen::default());
    let given = Given::new(grown(Growth::Deep, 60, 15, &mut random));
    for level in 1..=20 {
        let greatest: u64 = (1 << level) - 1;
        for z in [1, greatest / 2, greatest / 2 + 1, greatest] {
            let mut cell = first_cell(level) + 3;
            cell |= (0..level).map(|i| (z >> i & 1) << (3 * i + 2)).sum::<u64>();
            let vertex = cell << (63 - 3 * level);
            for other in (0..23).chain([u32::MAX]) {
                for exponent in [0, 1, other.min(15), 14, 15, 16, u32::MAX] {
                    let answer = given.slabs(vertex, other, exponent, &mut seen);
                    assert_eq!(answer == Err(4), !is_inner(vertex, other));
                }
            }
        }
    }
    seen.assert_refused(1000, &[4, 5]);
}

/// An unsound tree goes before what is no vertex, and that before an exponent above 15, in every pair and in all together; whoever
/// trusts the tree isn't told of it.
#[test]
fn refusals_in_their_order() {
    let (mut random, mut seen) = (Random::new(4), Seen::default());
    let nine = Given::new(grown(Growth::Even, 1, 15, &mut random));
    let root = Given::new(grown(Growth::Even, 0, 15, &mut random));
    let without = |given: &Given| {
        let mut tables = given.tables.clone();
        tables.leaves.pop();
        Given::new(tables)
    };
    let (unsound, unsound_root) = (without(&nine), without(&root));
    for (given, is_sound, is_root) in
        [(&nine, true, false), (&root, true, true), (&unsound, false, false), (&unsound_root, false, true)]
    {
        for (vertex, level, is_vertex) in [
            (MIDDLE, 1, true),
            (MIDDLE, 20, true),
            (MIDDLE, 0, false),
            (MIDDLE, 21, false),
            (MIDDLE, u32::MAX, false),
            (1 << 63, 1, false),
            (MIDDLE + 1, 20, false),
            (71 << 57, 1, false),
            (0, 1, false),
        ] {
            for (exponent, is_above) in [(0, false), (15, false), (16, true), (17, true), (1 << 16, true), (u32::MAX, true)] {
                let trusting = match (is_vertex && !is_root, is_above) {
                    (false, _) => 4,
                    (true, true) => 5,
                    (true, false) => 0,
                };
                let expected = if is_sound { trusting } else { 11 };
                let numbers = [given.ask_slabs(vertex, level, exponent).0, given.ask_slabs_trusting(vertex, level, exponent).0];
                assert_eq!(numbers, [expected, trusting], "{vertex:#x}, {level}, {exponent} of {:?}", given.tables);
                let _ = given.slabs(vertex, level, exponent, &mut seen);
            }
        }
    }
    seen.assert_refused(5, &[4, 5, 11]);
}

/// Any number at any level with any exponent, in trees of all shapes.
#[test]
fn any_number() {
    let (mut random, mut seen) = (Random::new(5), Seen::default());
    for round in 0..2000 {
        let given = Given::new(grown(GROWTHS[round % 3], 1 + round % 40, 15, &mut random));
        for _ in 0..60 {
            let (vertex, level) = random.vertex_and_level();
            let exponent = [random.below(16), random.below(16), random.below(24), random.bits()][random.below(4) as usize] as u32;
            let answer = given.slabs(vertex, level, exponent, &mut seen);
            assert_eq!(
                (answer == Err(4), answer == Err(5)),
                (!is_inner(vertex, level), is_inner(vertex, level) && exponent > 15)
            );
        }
    }
    println!("slabs of any number: {seen:?}");
    assert!(seen.slabs.iter().all(|&seen| seen > 1000), "{seen:?}");
    seen.assert_refused(10_000, &[4, 5]);
}

/// Whatever first children and keys are forged: the heights are those of the dual cell that one finds who trusts them. Where nothing is
/// found on any side, all eight are 1/2.
#[test]
fn of_misled_tables() {
    let (mut random, mut seen) = (Random::new(6), Seen::default());
    let mut in_the_middle = 0;
    for (_, forge) in FORGERIES {
        for round in 0..90 {
            let mut tables = grown(GROWTHS[round % 3], 1 + round / 3, [15, 3, 21][random.below(3) as usize], &mut random);
            forge(&mut tables, &mut random);
            let given = Given::new(tables);
            let walked = given.walked();
            for _ in 0..40 {
                let (vertex, level) = match random.below(3) {
                    0 if !walked.is_empty() => random.one_of(&walked),
                    1 => random.vertex_and_level(),
                    _ => (random.vertex_of(3), 3 + random.below(18) as u32),
                };
                let exponent = random.below(17) as u32;
                let _ = given.slabs(vertex, level, exponent, &mut seen);
                if given.descent.dual_cell_trusting(vertex, level).map(|cell| cell.keys) == Ok([0; 8]) && exponent < 16 {
                    let middle = (1 << exponent) / 2;
                    assert_eq!(given.ask_slabs_trusting(vertex, level, exponent), (0, [middle; 2]));
                    in_the_middle += 1;
                }
            }
        }
    }
    println!("slabs of misled tables, {in_the_middle} of nothing: {seen:?}");
    let trusted = &seen.trusted;
    assert!(in_the_middle > 5000 && trusted.whole_slabs > 10_000 && trusted.empty_slabs > 5000, "{seen:?}");
    assert!(trusted.refused[4] > 1000 && trusted.refused[5] > 1000, "{seen:?}");
}

/// Below a leaf, where no tree lists it, a vertex need not lie in the slabs that its cell reaches. That with the fewest nodes, then the
/// lowest level, exponent and number: all eight nodes are cell 8, whose centre is at 1/4, and the vertex lies at 1/8.
#[test]
fn the_least_cell_apart_from_its_vertex() {
    let given = Given::new(grown(Growth::Even, 1, 15, &mut Random::new(7)));
    let vertices = |level: u32| (first_cell(level)..=last_cell(level)).map(move |cell| (cell << (63 - 3 * level), level));
    let every = (1..=4).flat_map(|level| EXPONENTS.flat_map(move |exponent| vertices(level).map(move |at| (at, exponent))));
    let mut inner = every.filter(|&((vertex, level), _)| is_inner(vertex, level));
    let apart = inner.find(|&((vertex, level), exponent)| {
        let (number, [first, last]) = given.ask_slabs(vertex, level, exponent);
        assert_eq!(number, 0);
        !(first..=last).contains(&slab_of_vertex(vertex, exponent))
    });
    assert_eq!(apart, Some(((519 << 54, 3), 2)));
    assert_eq!((given.ask_slabs(519 << 54, 3, 2), slab_of_vertex(519 << 54, 2)), ((0, [1, 1]), 0));
}
