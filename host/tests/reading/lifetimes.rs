//! From which slab to which each leaf is needed: whole reports of trees of every size, at every exponent, in every room.

use crate::calls::{Given, Seen};
use oracle_answers::broken::change;
use oracle_answers::inputs::Random;
use oracle_answers::misled::FORGERIES;
use oracle_answers::model::level;
use oracle_answers::model::lifetimes::Lifetimes;
use oracle_answers::model::reading::Tables;
use oracle_answers::trees::{grown, Growth, GROWTHS};

/// The exponents that are accepted.
const EXPONENTS: std::ops::Range<u32> = 0..16;

/// As many splits as fit 4,096 nodes.
const MOST_SPLITS: usize = 511;

/// The slab that holds a leaf's own centre: its z bits and a one behind them, of which s are before the point.
fn own_slab(leaf: u64, exponent: u32) -> u32 {
    let z: u64 = (0..level(leaf)).map(|i| (leaf >> (3 * i + 2) & 1) << i).sum();
    ((2 * z + 1) << exponent >> (level(leaf) + 1)) as u32
}

/// What was seen of many reports.
#[derive(Debug, Default)]
struct Counts {
    trees: u64,
    leaves: u64,
    /// By exponent, how many leaves are needed at one slab, at two, and at more.
    spans: [[u64; 3]; 16],
    /// By the level of a leaf, how often it is needed in a slab below that of its own centre, and above.
    beyond: [[u64; 2]; 16],
    /// Slabs at which no leaf is needed, some are, and the greatest number.
    slabs: [u64; 3],
}

impl Counts {
    /// What holds of every sound tree that isn't the root alone.
    fn count(&mut self, given: &Given, exponent: u32, report: &Lifetimes) {
        let Lifetimes { first, last, needed, greatest } = report;
        let mut together = 0;
        for (i, &leaf) in given.tables.leaves.iter().enumerate() {
            let (first, last, own) = (first[i], last[i], own_slab(leaf, exponent));
            assert!(first <= own && own <= last && last < 1 << exponent, "leaf {leaf} from {first} to {last}, itself in {own}");
            together += (last - first + 1) as u64;
            self.spans[exponent as usize][(last - first).min(2) as usize] += 1;
            let beyond = &mut self.beyond[level(leaf) as usize];
            *beyond = [beyond[0] + (first < own) as u64, beyond[1] + (own < last) as u64];
        }
        assert_eq!(together, needed.iter().map(|&leaves| leaves as u64).sum::<u64>());
        assert!(needed.contains(greatest) && *greatest > 0 && needed.iter().all(|leaves| leaves <= greatest));
        for leaves in needed {
            self.slabs[if leaves == greatest { 2 } else { (*leaves > 0) as usize }] += 1;
        }
    }
}

/// Most are small, and some of every size up to the greatest that a build can have.
fn splits_of(round: usize, random: &mut Random) -> usize {
    match round % 50 {
        0 => MOST_SPLITS,
        1 => 100 + random.below(400) as usize,
        2..=6 => 20 + random.below(80) as usize,
        _ => 1 + random.below(20) as usize,
    }
}

#[test]
fn a_thousand_trees_at_every_exponent() {
    let (mut random, mut seen, mut counts) = (Random::new(1), Seen::default(), Counts::default());
    for round in 0..1000 {
        // By the quotient, so that each growth has trees of each size.
        let growth = GROWTHS[round / 50 % 3];
        let given = Given::new(grown(growth, splits_of(round, &mut random), 15, &mut random));
        counts.trees += 1;
        counts.leaves += given.tables.leaves.len() as u64;
        for exponent in EXPONENTS {
            let reports = given.reports(exponent);
            let greatest = given.lifetimes_in_rooms(&reports, &mut seen);
            let report = reports.checked.expect("a sound tree, and an exponent up to 15");
            assert_eq!(greatest, Ok(report.greatest));
            counts.count(&given, exponent, &report);
        }
    }
    println!("lifetimes: {counts:?}, {seen:?}");
    let Counts { trees, leaves, spans, beyond, slabs } = &counts;
    assert!(*trees == 1000 && *leaves > 150_000);
    assert!(seen.lifetimes.iter().all(|&reports| reports == 2 * trees));
    seen.assert_refused(64 * trees, &[17]);
    // Of one slab, and of two, no leaf is needed at more than there are.
    assert!(spans[0] == [*leaves, 0, 0] && spans[1][..2].iter().all(|&seen| seen > 1000) && spans[1][2] == 0, "{counts:?}");
    assert!(spans[2..14].iter().flatten().all(|&seen| seen > 1000), "{counts:?}");
    // Only the finest leaves between their like are needed as shortly where slabs are finer.
    assert!(spans[14..].iter().all(|spans| spans[0] < 10 && spans[2] > 100_000), "{counts:?}");
    assert!(beyond[1..].iter().flatten().all(|&seen| seen > 1000) && slabs.iter().all(|&seen| seen > 1000), "{counts:?}");
}

/// No cell is listed of the root alone, so its leaf is never needed.
#[test]
fn the_root_alone() {
    let (mut random, mut seen) = (Random::new(2), Seen::default());
    let given = Given::new(grown(Growth::Even, 0, 15, &mut random));
    for exponent in EXPONENTS {
        let reports = given.reports(exponent);
        assert_eq!(given.lifetimes_in_rooms(&reports, &mut seen), Ok(0));
        let expected = Lifetimes { first: vec![1], last: vec![0], needed: vec![0; 1 << exponent], greatest: 0 };
        assert_eq!(reports.checked, Ok(expected));
    }
    assert_eq!(given.report_room(3), [1, 1, 8]);
}

/// An unsound tree goes before an exponent above 15, and that before a table that is too short, in every pair and in all together; whoever
/// trusts the tree isn't told of it.
#[test]
fn refusals_in_their_order() {
    let (mut random, mut seen) = (Random::new(3), Seen::default());
    for splits in [0, 1, 9, 30] {
        let sound = grown(Growth::Any, splits, 15, &mut random);
        let mut unsound = sound.clone();
        unsound.leaves.pop();
        for (tables, is_sound) in [(sound, true), (unsound, false)] {
            let given = Given::new(tables);
            for (exponent, is_above) in
                (0..16).map(|s| (s, false)).chain([16, 17, 31, 32, 33, 64, 1 << 16, 1 << 31, u32::MAX].map(|s| (s, true)))
            {
                let (reports, room) = (given.reports(exponent), given.report_room(exponent));
                // Each of the three tables long enough, one place too short, or without any.
                for kind in 0..27 {
                    let short = [kind % 3, kind / 3 % 3, kind / 9];
                    let lengths = [0, 1, 2].map(|table| [room[table], room[table] - 1, 0][short[table]]);
                    let trusting = match (is_above, short == [0; 3]) {
                        (true, _) => Err(5),
                        (false, false) => Err(17),
                        (false, true) => Ok(()),
                    };
                    let expected = if is_sound { trusting } else { Err(11) };
                    let before = seen.trusted.refused;
                    assert_eq!(given.lifetimes(&reports, lengths, &mut seen).map(|_| ()), expected, "{lengths:?}");
                    if let (Err(number), false) = (trusting, is_sound) {
                        assert_eq!(seen.trusted.refused[number as usize], before[number as usize] + 1, "{lengths:?}");
                    }
                }
            }
        }
    }
    seen.assert_refused(500, &[5, 11, 17]);
    assert!(seen.trusted.refused[5] > 500 && seen.trusted.refused[17] > 500 && seen.trusted.refused[11] == 0);
}

/// Reports of tables that hold no sound tree, by what is there to be reported.
#[derive(Debug, Default)]
struct Forged {
    /// Tables with fewer leaves than a sound tree of their length has, as many, and more.
    leaves: [u64; 3],
    /// Leaves that some cell has, and such that none has though there are cells.
    needed: u64,
    never: u64,
    /// Cells of whose eight places some are no leaves of the report.
    partly: u64,
}

impl Forged {
    fn count(&mut self, given: &Given) {
        let Tables { keys, firsts, .. } = &given.tables;
        let places = given.needs().trusted.leaves;
        let is_childless = |place: usize| firsts.get(place).map_or(true, |&first| first == 0);
        let childless: Vec<usize> = (0..keys.len().min(65_537)).filter(|&place| is_childless(place)).collect();
        self.leaves[if childless.len() < places { 0 } else { 1 + (childless.len() > places) as usize }] += 1;
        let walk = given.walk();
        let report = given.reports(4).trusted.expect("an exponent up to 15");
        let needed = report.first.iter().zip(&report.last).filter(|(first, last)| first <= last).count();
        self.needed += needed as u64;
        if !walk.placed.is_empty() {
            self.never += (places.min(childless.len()) - needed) as u64;
        }
        let counts = |place: &u64| matches!(childless.binary_search(&(*place as usize)), Ok(number) if number < places);
        let partly = |places: [u64; 8]| (1..8).contains(&places.iter().filter(|place| counts(place)).count());
        self.partly += walk.placed.iter().filter(|at| partly(at.places)).count() as u64;
    }
}

/// Whatever first children and keys are forged, and whatever is changed in a tree: a report is what the tables come to.
#[test]
fn of_misled_tables() {
    let (mut random, mut seen, mut forged) = (Random::new(4), Seen::default(), Forged::default());
    let mut of = |tables: Tables, exponent: u32| {
        let given = Given::new(tables);
        if !given.reading.is_sound() {
            forged.count(&given);
        }
        let _ = given.lifetimes_in_rooms(&given.reports(exponent), &mut seen);
    };
    for (_, forge) in FORGERIES {
        for round in 0..80 {
            let deepest = [15, 3, 21][random.below(3) as usize];
            let mut tables = grown(GROWTHS[round % 3], 1 + round / 3, deepest, &mut random);
            forge(&mut tables, &mut random);
            of(tables, round as u32 % 17);
        }
    }
    for round in 0..2500 {
        let mut tables = grown(GROWTHS[round % 3], random.below(45) as usize, 15, &mut random);
        (0..1 + random.below(4)).for_each(|_| change(&mut tables, &mut random));
        // Nothing but the first children says which nodes are leaves, and the keys alone where they are.
        match round % 4 {
            0 => tables.firsts.iter_mut().for_each(|first| *first *= (random.below(8) > 0) as u16),
            1 => tables.keys.iter_mut().skip(2).filter(|key| **key % 8 != 0).for_each(|key| *key = random.number()),
            _ => {}
        }
        of(tables, round as u32 % 17);
    }
    println!("lifetimes of misled tables: {forged:?}, {seen:?}");
    let Forged { leaves, needed, never, partly } = &forged;
    assert!(leaves.iter().all(|&seen| seen > 100) && [needed, never, partly].iter().all(|&&seen| seen > 1000), "{forged:?}");
    let trusted = &seen.trusted;
    assert!(trusted.lifetimes > 1000 && trusted.empty_lifetimes > 1000, "{trusted:?}");
    assert!(trusted.refused[5] > 500 && trusted.refused[17] > 5000, "{trusted:?}");
}

/// As many nodes as places reach, and more: no leaf stands behind those.
#[test]
fn of_great_trees() {
    let (mut random, mut seen) = (Random::new(5), Seen::default());
    for (splits, is_sound) in [(8192, true), (8193, false)] {
        let given = Given::new(grown(Growth::Any, splits, 15, &mut random));
        assert_eq!((given.reading.is_sound(), given.report_room(0)[0]), (is_sound, 57_345));
        for exponent in [0, 6, 15] {
            let _ = given.lifetimes_in_rooms(&given.reports(exponent), &mut seen);
        }
    }
    assert_eq!((seen.lifetimes.iter().sum::<u64>(), seen.trusted.lifetimes), (6, 6));
}

/// No tables at all need no room but for the slabs.
#[test]
fn without_keys() {
    let mut seen = Seen::default();
    for firsts in [vec![], vec![0; 9], vec![1; 9]] {
        let given = Given::new(Tables { firsts, ..Tables::default() });
        assert_eq!(given.report_room(2), [0, 0, 4]);
        for exponent in EXPONENTS {
            assert_eq!(given.lifetimes_in_rooms(&given.reports(exponent), &mut seen), Err(11));
        }
    }
    assert_eq!((seen.trusted.empty_lifetimes, seen.trusted.refused[17]), (96, 96));
}
