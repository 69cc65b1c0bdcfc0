//! States that no build made, and tables that hold anything: which of them fit, what is refused and what the next state is, against
//! the model alone. The text has nothing like it.

use crate::calls::{Pair, Seen};
use crate::fields::Case;
use oracle_answers::fields::KINDS;
use oracle_answers::forged::{garbage, some_lengths, Forged, WORDS};
use oracle_answers::inputs::Random;
use oracle_answers::model::build::STATE_WORDS;
use oracle_answers::model::level;

/// Gives distances, one after another, some of them broken: what follows a forged state that fits may be odd, and is the model's too.
fn check(forged: Forged, distances: u64, random: &mut Random, seen: &mut Seen) {
    let mut pair = Pair::new(forged.words, forged.tables);
    for _ in 0..distances {
        let asked = pair.words.get(3).copied().unwrap_or(1);
        let distance = if random.below(8) == 0 { random.broken_distance() } else { random.distance(level(asked)) };
        match pair.distance(distance, seen) {
            // All is as it was before a broken distance.
            Ok(_) | Err(16) => {}
            Err(_) => return,
        }
    }
}

const ALL: [usize; 6] = [6, 7, 8, 9, 10, 16];

/// Half of them fit, half are changed in one thing, and in each what comes next is tried too.
fn forge(seed: u64) {
    let (mut random, mut seen) = (Random::new(seed), Seen::default());
    for round in 0..1_000_000 {
        let mut forged = Forged::new(some_lengths(&mut random), &mut random);
        if round % 2 == 0 {
            forged.change(&mut random);
        }
        check(forged, 3, &mut random, &mut seen);
    }
    println!("forged {seed}: {seen:?}");
    seen.assert_often(20_000, &ALL);
}

#[test]
fn a_million_forged_states() {
    forge(1);
}

#[test]
fn another_million() {
    forge(2);
}

/// Any words at all, with tables whose lengths are sometimes theirs.
#[test]
fn any_words() {
    let (mut random, mut seen) = (Random::new(3), Seen::default());
    for _ in 0..300_000 {
        let lengths = some_lengths(&mut random);
        let mut words: Vec<u64> = (0..4).map(|_| random.number()).collect();
        if random.below(2) == 0 {
            words = (0..4).map(|_| WORDS[random.below(WORDS.len() as u64) as usize]).collect();
        }
        words.extend(lengths.map(|length| length as u64));
        check(Forged { words, tables: garbage(lengths) }, 1, &mut random, &mut seen);
    }
    assert!(seen.refused[10] > 200_000, "{seen:?}");
}

/// Tables at and above the 4,096 nodes that there can be.
#[test]
fn long_tables() {
    let (mut random, mut seen) = (Random::new(4), Seen::default());
    for round in 0..20_000 {
        let mut one_of = |lengths: [usize; 4]| lengths[random.below(4) as usize];
        let nodes = [4095, 4096, 4097, 4100];
        let lengths = [
            one_of(nodes),
            one_of(nodes),
            one_of(nodes),
            one_of([3000, 3583, 3584, 4100]),
            one_of([64, 100, 4096, 7 * 4095 + 8]),
        ];
        let mut forged = Forged::new(lengths, &mut random);
        if round % 4 == 0 {
            forged.words[1] = 4094 + random.below(4);
        }
        if round % 8 == 0 {
            forged.words[2] = 7 * forged.words[1] / 8;
        }
        check(forged, 2, &mut random, &mut seen);
    }
    println!("long tables: {seen:?}");
    seen.assert_often(20, &ALL);
    assert!(seen.refused[6] > 2000, "{seen:?}");
}

/// States and tables in the middle of real builds, changed in one thing; and at some steps every bit of every word, one by one.
#[test]
fn near_real_builds() {
    let (mut random, mut seen) = (Random::new(5), Seen::default());
    for (number, kind) in KINDS.into_iter().enumerate() {
        for bound in [2, 3, 6, 15] {
            let case = Case::new(kind, bound, 700 + number as u64);
            let mut pair = Pair::new(vec![0; STATE_WORDS], garbage(case.tree.needs()));
            pair.start(bound, &mut seen).expect("a bound up to 15");
            for (step, node) in case.tree.nodes.iter().take(300).enumerate() {
                let real = Forged { words: pair.words.clone(), tables: pair.tables.clone() };
                for _ in 0..60 {
                    let mut near = real.clone();
                    near.change(&mut random);
                    check(near, 1, &mut random, &mut seen);
                }
                if step % 67 == 0 {
                    for bit in 0..64 * STATE_WORDS {
                        let mut near = real.clone();
                        near.words[bit / 64] ^= 1 << (bit % 64);
                        check(near, 1, &mut random, &mut seen);
                    }
                }
                pair.distance(node.distance, &mut seen).expect("tables that are long enough");
            }
        }
    }
    println!("near real builds: {seen:?}");
    assert!(seen.refused[10] > 200_000 && seen.split + seen.unsplit > 50_000, "{seen:?}");
}
