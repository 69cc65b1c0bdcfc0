//! The fixed sample that the Rattle programs `replay` and `reread` read is what the oracle says today.

use oracle_answers::{compares_with_text, sample};
use std::fs;
use std::path::Path;

/// The part of the sample that a program reads.
fn part(program: &str) -> String {
    let path = Path::new(env!("CARGO_MANIFEST_DIR")).join("../../crates").join(program).join("stdin");
    fs::read_to_string(&path).unwrap_or_else(|e| panic!("{}: {e}: make it with tools/sample", path.display()))
}

#[test]
fn the_parts_are_the_generated_sample() {
    if !compares_with_text() {
        return;
    }
    let (keys, trees) = (part("replay"), part("reread"));
    assert!(keys.lines().all(|line| line < "10") && trees.lines().all(|line| line >= "10"));
    let both = keys + &trees;
    let fresh = sample::text();
    for (number, (held, new)) in both.lines().zip(fresh.lines()).enumerate() {
        assert_eq!(held, new, "line {} of the sample is not the oracle's: make it anew with tools/sample", number + 1);
    }
    assert_eq!(both.len(), fresh.len());
    assert!(fresh.lines().all(|line| line.len() == 107));
}

/// Each refusal of a distance has lines enough.
#[test]
fn lines_of_refused_distances() {
    if !compares_with_text() {
        return;
    }
    let text = sample::text();
    for refusal in ["06", "07", "08", "09", "10"] {
        let refused = text.lines().filter(|line| line.starts_with("0d") && &line[54..56] == refusal);
        assert!(refused.count() > 6, "refusal {refusal}");
    }
}

/// Each call that reads a tree has lines enough, and so has each of its refusals.
#[test]
fn lines_that_read_a_tree() {
    if !compares_with_text() {
        return;
    }
    let text = sample::text();
    let reading = |line: &&str| ("11".."17").contains(&&line[..2]);
    let count = |is: &dyn Fn(&str) -> bool| text.lines().filter(reading).filter(|line| is(line)).count();
    for call in ["11", "12", "13", "14", "15", "16"] {
        assert!(count(&|line| line.starts_with(call)) > 15, "call {call}");
    }
    for refusal in ["01", "04", "05", "0b", "0c"] {
        assert!(count(&|line| &line[54..56] == refusal) > 3, "refusal {refusal}");
    }
}
