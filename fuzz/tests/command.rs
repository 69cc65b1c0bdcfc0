//! The fuzz as it is run: a run that is the same everywhere, and its options.

use std::collections::BTreeSet;
use std::process::{Command, Output};
use std::{fs, path::Path};

fn run(words: &[&str]) -> Output {
    Command::new(env!("CARGO_BIN_EXE_mittenhelm-fuzz")).args(words).output().expect("a command that runs")
}

/// What it prints of a run that ends well.
fn printed(words: &[&str]) -> String {
    let output = run(words);
    let told = String::from_utf8_lossy(&output.stderr);
    assert!(output.status.success() && told.is_empty(), "{words:?}: {told}");
    String::from_utf8(output.stdout).expect("plain text")
}

/// The functions that the header declares, without `mittenhelm_`.
fn declared() -> BTreeSet<String> {
    let header = Path::new(env!("CARGO_MANIFEST_DIR")).join("../include/mittenhelm.h");
    let header = fs::read_to_string(header).expect("the header");
    let names = header.split("mittenhelm_").skip(1).filter_map(|rest| rest.split_once('('));
    names
        .map(|(name, _)| name)
        .filter(|name| name.chars().all(|c| c.is_ascii_lowercase() || c == '_'))
        .map(String::from)
        .collect()
}

/// The calls that a summary has a line for: below its two lines of heading.
fn fed(summary: &str) -> BTreeSet<String> {
    summary.lines().skip(2).filter_map(|line| line.split_whitespace().next()).map(String::from).collect()
}

/// A bound by number makes it the same run everywhere. Every call is fed, and nothing that it can answer stays unseen.
#[test]
fn a_long_run_finds_no_difference() {
    let summary = printed(&["--seed", "1", "--cases", "304000", "--complete"]);
    println!("{summary}");
    assert_eq!(fed(&summary), declared());
}

#[test]
fn a_seed_settles_the_run() {
    let of = |seed| printed(&["--seed", seed, "--cases", "380"]);
    assert_eq!(of("7"), of("7"));
    assert_ne!(of("7").lines().nth(7), of("8").lines().nth(7));
}

#[test]
fn a_case_alone() {
    let summary = printed(&["--seed", "7", "--case", "18446744073709551615"]);
    assert!(summary.starts_with("seed 7, 1 cases\n"), "{summary}");
}

#[test]
fn what_is_idle_is_a_failure() {
    let output = run(&["--seed", "7", "--cases", "1", "--complete"]);
    assert_eq!(output.status.code(), Some(1));
    let told = String::from_utf8(output.stderr).expect("plain text");
    assert!(told.contains("mittenhelm-fuzz: is_cell: never yes\n") && told.contains("mittenhelm-fuzz: list: never refused 12\n"));
    assert!(!told.contains("level:"), "{told}");
}

#[test]
fn bad_arguments() {
    for words in [
        &["--seed"][..],
        &["--seed", "x"],
        &["--cases", "-1"],
        &["--cases", "1", "--seconds", "1"],
        &["--case", "1", "--cases", "1"],
        &["7"],
        &["--minutes", "1"],
    ] {
        let output = run(words);
        assert_eq!(output.status.code(), Some(2), "{words:?}");
        assert!(output.stdout.is_empty() && output.stderr.starts_with(b"usage: mittenhelm-fuzz "), "{words:?}");
    }
}
