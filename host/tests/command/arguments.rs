//! Arguments: the help, and what can't be used.

use crate::run::{command, file, one_line, printed, run, saved};
use std::ffi::OsStr;
use std::os::unix::ffi::OsStrExt;
use std::process::Stdio;

#[test]
fn help() {
    let page = printed(&["--help"]);
    assert!(page.starts_with("usage: mittenhelm slice PART "), "{page}");
    for words in [&["help"][..], &["-h"], &["slice", "--help"], &["slice", "no-such-part", "-h"], &["sample", "--help"]] {
        assert_eq!(printed(words), page, "{words:?}");
    }
    for word in [
        "--bound",
        "--exponent",
        "--nodes",
        "--csv",
        "--svg",
        "--slab",
        "--lifetimes",
        "--points",
        "-o",
        "mittenhelm-grid NX NY NZ",
    ] {
        assert!(page.contains(word), "{word}");
    }
    assert!(crate::fields::BUILT_INS.iter().all(|part| page.contains(&format!("\n  {} ", part.name))), "{page}");
    assert!(page.lines().all(|line| line.len() <= 80), "{page}");
}

#[test]
fn bad_arguments() {
    let svg = file("never.svg");
    let svg = svg.to_str().expect("plain text");
    for words in [
        &[][..],
        &["leaf"],
        &["leaf", "sphere"],
        &["key"],
        &["key", "1", "2"],
        &["key", "x"],
        &["key", ""],
        &["key", "-1"],
        &["key", "+1"],
        &["key", "0x"],
        &["key", "18446744073709551616"],
        &["slice"],
        &["slice", ""],
        &["slice", "--bound", "4"],
        &["slice", "ball"],
        &["slice", "Sphere"],
        &["slice", "sphere", "box"],
        &["slice", "sphere", "-x"],
        &["slice", "sphere", "-"],
        &["slice", "sphere", "--"],
        &["slice", "sphere", "--Bound", "4"],
        &["slice", "sphere", "--points", "4"],
        &["slice", "sphere", "--bound"],
        &["slice", "sphere", "--bound", ""],
        &["slice", "sphere", "--bound="],
        &["slice", "sphere", "--bound", "16"],
        &["slice", "sphere", "--bound", "-1"],
        &["slice", "sphere", "--bound", "+4"],
        &["slice", "sphere", "--bound", "4.0"],
        &["slice", "sphere", "--bound", "99999999999999999999"],
        &["slice", "sphere", "--bound", "4", "--bound", "4"],
        &["slice", "sphere", "--exponent", "16"],
        &["slice", "sphere", "--exponent", "-0"],
        &["slice", "sphere", "--exponent", "4294967296"],
        &["slice", "sphere", "--nodes", "0"],
        &["slice", "sphere", "--nodes", "4097"],
        &["slice", "sphere", "--csv"],
        &["slice", "sphere", "--csv", "nodes"],
        &["slice", "sphere", "--svg"],
        &["slice", "sphere", "--svg", ""],
        &["slice", "sphere", "--slab", "0"],
        &["slice", "sphere", "--svg", svg, "--slab", "16"],
        &["slice", "sphere", "--svg", svg, "--exponent", "2", "--slab", "4"],
        &["slice", "sphere", "--lifetimes"],
        &["slice", "sphere", "--lifetimes", ""],
        &["slice", "sphere", "--lifetimes", svg, "--lifetimes", svg],
        &["slice", "sphere", "--lifetimes", svg, "--svg", svg],
        &["slice", "sphere", "--lifetimes", svg, "--slab", "0"],
        &["sample", "sphere", "--lifetimes", svg],
        &["sample"],
        &["sample", "ball"],
        &["sample", "sphere", "--bound", "4"],
        &["sample", "sphere", "-o"],
        &["sample", "sphere", "-o", ""],
        &["sample", "sphere", "--points", "1"],
        &["sample", "sphere", "--points", "513"],
        &["sample", "sphere", "--points", "4,4"],
        &["sample", "sphere", "--points", "4,4,1"],
        &["sample", "sphere", "--points", "4,4,4,4"],
        &["sample", "sphere", "--points", "4,4,"],
    ] {
        let said = one_line(2, words);
        assert!(said.ends_with("(mittenhelm --help tells more)\n"), "{words:?}: {said}");
    }
    assert!(!file("never.svg").exists());
}

/// Bytes that are no text, and a newline, in every place where a word can stand.
#[test]
fn words_that_are_no_text() {
    for odd in [OsStr::from_bytes(b"\xff\xfe"), OsStr::new("two\nlines"), OsStr::new("\x1b[2Jred")] {
        let plain = OsStr::new;
        for words in [
            &[odd][..],
            &[plain("key"), odd],
            &[plain("slice"), odd],
            &[plain("slice"), plain("sphere"), odd],
            &[plain("slice"), plain("sphere"), plain("--bound"), odd],
            &[plain("slice"), plain("sphere"), plain("--csv"), odd],
            &[plain("sample"), odd],
        ] {
            let said = one_line(2, words);
            assert!(said.trim_end().chars().all(|c| !c.is_control()), "{said:?}");
        }
    }
}

#[test]
fn a_value_may_stand_behind_a_sign() {
    let page = printed(&["slice", "torus", "--bound", "3", "--exponent", "3"]);
    assert_eq!(printed(&["slice", "--exponent=3", "torus", "--bound=3"]), page);
}

#[test]
fn output_that_cannot_be_written() {
    let full = || Stdio::from(std::fs::OpenOptions::new().write(true).open("/dev/full").expect("a full device"));
    for words in [&["key", "71"][..], &["slice", "sphere"], &["slice", "sphere", "--csv", "cells"], &["sample", "box"], &["help"]]
    {
        let output = command().args(words).stdout(full()).output().expect("a command that runs");
        let said = String::from_utf8(output.stderr).expect("plain text");
        assert_eq!(output.status.code(), Some(1), "{words:?}: {said}");
        assert!(said.starts_with("mittenhelm: cannot print: ") && said.lines().count() == 1, "{words:?}: {said}");
        // A fault that can't be told is no fault of another kind.
        let output = command().args(words).stdout(full()).stderr(full()).output().expect("a command that runs");
        assert_eq!(output.status.code(), Some(1), "{words:?}");
    }
    let folder = env!("CARGO_TARGET_TMPDIR");
    let nowhere = file("no-such-folder/slab.svg");
    for path in [nowhere.to_str().expect("plain text"), folder, "/dev/full"] {
        for words in
            [&["slice", "sphere", "--svg", path], &["slice", "sphere", "--lifetimes", path], &["sample", "sphere", "-o", path]]
        {
            let said = one_line(1, words);
            assert!(said.starts_with(&format!("mittenhelm: cannot write {path}: ")), "{said}");
        }
    }
}

#[test]
fn a_reader_that_goes_away() {
    for words in [&["slice", "sphere", "--csv", "cells"][..], &["sample", "sphere", "--points", "60"]] {
        let mut child = command().args(words).stdout(Stdio::piped()).stderr(Stdio::piped()).spawn().expect("a command that runs");
        drop(child.stdout.take());
        let output = child.wait_with_output().expect("a command that ends");
        assert!(output.status.success() && output.stderr.is_empty(), "{words:?}: {output:?}");
    }
}

/// Where a file has the name of a built-in part, a path says that it is meant.
#[test]
fn a_file_named_as_a_part() {
    saved("sphere", b"no grid");
    let run_there = |part| command().args(["slice", part]).current_dir(env!("CARGO_TARGET_TMPDIR")).output().expect("a command");
    assert_eq!(run_there("sphere").stdout, run(&["slice", "sphere"]).stdout);
    assert_eq!(run_there("./sphere").status.code(), Some(2));
}
