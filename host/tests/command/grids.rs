//! Grid files: what is read from them, which ones can't be used, and how they are made.

use crate::fields::BUILT_INS;
use crate::run::{file, grid, numbers, one_line, printed, printed_bytes, saved, slice, table};
use std::ffi::OsStr;
use std::fs;
use std::os::unix::ffi::OsStrExt;

const SHIPPED: &str = concat!(env!("CARGO_MANIFEST_DIR"), "/../samples/bracket.grid");

#[test]
fn the_shipped_file_is_made_again() {
    let shipped = fs::read(SHIPPED).expect("the shipped file");
    assert!(shipped.len() <= 70_000);
    assert!(printed_bytes(&["sample", "bracket", "--points", "25"]) == shipped);
    let path = file("bracket.grid");
    assert!(printed_bytes(&[OsStr::new("sample"), OsStr::new("bracket"), OsStr::new("-o"), path.as_os_str()]).is_empty());
    assert!(fs::read(path).expect("the file just made") == shipped);
}

#[test]
fn samples_are_the_fields_values() {
    for part in &BUILT_INS {
        let size = [5, 2, 9];
        let step = |at: u32, points: u32| at as f32 / (points - 1) as f32;
        let expected = grid(size, |at| (part.distance)([step(at[0], 5), step(at[1], 2), step(at[2], 9)]));
        assert!(printed_bytes(&["sample", part.name, "--points", "5,2,9"]) == expected, "{}", part.name);
    }
}

/// A field of the form of the interpolation, with values that are exact at every step, is met at each centre.
#[test]
fn between_samples_the_field_is_trilinear() {
    let field = |[x, y, z]: [f64; 3]| 0.5 - x + 2.0 * y + 0.25 * z + x * y - 3.0 * y * z + x * z + 4.0 * x * y * z;
    for (name, size) in
        [("twos.grid", [2, 2, 2]), ("uneven.grid", [3, 5, 2]), ("flat.grid", [2, 9, 17]), ("long.grid", [257, 3, 2])]
    {
        let place = |at: [u32; 3]| [0, 1, 2].map(|axis| at[axis] as f64 / (size[axis] - 1) as f64);
        let path = saved(name, &grid(size, |at| field(place(at)) as f32));
        let leaves = table(&path, &["--bound", "3"], "leaves");
        for leaf in &leaves {
            let leaf = numbers(leaf, 2);
            assert_eq!(leaf[4] as f32, field([leaf[0], leaf[1], leaf[2]]) as f32, "{name}: {leaf:?}");
        }
        assert!(leaves.len() > 64, "{name}");
    }
}

/// No sum of two samples overflows, and so none is lost: what lies between finite samples is finite, or the build would be refused.
#[test]
fn great_samples() {
    let distances = |even: f32, odd: f32| -> Vec<f64> {
        let path = saved("great.grid", &grid([4, 4, 4], |[x, y, z]| if (x + y + z) % 2 == 0 { even } else { odd }));
        table(&path, &[], "leaves").iter().map(|leaf| numbers(leaf, 6)[0]).collect()
    };
    for greatest in [f32::MAX, f32::MIN] {
        assert_eq!(distances(greatest, greatest), [greatest as f64; 64]);
        let between = distances(greatest, -greatest);
        assert!(between.len() == 64 && between.iter().all(|distance| distance.abs() <= f32::MAX as f64), "{between:?}");
    }
}

/// Sampled where the centres of a build are, a part gives the tree that it gives itself.
#[test]
fn a_sampled_part_has_the_parts_tree() {
    for name in ["bracket", "torus"] {
        let path = file(&format!("sampled-{name}.grid"));
        let path = path.to_str().expect("plain text");
        printed(&["sample", name, "--points", "65", "-o", path]);
        for what in ["leaves", "cells"] {
            // The centres down to level 5 are among 65 points.
            assert_eq!(table(path, &["--bound", "4"], what), table(name, &["--bound", "4"], what), "{name}");
        }
        let again = printed_bytes(&["sample", path, "--points", "65"]);
        assert!(again == fs::read(path).expect("the file just made"));
    }
}

#[test]
fn files_that_cannot_be_used() {
    let good = grid([2, 3, 4], |_| 1.0);
    let with = |line: &str| [line.as_bytes(), &good[22..]].concat();
    let and = |value: f32| grid([2, 3, 4], move |at| if at == [1, 2, 3] { value } else { 1.0 });
    assert!(good.starts_with(b"mittenhelm-grid 2 3 4\n"));
    let cases: &[(&str, Vec<u8>, &str)] = &[
        ("empty", vec![], "no grid file"),
        ("a newline", b"\n".to_vec(), "no grid file"),
        ("no line", vec![0; 1000], "no grid file"),
        ("no newline", with("mittenhelm-grid 2 3 4"), "no grid file"),
        ("a line alone without its end", b"mittenhelm-grid 2 3 4".to_vec(), "no grid file"),
        ("another word", with("mittenhelm-gird 2 3 4\n"), "no grid file"),
        ("two numbers", with("mittenhelm-grid 2 3\n"), "no grid file"),
        ("four numbers", with("mittenhelm-grid 2 3 4 5\n"), "no grid file"),
        ("two spaces", with("mittenhelm-grid 2  3 4\n"), "no grid file"),
        ("a return", with("mittenhelm-grid 2 3 4\r\n"), "2 to 512 samples"),
        ("a long line", with(&format!("mittenhelm-grid 2 3 {}4\n", "0".repeat(100))), "no grid file"),
        ("no text", [&b"mittenhelm-grid 2 3 \xff\n"[..], &good[22..]].concat(), "no grid file"),
        ("a letter", with("mittenhelm-grid 2 3 x\n"), "2 to 512 samples"),
        ("a sign", with("mittenhelm-grid 2 3 +4\n"), "2 to 512 samples"),
        ("below nothing", with("mittenhelm-grid 2 3 -4\n"), "2 to 512 samples"),
        ("one sample", grid([2, 1, 4], |_| 1.0), "2 to 512 samples"),
        ("no sample", grid([0, 3, 4], |_| 1.0), "2 to 512 samples"),
        ("too many samples", with("mittenhelm-grid 2 3 513\n"), "2 to 512 samples"),
        ("a product of 2^64", with("mittenhelm-grid 4194304 2097152 2097152\n"), "2 to 512 samples"),
        ("numbers of 2^32 and more", with("mittenhelm-grid 4294967298 4294967298 2\n"), "2 to 512 samples"),
        ("numbers of 2^64", with("mittenhelm-grid 18446744073709551618 3 4\n"), "2 to 512 samples"),
        ("all that is allowed", with("mittenhelm-grid 512 512 512\n"), "ends before its 512 x 512 x 512 samples"),
        ("the line alone", good[..22].to_vec(), "ends before its 2 x 3 x 4 samples"),
        ("a byte less", good[..good.len() - 1].to_vec(), "ends before its 2 x 3 x 4 samples"),
        ("a byte more", [&good[..], b"\n"].concat(), "goes on after its 2 x 3 x 4 samples"),
        ("not a number", and(f32::NAN), "the sample at x 1, y 2, z 3 is NaN"),
        ("infinity", and(f32::INFINITY), "the sample at x 1, y 2, z 3 is inf"),
        ("minus infinity", and(f32::NEG_INFINITY), "the sample at x 1, y 2, z 3 is -inf"),
    ];
    for (name, bytes, why) in cases {
        let path = saved("bad.grid", bytes);
        for words in [slice(&path, &[]), vec!["sample", &path]] {
            let said = one_line(2, &words);
            assert!(said.starts_with(&format!("mittenhelm: {path}: ")) && said.contains(why), "{name}: {said}");
        }
    }
    printed(&slice(&saved("good.grid", &good), &[]));
}

#[test]
fn files_that_are_not_there() {
    let missing = file("missing.grid");
    let missing = missing.to_str().expect("plain text");
    assert!(one_line(2, &slice(missing, &[])).contains("No such file"));
    assert!(one_line(2, &slice(env!("CARGO_TARGET_TMPDIR"), &[])).contains("a folder"));
    assert!(one_line(2, &slice("/dev/null", &[])).contains("no grid file"));
    assert!(one_line(2, &slice("/dev/zero", &[])).contains("no grid file"));
    assert!(one_line(2, &slice(&"a".repeat(5000), &[])).contains("aaa"));
    assert!(one_line(2, &[OsStr::new("slice"), OsStr::from_bytes(b"no\xfftext.grid")]).contains("No such file"));
}
