//! The header as a C and as a C++ compiler read it, with the archive linked to the programs of tests/c: one that uses every
//! function, one that takes a part from its distance field to its dual cells, and one that keeps leaves only while they are needed, whose
//! totals are the model's.

use oracle_answers::model::lifetimes::{Lifetimes, Needs};
use oracle_answers::model::reading::{Lookup, Reading, Slabs, Tables};
use oracle_answers::model::{add, centre, child};
use oracle_answers::trees::Tree;
use std::env;
use std::fmt::Write;
use std::fs;
use std::path::Path;
use std::process::Command;

/// Compiles a program of tests/c, links it with the archive and runs it; what it prints.
fn printed(compiler: &str, language: &str, standard: &str, name: &str) -> String {
    let here = Path::new(env!("CARGO_MANIFEST_DIR"));
    let program = Path::new(env!("CARGO_TARGET_TMPDIR")).join(format!("{name}-{standard}"));
    let compiled = Command::new(compiler)
        .arg(format!("-std={standard}"))
        .args(["-x", language, "-Wall", "-Wextra", "-pedantic", "-Werror", "-I"])
        .arg(here.join("../include"))
        .arg(here.join(format!("tests/c/{name}.c")))
        // The archive is no source, whatever language was named for the file before it.
        .args(["-x", "none"])
        .arg(env!("MITTENHELM_ARCHIVE_LINKED"))
        .arg("-lm")
        .arg("-o")
        .arg(&program)
        .status()
        .unwrap_or_else(|e| panic!("no compiler {compiler}: {e}"));
    assert!(compiled.success(), "{compiler} doesn't take the header or the archive with {name}.c");
    let ran = Command::new(&program).output().expect("a program that runs");
    assert!(ran.status.success(), "a function answers otherwise when called from {}: {ran:?}", program.display());
    String::from_utf8(ran.stdout).expect("plain text")
}

fn in_c(name: &str) -> String {
    printed(&named("CC", "cc"), "c", "c99", name)
}

fn in_cpp(name: &str) -> String {
    printed(&named("CXX", "c++"), "c++", "c++11", name)
}

fn named(variable: &str, otherwise: &str) -> String {
    env::var(variable).unwrap_or_else(|_| otherwise.to_string())
}

#[test]
fn every_function_in_c() {
    assert_eq!(in_c("uses_header"), "");
}

#[test]
fn every_function_in_cpp() {
    assert_eq!(in_cpp("uses_header"), "");
}

/// In the archive a length or a place has 8 bytes on every host, which a `size_t` hasn't; here it has, so no other test would tell.
#[test]
fn no_length_of_the_hosts_own_width() {
    let path = Path::new(env!("CARGO_MANIFEST_DIR")).join("../include/mittenhelm.h");
    let header = fs::read_to_string(path).expect("the header");
    assert!(header.contains("uint64_t places_length"), "the header isn't what it was");
    for word in ["size_t", "ptrdiff_t", "uintptr_t", "stddef"] {
        assert!(!header.contains(word), "the header speaks of {word}");
    }
}

/// The field of prints_part.c and keeps_leaves.c.
fn sphere([x, y, z]: [f32; 3]) -> f32 {
    let [dx, dy, dz] = [x - 0.4375, y - 0.5, z - 0.5625];
    (dx * dx + dy * dy + dz * dz).sqrt() - 0.21875
}

/// Its resins: none, soft and stiff. That of the node at a place.
fn resin(tables: &Tables, place: u64) -> usize {
    let (key, distance) = (tables.keys[place as usize], f32::from_bits(tables.distances[place as usize]));
    let [_, _, z] = centre(key).expect("a key of a tree");
    match (distance > 0.0, z < 0.5) {
        (true, _) => 0,
        (false, true) => 1,
        (false, false) => 2,
    }
}

/// Its column of cells in the part's middle, each by its resin's sign.
fn column(tables: &Tables, reading: &Reading, bound: u32) -> String {
    let bit = |number: u32, at: u32| number >> at & 1;
    let lowest = (0..bound).rev().fold(1, |key, at| child(key, bit(14, at) + 2 * bit(16, at)).expect("a cell above the bound"));
    let cells = std::iter::successors(Some(lowest), |&key| Some(add(key, 4))).take(1 << bound);
    let sign = |key| match reading.look_up(key) {
        Ok(Lookup::Found { place, .. }) => ['.', '-', '#'][resin(tables, place)],
        other => panic!("{other:?} for {key}"),
    };
    cells.map(sign).collect()
}

/// A sum in which each of eight numbers has its own weight.
fn weighted(eight: [u64; 8]) -> u64 {
    (1..).zip(eight).fold(0, |sum, (weight, number)| sum.wrapping_add(number.wrapping_mul(weight)))
}

/// What prints_part.c has to print, by the model: totals of the tree over its field, with its depth bound and slab exponent.
fn totals(bound: u32, exponent: u32) -> String {
    let tables = Tree::by_rule(bound, &sphere).tables();
    let reading = Reading::of(&tables);
    let vertices = reading.vertices().expect("a sound tree");
    let (mut keys, mut places, mut tried, mut outside) = (0u64, 0u64, 0, 0);
    let (mut of_resin, mut seams) = ([0; 3], 0);
    let mut cells_in_slab = vec![0; 1 << exponent];
    for &(vertex, level) in &vertices {
        let cell = reading.dual_cell(vertex, level).expect("a listed vertex");
        keys = keys.wrapping_add(weighted(cell.keys));
        places = places.wrapping_add(weighted(cell.places));
        tried += cell.tried;
        outside += cell.distances.iter().filter(|&&bits| f32::from_bits(bits) > 0.0).count();
        let resins = cell.places.map(|place| resin(&tables, place));
        resins.iter().for_each(|&resin| of_resin[resin] += 1);
        seams += usize::from(resins.contains(&1) && resins.contains(&2));
        let Slabs { first, last } = reading.slabs(vertex, level, exponent).expect("a listed vertex");
        (first..=last).for_each(|slab| cells_in_slab[slab as usize] += 1);
    }
    let mut text = format!("{} nodes, {} leaves, {} vertices\n", tables.keys.len(), tables.leaves.len(), vertices.len());
    text += &format!("{tried} keys tried, {outside} entries outside, keys {keys}, places {places}\n");
    let [none, soft, stiff] = of_resin;
    assert!([none, soft, stiff, seams].iter().all(|&count| count > 0), "a part of one resin tells nothing");
    text += &format!("{none} entries without resin, {soft} soft, {stiff} stiff; {seams} cells at a seam\n");
    text += &format!("column {}\n", column(&tables, &reading, bound));
    for (slab, cells) in cells_in_slab.iter().enumerate() {
        writeln!(text, "slab {slab}: {cells} cells reach it").expect("a String takes all that is written");
    }
    text
}

#[test]
fn a_part_in_c() {
    assert_eq!(in_c("prints_part"), totals(5, 3));
}

#[test]
fn a_part_in_cpp() {
    assert_eq!(in_cpp("prints_part"), totals(5, 3));
}

/// What keeps_leaves.c has to print, by the model, with its depth bound and slab exponent.
fn kept(bound: u32, exponent: u32) -> String {
    let tables = Tree::by_rule(bound, &sphere).tables();
    let reading = Reading::of(&tables);
    let report = Needs::of_sound(&tables, &reading).and_then(|needs| needs.lifetimes(exponent));
    let Lifetimes { first, last, needed, greatest } = report.expect("a sound tree");
    let leaves = tables.leaves.len();
    assert!(2 * greatest < leaves as u32, "a part whose leaves are all needed at once tells nothing");
    let mut text = format!("{} nodes, {leaves} leaves, {greatest} of them needed at once\n", tables.keys.len());
    for (slab, held) in (0..).zip(needed) {
        let [got, freed] = [&first, &last].map(|slabs| slabs.iter().filter(|&&at| at == slab).count());
        let (mut cells, mut inside) = (0, 0);
        for (vertex, level) in reading.vertices().expect("a sound tree") {
            let Slabs { first, last } = reading.slabs(vertex, level, exponent).expect("a listed vertex");
            if (first..=last).contains(&slab) {
                let distances = reading.dual_cell(vertex, level).expect("a listed vertex").distances;
                cells += 1;
                inside += distances.iter().filter(|&&bits| f32::from_bits(bits) < 0.0).count();
            }
        }
        let line =
            format!("slab {slab}: {got} leaves got, {held} held, {freed} freed; {cells} cells read, {inside} entries inside");
        writeln!(text, "{line}").expect("a String takes all that is written");
    }
    text
}

#[test]
fn kept_leaves_in_c() {
    assert_eq!(in_c("keeps_leaves"), kept(5, 4));
}

#[test]
fn kept_leaves_in_cpp() {
    assert_eq!(in_cpp("keeps_leaves"), kept(5, 4));
}
