//! `mittenhelm slice`: the report and the tables, against the model of document 01.

use crate::fields::{BuiltIn, BUILT_INS};
use crate::run::{numbers, printed, slice, table};
use oracle_answers::model::lifetimes::{Lifetimes, Needs};
use oracle_answers::model::reading::{DualCell, Reading, Slabs};
use oracle_answers::model::{centre, half_size, level};
use oracle_answers::trees::Tree;
use std::fmt::Display;

/// A part's tree as the model has it, and the dual cell of each vertex.
struct Expected {
    tree: Tree,
    cells: Vec<(u64, u32, DualCell)>,
    needs: Needs,
}

impl Expected {
    fn new(part: &BuiltIn, bound: u32) -> Self {
        let tree = Tree::by_rule(bound, &part.distance);
        let tables = tree.tables();
        let reading = Reading::of(&tables);
        let needs = Needs::of_sound(&tables, &reading).expect("a sound tree");
        let vertices = reading.vertices().expect("a sound tree");
        let cell = |(vertex, level)| (vertex, level, reading.dual_cell(vertex, level).expect("a listed vertex"));
        Expected { tree, cells: vertices.into_iter().map(cell).collect(), needs }
    }

    fn lifetimes(&self, exponent: u32) -> Lifetimes {
        self.needs.lifetimes(exponent).expect("an exponent up to 15")
    }

    fn is_crossed(dual: &DualCell) -> bool {
        let inside = |bits: &u32| f32::from_bits(*bits) < 0.0;
        dual.distances.iter().any(inside) && !dual.distances.iter().all(inside)
    }

    fn reached(dual: &DualCell, exponent: u32) -> Slabs {
        dual.reach().slabs(exponent).expect("an exponent up to 15")
    }

    /// For each slab, how many cells reach it, how many of them are crossed, and how many leaves are needed.
    fn slabs(&self, exponent: u32) -> Vec<[usize; 3]> {
        let mut slabs: Vec<[usize; 3]> = self.lifetimes(exponent).needed.iter().map(|&needed| [0, 0, needed as usize]).collect();
        for (_, _, dual) in &self.cells {
            let (Slabs { first, last }, crossed) = (Expected::reached(dual, exponent), Expected::is_crossed(dual));
            for count in &mut slabs[first as usize..=last as usize] {
                *count = [count[0] + 1, count[1] + usize::from(crossed), count[2]];
            }
        }
        slabs
    }

    fn leaves_table(&self, exponent: u32) -> String {
        let Lifetimes { first, last, .. } = self.lifetimes(exponent);
        let mut text = "key,level,x,y,z,half,distance,first,last,place\n".to_string();
        let nodes = self.tree.nodes.iter().enumerate().filter(|(_, node)| self.tree.is_leaf(node.request.key));
        for ((place, node), (first, last)) in nodes.zip(first.into_iter().zip(last)) {
            let key = node.request.key;
            let (centre, half) = (centre(key).expect("a cell"), half_size(key).expect("a cell"));
            text += &format!("{key},{},{},{half},{},{first},{last},{place}\n", level(key), joined(&centre), node.distance);
        }
        text
    }

    fn vertices_table(&self, exponent: u32) -> String {
        let mut text = "vertex,level,x,y,z,first,last\n".to_string();
        for &(vertex, level, dual) in &self.cells {
            // It is the low corner of the cell whose key it is.
            let (centre, half) = (centre(vertex).expect("a cell of level 21"), half_size(vertex).expect("the same"));
            let Slabs { first, last } = Expected::reached(&dual, exponent);
            text += &format!("{vertex:#x},{level},{},{first},{last}\n", joined(&centre.map(|middle| middle - half)));
        }
        text
    }

    fn cells_table(&self, exponent: u32) -> String {
        let eight = |name: &str| joined(&[0, 1, 2, 3, 4, 5, 6, 7].map(|i| format!("{name}{i}")));
        let nodes = ["key", "distance", "place"].map(eight);
        let mut text = format!("vertex,level,first,last,crossed,tried,{}\n", joined(&nodes));
        for (vertex, level, dual) in &self.cells {
            let Slabs { first, last } = Expected::reached(dual, exponent);
            let (crossed, distances) = (u8::from(Expected::is_crossed(dual)), dual.distances.map(f32::from_bits));
            text += &format!("{vertex:#x},{level},{first},{last},{crossed},{},", dual.tried);
            text += &format!("{},{},{}\n", joined(&dual.keys), joined(&distances), joined(&dual.places));
        }
        text
    }
}

fn joined(items: &[impl Display]) -> String {
    items.iter().map(|item| item.to_string()).collect::<Vec<_>>().join(",")
}

/// The first number behind a name in a report.
fn told(report: &str, name: &str) -> usize {
    let line = report.lines().find(|line| line.split(' ').next() == Some(name)).unwrap_or_else(|| panic!("no {name}: {report}"));
    let word = line[name.len()..].trim_start().split(|c: char| !c.is_ascii_digit()).next();
    word.and_then(|word| word.parse().ok()).unwrap_or_else(|| panic!("no number: {line}"))
}

/// The lines of a report below the one that begins with a word, to an empty one.
fn section<'a>(report: &'a str, title: &'a str) -> Vec<&'a str> {
    report.lines().skip_while(|line| !line.starts_with(title)).skip(1).take_while(|line| !line.is_empty()).collect()
}

/// Everything that is printed of every part, bounds below 2 and a single slab too. All parts fit their usual bound.
#[test]
fn of_built_in_parts() {
    for part in &BUILT_INS {
        for (bound, exponent) in [(0, 1), (2, 0), (3, 5), (4, 4)] {
            let expected = Expected::new(part, bound);
            let (bound, power) = (bound.to_string(), exponent.to_string());
            let options = ["--bound", &bound, "--exponent", &power];
            let text = |name| printed(&slice(part.name, &[&options, &["--csv", name][..]].concat()));
            assert_eq!(text("leaves"), expected.leaves_table(exponent));
            assert_eq!(text("vertices"), expected.vertices_table(exponent));
            assert_eq!(text("cells"), expected.cells_table(exponent));

            let report = printed(&slice(part.name, &options));
            let counts = ["nodes", "leaves", "vertices", "cells"].map(|name| told(&report, name));
            let cells = expected.cells.len();
            assert_eq!(counts, [expected.tree.nodes.len(), expected.tree.leaves.len(), cells, cells], "{report}");
            check_slabs(&report, &table(part.name, &options, "slabs"), &expected.slabs(exponent));
            check_memory(&report, 4096, exponent, &expected);
            check_lifetimes(&report, &expected.lifetimes(exponent));
        }
    }
}

/// Both forms of the slabs' counts, which leave none out and name none twice.
fn check_slabs(report: &str, table: &[Vec<String>], expected: &[[usize; 3]]) {
    let share = |slab: usize| slab as f64 / expected.len() as f64;
    assert_eq!(table.len(), expected.len());
    for (slab, (row, count)) in table.iter().zip(expected).enumerate() {
        let [cells, crossed, needed] = count.map(|n| n as f64);
        assert_eq!(numbers(row, 0), [slab as f64, share(slab), share(slab + 1), cells, crossed, needed]);
    }

    let words = "\na cell counts in each slab that it reaches, from its lowest node centre to its highest\n\
                 a leaf is needed in each slab that a cell reaches which has it\nslab ";
    assert!(report.contains(words), "{report}");
    let mut next = 0;
    for line in section(report, "slab ") {
        let words: Vec<&str> = line.split_whitespace().filter(|word| *word != "to" && !word.starts_with('#')).collect();
        let words: Vec<f64> = words.iter().map(|word| word.parse().unwrap_or_else(|_| panic!("{line}"))).collect();
        // One slab, or the first and the last of some that have the same numbers.
        let (slabs, rest) = words.split_at(words.len() - 5);
        let (first, last) = (slabs[0] as usize, slabs[slabs.len() - 1] as usize);
        assert_eq!(first, next, "{line}");
        assert!((rest[0] - share(first)).abs() <= 5e-6 && (rest[1] - share(last + 1)).abs() <= 5e-6, "{line}");
        let told = [rest[3], rest[4], rest[2]];
        assert!(expected[first..=last].iter().all(|count| count.map(|n| n as f64) == told), "{line}");
        assert_eq!(line.contains('#'), rest[3] > 0.0, "{line}");
        let same_before = first > 0 && expected[first] == expected[first - 1];
        assert!(!same_before, "two lines for what one could say: {report}");
        next = last + 1;
    }
    assert_eq!(next, expected.len(), "{report}");
}

/// Each table's places and bytes, and their sum.
fn check_memory(report: &str, nodes: usize, exponent: u32, expected: &Expected) {
    let (leaves, splits) = ((7 * nodes + 1) / 8, expected.tree.nodes.len() - expected.tree.leaves.len());
    let [n, _, _, m, queue] = expected.tree.needs();
    let (cells, listed, slabs) = (expected.cells.len(), 19 * splits, 1 << exponent);
    let tables = [
        ("node keys", nodes, n, 8),
        ("node distances", nodes, n, 4),
        ("first children", nodes, n, 2),
        ("leaf keys", leaves, m, 8),
        ("queue", leaves, queue, 8),
        ("state", 9, 9, 8),
        ("vertices", listed, cells, 8),
        ("levels", listed, cells, 1),
        ("first slabs", m, m, 4),
        ("last slabs", m, m, 4),
        ("needed by slab", slabs, slabs, 4),
    ];
    let lines = section(report, "memory ");
    assert_eq!(lines.len(), tables.len() + 1, "{report}");
    let mut together = 0;
    for (line, (name, places, needed, bytes)) in lines.iter().zip(tables) {
        let words: Vec<&str> = line.strip_prefix(name).unwrap_or_else(|| panic!("{name}: {line}")).split_whitespace().collect();
        assert_eq!(words, [places.to_string(), needed.to_string(), (bytes * places).to_string()], "{line}");
        together += bytes * places;
    }
    let words: Vec<&str> = lines[tables.len()].split_whitespace().take(4).collect();
    assert_eq!(words, ["together", &together.to_string(), "of", "262144"], "{report}");
}

/// The greatest number with its slabs, and what it means for memory.
fn check_lifetimes(report: &str, expected: &Lifetimes) {
    let (all, most) = (expected.first.len(), expected.greatest);
    let at: Vec<usize> = (0..expected.needed.len()).filter(|&slab| expected.needed[slab] == most).collect();
    let slabs = match at.len() {
        1 => format!("at slab {}", at[0]),
        several => format!("at {several} slabs, the first being {}", at[0]),
    };
    let title = format!("at most {most} leaves are needed at a slab: {slabs}");
    let lines: Vec<Vec<&str>> = section(report, &title).iter().map(|line| line.split_whitespace().collect()).collect();
    let percent = (100.0 * most as f64 / all as f64).round();
    let words = [
        "32 bytes a leaf leaves bytes".to_string(),
        format!("all at once {all} {}", 32 * all),
        format!("only the needed {most} {}, {percent} %", 32 * most),
    ];
    assert_eq!(lines, words.iter().map(|line| line.split(' ').collect()).collect::<Vec<Vec<&str>>>(), "{report}");
}

/// Many slabs, most of them as the next one, are few lines; other room is told as it is.
#[test]
fn of_many_slabs_and_little_room() {
    let part = &BUILT_INS[0];
    let expected = Expected::new(part, 3);
    // A cell reaches many of them, so that they have more together than there are.
    assert!(expected.slabs(9).iter().map(|count| count[0]).sum::<usize>() > 20 * expected.cells.len());
    for exponent in [9, 15] {
        let power = exponent.to_string();
        let options = ["--bound", "3", "--exponent", &power, "--nodes", "600"];
        let report = printed(&slice(part.name, &options));
        check_slabs(&report, &table(part.name, &options, "slabs"), &expected.slabs(exponent));
        check_memory(&report, 600, exponent, &expected);
        check_lifetimes(&report, &expected.lifetimes(exponent));
        assert!(report.lines().count() < 60, "{report}");
    }
}

/// What is usual is what the help says.
#[test]
fn without_options() {
    let options = ["--bound", "4", "--exponent", "4", "--nodes", "4096"];
    assert_eq!(printed(&["slice", "lattice"]), printed(&slice("lattice", &options)));
}
