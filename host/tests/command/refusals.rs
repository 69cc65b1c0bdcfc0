//! Builds that the library refuses to go on with, against the model of document 01.

use crate::fields::{named, BuiltIn, BUILT_INS};
use crate::run::{fault, file, printed, run, slice};
use oracle_answers::model::{build, level};
use oracle_answers::trees::Tree;

/// The refusal of a build in tables for so many nodes, and the state that it leaves; none, where it finishes.
fn refusal(part: &str, bound: u32, nodes: usize) -> Option<(u32, [u64; build::STATE_WORDS])> {
    let field = named(part).expect("a built-in part").distance;
    let leaves = (7 * nodes + 1) / 8;
    let (mut tables, mut state) = (build::Tables::of([nodes, nodes, nodes, leaves, leaves]), [0; build::STATE_WORDS]);
    let mut asked = Some(build::start(bound, &tables, &mut state).expect("a bound up to 15"));
    while let Some(request) = asked {
        match build::distance(&mut state, &mut tables, field(request.centre)) {
            Ok(next) => asked = next,
            Err(number) => return Some((number, state)),
        }
    }
    None
}

/// Bounds and rooms: those at the edge of what a part needs too.
fn cases(part: &BuiltIn) -> Vec<(u32, usize)> {
    let mut cases =
        vec![(0, 1), (2, 9), (2, 72), (2, 73), (4, 73), (3, 100), (4, 300), (4, 584), (5, 1000), (15, 4095), (6, 4096)];
    for bound in [3, 4] {
        let size = Tree::by_rule(bound, &part.distance).nodes.len();
        cases.extend([(bound, size), (bound, size - 1), (bound, size - 8), (bound + 1, size), (9, size - 1)]);
    }
    cases
}

/// Checks the words of a refusal, and hands on the bound that is said to fit.
fn check(said: &str, number: u32, state: &[u64], nodes: usize) -> Option<u32> {
    let (n, m, asked) = (state[1], state[2], state[3]);
    let told = format!(
        "The build had {n} nodes, {m} of them leaves, and asked for a cell of level {}; {} more were waiting.",
        level(asked),
        7 * n - 8 * m
    );
    let reason = match number {
        6 => "no room for another node",
        8 => "no room in the queue for eight children",
        _ => panic!("refusal {number}: {said}"),
    };
    let lines: Vec<&str> = said.lines().collect();
    assert_eq!(lines[..2], [&format!("mittenhelm: refused {number}: {reason}"), &told]);
    assert!(lines.len() == 3 && lines[2].starts_with("What can help: -"), "{said}");
    assert_eq!(lines[2].contains(&format!("--nodes above {nodes}, up to 4096")), nodes < 4096, "{said}");
    let (_, fitting) = lines[2].split_once("--bound ")?;
    let (fitting, _) = fitting.split_once(", which fits")?;
    Some(fitting.parse().expect("a bound"))
}

/// The bound that is told is the greatest that fits; where none is told, none does.
#[test]
fn are_told_with_what_helps() {
    let (mut seen, mut helped) = ([0; 9], 0);
    for part in &BUILT_INS {
        for (bound, nodes) in cases(part) {
            let room = nodes.to_string();
            let finishes =
                |bound: u32| run(&slice(part.name, &["--bound", &bound.to_string(), "--nodes", &room])).status.success();
            match refusal(part.name, bound, nodes) {
                None => {
                    assert!(finishes(bound), "{} {bound} {nodes}", part.name);
                    seen[0] += 1;
                }
                Some((number, state)) => {
                    let said = fault(1, &slice(part.name, &["--bound", &bound.to_string(), "--nodes", &room]));
                    let fitting = check(&said, number, &state, nodes);
                    assert!(fitting.iter().all(|&fitting| fitting < bound && finishes(fitting)), "{} {bound} {said}", part.name);
                    assert!(!finishes(fitting.map_or(0, |fitting| fitting + 1)), "{} {bound} {said}", part.name);
                    seen[number as usize] += 1;
                    helped += usize::from(fitting.is_some());
                }
            }
        }
    }
    assert!([0, 6, 8].iter().all(|&number| seen[number] > 10) && helped > 50, "{seen:?}, {helped}");
}

/// A refused build leaves no table, and no picture.
#[test]
fn leave_nothing() {
    let paths = ["refused.svg", "refused-lifetimes.svg"].map(file);
    let [svg, lifetimes] = [0, 1].map(|i: usize| paths[i].to_str().expect("plain text"));
    for csv in ["slabs", "leaves", "vertices", "cells"] {
        let said = fault(1, &slice("sphere", &["--bound", "9", "--svg", svg, "--lifetimes", lifetimes, "--csv", csv]));
        assert!(said.starts_with("mittenhelm: refused 8: "), "{said}");
    }
    assert!(paths.iter().all(|path| !path.exists()));
    printed(&slice("sphere", &["--svg", svg, "--lifetimes", lifetimes]));
    assert!(paths.iter().all(|path| path.exists()));
    paths.iter().for_each(|path| std::fs::remove_file(path).expect("a picture just made"));
}
