//! What is measured of a tree, on each side.

use crate::answers::Answers;
use crate::ours::{checked, look_ups, told, Batch, Building, Finished, Listing, Reporting, EXPONENT};
use crate::rivals::{Hashed, Pointed};
use crate::text::{Integer, Published, Text};
use crate::timing::{best, run, run_prepared, Run};
use crate::trees::{Case, LOOK_UPS};
use std::time::Duration;

#[derive(Clone, Copy, Debug, PartialEq, Eq)]
pub enum Measure {
    Build,
    List,
    DualCells,
    ListAndDualCells,
    LookUps,
    Slabs,
    Soundness,
}

pub const MEASURES: [Measure; 7] = [
    Measure::Build,
    Measure::List,
    Measure::DualCells,
    Measure::ListAndDualCells,
    Measure::LookUps,
    Measure::Slabs,
    Measure::Soundness,
];

impl Measure {
    pub fn name(self) -> &'static str {
        match self {
            Measure::Build => "build",
            Measure::List => "list",
            Measure::DualCells => "all dual cells",
            Measure::ListAndDualCells => "list and all dual cells",
            Measure::Slabs => "all slabs",
            Measure::LookUps => "10,000 lookups",
            Measure::Soundness => "soundness",
        }
    }

    /// How many times the Rust's speed ours should have at least.
    pub fn goal(self) -> Option<f64> {
        match self {
            Measure::Build => Some(4.0),
            Measure::List => Some(6.0),
            Measure::DualCells => Some(2.0),
            Measure::ListAndDualCells => Some(10.0),
            Measure::LookUps => Some(8.0),
            Measure::Slabs | Measure::Soundness => None,
        }
    }

    /// How many nodes, or lookups, it goes over in a tree of so many nodes.
    pub fn items(self, nodes: f64) -> f64 {
        match self {
            Measure::LookUps => LOOK_UPS as f64,
            _ => nodes,
        }
    }
}

/// With what ours is compared: the Rust, and two ways to look up keys that need no library.
#[derive(Clone, Copy, Debug, PartialEq, Eq)]
pub enum Rival {
    Published,
    Integer,
    Hashed,
    Pointed,
}

pub const RIVALS: [Rival; 4] = [Rival::Published, Rival::Integer, Rival::Hashed, Rival::Pointed];

impl Rival {
    pub fn name(self) -> &'static str {
        match self {
            Rival::Published => "as published",
            Rival::Integer => "integer level",
            Rival::Hashed => "hash map",
            Rival::Pointed => "pointers",
        }
    }

    /// Whether the goals are set against it.
    pub fn is_the_rust(self) -> bool {
        matches!(self, Rival::Published | Rival::Integer)
    }
}

/// The times of one measure on one tree, in seconds. A rival has none where it has no such call; the Rust has none where it builds
/// another tree, nor of slabs where its centres are others.
#[derive(Clone, Copy, Debug)]
pub struct Times {
    pub ours: f64,
    /// In the order of the rivals.
    pub rivals: [Option<f64>; RIVALS.len()],
}

impl Times {
    pub fn of(&self, rival: Rival) -> Option<f64> {
        self.rivals[rival as usize]
    }
}

/// The exponents with which lifetimes are timed.
pub const EXPONENTS: [u32; 3] = [0, 5, 10];

/// Lifetimes shouldn't take longer than so many times all cells, in the mean of the trees.
pub const MOST_CELLS: f64 = 3.0;

/// What lifetimes take, which are ours alone, beside all cells with the places of their nodes: both trust the tree. In seconds.
#[derive(Clone, Copy, Debug)]
pub struct Lifetimes {
    pub cells: f64,
    /// In the order of the exponents.
    pub reports: [f64; EXPONENTS.len()],
}

impl Lifetimes {
    /// How many times as long as all cells they take, by exponent.
    pub fn ratios(&self) -> [f64; EXPONENTS.len()] {
        self.reports.map(|report| report / self.cells)
    }
}

/// What was measured of a tree.
pub struct Row {
    pub case: Case,
    pub leaves: usize,
    pub vertices: usize,
    /// In the order of the measures.
    pub times: Vec<Times>,
    pub lifetimes: Lifetimes,
}

impl Row {
    /// Measures a tree, each side for the least time at least; if their answers differ, which.
    pub fn measured(case: &Case, least: Duration) -> Result<Self, String> {
        let keys = case.keys();
        let ours = Answers::ours(case.bound, &case.distances, &keys);
        let as_published = case.is_built_by::<Published>();
        same_answers::<Integer>(case, &keys, &ours)?;
        if as_published {
            same_answers::<Published>(case, &keys, &ours)?;
        }
        same_look_ups(case, &keys, &ours)?;
        let times = MEASURES.iter().map(|&measure| times(measure, case, &keys, as_published, least)).collect();
        let lifetimes = lifetimes(case, least)?;
        Ok(Row { case: case.clone(), leaves: ours.leaves.len(), vertices: ours.vertices.len(), times, lifetimes })
    }
}

fn same_answers<T: Text>(case: &Case, keys: &[u64], ours: &Answers) -> Result<(), String> {
    match ours.difference(&Answers::of_text::<T>(case.bound, &case.distances, keys)) {
        None => Ok(()),
        Some(part) => Err(format!("{} of {} nodes: the Rust's {part} are not ours", case.field, case.nodes())),
    }
}

fn same_look_ups(case: &Case, keys: &[u64], ours: &Answers) -> Result<(), String> {
    let finished = finished(case);
    let sums = [Hashed::of(finished.tree()).look_ups(keys), Pointed::of(finished.tree()).look_ups(keys)];
    if sums == [ours.sum_of_look_ups; 2] {
        return Ok(());
    }
    Err(format!("{} of {} nodes: other lookups are not ours", case.field, case.nodes()))
}

fn times(measure: Measure, case: &Case, keys: &[u64], as_published: bool, least: Duration) -> Times {
    let mut runs = vec![of_ours(measure, case, keys)];
    let places = RIVALS.map(|rival| {
        let run = match rival {
            Rival::Published => of_text::<Published>(measure, case, keys).filter(|_| as_published),
            Rival::Integer => of_text::<Integer>(measure, case, keys),
            Rival::Hashed | Rival::Pointed if measure != Measure::LookUps => None,
            Rival::Hashed => {
                let hashed = Hashed::of(finished(case).tree());
                Some(run(move || hashed.look_ups(keys)))
            }
            Rival::Pointed => {
                let pointed = Pointed::of(finished(case).tree());
                Some(run(move || pointed.look_ups(keys)))
            }
        };
        run.map(|run| runs.push(run)).map(|()| runs.len() - 1)
    });
    let best = best(&mut runs, least);
    Times { ours: best[0], rivals: places.map(|place| place.map(|place| best[place])) }
}

/// Times lifetimes beside all cells, once they are seen to be those of the cells.
fn lifetimes(case: &Case, least: Duration) -> Result<Lifetimes, String> {
    let finished = finished(case);
    let (tree, sound) = (finished.tree(), checked(finished.tree()));
    let reporting = || Reporting::new(tree, 1 << EXPONENTS[EXPONENTS.len() - 1]);
    if !EXPONENTS.iter().all(|&exponent| reporting().is_of_cells(sound, exponent)) {
        return Err(format!("{} of {} nodes: the lifetimes are not those of the cells", case.field, case.nodes()));
    }
    let mut memory = reporting();
    let mut runs = vec![run(move || memory.cells(sound))];
    for exponent in EXPONENTS {
        let mut memory = reporting();
        runs.push(run(move || memory.lifetimes(sound, exponent)));
    }
    let best = best(&mut runs, least);
    Ok(Lifetimes { cells: best[0], reports: [0, 1, 2].map(|i| best[1 + i]) })
}

fn finished(case: &Case) -> Finished {
    let mut building = Building::new();
    let state = building.build_ready(case.bound, &case.distances).expect("room for the tree");
    building.finished(state)
}

fn of_ours<'a>(measure: Measure, case: &'a Case, keys: &'a [u64]) -> Run<'a> {
    let (mut building, mut listing, mut batch) = (Building::new(), Listing::new(), Batch::new());
    let finished = finished(case);
    listing.list(finished.tree());
    match measure {
        Measure::Build => run(move || building.build_ready(case.bound, &case.distances)),
        Measure::List => run(move || listing.list(finished.tree())),
        Measure::DualCells => run(move || listing.dual_cells(finished.tree())),
        Measure::ListAndDualCells => run(move || batch.dual_cells(finished.tree())),
        Measure::Slabs => run(move || listing.slabs(finished.tree())),
        Measure::LookUps => run(move || look_ups(finished.tree(), keys)),
        Measure::Soundness => run(move || finished.tree().sound()),
    }
}

fn of_text<'a, T: Text + 'a>(measure: Measure, case: &'a Case, keys: &'a [u64]) -> Option<Run<'a>> {
    let octree = T::octree(case.bound, &case.distances);
    let run = match measure {
        Measure::Build => run(move || T::octree(case.bound, &case.distances)),
        Measure::List => run(move || T::vertices(&octree)),
        Measure::DualCells => {
            let vertices = T::vertices(&octree);
            run_prepared(move || vertices.clone(), move |vertices| T::dual_cells(&octree, vertices))
        }
        Measure::ListAndDualCells => run(move || T::dual_cells(&octree, T::vertices(&octree))),
        Measure::Slabs if !T::KNOWS_CENTRES => return None,
        Measure::Slabs => {
            let vertices = T::vertices(&octree);
            run(move || T::slabs(&octree, &vertices, 1 << EXPONENT, told))
        }
        Measure::LookUps => run(move || T::look_ups(&octree, keys)),
        Measure::Soundness => return None,
    };
    Some(run)
}
