//! A build over a part: tables are lent, and each distance that is asked for is answered from the part's field.

use super::fault::Fault;
use super::fields::Point;
use super::progress::Progress;
use mittenhelm::{Refusal, Request, State, Tables, Tree};

/// A build takes no more nodes, however long its tables are.
pub const MOST_NODES: u32 = 4096;
/// A lower bound gives the same tree.
pub const LEAST_BOUND: u32 = 2;
/// The refusal of a distance that is infinite or NaN.
const NOT_FINITE: u32 = 16;

/// Memory for the tables of a build.
pub struct Lent {
    keys: Vec<u64>,
    distances: Vec<f32>,
    firsts: Vec<u16>,
    leaves: Vec<u64>,
    queue: Vec<u64>,
}

impl Lent {
    /// No tree of so many nodes needs more.
    pub fn new(nodes: u32) -> Self {
        let nodes = nodes as usize;
        let most_leaves = (7 * nodes + 1) / 8;
        Lent {
            keys: vec![0; nodes],
            distances: vec![0.0; nodes],
            firsts: vec![0; nodes],
            leaves: vec![0; most_leaves],
            queue: vec![0; most_leaves],
        }
    }

    pub fn tables(&mut self) -> Tables<'_> {
        let Lent { keys, distances, firsts, leaves, queue } = self;
        Tables { keys, distances, firsts, leaves, queue }
    }
}

/// A finished build in its tables.
pub struct Built<'a> {
    pub tables: Tables<'a>,
    pub state: State,
    /// How many places of the queue were taken when most were.
    pub queued: u64,
}

impl<'a> Built<'a> {
    /// Builds over a field, which is asked for its value at the centre of each cell.
    pub fn new(field: impl Fn(Point) -> f32, bound: u32, mut tables: Tables<'a>, progress: &mut Progress) -> Result<Self, Fault> {
        let (mut state, request) = mittenhelm::start(bound, &tables)?;
        let (mut asked, mut queued) = (Some(request), 0);
        while let Some(request) = asked {
            progress.say(|| format!("building: {} nodes, level {}", state.nodes(), mittenhelm::level(request.key)));
            let (before, distance) = (state, field(request.centre));
            let answer = mittenhelm::distance(&mut state, &mut tables, distance);
            asked = answer.map_err(|refusal| match refusal.number() {
                NOT_FINITE => broken(refusal, &request, distance),
                _ => stopped(refusal, &state, &tables),
            })?;
            if state.leaves() == before.leaves() {
                queued = queued.max(waiting(&before) + 8);
            }
        }
        Ok(Built { tables, state, queued })
    }

    pub fn tree(&self) -> Tree<'_> {
        self.state.tree(&self.tables).expect("a finished build leaves its tree in its tables")
    }
}

/// How many cells wait behind the one that is asked for.
fn waiting(state: &State) -> u64 {
    7 * state.nodes() - 8 * state.leaves()
}

/// Which cell the field gave no distance for, and what it gave: the part itself has to be mended, so nothing else would help.
fn broken(refusal: Refusal, request: &Request, distance: f32) -> Fault {
    let (Request { key, centre: [x, y, z], .. }, level) = (request, mittenhelm::level(request.key));
    Fault::refusal(refusal, &format!(": the part gave {distance} at ({x}, {y}, {z}), the centre of cell {key} of level {level}"))
}

/// How far a refused build had come, and what helps.
fn stopped(refusal: Refusal, state: &State, tables: &Tables) -> Fault {
    let level = state.asked().map_or(0, mittenhelm::level);
    let come = format!(
        "The build had {} nodes, {} of them leaves, and asked for a cell of level {level}; {} more were waiting.",
        state.nodes(),
        state.leaves(),
        waiting(state)
    );
    let room = tables.keys.len();
    let lower = fitting_bound(state, tables, level).map(|bound| format!("--bound {bound}, which fits"));
    let more = Some(format!("--nodes above {room}, up to {MOST_NODES}")).filter(|_| room < MOST_NODES as usize);
    let ways: Vec<String> = lower.into_iter().chain(more).collect();
    Fault::refusal(refusal, &format!("\n{come}\nWhat can help: {}.", ways.join(", or ")))
}

/// The greatest bound whose tree fits, if there is one. Cells are asked for level by level: so all above the level that was reached were
/// taken, and are the tree of a lower bound; and their splits tell how many nodes this level would end with.
fn fitting_bound(state: &State, tables: &Tables, level: u32) -> Option<u32> {
    let coarser = |keys: &[u64], count: u64| keys[..count as usize].iter().filter(|&&key| mittenhelm::level(key) < level).count();
    let splits = coarser(tables.keys, state.nodes()) - coarser(tables.leaves, state.leaves());
    // The root is one more than the children.
    let fitting = if 8 * splits < tables.keys.len() { level } else { level.saturating_sub(1) };
    Some(fitting).filter(|&bound| bound >= LEAST_BOUND)
}

#[cfg(test)]
mod tests {
    use super::*;

    /// What is told of a build over a field that isn't finite.
    fn fault(field: impl Fn(Point) -> f32) -> String {
        let mut lent = Lent::new(MOST_NODES);
        let fault = Built::new(field, 4, lent.tables(), &mut Progress::new()).err().expect("a field that isn't finite");
        assert_eq!(fault.status(), 1);
        fault.to_string()
    }

    /// A sampler that divides by zero: at the root, at a cell of level 1, at one of level 2, and at one of level 3 that was asked for since
    /// that above is near.
    #[test]
    fn what_is_no_distance_is_told_with_its_cell() {
        let told = |what: &str, centre: &str, cell: &str| {
            format!("refused 16: the distance is infinite or NaN: the part gave {what} at {centre}, the centre of cell {cell}")
        };
        assert_eq!(fault(|[x, y, z]| (x - y) / (z - 0.5)), told("NaN", "(0.5, 0.5, 0.5)", "1 of level 0"));
        assert_eq!(fault(|[x, _, z]| -x / (z - 0.75)), told("-inf", "(0.25, 0.25, 0.75)", "12 of level 1"));
        assert_eq!(fault(|[x, y, _]| y / (x - 0.875)), told("inf", "(0.875, 0.125, 0.125)", "73 of level 2"));
        assert_eq!(fault(|[x, _, z]| 0.01 * x / (z - 0.4375)), told("inf", "(0.0625, 0.0625, 0.4375)", "548 of level 3"));
        // Greater than any f32.
        assert_eq!(fault(|[x, ..]| x * f32::MAX * 4.0), told("inf", "(0.5, 0.5, 0.5)", "1 of level 0"));
    }

    /// The greatest distances are distances.
    #[test]
    fn a_great_distance_is_taken() {
        for distance in [f32::MAX, f32::MIN] {
            let mut lent = Lent::new(73);
            let built = Built::new(|_| distance, 4, lent.tables(), &mut Progress::new()).expect("room for 73 nodes");
            assert_eq!(built.tree().distances, [distance; 73]);
        }
    }
}
