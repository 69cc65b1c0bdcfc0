//! The trees that are measured: of each field one for each size.

use crate::ours::{Building, MOST_NODES};
use crate::text::{Published, Text};
use oracle_answers::fields::{cuboid, gyroid, lattice, sphere, torus};
use oracle_answers::inputs::Random;
use oracle_answers::trees::Field;

/// Numbers of nodes. A tree has the first exactly, comes near the others, and never has more than the last.
pub const SIZES: [usize; 6] = [73, 200, 600, 1500, 2500, MOST_NODES];

/// How many keys are looked up.
pub const LOOK_UPS: usize = 10_000;

/// A field of a size from 0 to 1, moved by a shift.
pub type Shape = fn(f32, f32) -> Box<Field>;

pub const SHAPES: [(&str, Shape); 5] = [
    ("sphere", |size, shift| Box::new(sphere([0.2 + shift; 3], 0.05 + 0.4 * size))),
    ("box", |size, shift| Box::new(cuboid([0.2 + shift; 3], 0.05 + 0.35 * size))),
    ("torus", |size, shift| Box::new(torus([0.2 + shift; 3], 0.1 + 0.25 * size, 0.02 + 0.1 * size))),
    ("gyroid", |size, shift| Box::new(repeated(0.3 + 2.0 * size, gyroid(askew(shift))))),
    ("lattice", |size, shift| Box::new(repeated(0.3 + 2.0 * size, lattice(askew(shift), 0.1)))),
];

/// A shift that differs on each axis: what is the same on all three has few numbers of nodes.
fn askew(shift: f32) -> [f32; 3] {
    [shift, 1.4 * shift, 2.0 * shift]
}

/// A field of period 1, so often along each axis.
fn repeated(times: f32, field: impl Fn([f32; 3]) -> f32) -> impl Fn([f32; 3]) -> f32 {
    move |p| field(p.map(|t| t * times)) / times
}

/// A tree by its distances, in the order in which they are asked for.
#[derive(Clone)]
pub struct Case {
    pub field: &'static str,
    pub bound: u32,
    pub distances: Vec<f32>,
}

impl Case {
    /// The tree of a field, unless it has more nodes than a build may have.
    pub fn new(field: &'static str, bound: u32, distance_at: &Field, building: &mut Building) -> Option<Self> {
        let mut distances = Vec::new();
        let built = building.build(bound, |request| {
            let distance = distance_at(request.centre);
            distances.push(distance);
            distance
        });
        built.ok().map(|_| Case { field, bound, distances })
    }

    pub fn nodes(&self) -> usize {
        self.distances.len()
    }

    /// Whether a build of the text makes the same tree. The wrong levels of the published one change many.
    pub fn is_built_by<T: Text>(&self) -> bool {
        let mut building = Building::new();
        let state = building.build_ready(self.bound, &self.distances).expect("a tree that was built before");
        let ours = building.finished(state);
        let (nodes, leaves) = T::nodes_and_leaves(&T::octree(self.bound, &self.distances));
        nodes.into_iter().map(|(key, _)| key).eq(ours.keys) && leaves == ours.leaves
    }

    /// Keys to look up, the same in every run.
    pub fn keys(&self) -> Vec<u64> {
        let mut random = Random::new(self.nodes() as u64);
        (0..LOOK_UPS).map(|_| random.cell()).collect()
    }
}

/// Of each field a tree for each size.
pub fn cases() -> Vec<Case> {
    let of_shape = |&(name, shape): &(&'static str, Shape)| {
        let candidates = candidates(name, shape);
        SIZES.iter().map(move |&nodes| nearest(&candidates, nodes)).collect::<Vec<_>>()
    };
    SHAPES.iter().flat_map(of_shape).collect()
}

/// Trees of many bounds, sizes and shifts.
fn candidates(name: &'static str, shape: Shape) -> Vec<Case> {
    let mut building = Building::new();
    let mut candidates = Vec::new();
    for bound in 2..=6 {
        for size in 0..32 {
            for shift in 0..16 {
                let field = shape(size as f32 / 32.0, shift as f32 / 32.0);
                candidates.extend(Case::new(name, bound, &field, &mut building));
            }
        }
    }
    candidates
}

/// The tree with the number of nodes nearest to one; if possible, such a tree as the published text builds too. All those of the least
/// number are alike, and the published text has another in their place.
fn nearest(candidates: &[Case], nodes: usize) -> Case {
    let mut order: Vec<&Case> = candidates.iter().collect();
    order.sort_by_key(|case| (case.nodes() as i64 - nodes as i64).abs());
    let near = order.iter().take_while(|case| is_near(case.nodes(), nodes));
    let as_published = near.clone().find(|case| case.is_built_by::<Published>());
    (*as_published.unwrap_or(&order[0])).clone()
}

/// Within a twelfth: so only 73 itself is near 73.
pub fn is_near(nodes: usize, size: usize) -> bool {
    12 * nodes > 11 * size && 12 * nodes < 13 * size
}
