//! The text's calls on a tree that it keeps in its own form, so that nothing else is timed.

#[cfg(not(published_text))]
use super::FOLDER;
#[cfg(published_text)]
use super::{ascending, linear_hashed_marching_cubes, linear_hashed_octree, math, number, source, Morton};
#[cfg(published_text)]
use std::{cell::Cell, collections::HashMap, ptr};

/// An octree as the text keeps it.
pub struct Octree(#[cfg(published_text)] linear_hashed_octree::LinearHashedOctree<f32>);

/// Vertices and their levels as the text keeps them.
#[derive(Clone)]
pub struct Vertices(#[cfg(published_text)] HashMap<Morton, usize>);

of_the_text! {
    /// The octree of distances that are ready, in the order in which the text asks for them.
    fn octree(max_depth: usize, distances: &[f32]) -> Octree {
        let ready = Ready { distances, asked: Cell::new(0), point: Cell::new(math::Vec3::zero()) };
        Octree(linear_hashed_marching_cubes::octree(max_depth, &ready))
    }

    /// Every node's key and distance, ascending, and the leaves in order.
    fn nodes_and_leaves(octree: &Octree) -> (Vec<(u64, f32)>, Vec<u64>) {
        let nodes = octree.0.all().into_iter().map(|(key, distance)| (number(key), distance));
        let mut leaves = Vec::new();
        octree.0.walk_leaves(|key| leaves.push(number(key)));
        (nodes.collect(), leaves)
    }

    fn vertices(octree: &Octree) -> Vertices {
        Vertices(linear_hashed_marching_cubes::primal_vertices(&octree.0))
    }

    /// The vertices with their levels, ascending.
    fn listed(vertices: &Vertices) -> Vec<(u64, usize)> {
        ascending(&vertices.0)
    }

    /// Searches the eight nodes of each vertex; the sum of the bits of their distances.
    fn dual_cells(octree: &Octree, vertices: Vertices) -> u64 {
        linear_hashed_marching_cubes::sum_of_dual_cells(&octree.0, vertices.0)
    }

    /// Searches the eight nodes of each vertex, and takes the slabs, of so many, that hold the lowest and the highest of their centres;
    /// the sum of what is told of the vertex with these two.
    fn slabs(octree: &Octree, vertices: &Vertices, count: f32, told: fn(u64, u32, u32) -> u64) -> u64 {
        let cells = vertices.0.iter().map(|(&vertex, &level)| {
            let heights = [0, 1, 2, 3, 4, 5, 6, 7].map(|which| found(octree, vertex.dual_vertex(level, which)).center().z);
            let lowest = heights.iter().cloned().fold(f32::INFINITY, f32::min);
            let highest = heights.iter().cloned().fold(0.0, f32::max);
            told(number(vertex), (lowest * count) as u32, (highest * count) as u32)
        });
        cells.fold(0, u64::wrapping_add)
    }

    /// Looks up each key as the search for eight nodes does; the sum of the keys found and of the bits of their distances.
    fn look_ups(octree: &Octree, keys: &[u64]) -> u64 {
        keys.iter().fold(0, |sum, &key| sum.wrapping_add(climb(octree, Morton::with_key(key))))
    }
}

/// The node over a key that the search for eight nodes finds.
#[cfg(published_text)]
fn found(octree: &Octree, mut key: Morton) -> Morton {
    while key > Morton::new() && octree.0.get_node(&key).is_none() {
        key = key.parent();
    }
    key
}

#[cfg(published_text)]
fn climb(octree: &Octree, mut key: Morton) -> u64 {
    while key > Morton::new() {
        if let Some(&distance) = octree.0.get_node(&key) {
            return number(key).wrapping_add(distance.to_bits() as u64);
        }
        key = key.parent();
    }
    0
}

/// Hands out distances one after another. A tree that takes more than there are finds the greatest, which doesn't split.
#[cfg(published_text)]
struct Ready<'a> {
    distances: &'a [f32],
    asked: Cell<usize>,
    point: Cell<math::Vec3>,
}

#[cfg(published_text)]
impl<'a> source::Source for Ready<'a> {
    #[inline]
    fn sample(&self, x: f32, y: f32, z: f32) -> f32 {
        // A field would get the point; so it goes to memory, or the compiler would leave its computation out.
        unsafe { ptr::write_volatile(self.point.as_ptr(), math::Vec3::new(x, y, z)) };
        let asked = self.asked.get();
        self.asked.set(asked + 1);
        self.distances.get(asked).cloned().unwrap_or(f32::MAX)
    }
}
