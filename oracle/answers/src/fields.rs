//! Fields for builds, of many kinds, over the same random numbers on every machine: only operations that round exactly are used.
//! Each is such that its tree has some thousands of nodes at most.

use crate::inputs::{around_split_edge, first_cell, last_cell, split_edge, Random};
use crate::model;
use crate::trees::Field;

/// The cell whose centre a point is. (Also for a centre that the published text has doubled, which is that of another cell.)
pub fn cell_at(point: [f32; 3]) -> u64 {
    // A coordinate of a centre is an odd number over 2^(L+1).
    let level = (0..=model::DEEPEST).find(|&level| (point[0] * (2 << level) as f32) % 2.0 == 1.0);
    let level = level.expect("the centre of a cell");
    let mut key = first_cell(level);
    for (axis, x) in point.into_iter().enumerate() {
        let coordinate = (x * (1 << level) as f32) as u64;
        for i in 0..level {
            key |= (coordinate >> i & 1) << (3 * i + axis as u32);
        }
    }
    key
}

fn by_key(distance: impl Fn(u64) -> f32 + 'static) -> Box<Field> {
    Box::new(move |point| distance(cell_at(point)))
}

#[derive(Clone, Copy, Debug, PartialEq, Eq)]
pub enum Kind {
    Sphere,
    Cuboid,
    Torus,
    Gyroid,
    Plane,
    Point,
    Origin,
    FarCorner,
    Path,
    Constant,
    Noise,
    Edges,
    Odd,
}

pub const KINDS: [Kind; 13] = [
    Kind::Sphere,
    Kind::Cuboid,
    Kind::Torus,
    Kind::Gyroid,
    Kind::Plane,
    Kind::Point,
    Kind::Origin,
    Kind::FarCorner,
    Kind::Path,
    Kind::Constant,
    Kind::Noise,
    Kind::Edges,
    Kind::Odd,
];

/// A field of a kind, for builds of a depth bound.
pub fn field(kind: Kind, bound: u32, random: &mut Random) -> Box<Field> {
    match kind {
        Kind::Sphere => {
            let (centre, radius) = (random.point(), 0.1 + 0.3 * random.fraction());
            focused(bound, random, sphere(centre, radius))
        }
        Kind::Cuboid => {
            let (centre, half) = (random.point(), 0.05 + 0.2 * random.fraction());
            focused(bound, random, cuboid(centre, half))
        }
        Kind::Torus => {
            let (centre, ring, tube) = (random.point(), 0.2 + 0.1 * random.fraction(), 0.05 + 0.05 * random.fraction());
            focused(bound, random, torus(centre, ring, tube))
        }
        Kind::Gyroid => {
            let shift = random.point();
            focused(bound, random, gyroid(shift))
        }
        Kind::Plane => {
            let (through, [a, b, c]) = (random.point(), random.point());
            let along = [a, b, c].map(|n| n / length([a, b, c]));
            focused(bound, random, move |p| {
                let [x, y, z] = minus(p, through);
                x * along[0] + y * along[1] + z * along[2]
            })
        }
        Kind::Point => {
            let at = random.point();
            Box::new(move |p| length(minus(p, at)))
        }
        // Here are the keys that the published text gives a wrong level.
        Kind::Origin => {
            let scale = [0.5, 1.0, 1.5, 3.0][random.below(4) as usize];
            Box::new(move |p| -scale * length(p))
        }
        // The last few cells of each level are split, so that a short queue serves for all that passes through it.
        Kind::FarCorner => {
            let few = 1 + random.below(6);
            by_key(move |key| if last_cell(model::level(key)) - key < few { -0.0 } else { f32::MAX })
        }
        // One cell of each level is split, often the first or one of the next.
        Kind::Path => {
            let end = first_cell(15)
                + [0, 1, random.below(100), random.below(7000), random.below(first_cell(15))][random.below(5) as usize];
            by_key(move |key| if is_ancestor(key, end) { f32::from_bits(1) } else { 1.0 })
        }
        Kind::Constant => {
            let distance = constant(bound, random);
            Box::new(move |_| distance)
        }
        Kind::Noise => {
            let (seed, splitting) = (random.bits(), splitting(bound, random));
            by_key(move |key| {
                let mut noise = Random::of(seed, key);
                let edge = split_edge(model::level(key) as i32);
                if noise.below(1000) < splitting {
                    edge * noise.fraction()
                } else {
                    edge * (1.001 + 5.0 * noise.fraction())
                }
            })
        }
        // At the edge of the level or one unit of the last place beside it.
        Kind::Edges => {
            let (seed, splitting) = (random.bits(), splitting(bound, random));
            by_key(move |key| {
                let mut noise = Random::of(seed, key);
                let [below, edge, above] = around_split_edge(model::level(key) as i32);
                let distance = if noise.below(1000) >= splitting { above } else { [below, edge][noise.below(2) as usize] };
                noise.signed(distance)
            })
        }
        // Zeros, subnormals, edges of other levels, and great numbers up to the greatest.
        Kind::Odd => {
            let (seed, splitting) = (random.bits(), splitting(bound, random));
            by_key(move |key| {
                let mut noise = Random::of(seed, key);
                let level = model::level(key) as i32;
                let bits = if noise.below(1000) < splitting {
                    [0, 1, noise.below(0x0080_0000) as u32, 0x0080_0000, split_edge(level + 1).to_bits()][noise.below(5) as usize]
                } else {
                    let (edge, greatest) = (split_edge(level - 1).to_bits(), f32::MAX.to_bits());
                    let great = edge + noise.below((greatest - edge) as u64) as u32;
                    [greatest, great, great, greatest - 1, 0x7f00_0000, edge][noise.below(6) as usize]
                };
                noise.signed(f32::from_bits(bits))
            })
        }
    }
}

pub fn sphere(centre: [f32; 3], radius: f32) -> impl Fn([f32; 3]) -> f32 {
    move |p| length(minus(p, centre)) - radius
}

/// A cube, by the greatest of the distances on the axes.
pub fn cuboid(centre: [f32; 3], half: f32) -> impl Fn([f32; 3]) -> f32 {
    move |p| {
        let [x, y, z] = minus(p, centre).map(f32::abs);
        x.max(y).max(z) - half
    }
}

pub fn torus(centre: [f32; 3], ring: f32, tube: f32) -> impl Fn([f32; 3]) -> f32 {
    move |p| {
        let [x, y, z] = minus(p, centre);
        length([length([x, y, 0.0]) - ring, z, 0.0]) - tube
    }
}

/// Of period 1.
pub fn gyroid(shift: [f32; 3]) -> impl Fn([f32; 3]) -> f32 {
    move |p| {
        let [x, y, z] = minus(p, shift);
        let quarter = 0.25;
        0.2 * (wave(x) * wave(y + quarter) + wave(y) * wave(z + quarter) + wave(z) * wave(x + quarter))
    }
}

/// Rods along the axes, crossing in the middle of each cube of side 1.
pub fn lattice(shift: [f32; 3], radius: f32) -> impl Fn([f32; 3]) -> f32 {
    move |p| {
        let [x, y, z] = minus(p, shift).map(|t| t - t.floor() - 0.5);
        length([x, y, 0.0]).min(length([y, z, 0.0])).min(length([z, x, 0.0])) - radius
    }
}

/// A surface as it is where its tree stays small; else with all distances grown by that to a point near it.
fn focused(bound: u32, random: &mut Random, surface: impl Fn([f32; 3]) -> f32 + 'static) -> Box<Field> {
    if bound <= 4 || (bound == 5 && random.below(2) == 0) {
        return Box::new(surface);
    }
    let (mut point, slope) = (random.point(), [0.25, 0.5, 1.0][random.below(3) as usize]);
    for _ in 0..20 {
        let other = random.point();
        if surface(other).abs() < surface(point).abs() {
            point = other;
        }
    }
    let offset = surface(point);
    Box::new(move |p| (surface(p) - offset).abs() + slope * length(minus(p, point)))
}

/// One distance for all cells. What splits the cells of level 4 too would give more nodes than any test needs.
fn constant(bound: u32, random: &mut Random) -> f32 {
    let deepest = if random.below(4) == 0 { 3 } else { 2 };
    let [below, edge, above] = around_split_edge(random.below(deepest + 1) as i32);
    let small = [0.0, f32::from_bits(1), f32::MIN_POSITIVE][random.below(3) as usize];
    let great = [1.0, f32::MAX, 3.0e9, 1.0e38][random.below(4) as usize];
    let distance = match random.below(5) {
        0 if bound <= 4 => small,
        1 => great,
        2 => below,
        3 => edge,
        _ => above,
    };
    random.signed(distance)
}

/// Of a thousand cells from level 2 on, how many are split.
fn splitting(bound: u32, random: &mut Random) -> u64 {
    match bound {
        0..=3 => 100 * (1 + random.below(10)),
        4 => 100 * (1 + random.below(6)),
        5..=7 => 100 + 20 * random.below(6),
        _ => 60 + 20 * random.below(5),
    }
}

fn is_ancestor(key: u64, of: u64) -> bool {
    let deeper = model::level(of).saturating_sub(model::level(key));
    of >> (3 * deeper) == key
}

fn minus(a: [f32; 3], b: [f32; 3]) -> [f32; 3] {
    [a[0] - b[0], a[1] - b[1], a[2] - b[2]]
}

fn length([x, y, z]: [f32; 3]) -> f32 {
    (x * x + y * y + z * z).sqrt()
}

/// Much like a sine of period 1, of parabolas.
fn wave(t: f32) -> f32 {
    let t = t - t.floor();
    if t < 0.5 {
        16.0 * t * (0.5 - t)
    } else {
        -16.0 * (t - 0.5) * (1.0 - t)
    }
}

#[cfg(test)]
mod tests {
    use super::*;
    use crate::trees::Tree;

    #[test]
    fn a_centre_tells_its_cell() {
        let mut random = Random::new(7);
        for _ in 0..100_000 {
            let key = random.cell();
            assert_eq!(model::centre(key).map(cell_at), Ok(key));
        }
    }

    /// No build takes another one.
    #[test]
    fn every_distance_is_finite() {
        for (kind, bound) in KINDS.into_iter().flat_map(|kind| (0..16).map(move |bound| (kind, bound))) {
            for seed in 0..4 {
                let tree = Tree::by_rule(bound, &*field(kind, bound, &mut Random::new(seed)));
                assert!(tree.nodes.iter().all(|node| node.distance.is_finite()), "{kind:?}, bound {bound}");
            }
        }
    }

    #[test]
    fn a_path_goes_through_ancestors() {
        assert!(is_ancestor(1, 519) && is_ancestor(64, 519) && is_ancestor(519, 519));
        assert!(!is_ancestor(65, 519) && !is_ancestor(518, 519) && !is_ancestor(519 * 8, 519));
    }
}
