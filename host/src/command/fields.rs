//! The built-in parts: distance fields over the cube, negative inside. They use only operations that round exactly, so that a part is
//! the same on every machine. No field changes by more than the way between two points, so that a cell through which the surface
//! goes is split.

pub type Point = [f32; 3];

pub struct BuiltIn {
    pub name: &'static str,
    pub about: &'static str,
    pub distance: fn(Point) -> f32,
}

pub const BUILT_INS: [BuiltIn; 6] = [
    BuiltIn { name: "sphere", about: "a ball of radius 0.4", distance: sphere },
    BuiltIn { name: "box", about: "a block of 0.8 x 0.6 x 0.4", distance: block },
    BuiltIn { name: "torus", about: "a ring round z, of radius 0.3, and 0.2 thick", distance: torus },
    BuiltIn { name: "gyroid", about: "a ball of radius 0.4 of a wavy wall", distance: gyroid },
    BuiltIn { name: "lattice", about: "a frame of twelve rods, each 0.12 thick, in a cube of 0.8", distance: lattice },
    BuiltIn { name: "bracket", about: "an angle of two arms, with a rib and four holes", distance: bracket },
];

pub fn named(name: &str) -> Option<&'static BuiltIn> {
    BUILT_INS.iter().find(|part| part.name == name)
}

const MIDDLE: Point = [0.5; 3];

fn minus(a: Point, b: Point) -> Point {
    [a[0] - b[0], a[1] - b[1], a[2] - b[2]]
}

fn length([x, y, z]: Point) -> f32 {
    (x * x + y * y + z * z).sqrt()
}

/// How far it is from the axis z.
fn radius(x: f32, y: f32) -> f32 {
    length([x, y, 0.0])
}

/// The distance from a block around the middle.
fn block_of(halves: Point, p: Point) -> f32 {
    let [x, y, z] = minus(minus(p, MIDDLE).map(f32::abs), halves);
    length([x.max(0.0), y.max(0.0), z.max(0.0)]) + x.max(y).max(z).min(0.0)
}

/// Below zero between two heights.
fn between(low: f32, high: f32, z: f32) -> f32 {
    (low - z).max(z - high)
}

fn sphere(p: Point) -> f32 {
    length(minus(p, MIDDLE)) - 0.4
}

fn block(p: Point) -> f32 {
    block_of([0.4, 0.3, 0.2], p)
}

fn torus(p: Point) -> f32 {
    let [x, y, z] = minus(p, MIDDLE);
    radius(radius(x, y) - 0.3, z) - 0.1
}

fn gyroid(p: Point) -> f32 {
    let [x, y, z] = minus(p, MIDDLE);
    let shifted = |t| wave(t + 0.25);
    let level = wave(x) * shifted(y) + wave(y) * shifted(z) + wave(z) * shifted(x);
    // The level changes by less than 14 along a way of 1.
    let wall = level.abs() / 14.0 - 0.025;
    wall.max(sphere(p))
}

/// Much like a sine of period 1, of parabolas.
fn wave(t: f32) -> f32 {
    let t = t - t.floor();
    if t < 0.5 {
        16.0 * t * (0.5 - t)
    } else {
        -16.0 * (t - 0.5) * (1.0 - t)
    }
}

/// Four rods along each axis.
fn lattice(p: Point) -> f32 {
    let [x, y, z] = minus(p, MIDDLE).map(|t| t.abs() - 0.25);
    let rods = radius(x, y).min(radius(y, z)).min(radius(z, x)) - 0.06;
    rods.max(block_of([0.4; 3], p))
}

/// The same in every height, but for a rib in the middle and two holes in each arm.
fn bracket([x, y, z]: Point) -> f32 {
    let reach = between(0.275, 0.72, x).max(between(0.275, 0.72, y));
    let arms = (x.min(y) - 0.355).max(between(0.33, 0.67, z));
    let rib = ((x + y - 0.98) * 0.7).max(between(0.44, 0.56, z));
    let hole = |along: f32| radius(along - 0.58, (z - 0.5).abs() - 0.1) - 0.05;
    // The holes go through the arm along y, and through that along x.
    let holes = hole(x).min(hole(y));
    reach.max(arms.min(rib)).max(-holes)
}
