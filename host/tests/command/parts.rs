//! The built-in parts as fields.

use crate::fields::{named, Point, BUILT_INS};
use oracle_answers::inputs::Random;

fn way(a: Point, b: Point) -> f64 {
    let square = |axis: usize| (a[axis] as f64 - b[axis] as f64).powi(2);
    (square(0) + square(1) + square(2)).sqrt()
}

/// No distance is greater than that to the surface: it changes by no more than the way between two points.
#[test]
fn a_distance_is_no_overestimate() {
    let mut random = Random::new(1);
    for part in &BUILT_INS {
        let mut steepest: f64 = 0.0;
        for round in 0..200_000 {
            let (a, other) = (random.point(), random.point());
            let nearer = [1.0, 0.1, 0.01][round % 3];
            let b = [0, 1, 2].map(|axis| a[axis] + nearer * (other[axis] - a[axis]));
            let (change, way) = (((part.distance)(a) - (part.distance)(b)).abs() as f64, way(a, b));
            assert!(change <= way + 1e-6, "{}: {a:?} and {b:?}", part.name);
            steepest = steepest.max(change / way.max(1e-3));
        }
        // Nor is it a mere trifle of it.
        assert!(steepest > 0.8, "{}: {steepest}", part.name);
    }
}

/// All of the surface is inside the cube, so that the part is whole.
#[test]
fn a_part_is_whole() {
    let mut random = Random::new(2);
    for part in &BUILT_INS {
        let mut inside = 0;
        for _ in 0..10_000 {
            let mut p = random.point();
            inside += usize::from((part.distance)(p) < 0.0);
            p[random.below(3) as usize] = random.below(2) as f32;
            assert!((part.distance)(p) > 0.05, "{}: {p:?}", part.name);
        }
        assert!((100..6000).contains(&inside), "{}: {inside}", part.name);
        assert_eq!(named(part.name).map(|found| found.about), Some(part.about));
    }
    assert!(named("").is_none());
}
