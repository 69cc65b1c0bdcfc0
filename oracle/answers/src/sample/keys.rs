//! Calls on keys in the sample.

use super::lines::Sample;
use crate::inputs::{around_split_edge, distances, first_cell, last_cell, powers, Random};
use crate::model::DEEPEST;
use crate::{integer, model, splits_in_f32};

const LEVEL: u8 = 0x00;
const IS_CELL: u8 = 0x01;
const PARENT: u8 = 0x02;
const CHILD: u8 = 0x03;
const ADD: u8 = 0x04;
const SUB: u8 = 0x05;
const HALF_SIZE: u8 = 0x06;
const CENTRE: u8 = 0x07;
const VERTEX: u8 = 0x08;
const IS_INNER: u8 = 0x09;
const SIDE: u8 = 0x0a;
const SHOULD_REFINE: u8 = 0x0b;

impl Sample {
    pub(super) fn keys(&mut self) {
        self.numbers();
        self.sums();
        self.cells();
        self.vertices();
        self.splits();
    }

    fn level(&mut self, key: u64) {
        self.checked(LEVEL, [key, 0, 0], Ok(model::level(key) as u64), || integer::level(key) as u64);
    }

    fn is_cell(&mut self, key: u64) {
        self.line(IS_CELL, [key, 0, 0], Ok([model::is_cell(key) as u64, 0, 0]));
    }

    fn parent(&mut self, key: u64) {
        self.checked(PARENT, [key, 0, 0], Ok(model::parent(key)), || integer::parent(key));
    }

    fn child(&mut self, key: u64, which: u32) {
        self.checked(CHILD, [key, which as u64, 0], model::child(key, which), || integer::child(key, which as u8));
    }

    fn add(&mut self, a: u64, b: u64) {
        self.checked(ADD, [a, b, 0], Ok(model::add(a, b)), || integer::add(a, b));
    }

    fn sub(&mut self, a: u64, b: u64) {
        self.checked(SUB, [a, b, 0], Ok(model::sub(a, b)), || integer::sub(a, b));
    }

    fn half_size(&mut self, key: u64) {
        let model = model::half_size(key).map(|h| h.to_bits() as u64);
        self.checked(HALF_SIZE, [key, 0, 0], model, || integer::size(key).to_bits() as u64);
    }

    fn centre(&mut self, key: u64) {
        let answer = model::centre(key).map(|expected| {
            let said = integer::center(key);
            assert_eq!(said, expected, "the centre of {key:x}: the text and the model differ");
            said.map(|c| c.to_bits() as u64)
        });
        self.line(CENTRE, [key, 0, 0], answer);
    }

    fn vertex(&mut self, key: u64, level: u32, corner: u32) {
        let model = model::vertex(key, level, corner);
        let text = || integer::primal_vertex(key, level as usize, corner as usize);
        self.checked(VERTEX, [key, level as u64, corner as u64], model, text);
    }

    fn is_inner(&mut self, vertex: u64, level: u32) {
        self.line(IS_INNER, [vertex, level as u64, 0], Ok([model::is_inner(vertex, level) as u64, 0, 0]));
    }

    fn side(&mut self, vertex: u64, level: u32, which: u32) {
        let model = model::side(vertex, level, which);
        let text = || integer::dual_vertex(vertex, level as usize, which as usize);
        self.checked(SIDE, [vertex, level as u64, which as u64], model, text);
    }

    fn should_refine(&mut self, level: u32, bound: u32, distance: f32) {
        let splits = model::should_refine(level, bound, distance);
        if level <= DEEPEST && distance.is_finite() {
            let half_size = integer::size(last_cell(level));
            assert_eq!(
                splits,
                splits_in_f32(level, bound, distance, half_size),
                "level {level}, bound {bound}, distance {distance}"
            );
        }
        self.line(SHOULD_REFINE, [distance.to_bits() as u64, level as u64, bound as u64], Ok([splits as u64, 0, 0]));
    }

    /// Calls that take any number and answer.
    fn numbers(&mut self) {
        let mut random = Random::new(1);
        let some: Vec<u64> = (0..110).map(|_| random.number()).collect();
        for key in powers().into_iter().chain(some) {
            self.level(key);
            self.is_cell(key);
            self.parent(key);
        }
    }

    fn sums(&mut self) {
        let mut random = Random::new(2);
        // Document 01's examples, a carry or borrow through each field, and the ends of each field.
        let x = 0x9249_2492_4924_9249;
        let (y, z) = (0x2492_4924_9249_2492, 0x4924_9249_2492_4924);
        let ends = [0, 1, 2, 4, 7, x, y, z, x | y | z, 1 << 63, 1 << 61, 1 << 62];
        for a in ends {
            for b in ends {
                self.add(a, b);
                self.sub(a, b);
            }
        }
        for _ in 0..120 {
            let (a, b) = (random.number(), random.number());
            self.add(a, b);
            self.sub(a, b);
        }
    }

    /// Calls of a cell: at the first, second, last and some other keys of each level, and at the numbers beside them.
    fn cells(&mut self) {
        let mut random = Random::new(3);
        for level in 0..=DEEPEST {
            let (first, last) = (first_cell(level), last_cell(level));
            let beside = [first - 1, last.wrapping_add(1)];
            let cells = [first, first + first / 2, last, random.cell_of(level), random.cell_of(level)];
            for key in beside.into_iter().chain(cells) {
                self.half_size(key);
                self.centre(key);
                self.child(key, 7);
                self.child(key, random.below(8) as u32);
            }
            // Refusals in their order: no cell key goes before a child above 7, and that before the level 21.
            self.child(first, 0);
            self.child(last, 8);
            self.child(beside[0], 8);
            self.child(beside[1], u32::MAX);
        }
        for key in [0, u64::MAX, 9, 15, 16, 519] {
            self.half_size(key);
            self.centre(key);
            self.child(key, random.which());
        }
    }

    fn vertices(&mut self) {
        let mut random = Random::new(4);
        // Document 01's examples come with the levels 1 and 2 below, but for these.
        for (key, level) in [(1, 0), (8, 1), (15, 1), (71, 2), (512, 3), (519, 3)] {
            for corner in 0..8 {
                self.vertex(key, level, corner);
            }
        }
        for level in 0..=DEEPEST {
            let (first, last) = (first_cell(level), last_cell(level));
            for key in [first, last, random.cell_of(level)] {
                for corner in [0, 7, 1 + random.below(6) as u32] {
                    self.vertex(key, level, corner);
                }
            }
            // Refusals in their order: no cell key, a corner above 7, another level.
            self.vertex(first - 1, level, 7);
            self.vertex(first - 1, level + 1, 8);
            self.vertex(last, level, 8);
            self.vertex(last, level + 1, u32::MAX);
            self.vertex(last, level + 1, 0);
            self.vertex(first, level.wrapping_sub(1), 7);
        }
        for level in 1..=20 {
            let vertex = random.vertex_of(level);
            for which in 0..8 {
                self.side(vertex, level, which);
            }
            let middle = 7 << 61;
            let corner = first_cell(level) << (63 - 3 * level);
            let farthest = last_cell(level) << (63 - 3 * level);
            let odd = vertex ^ 1 << random.below(64);
            for v in [vertex, middle, corner, farthest, odd, vertex >> 3] {
                self.is_inner(v, level);
                self.side(v, level, random.below(8) as u32);
                // A side above 7 goes before what is no vertex.
                self.side(v, level, 8);
            }
            self.is_inner(vertex, level - 1);
            self.is_inner(vertex, level + 1);
            self.side(vertex, level - 1, 0);
        }
        for level in [0, 21, 22, 32, u32::MAX] {
            for v in [0, 1, 1 << 63, 15 << 60, u64::MAX] {
                self.is_inner(v, level);
                self.side(v, level, 7);
            }
        }
    }

    fn splits(&mut self) {
        let mut random = Random::new(5);
        for level in 0..=DEEPEST + 1 {
            // At the edge and beside it, where the bound allows a split.
            for distance in around_split_edge(level.min(DEEPEST) as i32) {
                self.should_refine(level, level + 1, distance);
                self.should_refine(level, u32::MAX, -distance);
            }
            for bound in [0, 2, level, level + 1] {
                self.should_refine(level, bound, 0.0);
            }
            for _ in 0..12 {
                let distance = random.distance(level);
                self.should_refine(level, random.bound(level), distance);
            }
        }
        for distance in distances(2) {
            self.should_refine(2, 3, distance);
            self.should_refine(2, 2, distance);
            self.should_refine(1, 0, distance);
            self.should_refine(0, 15, distance);
        }
        for level in [23, 32, u32::MAX] {
            self.should_refine(level, u32::MAX, 0.0);
        }
        // Document 01's example: key 65, bound 3.
        self.should_refine(2, 3, 14529495.0 / 67108864.0);
        self.should_refine(2, 3, 14529496.0 / 67108864.0);
    }
}
