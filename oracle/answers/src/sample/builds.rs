//! Builds in the sample. A start line sets every place of five tables of 1,024 to 0 and lends the first ones, a distance line goes
//! on with the build that was last started, and place lines tell what then stands in the tables:
//!
//! | OP | A | B | X | Y | Z |
//! |---|---|---|---|---|---|
//! | 0c start | bound, queue's length | the other lengths | key | centre's x and y | z and half size |
//! | 0d distance | distance | | key | centre's x and y | z and half size |
//! | 0e keys at a place | place | | node | leaf | waiting cell |
//! | 0f node at a place | place | | distance | place of the first child | |
//!
//! Of two numbers in a word, the second stands in its high half. The other lengths are those of keys, distances, first children and
//! leaves, in 16 bits each from the lowest on.

use super::lines::{packed, Sample};
use crate::fields::cell_at;
use crate::inputs::{around_split_edge, first_cell, last_cell, BROKEN_DISTANCES, GREATEST_DISTANCES};
use crate::model::build::{self, Request, Tables, STATE_WORDS, TABLES};
use crate::model::{level, Answer};
use crate::trees::{Field, Node, Tree};

const START: u8 = 0x0c;
const DISTANCE: u8 = 0x0d;
const KEYS_AT_PLACE: u8 = 0x0e;
const NODE_AT_PLACE: u8 = 0x0f;

/// The places that a table has, lent or not.
const IN_ALL: usize = 1024;

/// Both infinities and a NaN.
const SOME_BROKEN: [u32; 3] = [BROKEN_DISTANCES[0], BROKEN_DISTANCES[1], BROKEN_DISTANCES[2]];

/// A build under way, and the tree that the text has for the same field.
struct Build {
    state: [u64; STATE_WORDS],
    tables: Tables,
    tree: Tree,
}

impl Build {
    /// How many nodes and leaves there are so far.
    fn so_far(&self) -> [usize; 2] {
        [self.state[1] as usize, self.state[2] as usize]
    }

    fn is_finished(&self) -> bool {
        self.state[3] == 0
    }

    /// What is asked next, if the text asks for it too.
    fn checked(&self, asked: Option<Request>) -> Option<Request> {
        let in_text = self.tree.nodes.get(self.state[1] as usize).map(|node| node.request);
        assert_eq!(asked, in_text, "the text and the model ask for different cells");
        in_text
    }
}

/// A request in three words. Nothing is all 0.
fn in_words(asked: Option<Request>) -> [u64; 3] {
    asked.map_or([0; 3], |Request { key, centre: [x, y, z], half }| [key, two(x, y), two(z, half)])
}

fn two(low: f32, high: f32) -> u64 {
    low.to_bits() as u64 | (high.to_bits() as u64) << 32
}

/// What a start line is given.
fn start_words(bound: u32, lengths: [usize; TABLES]) -> [u64; 3] {
    assert!(lengths.iter().all(|&length| length <= IN_ALL));
    let [keys, distances, firsts, leaves, queue] = lengths;
    [bound as u64 | (queue as u64) << 32, packed([keys, distances, firsts, leaves]), 0]
}

/// Lengths of this many nodes, leaves and queue items.
fn rooms(nodes: usize, leaves: usize, queue: usize) -> [usize; TABLES] {
    [nodes, nodes, nodes, leaves, queue]
}

impl Sample {
    fn refused_start(&mut self, bound: u32, lengths: [usize; TABLES]) {
        let answer = build::start(bound, &Tables::of(lengths), &mut [0; STATE_WORDS]);
        assert!(answer.is_err());
        self.line(START, start_words(bound, lengths), answer.map(|_| [0; 3]));
    }

    fn start(&mut self, bound: u32, lengths: [usize; TABLES], field: &Field) -> Build {
        let tree = Tree::by_integer(bound, field);
        let mut build = Build { state: [0; STATE_WORDS], tables: Tables::of(lengths), tree };
        let root = build::start(bound, &build.tables, &mut build.state);
        let answer = root.map(|root| in_words(build.checked(Some(root))));
        self.line(START, start_words(bound, lengths), answer);
        build
    }

    fn distance(&mut self, build: &mut Build, distance: f32) -> Answer<()> {
        let asked = build::distance(&mut build.state, &mut build.tables, distance);
        let answer = asked.map(|asked| in_words(build.checked(asked)));
        self.line(DISTANCE, [distance.to_bits() as u64, 0, 0], answer);
        answer.map(|_| ())
    }

    /// Broken distances, each refused, so that all stays as it was.
    fn broken(&mut self, build: &mut Build, bits: &[u32], refusal: u32) {
        for &bits in bits {
            assert_eq!(self.distance(build, f32::from_bits(bits)), Err(refusal));
        }
    }

    /// Distances from the field, to the end or up to a refusal, which comes again for the same distance. A broken one is told of before
    /// a room that is too short, and after a build that is finished.
    fn go_on(&mut self, build: &mut Build, field: &Field) -> Answer<()> {
        while !build.is_finished() {
            let [n, _] = build.so_far();
            let distance = field(build.tree.nodes[n].request.centre);
            if let Err(refusal) = self.distance(build, distance) {
                self.broken(build, &SOME_BROKEN, 16);
                assert_eq!(self.distance(build, distance), Err(refusal));
                return Err(refusal);
            }
        }
        for distance in [0.0, 1.0] {
            assert_eq!(self.distance(build, distance), Err(9));
        }
        self.broken(build, &SOME_BROKEN, 9);
        Ok(())
    }

    /// A build of a field, with what stands at some places after it.
    fn build(&mut self, bound: u32, lengths: [usize; TABLES], field: &Field, places: impl Iterator<Item = usize>) -> Answer<()> {
        let mut build = self.start(bound, lengths, field);
        let end = self.go_on(&mut build, field);
        self.places(&build, places);
        end
    }

    /// What stands at places: nodes and leaves by the text, waiting cells and all other places by the model.
    fn places(&mut self, build: &Build, places: impl Iterator<Item = usize>) {
        let [n, m] = build.so_far();
        for place in places {
            let at = |table: &[u64]| table.get(place).copied().unwrap_or(0);
            let [key, leaf, waiting] = [&build.tables.keys, &build.tables.leaves, &build.tables.queue].map(|table| at(table));
            let distance = build.tables.distances.get(place).copied().unwrap_or(0);
            let first = build.tables.firsts.get(place).copied().unwrap_or(0) as usize;
            let in_text = |node: &Node| {
                let key = node.request.key;
                (key, node.distance.to_bits(), build.tree.place_of(8 * key).unwrap_or(0))
            };
            let node = build.tree.nodes[..n].get(place).map_or((0, 0, 0), in_text);
            assert_eq!((key, distance, first), node, "place {place}: the text and the model differ");
            assert_eq!(leaf, build.tree.leaves[..m].get(place).copied().unwrap_or(0), "place {place}");
            self.line(KEYS_AT_PLACE, [place as u64, 0, 0], Ok([key, leaf, waiting]));
            self.line(NODE_AT_PLACE, [place as u64, 0, 0], Ok([distance as u64, first as u64, 0]));
        }
    }

    pub(super) fn builds(&mut self) {
        let far: &Field = &|_| 1.0;
        for bound in [16, 255, 256, u32::MAX] {
            self.refused_start(bound, rooms(73, 64, 64));
        }
        self.examples();
        self.short_rooms();
        // Nothing is split at level 2, however near, where the bound is below 3.
        assert_eq!(self.build(0, [80, 73, 75, 64, 100], &|_| 0.0, [0, 72, 73, 79, 99].into_iter()), Ok(()));
        assert_eq!(self.build(15, [1024; TABLES], far, [0, 63, 64, 72, 73, 1023].into_iter()), Ok(()));
        self.rings();
        self.odd_distances();
        self.broken_distances();
    }

    /// Document 01's examples.
    fn examples(&mut self) {
        let far: &Field = &|_| 1.0;
        assert_eq!(self.build(2, rooms(73, 64, 64), far, (0..75).chain([1023])), Ok(()));
        assert_eq!(self.build(2, rooms(73, 64, 63), far, (0..10).chain(60..66)), Err(8));
        let at_64: &Field = &|p| if cell_at(p) == 64 { 0.0 } else { 1.0 };
        assert_eq!(self.build(3, rooms(81, 71, 71), at_64, 0..83), Ok(()));
        // Key 65 and others at the edge of level 2, and beside it.
        let edges: &Field = &|p| match (level(cell_at(p)), cell_at(p) % 16, around_split_edge(2)) {
            (2, 1, [_, edge, _]) => edge,
            (2, 2, [below, _, _]) => -below,
            (2, 3, [_, _, above]) => above,
            (2, 4, [_, _, above]) => -above,
            _ => 1.0,
        };
        assert_eq!(self.build(3, rooms(137, 120, 120), edges, [10, 11, 12, 13, 73, 136].into_iter()), Ok(()));
    }

    /// Each table too short, at the first place and at later ones; and what a refusal leaves.
    fn short_rooms(&mut self) {
        let far: &Field = &|_| 1.0;
        for (lengths, refusal) in [
            ([0, 73, 73, 64, 64], 6),
            ([73, 0, 73, 64, 64], 6),
            ([73, 73, 0, 64, 64], 6),
            ([0; TABLES], 6),
            ([5, 73, 73, 64, 64], 6),
            ([73, 5, 73, 64, 64], 6),
            ([73, 73, 5, 64, 64], 6),
            ([12, 11, 12, 2, 64], 6),
            ([12, 12, 11, 2, 64], 6),
            (rooms(12, 2, 64), 7),
            (rooms(73, 0, 64), 7),
            (rooms(73, 3, 64), 7),
            (rooms(73, 64, 0), 8),
            (rooms(73, 64, 7), 8),
            (rooms(73, 64, 8), 8),
            (rooms(73, 64, 15), 8),
        ] {
            assert_eq!(self.build(2, lengths, far, [0, 2, 4, 5, 8, 11, 14].into_iter()), Err(refusal));
        }
        // Where no leaf has room, the same cell may still be split, and then the next one has no room.
        let at_66: &Field = &|p| if cell_at(p) == 66 { -0.0 } else { 1.0 };
        let mut build = self.start(3, rooms(20, 2, 80), at_66);
        while build.so_far() != [11, 2] {
            let distance = at_66(build.tree.nodes[build.so_far()[0]].request.centre);
            assert_eq!(self.distance(&mut build, distance), Ok(()));
        }
        for far in [1.0, f32::MAX] {
            assert_eq!(self.distance(&mut build, far), Err(7));
        }
        assert_eq!(self.go_on(&mut build, at_66), Err(7));
        self.places(&build, (0..20).chain(62..80));
    }

    /// A ring of 64 through which many more go, and one of an odd length; the first cells, where the published level is wrong.
    fn rings(&mut self) {
        let last: &Field = &|p| if last_cell(level(cell_at(p))) - cell_at(p) < 3 { 0.0 } else { f32::MAX };
        assert_eq!(self.build(15, rooms(385, 337, 64), last, (0..64).step_by(3).chain([336, 337, 384, 385])), Ok(()));
        let first: &Field = &|p| if cell_at(p) == first_cell(level(cell_at(p))) { -0.0 } else { -2.0 };
        assert_eq!(self.build(15, rooms(177, 155, 77), first, (0..77).step_by(4).chain([154, 155, 176, 177])), Ok(()));
    }

    fn odd_distances(&mut self) {
        let odd: &Field = &|p| {
            let [below, edge, above] = around_split_edge(level(cell_at(p)) as i32).map(f32::to_bits);
            let bits = [0x7f7f_fffe, 0, 1, 0x007f_ffff, 0x0080_0000, 0x7f00_0000, 0x7f7f_ffff, below, edge, above, 0x3f80_0000];
            let which = cell_at(p) as usize % 22;
            let sign = if which > 10 { 1 << 31 } else { 0 };
            f32::from_bits(bits[which % 11] | sign)
        };
        let tree = Tree::by_integer(3, odd);
        let [nodes, _, _, leaves, queue] = tree.needs();
        assert_eq!(self.build(3, rooms(nodes, leaves, queue), odd, (0..72).chain([nodes - 1])), Ok(()));
        assert_eq!(self.build(3, rooms(nodes, leaves, queue - 1), odd, [0, 9].into_iter()), Err(8));
    }

    /// A cell of each level, one that would be split and others that wouldn't, is given every broken distance: nothing changes, and the
    /// build goes on with the greatest distances, which are next to those.
    fn broken_distances(&mut self) {
        let at_64: &Field = &|p| if cell_at(p) == 64 { -0.0 } else { GREATEST_DISTANCES[cell_at(p) as usize % 2] };
        let mut build = self.start(3, rooms(81, 71, 71), at_64);
        for node in 0..81 {
            if [0, 1, 8, 9, 10, 72, 73, 80].contains(&node) {
                self.broken(&mut build, &BROKEN_DISTANCES, 16);
                self.places(&build, [node].into_iter());
            }
            let distance = at_64(build.tree.nodes[node].request.centre);
            assert_eq!(self.distance(&mut build, distance), Ok(()));
        }
        assert_eq!(self.go_on(&mut build, at_64), Ok(()));
        self.places(&build, [0, 1, 8, 9, 10, 62, 63, 70, 71, 72, 80, 81].into_iter());
    }
}
