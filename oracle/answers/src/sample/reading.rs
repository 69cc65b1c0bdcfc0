//! Reading in the sample. Put lines write a tree into four tables of 1,024, which begin with zeros, and the lines after them lend
//! the first places, as many as each says:
//!
//! | OP | A | B | C | X | Y | Z |
//! |---|---|---|---|---|---|---|
//! | 10 put | place, first child, distance | key | leaf | | | |
//! | 11 sound | lengths | | | 1 or 0 | | |
//! | 12 look_up | lengths | key | | key found | its distance | keys tried, place |
//! | 13 list | lengths | start | both lengths | count | | |
//! | 14 listed | place | | | vertex | level | |
//! | 15 dual_cell | lengths | vertex | level, entry | key of the entry | its distance | keys tried for all eight, place |
//! | 16 slabs | lengths | vertex | level, exponent | first | last | |
//! | 17 lifetimes | lengths | leaf, slab | lengths, exponent | greatest | last, first | leaves needed |
//!
//! Put writes one place of keys, distances, first children and leaves; the place and that of the first child have 16 bits each, and the
//! distance stands in A's high half, as the entry and the exponent do in C's and the place of what was found in Z's. Lengths are those
//! of keys, distances, first children and leaves in 16 bits each from the lowest on. A list line sets every place of a vertex table and a
//! level table of 1,024 to 0, and lends as many as C says, 16 bits each; a listed line tells what then stands at a place of both. A
//! lookup that answers nothing has key, distance and place 0.
//!
//! A lifetimes line sets every place of three tables of 1,024 to 0, for first slabs, for last slabs and for numbers of leaves, and lends
//! as many as C says, 16 bits each; the exponent has C's highest 16. Y tells what then stands at the leaf in the first two, and Z what
//! stands at the slab in the third, lent or not, and so 0 where the call refuses. The slab is B's high half, the first slab is Y's.

use super::lines::{packed, Sample};
use crate::inputs::{first_cell, last_cell, BROKEN_DISTANCES, GREATEST_DISTANCES};
use crate::integer;
use crate::model::lifetimes::{Lifetimes, Needs};
use crate::model::reading::{Lookup, Reading, Slabs, Tables};
use crate::model::{level, vertex, Answer};
use crate::trees::of_splits;
use std::collections::BTreeMap;

const PUT: u8 = 0x10;
const SOUND: u8 = 0x11;
const LOOK_UP: u8 = 0x12;
const LIST: u8 = 0x13;
const LISTED: u8 = 0x14;
const DUAL_CELL: u8 = 0x15;
const SLABS: u8 = 0x16;
const LIFETIMES: u8 = 0x17;

/// The places of each table that a call writes, lent or not.
const IN_ALL: usize = 1024;

const MIDDLE: u64 = 15 << 60;

/// A sound tree in which these cells are split. Each node has another distance: odd ones first, then small whole numbers.
fn tree(split: &[u64]) -> Tables {
    let odd = [0x8000_0000, 0x7f7f_ffff, 0, 1, 0x007f_ffff, 0x8080_0000, 0x8000_0001, 0xff7f_ffff];
    of_splits(split, |place| odd.get(place).copied().unwrap_or_else(|| (place as f32 - 40.5).to_bits()))
}

/// The cells above a cell, the root first.
fn above(end: u64) -> Vec<u64> {
    (1..=level(end)).rev().map(|above| end >> (3 * above)).collect()
}

/// The tree in the tables, and the lengths that are lent of it.
struct Put {
    lengths: [usize; 4],
    tables: Tables,
}

impl Put {
    /// A tree that is lent whole.
    fn whole(tables: Tables) -> Self {
        let lengths = [tables.keys.len(), tables.distances.len(), tables.firsts.len(), tables.leaves.len()];
        Put { lengths, tables }
    }

    /// What is lent.
    fn lent(&self) -> Tables {
        let [keys, distances, firsts, leaves] = self.lengths;
        Tables {
            keys: self.tables.keys[..keys].to_vec(),
            distances: self.tables.distances[..distances].to_vec(),
            firsts: self.tables.firsts[..firsts].to_vec(),
            leaves: self.tables.leaves[..leaves].to_vec(),
        }
    }

    fn reading(&self) -> Reading {
        Reading::of(&self.lent())
    }

    fn packed(&self) -> u64 {
        packed(self.lengths)
    }

    /// The same places, lent in other lengths: each more or less by so many.
    fn of_lengths(&self, more: [isize; 4]) -> Self {
        let mut tables = self.tables.clone();
        // What was never put is 0, and so the sample asks for no place that an earlier tree has written.
        tables.keys.push(0);
        tables.distances.push(0);
        tables.firsts.push(0);
        tables.leaves.push(0);
        let mut lengths = self.lengths;
        for (length, more) in lengths.iter_mut().zip(more) {
            *length = (*length as isize + more) as usize;
        }
        Put { lengths, tables }
    }
}

/// The first and the last slab of each leaf that a cell has, by the text: it lists the cells, finds their eight nodes, and says where the
/// centres of these are.
fn spans_by_text(tables: &Tables, exponent: u32) -> Vec<[u32; 2]> {
    let listed = integer::compute_primal_vertices(&tables.keys, &tables.leaves);
    let mut spans: BTreeMap<u64, [u32; 2]> = BTreeMap::new();
    for nodes in integer::search_eight_nodes(&tables.keys, &tables.leaves, &listed) {
        let keys = nodes.map(|place| tables.keys[place.expect("the text finds a node")]);
        let slabs = keys.map(|key| (integer::center(key)[2] * 2f32.powi(exponent as i32)) as u32);
        let (first, last) = slabs.iter().fold((u32::MAX, 0), |(first, last), &slab| (first.min(slab), last.max(slab)));
        for key in keys {
            let span = spans.entry(key).or_insert([first, last]);
            *span = [span[0].min(first), span[1].max(last)];
        }
    }
    // No cell has the root alone.
    tables.leaves.iter().map(|leaf| spans.get(leaf).copied().unwrap_or([1, 0])).collect()
}

/// What a line says that was found: Z has the place above the number tried.
fn found(key: u64, distance: u32, place: u64, tried: u32) -> [u64; 3] {
    [key, distance as u64, tried as u64 | place << 32]
}

impl Sample {
    fn put_at(&mut self, put: &Put, place: usize) {
        let at = |table: &[u64]| table.get(place).copied().unwrap_or(0);
        let distance = put.tables.distances.get(place).copied().unwrap_or(0);
        let first = put.tables.firsts.get(place).copied().unwrap_or(0);
        let a = place as u64 | (first as u64) << 16 | (distance as u64) << 32;
        self.line(PUT, [a, at(&put.tables.keys), at(&put.tables.leaves)], Ok([0; 3]));
    }

    /// Writes a tree, and zeros behind it.
    fn put(&mut self, tables: Tables) -> Put {
        let put = Put::whole(tables);
        for place in 0..=put.lengths[0] {
            self.put_at(&put, place);
        }
        put
    }

    /// Changes one place, and hands on what then is lent.
    fn change(&mut self, put: &Put, place: usize, change: impl Fn(&mut Tables)) -> Put {
        let mut changed = Put { lengths: put.lengths, tables: put.tables.clone() };
        change(&mut changed.tables);
        self.put_at(&changed, place);
        changed
    }

    fn sound(&mut self, put: &Put) -> bool {
        let sound = put.lent().is_sound();
        self.line(SOUND, [put.packed(), 0, 0], Ok([sound as u64, 0, 0]));
        sound
    }

    fn look_up(&mut self, put: &Put, key: u64) {
        let answer = put.reading().look_up(key).map(|answer| match answer {
            Lookup::Found { key, distance, place, tried } => found(key, distance, place, tried),
            Lookup::Nothing { tried } => found(0, 0, 0, tried),
        });
        self.line(LOOK_UP, [put.packed(), key, 0], answer);
    }

    /// A list, and what stands at some places after it.
    fn list(&mut self, put: &Put, start: usize, lengths: [usize; 2], places: impl Iterator<Item = usize>) -> bool {
        let (mut vertices, mut levels) = (vec![0; lengths[0]], vec![0; lengths[1]]);
        let answer = put.reading().list(start, &mut vertices, &mut levels);
        if let Ok(count) = answer {
            let tables = put.lent();
            let text = integer::compute_primal_vertices(&tables.keys, &tables.leaves);
            let listed = vertices[start..start + count].iter().zip(&levels[start..]);
            assert!(listed.map(|(&vertex, &level)| (vertex, level as usize)).eq(text), "the text and the model differ");
        }
        let both = lengths[0] as u64 | (lengths[1] as u64) << 16;
        self.line(LIST, [put.packed(), start as u64, both], answer.map(|count| [count as u64, 0, 0]));
        for place in places {
            assert!(place < IN_ALL);
            let (vertex, level) = (vertices.get(place).copied().unwrap_or(0), levels.get(place).copied().unwrap_or(0));
            self.line(LISTED, [place as u64, 0, 0], Ok([vertex, level as u64, 0]));
        }
        answer.is_ok()
    }

    /// Lists into tables with room for 19 vertices of each split, which a list may fill in one pass, with one place less, and with more.
    fn list_in_one_pass(&mut self, put: &Put, start: usize) {
        let (bound, listed) = (start + 19 * (put.lengths[0] / 8), put.reading().vertices().expect("a sound tree").len());
        let ends = [0, start, start + listed - 1, start + listed, bound - 2, bound - 1, bound];
        for lengths in [[bound, bound], [bound - 1, bound], [bound, bound - 1], [bound, bound + 9]] {
            assert!(self.list(put, start, lengths, ends.into_iter()));
        }
    }

    fn dual_cell(&mut self, put: &Put, vertex: u64, level: u32, entries: impl Iterator<Item = usize>) -> bool {
        let answer = put.reading().dual_cell(vertex, level);
        if let Ok(cell) = answer {
            let tables = put.lent();
            let text = integer::search_eight_nodes(&tables.keys, &tables.leaves, &[(vertex, level as usize)]);
            let places = text[0].map(|place| place.expect("the text finds a node"));
            assert_eq!(cell.places, places.map(|place| place as u64), "the text and the model differ");
            assert_eq!(cell.keys, places.map(|place| tables.keys[place]), "the text and the model differ");
        }
        for entry in entries {
            let of_entry = answer.map(|cell| found(cell.keys[entry], cell.distances[entry], cell.places[entry], cell.tried));
            self.line(DUAL_CELL, [put.packed(), vertex, level as u64 | (entry as u64) << 32], of_entry);
        }
        answer.is_ok()
    }

    /// Slabs of a cell. The text has no such call, but finds the eight nodes, and says where their centres are.
    fn slabs(&mut self, put: &Put, vertex: u64, level: u32, exponent: u32) -> bool {
        let answer = put.reading().slabs(vertex, level, exponent);
        if let Ok(Slabs { first, last }) = answer {
            let tables = put.lent();
            let nodes = integer::search_eight_nodes(&tables.keys, &tables.leaves, &[(vertex, level as usize)]);
            let height = |place: Option<usize>| integer::center(tables.keys[place.expect("the text finds a node")])[2];
            let slabs = nodes[0].map(|place| (height(place) * 2f32.powi(exponent as i32)) as u32);
            let least_and_greatest = (slabs.iter().copied().min(), slabs.iter().copied().max());
            assert_eq!(least_and_greatest, (Some(first), Some(last)), "the text and the model differ");
        }
        let results = answer.map(|Slabs { first, last }| [first as u64, last as u64, 0]);
        self.line(SLABS, [put.packed(), vertex, level as u64 | (exponent as u64) << 32], results);
        answer.is_ok()
    }

    /// Slabs of a cell by exponents around those of a node of its level, whose centre lies on a multiple of 2^-(level + 1); then above 15.
    fn slabs_of_every_kind(&mut self, put: &Put, vertex: u64, level: u32) {
        let mut exponents = vec![0, 1, level, level + 1, level + 2, 15];
        exponents.retain(|&exponent| exponent <= 15);
        exponents.sort_unstable();
        exponents.dedup();
        for exponent in exponents {
            assert!(self.slabs(put, vertex, level, exponent));
        }
        assert!(!self.slabs(put, vertex, level, 16) && !self.slabs(put, vertex, level, u32::MAX));
    }

    /// A report into tables of these lengths, and what stands at some leaves and slabs after it. A line has a leaf and a slab.
    fn lifetimes(&mut self, put: &Put, exponent: u32, lengths: [usize; 3], places: &[[usize; 2]]) -> Answer<()> {
        assert!(lengths.iter().all(|&length| length <= IN_ALL) && places.iter().flatten().all(|&place| place < IN_ALL + 2));
        let tables = put.lent();
        let report = Needs::of_sound(&tables, &put.reading()).and_then(|needs| needs.lifetimes(exponent));
        if let Ok(Lifetimes { first, last, .. }) = &report {
            let spans: Vec<[u32; 2]> = first.iter().zip(last).map(|(&first, &last)| [first, last]).collect();
            assert_eq!(spans, spans_by_text(&tables, exponent), "the text and the model differ");
        }
        let [mut first, mut last, mut needed] = lengths.map(|length| vec![0; length]);
        let answer = report.and_then(|report| report.write(&mut first, &mut last, &mut needed));
        let at = |table: &[u32], place: usize| table.get(place).copied().unwrap_or(0) as u64;
        for &[leaf, slab] in places {
            let c = packed([lengths[0], lengths[1], lengths[2], exponent as usize]);
            let results = answer.map(|most| [most as u64, at(&first, leaf) << 32 | at(&last, leaf), at(&needed, slab)]);
            self.line(LIFETIMES, [put.packed(), leaf as u64 | (slab as u64) << 32, c], results);
        }
        answer.map(|_| ())
    }

    /// Lifetimes of a sound tree into tables that are just long enough, and into longer ones: of some leaves and slabs, and past the last.
    fn lifetimes_with_room(&mut self, put: &Put, exponent: u32) {
        let (leaves, slabs) = (put.lengths[3], 1 << exponent);
        let mut places = vec![[0, slabs - 1], [leaves - 1, 0], [leaves / 2, slabs / 2], [leaves / 3, slabs / 4], [leaves, slabs]];
        places.dedup();
        assert_eq!(self.lifetimes(put, exponent, [leaves, leaves, slabs], &places), Ok(()));
        let places = [[leaves, slabs], [leaves - 1, slabs - 1]];
        assert_eq!(self.lifetimes(put, exponent, [IN_ALL, leaves + 1, IN_ALL], &places), Ok(()));
    }

    /// Lifetimes that are refused: each table is a place too short; there is no room for finer slabs; or the exponent is above 15, which
    /// comes before any want of room.
    fn lifetimes_refused(&mut self, put: &Put, exponent: u32) {
        let (leaves, slabs) = (put.lengths[3], 1 << exponent);
        for less in [[1, 0, 0], [0, 1, 0], [0, 0, 1]] {
            let lengths = [leaves - less[0], leaves - less[1], slabs - less[2]];
            assert_eq!(self.lifetimes(put, exponent, lengths, &[[0, slabs - 1]]), Err(17));
        }
        for exponent in [11, 15] {
            assert_eq!(self.lifetimes(put, exponent, [leaves, leaves, IN_ALL], &[[0, 0]]), Err(17));
        }
        for exponent in [16, u16::MAX as u32] {
            assert_eq!(self.lifetimes(put, exponent, [IN_ALL; 3], &[[0, 0]]), Err(5));
            assert_eq!(self.lifetimes(put, exponent, [0; 3], &[[0, 0]]), Err(5));
        }
    }

    pub(super) fn reading(&mut self) {
        self.least_trees();
        self.example_of_81();
        self.deepest_tree();
    }

    /// The root alone, which has no vertex and no dual cell, and nine nodes, which no build makes.
    fn least_trees(&mut self) {
        let root = self.put(tree(&[]));
        assert!(self.sound(&root));
        for more in [
            [-1, 0, 0, 0],
            [0, -1, 0, 0],
            [0, 0, -1, 0],
            [0, 0, 1, 0],
            [0, 0, 0, -1],
            [-1, -1, -1, -1],
            [-1, -1, -1, 0],
            [1, 1, 1, 0],
            [1, 1, 1, 1],
            [0, 0, 0, 1],
        ] {
            let other = root.of_lengths(more);
            assert!(!self.sound(&other));
            self.look_up(&other, 16);
            self.list(&other, 9, [0, 0], [].into_iter());
            self.dual_cell(&other, MIDDLE, 0, [0].into_iter());
            self.slabs(&other, MIDDLE, 0, 16);
            assert_eq!(self.lifetimes(&other, 16, [0; 3], &[[0, 0]]), Err(11));
        }
        for key in [1, 8, 64, first_cell(21), last_cell(21), 0, 16] {
            self.look_up(&root, key);
        }
        assert!(self.list(&root, 0, [0, 0], 0..1) && self.list(&root, 2, [2, 3], 1..4));
        assert!(!self.list(&root, 3, [2, 3], [].into_iter()) && !self.list(&root, usize::MAX, [9, 9], [].into_iter()));
        assert!(!self.dual_cell(&root, MIDDLE, 1, [0, 7].into_iter()));
        assert!(!self.slabs(&root, MIDDLE, 1, 0) && !self.slabs(&root, MIDDLE, 1, 16) && !self.slabs(&root, 0, 1, 15));
        for exponent in [0, 2] {
            self.lifetimes_with_room(&root, exponent);
        }
        self.lifetimes_refused(&root, 0);

        let nine = self.put(tree(&[1]));
        assert!(self.sound(&nine));
        for key in [1, 8, 15, 64, 127, 9 << 60, 16] {
            self.look_up(&nine, key);
        }
        for (start, lengths, fits) in
            [(0, [1, 1], true), (1, [2, 3], true), (1, [1, 2], false), (1, [2, 1], false), (0, [0, 0], false)]
        {
            assert_eq!(self.list(&nine, start, lengths, 0..3), fits);
        }
        self.list_in_one_pass(&nine, 2);
        assert!(self.dual_cell(&nine, MIDDLE, 1, 0..8) && self.dual_cell(&nine, MIDDLE, 20, [0, 7].into_iter()));
        assert!(!self.dual_cell(&nine, MIDDLE, 21, [0].into_iter()) && !self.dual_cell(&nine, 1 << 63, 1, [0].into_iter()));
        self.slabs_of_every_kind(&nine, MIDDLE, 1);
        // The same nodes by way of a finer level; one node for all, with the vertex in its middle or elsewhere.
        self.slabs_of_every_kind(&nine, MIDDLE, 20);
        for (vertex, level) in [(71 << 57, 2), (519 << 54, 3), (last_cell(20) << 3, 20)] {
            assert!(self.slabs(&nine, vertex, level, 3) && self.slabs(&nine, vertex, level, 15));
        }
        for (vertex, level) in [(MIDDLE, 0), (MIDDLE, 21), (1 << 63, 1), (last_cell(20) << 3, 19), (0, 1)] {
            assert!(!self.slabs(&nine, vertex, level, 15) && !self.slabs(&nine, vertex, level, 16));
        }
        for exponent in [0, 2, 5] {
            self.lifetimes_with_room(&nine, exponent);
        }
        self.lifetimes_refused(&nine, 2);
        // Each condition of a sound tree at one place.
        for (place, key, leaf) in
            [(0, 0, 8), (0, 2, 8), (1, 7, 8), (1, 8, 1), (1, 8, 10), (3, 9, 10), (3, 11, 10), (8, 16, 15), (8, 120, 15)]
        {
            let changed = self.change(&nine, place, |tables| {
                tables.keys[place] = key;
                if place < 8 {
                    tables.leaves[place] = leaf;
                }
            });
            assert!(!self.sound(&changed));
            self.put_at(&nine, place);
        }
        assert!(self.sound(&nine));
        for bits in BROKEN_DISTANCES {
            self.broken_at(&nine, 4, bits);
        }
        // The root's first child has another place, is none, or is behind the table; a leaf has one.
        for (place, first) in [(0, 0), (0, 2), (0, 9), (0, u16::MAX), (1, 1), (1, 9), (8, 1), (8, 8)] {
            self.astray_at(&nine, place, first);
        }
    }

    /// A wrong first child at one place: no call that checks the tree reads it.
    fn astray_at(&mut self, put: &Put, place: usize, first: u16) {
        let changed = self.change(put, place, |tables| tables.firsts[place] = first);
        assert!(!self.sound(&changed));
        self.look_up(&changed, 64);
        assert!(!self.list(&changed, 0, [0, 0], [].into_iter()) && !self.dual_cell(&changed, MIDDLE, 1, [0].into_iter()));
        assert!(!self.slabs(&changed, MIDDLE, 1, 16));
        assert_eq!(self.lifetimes(&changed, 2, [IN_ALL; 3], &[[0, 1]]), Err(11));
        self.put_at(put, place);
    }

    /// A distance that isn't finite at one place: no call that checks the tree reads it. With the greatest distances there it is sound
    /// again.
    fn broken_at(&mut self, put: &Put, place: usize, bits: u32) {
        let changed = self.change(put, place, |tables| tables.distances[place] = bits);
        assert!(!self.sound(&changed));
        self.look_up(&changed, 64);
        assert!(!self.list(&changed, 0, [0, 0], [].into_iter()) && !self.dual_cell(&changed, MIDDLE, 1, [0].into_iter()));
        let greatest = GREATEST_DISTANCES[(bits >> 31) as usize].to_bits();
        let changed = self.change(put, place, |tables| tables.distances[place] = greatest);
        assert!(self.sound(&changed));
        self.put_at(put, place);
    }

    /// Document 01's tree of 81 nodes, with its dual cells.
    fn example_of_81(&mut self) {
        let put = self.put(tree(&[1, 8, 9, 10, 11, 12, 13, 14, 15, 64]));
        assert!(self.sound(&put));
        let corner = |key, which| vertex(key, level(key), which).expect("a cell key with its own level");
        assert!(self.list(&put, 0, [34, 34], 0..35) && self.list(&put, 5, [39, 50], [0, 4, 5, 38, 39, 49].into_iter()));
        for (start, lengths) in [(0, [33, 34]), (0, [34, 33]), (6, [39, 50]), (6, [50, 39]), (usize::MAX - 33, [34, 34])] {
            assert!(!self.list(&put, start, lengths, [0, 33].into_iter()));
        }
        self.list_in_one_pass(&put, 0);
        for (vertex, level) in [(corner(519, 7), 3), (corner(512, 7), 3), (MIDDLE, 1), (MIDDLE, 2), (corner(65, 6), 2)] {
            assert!(self.dual_cell(&put, vertex, level, 0..8));
        }
        assert!(!self.dual_cell(&put, corner(512, 7), 2, [0, 7].into_iter()));
        // Cells of one level and of two; then, at a level at which nothing lists it, one with a split node.
        for (vertex, level) in [(corner(519, 7), 3), (corner(512, 7), 3), (corner(65, 6), 2), (MIDDLE, 1)] {
            self.slabs_of_every_kind(&put, vertex, level);
        }
        assert!(!self.slabs(&put, corner(512, 7), 2, 0) && !self.slabs(&put, corner(512, 7), 2, 16));
        for exponent in [0, 2, 5, 9] {
            self.lifetimes_with_room(&put, exponent);
        }
        self.lifetimes_refused(&put, 5);
        // One leaf after another.
        let leaves = put.lengths[3];
        for leaf in (0..leaves).step_by(17) {
            assert_eq!(self.lifetimes(&put, 4, [leaves, leaves, 16], &[[leaf, leaf % 16]]), Ok(()));
        }
        for key in [64, 512, 519, 65, 520, 8 * 519 + 3, 1, 9, 127, last_cell(20), first_cell(20), 128] {
            self.look_up(&put, key);
        }
        for more in [[0, 0, 0, -1], [-1, -1, -1, -1], [-8, -8, -8, -8], [0, -1, 0, 0], [0, 0, -1, 0], [0, 0, 1, 0], [1, 1, 1, 1]]
        {
            let other = put.of_lengths(more);
            assert!(!self.sound(&other));
            self.look_up(&other, 64);
        }
        // The root's, a split node's, a leaf's and the last.
        for (place, bits) in [0, 9, 40, 80].into_iter().zip(BROKEN_DISTANCES) {
            self.broken_at(&put, place, bits);
        }
        // Of split nodes one place on or back, none, or that of another; of leaves that of a split node, or where theirs would stand.
        for (place, first) in
            [(0, 9), (1, 8), (1, 10), (1, 0), (1, 17), (8, 57), (8, 73), (9, 1), (9, 72), (9, 81), (10, 73), (72, 81), (80, 81)]
        {
            self.astray_at(&put, place, first);
        }
        assert!(self.sound(&put));
    }

    /// A path down to level 15; one level more isn't sound.
    fn deepest_tree(&mut self) {
        let end = first_cell(15) + 0o1_2345_6701_2345;
        let put = self.put(tree(&above(end)));
        assert!(self.sound(&put));
        for key in [end, end ^ 1, 8 * end, (end << 18) | 0o777, end / 8, (end / 64) ^ 3, last_cell(21), first_cell(21), end << 19]
        {
            self.look_up(&put, key);
        }
        let listed = put.reading().vertices().expect("a sound tree");
        assert!(self.list(&put, 1, [listed.len() + 1, listed.len() + 2], (0..listed.len() + 3).step_by(7)));
        self.list_in_one_pass(&put, 3);
        for &(vertex, level) in [listed.first(), listed.last()].into_iter().flatten() {
            assert!(self.dual_cell(&put, vertex, level, [0, 3, 7].into_iter()));
            self.dual_cell(&put, vertex, 20, [5].into_iter());
        }
        // The finest nodes, whose centres lie between the finest slabs' sides.
        for &(vertex, level) in listed.iter().filter(|&&(_, level)| level == 15).step_by(6) {
            for exponent in [0, 7, 14, 15] {
                assert!(self.slabs(&put, vertex, level, exponent) && self.slabs(&put, vertex, 20, exponent));
            }
        }
        for exponent in [2, 9, 10] {
            self.lifetimes_with_room(&put, exponent);
        }
        self.lifetimes_refused(&put, 9);
        let mut split = above(end);
        split.push(end);
        let deeper = Put::whole(tree(&split));
        for place in 0..=deeper.lengths[0] {
            let key = |put: &Put| [put.tables.keys.get(place).copied(), put.tables.leaves.get(place).copied()];
            let first = |put: &Put| put.tables.firsts.get(place).copied();
            if key(&deeper) != key(&put) || first(&deeper) != first(&put) {
                self.put_at(&deeper, place);
            }
        }
        assert!(!self.sound(&deeper));
        self.look_up(&deeper, end);
        assert_eq!(self.lifetimes(&deeper, 16, [0; 3], &[[0, 0]]), Err(11));
    }
}
