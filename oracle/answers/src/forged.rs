//! States of a build that no build made, and tables that hold anything.

use crate::inputs::{first_cell, last_cell, Random};
use crate::model::build::{Tables, STATE_WORDS, TABLES};

/// The words of a state, or another number of them, and tables.
#[derive(Clone)]
pub struct Forged {
    pub words: Vec<u64>,
    pub tables: Tables,
}

/// Lengths at which something changes.
const LENGTHS: [usize; 19] = [0, 1, 2, 7, 8, 9, 15, 16, 17, 31, 63, 64, 65, 71, 72, 73, 74, 100, 128];

/// Words at which something changes.
pub const WORDS: [u64; 15] = [0, 1, 2, 7, 8, 15, 16, 64, 4095, 4096, 4097, 1 << 32, 1 << 61, 1 << 63, u64::MAX];

/// A key that a state of the bound may ask for, often of the deepest level.
fn fitting_key(bound: u64, random: &mut Random) -> u64 {
    let finest = bound.max(2);
    let level = [finest, finest, 0, 1, 2, random.below(finest + 1)][random.below(6) as usize] as u32;
    [first_cell(level), last_cell(level), random.cell_of(level)][random.below(3) as usize]
}

/// A key that it may not ask for: a cell too deep, or no cell.
fn unfitting_key(bound: u64, random: &mut Random) -> u64 {
    let finest = bound.max(2) as u32;
    let deeper = [finest + 1, finest + 1, finest + 1 + random.below(21 - finest as u64) as u32][random.below(3) as usize];
    match random.below(6) {
        0 => first_cell(deeper),
        1 => random.cell_of(deeper),
        2 => last_cell(random.below(finest as u64 + 1) as u32) + 1,
        3 => first_cell(random.below(finest as u64 + 1) as u32) - 1,
        4 => random.bits(),
        _ => random.number(),
    }
}

impl Forged {
    /// With tables of these lengths, whose places hold anything. It fits.
    pub fn new(lengths: [usize; TABLES], random: &mut Random) -> Self {
        let bound = random.below(16);
        let mut tables = garbage(lengths);
        if random.below(2) == 0 {
            tables.queue.iter_mut().for_each(|key| *key = fitting_key(bound, random));
        }
        let mut forged = Forged { words: vec![bound, 0, 0, 1], tables };
        forged.words.extend(lengths.map(|length| length as u64));
        if random.below(12) == 0 && forged.finish(random) {
            return forged;
        }
        forged.count(random);
        forged.words[3] = fitting_key(bound, random);
        forged.set_front(fitting_key(bound, random));
        forged
    }

    fn rooms(&self) -> [u64; 3] {
        let [keys, distances, firsts, leaves, queue] = self.tables.lengths();
        [keys.min(distances).min(firsts).min(4096), leaves, queue]
    }

    /// Some n and m that fit, often at an edge.
    fn count(&mut self, random: &mut Random) {
        let [nodes, leaves, queue] = self.rooms();
        for _ in 0..10 {
            let n = [nodes, nodes.saturating_sub(1), random.below(nodes + 1)][random.below(3) as usize];
            let (least, most) = ((7 * n).saturating_sub(queue) / 8, (7 * n / 8).min(leaves));
            // The least m with 7n - 8m at most the queue length, rounded up.
            let least = if 7 * n > queue + 8 * least { least + 1 } else { least };
            if least <= most {
                let m = [least, most, least + random.below(most - least + 1)][random.below(3) as usize];
                self.words[1..3].copy_from_slice(&[n, m]);
                return;
            }
        }
    }

    /// As many nodes and leaves as a finished tree has, where there is room for one.
    fn finish(&mut self, random: &mut Random) -> bool {
        let [nodes, leaves, _] = self.rooms();
        if nodes == 0 || leaves == 0 {
            return false;
        }
        let splits = random.below(((nodes - 1) / 8).min((leaves - 1) / 7) + 1);
        self.words[1..4].copy_from_slice(&[8 * splits + 1, 7 * splits + 1, 0]);
        true
    }

    /// What stands at place n modulo the queue length.
    fn set_front(&mut self, key: u64) {
        let length = self.tables.queue.len() as u64;
        if length > 0 {
            self.tables.queue[(self.words[1] % length) as usize] = key;
        }
    }

    /// Changes one thing, so that it may no longer fit.
    pub fn change(&mut self, random: &mut Random) {
        let bound = self.words[0] % 16;
        let word = random.below(STATE_WORDS as u64) as usize;
        let either = [1, u64::MAX][random.below(2) as usize];
        match random.below(12) {
            0 => self.words[word] = self.words[word].wrapping_add(either),
            1 => self.words[word] ^= 1 << random.below(64),
            2 => self.words[word] = WORDS[random.below(WORDS.len() as u64) as usize],
            3 => self.words[word] = random.number(),
            4 => self.words[3] = unfitting_key(bound, random),
            5 => self.set_front(unfitting_key(bound, random)),
            6 => self.change_length(random),
            // n and m that leave as many waiting.
            7 => {
                self.words[1] = self.words[1].wrapping_add(either.wrapping_mul(8));
                self.words[2] = self.words[2].wrapping_add(either.wrapping_mul(7));
            }
            8 => self.words[2] = self.words[2].wrapping_add(either),
            9 => self.words.truncate(random.below(STATE_WORDS as u64) as usize),
            10 => self.words.extend([random.number(), 1, 2].iter().take(1 + random.below(3) as usize)),
            _ => self.words.iter_mut().take(4).for_each(|word| *word = random.number()),
        }
    }

    /// Changes the length of a table, and sometimes says so in the state.
    fn change_length(&mut self, random: &mut Random) {
        let (longer, table) = (random.below(2) == 0, random.below(TABLES as u64) as usize);
        self.resize(table, longer);
        if random.below(3) == 0 {
            self.words[4 + table] = self.tables.lengths()[table];
        }
    }

    /// Makes a table one place longer or shorter.
    pub fn resize(&mut self, table: usize, longer: bool) {
        match table {
            0 => resize(&mut self.tables.keys, longer),
            1 => resize(&mut self.tables.distances, longer),
            2 => resize(&mut self.tables.firsts, longer),
            3 => resize(&mut self.tables.leaves, longer),
            _ => resize(&mut self.tables.queue, longer),
        }
    }
}

fn resize<T: Copy + Default>(table: &mut Vec<T>, longer: bool) {
    if longer {
        table.push(T::default());
    } else {
        table.pop();
    }
}

/// Lengths of the tables.
pub fn some_lengths(random: &mut Random) -> [usize; TABLES] {
    let mut lengths = [(); TABLES].map(|()| LENGTHS[random.below(LENGTHS.len() as u64) as usize]);
    // As many places for each part of a node, or for all but one.
    if random.below(3) > 0 {
        let (nodes, other) = (lengths[0], random.below(4) as usize);
        (0..3).filter(|&table| table != other).for_each(|table| lengths[table] = nodes);
    }
    lengths
}

/// Tables in which each place holds something else, and nothing that a build writes.
pub fn garbage(lengths: [usize; TABLES]) -> Tables {
    let mut tables = Tables::of(lengths);
    let tables_of_keys = [&mut tables.keys, &mut tables.leaves, &mut tables.queue];
    for (number, table) in tables_of_keys.into_iter().enumerate() {
        for (place, key) in table.iter_mut().enumerate() {
            *key = 0xbad0_0000_0000_0000 + ((number as u64) << 32) + place as u64;
        }
    }
    for (place, distance) in tables.distances.iter_mut().enumerate() {
        *distance = 0xffab_0000 + place as u32;
    }
    for (place, first) in tables.firsts.iter_mut().enumerate() {
        *first = 0xba00 + place as u16 % 0x4600;
    }
    tables
}
