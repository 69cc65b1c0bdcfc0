//! Document 01, "Building, one request at a time": start and distance for every state and all tables, step by step in its words.
//! What is calculated with a state's words is i128, so that no forged number is too great.

use super::{centre, child, half_size, is_cell, is_finite, level, should_refine, Answer};

/// What is lent. Distances are bits here, so that two NaNs can be told apart.
#[derive(Clone, Debug, Default, PartialEq, Eq)]
pub struct Tables {
    pub keys: Vec<u64>,
    pub distances: Vec<u32>,
    pub firsts: Vec<u16>,
    pub leaves: Vec<u64>,
    pub queue: Vec<u64>,
}

/// A request carries the key, the three centre coordinates and the half size.
#[derive(Clone, Copy, Debug, PartialEq)]
pub struct Request {
    pub key: u64,
    pub centre: [f32; 3],
    pub half: f32,
}

/// How many tables are lent: node keys, node distances, first children, leaf keys and queue.
pub const TABLES: usize = 5;

/// The words of a state: the bound, n, m and the asked key (0: nothing is asked), then the lengths of the tables at the start.
pub const STATE_WORDS: usize = 4 + TABLES;

const GREATEST_BOUND: u64 = 15;
const GREATEST_NODE_ROOM: i128 = 4096;

impl Tables {
    /// Tables of these lengths, in the order of a state's words, all places 0.
    pub fn of(lengths: [usize; TABLES]) -> Self {
        let [keys, distances, firsts, leaves, queue] = lengths;
        Tables {
            keys: vec![0; keys],
            distances: vec![0; distances],
            firsts: vec![0; firsts],
            leaves: vec![0; leaves],
            queue: vec![0; queue],
        }
    }

    pub fn lengths(&self) -> [u64; TABLES] {
        [self.keys.len(), self.distances.len(), self.firsts.len(), self.leaves.len(), self.queue.len()]
            .map(|length| length as u64)
    }

    /// Node room is the shortest of the first three lengths, at most 4,096.
    fn node_room(&self) -> i128 {
        let shortest = self.keys.len().min(self.distances.len()).min(self.firsts.len());
        (shortest as i128).min(GREATEST_NODE_ROOM)
    }

    fn leaf_room(&self) -> i128 {
        self.leaves.len() as i128
    }

    fn queue_length(&self) -> i128 {
        self.queue.len() as i128
    }

    /// Item j sits at place j modulo the queue length.
    fn place(&self, j: i128) -> usize {
        (j % self.queue_length()) as usize
    }
}

fn request(key: u64) -> Request {
    let fitting = "a state that fits asks for cell keys only";
    Request { key, centre: centre(key).expect(fitting), half: half_size(key).expect(fitting) }
}

/// 7n - 8m items are waiting while a cell is asked.
fn waiting(n: i128, m: i128) -> i128 {
    7 * n - 8 * m
}

/// A cell key of level at most D, the larger of the bound and 2.
fn is_cell_of_grid(key: u64, bound: u64) -> bool {
    is_cell(key) && level(key) as u64 <= bound.max(2)
}

/// Whether a state fits its tables. Another number of words is no state at all.
fn fits(state: &[u64], tables: &Tables) -> bool {
    if state.len() != STATE_WORDS || state[4..] != tables.lengths() {
        return false;
    }
    let (bound, n, m, asked) = (state[0], state[1] as i128, state[2] as i128, state[3]);
    if bound > GREATEST_BOUND || m > n || n > tables.node_room() || m > tables.leaf_room() {
        return false;
    }
    if asked == 0 {
        return 7 * n + 1 == 8 * m;
    }
    let waiting = waiting(n, m);
    is_cell_of_grid(asked, bound)
        && 0 <= waiting
        && waiting <= tables.queue_length()
        && (waiting == 0 || is_cell_of_grid(tables.queue[tables.place(n)], bound))
}

/// Begins a build: the root is asked for first.
pub fn start(bound: u32, tables: &Tables, state: &mut [u64]) -> Answer<Request> {
    if bound as u64 > GREATEST_BOUND {
        return Err(5);
    }
    if state.len() != STATE_WORDS {
        return Err(10);
    }
    state[..4].copy_from_slice(&[bound as u64, 0, 0, 1]);
    state[4..].copy_from_slice(&tables.lengths());
    Ok(request(1))
}

/// Takes the distance of the asked cell. The answer is what is asked next; nothing, where the build is finished.
pub fn distance(state: &mut [u64], tables: &mut Tables, distance: f32) -> Answer<Option<Request>> {
    if !fits(state, tables) {
        return Err(10);
    }
    let (bound, n, m, asked) = (state[0], state[1] as i128, state[2] as i128, state[3]);
    if asked == 0 {
        return Err(9);
    }
    if !is_finite(distance) {
        return Err(16);
    }
    if n == tables.node_room() {
        return Err(6);
    }
    let mut waiting = waiting(n, m);
    let splits = should_refine(level(asked), bound as u32, distance);
    if !splits && m == tables.leaf_room() {
        return Err(7);
    }
    if splits && waiting + 8 > tables.queue_length() {
        return Err(8);
    }

    tables.keys[n as usize] = asked;
    tables.distances[n as usize] = distance.to_bits();
    // The place of the first child: all cells that were ever queued, eight for each split, get their places in turn.
    tables.firsts[n as usize] = if splits { (8 * (n - m) + 1) as u16 } else { 0 };
    state[1] += 1;
    if splits {
        for which in 0..8 {
            let place = tables.place(8 * (n - m) + which as i128);
            tables.queue[place] = child(asked, which).expect("a cell of level 21 isn't split");
        }
        waiting += 8;
    } else {
        tables.leaves[m as usize] = asked;
        state[2] += 1;
    }
    if waiting == 0 {
        state[3] = 0;
        return Ok(None);
    }
    state[3] = tables.queue[tables.place(n)];
    Ok(Some(request(state[3])))
}
