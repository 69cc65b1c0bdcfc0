//! One call of start or distance: ours beside the model of document 01. After each, all words of the state, every place of
//! every table and every out parameter must be the model's, and what lies around them as it was.

use mittenhelm::raw::{mittenhelm_distance, mittenhelm_start};
use oracle_answers::lent::Fenced;
use oracle_answers::model::build::{self, Request, Tables};
use oracle_answers::model::Answer;

/// What out parameters hold before a call.
const UNTOUCHED: Bits = (0xdead_beef_0bad_cafe, [0xc2f6_e979, 0x7fc1_2345, 0x0000_0007, 0xff80_0001]);

/// A request with its floats as bits: key, then x, y, z and half size.
pub type Bits = (u64, [u32; 4]);

pub fn bits(request: &Request) -> Bits {
    let [x, y, z] = request.centre;
    (request.key, [x, y, z, request.half].map(f32::to_bits))
}

/// How often each refusal was seen, and each kind of acceptance.
#[derive(Debug, Default)]
pub struct Seen {
    pub refused: [u64; 17],
    pub started: u64,
    pub split: u64,
    pub unsplit: u64,
    pub finished: u64,
}

impl Seen {
    /// Asserts that of each number in the list, and of each kind of accepted distance, so many were seen.
    pub fn assert_often(&self, times: u64, numbers: &[usize]) {
        for &number in numbers {
            assert!(self.refused[number] >= times, "refusal {number} was too rare: {self:?}");
        }
        assert!(self.split >= times && self.unsplit >= times && self.finished >= times, "{self:?}");
    }
}

/// Ours and the model's, side by side: a state and the tables each.
#[derive(Clone)]
pub struct Pair {
    state: Fenced<u64>,
    keys: Fenced<u64>,
    distances: Fenced<u32>,
    firsts: Fenced<u16>,
    leaves: Fenced<u64>,
    queue: Fenced<u64>,
    /// What the state must hold.
    pub words: Vec<u64>,
    /// What the tables must hold.
    pub tables: Tables,
}

impl Pair {
    pub fn new(words: Vec<u64>, tables: Tables) -> Self {
        Pair {
            state: Fenced::new(&words),
            keys: Fenced::new(&tables.keys),
            distances: Fenced::new(&tables.distances),
            firsts: Fenced::new(&tables.firsts),
            leaves: Fenced::new(&tables.leaves),
            queue: Fenced::new(&tables.queue),
            words,
            tables,
        }
    }

    pub fn start(&mut self, bound: u32, seen: &mut Seen) -> Answer<Request> {
        let expected = build::start(bound, &self.tables, &mut self.words);
        let (keys, distances, firsts) = (self.keys.part(), self.distances.part(), self.firsts.part());
        let (leaves, queue) = (self.leaves.part(), self.queue.part());
        let state = self.state.lend();
        let (mut key, [mut x, mut y, mut z, mut half]) = untouched();
        let number = unsafe {
            mittenhelm_start(
                bound,
                keys.as_ptr(),
                keys.len() as u64,
                distances.as_ptr().cast(),
                distances.len() as u64,
                firsts.as_ptr(),
                firsts.len() as u64,
                leaves.as_ptr(),
                leaves.len() as u64,
                queue.as_ptr(),
                queue.len() as u64,
                state.as_mut_ptr(),
                state.len() as u64,
                &mut key,
                &mut x,
                &mut y,
                &mut z,
                &mut half,
            )
        };
        let call = || format!("start({bound}), tables of {:?}, {} words", self.tables.lengths(), self.words.len());
        assert_answered(number, (key, [x, y, z, half]), &expected.map(Some), &call);
        self.assert_same(&call);
        match expected {
            Ok(_) => seen.started += 1,
            Err(number) => seen.refused[number as usize] += 1,
        }
        expected
    }

    pub fn distance(&mut self, distance: f32, seen: &mut Seen) -> Answer<Option<Request>> {
        let before = self.words.clone();
        let expected = build::distance(&mut self.words, &mut self.tables, distance);
        let (state, keys, distances) = (self.state.lend(), self.keys.lend(), self.distances.lend());
        let (firsts, leaves, queue) = (self.firsts.lend(), self.leaves.lend(), self.queue.lend());
        let (mut key, [mut x, mut y, mut z, mut half]) = untouched();
        let number = unsafe {
            mittenhelm_distance(
                state.as_mut_ptr(),
                state.len() as u64,
                keys.as_mut_ptr(),
                keys.len() as u64,
                distances.as_mut_ptr().cast(),
                distances.len() as u64,
                firsts.as_mut_ptr(),
                firsts.len() as u64,
                leaves.as_mut_ptr(),
                leaves.len() as u64,
                queue.as_mut_ptr(),
                queue.len() as u64,
                distance,
                &mut key,
                &mut x,
                &mut y,
                &mut z,
                &mut half,
            )
        };
        let lengths = self.tables.lengths();
        let call = || format!("distance({:#x}) in the state {before:x?}, tables of {lengths:x?}", distance.to_bits());
        assert_answered(number, (key, [x, y, z, half]), &expected, &call);
        self.assert_same(&call);
        match expected {
            Ok(None) => seen.finished += 1,
            Ok(_) if self.words[2] == before[2] => seen.split += 1,
            Ok(_) => seen.unsplit += 1,
            Err(number) => seen.refused[number as usize] += 1,
        }
        expected
    }

    fn assert_same(&self, call: &impl Fn() -> String) {
        self.state.assert_holds(&self.words, "state", call);
        self.keys.assert_holds(&self.tables.keys, "node keys", call);
        self.distances.assert_holds(&self.tables.distances, "node distances", call);
        self.firsts.assert_holds(&self.tables.firsts, "first children", call);
        self.leaves.assert_holds(&self.tables.leaves, "leaf keys", call);
        self.queue.assert_holds(&self.tables.queue, "queue", call);
    }
}

fn untouched() -> (u64, [f32; 4]) {
    (UNTOUCHED.0, UNTOUCHED.1.map(f32::from_bits))
}

/// The returned number is the model's, and so is what is asked next. Where nothing is asked, no out parameter was written.
fn assert_answered(number: u32, out: (u64, [f32; 4]), expected: &Answer<Option<Request>>, call: &impl Fn() -> String) {
    let refusal = expected.as_ref().err().copied().unwrap_or(0);
    assert!(number == refusal, "{}: ours returns {number}, the model says {refusal}", call());
    let out = (out.0, out.1.map(f32::to_bits));
    let asked = match expected {
        Ok(Some(request)) => bits(request),
        _ => UNTOUCHED,
    };
    assert!(out == asked, "{}: ours asks for {out:x?}, the model for {asked:x?}", call());
}
