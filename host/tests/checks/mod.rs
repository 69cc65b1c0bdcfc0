//! One check for each call: ours against the model of document 01, against the integer build wherever ours accepts, and
//! against the published build wherever its `level` of the key is right (or the call has no use for it). Floats are compared
//! by their bits, out parameters must stay on a refusal, and what was seen is counted.

use mittenhelm::raw::*;
use oracle_answers::model::{self, Answer};
use oracle_answers::{compares_with_text, inputs::last_cell, integer, published, splits_in_f32};
use std::fmt::Debug;

/// What out parameters hold before a call.
const UNTOUCHED: u64 = 0xdead_beef_0bad_cafe;
const UNTOUCHED_FLOATS: [u32; 3] = [0xc2f6_e979, 0x7fc1_2345, 0x0000_0007];

pub struct Checks {
    with_text: bool,
    /// How many calls were accepted (place 0) or refused with each number.
    pub said: [u64; 5],
    /// How many answers were something other than no or none.
    pub some: u64,
    /// How many answers the published build gave too, and for how many its `level` was wrong.
    pub published: u64,
    pub wrong_level: u64,
}

impl Checks {
    pub fn new() -> Self {
        Checks { with_text: compares_with_text(), said: [0; 5], some: 0, published: 0, wrong_level: 0 }
    }

    /// Asserts that exactly these refusals were seen, and acceptances too.
    pub fn assert_said(&self, refusals: &[usize]) {
        for number in 0..5 {
            let expected = number == 0 || refusals.contains(&number);
            assert_eq!(self.said[number] > 0, expected, "refusal {number} was seen {} times", self.said[number]);
        }
    }

    fn count<T>(&mut self, answer: &Answer<T>) {
        let number = answer.as_ref().err().copied().unwrap_or(0);
        self.said[number as usize] += 1;
    }

    /// Compares with both builds. The published one is left out where a wrong `level` of the key reaches the answer.
    fn compare<T: PartialEq + Debug>(
        &mut self,
        key: Option<u64>,
        ours: T,
        integer: impl Fn() -> T,
        published: impl Fn() -> T,
        call: impl Fn() -> String,
    ) {
        if !self.with_text {
            return;
        }
        agree(&ours, &integer(), "the integer build", &call);
        match key.map(|key| integer::level(key) - published::level(key)) {
            None | Some(0) => {
                agree(&ours, &published(), "the published build", &call);
                self.published += 1;
            }
            Some(1) => self.wrong_level += 1,
            _ => panic!("{}: the published level is wrong by more than one too few", call()),
        }
    }

    pub fn level(&mut self, key: u64) {
        let call = || format!("level({key:#x})");
        let ours = unsafe { mittenhelm_level(key) };
        agree(&ours, &model::level(key), "the model", &call);
        self.compare(Some(key), ours, || integer::level(key) as u32, || published::level(key) as u32, call);
        self.said[0] += 1;
    }

    pub fn is_cell(&mut self, key: u64) {
        let ours = unsafe { mittenhelm_is_cell(key) };
        agree(&ours, &(model::is_cell(key) as u8), "the model", &|| format!("is_cell({key:#x})"));
        self.said[0] += 1;
        self.some += ours as u64;
    }

    pub fn parent(&mut self, key: u64) {
        let call = || format!("parent({key:#x})");
        let ours = unsafe { mittenhelm_parent(key) };
        agree(&ours, &model::parent(key), "the model", &call);
        self.compare(None, ours, || integer::parent(key), || published::parent(key), call);
        self.said[0] += 1;
    }

    pub fn add(&mut self, a: u64, b: u64) {
        let call = || format!("add({a:#x}, {b:#x})");
        let ours = unsafe { mittenhelm_add(a, b) };
        agree(&ours, &model::add(a, b), "the model", &call);
        self.compare(None, ours, || integer::add(a, b), || published::add(a, b), call);
        self.said[0] += 1;
    }

    pub fn sub(&mut self, a: u64, b: u64) {
        let call = || format!("sub({a:#x}, {b:#x})");
        let ours = unsafe { mittenhelm_sub(a, b) };
        agree(&ours, &model::sub(a, b), "the model", &call);
        self.compare(None, ours, || integer::sub(a, b), || published::sub(a, b), call);
        self.said[0] += 1;
    }

    pub fn child(&mut self, key: u64, which: u32) {
        let call = || format!("child({key:#x}, {which})");
        let ours = key_answer(|child| unsafe { mittenhelm_child(key, which, child) }, &call);
        agree(&ours, &model::child(key, which), "the model", &call);
        if let Ok(child) = ours {
            self.compare(None, child, || integer::child(key, which as u8), || published::child(key, which as u8), call);
        }
        self.count(&ours);
    }

    pub fn half_size(&mut self, key: u64) {
        let call = || format!("half_size({key:#x})");
        let mut half_size = f32::from_bits(UNTOUCHED_FLOATS[0]);
        let number = unsafe { mittenhelm_half_size(key, &mut half_size) };
        let ours = float_answer(number, [half_size], [UNTOUCHED_FLOATS[0]], &call).map(|[bits]| bits);
        agree(&ours, &model::half_size(key).map(f32::to_bits), "the model", &call);
        if let Ok(bits) = ours {
            self.compare(Some(key), bits, || integer::size(key).to_bits(), || published::size(key).to_bits(), call);
        }
        self.count(&ours);
    }

    pub fn centre(&mut self, key: u64) {
        let call = || format!("centre({key:#x})");
        let [mut x, mut y, mut z] = UNTOUCHED_FLOATS.map(f32::from_bits);
        let number = unsafe { mittenhelm_centre(key, &mut x, &mut y, &mut z) };
        let ours = float_answer(number, [x, y, z], UNTOUCHED_FLOATS, &call);
        agree(&ours, &model::centre(key).map(|c| c.map(f32::to_bits)), "the model", &call);
        if let Ok(bits) = ours {
            let of = |c: [f32; 3]| c.map(f32::to_bits);
            self.compare(Some(key), bits, || of(integer::center(key)), || of(published::center(key)), call);
        }
        self.count(&ours);
    }

    /// Hands the answer on, for checks of what was found.
    pub fn vertex(&mut self, key: u64, level: u32, corner: u32) -> Answer<u64> {
        let call = || format!("vertex({key:#x}, {level}, {corner})");
        let ours = key_answer(|vertex| unsafe { mittenhelm_vertex(key, level, corner, vertex) }, &call);
        agree(&ours, &model::vertex(key, level, corner), "the model", &call);
        if let Ok(vertex) = ours {
            let (l, w) = (level as usize, corner as usize);
            self.compare(None, vertex, || integer::primal_vertex(key, l, w), || published::primal_vertex(key, l, w), call);
            self.some += (vertex != 0) as u64;
        }
        self.count(&ours);
        ours
    }

    pub fn is_inner(&mut self, vertex: u64, level: u32) {
        let ours = unsafe { mittenhelm_is_inner(vertex, level) };
        agree(&ours, &(model::is_inner(vertex, level) as u8), "the model", &|| format!("is_inner({vertex:#x}, {level})"));
        self.said[0] += 1;
        self.some += ours as u64;
    }

    /// Hands the answer on, for checks of what was found.
    pub fn side(&mut self, vertex: u64, level: u32, which: u32) -> Answer<u64> {
        let call = || format!("side({vertex:#x}, {level}, {which})");
        let ours = key_answer(|cell| unsafe { mittenhelm_side(vertex, level, which, cell) }, &call);
        agree(&ours, &model::side(vertex, level, which), "the model", &call);
        if let Ok(cell) = ours {
            let (l, w) = (level as usize, which as usize);
            self.compare(None, cell, || integer::dual_vertex(vertex, l, w), || published::dual_vertex(vertex, l, w), call);
        }
        self.count(&ours);
        ours
    }

    /// The rule by f32 operations, which is that of finite distances, takes its half size from the text, at the last key of the level.
    pub fn should_refine(&mut self, level: u32, bound: u32, distance: f32) {
        let key = if level <= model::DEEPEST { last_cell(level) } else { 1 };
        self.should_refine_key(key, level, bound, distance);
    }

    /// As above, for one key of the level.
    pub fn should_refine_key(&mut self, key: u64, level: u32, bound: u32, distance: f32) {
        let call = || format!("should_refine({level}, {bound}, {distance:e}), bits {:#x}", distance.to_bits());
        let ours = unsafe { mittenhelm_should_refine(level, bound, distance) };
        agree(&ours, &(model::should_refine(level, bound, distance) as u8), "the model", &call);
        if level <= model::DEEPEST && distance.is_finite() {
            let rule = |half_size| splits_in_f32(level, bound, distance, half_size) as u8;
            self.compare(Some(key), ours, || rule(integer::size(key)), || rule(published::size(key)), call);
        }
        self.said[0] += 1;
        self.some += ours as u64;
    }
}

fn agree<T: PartialEq + Debug>(ours: &T, theirs: &T, whose: &str, call: &impl Fn() -> String) {
    assert!(ours == theirs, "{}: ours is {ours:x?}, {whose} says {theirs:x?}", call());
}

/// The answer of a call that hands out one number.
fn key_answer(ask: impl Fn(&mut u64) -> u32, call: &impl Fn() -> String) -> Answer<u64> {
    let mut out = UNTOUCHED;
    match ask(&mut out) {
        0 => Ok(out),
        number => {
            assert_eq!(out, UNTOUCHED, "{} refused with {number}, and wrote", call());
            Err(number)
        }
    }
}

/// The answer of a call that hands out floats, as bits.
fn float_answer<const N: usize>(number: u32, out: [f32; N], before: [u32; N], call: &impl Fn() -> String) -> Answer<[u32; N]> {
    let bits = out.map(f32::to_bits);
    if number == 0 {
        return Ok(bits);
    }
    assert_eq!(bits, before, "{} refused with {number}, and wrote", call());
    Err(number)
}
