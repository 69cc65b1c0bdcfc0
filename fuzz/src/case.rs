//! One case: the random numbers that it goes by, the places that its calls answer to, and the verdict on each of them.

use crate::outcomes::{Outcome, Tally};
use oracle_answers::inputs::Random;
use oracle_answers::lent::{Fenced, Place};
use std::fmt::{Debug, LowerHex};

/// Where ours and the model differ: the call with its arguments, and in what.
pub struct Difference(pub String);

pub type Checked = Result<(), Difference>;

pub struct Case<'a> {
    pub random: Random,
    /// One for each call that may be judged.
    tallies: &'a mut [Tally],
}

impl<'a> Case<'a> {
    pub fn new(seed: u64, number: u64, tallies: &'a mut [Tally]) -> Self {
        Case { random: Random::of(seed, number), tallies }
    }

    /// Judges a call by the number that it returned and by what differs in what it handed out and was lent; counts its outcome.
    pub fn judge(
        &mut self,
        name: &'static str,
        number: u32,
        expected: Outcome,
        differences: &[Option<String>],
        arguments: impl Fn() -> String,
    ) -> Checked {
        let refusal = expected.err().unwrap_or(0);
        let difference = same(&number, &refusal, "returned number");
        if let Some(difference) = difference.iter().chain(differences.iter().flatten()).next() {
            return Err(Difference(format!("{name}({}): {difference}", arguments())));
        }
        let tally = self.tallies.iter_mut().find(|tally| tally.call.name == name).expect("a call of the table");
        if !tally.call.all().any(|outcome| outcome == expected) {
            return Err(Difference(format!("{name}({}): {expected:?} isn't among what it can answer", arguments())));
        }
        tally.count(expected);
        Ok(())
    }
}

/// What differs between two answers.
pub fn same<T: PartialEq + Debug>(ours: &T, model: &T, what: &str) -> Option<String> {
    Some(format!("the {what} is {ours:x?}, the model says {model:x?}")).filter(|_| ours != model)
}

/// What a place for an answer holds before a call.
pub trait Untouched: Place {
    const UNTOUCHED: Self;
}

impl Untouched for u64 {
    const UNTOUCHED: Self = 0xdead_beef_0bad_cafe;
}

impl Untouched for u32 {
    const UNTOUCHED: Self = 0xc2f6_e979;
}

/// A fenced out parameter of so many places. A float is its bits here.
pub struct Out<T, const N: usize = 1> {
    memory: Fenced<T>,
}

impl<T: Untouched, const N: usize> Out<T, N> {
    pub fn new() -> Self {
        Out { memory: Fenced::new(&[T::UNTOUCHED; N]) }
    }

    pub fn all(&mut self) -> &mut [T; N] {
        self.memory.lend().try_into().expect("as many places as it was made with")
    }

    /// The place of a parameter that is one number.
    pub fn place(&mut self) -> &mut T {
        &mut self.memory.lend()[0]
    }

    /// What differs: where the model hands nothing out, it has to be untouched.
    pub fn difference(&self, expected: Option<[T; N]>, what: &str) -> Option<String> {
        self.memory.difference(&expected.unwrap_or([T::UNTOUCHED; N]), what)
    }

    /// What it holds is replaced, so that what isn't settled compares equal.
    pub fn settle(&mut self, by: impl Fn(T) -> T) {
        self.memory.lend().iter_mut().for_each(|place| *place = by(*place));
    }
}

impl<const N: usize> Out<u32, N> {
    pub fn floats(&mut self) -> &mut [f32; N] {
        // Both have the same size and alignment, and every pattern is an f32.
        unsafe { &mut *(self.all() as *mut [u32; N]).cast() }
    }

    pub fn float(&mut self) -> &mut f32 {
        &mut self.floats()[0]
    }
}

/// A table for a message: its length and its first places.
pub fn told<T: LowerHex>(table: &[T]) -> String {
    const MOST: usize = 80;
    let places: Vec<String> = table.iter().take(MOST).map(|place| format!("{place:#x}")).collect();
    let more = if table.len() > MOST { " .." } else { "" };
    format!("{} places [{}{more}]", table.len(), places.join(" "))
}
