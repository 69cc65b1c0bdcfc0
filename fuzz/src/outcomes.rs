//! What a call can answer, and a count of what it answered.

use oracle_answers::model::Answer;
use std::collections::BTreeMap;

/// What a call answered: the way in which it accepted, or the number of its refusal.
pub type Outcome = Answer<&'static str>;

/// The way of a call that accepts in one way only.
pub const ACCEPTED: &str = "accepted";

/// The ways of a call that accepts in one way only.
pub const ONE_WAY: &[&str] = &[ACCEPTED];

/// The ways of a call that answers by yes or no.
pub const YES_OR_NO: &[&str] = &["yes", "no"];

/// The way of a call that answers by yes or no.
pub fn yes_or_no(yes: bool) -> &'static str {
    YES_OR_NO[!yes as usize]
}

/// What a call can answer.
pub struct Answers {
    /// The call as the header has it, without `mittenhelm_`.
    pub name: &'static str,
    /// The ways in which it accepts.
    pub accepts: &'static [&'static str],
    /// The refusals that it can give, in their order.
    pub refuses: &'static [u32],
}

impl Answers {
    pub fn all(&self) -> impl Iterator<Item = Outcome> {
        self.accepts.iter().map(|&way| Ok(way)).chain(self.refuses.iter().map(|&number| Err(number)))
    }
}

/// For one call, in how many cases it was fed, and how often each outcome was seen.
pub struct Tally {
    pub call: &'static Answers,
    pub cases: u64,
    seen: BTreeMap<Outcome, u64>,
}

impl Tally {
    pub fn new(call: &'static Answers) -> Self {
        Tally { call, cases: 0, seen: BTreeMap::new() }
    }

    pub fn count(&mut self, outcome: Outcome) {
        *self.seen.entry(outcome).or_default() += 1;
    }

    pub fn calls(&self) -> u64 {
        self.seen.values().sum()
    }

    pub fn of(&self, outcome: Outcome) -> u64 {
        self.seen.get(&outcome).copied().unwrap_or(0)
    }
}
