//! Feeds every call of include/mittenhelm.h with states, tables, keys, floats and lengths of all kinds, and compares every answer
//! and every place of lent memory with the model of document 01.

mod builds;
mod calls;
mod case;
mod inputs;
mod keys;
mod outcomes;
mod reading;
mod signals;

use calls::CALLS;
use case::{Case, Difference};
use outcomes::{Outcome, Tally};
use std::env;
use std::fmt::Write;
use std::io::{self, Write as _};
use std::panic::{self, AssertUnwindSafe};
use std::process::ExitCode;
use std::time::{Duration, Instant, SystemTime};

const USAGE: &str = "usage: mittenhelm-fuzz [--seed S] [--cases N | --seconds N | --case K] [--complete]
Compares the library with a model of its rules, case after case, until they differ or it is interrupted.
--seed S      the same seed gives the same cases; else one is taken from the clock
--cases N     ends after N cases
--seconds N   ends after N seconds
--case K      runs case number K alone
--complete    fails unless each call accepted in each of its ways and gave each of its refusals
Exit status: 0 no difference, 1 a difference, or not complete, 2 bad usage.";

struct Options {
    seed: u64,
    first: u64,
    cases: usize,
    time: Option<Duration>,
    complete: bool,
}

/// A seed that no earlier run had.
fn from_clock() -> u64 {
    SystemTime::now().duration_since(SystemTime::UNIX_EPOCH).map_or(0, |since| since.as_nanos() as u64)
}

fn parse(words: impl Iterator<Item = String>) -> Option<Options> {
    let mut options = Options { seed: from_clock(), first: 0, cases: usize::MAX, time: None, complete: false };
    let (mut words, mut bounds) = (words, 0);
    while let Some(word) = words.next() {
        if word == "--complete" {
            options.complete = true;
            continue;
        }
        let number: u64 = words.next()?.parse().ok()?;
        match word.as_str() {
            "--seed" => options.seed = number,
            "--cases" => options.cases = usize::try_from(number).ok()?,
            "--seconds" => options.time = Some(Duration::from_secs(number)),
            "--case" => (options.first, options.cases) = (number, 1),
            _ => return None,
        }
        bounds += (word != "--seed") as u32;
    }
    Some(options).filter(|_| bounds <= 1)
}

fn main() -> ExitCode {
    let words: Vec<String> = env::args_os().skip(1).map(|word| word.to_string_lossy().into_owned()).collect();
    if words == ["--help"] {
        println!("{USAGE}");
        return ExitCode::SUCCESS;
    }
    let options = match parse(words.into_iter()) {
        Some(options) => options,
        None => {
            eprintln!("{USAGE}");
            return ExitCode::from(2);
        }
    };
    signals::install(options.seed);
    let mut tallies: Vec<Tally> = CALLS.iter().map(|call| Tally::new(&call.answers)).collect();
    let differs = run(&options, &mut tallies);
    // A reader that went away early has what it wanted.
    let _ = io::stdout().write_all(summary(&options, &tallies).as_bytes());
    let idle = if options.complete { idle(&tallies) } else { Vec::new() };
    for line in differs.iter().chain(&idle) {
        eprintln!("mittenhelm-fuzz: {line}");
    }
    if differs.is_some() || !idle.is_empty() {
        return ExitCode::FAILURE;
    }
    ExitCode::SUCCESS
}

/// Runs case after case, up to the first difference, which is told in a line that reproduces it.
fn run(options: &Options, tallies: &mut [Tally]) -> Option<String> {
    let begun = Instant::now();
    for number in (options.first..=u64::MAX).take(options.cases) {
        if signals::was_interrupted() || matches!(options.time, Some(time) if begun.elapsed() >= time) {
            break;
        }
        if let Err(Difference(difference)) = run_case(options.seed, number, tallies) {
            return Some(format!("--seed {} --case {number}: {difference}", options.seed));
        }
    }
    None
}

fn run_case(seed: u64, number: u64, tallies: &mut [Tally]) -> Result<(), Difference> {
    signals::begin(number);
    let place = (number % CALLS.len() as u64) as usize;
    tallies[place].cases += 1;
    let mut case = Case::new(seed, number, tallies);
    let feed = AssertUnwindSafe(|| (CALLS[place].feed)(&mut case));
    panic::catch_unwind(feed).unwrap_or_else(|_| Err(Difference(format!("a panic in a case of {}", CALLS[place].answers.name))))
}

fn told(outcome: Outcome) -> String {
    outcome.map_or_else(|number| format!("refused {number}"), str::to_string)
}

fn summary(options: &Options, tallies: &[Tally]) -> String {
    let cases: u64 = tallies.iter().map(|tally| tally.cases).sum();
    let mut text = format!("seed {}, {cases} cases\n{:<18} {:>10} {:>12}  answers\n", options.seed, "call", "cases", "calls");
    for tally in tallies {
        let answers: Vec<String> = tally.call.all().map(|outcome| format!("{} {}", told(outcome), tally.of(outcome))).collect();
        writeln!(text, "{:<18} {:>10} {:>12}  {}", tally.call.name, tally.cases, tally.calls(), answers.join(", "))
            .expect("a String takes all that is written");
    }
    text
}

/// A line for each outcome that was never seen.
fn idle(tallies: &[Tally]) -> Vec<String> {
    let never = |tally: &Tally| {
        let unseen = tally.call.all().filter(|&outcome| tally.of(outcome) == 0);
        unseen.map(|outcome| format!("{}: never {}", tally.call.name, told(outcome))).collect::<Vec<_>>()
    };
    tallies.iter().flat_map(never).collect()
}
