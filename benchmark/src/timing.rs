//! How long something takes, side by side with what it is compared with.

use std::mem;
use std::ptr;
use std::time::{Duration, Instant};

/// Does something so many times, and says how long that took without what it had to prepare.
pub type Run<'a> = Box<dyn FnMut(usize) -> Duration + 'a>;

/// At least so many rounds, however long one takes.
const FEWEST_ROUNDS: usize = 5;

/// A batch of calls is long enough for the clock if at least so many of them fit into the least time.
const BATCHES: u32 = 50;

/// The value, in a way that hides from the compiler what it is: so it has to be computed. (`std::hint::black_box` is younger than the
/// compilers that this is for.)
pub fn keep<T>(value: T) -> T {
    // The copy takes the place of the value, which is forgotten.
    let copy = unsafe { ptr::read_volatile(&value) };
    mem::forget(value);
    copy
}

/// A run of work that needs no preparation.
pub fn run<'a, T>(mut work: impl FnMut() -> T + 'a) -> Run<'a> {
    Box::new(move |times| {
        let start = Instant::now();
        for _ in 0..times {
            keep(work());
        }
        start.elapsed()
    })
}

/// A run of work that uses up what is prepared for it.
pub fn run_prepared<'a, P: 'a, T>(mut prepare: impl FnMut() -> P + 'a, mut work: impl FnMut(P) -> T + 'a) -> Run<'a> {
    Box::new(move |times| {
        let mut prepared: Vec<P> = (0..times).map(|_| prepare()).collect();
        let start = Instant::now();
        for one in prepared.drain(..) {
            keep(work(one));
        }
        start.elapsed()
    })
}

/// The best time of one call of each run, in seconds. They take turns, a batch of calls each, until each has had the least time. The
/// best of the batches is taken, since what else a machine does only adds.
pub fn best(runs: &mut [Run], least: Duration) -> Vec<f64> {
    let batches: Vec<usize> = runs.iter_mut().map(|run| batch(run, least / BATCHES)).collect();
    let mut best = vec![f64::INFINITY; runs.len()];
    let mut taken = vec![Duration::from_secs(0); runs.len()];
    let mut round = 0;
    while round < FEWEST_ROUNDS || taken.iter().any(|&taken| taken < least) {
        for turn in 0..runs.len() {
            // Each is first as often as the others.
            let i = (round + turn) % runs.len();
            let took = runs[i](batches[i]);
            taken[i] += took;
            best[i] = best[i].min(took.as_secs_f64() / batches[i] as f64);
        }
        round += 1;
    }
    best
}

/// How many calls take at least so long.
fn batch(run: &mut Run, long: Duration) -> usize {
    let mut times = 1;
    while run(times) < long {
        times *= 2;
    }
    times
}
