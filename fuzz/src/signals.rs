//! What ends a run from outside: a crash in a call names its case, and an interrupt ends the run after the case that is going on.

use std::sync::atomic::{AtomicBool, AtomicU64, Ordering};

static SEED: AtomicU64 = AtomicU64::new(0);
static CASE: AtomicU64 = AtomicU64::new(0);
static INTERRUPTED: AtomicBool = AtomicBool::new(false);

/// Linux's numbers of SIGILL, SIGTRAP, SIGABRT, SIGBUS, SIGFPE and SIGSEGV; of SIGINT and SIGTERM.
const CRASHES: [i32; 6] = [4, 5, 6, 7, 8, 11];
const INTERRUPTS: [i32; 2] = [2, 15];

extern "C" {
    fn signal(number: i32, handler: extern "C" fn(i32)) -> usize;
    fn _exit(status: i32) -> !;
}

/// Names the case on a line of its own. What crashed is a call of the library, so nobody else is printing.
fn give_up(what: &str, number: i32) -> ! {
    let (seed, case) = (SEED.load(Ordering::Relaxed), CASE.load(Ordering::Relaxed));
    eprintln!("mittenhelm-fuzz: --seed {seed} --case {case}: {what} (signal {number})");
    unsafe { _exit(1) }
}

extern "C" fn crashed(number: i32) {
    give_up("a call crashed", number);
}

/// The first one lets the case end; where a call doesn't return, the second one tells its case.
extern "C" fn interrupted(number: i32) {
    if INTERRUPTED.swap(true, Ordering::Relaxed) {
        give_up("interrupted in this case", number);
    }
}

pub fn install(seed: u64) {
    SEED.store(seed, Ordering::Relaxed);
    for number in CRASHES {
        unsafe { signal(number, crashed) };
    }
    for number in INTERRUPTS {
        unsafe { signal(number, interrupted) };
    }
}

pub fn begin(case: u64) {
    CASE.store(case, Ordering::Relaxed);
}

pub fn was_interrupted() -> bool {
    INTERRUPTED.load(Ordering::Relaxed)
}
