//! A line on a terminal that says how far a long run has come, in place, and that is gone in the end.

use std::fmt::Display;
use std::io::{self, Write};
use std::time::{Duration, Instant};

/// What is done sooner than this says nothing.
const PATIENCE: Duration = Duration::from_millis(500);
const BETWEEN: Duration = Duration::from_millis(100);
/// Back to the first column, and all behind it erased.
const ERASE: &str = "\r\x1b[K";

pub struct Progress {
    next: Instant,
    on_terminal: bool,
    shown: bool,
}

impl Progress {
    pub fn new() -> Self {
        Progress { next: Instant::now() + PATIENCE, on_terminal: is_terminal(2), shown: false }
    }

    /// Shows the words, if it is time to.
    pub fn say<T: Display>(&mut self, words: impl FnOnce() -> T) {
        if !self.on_terminal || Instant::now() < self.next {
            return;
        }
        self.shown = true;
        put(&format!("{ERASE}{}", words()));
        self.next = Instant::now() + BETWEEN;
    }

    pub fn say_part(&mut self, doing: &str, done: usize, of: usize) {
        self.say(|| format!("{doing}: {} of {of}, {} %", done, done as u64 * 100 / of.max(1) as u64));
    }
}

impl Drop for Progress {
    fn drop(&mut self) {
        if self.shown {
            put(ERASE);
        }
    }
}

fn put(text: &str) {
    // Where the terminal is gone, nobody waits for the line.
    let mut terminal = io::stderr();
    let _ = terminal.write_all(text.as_bytes()).and_then(|()| terminal.flush());
}

/// Whether the standard stream of this number (1 output, 2 errors) is a terminal.
pub fn is_terminal(stream: i32) -> bool {
    extern "C" {
        fn isatty(descriptor: i32) -> i32;
    }
    // SAFETY: it takes every number, and reads no memory of ours.
    unsafe { isatty(stream) == 1 }
}
