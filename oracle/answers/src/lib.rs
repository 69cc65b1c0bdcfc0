//! What the oracle answers to each call: both builds of the published text, and a plain model of document 01 for what the
//! text has no counterpart to (refusals, states and lent tables, whether a number is a cell key or an inner vertex) or that it has no
//! function of its own for (the split rule). And what the tests and the fuzz ask with: inputs, trees, forged states, lent memory.

pub use oracle_integer as integer;
pub use oracle_published as published;

pub mod broken;
pub mod edges;
pub mod fields;
pub mod forged;
pub mod inputs;
pub mod lent;
pub mod misled;
pub mod model;
pub mod questions;
pub mod sample;
pub mod trees;

use std::env;
use std::io::{self, Write};
use std::sync::Once;

/// The split rule by f32 operations, as the published text has it, with a half size that the text computed. Ours is another of distances
/// that aren't finite.
pub fn splits_in_f32(level: u32, bound: u32, distance: f32, half_size: f32) -> bool {
    const SQRT_OF_3: f32 = 14529495.0 / 8388608.0;
    level < 2 || (level < bound && distance.abs() <= half_size * SQRT_OF_3)
}

/// Whether to compare with the published text. Where it was not found that is an error, unless the environment says to go on
/// without it.
pub fn compares_with_text() -> bool {
    if published::FOUND && integer::FOUND {
        return true;
    }
    let missing = format!("the published files were not found in {}", published::FOLDER);
    if env::var("MITTENHELM_SKIP_ORACLE").as_deref() != Ok("1") {
        panic!("{missing}: name their folder in MITTENHELM_RUST, or set MITTENHELM_SKIP_ORACLE=1 to go on without them");
    }
    static ONCE: Once = Once::new();
    ONCE.call_once(|| say(&format!("{missing}: the comparison with the Rust was SKIPPED")));
    false
}

/// Prints past the test harness, which keeps back what a passing test prints.
pub fn say(line: &str) {
    // Where nobody can read it, there is nothing better to do.
    let _ = writeln!(io::stderr(), "{line}");
}
