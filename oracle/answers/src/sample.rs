//! The fixed sample: some thousands of questions with the integer build's answers, which two Rattle programs replay, so that no
//! Rust is needed to test: `replay` the keys and builds, `reread` the reading of a tree, whose lines come last. Where the text
//! has no answer, the model has it; where both have one, they must agree.
//!
//! A line is `OP A B C ST X Y Z`: call, three parameters, refusal (00: accepted) and three results, in hexadecimal. What a call
//! doesn't use is 0, and so are the results of a refusal. Floats are bit patterns. No result is a NaN, whose patterns a program couldn't
//! tell apart.

mod builds;
mod keys;
mod lines;
mod reading;

use lines::Sample;

/// The whole file.
pub fn text() -> String {
    let mut sample = Sample::default();
    sample.keys();
    sample.builds();
    sample.reading();
    sample.text
}
