//! The lines of the sample.

use crate::model::Answer;
use std::fmt::Write;

/// The text so far, line by line.
#[derive(Default)]
pub struct Sample {
    pub text: String,
}

/// Four numbers in a word, 16 bits each, the first in the lowest.
pub fn packed(numbers: [usize; 4]) -> u64 {
    numbers.iter().rev().fold(0, |word, &number| word << 16 | number as u64)
}

impl Sample {
    pub fn line(&mut self, call: u8, [a, b, c]: [u64; 3], answer: Answer<[u64; 3]>) {
        let (refusal, [x, y, z]) = match answer {
            Ok(results) => (0, results),
            Err(number) => (number, [0; 3]),
        };
        writeln!(self.text, "{call:02x} {a:016x} {b:016x} {c:016x} {refusal:02x} {x:016x} {y:016x} {z:016x}")
            .expect("a String takes all that is written");
    }

    /// A line with one result. The model's answer decides about a refusal, the text's about the result.
    pub fn checked(&mut self, call: u8, given: [u64; 3], model: Answer<u64>, text: impl Fn() -> u64) {
        let answer = model.map(|expected| {
            let said = text();
            assert_eq!(said, expected, "call {call:02x} of {given:x?}: the text and the model differ");
            [said, 0, 0]
        });
        self.line(call, given, answer);
    }
}
