//! The subcommands, and what they stand on.

mod arguments;
mod build;
mod csv;
mod cut;
mod fault;
mod fields;
mod grid;
mod help;
mod key;
mod lifetimes;
mod memory;
mod output;
mod part;
mod progress;
mod reading;
mod report;
mod sample;
mod slice;
mod svg;

use fault::Fault;
use std::ffi::OsString;

pub fn run(words: &[OsString]) -> Result<(), Fault> {
    if words.iter().any(|word| word == "--help" || word == "-h") {
        return output::print(&help::page());
    }
    let (first, rest) = words.split_first().ok_or_else(|| Fault::arguments("no command given"))?;
    match first.to_str() {
        Some("help") => output::print(&help::page()),
        Some("key") => key::run(rest),
        Some("sample") => sample::run(rest),
        Some("slice") => slice::run(rest),
        _ => Err(Fault::arguments(format!("no such command: {:?}", output::shown(first)))),
    }
}
