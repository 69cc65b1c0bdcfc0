//! The command as a person runs it.

mod arguments;
#[path = "../../src/command/fields.rs"]
mod fields;
mod grids;
mod key;
mod lifetimes;
mod parts;
mod pictures;
mod refusals;
mod run;
mod slices;
