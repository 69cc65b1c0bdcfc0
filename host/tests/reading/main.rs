//! The calls that read a finished tree, against the published text, both builds of it, and against the model of document 01; and
//! the program `counts`.

#[macro_use]
#[path = "../kinds/mod.rs"]
mod kinds;

mod calls;
mod cells;
mod counts;
mod examples;
mod lifetimes;
mod lists;
mod lookups;
mod places;
mod slabs;
mod soundness;
mod text;
mod trusting;
