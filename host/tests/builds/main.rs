//! Start and distance of the boundary against the published text, both builds of it, and against the model of document 01.

#[macro_use]
#[path = "../kinds/mod.rs"]
mod kinds;

mod calls;
mod conditions;
mod examples;
mod fields;
mod forged;
mod rooms;
