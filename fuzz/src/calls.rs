//! The calls of include/mittenhelm.h, each with what it can answer and how it is fed. A new one is one more entry.

use crate::case::{Case, Checked};
use crate::outcomes::{Answers, ONE_WAY, YES_OR_NO};
use crate::{builds, keys, reading};

pub struct Call {
    pub answers: Answers,
    /// Makes a case of it.
    pub feed: fn(&mut Case) -> Checked,
}

/// A call by its name, with its ways, its refusals and what feeds it.
macro_rules! call {
    ($name:literal, $accepts:expr, $refuses:expr, $feed:path) => {
        Call { answers: Answers { name: $name, accepts: $accepts, refuses: &$refuses }, feed: $feed }
    };
}

pub const CALLS: &[Call] = &[
    call!("level", ONE_WAY, [], keys::level),
    call!("is_cell", YES_OR_NO, [], keys::is_cell),
    call!("parent", ONE_WAY, [], keys::parent),
    call!("add", ONE_WAY, [], keys::add),
    call!("sub", ONE_WAY, [], keys::sub),
    call!("child", ONE_WAY, [1, 2, 3], keys::child),
    call!("half_size", ONE_WAY, [1], keys::half_size),
    call!("centre", ONE_WAY, [1], keys::centre),
    call!("vertex", &["a vertex", "none"], [1, 2, 3], keys::vertex),
    call!("is_inner", YES_OR_NO, [], keys::is_inner),
    call!("side", ONE_WAY, [2, 4], keys::side),
    call!("should_refine", YES_OR_NO, [], keys::should_refine),
    call!("start", ONE_WAY, [5, 10], builds::start),
    call!("distance", &["split", "leaf", "finished"], [10, 9, 16, 6, 7, 8], builds::distance),
    call!("sound", YES_OR_NO, [], reading::sound),
    call!("look_up", &["found", "nothing"], [11, 1], reading::look_up),
    call!("list", &["vertices", "none"], [11, 12], reading::list),
    call!("dual_cell", ONE_WAY, [11, 4], reading::dual_cell),
    call!("slabs", &["one slab", "several"], [11, 4, 5], reading::slabs),
    call!("lifetimes", &["leaves", "none needed"], [11, 5, 17], reading::lifetimes),
    call!("look_up_trusting", &["found", "nothing"], [1], reading::look_up_trusting),
    call!("list_trusting", &["vertices", "none"], [12], reading::list_trusting),
    call!("cells_trusting", &["vertices", "none"], [], reading::cells_trusting),
    call!("dual_cell_trusting", ONE_WAY, [4], reading::dual_cell_trusting),
    call!("slabs_trusting", &["one slab", "several"], [4, 5], reading::slabs_trusting),
    call!("lifetimes_trusting", &["leaves", "none needed"], [5, 17], reading::lifetimes_trusting),
];
