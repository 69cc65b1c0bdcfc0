//! Ours against the published Rust: the same trees, in one run, native code on both sides. Nothing is timed before both were seen to
//! give the same answers.

pub mod answers;
pub mod machine;
pub mod measures;
pub mod ours;
pub mod report;
pub mod rivals;
pub mod text;
pub mod timing;
pub mod trees;
