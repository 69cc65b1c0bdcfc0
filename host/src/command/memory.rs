//! What the tables of a build and of reading take, beside what a printer has.

use super::build::Built;
use super::reading::Reading;
use std::mem;

/// For everything: 256 KiB.
pub const PRINTER: usize = 256 * 1024;

/// What a printer's own data of a leaf may take.
pub const LEAF_DATA: usize = 32;

/// A lent table: how many places it has, how many were needed, and its bytes.
pub struct Table {
    pub name: &'static str,
    pub places: usize,
    pub needed: usize,
    pub bytes: usize,
}

impl Table {
    fn of<T>(name: &'static str, places: usize, needed: usize) -> Self {
        Table { name, places, needed, bytes: places * mem::size_of::<T>() }
    }
}

pub fn tables(built: &Built, reading: &Reading) -> Vec<Table> {
    let (lent, tree) = (&built.tables, built.tree());
    vec![
        Table::of::<u64>("node keys", lent.keys.len(), tree.keys.len()),
        Table::of::<f32>("node distances", lent.distances.len(), tree.distances.len()),
        Table::of::<u16>("first children", lent.firsts.len(), tree.firsts.len()),
        Table::of::<u64>("leaf keys", lent.leaves.len(), tree.leaves.len()),
        Table::of::<u64>("queue", lent.queue.len(), built.queued as usize),
        Table::of::<u64>("state", built.state.0.len(), built.state.0.len()),
        Table::of::<u64>("vertices", reading.list_places, reading.cells.len()),
        Table::of::<u8>("levels", reading.list_places, reading.cells.len()),
        Table::of::<u32>("first slabs", reading.leaves.len(), reading.leaves.len()),
        Table::of::<u32>("last slabs", reading.leaves.len(), reading.leaves.len()),
        Table::of::<u32>("needed by slab", reading.slabs.len(), reading.slabs.len()),
    ]
}
