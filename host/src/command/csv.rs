//! A slice as a table for programs: a row of names, then a row for each slab, leaf, vertex or dual cell.

use super::cut::Cut;
use super::fault::Fault;
use super::reading::{Cell, Leaf, Reading, Slab};
use mittenhelm::Refusal;
use std::fmt::Display;

#[derive(Clone, Copy)]
pub struct Table {
    pub name: &'static str,
    /// What a row is for.
    pub about: &'static str,
    /// The names of its columns, where `key0..7` stands for eight.
    pub columns: &'static str,
    rows: fn(&Cut, &Reading) -> Result<Vec<String>, Refusal>,
}

/// A vertex is written in hexadecimal, since a spreadsheet would round so great a number.
pub const TABLES: [Table; 4] = [
    Table {
        name: "slabs",
        about: "each slab, with the number of cells that reach it, 0 too",
        columns: "slab,low,high,cells,crossed,needed",
        rows: slabs,
    },
    Table {
        name: "leaves",
        about: "each leaf, with its centre and the slabs at which it is needed",
        columns: "key,level,x,y,z,half,distance,first,last,place",
        rows: leaves,
    },
    Table {
        name: "vertices",
        about: "each vertex, with the slabs that its cell reaches",
        columns: "vertex,level,x,y,z,first,last",
        rows: vertices,
    },
    Table {
        name: "cells",
        about: "each dual cell, with its eight nodes, in the order told below",
        columns: "vertex,level,first,last,crossed,tried,key0..7,distance0..7,place0..7",
        rows: cells,
    },
];

pub fn names() -> String {
    let names: Vec<&str> = TABLES.iter().map(|table| table.name).collect();
    format!("one of {}", names.join(", "))
}

pub fn named(name: &str) -> Option<Table> {
    TABLES.iter().copied().find(|table| table.name == name)
}

pub fn write(table: Table, cut: &Cut, reading: &Reading) -> Result<String, Fault> {
    let names: Vec<String> = table.columns.split(',').map(spelt_out).collect();
    let mut page = names.join(",") + "\n";
    for row in (table.rows)(cut, reading)? {
        page.push_str(&row);
        page.push('\n');
    }
    Ok(page)
}

fn spelt_out(column: &str) -> String {
    match column.strip_suffix("0..7") {
        Some(name) => joined(&[0, 1, 2, 3, 4, 5, 6, 7].map(|which| format!("{name}{which}"))),
        None => column.to_string(),
    }
}

fn slabs(cut: &Cut, reading: &Reading) -> Result<Vec<String>, Refusal> {
    let row = |(slab, Slab { count, needed }): (usize, &Slab)| {
        let (low, high) = (cut.height(slab as f64), cut.height(slab as f64 + 1.0));
        format!("{slab},{low},{high},{},{},{needed}", count.cells, count.crossed)
    };
    Ok(reading.slabs.iter().enumerate().map(row).collect())
}

fn leaves(_: &Cut, reading: &Reading) -> Result<Vec<String>, Refusal> {
    let row = |leaf: &Leaf| {
        let Leaf { key, centre, half, distance, place, first, last } = leaf;
        format!("{key},{},{},{half},{distance},{first},{last},{place}", mittenhelm::level(*key), joined(centre))
    };
    Ok(reading.leaves.iter().map(row).collect())
}

fn vertices(_: &Cut, reading: &Reading) -> Result<Vec<String>, Refusal> {
    let row = |cell: &Cell| {
        let Cell { vertex, level, slabs, .. } = cell;
        Ok(format!("{vertex:#x},{level},{},{},{}", joined(&cell.point()?), slabs.start(), slabs.end()))
    };
    reading.cells.iter().map(row).collect()
}

fn cells(_: &Cut, reading: &Reading) -> Result<Vec<String>, Refusal> {
    let row = |cell: &Cell| {
        let Cell { vertex, level, slabs, dual } = cell;
        let (first, last) = (slabs.start(), slabs.end());
        let (crossed, tried) = (u8::from(cell.is_crossed()), dual.tried);
        let nodes = [joined(&dual.keys), joined(&dual.distances), joined(&dual.places)];
        format!("{vertex:#x},{level},{first},{last},{crossed},{tried},{}", joined(&nodes))
    };
    Ok(reading.cells.iter().map(row).collect())
}

fn joined<T: Display>(items: &[T]) -> String {
    let words: Vec<String> = items.iter().map(T::to_string).collect();
    words.join(",")
}
