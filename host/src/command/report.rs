//! The report of a slice for a person to read.

use super::build::LEAST_BOUND;
use super::cut::Cut;
use super::memory::{Table, LEAF_DATA, PRINTER};
use super::part::Part;
use super::reading::{Count, Reading, Slab};
use std::fmt::{self, Write};

/// The longest bar of a slab.
const BAR: usize = 40;

/// A picture that was saved, and what it shows.
pub struct Picture {
    pub name: String,
    pub shows: String,
}

pub fn write(part: &Part, cut: &Cut, reading: &Reading, tables: &[Table], pictures: &[Picture]) -> String {
    let mut page = String::new();
    let written = head(&mut page, part, cut, pictures)
        .and_then(|()| tree(&mut page, reading))
        .and_then(|()| memory(&mut page, tables))
        .and_then(|()| lifetimes(&mut page, reading))
        .and_then(|()| slabs(&mut page, cut, &reading.slabs));
    written.expect("a string takes all that is written");
    page
}

fn head(page: &mut String, part: &Part, cut: &Cut, pictures: &[Picture]) -> fmt::Result {
    writeln!(page, "part      {}: {}", part.name, part.about())?;
    writeln!(page, "bound     {}: the smallest cells are 1/{} wide", cut.bound, 1 << cut.bound.max(LEAST_BOUND))?;
    writeln!(page, "slabs     {}: each is 1/{} high", cut.slabs(), cut.slabs())?;
    pictures.iter().try_for_each(|Picture { name, shows }| writeln!(page, "picture   {name}: {shows}"))
}

fn tree(page: &mut String, reading: &Reading) -> fmt::Result {
    let Count { cells, crossed } = reading.together();
    writeln!(page, "\nnodes     {}", reading.nodes)?;
    writeln!(page, "leaves    {}", reading.leaves.len())?;
    writeln!(page, "vertices  {}", reading.cells.len())?;
    writeln!(page, "cells     {cells}, of which the surface crosses {crossed}")
}

fn memory(page: &mut String, tables: &[Table]) -> fmt::Result {
    writeln!(page, "\n{:<15} {:>6}  {:>6}  {:>6}", "memory", "places", "needed", "bytes")?;
    for Table { name, places, needed, bytes } in tables {
        writeln!(page, "{name:<15} {places:>6}  {needed:>6}  {bytes:>6}")?;
    }
    let bytes: usize = tables.iter().map(|table| table.bytes).sum();
    let percent = (100 * bytes + PRINTER / 2) / PRINTER;
    writeln!(page, "{:<15} {:>6}  {:>6}  {bytes:>6} of {PRINTER} (256 KiB), {percent} %", "together", "", "")
}

/// How many leaves are needed at most, and what it saves to have the data of no others.
fn lifetimes(page: &mut String, reading: &Reading) -> fmt::Result {
    let (all, most) = (reading.leaves.len(), reading.greatest as usize);
    writeln!(page, "\nat most {most} leaves are needed at a slab: {}", fullest(reading))?;
    writeln!(page, "{:<15} {:>6}  {:>6}", format!("{LEAF_DATA} bytes a leaf"), "leaves", "bytes")?;
    writeln!(page, "{:<15} {all:>6}  {:>6}", "all at once", LEAF_DATA * all)?;
    let percent = (100 * most + all / 2) / all;
    writeln!(page, "{:<15} {most:>6}  {:>6}, {percent} %", "only the needed", LEAF_DATA * most)
}

/// At which slabs the most leaves are needed: the first of them, and how many there are.
pub fn fullest(reading: &Reading) -> String {
    match reading.fullest()[..] {
        [first] => format!("at slab {first}"),
        [first, .., _] => format!("at {} slabs, the first being {first}", reading.fullest().len()),
        [] => unreachable!("the greatest number is that of some slab"),
    }
}

/// A cell is in the line of each slab that it reaches, and a leaf in that of each slab at which it is needed. So nearly every slab has some,
/// but slabs much finer than the cells have as many as the next one: those that follow one another with the same numbers are one line.
fn slabs(page: &mut String, cut: &Cut, slabs: &[Slab]) -> fmt::Result {
    writeln!(page, "\na cell counts in each slab that it reaches, from its lowest node centre to its highest")?;
    writeln!(page, "a leaf is needed in each slab that a cell reaches which has it")?;
    writeln!(page, "{:<14} {:>7} {:>9} {:>7} {:>6}  {:>7}", "slab", "z from", "to", "needed", "cells", "crossed")?;
    let most = slabs.iter().map(|slab| slab.count.cells).max().unwrap_or(0);
    let mut first = 0;
    while first < slabs.len() {
        let same = slabs[first..].iter().take_while(|&&slab| slab == slabs[first]).count();
        let last = first + same - 1;
        line(page, cut, first, last, slabs[first], most)?;
        first = last + 1;
    }
    Ok(())
}

fn line(page: &mut String, cut: &Cut, first: usize, last: usize, slab: Slab, most: usize) -> fmt::Result {
    let name = if first == last { first.to_string() } else { format!("{first} to {last}") };
    let (low, high) = (cut.height(first as f64), cut.height(last as f64 + 1.0));
    let Slab { count: Count { cells, crossed }, needed } = slab;
    let (decimals, bar) = (cut.exponent.min(5) as usize, (BAR * cells / most.max(1)).max(cells.min(1)));
    let numbers = format!("{low:>7.decimals$} {high:>9.decimals$} {needed:>7} {cells:>6}  {crossed:>7}");
    writeln!(page, "{}", format!("{name:<14} {numbers}  {}", "#".repeat(bar)).trim_end())
}
