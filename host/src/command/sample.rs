//! `mittenhelm sample`: writes a part as a grid file.

use super::arguments::Arguments;
use super::fault::Fault;
use super::grid::{self, size_of, Size, POINTS};
use super::output::{print_by, save_by};
use super::part::Part;
use super::progress::{is_terminal, Progress};
use std::ffi::OsString;
use std::io::{self, Write};

pub const USUAL_POINTS: u32 = 25;

pub fn run(words: &[OsString]) -> Result<(), Fault> {
    let arguments = Arguments::new(words, &["--points", "-o"])?;
    let word = arguments.only("part")?;
    let described = format!("N, or NX,NY,NZ, each from {} to {}", POINTS.start(), POINTS.end());
    let size = arguments.read("--points", &described, points)?.unwrap_or(Size([USUAL_POINTS; 3]));
    let path = arguments.path("-o")?;
    if path.is_none() && is_terminal(1) {
        return Err(Fault::arguments("a terminal shows no grid file: name one with -o FILE"));
    }
    let mut progress = Progress::new();
    let part = Part::find(word, &mut progress)?;
    let write = |out: &mut dyn Write| -> io::Result<()> { grid::write(out, size, |p| part.distance(p), &mut progress) };
    match path {
        Some(path) => save_by(path, write),
        None => print_by(write),
    }
}

fn points(word: &str) -> Option<Size> {
    let words: Vec<&str> = word.split(',').collect();
    match words[..] {
        [all] => size_of([all; 3]),
        [x, y, z] => size_of([x, y, z]),
        _ => None,
    }
}
