//! `mittenhelm slice`: the tree over a part, and what each slab of it holds.

use super::arguments::Arguments;
use super::build::{Built, Lent, MOST_NODES};
use super::csv;
use super::cut::{Cut, MOST_BOUND, MOST_EXPONENT, USUAL_BOUND, USUAL_EXPONENT};
use super::fault::Fault;
use super::lifetimes;
use super::memory;
use super::output::{print, save_by, shown};
use super::part::Part;
use super::progress::Progress;
use super::reading::Reading;
use super::report::{self, Picture};
use super::svg;
use std::ffi::OsString;
use std::path::Path;

pub fn run(words: &[OsString]) -> Result<(), Fault> {
    let arguments = Arguments::new(words, &["--bound", "--exponent", "--nodes", "--csv", "--svg", "--slab", "--lifetimes"])?;
    let word = arguments.only("part")?;
    let cut = cut(&arguments)?;
    let table = arguments.read("--csv", &csv::names(), csv::named)?;
    let picture = picture(&arguments, &cut)?;
    let bars = arguments.path("--lifetimes")?;
    let paths = [("--svg", picture.map(|(path, _)| path)), ("--lifetimes", bars)];
    if bars.is_some() && paths[0].1 == bars {
        return Err(Fault::arguments("--svg and --lifetimes name one file, which holds one picture"));
    }

    let mut progress = Progress::new();
    let part = Part::find(word, &mut progress)?;
    if let Some((option, _)) = paths.iter().find(|(_, path)| path.map_or(false, |path| part.is_in(path))) {
        return Err(Fault::arguments(format!("{option} names the part's own file")));
    }
    let mut lent = Lent::new(cut.nodes);
    let built = Built::new(|point| part.distance(point), cut.bound, lent.tables(), &mut progress)?;
    let reading = Reading::new(&built.tree(), cut.exponent, &mut progress)?;
    drop(progress);

    let mut pictures = Vec::new();
    if let Some((path, slab)) = picture {
        pictures.push(save(path, svg::draw(&part, &cut, &reading, slab)?, format!("slab {slab}"))?);
    }
    if let Some(path) = bars {
        pictures.push(save(path, lifetimes::draw(&part, &cut, &reading), "when each leaf is needed".to_string())?);
    }
    match table {
        Some(table) => print(&csv::write(table, &cut, &reading)?),
        None => print(&report::write(&part, &cut, &reading, &memory::tables(&built, &reading), &pictures)),
    }
}

fn save(path: &Path, drawn: String, shows: String) -> Result<Picture, Fault> {
    save_by(path, |out| out.write_all(drawn.as_bytes()))?;
    Ok(Picture { name: shown(path.as_os_str()), shows })
}

fn cut(arguments: &Arguments) -> Result<Cut, Fault> {
    Ok(Cut {
        bound: arguments.number("--bound", 0..=MOST_BOUND)?.unwrap_or(USUAL_BOUND),
        exponent: arguments.number("--exponent", 0..=MOST_EXPONENT)?.unwrap_or(USUAL_EXPONENT),
        nodes: arguments.number("--nodes", 1..=MOST_NODES)?.unwrap_or(MOST_NODES),
    })
}

/// Where a picture goes to, and of which slab: the middle one, or the upper of the two.
fn picture<'a>(arguments: &Arguments<'a>, cut: &Cut) -> Result<Option<(&'a Path, u32)>, Fault> {
    let slabs = 1 << cut.exponent;
    let slab = arguments.number("--slab", 0..=slabs - 1)?;
    match (arguments.path("--svg")?, slab) {
        (None, Some(_)) => Err(Fault::arguments("--slab chooses what --svg FILE shows, and that isn't given")),
        (path, slab) => Ok(path.map(|path| (path, slab.unwrap_or(slabs / 2)))),
    }
}
