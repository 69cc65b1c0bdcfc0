//! The part that a word names: a built-in one, or a grid file.

use super::fault::Fault;
use super::fields::{named, BuiltIn, Point, BUILT_INS};
use super::grid::Grid;
use super::output::shown;
use super::progress::Progress;
use std::ffi::OsStr;
use std::fs;
use std::os::unix::fs::MetadataExt;
use std::path::{Path, PathBuf};

pub struct Part {
    pub name: String,
    kind: Kind,
}

enum Kind {
    BuiltIn(&'static BuiltIn),
    Sampled(Grid, PathBuf),
}

impl Part {
    pub fn find(word: &OsStr, progress: &mut Progress) -> Result<Self, Fault> {
        let kind = match word.to_str().and_then(named) {
            Some(part) => Kind::BuiltIn(part),
            None if is_plain_name(word) => return Err(unknown(word)),
            None => Kind::Sampled(Grid::read(Path::new(word), progress)?, PathBuf::from(word)),
        };
        Ok(Part { name: shown(word), kind })
    }

    pub fn distance(&self, point: Point) -> f32 {
        match &self.kind {
            Kind::BuiltIn(part) => (part.distance)(point),
            Kind::Sampled(grid, _) => grid.distance(point),
        }
    }

    /// Whether a path leads to the file that it was read from, which no result should replace.
    pub fn is_in(&self, path: &Path) -> bool {
        let file = |path: &Path| fs::metadata(path).ok().filter(|found| found.is_file()).map(|found| (found.dev(), found.ino()));
        match &self.kind {
            Kind::BuiltIn(_) => false,
            Kind::Sampled(_, own) => file(own).is_some() && file(own) == file(path),
        }
    }

    pub fn about(&self) -> String {
        match &self.kind {
            Kind::BuiltIn(part) => part.about.to_string(),
            Kind::Sampled(grid, _) => format!("{} samples", grid.size),
        }
    }
}

/// A word that names no file, and looks like none.
fn is_plain_name(word: &OsStr) -> bool {
    let path = Path::new(word);
    path.components().count() < 2 && path.extension().is_none() && !path.exists()
}

fn unknown(word: &OsStr) -> Fault {
    let names: Vec<&str> = BUILT_INS.iter().map(|part| part.name).collect();
    Fault::arguments(format!("no part {:?}: there is no such file, and the built-in parts are {}", shown(word), names.join(", ")))
}
