//! Where results go: standard output, or a file.

use super::fault::Fault;
use std::ffi::OsStr;
use std::fs::File;
use std::io::{self, BufWriter, Write};
use std::path::Path;

/// A name from the outside as one line of text can hold it.
pub fn shown(name: &OsStr) -> String {
    let fits = |c: char| !c.is_control() && !('\u{fffe}'..='\u{ffff}').contains(&c);
    name.to_string_lossy().chars().map(|c| if fits(c) { c } else { char::REPLACEMENT_CHARACTER }).collect()
}

pub fn print(text: &str) -> Result<(), Fault> {
    print_by(|out| out.write_all(text.as_bytes()))
}

/// A reader that went away early has what it wanted.
pub fn print_by(write: impl FnOnce(&mut dyn Write) -> io::Result<()>) -> Result<(), Fault> {
    match buffered(io::stdout().lock(), write) {
        Err(e) if e.kind() != io::ErrorKind::BrokenPipe => Err(Fault::output(format!("cannot print: {e}"))),
        _ => Ok(()),
    }
}

pub fn save_by(path: &Path, write: impl FnOnce(&mut dyn Write) -> io::Result<()>) -> Result<(), Fault> {
    let saved = File::create(path).and_then(|file| buffered(file, write));
    saved.map_err(|e| Fault::output(format!("cannot write {}: {e}", shown(path.as_os_str()))))
}

fn buffered(to: impl Write, write: impl FnOnce(&mut dyn Write) -> io::Result<()>) -> io::Result<()> {
    let mut to = BufWriter::new(to);
    write(&mut to)?;
    to.flush()
}
