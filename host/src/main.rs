//! The command that a person runs.

mod command;

use std::env;
use std::ffi::OsString;
use std::io::{self, Write};
use std::process::ExitCode;

fn main() -> ExitCode {
    let words: Vec<OsString> = env::args_os().skip(1).collect();
    match command::run(&words) {
        Ok(()) => ExitCode::SUCCESS,
        Err(fault) => {
            // Where nobody can read it, the status still tells.
            let _ = writeln!(io::stderr(), "mittenhelm: {fault}");
            ExitCode::from(fault.status())
        }
    }
}
