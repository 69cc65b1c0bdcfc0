//! Prints the fixed sample. tools/sample puts it where the programs `replay` and `reread` read it.

use oracle_answers::{integer, sample};
use std::io::{self, Write};
use std::process::ExitCode;

fn main() -> ExitCode {
    if !integer::FOUND {
        eprintln!("sample: the published files were not found in {}; name their folder in MITTENHELM_RUST", integer::FOLDER);
        return ExitCode::FAILURE;
    }
    match io::stdout().write_all(sample::text().as_bytes()) {
        Ok(()) => ExitCode::SUCCESS,
        Err(e) => {
            eprintln!("sample: cannot print: {e}");
            ExitCode::FAILURE
        }
    }
}
