//! Runs the benchmark and prints its report: `benchmark [--write [FILE]]`.

use benchmark::measures::Row;
use benchmark::report::{below_goal, growing_faster, long_lifetimes, report, with_kept_end};
use benchmark::trees::cases;
use std::env;
use std::fs;
use std::process::ExitCode;
use std::time::{Duration, Instant};

/// Each side of each measure is given so long at least.
const LEAST: Duration = Duration::from_millis(50);

/// Where the report is kept, seen from the repository's folder.
const PAGE: &str = "docs/BENCHMARK.md";

const USAGE: &str = "usage: tools/benchmark [--write [FILE]]";

fn main() -> ExitCode {
    let words: Vec<String> = env::args().skip(1).collect();
    let words: Vec<&str> = words.iter().map(String::as_str).collect();
    let done = match words[..] {
        [] => measured().map(|report| print!("{report}")),
        ["--write"] => write(PAGE),
        ["--write", file] => write(file),
        _ => Err(USAGE.to_string()),
    };
    match done {
        Ok(()) => ExitCode::SUCCESS,
        Err(fault) => {
            eprintln!("benchmark: {fault}");
            ExitCode::FAILURE
        }
    }
}

fn write(file: &str) -> Result<(), String> {
    let report = measured()?;
    print!("{report}");
    let earlier = fs::read_to_string(file).unwrap_or_default();
    fs::write(file, with_kept_end(&report, &earlier)).map_err(|e| format!("{file}: {e}"))
}

fn measured() -> Result<String, String> {
    if !oracle_answers::published::FOUND {
        return Err(format!("the published files were not found in {}", oracle_answers::published::FOLDER));
    }
    let cases = cases();
    let mut rows = Vec::new();
    for (done, case) in cases.iter().enumerate() {
        let start = Instant::now();
        rows.push(Row::measured(case, LEAST)?);
        let taken = start.elapsed().as_secs_f64();
        eprintln!("{} of {}: {} of {} nodes, in {taken:.1} s", done + 1, cases.len(), case.field, case.nodes());
    }
    for measure in below_goal(&rows) {
        eprintln!("below the goal: {}", measure.name());
    }
    for measure in growing_faster(&rows) {
        eprintln!("growing faster than the goal: {}", measure.name());
    }
    for exponent in long_lifetimes(&rows) {
        eprintln!("above the goal: lifetimes of exponent {exponent}");
    }
    Ok(report(&rows))
}
