//! Prints, for each level, which cell keys the published `level` gets wrong.

use oracle_answers::inputs::first_cell;
use oracle_answers::{edges, integer, published};
use std::env;
use std::process::ExitCode;

const USAGE: &str = "usage: level-edges [--all L]
Prints which cell keys of each level the published `level` gets wrong.
Up to level L (1 to 10, else 7) every key is tried. Above, the edge is searched.";

fn main() -> ExitCode {
    let words: Vec<String> = env::args().skip(1).collect();
    let words: Vec<&str> = words.iter().map(String::as_str).collect();
    let whole = match words[..] {
        [] => Some(7),
        ["--help" | "-h"] => {
            println!("{USAGE}");
            return ExitCode::SUCCESS;
        }
        ["--all", level] => level.parse().ok().filter(|level| (1..=edges::GREATEST_TRIED_WHOLE).contains(level)),
        _ => None,
    };
    let whole = match whole {
        Some(level) => level,
        None => {
            eprintln!("{USAGE}");
            return ExitCode::from(2);
        }
    };
    if !published::FOUND {
        eprintln!(
            "level-edges: the published files were not found in {}; name their folder in MITTENHELM_RUST",
            published::FOLDER
        );
        return ExitCode::FAILURE;
    }

    println!("{:>5}  {:>10}  {:>19}  {:>19}  found by", "level", "wrong keys", "first wrong", "last wrong");
    for level in 1..=21 {
        let (wrong, how) = if level <= whole {
            (edges::wrong_by_all(level), "trying all keys")
        } else {
            (edges::wrong_by_edge(level), "search")
        };
        let first = first_cell(level);
        let recorded = edges::RECORDED[level as usize - 1];
        let note = if wrong == recorded { String::new() } else { format!(" (recorded: {recorded} wrong)") };
        println!("{level:>5}  {wrong:>10}  {first:>19}  {:>19}  {how}{note}", first + wrong - 1);
    }
    println!(
        "\nEach wrong key that was tried has one level too few, twice the half size and twice each coordinate of the centre:"
    );
    for level in [1, 2, 3, 21] {
        let key = first_cell(level);
        println!(
            "key {key}: level {}, half size {}, centre {:?}; by the integer rule {}, {}, {:?}",
            published::level(key),
            published::size(key),
            published::center(key),
            integer::level(key),
            integer::size(key),
            integer::center(key)
        );
    }
    ExitCode::SUCCESS
}
