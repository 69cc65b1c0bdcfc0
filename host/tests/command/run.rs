//! Runs of the command, and what it printed.

use std::ffi::OsStr;
use std::fs;
use std::path::PathBuf;
use std::process::{Command, Output};

pub fn command() -> Command {
    Command::new(env!("CARGO_BIN_EXE_mittenhelm"))
}

pub fn run(words: &[impl AsRef<OsStr>]) -> Output {
    command().args(words).output().expect("a command that runs")
}

/// What a run without fault prints.
pub fn printed_bytes(words: &[impl AsRef<OsStr>]) -> Vec<u8> {
    let output = run(words);
    assert!(output.status.success() && output.stderr.is_empty(), "{}: {output:?}", told(words));
    output.stdout
}

pub fn printed(words: &[impl AsRef<OsStr>]) -> String {
    String::from_utf8(printed_bytes(words)).expect("plain text")
}

/// What a run with a fault says: it has this status, and prints nothing.
pub fn fault(status: i32, words: &[impl AsRef<OsStr>]) -> String {
    let output = run(words);
    let said = String::from_utf8(output.stderr).expect("plain text");
    assert_eq!(output.status.code(), Some(status), "{}: {said}", told(words));
    assert!(output.stdout.is_empty(), "{}: {said}", told(words));
    assert!(said.starts_with("mittenhelm: "), "{}: {said}", told(words));
    said
}

/// The same of a fault that is told in one line.
pub fn one_line(status: i32, words: &[impl AsRef<OsStr>]) -> String {
    let said = fault(status, words);
    assert!(said.ends_with('\n') && said.lines().count() == 1, "{}: {said}", told(words));
    said
}

pub fn told(words: &[impl AsRef<OsStr>]) -> String {
    let words: Vec<&OsStr> = words.iter().map(AsRef::as_ref).collect();
    format!("{words:?}")
}

/// The words of a `slice`.
pub fn slice<'a>(part: &'a str, options: &[&'a str]) -> Vec<&'a str> {
    [&["slice", part], options].concat()
}

/// The rows of a table of a `slice` below that with the columns' names, each as its fields.
pub fn table(part: &str, options: &[&str], name: &str) -> Vec<Vec<String>> {
    let text = printed(&slice(part, &[options, &["--csv", name]].concat()));
    let mut rows = text.lines().map(|line| line.split(',').map(str::to_string).collect::<Vec<String>>());
    let columns = rows.next().expect("a row with the columns' names").len();
    rows.inspect(|row| assert_eq!(row.len(), columns, "{row:?}")).collect()
}

/// The fields of a row from one column on, as numbers: their decimals are those of an f32.
pub fn numbers(row: &[String], from: usize) -> Vec<f64> {
    row[from..].iter().map(|field| field.parse::<f32>().expect("a number").into()).collect()
}

/// The file of a test, which no other has.
pub fn file(name: &str) -> PathBuf {
    PathBuf::from(env!("CARGO_TARGET_TMPDIR")).join(name)
}

pub fn saved(name: &str, bytes: &[u8]) -> String {
    let path = file(name);
    fs::write(&path, bytes).expect("a file that can be written");
    path.to_str().expect("plain text").to_string()
}

/// A grid file, by a value for each place.
pub fn grid([x, y, z]: [u32; 3], value: impl Fn([u32; 3]) -> f32) -> Vec<u8> {
    let mut bytes = format!("mittenhelm-grid {x} {y} {z}\n").into_bytes();
    for k in 0..z {
        for j in 0..y {
            (0..x).for_each(|i| bytes.extend(value([i, j, k]).to_le_bytes()));
        }
    }
    bytes
}
