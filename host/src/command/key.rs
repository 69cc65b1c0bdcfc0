//! `mittenhelm key`: what Mittenhelm says of one number as an octree key.

use super::fault::Fault;
use super::output::{print, shown};
use mittenhelm::Refusal;
use std::ffi::OsString;
use std::fmt::{self, Display, Write};

pub fn run(words: &[OsString]) -> Result<(), Fault> {
    let word = match words {
        [word] => word,
        _ => return Err(Fault::arguments("key takes one number")),
    };
    let number = word.to_str().and_then(parse);
    let key = number.ok_or_else(|| Fault::arguments(format!("{:?} is no number of 64 bits", shown(word))))?;
    let mut page = String::new();
    describe(&mut page, key).map_err(Fault::output)?;
    print(&page)
}

fn parse(word: &str) -> Option<u64> {
    let (digits, base) = match word.strip_prefix("0x").or_else(|| word.strip_prefix("0X")) {
        Some(digits) => (digits, 16),
        None => (word, 10),
    };
    // `from_str_radix` would take a sign too.
    if digits.starts_with('+') {
        return None;
    }
    u64::from_str_radix(digits, base).ok()
}

fn describe(page: &mut String, key: u64) -> fmt::Result {
    let level = mittenhelm::level(key);
    let children = all_eight(|which| mittenhelm::child(key, which));
    let centre = mittenhelm::centre(key).map(|c| listed(&c));
    writeln!(page, "key        {key} ({key:#x})")?;
    writeln!(page, "level      {level}")?;
    writeln!(page, "cell key   {}", if mittenhelm::is_cell(key) { "yes" } else { "no" })?;
    writeln!(page, "parent     {}", mittenhelm::parent(key))?;
    writeln!(page, "children   {}", in_words(children.map(|c| listed(&c))))?;
    writeln!(page, "half size  {}", in_words(mittenhelm::half_size(key)))?;
    writeln!(page, "centre     {}", in_words(centre))?;
    match all_eight(|corner| mittenhelm::vertex(key, level, corner)) {
        Err(refusal) => writeln!(page, "vertices   {refusal}"),
        Ok(vertices) => {
            writeln!(page, "\ncorner  vertex              cells on its sides 0 to 7")?;
            vertices.iter().enumerate().try_for_each(|(corner, &vertex)| {
                if vertex == 0 {
                    return writeln!(page, "{corner}       none");
                }
                let sides = all_eight(|which| mittenhelm::side(vertex, level, which));
                writeln!(page, "{corner}       {vertex:#x}  {}", in_words(sides.map(|s| listed(&s))))
            })
        }
    }
}

/// The answers for 0 to 7, or the first refusal.
fn all_eight(call: impl Fn(u32) -> Result<u64, Refusal>) -> Result<Vec<u64>, Refusal> {
    (0..8).map(call).collect()
}

fn listed<T: Display>(items: &[T]) -> String {
    let words: Vec<String> = items.iter().map(T::to_string).collect();
    words.join(" ")
}

fn in_words<T: Display>(answer: Result<T, Refusal>) -> String {
    match answer {
        Ok(value) => value.to_string(),
        Err(refusal) => refusal.to_string(),
    }
}
