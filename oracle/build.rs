//! Puts the published files where lib.rs includes them: unchanged for `oracle-published`; for `oracle-integer` with only the
//! body of `level` replaced, and so for `oracle-integer-timed`, by a quicker one. `oracle-published-timed` has the text unchanged too.

use std::env;
use std::fs;
use std::path::{Path, PathBuf};

/// Each published file that is compiled, and its name for `include!`.
const FILES: [(&str, &str); 3] = [
    ("src--src--morton.rs.txt", "morton.rs"),
    ("src--src--linear_hashed_octree.rs.txt", "linear_hashed_octree.rs"),
    ("src--src--linear_hashed_marching_cubes.rs.txt", "linear_hashed_marching_cubes.rs"),
];

const LEVEL: &str = "pub fn level(&self) -> usize {";

/// The largest L with 8^L at most the number, 0 for 0: as many as there are such L from 1 on.
const INTEGER_BODY: &str = "
        (1..22).filter(|l| 1u64 << (3 * l) <= self.0).count()
    }";

/// The same number by the quickest way, so that what replaces the body isn't what makes the text slow. It has no loop: a compiler can't
/// drop an unused call of what might never end.
const QUICK_BODY: &str = "
        (63 - (self.0 | 1).leading_zeros() as usize) / 3
    }";

fn main() {
    println!("cargo:rustc-check-cfg=cfg(published_text, timed)");
    println!("cargo:rerun-if-env-changed=MITTENHELM_RUST");
    println!("cargo:rerun-if-changed=../build.rs");
    let package = variable("CARGO_PKG_NAME");
    if package.ends_with("-timed") {
        println!("cargo:rustc-cfg=timed");
    }
    let from = published_folder();
    let to = PathBuf::from(variable("OUT_DIR"));

    let mut found = true;
    for &(published, included) in &FILES {
        let path = from.join(published);
        // A file that isn't there counts as changed, so it is looked for again at each build.
        println!("cargo:rerun-if-changed={}", path.display());
        if !path.is_file() {
            found = false;
            continue;
        }
        let text = fs::read_to_string(&path).unwrap_or_else(|e| panic!("{}: {}", path.display(), e));
        let text = match (package.as_str(), included) {
            ("oracle-integer", "morton.rs") => with_level(&text, INTEGER_BODY),
            ("oracle-integer-timed", "morton.rs") => with_level(&text, QUICK_BODY),
            _ => text,
        };
        fs::write(to.join(included), text).expect("OUT_DIR can be written");
    }
    if found {
        println!("cargo:rustc-cfg=published_text");
    }
    println!("cargo:rustc-env=PUBLISHED_FOLDER={}", from.display());
}

fn variable(name: &str) -> String {
    env::var(name).unwrap_or_else(|e| panic!("{}: {}", name, e))
}

/// The folder that MITTENHELM_RUST names, else shared/docs beside the repository.
fn published_folder() -> PathBuf {
    match env::var_os("MITTENHELM_RUST") {
        Some(folder) if !folder.is_empty() => PathBuf::from(folder),
        _ => {
            let package = variable("CARGO_MANIFEST_DIR");
            let repository = Path::new(&package).ancestors().nth(2).expect("oracle/ stands in the repository");
            repository.with_file_name("shared").join("docs")
        }
    }
}

fn with_level(text: &str, body: &str) -> String {
    assert_eq!(text.matches(LEVEL).count(), 1, "the published text has one function `level`");
    let start = text.find(LEVEL).unwrap() + LEVEL.len();
    let end = start + body_length(&text[start..]);
    let changed = [&text[..start], body, &text[end..]].concat();
    // Whoever puts the published body back has the published text, byte for byte.
    assert_eq!(changed.matches(body).count(), 1);
    assert_eq!(changed.replace(body, &text[start..end]), text);
    changed
}

/// The length of a body up to and with its closing brace; the opening one is already passed.
fn body_length(text: &str) -> usize {
    let mut depth = 1;
    for (at, byte) in text.bytes().enumerate() {
        match byte {
            b'{' => depth += 1,
            b'}' => depth -= 1,
            _ => {}
        }
        if depth == 0 {
            return at + 1;
        }
    }
    panic!("the body of `level` has no end");
}
