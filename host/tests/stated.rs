//! What README.md and the header say is proved: each theorem that they name stands with its statement on the pages of
//! crates/theorems, which the prover checks, and so does the one answer of each call.

use std::collections::BTreeSet;
use std::fs;
use std::path::Path;

fn text_of(file: &str) -> String {
    let path = Path::new(env!("CARGO_MANIFEST_DIR")).join("..").join(file);
    fs::read_to_string(&path).unwrap_or_else(|e| panic!("{}: {e}", path.display()))
}

/// A section of a page, up to the next one.
fn section<'a>(page: &'a str, heading: &str) -> &'a str {
    let (_, after) = page.split_once(&format!("\n## {heading}\n")).unwrap_or_else(|| panic!("no section {heading:?}"));
    after.split("\n## ").next().unwrap_or(after)
}

/// Whether a word is written as theorems are: words of lowercase letters and digits, with underscores between them. No file, option or
/// constant is; a call or a parameter may be, which `of_hosts` tells.
fn is_theorem(word: &str) -> bool {
    let is_word = |part: &str| !part.is_empty() && part.chars().all(|c| c.is_ascii_lowercase() || c.is_ascii_digit());
    word.contains('_') && word.split('_').all(is_word)
}

/// The theorems that a text names, between backticks.
fn named(text: &str) -> BTreeSet<&str> {
    let parts: Vec<&str> = text.split('`').collect();
    assert!(parts.len() % 2 == 1, "a backtick has no other in {text}");
    parts.into_iter().skip(1).step_by(2).filter(|word| is_theorem(word)).collect()
}

/// The theorem whose statement a line of a page begins.
fn stated(line: &str) -> Option<&str> {
    line.trim_start().strip_prefix("pub ")?.split_once(" :").map(|(name, _)| name)
}

/// The calls that the header declares, without `mittenhelm_`.
fn calls(header: &str) -> BTreeSet<&str> {
    let declared = header.split("mittenhelm_").skip(1).filter_map(|text| text.split_once('(').map(|(name, _)| name));
    declared.filter(|name| name.chars().all(|c| c.is_ascii_lowercase() || c == '_')).collect()
}

/// The words that the header declares outside its comments: parameters, and calls without `mittenhelm_`.
fn of_hosts(header: &str) -> BTreeSet<&str> {
    let declarations = header.split("/*").map(|text| text.split_once("*/").map_or(text, |(_, code)| code));
    let words = declarations.flat_map(|code| code.split(|c: char| !c.is_ascii_alphanumeric() && c != '_'));
    words.map(|word| word.strip_prefix("mittenhelm_").unwrap_or(word)).collect()
}

#[test]
fn every_theorem_that_is_named_is_on_the_page() {
    let (readme, header) = (text_of("README.md"), text_of("include/mittenhelm.h"));
    let page = text_of("crates/theorems/specs/Theorems.antt");
    let stated: BTreeSet<&str> = page.lines().filter_map(stated).collect();
    let of_hosts = of_hosts(&header);
    let promised = named(section(&readme, "What is promised"));
    assert!(!promised.is_empty(), "README.md promises no theorem by its name");
    for (place, names) in
        [("README.md", promised), ("README.md", named(section(&readme, "Memory"))), ("the header", named(&header))]
    {
        let missing: Vec<_> = names.difference(&stated).filter(|&name| !of_hosts.contains(name)).collect();
        assert!(missing.is_empty(), "{place} names {missing:?}, which the page doesn't state");
    }
}

#[test]
fn every_call_has_its_one_answer_on_the_page() {
    let (page, header) = (text_of("crates/theorems/specs/Settled.antt"), text_of("include/mittenhelm.h"));
    let stated: BTreeSet<&str> = page.lines().filter_map(stated).collect();
    let calls = calls(&header);
    assert!(calls.contains("level") && calls.contains("cells_trusting"), "the header's calls were read as {calls:?}");
    for call in calls {
        let name = format!("mittenhelm_{call}_one");
        assert!(stated.contains(&*name), "the page doesn't state {name}");
    }
}

/// The law or the definition that a line declares.
fn law_or_definition(line: &str) -> Option<&str> {
    let line = line.trim_start();
    stated(line.strip_prefix("abbrev ").or_else(|| line.strip_prefix("unfoldable ")).unwrap_or(line))
}

/// The names that the files of proofs and definitions below a folder declare.
fn declared(folder: &Path, names: &mut BTreeSet<String>) {
    for entry in fs::read_dir(folder).unwrap_or_else(|e| panic!("{}: {e}", folder.display())) {
        let path = entry.expect("an entry of a folder").path();
        if path.is_dir() {
            // What checks left there may be older.
            if !path.ends_with("out") {
                declared(&path, names);
            }
        } else if path.extension().map_or(false, |ending| ending == "antt") {
            let text = fs::read_to_string(&path).expect("a text");
            names.extend(text.lines().filter_map(law_or_definition).map(String::from));
        }
    }
}

/// The words of the kit that docs/TRUST.md names, which no crate here declares.
const OF_THE_KIT: [&str; 2] = ["of_bits", "to_bits"];

/// What docs/TRUST.md counts on must be there: nothing else cites most of it.
#[test]
fn every_law_that_is_trusted_to_notice_is_declared() {
    let mut names = BTreeSet::new();
    declared(&Path::new(env!("CARGO_MANIFEST_DIR")).join("../crates"), &mut names);
    let (trust, header) = (text_of("docs/TRUST.md"), text_of("include/mittenhelm.h"));
    let (trusted, of_hosts) = (named(&trust), of_hosts(&header));
    assert!(trusted.contains("read_back"), "docs/TRUST.md was read as {trusted:?}");
    let is_known = |name: &str| names.contains(name) || of_hosts.contains(name) || OF_THE_KIT.contains(&name);
    let missing: Vec<_> = trusted.into_iter().filter(|&name| !is_known(name)).collect();
    assert!(missing.is_empty(), "docs/TRUST.md names {missing:?}, which nothing declares");
}

#[test]
fn what_is_taken_for_a_theorem() {
    let text =
        "`list_same` of `crates/x_y`, `tools/memory --check`, `--check`, `level-edges` and `cells_2_right`; `Not_one`, `x_`";
    assert_eq!(named(text), BTreeSet::from(["cells_2_right", "list_same"]));
    assert_eq!(stated("  pub list_same : (t : Tree) → Sound t"), Some("list_same"));
    assert_eq!(stated("pub starred : agree table ≡ true"), Some("starred"));
    assert_eq!((stated("starred = refl"), stated("  -- pub list_same :"), stated("abbrev pub cell_at : ℕ")), (None, None, None));
    assert_eq!(law_or_definition("  pub list_same : (t : Tree) → Sound t"), Some("list_same"));
    assert_eq!(law_or_definition("abbrev pub cell_at : ℕ → ℕ → ℕ"), Some("cell_at"));
    assert_eq!(law_or_definition("unfoldable pub state_of : List ℕ → State"), Some("state_of"));
    assert_eq!((law_or_definition("-- abbrev pub cell_at :"), law_or_definition("abbrev cell_at : ℕ")), (None, None));
    assert_eq!(
        of_hosts("/* `list_same` */ uint32_t mittenhelm_look_up(uint64_t first_key /* [8], `x_y` */);"),
        BTreeSet::from(["", "look_up", "first_key", "uint32_t", "uint64_t"])
    );
    assert_eq!(
        calls("uint32_t mittenhelm_level(uint64_t key);\nenum mittenhelm_state { MITTENHELM_X = 0 }; f(1)"),
        BTreeSet::from(["level"])
    );
    assert_eq!(section("# A\n\n## B\n\nb\n\n## C\n\nc\n", "B"), "\nb\n");
}
