//! The picture of when leaves are needed: well-formed, with a bar for each leaf in its order, a column for each slab's number, and marks
//! where the greatest is.

use crate::pictures::{elements, Element};
use crate::run::{file, grid, one_line, printed, saved, slice, table};
use std::collections::BTreeSet;
use std::fs;

/// A leaf as the table has it: first slab, key, last slab and level.
type Row = (u32, u64, u32, u32);

/// A part of the picture by its frame: where it begins across and down, its width and its height.
fn frame(elements: &[Element], id: &str) -> [f64; 4] {
    let frame = elements.iter().find(|e| e.attributes.get("id").map(String::as_str) == Some(id)).expect("a frame");
    ["x", "y", "width", "height"].map(|name| frame.number(name))
}

fn group<'a>(elements: &'a [Element], name: &'a str, id: &'a str) -> Vec<&'a Element> {
    elements.iter().filter(|e| e.name == name && e.group == id).collect()
}

fn is_near(a: f64, b: f64) -> bool {
    (a - b).abs() < 1e-6
}

/// Whether an element reaches exactly from one slab to another, of so many in a frame; what would be narrower than two units has two.
fn spans(element: &Element, [left, _, width, _]: [f64; 4], slabs: usize, first: usize, last: usize) -> bool {
    let at = |slab: usize| left + width * slab as f64 / slabs as f64;
    let wide = (at(last + 1) - at(first)).max(2.0);
    is_near(element.number("width"), wide) && is_near(element.number("x"), at(first).min(left + width - wide))
}

/// Each leaf's bar in its row, ordered by first slab, then key, and in the colour of its level; the names of few leaves.
fn check_bars(elements: &[Element], rows: &[Row], slabs: usize) {
    let [left, top, width, height] = frame(elements, "bars-frame");
    let (bars, row) = (group(elements, "rect", "bars"), height / rows.len() as f64);
    assert_eq!(bars.len(), rows.len());
    let mut colours = BTreeSet::new();
    for (i, (bar, &(first, key, last, level))) in bars.iter().zip(rows).enumerate() {
        assert!(spans(bar, [left, top, width, height], slabs, first as usize, last as usize), "{key}: {:?}", bar.attributes);
        let middle = bar.number("y") + bar.number("height") / 2.0;
        assert!(is_near(middle, top + row * (i as f64 + 0.5)) && bar.number("height") <= row, "{key}: {:?}", bar.attributes);
        colours.insert((level, bar.attributes["fill"].clone()));
    }
    let levels: BTreeSet<u32> = rows.iter().map(|row| row.3).collect();
    let fills: BTreeSet<&String> = colours.iter().map(|(_, fill)| fill).collect();
    assert_eq!([colours.len(), fills.len()], [levels.len(); 2], "a level has one colour of its own");
    for (_, fill) in &colours {
        let is_key = |e: &&Element| e.attributes.get("class").map(String::as_str) == Some("key") && e.attributes["fill"] == *fill;
        assert!(elements.iter().any(|e| is_key(&e)), "no key for {fill}");
    }
    let names = group(elements, "text", "leaf-names").len();
    assert_eq!(names, if rows.len() <= 72 { rows.len() } else { 0 });
    assert!(rows.len() <= 72 || (2..12).contains(&group(elements, "text", "leaf-ticks").len()));
}

/// Columns that leave no slab out, as high as their numbers, and those with the greatest number marked in both parts.
fn check_counts(elements: &[Element], needed: &[u32]) {
    let frame_of = |id| frame(elements, id);
    let [left, top, width, height] = frame_of("counts-frame");
    let greatest = *needed.iter().max().expect("a slab");
    let columns = group(elements, "rect", "counts");
    // As high as it is for one leaf: the first column with some tells.
    let unit = columns.iter().map(|e| e.number("height")).fold(0.0, f64::max) / f64::from(greatest);
    let (mut slab, mut fullest) = (0, Vec::new());
    for column in &columns {
        let same = needed[slab..].iter().take_while(|&&number| number == needed[slab]).count();
        assert!(spans(column, [left, top, width, height], needed.len(), slab, slab + same - 1), "{:?}", column.attributes);
        assert!(is_near(column.number("height"), unit * f64::from(needed[slab])), "{:?}", column.attributes);
        assert!(is_near(column.number("y") + column.number("height"), top + height) && column.number("y") >= top);
        fullest.extend(Some((slab, slab + same - 1)).filter(|_| needed[slab] == greatest));
        slab += same;
    }
    assert_eq!(slab, needed.len());
    let bands = group(elements, "rect", "greatest");
    assert_eq!(bands.len(), 2 * fullest.len());
    for (two, &(first, last)) in bands.chunks(2).zip(&fullest) {
        for (band, id) in two.iter().zip(["counts-frame", "bars-frame"]) {
            let [_, top, _, height] = frame_of(id);
            assert!(spans(band, frame_of(id), needed.len(), first, last), "{:?}", band.attributes);
            assert!(is_near(band.number("y") + band.number("height"), top + height), "{:?}", band.attributes);
        }
    }
    assert_eq!(group(elements, "path", "marks").len(), fullest.len());
    let line = elements.iter().find(|e| e.attributes.get("id").map(String::as_str) == Some("most")).expect("a line");
    assert!(
        is_near(line.number("y1"), top + height - unit * f64::from(greatest)) && is_near(line.number("y2"), line.number("y1"))
    );
}

/// Draws a part, and hands on its leaves and the document.
fn check(name: &str, part: &str, bound: u32, exponent: u32) -> (Vec<Row>, String) {
    let path = file(&format!("{name}.svg"));
    let (svg, bound, power) = (path.to_str().expect("plain text"), bound.to_string(), exponent.to_string());
    let options = ["--bound", &bound, "--exponent", &power];
    let report = printed(&slice(part, &[&options, &["--lifetimes", svg][..]].concat()));
    assert!(report.contains(&format!("\npicture   {svg}: when each leaf is needed\n")), "{report}");

    let number = |field: &String| field.parse::<u64>().expect("a whole number");
    let leaf = |row: Vec<String>| (number(&row[7]) as u32, number(&row[0]), number(&row[8]) as u32, number(&row[1]) as u32);
    let mut rows: Vec<Row> = table(part, &options, "leaves").into_iter().map(leaf).collect();
    rows.sort_unstable();
    let needed: Vec<u32> = table(part, &options, "slabs").iter().map(|row| number(&row[5]) as u32).collect();
    let document = fs::read_to_string(&path).expect("a picture");
    let elements = elements(&document);
    check_bars(&elements, &rows, needed.len());
    check_counts(&elements, &needed);
    // Slabs are named below both parts, at most sixteen of them, and the first always.
    let named = group(&elements, "text", "slab-names").len();
    assert_eq!(named, 2 * needed.len().min(16));
    let words = format!("at most {} are needed, at ", needed.iter().max().expect("a slab"));
    assert!(
        document.contains(&words) && document.contains(&format!("slabs {}, leaves {}", needed.len(), rows.len())),
        "{document}"
    );
    (rows, document)
}

#[test]
fn of_few_leaves_and_of_many() {
    for exponent in [0, 3, 6, 15] {
        assert_eq!(check("few", "sphere", 2, exponent).0.len(), 64);
        assert!(check("many", "gyroid", 4, exponent).0.len() > 2000);
    }
}

/// Leaves of every level down to 15, the finest of which a thin slab needs: no bar gets lost, nor goes beyond the slabs.
#[test]
fn of_a_deep_tree() {
    let field = |[x, y, z]: [u32; 3]| 0.4 * ((x as f32 / 4.0 - 0.25).abs() + y as f32 + z as f32);
    let path = saved("deep-lifetimes.grid", &grid([5, 2, 2], field));
    let (rows, _) = check("deep-lifetimes", &path, 15, 15);
    assert_eq!(rows.iter().map(|row| row.3).max(), Some(15));
    let field = |[x, y, z]: [u32; 3]| 0.4 * ((x as f32 / 4.0 - 0.25).abs() + (1 - y) as f32 + (1 - z) as f32);
    let path = saved("deep-above.grid", &grid([5, 2, 2], field));
    let (rows, _) = check("deep-above", &path, 15, 15);
    assert!(rows.iter().any(|row| row.2 > 32_760));
}

/// A name that needs escapes.
#[test]
fn of_an_odd_name() {
    let path = saved("a <b> & \"c\" 2.grid", &grid([2, 2, 2], |_| 0.0));
    let (_, document) = check("odd-name", &path, 3, 2);
    assert!(document.contains("a &lt;b&gt; &amp; \"c\" 2.grid: when each leaf is needed"), "{document}");
}

/// Both pictures and a table come of one run, and are the same as alone.
#[test]
fn beside_others() {
    let [alone, beside, slab] = ["alone-lifetimes.svg", "beside-lifetimes.svg", "beside-slab.svg"].map(file);
    let [one, two, three] = [&alone, &beside, &slab].map(|path| path.to_str().expect("plain text"));
    printed(&["slice", "box", "--lifetimes", one]);
    let report = printed(&["slice", "box", "--lifetimes", two, "--svg", three]);
    assert!(report.contains(&format!("\npicture   {three}: slab 8\npicture   {two}: when each leaf is needed\n")), "{report}");
    assert!(fs::read(&alone).expect("a picture") == fs::read(&beside).expect("a picture") && slab.exists());
    let text = printed(&["slice", "box", "--csv", "leaves", "--lifetimes", two]);
    assert_eq!(text, printed(&["slice", "box", "--csv", "leaves"]));
    one_line(1, &["slice", "box", "--csv", "leaves", "--lifetimes", "/dev/full"]);
    let said = one_line(2, &["slice", "box", "--svg", two, "--lifetimes", two]);
    assert!(said.contains("--svg and --lifetimes name one file"), "{said}");
}

/// No picture replaces the part, by whatever way it is named.
#[test]
fn in_place_of_the_part() {
    let bytes = grid([2, 2, 2], |_| 1.0);
    let part = saved("own.grid", &bytes);
    let link = file("own-link.svg");
    let _ = fs::remove_file(&link);
    std::os::unix::fs::symlink(&part, &link).expect("a link");
    for option in ["--svg", "--lifetimes"] {
        for path in [&part, link.to_str().expect("plain text")] {
            let said = one_line(2, &["slice", &part, option, path]);
            assert!(said.starts_with(&format!("mittenhelm: {option} names the part's own file ")), "{said}");
        }
    }
    // `rt ci` takes no link in the repository.
    fs::remove_file(&link).expect("the link");
    assert_eq!(fs::read(&part).expect("the part"), bytes);
}

/// The picture that README shows is the one that the command draws.
#[test]
fn as_the_readme_shows_it() {
    let drawn = file("readme-lifetimes.svg");
    printed(&["slice", "sphere", "--bound", "3", "--exponent", "5", "--lifetimes", drawn.to_str().expect("plain text")]);
    let shown = concat!(env!("CARGO_MANIFEST_DIR"), "/../docs/lifetimes.svg");
    assert!(fs::read(drawn).expect("a picture") == fs::read(shown).expect("README's picture"), "draw docs/lifetimes.svg anew");
}
