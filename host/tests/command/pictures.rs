//! The picture of a slab: well-formed, with exactly the leaves that the plane cuts, the vertices of the cells that reach the slab, and
//! marks on the leaves of those cells.

use crate::fields::BUILT_INS;
use crate::run::{file, grid, numbers, one_line, printed, saved, slice, table};
use std::collections::{BTreeMap, BTreeSet};
use std::fs;

/// An element without those inside it: its name, the id of the group around it, and its attributes.
pub struct Element {
    pub name: String,
    pub group: String,
    pub attributes: BTreeMap<String, String>,
}

impl Element {
    pub fn number(&self, attribute: &str) -> f64 {
        self.attributes[attribute].parse().unwrap_or_else(|_| panic!("{attribute}: {:?}", self.attributes))
    }
}

/// The elements of a document, which must be well-formed: every tag is closed in its turn, every value quoted, all text escaped.
pub fn elements(document: &str) -> Vec<Element> {
    let mut rest = document.strip_prefix("<?xml version=\"1.0\" encoding=\"UTF-8\"?>\n").expect("a declaration");
    let (mut open, mut elements): (Vec<(String, String)>, Vec<Element>) = (Vec::new(), Vec::new());
    while let Some(at) = rest.find('<') {
        assert_text(&rest[..at]);
        let end = at + rest[at..].find('>').expect("the end of a tag");
        let tag = &rest[at + 1..end];
        rest = &rest[end + 1..];
        if let Some(name) = tag.strip_prefix('/') {
            assert_eq!(open.pop().expect("an open tag").0, name);
            assert!(!open.is_empty() || rest == "\n", "{rest}");
            continue;
        }
        let (inner, is_closed) = tag.strip_suffix('/').map_or((tag, false), |inner| (inner, true));
        let (name, attributes) = inner.split_once(' ').unwrap_or((inner, ""));
        let (name, attributes) = (name.to_string(), attributes_of(attributes));
        let group = open.last().map_or(String::new(), |(_, id)| id.clone());
        if !is_closed {
            open.push((name.clone(), attributes.get("id").cloned().unwrap_or_default()));
        }
        elements.push(Element { name, group, attributes });
    }
    assert!(open.is_empty());
    elements
}

fn attributes_of(mut rest: &str) -> BTreeMap<String, String> {
    let mut attributes = BTreeMap::new();
    while !rest.is_empty() {
        let (name, behind) = rest.split_once("=\"").unwrap_or_else(|| panic!("no attribute: {rest}"));
        let (value, behind) = behind.split_once('"').expect("the end of a value");
        assert_text(value);
        let before = attributes.insert(name.trim_start().to_string(), value.to_string());
        assert!(before.is_none(), "{name} twice");
        rest = behind;
    }
    attributes
}

fn assert_text(text: &str) {
    let escapes = ["&amp;", "&lt;", "&gt;"];
    assert!(text.match_indices('&').all(|(at, _)| escapes.iter().any(|escape| text[at..].starts_with(escape))), "{text}");
    assert!(!text.contains('>') && text.chars().all(|c| c == '\n' || !c.is_control()), "{text:?}");
}

/// A square of the cube: x, y and side, in units of the finest grid that any bound has, and the sign of its leaf.
type Square = (u32, u32, u32, &'static str);
const FINEST: f64 = 32768.0;

fn on_grid(value: f64) -> u32 {
    assert_eq!((value * FINEST).fract(), 0.0, "{value}");
    (value * FINEST) as u32
}

/// What is marked or has a dot: a square without its sign, and a place with whether a cell there is crossed.
type Outline = (u32, u32, u32);
type Dot = (u32, u32, bool);

/// What a picture shows.
struct Shown {
    squares: Vec<Square>,
    /// Strong outlines, and dashed ones.
    cut: Vec<Outline>,
    uncut: Vec<Outline>,
    dots: BTreeSet<Dot>,
}

/// The squares of a picture, its outlines and its dots, measured by its frame.
fn shown(elements: &[Element]) -> Shown {
    let frame = elements.iter().find(|e| e.attributes.get("id").map(String::as_str) == Some("frame")).expect("a frame");
    let [left, top, side] = ["x", "y", "width"].map(|name| frame.number(name));
    assert_eq!(frame.number("height"), side);
    let (across, up) = (|x: f64| on_grid((x - left) / side), |y: f64| on_grid(1.0 - (y - top) / side));
    // So many widths of its line a rectangle is drawn inside the square that it stands for.
    let outline = |e: &Element, inside: f64| {
        let inside = if inside > 0.0 { inside * e.number("stroke-width") } else { 0.0 };
        let width = e.number("width") + 2.0 * inside;
        assert_eq!(e.number("height"), e.number("width"));
        // The low side in y is the far one in the picture.
        (across(e.number("x") - inside), up(e.number("y") - inside + width), on_grid(width / side))
    };
    let rectangles = |group: &'static str| elements.iter().filter(move |e| e.name == "rect" && e.group == group);
    let squares = |sign| rectangles(sign).map(move |e| (outline(e, 0.0), sign)).map(|((x, y, side), sign)| (x, y, side, sign));
    assert!(rectangles("cut").all(|e| !e.attributes.contains_key("stroke-dasharray")));
    assert!(rectangles("uncut").all(|e| e.attributes.contains_key("stroke-dasharray")));
    let dot = |e: &Element| (across(e.number("cx")), up(e.number("cy")), e.group == "crossed");
    let dots = elements.iter().filter(|e| e.name == "circle" && ["crossed", "uncrossed"].contains(&e.group.as_str())).map(dot);
    Shown {
        squares: SIGNS.into_iter().flat_map(squares).collect(),
        cut: rectangles("cut").map(|e| outline(e, 0.5)).collect(),
        uncut: rectangles("uncut").map(|e| outline(e, 3.0)).collect(),
        dots: dots.collect(),
    }
}

const SIGNS: [&str; 3] = ["inside", "zero", "outside"];

/// The groups in the order in which they are drawn, each with its fill: what comes later lies above.
fn assert_layers(elements: &[Element]) {
    let groups = elements.iter().filter(|e| e.name == "g").map(|e| (e.attributes["id"].as_str(), e.attributes["fill"] == "none"));
    let unfilled = |id| ["cut", "uncut"].contains(&id);
    let expected = SIGNS.into_iter().chain(["cut", "uncut", "uncrossed", "crossed"]).map(|id| (id, unfilled(id)));
    assert!(groups.eq(expected), "the groups aren't drawn in their order");
}

/// The same from the tables.
fn expected(part: &str, options: &[&str], slabs: u32, slab: u32) -> Shown {
    let height = (slab as f64 + 0.5) / slabs as f64;
    // Where vertices hide one another, that of a crossed cell is seen.
    let (mut dots, mut keys) = (BTreeMap::new(), BTreeSet::new());
    for (vertex, cell) in table(part, options, "vertices").iter().zip(table(part, options, "cells")) {
        assert_eq!((&vertex[0], &vertex[5..]), (&cell[0], &cell[2..4]));
        let [first, last] = [&cell[2], &cell[3]].map(|slab| slab.parse::<u32>().expect("a slab"));
        if (first..=last).contains(&slab) {
            let place = numbers(vertex, 2);
            *dots.entry((on_grid(place[0]), on_grid(place[1]))).or_insert(false) |= cell[4] == "1";
            keys.extend(cell[6..14].iter().cloned());
        }
    }
    let (mut squares, mut cut, mut uncut) = (Vec::new(), Vec::new(), BTreeSet::new());
    for row in table(part, options, "leaves") {
        let leaf = numbers(&row, 2);
        let ([x, y, z], half, distance) = ([leaf[0], leaf[1], leaf[2]], leaf[3], leaf[4]);
        let (x, y, side) = (on_grid(x - half), on_grid(y - half), on_grid(2.0 * half));
        let sign = if distance < 0.0 {
            "inside"
        } else if distance > 0.0 {
            "outside"
        } else {
            "zero"
        };
        match (z - half <= height && height < z + half, keys.remove(&row[0])) {
            (true, is_marked) => {
                squares.push((x, y, side, sign));
                cut.extend(Some((x, y, side)).filter(|_| is_marked));
            }
            (false, true) => drop(uncut.insert((x, y, side))),
            (false, false) => {}
        }
    }
    assert!(keys.is_empty(), "cells have what is no leaf: {keys:?}");
    let dots = dots.into_iter().map(|((x, y), crossed)| (x, y, crossed)).collect();
    Shown { squares, cut, uncut: uncut.into_iter().collect(), dots }
}

fn sorted<T: Ord + Copy>(items: &[T]) -> Vec<T> {
    let mut items = items.to_vec();
    items.sort_unstable();
    items
}

/// Every place of the square lies in exactly one.
fn assert_tiles(squares: &[Square]) {
    let area: u64 = squares.iter().map(|&(_, _, side, _)| u64::from(side).pow(2)).sum();
    assert_eq!(area as f64, FINEST * FINEST);
    for (place, a) in squares.iter().enumerate() {
        let apart = |b: &Square| a.0 + a.2 <= b.0 || b.0 + b.2 <= a.0 || a.1 + a.2 <= b.1 || b.1 + b.2 <= a.1;
        assert!(squares[place + 1..].iter().all(apart), "{a:?} overlaps another");
    }
}

/// Draws a slab, the middle one where none is named, and hands on what is shown.
fn check(name: &str, part: &str, bound: u32, exponent: u32, slab: Option<u32>) -> Shown {
    let slabs = 1 << exponent;
    let path = file(&format!("{name}.svg"));
    let (svg, bound, exponent) = (path.to_str().expect("plain text"), bound.to_string(), exponent.to_string());
    let options = ["--bound", &bound, "--exponent", &exponent];
    let chosen = slab.map_or(slabs / 2, |slab| slab);
    let named = slab.map(|slab| slab.to_string());
    let choice: Vec<&str> = named.iter().flat_map(|slab| ["--slab", slab]).collect();
    let report = printed(&slice(part, &[&options, &["--svg", svg][..], &choice].concat()));
    assert!(report.contains(&format!("\npicture   {svg}: slab {chosen}\n")), "{report}");

    let document = fs::read_to_string(&path).expect("a picture");
    let elements = elements(&document);
    let (shown, expected) = (shown(&elements), expected(part, &options, slabs, chosen));
    assert_layers(&elements);
    assert_tiles(&shown.squares);
    assert_eq!(sorted(&shown.squares), sorted(&expected.squares));
    assert_eq!(sorted(&shown.cut), sorted(&expected.cut));
    assert_eq!(sorted(&shown.uncut), sorted(&expected.uncut));
    assert_eq!(shown.dots, expected.dots);
    assert!(document.contains(&format!("slab {chosen} (of 0 to {})", slabs - 1)), "{document}");
    let row = &table(part, &options, "slabs")[chosen as usize];
    let words = format!(">bound {bound}; {} dual cells reach the slab, of which the surface crosses {}<", row[3], row[4]);
    assert!(document.contains(&words), "{document}");
    shown
}

#[test]
fn of_built_in_parts() {
    let mut signs = BTreeSet::new();
    for part in &BUILT_INS {
        let shown = check(part.name, part.name, 4, 4, None);
        signs.extend(shown.squares.iter().map(|square| square.3));
        // Far inside the cube the cells on both sides of the plane have all leaves that it cuts.
        assert!(shown.cut.len() == shown.squares.len() && !shown.uncut.is_empty() && !shown.dots.is_empty());
    }
    assert_eq!(signs.into_iter().collect::<Vec<_>>(), ["inside", "outside"]);
}

/// The first and the last slab, which no cell reaches where they lie below or above all centres, a single one, and planes that go between
/// cells or through the smallest of them.
#[test]
fn of_any_slab() {
    for (exponent, slab, is_reached) in [
        (0, None, true),
        (1, Some(0), true),
        (1, Some(1), true),
        (4, Some(0), false),
        (4, Some(15), true),
        (5, Some(31), false),
        (15, None, true),
        (15, Some(32767), false),
    ] {
        let shown = check("any-slab", "bracket", 3, exponent, slab);
        let is_empty = [shown.cut.is_empty(), shown.uncut.is_empty(), shown.dots.is_empty()];
        assert_eq!(is_empty, [!is_reached; 3], "exponent {exponent}, slab {slab:?}");
    }
}

/// The lowest slab of a part, which cells of some columns reach: the leaves of the others are plain.
#[test]
fn of_some_leaves_of_a_plane() {
    let shown = check("some-leaves", "sphere", 4, 4, Some(0));
    assert_eq!([shown.squares.len(), shown.cut.len(), shown.uncut.len()], [88, 68, 48]);
}

/// A deep tree around a point on the cube's edge: squares of every size that there can be.
#[test]
fn of_a_deep_tree() {
    let field = |[x, y, z]: [u32; 3]| 0.4 * ((x as f32 / 4.0 - 0.25).abs() + y as f32 + z as f32);
    let path = saved("deep.grid", &grid([5, 2, 2], field));
    let squares = check("deep", &path, 15, 15, Some(0)).squares;
    let sides: BTreeSet<u32> = squares.iter().map(|square| square.2).collect();
    assert_eq!(sides.into_iter().collect::<Vec<u32>>(), (0..14).map(|power| 1 << power).collect::<Vec<u32>>());
}

/// A field of zeros, in a file whose name needs escapes.
#[test]
fn of_zeros() {
    let path = saved("a <b> & \"c\"'s.grid", &grid([2, 2, 2], |_| 0.0));
    let squares = check("zeros", &path, 3, 2, None).squares;
    assert_eq!(squares.len(), 64);
    assert!(squares.iter().all(|square| square.3 == "zero"));
    let document = fs::read_to_string(file("zeros.svg")).expect("a picture");
    assert!(document.contains("a &lt;b&gt; &amp; \"c\"'s.grid, slab 2"), "{document}");
}

/// A table and a picture come of one run, and the picture is the same.
#[test]
fn beside_a_table() {
    let path = file("beside.svg");
    let svg = path.to_str().expect("plain text");
    printed(&["slice", "box", "--svg", svg]);
    let alone = fs::read(&path).expect("a picture");
    fs::remove_file(&path).expect("the picture just made");
    let text = printed(&["slice", "box", "--csv", "slabs", "--svg", svg]);
    assert_eq!(text, printed(&["slice", "box", "--csv", "slabs"]));
    assert!(alone == fs::read(&path).expect("a picture"));
    one_line(1, &["slice", "box", "--csv", "slabs", "--svg", "/dev/full"]);
}
