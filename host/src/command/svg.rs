//! A picture of one slab: the leaves that its middle plane cuts, the vertices of the dual cells that reach the slab, and which leaves
//! those cells have, cut or not.

use super::cut::Cut;
use super::part::Part;
use super::reading::{Cell, Leaf, Reading};
use mittenhelm::Refusal;
use std::collections::{BTreeMap, BTreeSet};
use std::fmt::{self, Write};

/// The cube's side, in units of the picture.
const SIDE: f64 = 640.0;
const LEFT: f64 = 60.0;
const TOP: f64 = 108.0;
const WIDTH: f64 = LEFT + SIDE + 40.0;
const HEIGHT: f64 = TOP + SIDE + 154.0;

/// A sign of a leaf's distance, and how it is shown.
struct Sign {
    id: &'static str,
    colour: &'static str,
    words: &'static str,
    is: fn(f32) -> bool,
}

const SIGNS: [Sign; 3] = [
    Sign { id: "inside", colour: "#f4b26a", words: "leaf inside the part (distance below 0)", is: |distance| distance < 0.0 },
    Sign { id: "zero", colour: "#7a3e9d", words: "leaf at the surface (distance 0)", is: |distance| distance == 0.0 },
    Sign { id: "outside", colour: "#eef3f8", words: "leaf outside (distance above 0)", is: |distance| distance > 0.0 },
];

/// A dot is dark where the surface crosses the cell, pale where not.
const CROSSED: &str = "#b3123a";
const UNCROSSED: &str = "#8fa3b8";

/// The outlines of leaves that a cell has which reaches the slab: of those that the plane cuts, and of those that it doesn't.
const CUT: &str = "#1b2733";
const UNCUT: &str = "#1769aa";

pub fn draw(part: &Part, cut: &Cut, reading: &Reading, slab: u32) -> Result<String, Refusal> {
    let height = cut.height(f64::from(slab) + 0.5);
    let leaves: Vec<&Leaf> = reading.leaves.iter().filter(|leaf| leaf.holds(height)).collect();
    let cells: Vec<&Cell> = reading.cells.iter().filter(|cell| cell.reaches(slab)).collect();
    let places: BTreeSet<u64> = cells.iter().flat_map(|cell| cell.dual.places).collect();
    let of_cells = reading.leaves.iter().filter(|leaf| places.contains(&(leaf.place as u64)));
    let (cut_ones, uncut_ones): (Vec<&Leaf>, Vec<&Leaf>) = of_cells.partition(|leaf| leaf.holds(height));
    let dots = dots(&cells)?;
    let mut page = String::new();
    let drawn = head(&mut page, part, cut, reading, slab)
        .and_then(|()| squares(&mut page, &leaves))
        .and_then(|()| outlines(&mut page, &cut_ones))
        .and_then(|()| dashed_outlines(&mut page, &uncut_ones))
        .and_then(|()| circles(&mut page, &dots))
        .and_then(|()| axes(&mut page))
        .and_then(|()| legend(&mut page));
    drawn.expect("a string takes all that is written");
    page.push_str("</svg>\n");
    Ok(page)
}

impl Leaf {
    /// Whether a plane at the height cuts it; the low side belongs to it, so that one leaf of two does.
    fn holds(&self, height: f64) -> bool {
        let (middle, half) = (f64::from(self.centre[2]), f64::from(self.half));
        (middle - half..middle + half).contains(&height)
    }

    fn width(&self) -> f64 {
        2.0 * f64::from(self.half) * SIDE
    }

    /// Where its left upper corner is in the picture.
    fn corner(&self) -> [f64; 2] {
        let [x, y, _] = self.centre;
        [across(x - self.half), down(y + self.half)]
    }
}

/// Where a place of the cube is in the picture: y goes upwards there.
fn across(x: f32) -> f64 {
    LEFT + f64::from(x) * SIDE
}

fn down(y: f32) -> f64 {
    TOP + (1.0 - f64::from(y)) * SIDE
}

/// A vertex, or some of them above one another: whether the surface crosses a cell of theirs, and their greatest level.
#[derive(Clone, Copy, Default)]
struct Dot {
    is_crossed: bool,
    level: u32,
}

/// The dots by their places, which are x and y as bits.
fn dots(cells: &[&Cell]) -> Result<BTreeMap<[u32; 2], Dot>, Refusal> {
    let mut dots = BTreeMap::new();
    for cell in cells {
        let [x, y, _] = cell.point()?;
        let dot: &mut Dot = dots.entry([x.to_bits(), y.to_bits()]).or_default();
        *dot = Dot { is_crossed: dot.is_crossed || cell.is_crossed(), level: dot.level.max(cell.level) };
    }
    Ok(dots)
}

fn head(page: &mut String, part: &Part, cut: &Cut, reading: &Reading, slab: u32) -> fmt::Result {
    let (low, middle, high) = (f64::from(slab), f64::from(slab) + 0.5, f64::from(slab) + 1.0);
    let name = escaped(&shortened(&part.name));
    let title = format!("{name}, slab {slab} (of 0 to {})", cut.slabs() - 1);
    let count = reading.slabs[slab as usize].count;
    let (low, middle, high) = (cut.height(low), cut.height(middle), cut.height(high));
    writeln!(page, "<?xml version=\"1.0\" encoding=\"UTF-8\"?>")?;
    writeln!(
        page,
        "<svg xmlns=\"http://www.w3.org/2000/svg\" width=\"{WIDTH}\" height=\"{HEIGHT}\" viewBox=\"0 0 {WIDTH} {HEIGHT}\" \
         font-family=\"sans-serif\" font-size=\"15\" fill=\"#222\">"
    )?;
    writeln!(page, "<title>{title}</title>")?;
    writeln!(page, "<rect id=\"paper\" width=\"{WIDTH}\" height=\"{HEIGHT}\" fill=\"white\"/>")?;
    writeln!(page, "<text x=\"{LEFT}\" y=\"36\" font-size=\"22\" font-weight=\"bold\">{title}</text>")?;
    writeln!(page, "<text x=\"{LEFT}\" y=\"64\">z from {low} to {high}, cut at {middle}</text>")?;
    let (bound, cells, crossed) = (cut.bound, count.cells, count.crossed);
    writeln!(page, "<text x=\"{LEFT}\" y=\"88\">bound {bound}; {cells} dual cells reach the slab, of which the surface crosses {crossed}</text>")
}

fn squares(page: &mut String, leaves: &[&Leaf]) -> fmt::Result {
    for sign in &SIGNS {
        writeln!(page, "<g id=\"{}\" fill=\"{}\" stroke=\"#5a6b7c\">", sign.id, sign.colour)?;
        for leaf in leaves.iter().filter(|leaf| (sign.is)(leaf.distance)) {
            let ([left, top], width) = (leaf.corner(), leaf.width());
            let line = (width / 14.0).min(0.8);
            writeln!(page, "<rect x=\"{left}\" y=\"{top}\" width=\"{width}\" height=\"{width}\" stroke-width=\"{line}\"/>")?;
        }
        writeln!(page, "</g>")?;
    }
    Ok(())
}

/// Strong outlines. Each lies inside its leaf's square, so that it leaves the squares beside it as they are.
fn outlines(page: &mut String, leaves: &[&Leaf]) -> fmt::Result {
    writeln!(page, "<g id=\"cut\" fill=\"none\" stroke=\"{CUT}\">")?;
    for leaf in leaves {
        let ([left, top], width) = (leaf.corner(), leaf.width());
        let line = (width / 32.0).min(1.0);
        let (left, top, width) = (left + line / 2.0, top + line / 2.0, width - line);
        writeln!(page, "<rect x=\"{left}\" y=\"{top}\" width=\"{width}\" height=\"{width}\" stroke-width=\"{line}\"/>")?;
    }
    writeln!(page, "</g>")
}

/// Dashed outlines, further inside, so that a strong one is seen beside it. Leaves of one size above one another have one outline.
fn dashed_outlines(page: &mut String, leaves: &[&Leaf]) -> fmt::Result {
    writeln!(page, "<g id=\"uncut\" fill=\"none\" stroke=\"{UNCUT}\">")?;
    let mut drawn = BTreeSet::new();
    for leaf in leaves {
        let ([left, top], width) = (leaf.corner(), leaf.width());
        if !drawn.insert([left, top, width].map(f64::to_bits)) {
            continue;
        }
        let line = (width / 16.0).min(1.0);
        let (left, top, width) = (left + 3.0 * line, top + 3.0 * line, width - 6.0 * line);
        let (dash, gap) = (4.0 * line, 3.0 * line);
        writeln!(
            page,
            "<rect x=\"{left}\" y=\"{top}\" width=\"{width}\" height=\"{width}\" stroke-width=\"{line}\" \
             stroke-dasharray=\"{dash} {gap}\"/>"
        )?;
    }
    writeln!(page, "</g>")
}

fn circles(page: &mut String, dots: &BTreeMap<[u32; 2], Dot>) -> fmt::Result {
    // The crossed ones go last, on top. A white ring sets each apart from the lines below it.
    for (id, colour, crossed) in [("uncrossed", UNCROSSED, false), ("crossed", CROSSED, true)] {
        writeln!(page, "<g id=\"{id}\" fill=\"{colour}\" stroke=\"white\">")?;
        for (place, dot) in dots.iter().filter(|(_, dot)| dot.is_crossed == crossed) {
            let [x, y] = place.map(f32::from_bits);
            let radius = (SIDE / f64::from(1 << dot.level) / 6.0).min(3.0);
            let ring = radius / 4.0;
            writeln!(page, "<circle cx=\"{}\" cy=\"{}\" r=\"{radius}\" stroke-width=\"{ring}\"/>", across(x), down(y))?;
        }
        writeln!(page, "</g>")?;
    }
    Ok(())
}

fn axes(page: &mut String) -> fmt::Result {
    writeln!(
        page,
        "<rect id=\"frame\" x=\"{LEFT}\" y=\"{TOP}\" width=\"{SIDE}\" height=\"{SIDE}\" fill=\"none\" stroke=\"#222\"/>"
    )?;
    let (below, before) = (TOP + SIDE + 22.0, LEFT - 12.0);
    for (at, words) in [(0.0, "0"), (0.5, "x"), (1.0, "1")] {
        writeln!(page, "<text x=\"{}\" y=\"{below}\" text-anchor=\"middle\">{words}</text>", across(at))?;
    }
    for (at, words) in [(0.0, "0"), (0.5, "y"), (1.0, "1")] {
        writeln!(page, "<text x=\"{before}\" y=\"{}\" text-anchor=\"end\">{words}</text>", down(at) + 5.0)?;
    }
    Ok(())
}

fn legend(page: &mut String) -> fmt::Result {
    let top = TOP + SIDE + 48.0;
    for (sign, row) in SIGNS.iter().zip([0.0, 24.0, 48.0]) {
        let (top, base) = (top + row, top + row + 13.0);
        writeln!(
            page,
            "<rect class=\"key\" x=\"{LEFT}\" y=\"{top}\" width=\"16\" height=\"16\" fill=\"{}\" stroke=\"#5a6b7c\"/>",
            sign.colour
        )?;
        writeln!(page, "<text x=\"{}\" y=\"{base}\">{}</text>", LEFT + 26.0, sign.words)?;
    }
    let left = LEFT + SIDE / 2.0 + 20.0;
    let keys = [
        (CUT, "", "leaf of a cell that reaches the slab"),
        (UNCUT, " stroke-dasharray=\"4 3\"", "such a leaf that the plane doesn't cut"),
    ];
    for ((colour, dashes, words), row) in keys.iter().zip([0.0, 24.0]) {
        let (top, base) = (top + row + 1.0, top + row + 13.0);
        writeln!(
            page,
            "<rect class=\"key\" x=\"{}\" y=\"{top}\" width=\"14\" height=\"14\" fill=\"none\" stroke=\"{colour}\"{dashes}/>",
            left - 7.0
        )?;
        writeln!(page, "<text x=\"{}\" y=\"{base}\">{words}</text>", left + 18.0)?;
    }
    let keys = [(CROSSED, "vertex of such a cell that is crossed"), (UNCROSSED, "vertex of such a cell that isn't crossed")];
    for ((colour, words), row) in keys.iter().zip([48.0, 72.0]) {
        let (middle, base) = (top + row + 8.0, top + row + 13.0);
        writeln!(page, "<circle class=\"key\" cx=\"{left}\" cy=\"{middle}\" r=\"4\" fill=\"{colour}\"/>")?;
        writeln!(page, "<text x=\"{}\" y=\"{base}\">{words}</text>", left + 18.0)?;
    }
    Ok(())
}

/// The end of a long name, which tells more than its beginning.
pub fn shortened(name: &str) -> String {
    const MOST: usize = 28;
    let length = name.chars().count();
    if length <= MOST {
        return name.to_string();
    }
    format!("...{}", name.chars().skip(length - MOST + 3).collect::<String>())
}

pub fn escaped(text: &str) -> String {
    text.replace('&', "&amp;").replace('<', "&lt;").replace('>', "&gt;")
}
