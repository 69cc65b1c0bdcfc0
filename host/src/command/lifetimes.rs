//! A picture of when leaves are needed: a bar for each, from its first slab to its last, and above the bars how many there are at each slab.

use super::cut::Cut;
use super::memory::LEAF_DATA;
use super::part::Part;
use super::reading::{Leaf, Reading};
use super::report::fullest;
use super::svg::{escaped, shortened};
use std::collections::BTreeSet;
use std::fmt::{self, Write};

/// Where the slabs lie in the picture: up to 256 of them have whole units each.
const LEFT: f64 = 92.0;
const ACROSS: f64 = 768.0;
const WIDTH: f64 = LEFT + ACROSS + 40.0;

/// The numbers by slab, and the bars below them.
const COUNTS_TOP: f64 = 118.0;
const COUNTS: f64 = 150.0;
const COUNTS_END: f64 = COUNTS_TOP + COUNTS;
const BARS_TOP: f64 = COUNTS_END + 52.0;

/// So many leaves have a name each, and a row of this height; more share the height that these have.
const NAMED: usize = 72;
const ROW: f64 = 12.0;
const MOST_BARS: f64 = NAMED as f64 * ROW;

/// Nothing is drawn narrower, however thin the slabs are.
const LEAST: f64 = 2.0;

const COUNTED: &str = "#b9c7d6";
const GREATEST: &str = "#b3123a";
const BAND: &str = "0.25";
const INK: &str = "#222";
const FAINT: &str = "#d7dee6";

/// How bars are coloured, by the level of the leaf, which is at most 15: the usual ones strong, the finest pale.
const LEVELS: [&str; 16] = [
    "#444444", "#6b4c9a", "#2a9d9d", "#3e9651", "#a5a832", "#da7c30", "#cc4c4c", "#8c6d4f", "#3969b1", "#b07fc7", "#7fc9c9",
    "#8fd09c", "#d9dc7f", "#f2b98a", "#eb9c9c", "#c9b39c",
];

fn colour(level: u32) -> &'static str {
    LEVELS[level as usize]
}

pub fn draw(part: &Part, cut: &Cut, reading: &Reading) -> String {
    let chart = Chart::new(cut, reading);
    let mut page = String::new();
    let drawn = chart
        .head(&mut page, part)
        .and_then(|()| chart.grid(&mut page))
        .and_then(|()| chart.counts(&mut page))
        .and_then(|()| chart.bands(&mut page))
        .and_then(|()| chart.bars(&mut page))
        .and_then(|()| chart.marks(&mut page))
        .and_then(|()| chart.axes(&mut page))
        .and_then(|()| chart.legend(&mut page));
    drawn.expect("a string takes all that is written");
    page.push_str("</svg>\n");
    page
}

struct Chart<'a> {
    cut: &'a Cut,
    reading: &'a Reading,
    /// By first slab, then by key.
    leaves: Vec<&'a Leaf>,
    levels: BTreeSet<u32>,
    row: f64,
}

/// Slabs in a row that need as many leaves: the first, the one behind the last, and the number.
struct Run {
    from: usize,
    to: usize,
    needed: u32,
}

impl<'a> Chart<'a> {
    fn new(cut: &'a Cut, reading: &'a Reading) -> Self {
        let mut leaves: Vec<&Leaf> = reading.leaves.iter().collect();
        leaves.sort_by_key(|leaf| (leaf.first, leaf.key));
        let row = if leaves.len() <= NAMED { ROW } else { MOST_BARS / leaves.len() as f64 };
        let levels = leaves.iter().map(|leaf| mittenhelm::level(leaf.key)).collect();
        Chart { cut, reading, leaves, levels, row }
    }

    /// Where the low side of a slab is.
    fn across(&self, slab: usize) -> f64 {
        LEFT + ACROSS * self.cut.height(slab as f64)
    }

    /// Where so many leaves are above the slabs: above the greatest number there is room for a mark.
    fn up(&self, leaves: u32) -> f64 {
        COUNTS_END - 0.86 * COUNTS * f64::from(leaves) / f64::from(self.reading.greatest)
    }

    /// A column of slabs, from the first to the one behind the last: where it begins, and its width. It ends with the slabs.
    fn column(&self, from: usize, to: usize) -> (f64, f64) {
        let width = (self.across(to) - self.across(from)).max(LEAST);
        (self.across(from).min(LEFT + ACROSS - width), width)
    }

    fn bars_end(&self) -> f64 {
        BARS_TOP + self.row * self.leaves.len() as f64
    }

    fn runs(&self) -> Vec<Run> {
        let mut runs: Vec<Run> = Vec::new();
        for (slab, &needed) in self.reading.slabs.iter().map(|slab| &slab.needed).enumerate() {
            match runs.last_mut() {
                Some(run) if run.needed == needed => run.to = slab + 1,
                _ => runs.push(Run { from: slab, to: slab + 1, needed }),
            }
        }
        runs
    }

    fn head(&self, page: &mut String, part: &Part) -> fmt::Result {
        let name = escaped(&shortened(&part.name));
        let title = format!("{name}: when each leaf is needed");
        let (all, most, height) =
            (self.leaves.len(), self.reading.greatest as usize, self.bars_end() + 46.0 + self.legend_height());
        writeln!(page, "<?xml version=\"1.0\" encoding=\"UTF-8\"?>")?;
        writeln!(
            page,
            "<svg xmlns=\"http://www.w3.org/2000/svg\" width=\"{WIDTH}\" height=\"{height}\" viewBox=\"0 0 {WIDTH} {height}\" \
             font-family=\"sans-serif\" font-size=\"15\" fill=\"{INK}\">"
        )?;
        writeln!(page, "<title>{title}</title>")?;
        writeln!(page, "<rect id=\"paper\" width=\"{WIDTH}\" height=\"{height}\" fill=\"white\"/>")?;
        writeln!(page, "<text x=\"{LEFT}\" y=\"36\" font-size=\"22\" font-weight=\"bold\">{title}</text>")?;
        let (bound, slabs) = (self.cut.bound, self.cut.slabs());
        writeln!(
            page,
            "<text x=\"{LEFT}\" y=\"62\">bound {bound}, slabs {slabs}, leaves {all}; at most {most} are needed, {}</text>",
            fullest(self.reading)
        )?;
        let (kept, whole) = (LEAF_DATA * most, LEAF_DATA * all);
        writeln!(page, "<text x=\"{LEFT}\" y=\"84\">at {LEAF_DATA} bytes a leaf {kept} bytes are enough, where all at once take {whole}</text>")
    }

    /// Faint lines at the slabs that are named and at the numbers above.
    fn grid(&self, page: &mut String) -> fmt::Result {
        writeln!(page, "<g id=\"grid\" stroke=\"{FAINT}\" stroke-width=\"1\">")?;
        for slab in self.named_slabs() {
            let x = self.across(slab);
            for (top, end) in [(COUNTS_TOP, COUNTS_END), (BARS_TOP, self.bars_end())] {
                writeln!(page, "<line x1=\"{x}\" y1=\"{top}\" x2=\"{x}\" y2=\"{end}\"/>")?;
            }
        }
        for leaves in ticks(self.reading.greatest as usize, 5) {
            let (y, end) = (self.up(leaves as u32), LEFT + ACROSS);
            writeln!(page, "<line x1=\"{LEFT}\" y1=\"{y}\" x2=\"{end}\" y2=\"{y}\"/>")?;
        }
        writeln!(page, "</g>")
    }

    /// A column for each run of slabs with the same number.
    fn counts(&self, page: &mut String) -> fmt::Result {
        writeln!(page, "<g id=\"counts\" fill=\"{COUNTED}\">")?;
        for Run { from, to, needed } in self.runs() {
            let ((x, width), y) = (self.column(from, to), self.up(needed));
            writeln!(page, "<rect x=\"{x}\" y=\"{y}\" width=\"{width}\" height=\"{}\"/>", COUNTS_END - y)?;
        }
        writeln!(page, "</g>")
    }

    fn bars(&self, page: &mut String) -> fmt::Result {
        // Thin bars touch; without soft edges nothing of the paper shines through.
        let (thick, edges) = if self.row < 3.0 { (self.row, " shape-rendering=\"crispEdges\"") } else { (0.75 * self.row, "") };
        writeln!(page, "<g id=\"bars\"{edges}>")?;
        for (row, leaf) in self.leaves.iter().enumerate() {
            let y = BARS_TOP + self.row * row as f64 + (self.row - thick) / 2.0;
            let (x, width) = self.column(leaf.first as usize, leaf.last as usize + 1);
            let fill = colour(mittenhelm::level(leaf.key));
            writeln!(page, "<rect x=\"{x}\" y=\"{y}\" width=\"{width}\" height=\"{thick}\" fill=\"{fill}\"/>")?;
        }
        writeln!(page, "</g>")
    }

    /// The columns of the slabs with the greatest number.
    fn fullest(&self) -> Vec<(f64, f64)> {
        let runs = self.runs();
        runs.iter().filter(|run| run.needed == self.reading.greatest).map(|run| self.column(run.from, run.to)).collect()
    }

    /// A band for each of them: over its number, and behind the bars, which keep their colours.
    fn bands(&self, page: &mut String) -> fmt::Result {
        writeln!(page, "<g id=\"greatest\" fill=\"{GREATEST}\" fill-opacity=\"{BAND}\">")?;
        for (x, width) in self.fullest() {
            for (y, end) in [(self.up(self.reading.greatest), COUNTS_END), (BARS_TOP, self.bars_end())] {
                writeln!(page, "<rect x=\"{x}\" y=\"{y}\" width=\"{width}\" height=\"{}\"/>", end - y)?;
            }
        }
        writeln!(page, "</g>")
    }

    /// A mark above each of them with a line down its middle, which are seen where slabs are thin; and a line at the number.
    fn marks(&self, page: &mut String) -> fmt::Result {
        let (most, greatest) = (self.up(self.reading.greatest), self.reading.greatest);
        writeln!(page, "<g id=\"marks\" fill=\"{GREATEST}\" stroke=\"{GREATEST}\" stroke-width=\"0.8\">")?;
        for (x, width) in self.fullest() {
            let (middle, top) = (x + width / 2.0, most - 11.0);
            writeln!(page, "<path d=\"M{middle} {} L{} {top} L{} {top} Z\"/>", most - 2.0, middle - 5.0, middle + 5.0)?;
            for (y, end) in [(most, COUNTS_END), (BARS_TOP, self.bars_end())] {
                writeln!(page, "<line x1=\"{middle}\" y1=\"{y}\" x2=\"{middle}\" y2=\"{end}\" stroke-dasharray=\"2 3\"/>")?;
            }
        }
        writeln!(page, "</g>")?;
        let end = LEFT + ACROSS;
        writeln!(
            page,
            "<line id=\"most\" x1=\"{LEFT}\" y1=\"{most}\" x2=\"{end}\" y2=\"{most}\" stroke=\"{GREATEST}\" stroke-dasharray=\"5 4\"/>"
        )?;
        writeln!(page, "<text x=\"{}\" y=\"{}\" font-size=\"13\" fill=\"{GREATEST}\">{greatest}</text>", end + 4.0, most + 4.0)
    }

    fn axes(&self, page: &mut String) -> fmt::Result {
        for (id, top, height) in [("counts-frame", COUNTS_TOP, COUNTS), ("bars-frame", BARS_TOP, self.bars_end() - BARS_TOP)] {
            writeln!(
                page,
                "<rect id=\"{id}\" x=\"{LEFT}\" y=\"{top}\" width=\"{ACROSS}\" height=\"{height}\" fill=\"none\" stroke=\"{INK}\"/>"
            )?;
        }
        writeln!(page, "<text x=\"{LEFT}\" y=\"{}\" font-size=\"13\">leaves needed at the slab</text>", COUNTS_TOP - 8.0)?;
        writeln!(
            page,
            "<text x=\"{LEFT}\" y=\"{}\" font-size=\"13\">each leaf from its first slab to its last, by first slab, then key</text>",
            BARS_TOP - 8.0
        )?;
        writeln!(page, "<g id=\"slab-names\" font-size=\"12\" text-anchor=\"middle\">")?;
        for slab in self.named_slabs() {
            // In the middle of its column.
            let x = (self.across(slab) + self.across(slab + 1)) / 2.0;
            for y in [COUNTS_END + 16.0, self.bars_end() + 16.0] {
                writeln!(page, "<text x=\"{x}\" y=\"{y}\">{slab}</text>")?;
            }
        }
        writeln!(page, "</g>")?;
        let middle = LEFT + ACROSS / 2.0;
        writeln!(
            page,
            "<text x=\"{middle}\" y=\"{}\" font-size=\"13\" text-anchor=\"middle\">slab, the lowest being 0</text>",
            self.bars_end() + 34.0
        )?;
        writeln!(page, "<g id=\"numbers\" font-size=\"12\" text-anchor=\"end\">")?;
        for leaves in ticks(self.reading.greatest as usize, 5) {
            writeln!(page, "<text x=\"{}\" y=\"{}\">{leaves}</text>", LEFT - 6.0, self.up(leaves as u32) + 4.0)?;
        }
        writeln!(page, "</g>")?;
        self.leaf_names(page)
    }

    /// The key of each leaf, or where there are many how many lie above.
    fn leaf_names(&self, page: &mut String) -> fmt::Result {
        let x = LEFT - 6.0;
        if self.leaves.len() <= NAMED {
            writeln!(page, "<g id=\"leaf-names\" font-size=\"10\" text-anchor=\"end\">")?;
            for (row, leaf) in self.leaves.iter().enumerate() {
                let y = BARS_TOP + self.row * (row as f64 + 0.5) + 3.5;
                writeln!(page, "<text x=\"{x}\" y=\"{y}\">{}</text>", leaf.key)?;
            }
        } else {
            writeln!(page, "<g id=\"leaf-ticks\" font-size=\"12\" text-anchor=\"end\">")?;
            for leaves in ticks(self.leaves.len(), 8) {
                let y = BARS_TOP + self.row * leaves as f64;
                writeln!(page, "<line x1=\"{}\" y1=\"{y}\" x2=\"{LEFT}\" y2=\"{y}\" stroke=\"{INK}\"/>", LEFT - 4.0)?;
                writeln!(page, "<text x=\"{x}\" y=\"{}\">{leaves}</text>", y + 4.0)?;
            }
        }
        writeln!(page, "</g>")
    }

    /// At most sixteen slabs, as far from each other.
    fn named_slabs(&self) -> impl Iterator<Item = usize> {
        let slabs = self.reading.slabs.len();
        (0..slabs).step_by((slabs / 16).max(1))
    }

    fn legend_height(&self) -> f64 {
        24.0 * (1.0 + ((self.levels.len() + 5) / 6) as f64) + 12.0
    }

    fn legend(&self, page: &mut String) -> fmt::Result {
        let top = self.bars_end() + 52.0;
        let keys =
            [(COUNTED, "1", "leaves needed"), (GREATEST, BAND, "where most are needed, with a mark and a line at that number")];
        for ((fill, opacity, words), x) in keys.into_iter().zip([LEFT, LEFT + 160.0]) {
            writeln!(page, "<rect class=\"key\" x=\"{x}\" y=\"{top}\" width=\"14\" height=\"14\" fill=\"{fill}\" fill-opacity=\"{opacity}\"/>")?;
            writeln!(page, "<text x=\"{}\" y=\"{}\" font-size=\"13\">{words}</text>", x + 22.0, top + 12.0)?;
        }
        for (i, &level) in self.levels.iter().enumerate() {
            let (x, y) = (LEFT + 128.0 * (i % 6) as f64, top + 24.0 * (1 + i / 6) as f64);
            writeln!(page, "<rect class=\"key\" x=\"{x}\" y=\"{y}\" width=\"14\" height=\"14\" fill=\"{}\"/>", colour(level))?;
            writeln!(page, "<text x=\"{}\" y=\"{}\" font-size=\"13\">leaf of level {level}</text>", x + 22.0, y + 12.0)?;
        }
        Ok(())
    }
}

/// Round numbers from 0 on up to a number, with at most so many steps.
fn ticks(most: usize, steps: usize) -> impl Iterator<Item = usize> {
    let powers = std::iter::successors(Some(1), |power| Some(10 * power));
    let step = powers.flat_map(|power| [power, 2 * power, 5 * power]).find(|step| most / step <= steps);
    (0..=most).step_by(step.expect("some step is great enough"))
}
