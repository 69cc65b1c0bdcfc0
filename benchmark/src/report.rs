//! The report, in Markdown: the text is fixed, the numbers are those of a run.

use crate::machine;
use crate::measures::{Measure, Rival, Row, Times, EXPONENTS, MEASURES, MOST_CELLS, RIVALS};
use crate::ours::{BATCH, EXPONENT, FORM};
use crate::trees::{is_near, SIZES};

/// From this line on a written report is kept as it is when another is written over it.
pub const KEPT_FROM: &str = "## Below the goal";

/// A report with the hand-written end of an earlier one, if there is one.
pub fn with_kept_end(report: &str, earlier: &str) -> String {
    match earlier.lines().position(|line| line == KEPT_FROM) {
        Some(line) => {
            let kept: Vec<&str> = earlier.lines().skip(line).collect();
            format!("{report}\n{}\n", kept.join("\n"))
        }
        None => report.to_string(),
    }
}

pub fn report(rows: &[Row]) -> String {
    let mut sections = vec![
        introduction(),
        "## Ratios".to_string(),
        ratios(rows),
        "## Growth".to_string(),
        format!(
            "Nanoseconds for each node, or for each lookup, as a geometric mean over the fields, for trees near each number of nodes; and the \
             exponent e of the best fit of time to nodes^e over all trees, and to (nodes + vertices)^e: a list and its dual cells can't take \
             less than there are vertices, and those grow faster than the nodes. The goal for ours is at most {MOST_GROWTH} by the second."
        ),
        growth(rows),
        "## Lifetimes".to_string(),
        format!(
            "How many times as long as all cells with the places of their nodes a report takes, by slab exponent. The goal is at most \
             {MOST_CELLS} in the geometric mean; single trees may be above it."
        ),
        lifetimes(rows),
    ];
    for (i, measure) in MEASURES.iter().enumerate() {
        sections.push(format!("## Each tree: {}", measure.name()));
        sections.push(each_tree(rows, i));
    }
    sections.push("## Each tree: lifetimes".to_string());
    sections.push(lifetimes_of_each_tree(rows));
    sections.join("\n\n") + "\n"
}

fn introduction() -> String {
    format!(
        "# Benchmark

`tools/benchmark --write` writes this page: the numbers are those of its run, and what stands from \"{end}\" on is kept.

Ours, proved and called through the C boundary as a host calls it, against the published Rust of isosurface 0.0.4, compiled from its own \
text: the same trees in one run, native code on both sides. Before a tree is timed, both sides are seen to give the same nodes, leaves, vertices \
with levels, dual cells and lookups, and the Rust with the integer level the same slabs.

{machine}

## How it was measured

- **Trees.** Five fields, and of each a tree near each of {sizes} nodes, the first exactly and none above the last.
- **The Rust, twice.** As published, and with only `level` replaced by an integer rule. The published `level` is wrong at each power of 8, and so \
builds another tree for many fields; trees were chosen for which it builds the same one, where there are such near the number of nodes. There are none of 73 \
nodes, since it always splits key 64. Both builds have the same text but for `level`, which takes a logarithm as published and a count of leading zeros in the \
other, the quickest way there is: so the second is the quicker one, in building and in listing. The search for dual cells and the lookups need no \
`level`.
- **Build.** The distances are ready in a table, and both sides take the next one for each cell asked for, so that the field costs nothing. Both \
compute the cell's centre and put it into memory. The Rust's time includes its memory from the heap and giving it back, since it can't do without; ours \
works in tables that are lent.
- **List.** Ours writes all vertices, ascending, into lent tables, which have room for 19 of each split, so that it goes over the tree once after its \
check; the Rust makes its hash map.
- **All dual cells.** For each vertex of the list the eight nodes. Of the Rust this is the search in `extract_surface`, with nothing of the triangles. \
Both sides sum up the distances found. Ours uses {form}.
- **List and all dual cells.** Ours asks for vertices with the places of their nodes, {batch} at a time, after one check, and sums up the distances \
there; the Rust makes its hash map, and searches.
- **Lookups.** 10,000 random cell keys, each level from 0 to 21 as often as the others: the deepest present of the key and its ancestors. Of the Rust, \
`get_node` on each of them in turn. Ours uses the same form of call. Beside them, what one would write in a few lines without a library, and with no \
check of the tree: a climb in a `HashMap<u64, f32>` with the standard hasher, which the published Rust's own map has too (\"hash map\"), and the way down \
through nodes that own their eight children in a `Box` (\"pointers\").
- **All slabs.** For each vertex of the list the first and the last of {slabs} slabs that its dual cell reaches. Ours uses the same form of call. The Rust \
has no such call: it searches the eight nodes as for dual cells, takes the heights of their centres from its `center`, and of them the lowest and the \
highest, each multiplied by {slabs} and rounded down. As published its `center` puts the keys elsewhere whose `level` is wrong, and every tree has such a \
leaf: so slabs are compared with the integer level's alone, and timed against it.
- **Soundness** is ours alone: whether the tables hold a sound tree.
- **Lifetimes** are ours alone too: from which slab to which each leaf is needed, and how many are at each slab, of {exponents} as the slab exponent. \
They are timed beside all cells with the places of their nodes, which one call writes into room for all of them; neither checks the tree. Before that, the \
report is seen to be what the cells and their slabs come to.
- **Times** are the best of batches of calls. The sides take turns, a batch each, until each has had 50 milliseconds at least, so that a change of the \
machine's speed meets both. A ratio is the other's time by ours: above 1, ours is the quicker. Goals are set against the Rust as published.",
        end = KEPT_FROM.trim_start_matches("## "),
        machine = machine::described(),
        sizes = listed(&SIZES),
        form = FORM,
        batch = BATCH,
        slabs = 1 << EXPONENT,
        exponents = listed(&EXPONENTS.map(|exponent| exponent as usize)),
    )
}

fn listed(numbers: &[usize]) -> String {
    let words: Vec<String> = numbers.iter().map(|&n| grouped(n)).collect();
    let (last, others) = words.split_last().expect("a number");
    format!("{} and {last}", others.join(", "))
}

/// With a comma between thousands.
fn grouped(n: usize) -> String {
    match n {
        0..=999 => n.to_string(),
        _ => format!("{},{:03}", grouped(n / 1000), n % 1000),
    }
}

/// A rival's time by ours, in the trees that have both.
fn ratios_of(rows: &[Row], measure: usize, rival: Rival) -> Vec<f64> {
    rows.iter().filter_map(|row| Some(row.times[measure].of(rival)? / row.times[measure].ours)).collect()
}

fn ratios(rows: &[Row]) -> String {
    let mut table = Table::new(&["", "goal", "against", "trees", "geometric mean", "least", "greatest"]);
    for (i, measure) in MEASURES.iter().enumerate() {
        for rival in RIVALS {
            let ratios = ratios_of(rows, i, rival);
            if !ratios.is_empty() {
                table.add(vec![
                    measure.name().to_string(),
                    measure.goal().filter(|_| rival.is_the_rust()).map_or(String::new(), |goal| format!("at least {goal}")),
                    rival.name().to_string(),
                    ratios.len().to_string(),
                    format!("{:.2}", geometric_mean(&ratios)),
                    format!("{:.2}", ratios.iter().copied().fold(f64::INFINITY, f64::min)),
                    format!("{:.2}", ratios.iter().copied().fold(0.0, f64::max)),
                ]);
            }
        }
    }
    table.text()
}

/// What lifetimes take by what all cells take, in each tree.
fn lifetime_ratios(rows: &[Row], exponent: usize) -> Vec<f64> {
    rows.iter().map(|row| row.lifetimes.ratios()[exponent]).collect()
}

fn lifetimes(rows: &[Row]) -> String {
    let mut table = Table::new(&["exponent", "goal", "trees", "geometric mean", "least", "greatest"]);
    for (i, exponent) in EXPONENTS.iter().enumerate() {
        let ratios = lifetime_ratios(rows, i);
        table.add(vec![
            exponent.to_string(),
            format!("at most {MOST_CELLS}"),
            ratios.len().to_string(),
            format!("{:.2}", geometric_mean(&ratios)),
            format!("{:.2}", ratios.iter().copied().fold(f64::INFINITY, f64::min)),
            format!("{:.2}", ratios.iter().copied().fold(0.0, f64::max)),
        ]);
    }
    table.text()
}

fn lifetimes_of_each_tree(rows: &[Row]) -> String {
    let mut head: Vec<String> = ["field", "bound", "nodes", "leaves", "vertices", "cells µs"].map(str::to_string).into();
    head.extend(EXPONENTS.iter().flat_map(|exponent| [format!("exponent {exponent} µs"), "ratio".to_string()]));
    let mut table = Table { lines: vec![head] };
    for row in rows {
        let mut line = vec![row.case.field.to_string()];
        line.extend([row.case.bound as usize, row.case.nodes(), row.leaves, row.vertices].map(grouped));
        line.push(significant(1e6 * row.lifetimes.cells));
        for (report, ratio) in row.lifetimes.reports.into_iter().zip(row.lifetimes.ratios()) {
            line.extend([significant(1e6 * report), format!("{ratio:.2}")]);
        }
        table.add(line);
    }
    table.text()
}

fn growth(rows: &[Row]) -> String {
    let mut head = vec!["".to_string(), "side".to_string()];
    head.extend(SIZES.iter().map(|&size| grouped(size)));
    head.extend(["by nodes", "by nodes + vertices"].map(str::to_string));
    let mut table = Table { lines: vec![head] };
    let sides = [None].into_iter().chain(RIVALS.map(Some));
    for (i, measure) in MEASURES.iter().enumerate() {
        for side in sides.clone() {
            let points = points(rows, i, side, nodes);
            if points.is_empty() {
                continue;
            }
            let mut line = vec![measure.name().to_string(), side.map_or("ours", Rival::name).to_string()];
            line.extend(SIZES.iter().map(|&size| per_item(*measure, &points, size)));
            let fits = [exponent(&points), exponent(&self::points(rows, i, side, nodes_and_vertices))];
            line.extend(fits.map(|fit| fit.map_or(String::new(), |e| format!("{e:.2}"))));
            table.add(line);
        }
    }
    table.text()
}

/// What a tree's time is held against.
type Size = fn(&Row) -> f64;

fn nodes(row: &Row) -> f64 {
    row.case.nodes() as f64
}

fn nodes_and_vertices(row: &Row) -> f64 {
    (row.case.nodes() + row.vertices) as f64
}

/// A side's times, ours where no rival is named, each with its tree's size.
fn points(rows: &[Row], measure: usize, side: Option<Rival>, size: Size) -> Vec<(f64, f64)> {
    let time = |times: &Times| side.map_or(Some(times.ours), |rival| times.of(rival));
    rows.iter().filter_map(|row| Some((size(row), time(&row.times[measure])?))).collect()
}

/// Nanoseconds for each node or lookup, for the trees near a size.
fn per_item(measure: Measure, points: &[(f64, f64)], size: usize) -> String {
    let near = points.iter().filter(|&&(nodes, _)| is_near(nodes as usize, size));
    let costs: Vec<f64> = near.map(|&(nodes, time)| 1e9 * time / measure.items(nodes)).collect();
    if costs.is_empty() {
        return String::new();
    }
    significant(geometric_mean(&costs))
}

fn each_tree(rows: &[Row], measure: usize) -> String {
    let rivals: Vec<Rival> = RIVALS.into_iter().filter(|&rival| !ratios_of(rows, measure, rival).is_empty()).collect();
    let mut head: Vec<String> = ["field", "bound", "nodes", "leaves", "vertices", "ours µs"].map(str::to_string).into();
    head.extend(rivals.iter().flat_map(|rival| [format!("{} µs", rival.name()), "ratio".to_string()]));
    let mut table = Table { lines: vec![head] };
    for row in rows {
        let times = row.times[measure];
        let mut line = vec![row.case.field.to_string()];
        line.extend([row.case.bound as usize, row.case.nodes(), row.leaves, row.vertices].map(grouped));
        line.push(significant(1e6 * times.ours));
        for time in rivals.iter().map(|&rival| times.of(rival)) {
            line.push(time.map_or(String::new(), |time| significant(1e6 * time)));
            line.push(time.map_or(String::new(), |time| format!("{:.2}", time / times.ours)));
        }
        table.add(line);
    }
    table.text()
}

/// Three digits, or all those before the point.
fn significant(x: f64) -> String {
    let after_point = (2 - x.log10().floor() as i32).clamp(0, 9) as usize;
    format!("{x:.after_point$}")
}

pub fn geometric_mean(numbers: &[f64]) -> f64 {
    (numbers.iter().map(|x| x.ln()).sum::<f64>() / numbers.len() as f64).exp()
}

/// The exponent of the best fit, by least squares of logarithms. None, where all are of one size.
pub fn exponent(points: &[(f64, f64)]) -> Option<f64> {
    let logs: Vec<(f64, f64)> = points.iter().map(|(x, y)| (x.ln(), y.ln())).collect();
    let count = logs.len() as f64;
    let (x_mean, y_mean) = (logs.iter().map(|p| p.0).sum::<f64>() / count, logs.iter().map(|p| p.1).sum::<f64>() / count);
    let spread: f64 = logs.iter().map(|p| (p.0 - x_mean).powi(2)).sum();
    let together: f64 = logs.iter().map(|p| (p.0 - x_mean) * (p.1 - y_mean)).sum();
    Some(together / spread).filter(|_| spread > 0.0)
}

/// A table of Markdown with its columns in line, so that it reads well on a terminal too.
struct Table {
    lines: Vec<Vec<String>>,
}

impl Table {
    fn new(head: &[&str]) -> Self {
        Table { lines: vec![head.iter().map(|word| word.to_string()).collect()] }
    }

    fn add(&mut self, line: Vec<String>) {
        self.lines.push(line);
    }

    fn text(&self) -> String {
        let columns = self.lines[0].len();
        let width = |column: usize| self.lines.iter().map(|line| line[column].chars().count()).max().unwrap_or(0).max(4);
        let widths: Vec<usize> = (0..columns).map(width).collect();
        let row = |line: &Vec<String>| {
            let cells: Vec<String> =
                line.iter().zip(&widths).enumerate().map(|(i, (cell, &width))| self.padded(i, cell, width)).collect();
            format!("| {} |", cells.join(" | "))
        };
        let rule =
            (0..columns).map(|i| if self.is_of_words(i) { "-".repeat(widths[i]) } else { "-".repeat(widths[i] - 1) + ":" });
        let rule = format!("| {} |", rule.collect::<Vec<_>>().join(" | "));
        let mut lines = vec![row(&self.lines[0]), rule];
        lines.extend(self.lines[1..].iter().map(row));
        lines.join("\n")
    }

    fn padded(&self, column: usize, cell: &str, width: usize) -> String {
        if self.is_of_words(column) {
            format!("{cell:width$}")
        } else {
            format!("{cell:>width$}")
        }
    }

    /// Words stand to the left, numbers to the right.
    fn is_of_words(&self, column: usize) -> bool {
        self.lines[1..].iter().any(|line| line[column].starts_with(|c: char| c.is_alphabetic()))
    }
}

/// Ours shouldn't grow faster than this power of nodes + vertices.
pub const MOST_GROWTH: f64 = 1.15;

/// Which measures of ours grow faster.
pub fn growing_faster(rows: &[Row]) -> Vec<Measure> {
    let grows = |&(i, _): &(usize, Measure)| matches!(exponent(&points(rows, i, None, nodes_and_vertices)), Some(fit) if fit > MOST_GROWTH);
    MEASURES.iter().copied().enumerate().filter(grows).map(|(_, measure)| measure).collect()
}

/// Which measures are below their goal, against the Rust as published.
pub fn below_goal(rows: &[Row]) -> Vec<Measure> {
    let is_below = |&(i, measure): &(usize, Measure)| {
        let ratios = ratios_of(rows, i, Rival::Published);
        let goal = measure.goal().filter(|_| !ratios.is_empty());
        matches!(goal, Some(goal) if geometric_mean(&ratios) < goal)
    };
    MEASURES.iter().copied().enumerate().filter(is_below).map(|(_, measure)| measure).collect()
}

/// With which exponents lifetimes take longer than their goal.
pub fn long_lifetimes(rows: &[Row]) -> Vec<u32> {
    let is_long = |&(i, _): &(usize, u32)| geometric_mean(&lifetime_ratios(rows, i)) > MOST_CELLS;
    EXPONENTS.iter().copied().enumerate().filter(is_long).map(|(_, exponent)| exponent).collect()
}
