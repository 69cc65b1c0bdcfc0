//! What `mittenhelm --help` prints.

use super::build::{LEAST_BOUND, MOST_NODES};
use super::csv::TABLES;
use super::cut::{MOST_BOUND, MOST_EXPONENT, USUAL_BOUND, USUAL_EXPONENT};
use super::fields::BUILT_INS;
use super::grid::POINTS;
use super::memory::LEAF_DATA;
use super::sample::USUAL_POINTS;

pub fn page() -> String {
    let parts: String = BUILT_INS.iter().map(|part| format!("  {:<11} {}\n", part.name, part.about)).collect();
    let table = |name, about, columns| format!("  {name:<11} {about}:\n      {columns}\n");
    let tables: String = TABLES.iter().map(|each| table(each.name, each.about, each.columns)).collect();
    let (least, most) = (POINTS.start(), POINTS.end());
    let usual_slabs = 1 << USUAL_EXPONENT;
    format!(
        "\
usage: mittenhelm slice PART [--bound N] [--exponent N] [--nodes N]
                             [--csv TABLE] [--svg FILE [--slab K]]
                             [--lifetimes FILE]
       mittenhelm sample PART [--points N | --points NX,NY,NZ] [-o FILE]
       mittenhelm key NUMBER

slice builds the octree over a part, answering one asked distance after another,
checks the tree, lists its vertices and gets the dual cell of each. It reports
what there is, what memory that took, how many cells reach each slab, and how
many leaves are needed at it.
  --bound N   split no cell of level N: 0 to {MOST_BOUND}, default {USUAL_BOUND};
              below {LEAST_BOUND} it is as {LEAST_BOUND}
  --exponent N
              the slab exponent: 2^N slabs along z, 0 to {MOST_EXPONENT}, default {USUAL_EXPONENT},
              which is {usual_slabs} slabs
  --nodes N   lend room for N nodes: 1 to {MOST_NODES}, default {MOST_NODES}; for leaves and
              in the queue there are (7N + 1) / 8 places
  --csv TABLE print a table for programs, not the report
  --svg FILE  draw a slab: the leaves that its middle plane cuts, y upwards; the
              vertices of the cells that reach it; and marks on the leaves of
              those cells, dashed on such as the plane doesn't cut
  --slab K    the slab that is drawn, from 0 on, default the middle one
  --lifetimes FILE
              draw when each leaf is needed: a bar from its first slab to its
              last, ordered by first slab, then key; and above the bars how many
              are needed at each slab, with the greatest number marked

sample writes a part as a grid file, to FILE or to standard output.
  --points N  samples on each axis: {least} to {most}, default {USUAL_POINTS}; or three such
              numbers, for x, y and z

key prints what the number is as an octree key: level, parent, children, half
size, centre, and for each corner its vertex and the cells on the vertex's eight
sides: that on side w has the vertex at its own corner w. NUMBER is decimal, or
hexadecimal after 0x, up to 64 bits.

PART is a built-in part, or else a grid file (./sphere is a file of that name):
{parts}
A grid file is a line `mittenhelm-grid NX NY NZ`, then NX x NY x NZ samples as
f32, little-endian, x fastest, then y, then z. Each axis has {least} to {most}, the first
at 0 and the last at 1. A sample is the distance to the part's surface, negative
inside, where the cube's side is 1; it is finite. Between samples the field is
interpolated trilinearly.

TABLE is one of these. A row with the columns' names goes first, then there is a
row for
{tables}
A cell reaches from the lowest of its eight node centres to the highest: `first`
and `last` are the slabs that hold these two heights. It counts in both and in
all between, so the numbers of all slabs may add up to more than there are. In
the report, slabs in a row that have the same numbers are one line.

A leaf is needed in each slab that a cell reaches which has it: of a leaf
`first` and `last` are the least first and the greatest last slab of its cells,
and `needed` is the number of leaves that are needed at a slab. The report says
what the data of so many takes, at {LEAF_DATA} bytes a leaf, beside that of all.

A cell is crossed if the part's surface goes through it: of its eight distances
some are below 0 and some aren't. Fractions have as many decimals as f32 needs.
A place is where a node stands among all nodes, which ascend by their keys; the
root has place 0.

Node w of a dual cell is the cell that has the vertex at its corner w, or the
leaf over that cell: node 0 lies above the vertex on all axes, node 7 below on
all. With the root and its children alone, keys 1, 8, 9, .., 15 at the places 0
to 8, the vertex 0xf000000000000000 in the middle of the cube would have the
keys 15, 14, .., 8 at the places 8, 7, .., 1: node 0 is 15, whose corner 0 is
the vertex, and node 7 is 8, whose corner 7 is.

The status is 0 where all was done, 1 where the library refused or a result
couldn't be written, 2 for bad arguments or a bad grid file.
"
    )
}
