//! Document 01, "Reading a finished tree", condition by condition over sets and maps, with the slabs of document 02; the way down by
//! first children and the walk that finds the vertices, on any tables; and what the program `counts` prints.

use super::build::{self, STATE_WORDS, TABLES};
use super::{cell, coordinates, corner_bit, is_cell, is_finite, is_inner, level, power_of_8, side, vertex, Answer, DEEPEST};
use std::collections::BTreeMap;

/// A tree as it is given, sound or not. Distances are bits here, so that two NaNs can be told apart.
#[derive(Clone, Debug, Default, PartialEq, Eq)]
pub struct Tables {
    pub keys: Vec<u64>,
    pub distances: Vec<u32>,
    pub firsts: Vec<u16>,
    pub leaves: Vec<u64>,
}

const GREATEST_LEVEL: u32 = 15;
pub(super) const GREATEST_EXPONENT: u32 = 15;

/// What a lookup answers: both with the number of keys tried. A place is where in the node tables the node stands.
#[derive(Clone, Copy, Debug, PartialEq, Eq)]
pub enum Lookup {
    Found { key: u64, distance: u32, place: u64, tried: u32 },
    Nothing { tried: u32 },
}

/// Eight keys, distances and places, and the sum of keys tried. Entry w is for the cell that has the vertex at its corner w.
#[derive(Clone, Copy, Debug, PartialEq, Eq)]
pub struct DualCell {
    pub keys: [u64; 8],
    pub distances: [u32; 8],
    pub places: [u64; 8],
    pub tried: u32,
}

/// A height in the cube, as a fraction of whole numbers.
#[derive(Clone, Copy, Debug, PartialEq, Eq)]
pub struct Height {
    pub above: u64,
    pub below: u64,
}

/// From where to where a cell reaches: the lowest and the highest of its eight node centres.
#[derive(Clone, Copy, Debug, PartialEq, Eq)]
pub struct Reach {
    pub lowest: Height,
    pub highest: Height,
}

/// The first and the last slab of a cell.
#[derive(Clone, Copy, Debug, PartialEq, Eq)]
pub struct Slabs {
    pub first: u32,
    pub last: u32,
}

/// A vertex with its level, and the places of the eight nodes round it, in the order of a dual cell.
#[derive(Clone, Copy, Debug, PartialEq, Eq)]
pub struct Placed {
    pub vertex: u64,
    pub level: u32,
    pub places: [u64; 8],
}

fn ascends(keys: &[u64]) -> bool {
    keys.windows(2).all(|two| two[0] < two[1])
}

/// The children that a key of level at most 15 has or would have.
fn children(key: u64) -> impl Iterator<Item = u64> {
    (0..8).map(move |which| 8 * key + which)
}

/// Where each key stands, at the first place if at several.
fn places(keys: &[u64]) -> BTreeMap<u64, usize> {
    keys.iter().enumerate().rev().map(|(place, &key)| (key, place)).collect()
}

/// For each key where its first child stands, and 0 where that isn't there; cut to 16 bits, as no sound tree needs.
pub fn firsts_of(keys: &[u64]) -> Vec<u16> {
    let places = places(keys);
    let first = |key: &u64| key.checked_mul(8).and_then(|child| places.get(&child)).map_or(0, |&place| place as u16);
    keys.iter().map(first).collect()
}

impl Tables {
    pub fn is_sound(&self) -> bool {
        if self.keys.len() != self.distances.len() || self.keys.len() != self.firsts.len() {
            return false;
        }
        if !self.distances.iter().all(|&bits| is_finite(f32::from_bits(bits))) {
            return false;
        }
        if !ascends(&self.keys) || self.keys.first() != Some(&1) {
            return false;
        }
        if !self.keys.iter().all(|&key| is_cell(key) && level(key) <= GREATEST_LEVEL) {
            return false;
        }
        let present = places(&self.keys);
        let children_of = |key| children(key).filter(|child| present.contains_key(child)).count();
        let without: Vec<u64> = self.keys.iter().copied().filter(|&key| children_of(key) == 0).collect();
        let is_right = |(&key, &first): (&u64, &u16)| match present.get(&(8 * key)) {
            Some(&place) => place == first as usize,
            None => first == 0,
        };
        self.keys.iter().all(|&key| key == 1 || present.contains_key(&(key / 8)))
            && self.keys.iter().all(|&key| [0, 8].contains(&children_of(key)))
            && self.keys.iter().zip(&self.firsts).all(is_right)
            && self.leaves == without
    }
}

/// A sound tree as reading needs it, or none.
pub struct Reading {
    tree: Option<Sound>,
}

struct Sound {
    /// Where each key stands.
    places: BTreeMap<u64, usize>,
    distances: Vec<u32>,
    vertices: BTreeMap<u64, u32>,
}

/// Every inner vertex of every leaf, with the greatest level of the leaves that give it.
fn vertices(leaves: &[u64]) -> BTreeMap<u64, u32> {
    let mut vertices = BTreeMap::new();
    for &leaf in leaves {
        for corner in 0..8 {
            let at = vertex(leaf, level(leaf), corner).expect("a cell key with its own level");
            if at != 0 {
                let greatest = vertices.entry(at).or_insert(0);
                *greatest = level(leaf).max(*greatest);
            }
        }
    }
    vertices
}

impl Reading {
    pub fn of(tables: &Tables) -> Self {
        let sound =
            || Sound { places: places(&tables.keys), distances: tables.distances.clone(), vertices: vertices(&tables.leaves) };
        Reading { tree: Some(tables).filter(|tables| tables.is_sound()).map(|_| sound()) }
    }

    pub fn is_sound(&self) -> bool {
        self.tree.is_some()
    }

    fn sound(&self) -> Answer<&Sound> {
        self.tree.as_ref().ok_or(11)
    }

    pub fn look_up(&self, key: u64) -> Answer<Lookup> {
        let tree = self.sound()?;
        if !is_cell(key) {
            return Err(1);
        }
        Ok(tree.look_up(key))
    }

    /// Every vertex with its level, ascending.
    pub fn vertices(&self) -> Answer<Vec<(u64, u32)>> {
        Ok(self.sound()?.vertices.iter().map(|(&vertex, &level)| (vertex, level)).collect())
    }

    /// Every vertex with the places of the nodes that its dual cell has.
    pub fn placed(&self) -> Answer<Vec<Placed>> {
        let placed = |(vertex, level)| Ok(Placed { vertex, level, places: self.dual_cell(vertex, level)?.places });
        self.vertices()?.into_iter().map(placed).collect()
    }

    /// Writes the list from a start place on. The answer is the number of vertices.
    pub fn list(&self, start: usize, vertices: &mut [u64], levels: &mut [u8]) -> Answer<usize> {
        write_list(&self.vertices()?, start, vertices, levels)
    }

    pub fn dual_cell(&self, vertex: u64, level: u32) -> Answer<DualCell> {
        let tree = self.sound()?;
        if !is_inner(vertex, level) || tree.places.len() == 1 {
            return Err(4);
        }
        let cell = around(vertex, level, |side| tree.look_up(side));
        assert!(cell.keys.iter().all(|&key| key != 0), "all of level 1 is present");
        Ok(cell)
    }

    pub fn slabs(&self, vertex: u64, level: u32, exponent: u32) -> Answer<Slabs> {
        self.dual_cell(vertex, level)?.reach().slabs(exponent)
    }
}

impl Height {
    /// That of a node's centre: (2c + 1) / 2^(l+1), for a key of level l with the z coordinate c. Where nothing was found, key and level
    /// are 0, and so is the coordinate.
    pub fn of_centre(key: u64) -> Self {
        let level = level(key);
        let [_, _, z] = coordinates(key, level);
        Height { above: 2 * z + 1, below: 2u64.pow(level + 1) }
    }

    pub fn is_below(self, other: Self) -> bool {
        self.above * other.below < other.above * self.below
    }

    /// The slab that it lies in: the height times 2^s, rounded down.
    fn slab_by(self, exponent: u32) -> u32 {
        (self.above * 2u64.pow(exponent) / self.below) as u32
    }
}

impl DualCell {
    pub fn reach(&self) -> Reach {
        Reach::of(&self.keys.map(Height::of_centre)).expect("eight heights")
    }
}

impl Reach {
    /// From the lowest to the highest of some heights; none, where there are none.
    pub fn of(heights: &[Height]) -> Option<Self> {
        let mut reach = heights.first().map(|&height| Reach { lowest: height, highest: height })?;
        for &height in heights {
            if height.is_below(reach.lowest) {
                reach.lowest = height;
            }
            if reach.highest.is_below(height) {
                reach.highest = height;
            }
        }
        Some(reach)
    }

    pub fn slabs(&self, exponent: u32) -> Answer<Slabs> {
        if exponent > GREATEST_EXPONENT {
            return Err(5);
        }
        Ok(Slabs { first: self.lowest.slab_by(exponent), last: self.highest.slab_by(exponent) })
    }
}

/// Writes a list of vertices with their levels from a start place on, where both tables have room. The answer is their number.
pub fn write_list(list: &[(u64, u32)], start: usize, vertices: &mut [u64], levels: &mut [u8]) -> Answer<usize> {
    let fits = |length: usize| start <= length && list.len() <= length - start;
    if !fits(vertices.len()) || !fits(levels.len()) {
        return Err(12);
    }
    for (i, &(vertex, level)) in list.iter().enumerate() {
        vertices[start + i] = vertex;
        levels[start + i] = level as u8;
    }
    Ok(list.len())
}

/// Writes the vertices that are no less than a number, as many as have room, with their levels and places. The answer is how many.
pub fn write_placed(placed: &[Placed], from: u64, vertices: &mut [u64], levels: &mut [u8], places: &mut [u64]) -> usize {
    let room = vertices.len().min(levels.len()).min(places.len() / 8);
    let wanted: Vec<&Placed> = placed.iter().filter(|at| at.vertex >= from).take(room).collect();
    for (i, at) in wanted.iter().enumerate() {
        vertices[i] = at.vertex;
        levels[i] = at.level as u8;
        places[8 * i..8 * i + 8].copy_from_slice(&at.places);
    }
    wanted.len()
}

/// What is looked up on the eight sides of an inner vertex; where nothing is found, key, distance and place are 0.
fn around(vertex: u64, level: u32, look_up: impl Fn(u64) -> Lookup) -> DualCell {
    let mut cell = DualCell { keys: [0; 8], distances: [0; 8], places: [0; 8], tried: 0 };
    for which in 0..8 {
        match look_up(side(vertex, level, which as u32).expect("an inner vertex")) {
            Lookup::Found { key, distance, place, tried } => {
                cell.keys[which] = key;
                cell.distances[which] = distance;
                cell.places[which] = place;
                cell.tried += tried;
            }
            Lookup::Nothing { tried } => cell.tried += tried,
        }
    }
    cell
}

/// The cells that the way down from the root comes to, each with its place: reading without a check, of tables that needn't hold a
/// sound tree. A way by places alone could go round for ever; but a step asks for the child's own key, so each place belongs to one cell.
pub struct Descent {
    cells: BTreeMap<u64, usize>,
    distances: Vec<u32>,
    keys_length: usize,
}

/// What the walk over the cells finds, and how many cells it goes through.
#[derive(Default)]
pub struct Walk {
    pub placed: Vec<Placed>,
    pub cells: usize,
}

impl Tables {
    /// Where the step down from a cell leads that stands at a place: to eight places of the table, of which the first holds the cell's
    /// first child.
    fn step(&self, cell: u64, place: usize) -> Option<usize> {
        let first = *self.firsts.get(place)? as usize;
        let eight = self.keys.get(first..first + 8)?;
        Some(first).filter(|_| first % 8 == 1 && eight[0] == 8 * cell)
    }

    pub fn descent(&self) -> Descent {
        let mut cells = BTreeMap::new();
        let mut to_go = vec![(1, 0)];
        while let Some((cell, place)) = to_go.pop() {
            cells.insert(cell, place);
            // The deepest cells have no children's keys.
            if let Some(first) = Some(cell).filter(|&cell| level(cell) < DEEPEST).and_then(|cell| self.step(cell, place)) {
                to_go.extend(children(cell).zip(first..));
            }
        }
        Descent { cells, distances: self.distances.clone(), keys_length: self.keys.len() }
    }
}

impl Descent {
    /// A step leads down from the cell: its children were come to.
    fn is_split(&self, cell: u64) -> bool {
        self.cells.contains_key(&(8 * cell))
    }

    /// The node over a cell: of the cell and those above it the first that was come to, with its place. The root always was.
    fn over(&self, cell: u64) -> (u64, usize) {
        self.cells.get(&cell).map_or_else(|| self.over(cell / 8), |&place| (cell, place))
    }

    /// The node over a key, but for the root.
    fn find(&self, asked: u64) -> Lookup {
        match self.over(asked) {
            (1, _) => Lookup::Nothing { tried: level(asked) },
            (key, place) => {
                let distance = self.distances.get(place).copied().unwrap_or(0);
                Lookup::Found { key, distance, place: place as u64, tried: level(asked) - level(key) + 1 }
            }
        }
    }

    pub fn look_up_trusting(&self, key: u64) -> Answer<Lookup> {
        if !is_cell(key) {
            return Err(1);
        }
        Ok(self.find(key))
    }

    pub fn dual_cell_trusting(&self, vertex: u64, level: u32) -> Answer<DualCell> {
        if !is_inner(vertex, level) || self.keys_length == 1 {
            return Err(4);
        }
        Ok(around(vertex, level, |side| self.find(side)))
    }

    pub fn slabs_trusting(&self, vertex: u64, level: u32, exponent: u32) -> Answer<Slabs> {
        self.dual_cell_trusting(vertex, level)?.reach().slabs(exponent)
    }

    /// The node over the cell that is lower on the axes of a corner's bits; none outside the cube.
    fn entry(&self, level: u32, of: u64, corner: u32) -> Option<(u64, usize)> {
        let mut at = coordinates(of, level);
        for (axis, c) in at.iter_mut().enumerate() {
            *c = c.checked_sub(corner_bit(corner, axis))?;
        }
        Some(self.over(cell(level, at)))
    }

    pub fn walk(&self) -> Walk {
        let mut walk = Walk::default();
        self.go_over(0, 1, &mut walk);
        walk
    }

    /// The walk over the cells from the root down, in the words of crates/vertices/specs/Walk.antt. It goes into the children of a cell
    /// with a split entry of its own level, down to the limit. Else it ends: the cell's low corner is found if all entries are nodes and
    /// one has the cell's own level. What a parent found isn't handed down.
    fn go_over(&self, at: u32, cell: u64, walk: &mut Walk) {
        walk.cells += 1;
        let entries = [0, 1, 2, 3, 4, 5, 6, 7].map(|corner| self.entry(at, cell, corner));
        let mut of_level = entries.iter().flatten().filter(|&&(key, _)| level(key) == at);
        if of_level.clone().any(|&(key, _)| self.is_split(key)) {
            if at < GREATEST_LEVEL {
                children(cell).for_each(|child| self.go_over(at + 1, child, walk));
            }
        } else if entries.iter().all(Option::is_some) && of_level.next().is_some() {
            let places = entries.map(|entry| entry.map_or(0, |(_, place)| place as u64));
            walk.placed.push(Placed { vertex: cell * power_of_8(DEEPEST - at) as u64, level: at, places });
        }
    }
}

impl Walk {
    /// The vertices with their levels alone.
    pub fn vertices(&self) -> Vec<(u64, u32)> {
        self.placed.iter().map(|at| (at.vertex, at.level)).collect()
    }
}

impl Sound {
    /// Of the key and its ancestors of level 1 or more, the deepest present.
    fn look_up(&self, asked: u64) -> Lookup {
        let mut key = asked;
        while level(key) >= 1 {
            if let Some(&place) = self.places.get(&key) {
                let (distance, tried) = (self.distances[place], level(asked) - level(key) + 1);
                return Lookup::Found { key, distance, place: place as u64, tried };
            }
            key /= 8;
        }
        Lookup::Nothing { tried: level(asked) }
    }
}

/// The length of each table of `counts`.
const COUNTS_ROOM: usize = 1024;

/// What `counts` prints for the bytes of its input.
pub fn counts(input: &[u8]) -> String {
    match counted(input) {
        None => "short\n".to_string(),
        Some(Err(number)) => format!("refused {number}\n"),
        Some(Ok([nodes, leaves, vertices])) => format!("{nodes} {leaves} {vertices}\n"),
    }
}

/// Nodes, leaves and vertices, or a refusal; none, where the input ends first.
fn counted(input: &[u8]) -> Option<Answer<[usize; 3]>> {
    let (&bound, input) = input.split_first()?;
    let mut distances = input.chunks_exact(4).map(|bytes| f32::from_le_bytes([bytes[0], bytes[1], bytes[2], bytes[3]]));
    let (mut state, mut tables) = ([0; STATE_WORDS], build::Tables::of([COUNTS_ROOM; TABLES]));
    if let Err(number) = build::start(bound as u32, &tables, &mut state) {
        return Some(Err(number));
    }
    loop {
        match build::distance(&mut state, &mut tables, distances.next()?) {
            Err(number) => return Some(Err(number)),
            Ok(Some(_)) => {}
            Ok(None) => break,
        }
    }
    let tree = Tables::finished(&state, &tables);
    let vertices = Reading::of(&tree).list(0, &mut [0; COUNTS_ROOM], &mut [0; COUNTS_ROOM]);
    Some(vertices.map(|vertices| [tree.keys.len(), tree.leaves.len(), vertices]))
}

impl Tables {
    /// The tree of a finished build: the first n keys, distances and first children, and the first m leaves.
    pub fn finished(state: &[u64; STATE_WORDS], tables: &build::Tables) -> Self {
        let (n, m) = (state[1] as usize, state[2] as usize);
        Tables {
            keys: tables.keys[..n].to_vec(),
            distances: tables.distances[..n].to_vec(),
            firsts: tables.firsts[..n].to_vec(),
            leaves: tables.leaves[..m].to_vec(),
        }
    }
}
