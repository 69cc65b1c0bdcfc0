//! The calls that read a finished tree, over sound trees, nearly sound ones and noise.

use crate::case::{same, told, Case, Checked, Out};
use crate::inputs::{disturb, number, or_edge, vertex_and_level};
use crate::outcomes::{yes_or_no, ACCEPTED};
use mittenhelm::most_vertices;
use mittenhelm::raw::{
    mittenhelm_cells_trusting, mittenhelm_dual_cell, mittenhelm_dual_cell_trusting, mittenhelm_lifetimes,
    mittenhelm_lifetimes_trusting, mittenhelm_list, mittenhelm_list_trusting, mittenhelm_look_up, mittenhelm_look_up_trusting,
    mittenhelm_slabs, mittenhelm_slabs_trusting, mittenhelm_sound,
};
use oracle_answers::broken::{change, BREAKS};
use oracle_answers::fields::{field, KINDS};
use oracle_answers::inputs::Random;
use oracle_answers::lent::{levels_before, one_nan, places_before, report_before, vertices_before, Fenced};
use oracle_answers::misled::FORGERIES;
use oracle_answers::model::lifetimes::{Lifetimes, Needs};
use oracle_answers::model::reading::{
    firsts_of, write_list, write_placed, Descent, DualCell, Lookup, Placed, Reading, Slabs, Tables, Walk,
};
use oracle_answers::model::{self, level, Answer};
use oracle_answers::questions::{asked, great_starts, lengths};
use oracle_answers::trees::{grown, small, Tree, GROWTHS};
use std::cell::RefCell;
use std::rc::Rc;

/// How often a case makes its call on its tree.
const TIMES: u32 = 20;

/// The same of a call that reports on the whole tree, for which there is less to choose.
const REPORTS: u32 = 5;

/// The out parameters for what a lookup finds.
struct Found {
    key: Out<u64>,
    distance: Out<u32>,
    place: Out<u64>,
    tried: Out<u32>,
}

impl Found {
    fn new() -> Self {
        Found { key: Out::new(), distance: Out::new(), place: Out::new(), tried: Out::new() }
    }

    fn lend(&mut self) -> (&mut u64, &mut f32, &mut u64, &mut u32) {
        (self.key.place(), self.distance.float(), self.place.place(), self.tried.place())
    }

    /// Where nothing is found, the key, the distance and the place are 0. What one finds who trusts a tree may be a NaN.
    fn differences(mut self, answer: Option<Lookup>) -> [Option<String>; 4] {
        let out = answer.map(|answer| match answer {
            Lookup::Found { key, distance, place, tried } => (key, one_nan(distance), place, tried),
            Lookup::Nothing { tried } => (0, 0, 0, tried),
        });
        self.distance.settle(one_nan);
        [
            self.key.difference(out.map(|(key, ..)| [key]), "key found"),
            self.distance.difference(out.map(|(_, distance, ..)| [distance]), "distance found"),
            self.place.difference(out.map(|(_, _, place, _)| [place]), "place found"),
            self.tried.difference(out.map(|(.., tried)| [tried]), "number tried"),
        ]
    }
}

/// The out parameters for a dual cell.
struct Cell {
    keys: Out<u64, 8>,
    distances: Out<u32, 8>,
    places: Out<u64, 8>,
    tried: Out<u32>,
}

impl Cell {
    fn new() -> Self {
        Cell { keys: Out::new(), distances: Out::new(), places: Out::new(), tried: Out::new() }
    }

    fn lend(&mut self) -> (&mut [u64; 8], &mut [f32; 8], &mut [u64; 8], &mut u32) {
        (self.keys.all(), self.distances.floats(), self.places.all(), self.tried.place())
    }

    fn differences(mut self, answer: Option<DualCell>) -> [Option<String>; 4] {
        self.distances.settle(one_nan);
        [
            self.keys.difference(answer.map(|cell| cell.keys), "eight keys"),
            self.distances.difference(answer.map(|cell| cell.distances.map(one_nan)), "eight distances"),
            self.places.difference(answer.map(|cell| cell.places), "eight places"),
            self.tried.difference(answer.map(|cell| [cell.tried]), "number tried"),
        ]
    }
}

/// Calls a function of the boundary with some of a tree's tables first, each a pointer and a length.
macro_rules! with_tables {
    ($call:ident, $given:expr, [$($table:ident),*] $(, $more:expr)*) => {
        unsafe { $call($($given.$table.part().as_ptr().cast(), $given.$table.part().len() as u64,)* $($more),*) }
    };
}

/// The same with the three of the nodes.
macro_rules! with_nodes {
    ($call:ident, $given:expr $(, $more:expr)*) => {
        with_tables!($call, $given, [keys, distances, firsts] $(, $more)*)
    };
}

/// The same with all four.
macro_rules! with_tree {
    ($call:ident, $given:expr $(, $more:expr)*) => {
        with_tables!($call, $given, [keys, distances, firsts, leaves] $(, $more)*)
    };
}

/// A tree that is lent to calls, sound or not, and what the model makes of it.
pub struct Given {
    keys: Fenced<u64>,
    distances: Fenced<u32>,
    firsts: Fenced<u16>,
    leaves: Fenced<u64>,
    tables: Tables,
    reading: Reading,
    /// The vertices with their levels; none, where the tree isn't sound.
    vertices: Vec<(u64, u32)>,
    /// What one comes to who trusts the tree.
    descent: Descent,
    /// The walk of one who trusts it, and what the tree needs its leaves for, to one who checks it and to one who trusts it; once they were
    /// asked for.
    walk: RefCell<Option<Rc<Walk>>>,
    checked_needs: RefCell<Option<Rc<Answer<Needs>>>>,
    trusted_needs: RefCell<Option<Rc<Needs>>>,
}

impl Given {
    pub fn new(tables: Tables) -> Self {
        let reading = Reading::of(&tables);
        Given {
            keys: Fenced::new(&tables.keys),
            distances: Fenced::new(&tables.distances),
            firsts: Fenced::new(&tables.firsts),
            leaves: Fenced::new(&tables.leaves),
            vertices: reading.vertices().unwrap_or_default(),
            reading,
            descent: tables.descent(),
            tables,
            walk: RefCell::new(None),
            checked_needs: RefCell::new(None),
            trusted_needs: RefCell::new(None),
        }
    }

    /// The vertices that one finds who trusts the tree, with the places of the nodes round each. No forged tree has more of them, or
    /// keeps the walk longer, than its keys allow; and no place is past their end.
    fn walk(&self) -> Rc<Walk> {
        let walk = || {
            let (walk, keys) = (self.descent.walk(), self.tables.keys.len());
            assert!(walk.placed.len() <= most_vertices(keys) && walk.cells <= 1 + 64 * (keys / 8), "{}", self.told());
            assert!(walk.placed.iter().all(|at| at.places.iter().all(|&place| place < keys as u64)), "{}", self.told());
            Rc::new(walk)
        };
        self.walk.borrow_mut().get_or_insert_with(walk).clone()
    }

    /// What differs in the tree's own tables, which no call may write to, and in what is handed out.
    fn with_tables<const N: usize>(&self, handed: [Option<String>; N]) -> Vec<Option<String>> {
        let tables = [
            self.keys.difference(&self.tables.keys, "tree's keys"),
            self.distances.difference(&self.tables.distances, "tree's distances"),
            self.firsts.difference(&self.tables.firsts, "tree's first children"),
            self.leaves.difference(&self.tables.leaves, "tree's leaves"),
        ];
        handed.into_iter().chain(tables).collect()
    }

    fn told(&self) -> String {
        let Tables { keys, distances, firsts, leaves } = &self.tables;
        let [distances, firsts] = [told(distances), told(firsts)];
        format!("keys of {}, distances of {distances}, first children of {firsts}, leaves of {}", told(keys), told(leaves))
    }

    fn sound(&self, case: &mut Case) -> Checked {
        let ours = with_tree!(mittenhelm_sound, self);
        let expected = self.reading.is_sound();
        let differences = self.with_tables([same(&ours, &(expected as u8), "answer")]);
        case.judge("sound", 0, Ok(yes_or_no(expected)), &differences, || self.told())
    }

    /// A key of the tree, one near it, or any number.
    fn some_key(&self, random: &mut Random) -> u64 {
        if self.tables.keys.is_empty() || random.below(4) == 0 {
            number(random)
        } else {
            asked(&self.tables, random)
        }
    }

    fn look_up(&self, case: &mut Case) -> Checked {
        let (key, mut found) = (self.some_key(&mut case.random), Found::new());
        let (node, distance, place, tried) = found.lend();
        let said = with_tree!(mittenhelm_look_up, self, key, node, distance, place, tried);
        self.judge_look_up(case, "look_up", key, said, found, self.reading.look_up(key))
    }

    fn look_up_trusting(&self, case: &mut Case) -> Checked {
        let (key, mut found) = (self.some_key(&mut case.random), Found::new());
        let (node, distance, place, tried) = found.lend();
        let said = with_nodes!(mittenhelm_look_up_trusting, self, key, node, distance, place, tried);
        self.judge_look_up(case, "look_up_trusting", key, said, found, self.descent.look_up_trusting(key))
    }

    /// Judges a call that looks a key up in the tree.
    fn judge_look_up(
        &self,
        case: &mut Case,
        name: &'static str,
        key: u64,
        said: u32,
        found: Found,
        expected: Answer<Lookup>,
    ) -> Checked {
        let way = expected.map(|answer| match answer {
            Lookup::Found { .. } => "found",
            Lookup::Nothing { .. } => "nothing",
        });
        let differences = self.with_tables(found.differences(expected.ok()));
        case.judge(name, said, way, &differences, || format!("{}, {key:#x}", self.told()))
    }

    /// A start place, and lengths of the vertex table and the level table, for a list of so many vertices.
    fn some_room(&self, count: usize, random: &mut Random) -> (usize, [usize; 2]) {
        let start = match random.below(8) {
            0..=2 => 0,
            3 | 4 => random.below(40) as usize,
            5 => count,
            6 => random.one_of(&great_starts(count)),
            _ => random.bits() as usize,
        };
        // No table is as long as a great start place.
        let from = if start <= count.max(40) { start } else { random.below(40) as usize };
        let mut around = lengths(from, count);
        // A list goes over the tree once or twice, as there is room for the most vertices or not.
        let most = from + most_vertices(self.tables.keys.len());
        around.extend([most.saturating_sub(1), most, most, most + 1]);
        let enough = from + count + random.below(3) as usize;
        let rooms = [(); 2].map(|()| if random.below(2) == 0 { enough } else { random.one_of(&around) });
        (start, rooms)
    }

    fn list(&self, case: &mut Case) -> Checked {
        self.list_by(
            case,
            "list",
            self.vertices.len(),
            |start, vertices, v, levels, l, count| with_tree!(mittenhelm_list, self, start, vertices, v, levels, l, count),
            |start, vertices, levels| self.reading.list(start, vertices, levels),
        )
    }

    fn list_trusting(&self, case: &mut Case) -> Checked {
        let walked = self.walk().vertices();
        self.list_by(
            case,
            "list_trusting",
            walked.len(),
            |start, vertices, v, levels, l, count| {
                with_tables!(mittenhelm_list_trusting, self, [keys, firsts], start, vertices, v, levels, l, count)
            },
            |start, vertices, levels| write_list(&walked, start, vertices, levels),
        )
    }

    /// A call that lists so many vertices, beside the model's.
    fn list_by(
        &self,
        case: &mut Case,
        name: &'static str,
        count: usize,
        ours: impl Fn(u64, *mut u64, u64, *mut u8, u64, &mut u64) -> u32,
        model: impl Fn(usize, &mut [u64], &mut [u8]) -> Answer<usize>,
    ) -> Checked {
        let (start, [vertices, levels]) = self.some_room(count, &mut case.random);
        let (mut vertices, mut levels) = (vertices_before(vertices), levels_before(levels));
        let (mut our_vertices, mut our_levels, mut count) = (Fenced::new(&vertices), Fenced::new(&levels), Out::<u64>::new());
        let (v, l) = (our_vertices.lend(), our_levels.lend());
        let said = ours(start as u64, v.as_mut_ptr(), v.len() as u64, l.as_mut_ptr(), l.len() as u64, count.place());
        let expected = model(start, &mut vertices, &mut levels);
        let differences = self.with_tables([
            count.difference(expected.ok().map(|count| [count as u64]), "count"),
            our_vertices.difference(&vertices, "vertices"),
            our_levels.difference(&levels, "levels"),
        ]);
        let way = expected.map(|count| if count == 0 { "none" } else { "vertices" });
        let arguments = || format!("{}, {start:#x}, tables of {} and {}", self.told(), vertices.len(), levels.len());
        case.judge(name, said, way, &differences, arguments)
    }

    /// A number that vertices are wanted from: 0, about a vertex, or any.
    fn some_from(&self, placed: &[Placed], random: &mut Random) -> u64 {
        match random.below(6) {
            0 => 0,
            1 => number(random),
            _ if placed.is_empty() => self.some_key(random),
            _ => placed[random.below(placed.len() as u64) as usize].vertex.wrapping_add(random.below(3)).wrapping_sub(1),
        }
    }

    fn cells_trusting(&self, case: &mut Case) -> Checked {
        let placed = &self.walk().placed;
        let from = self.some_from(placed, &mut case.random);
        let (_, [vertices, levels]) = self.some_room(placed.len(), &mut case.random);
        let places = match case.random.below(3) {
            0 => 8 * vertices.min(levels),
            1 => 8 * placed.len() + case.random.below(9) as usize,
            _ => case.random.below(8 * placed.len() as u64 + 9) as usize,
        };
        let (mut vertices, mut levels, mut places) = (vertices_before(vertices), levels_before(levels), places_before(places));
        let (mut our_vertices, mut our_levels, mut our_places) =
            (Fenced::new(&vertices), Fenced::new(&levels), Fenced::new(&places));
        let (v, l, p) = (our_vertices.lend(), our_levels.lend(), our_places.lend());
        let (v_length, l_length, p_length) = (v.len() as u64, l.len() as u64, p.len() as u64);
        let (v, l, p) = (v.as_mut_ptr(), l.as_mut_ptr(), p.as_mut_ptr());
        let said = with_tables!(mittenhelm_cells_trusting, self, [keys, firsts], from, v, v_length, l, l_length, p, p_length);
        let expected = write_placed(placed, from, &mut vertices, &mut levels, &mut places);
        let differences = self.with_tables([
            same(&said, &(expected as u64), "count"),
            our_vertices.difference(&vertices, "vertices"),
            our_levels.difference(&levels, "levels"),
            our_places.difference(&places, "places"),
        ]);
        let way = if expected == 0 { "none" } else { "vertices" };
        let lengths = [vertices.len(), levels.len(), places.len()];
        case.judge("cells_trusting", 0, Ok(way), &differences, || format!("{}, {from:#x}, tables of {lengths:?}", self.told()))
    }

    /// A vertex that is listed, a corner of a cell in or below the tree, or any number; with its level or another one.
    fn some_vertex(&self, listed: &[(u64, u32)], random: &mut Random) -> (u64, u32) {
        match random.below(4) {
            0 => vertex_and_level(random),
            1 if !listed.is_empty() => {
                let (vertex, level) = random.one_of(listed);
                (vertex, or_edge(random.level(level), random))
            }
            _ => {
                let cell = self.some_key(random);
                let vertex = model::vertex(cell, level(cell), random.below(8) as u32);
                (vertex.unwrap_or(cell), or_edge(level(cell), random))
            }
        }
    }

    fn dual_cell(&self, case: &mut Case) -> Checked {
        let ((vertex, level), mut cell) = (self.some_vertex(&self.vertices, &mut case.random), Cell::new());
        let (keys, distances, places, tried) = cell.lend();
        let said = with_tree!(mittenhelm_dual_cell, self, vertex, level, keys, distances, places, tried);
        self.judge_dual_cell(case, "dual_cell", (vertex, level), said, cell, self.reading.dual_cell(vertex, level))
    }

    fn dual_cell_trusting(&self, case: &mut Case) -> Checked {
        let walk = self.walk();
        let ((vertex, level), mut cell) = (self.some_vertex(&walk.vertices(), &mut case.random), Cell::new());
        let (keys, distances, places, tried) = cell.lend();
        let said = with_nodes!(mittenhelm_dual_cell_trusting, self, vertex, level, keys, distances, places, tried);
        let expected = self.descent.dual_cell_trusting(vertex, level);
        // A listed vertex has the places that it is handed out with.
        if let Some(at) = walk.placed.iter().find(|at| (at.vertex, at.level) == (vertex, level)) {
            assert_eq!(expected.map(|cell| cell.places), Ok(at.places), "{vertex:#x}, {level}: {}", self.told());
        }
        self.judge_dual_cell(case, "dual_cell_trusting", (vertex, level), said, cell, expected)
    }

    /// Judges a call that gives a dual cell in the tree.
    fn judge_dual_cell(
        &self,
        case: &mut Case,
        name: &'static str,
        (vertex, level): (u64, u32),
        said: u32,
        cell: Cell,
        expected: Answer<DualCell>,
    ) -> Checked {
        let differences = self.with_tables(cell.differences(expected.ok()));
        case.judge(name, said, expected.map(|_| ACCEPTED), &differences, || format!("{}, {vertex:#x}, {level}", self.told()))
    }

    fn slabs(&self, case: &mut Case) -> Checked {
        let (vertex, level) = self.some_vertex(&self.vertices, &mut case.random);
        let (exponent, mut first, mut last) = (some_exponent(&mut case.random), Out::new(), Out::new());
        let said = with_tree!(mittenhelm_slabs, self, vertex, level, exponent, first.place(), last.place());
        let expected = self.reading.slabs(vertex, level, exponent);
        self.judge_slabs(case, "slabs", (vertex, level, exponent), said, [first, last], expected)
    }

    fn slabs_trusting(&self, case: &mut Case) -> Checked {
        let (vertex, level) = self.some_vertex(&self.walk().vertices(), &mut case.random);
        let (exponent, mut first, mut last) = (some_exponent(&mut case.random), Out::new(), Out::new());
        let (first_out, last_out) = (first.place(), last.place());
        let said = with_tables!(mittenhelm_slabs_trusting, self, [keys, firsts], vertex, level, exponent, first_out, last_out);
        let expected = self.descent.slabs_trusting(vertex, level, exponent);
        self.judge_slabs(case, "slabs_trusting", (vertex, level, exponent), said, [first, last], expected)
    }

    /// Judges a call that gives the slabs of a cell in the tree.
    fn judge_slabs(
        &self,
        case: &mut Case,
        name: &'static str,
        (vertex, level, exponent): (u64, u32, u32),
        said: u32,
        [first, last]: [Out<u32>; 2],
        expected: Answer<Slabs>,
    ) -> Checked {
        let out = expected.ok();
        let differences = self.with_tables([
            first.difference(out.map(|slabs| [slabs.first]), "first slab"),
            last.difference(out.map(|slabs| [slabs.last]), "last slab"),
        ]);
        let way = expected.map(|slabs| if slabs.first == slabs.last { "one slab" } else { "several" });
        let arguments = || format!("{}, {vertex:#x}, {level}, {exponent}", self.told());
        case.judge(name, said, way, &differences, arguments)
    }

    fn lifetimes(&self, case: &mut Case) -> Checked {
        let needs = || Rc::new(Needs::of_sound(&self.tables, &self.reading));
        let needs = self.checked_needs.borrow_mut().get_or_insert_with(needs).clone();
        self.lifetimes_by(
            case,
            "lifetimes",
            |exponent, first, f, last, l, needed, n, greatest| {
                with_tree!(mittenhelm_lifetimes, self, exponent, first, f, last, l, needed, n, greatest)
            },
            |exponent| needs.as_ref().as_ref().map_err(|&number| number)?.lifetimes(exponent),
        )
    }

    fn lifetimes_trusting(&self, case: &mut Case) -> Checked {
        let needs = || Rc::new(Needs::of_trusted(&self.tables, &self.walk()));
        let needs = self.trusted_needs.borrow_mut().get_or_insert_with(needs).clone();
        self.lifetimes_by(
            case,
            "lifetimes_trusting",
            |exponent, first, f, last, l, needed, n, greatest| {
                with_tables!(
                    mittenhelm_lifetimes_trusting,
                    self,
                    [keys, firsts],
                    exponent,
                    first,
                    f,
                    last,
                    l,
                    needed,
                    n,
                    greatest
                )
            },
            |exponent| needs.lifetimes(exponent),
        )
    }

    /// Lengths for first slabs, last slabs and numbers: mostly enough, or anything about that.
    fn some_report_room(&self, exponent: u32, random: &mut Random) -> [usize; 3] {
        // In a tree that isn't sound, a report may have other places than the leaf table.
        let (nodes, leaves) = (self.tables.keys.len(), self.tables.leaves.len());
        let enough = nodes - nodes.saturating_sub(1) / 8;
        let slabs = 1 << exponent.min(15);
        let around = |length: usize| [length, length + 1, length.saturating_sub(1), length / 2, 2 * length];
        let others = [around(enough), around(leaves), around(nodes)].concat();
        [(enough, &others[..]), (enough, &others), (slabs, &around(slabs))].map(|(enough, others)| match random.below(8) {
            0 | 1 => random.one_of(others),
            2 => random.below(enough as u64 + 2) as usize,
            _ => enough + random.below(3) as usize,
        })
    }

    /// A call that reports lifetimes, beside the model's.
    fn lifetimes_by(
        &self,
        case: &mut Case,
        name: &'static str,
        ours: impl Fn(u32, *mut u32, u64, *mut u32, u64, *mut u32, u64, &mut u32) -> u32,
        model: impl Fn(u32) -> Answer<Lifetimes>,
    ) -> Checked {
        // Many slabs take their time.
        let some = case.random.below(6) as u32;
        let exponent = if case.random.below(8) == 0 { some_exponent(&mut case.random) } else { some };
        let lengths = self.some_report_room(exponent, &mut case.random);
        let [mut first, mut last, mut needed] = lengths.map(report_before);
        let [mut our_first, mut our_last, mut our_needed] = [&first, &last, &needed].map(|table| Fenced::new(table));
        let mut greatest = Out::<u32>::new();
        let [f, l, n] = [our_first.lend(), our_last.lend(), our_needed.lend()];
        let [f_length, l_length, n_length] = [f.len(), l.len(), n.len()].map(|length| length as u64);
        let (f, l, n) = (f.as_mut_ptr(), l.as_mut_ptr(), n.as_mut_ptr());
        let said = ours(exponent, f, f_length, l, l_length, n, n_length, greatest.place());
        let expected = model(exponent).and_then(|report| report.write(&mut first, &mut last, &mut needed));
        let differences = self.with_tables([
            greatest.difference(expected.ok().map(|greatest| [greatest]), "greatest number"),
            our_first.difference(&first, "first slabs"),
            our_last.difference(&last, "last slabs"),
            our_needed.difference(&needed, "numbers of leaves"),
        ]);
        let way = expected.map(|greatest| if greatest == 0 { "none needed" } else { "leaves" });
        let arguments = || format!("{}, {exponent}, tables of {lengths:?}", self.told());
        case.judge(name, said, way, &differences, arguments)
    }

    /// Each call once.
    pub fn every_call(&self, case: &mut Case) -> Checked {
        self.sound(case)?;
        self.look_up(case)?;
        self.list(case)?;
        self.dual_cell(case)?;
        self.slabs(case)?;
        self.lifetimes(case)?;
        self.look_up_trusting(case)?;
        self.list_trusting(case)?;
        self.cells_trusting(case)?;
        self.dual_cell_trusting(case)?;
        self.slabs_trusting(case)?;
        self.lifetimes_trusting(case)
    }
}

/// A slab exponent, mostly one that is accepted.
fn some_exponent(random: &mut Random) -> u32 {
    let some = random.below(17) as u32;
    or_edge(some, random)
}

/// A tree for a case: noise, sound, or nearly sound.
fn some_tree(random: &mut Random) -> Tables {
    let mut tables = match random.below(16) {
        0 => noise(random, number),
        // Ascending, and so small that children and parents are often there.
        1 => {
            let mut tables = noise(random, |random| random.below(20));
            tables.keys.sort_unstable();
            tables.keys.dedup();
            tables.distances.resize(tables.keys.len(), 7);
            tables.firsts = firsts_of(&tables.keys);
            tables
        }
        2 => {
            let bound = random.below(4) as u32;
            Tree::by_rule(bound, &*field(random.one_of(&KINDS), bound, random)).tables()
        }
        3 => grown(random.one_of(&GROWTHS), random.below(150) as usize, 15, random),
        _ => small(random),
    };
    match random.below(16) {
        0 | 1 => {
            let (_, break_it) = random.one_of(&BREAKS);
            // A tree may have nothing of the kind to break, and one that isn't sound is not broken.
            if tables.is_sound() {
                let _ = break_it(&mut tables, random);
            }
        }
        2 | 3 => (0..1 + random.below(3)).for_each(|_| change(&mut tables, random)),
        4 | 5 => (0..1 + random.below(3)).for_each(|_| disturb_one(&mut tables, random)),
        // Of a tree that isn't sound it isn't known how its first children could lead astray.
        6 | 7 if tables.is_sound() => {
            let (_, forge) = random.one_of(&FORGERIES);
            forge(&mut tables, random);
        }
        _ => {}
    }
    tables
}

/// Tables of any lengths, of 0 too, that hold such numbers.
fn noise(random: &mut Random, some: impl Fn(&mut Random) -> u64) -> Tables {
    let [keys, distances, firsts, leaves] = [(); 4].map(|()| random.below(3) * random.below(12));
    Tables {
        keys: (0..keys).map(|_| some(random)).collect(),
        distances: (0..distances).map(|_| random.bits() as u32).collect(),
        firsts: (0..firsts).map(|_| some(random) as u16).collect(),
        leaves: (0..leaves).map(|_| some(random)).collect(),
    }
}

fn disturb_one(tables: &mut Tables, random: &mut Random) {
    let value = number(random);
    match random.below(7) {
        0 | 1 => disturb(&mut tables.keys, value, random),
        2 | 3 => disturb(&mut tables.leaves, value, random),
        4 | 5 => disturb(&mut tables.firsts, value as u16, random),
        // Often one of the greatest, or an infinity beside them.
        _ => {
            let distance = random.distance(level(value));
            disturb(&mut tables.distances, distance.to_bits(), random)
        }
    }
}

/// A case of one call: several times on one tree.
fn of_tree(case: &mut Case, call: fn(&Given, &mut Case) -> Checked) -> Checked {
    times_of_tree(TIMES, case, call)
}

fn times_of_tree(times: u32, case: &mut Case, call: fn(&Given, &mut Case) -> Checked) -> Checked {
    let given = Given::new(some_tree(&mut case.random));
    (0..times).try_for_each(|_| call(&given, case))
}

/// On a tree of its own each time, since there is nothing else to choose.
pub fn sound(case: &mut Case) -> Checked {
    (0..2).try_for_each(|_| Given::new(some_tree(&mut case.random)).sound(case))
}

pub fn look_up(case: &mut Case) -> Checked {
    of_tree(case, Given::look_up)
}

pub fn list(case: &mut Case) -> Checked {
    of_tree(case, Given::list)
}

pub fn dual_cell(case: &mut Case) -> Checked {
    of_tree(case, Given::dual_cell)
}

pub fn slabs(case: &mut Case) -> Checked {
    of_tree(case, Given::slabs)
}

pub fn lifetimes(case: &mut Case) -> Checked {
    times_of_tree(REPORTS, case, Given::lifetimes)
}

pub fn look_up_trusting(case: &mut Case) -> Checked {
    of_tree(case, Given::look_up_trusting)
}

pub fn list_trusting(case: &mut Case) -> Checked {
    of_tree(case, Given::list_trusting)
}

pub fn cells_trusting(case: &mut Case) -> Checked {
    of_tree(case, Given::cells_trusting)
}

pub fn dual_cell_trusting(case: &mut Case) -> Checked {
    of_tree(case, Given::dual_cell_trusting)
}

pub fn slabs_trusting(case: &mut Case) -> Checked {
    of_tree(case, Given::slabs_trusting)
}

pub fn lifetimes_trusting(case: &mut Case) -> Checked {
    times_of_tree(REPORTS, case, Given::lifetimes_trusting)
}
