//! One call that reads a tree: ours beside the model of document 01. After each, every out parameter and every place of a lent
//! table must be the model's, the tree's tables as they were, and so what lies around them.

use mittenhelm::raw::{
    mittenhelm_cells_trusting, mittenhelm_dual_cell, mittenhelm_dual_cell_trusting, mittenhelm_lifetimes,
    mittenhelm_lifetimes_trusting, mittenhelm_list, mittenhelm_list_trusting, mittenhelm_look_up, mittenhelm_look_up_trusting,
    mittenhelm_slabs, mittenhelm_slabs_trusting, mittenhelm_sound,
};
use oracle_answers::inputs::Random;
use oracle_answers::lent::{levels_before, one_nan, places_before, report_before, vertices_before, Fenced};
use oracle_answers::model::lifetimes::{Lifetimes, Needs};
use oracle_answers::model::reading::{self, Descent, DualCell, Lookup, Reading, Slabs, Tables, Walk};
use oracle_answers::model::{level, Answer};
use oracle_answers::questions;
use std::cell::RefCell;
use std::fmt::{Debug, Display};
use std::rc::Rc;

/// What out parameters hold before a call.
const UNTOUCHED: u64 = 0xdead_beef_0bad_cafe;
const UNTOUCHED_FLOAT: u32 = 0xc2f6_e979;
const UNTOUCHED_PLACE: u64 = 0x0bad_cafe_dead_beef;
const UNTOUCHED_COUNT: u32 = 0x7fc1_2345;
const UNTOUCHED_SLABS: [u32; 2] = [0xdead_beef, 0x0bad_cafe];

/// How often each answer was seen.
#[derive(Debug, Default)]
pub struct Seen {
    pub refused: [u64; 18],
    pub sound: u64,
    pub unsound: u64,
    /// Lookups by the level that was asked for: which found the key itself, an ancestor, or nothing.
    pub itself: [u64; 22],
    pub ancestor: [u64; 22],
    pub nothing: [u64; 22],
    /// Lists that were written: with vertices, and those with none.
    pub lists: u64,
    pub empty_lists: u64,
    /// Dual cells by level.
    pub cells: [u64; 21],
    /// Vertices that were handed over with places: all from a number on, as many as had room, or none though there was room.
    pub all_placed: u64,
    pub some_placed: u64,
    pub none_placed: u64,
    /// Cells with their slabs, by exponent.
    pub slabs: [u64; 16],
    /// Reports of lifetimes, by exponent.
    pub lifetimes: [u64; 16],
    /// What was told of trees that aren't sound.
    pub trusted: Trusted,
}

/// What the trusting calls answered.
#[derive(Debug, Default)]
pub struct Trusted {
    pub refused: [u64; 18],
    /// Lookups: which found the key itself, an ancestor, or nothing.
    pub itself: u64,
    pub ancestor: u64,
    pub nothing: u64,
    /// Lists that were written: with vertices, and those with none.
    pub lists: u64,
    pub empty_lists: u64,
    /// Dual cells: with all eight entries or none, since the way down comes to all children of the root or to none.
    pub whole_cells: u64,
    pub empty_cells: u64,
    /// The slabs of such cells.
    pub whole_slabs: u64,
    pub empty_slabs: u64,
    /// Reports of lifetimes: with leaves that are needed, and those where none is.
    pub lifetimes: u64,
    pub empty_lifetimes: u64,
}

impl Trusted {
    /// Asserts that every kind of answer was seen so often, and of the refusals 1, 4, 5, 12 and 17 alone.
    pub fn assert_every_answer(&self, times: u64) {
        let Trusted { refused, itself, ancestor, nothing, lists, empty_lists, .. } = self;
        let Trusted { whole_cells, empty_cells, whole_slabs, empty_slabs, lifetimes, empty_lifetimes, .. } = self;
        let found = [itself, ancestor, nothing, lists, empty_lists, whole_cells, empty_cells, whole_slabs, empty_slabs];
        assert!(found.iter().chain(&[lifetimes, empty_lifetimes]).all(|&&seen| seen >= times), "{self:?}");
        assert_refused(refused, times, &[1, 4, 5, 12, 17], self);
    }

    fn count_lookup(&mut self, asked: u64, answer: Answer<Lookup>) {
        *match answer {
            Ok(Lookup::Found { key, .. }) if key == asked => &mut self.itself,
            Ok(Lookup::Found { .. }) => &mut self.ancestor,
            Ok(Lookup::Nothing { .. }) => &mut self.nothing,
            Err(number) => &mut self.refused[number as usize],
        } += 1;
    }

    fn count_list(&mut self, answer: Answer<usize>) {
        *match answer {
            Ok(0) => &mut self.empty_lists,
            Ok(_) => &mut self.lists,
            Err(number) => &mut self.refused[number as usize],
        } += 1;
    }

    fn count_cell(&mut self, answer: Answer<DualCell>) {
        let entries = answer.map(|cell| cell.keys.iter().filter(|&&key| key != 0).count());
        *match entries {
            Ok(8) => &mut self.whole_cells,
            Ok(0) => &mut self.empty_cells,
            Ok(some) => panic!("{some} of eight entries"),
            Err(number) => &mut self.refused[number as usize],
        } += 1;
    }

    fn count_lifetimes(&mut self, greatest: Answer<u32>) {
        *match greatest {
            Ok(0) => &mut self.empty_lifetimes,
            Ok(_) => &mut self.lifetimes,
            Err(number) => &mut self.refused[number as usize],
        } += 1;
    }

    fn count_slabs(&mut self, answer: Answer<Slabs>, is_empty: bool) {
        *match answer {
            Ok(_) if is_empty => &mut self.empty_slabs,
            Ok(_) => &mut self.whole_slabs,
            Err(number) => &mut self.refused[number as usize],
        } += 1;
    }
}

/// Asserts that each refusal of the list was seen so often, and no other at all.
fn assert_refused(refused: &[u64], times: u64, numbers: &[usize], all: &impl Debug) {
    for (number, &seen) in refused.iter().enumerate() {
        let enough = if numbers.contains(&number) { seen >= times } else { seen == 0 };
        assert!(enough, "refusal {number} was seen {seen} times: {all:?}");
    }
}

impl Seen {
    /// Asserts that each refusal of the list was seen so often, and no other at all.
    pub fn assert_refused(&self, times: u64, numbers: &[usize]) {
        assert_refused(&self.refused, times, numbers, self);
    }

    fn count_lookup(&mut self, asked: u64, answer: Lookup) {
        let counts = match answer {
            Lookup::Found { key, .. } if key == asked => &mut self.itself,
            Lookup::Found { .. } => &mut self.ancestor,
            Lookup::Nothing { .. } => &mut self.nothing,
        };
        counts[level(asked) as usize] += 1;
    }

    fn count_refusal<T>(&mut self, answer: Answer<T>) {
        if let Err(number) = answer {
            self.refused[number as usize] += 1;
        }
    }
}

/// A tree that is given to calls, sound or not, and what the model makes of it.
pub struct Given {
    keys: Fenced<u64>,
    distances: Fenced<u32>,
    firsts: Fenced<u16>,
    leaves: Fenced<u64>,
    /// What `walk` and `needs` answer, from their first calls on: the model takes its time.
    walk: RefCell<Option<Rc<Walk>>>,
    needs: RefCell<Option<Rc<Needed>>>,
    pub tables: Tables,
    pub reading: Reading,
    /// What one comes to who trusts the tree.
    pub descent: Descent,
}

/// What a tree needs its leaves for, to one who checks it and to one who trusts it.
pub struct Needed {
    checked: Answer<Needs>,
    pub trusted: Needs,
}

/// What both have reported with an exponent.
pub struct Reports {
    pub exponent: u32,
    pub checked: Answer<Lifetimes>,
    pub trusted: Answer<Lifetimes>,
}

/// Calls a function of the boundary with some of the tables first, each a pointer and a length.
macro_rules! with_tables {
    ($call:ident, $given:expr, [$($table:ident),*] $(, $more:expr)*) => {
        unsafe { $call($($given.$table.part().as_ptr().cast(), $given.$table.part().len() as u64,)* $($more),*) }
    };
}

/// The same with the three of the nodes.
macro_rules! with_nodes {
    ($call:ident, $given:expr $(, $more:expr)*) => {
        with_tables!($call, $given, [keys, distances, firsts] $(, $more)*)
    };
}

/// The same with all four.
macro_rules! with_tree {
    ($call:ident, $given:expr $(, $more:expr)*) => {
        with_tables!($call, $given, [keys, distances, firsts, leaves] $(, $more)*)
    };
}

impl Given {
    pub fn new(tables: Tables) -> Self {
        Given {
            keys: Fenced::new(&tables.keys),
            distances: Fenced::new(&tables.distances),
            firsts: Fenced::new(&tables.firsts),
            leaves: Fenced::new(&tables.leaves),
            walk: RefCell::new(None),
            needs: RefCell::new(None),
            reading: Reading::of(&tables),
            descent: tables.descent(),
            tables,
        }
    }

    /// The vertices of a sound tree with their levels.
    pub fn vertices(&self) -> Vec<(u64, u32)> {
        self.reading.vertices().expect("a sound tree")
    }

    /// The walk of one who trusts the tree: of a sound one it finds the tree's vertices, with the nodes of their dual cells.
    pub fn walk(&self) -> Rc<Walk> {
        let walk = || {
            let walk = self.descent.walk();
            if let Ok(placed) = self.reading.placed() {
                assert_eq!(walk.placed, placed, "{}", self.told(&"the walk of a sound tree"));
            }
            Rc::new(walk)
        };
        self.walk.borrow_mut().get_or_insert_with(walk).clone()
    }

    /// The vertices that a list finds which trusts the tree.
    pub fn walked(&self) -> Vec<(u64, u32)> {
        self.walk().vertices()
    }

    pub fn sound(&self, seen: &mut Seen) -> bool {
        let expected = self.reading.is_sound();
        let ours = with_tree!(mittenhelm_sound, self);
        self.agree(&ours, &(expected as u8), "sound()");
        *if expected { &mut seen.sound } else { &mut seen.unsound } += 1;
        expected
    }

    /// A number that asks for something in the tree, or beside it.
    pub fn asked(&self, random: &mut Random) -> u64 {
        questions::asked(&self.tables, random)
    }

    /// Both lookups, of which the trusting one answers an unsound tree too.
    pub fn look_up(&self, key: u64, seen: &mut Seen) -> Answer<Lookup> {
        let (expected, trusting) = (self.reading.look_up(key), self.descent.look_up_trusting(key));
        self.agree_lookup(expected, format_args!("look_up({key:#x})"), |found, distance, place, tried| {
            with_tree!(mittenhelm_look_up, self, key, found, distance, place, tried)
        });
        self.agree_lookup(trusting, format_args!("look_up_trusting({key:#x})"), |found, distance, place, tried| {
            with_nodes!(mittenhelm_look_up_trusting, self, key, found, distance, place, tried)
        });
        if let Ok(Lookup::Found { key: found, distance, place, .. }) = trusting {
            assert!(self.stands(found, distance, place), "{}", self.told(&format_args!("look_up({key:#x})")));
        }
        if self.reading.is_sound() {
            assert_eq!(trusting, expected, "{}: the way down in a sound tree", self.told(&format_args!("look_up({key:#x})")));
        } else {
            seen.trusted.count_lookup(key, trusting);
        }
        match expected {
            Ok(answer) => seen.count_lookup(key, answer),
            refused => seen.count_refusal(refused),
        }
        expected
    }

    /// Whether what was found stands at its place: its distance, or 0 past their end, on any tables, and its key in a sound tree.
    fn stands(&self, key: u64, distance: u32, place: u64) -> bool {
        let Tables { keys, distances, .. } = &self.tables;
        let stored = keys.get(place as usize);
        let is_right = if self.reading.is_sound() { stored == Some(&key) } else { stored.is_some() };
        is_right && distances.get(place as usize).copied().unwrap_or(0) == distance
    }

    /// Makes a lookup that is handed its out parameters, and sees that it hands over what is expected. Of a tree that is trusted, that may
    /// be a NaN.
    fn agree_lookup(
        &self,
        expected: Answer<Lookup>,
        call: impl Display,
        look_up: impl FnOnce(&mut u64, &mut f32, &mut u64, &mut u32) -> u32,
    ) {
        let (mut found, mut distance) = (UNTOUCHED, f32::from_bits(UNTOUCHED_FLOAT));
        let (mut place, mut tried) = (UNTOUCHED_PLACE, UNTOUCHED_COUNT);
        let number = look_up(&mut found, &mut distance, &mut place, &mut tried);
        let expected_out = match expected {
            Ok(Lookup::Found { key, distance, place, tried }) => (0, key, one_nan(distance), place, tried),
            Ok(Lookup::Nothing { tried }) => (0, 0, 0, 0, tried),
            Err(number) => (number, UNTOUCHED, UNTOUCHED_FLOAT, UNTOUCHED_PLACE, UNTOUCHED_COUNT),
        };
        self.agree(&(number, found, one_nan(distance.to_bits()), place, tried), &expected_out, call);
    }

    /// Both lists from a start place on, in a vertex table and a level table of these lengths; the trusting one answers an unsound
    /// tree too. In such tables vertices are asked for with their places as well.
    pub fn list(&self, start: usize, lengths: [usize; 2], seen: &mut Seen) -> Answer<usize> {
        let (listed, walked) = (self.reading.vertices(), self.walked());
        let call = format!("from {start:#x} on in tables of {} and {}", lengths[0], lengths[1]);
        let expected = self.agree_list(listed, start, lengths, &format!("list {call}"), |vertices, v, levels, l, count| {
            with_tree!(mittenhelm_list, self, start as u64, vertices, v, levels, l, count)
        });
        let call = format!("list_trusting {call}");
        let trusting = self.agree_list(Ok(walked), start, lengths, &call, |vertices, v, levels, l, count| {
            with_tables!(mittenhelm_list_trusting, self, [keys, firsts], start as u64, vertices, v, levels, l, count)
        });
        self.cells_around(start, lengths, seen);
        if !self.reading.is_sound() {
            seen.trusted.count_list(trusting);
        }
        match expected {
            Ok(0) => seen.empty_lists += 1,
            Ok(_) => seen.lists += 1,
            refused => seen.count_refusal(refused),
        }
        expected
    }

    /// Makes a call for a list that is handed two tables with their lengths and a count, and sees that it leaves what the model
    /// does, which writes these vertices or has refused before.
    fn agree_list(
        &self,
        listed: Answer<Vec<(u64, u32)>>,
        start: usize,
        [vertices, levels]: [usize; 2],
        call: &str,
        list: impl FnOnce(*mut u64, u64, *mut u8, u64, &mut u64) -> u32,
    ) -> Answer<usize> {
        let (mut vertices, mut levels) = (vertices_before(vertices), levels_before(levels));
        let (mut our_vertices, mut our_levels) = (Fenced::new(&vertices), Fenced::new(&levels));
        let expected = listed.and_then(|listed| reading::write_list(&listed, start, &mut vertices, &mut levels));

        let mut count = UNTOUCHED;
        let (v, l) = (our_vertices.lend(), our_levels.lend());
        let number = list(v.as_mut_ptr(), v.len() as u64, l.as_mut_ptr(), l.len() as u64, &mut count);
        let expected_out = expected.map_or_else(|number| (number, UNTOUCHED), |count| (0, count as u64));
        self.agree(&(number, count), &expected_out, call);
        our_vertices.assert_holds(&vertices, "vertices", &|| self.told(&call));
        our_levels.assert_holds(&levels, "levels", &|| self.told(&call));
        expected
    }

    /// Vertices with their places, in a vertex table and a level table of these lengths: from 0 on, from a vertex on and from behind it,
    /// and from the greatest number on. The table of places has room for as many, for one less, or for part of another.
    fn cells_around(&self, some: usize, [vertices, levels]: [usize; 2], seen: &mut Seen) {
        let placed = &self.walk().placed;
        let vertex = placed.get(some % placed.len().max(1)).map_or(0, |at| at.vertex);
        // More room than this makes no difference, and takes its time.
        let [vertices, levels] = [vertices, levels].map(|length| length.min(placed.len() + 9));
        let places = 8 * vertices.min(levels);
        let lengths = [places, places.saturating_sub(1), places + 7];
        for (i, from) in [0, vertex, vertex + 1, u64::MAX].into_iter().enumerate() {
            self.cells(from, [vertices, levels, lengths[some.wrapping_add(i) % 3]], seen);
        }
    }

    /// The call for vertices with their places, from a number on, in a vertex table, a level table and a table of places of these lengths.
    pub fn cells(&self, from: u64, [vertices, levels, places]: [usize; 3], seen: &mut Seen) -> usize {
        let call = format!("cells_trusting from {from:#x} on in tables of {vertices}, {levels} and {places}");
        let room = vertices.min(levels).min(places / 8);
        let (mut vertices, mut levels, mut places) = (vertices_before(vertices), levels_before(levels), places_before(places));
        let (mut our_vertices, mut our_levels, mut our_places) =
            (Fenced::new(&vertices), Fenced::new(&levels), Fenced::new(&places));
        let placed = &self.walk().placed;
        let expected = reading::write_placed(placed, from, &mut vertices, &mut levels, &mut places);

        let (v, l, p) = (our_vertices.lend(), our_levels.lend(), our_places.lend());
        let lengths = [v.len(), l.len(), p.len()].map(|length| length as u64);
        let (v, l, p) = (v.as_mut_ptr(), l.as_mut_ptr(), p.as_mut_ptr());
        let count =
            with_tables!(mittenhelm_cells_trusting, self, [keys, firsts], from, v, lengths[0], l, lengths[1], p, lengths[2]);
        self.agree(&count, &(expected as u64), &call);
        our_vertices.assert_holds(&vertices, "vertices", &|| self.told(&call));
        our_levels.assert_holds(&levels, "levels", &|| self.told(&call));
        our_places.assert_holds(&places, "places", &|| self.told(&call));
        *match expected {
            0 if room > 0 => &mut seen.none_placed,
            _ if expected == placed.iter().filter(|at| at.vertex >= from).count() => &mut seen.all_placed,
            _ => &mut seen.some_placed,
        } += 1;
        expected
    }

    /// Both calls for a dual cell, of which the trusting one answers an unsound tree too.
    pub fn dual_cell(&self, vertex: u64, level: u32, seen: &mut Seen) -> Answer<DualCell> {
        let (expected, trusting) = (self.reading.dual_cell(vertex, level), self.descent.dual_cell_trusting(vertex, level));
        let call = format!("dual_cell({vertex:#x}, {level})");
        self.agree_cell(expected, &call, |keys, distances, places, tried| {
            with_tree!(mittenhelm_dual_cell, self, vertex, level, keys, distances, places, tried)
        });
        self.agree_cell(trusting, &format!("trusting {call}"), |keys, distances, places, tried| {
            with_nodes!(mittenhelm_dual_cell_trusting, self, vertex, level, keys, distances, places, tried)
        });
        if let Ok(DualCell { keys, distances, places, .. }) = trusting {
            let stands = |i: usize| keys[i] == 0 || self.stands(keys[i], distances[i], places[i]);
            assert!((0..8).all(stands), "{}", self.told(&call));
        }
        if self.reading.is_sound() {
            assert_eq!(trusting, expected, "{}: the ways down in a sound tree", self.told(&call));
        } else {
            seen.trusted.count_cell(trusting);
        }
        match expected {
            Ok(_) => seen.cells[level as usize] += 1,
            refused => seen.count_refusal(refused),
        }
        expected
    }

    /// Makes a call for a dual cell that is handed its out parameters, and sees that it hands over what is expected, which may be NaNs of a
    /// tree that is trusted.
    fn agree_cell(
        &self,
        expected: Answer<DualCell>,
        call: &str,
        dual_cell: impl FnOnce(&mut [u64; 8], &mut [f32; 8], &mut [u64; 8], &mut u32) -> u32,
    ) {
        let untouched = DualCell {
            keys: [UNTOUCHED; 8],
            distances: [UNTOUCHED_FLOAT; 8],
            places: [UNTOUCHED_PLACE; 8],
            tried: UNTOUCHED_COUNT,
        };
        let (mut keys, mut places) = (Fenced::new(&untouched.keys), Fenced::new(&untouched.places));
        let (mut distances, mut tried) = (Fenced::new(&untouched.distances), untouched.tried);
        // Eight of each; a float may hold any bits.
        let (lent_keys, lent_distances, lent_places) = unsafe {
            (
                &mut *keys.lend().as_mut_ptr().cast(),
                &mut *distances.lend().as_mut_ptr().cast(),
                &mut *places.lend().as_mut_ptr().cast(),
            )
        };
        let number = dual_cell(lent_keys, lent_distances, lent_places, &mut tried);
        let (expected_number, cell) = match expected {
            Ok(cell) => (0, cell),
            Err(number) => (number, untouched),
        };
        self.agree(&(number, tried), &(expected_number, cell.tried), call);
        keys.assert_holds(&cell.keys, "eight keys", &|| self.told(&call));
        places.assert_holds(&cell.places, "eight places", &|| self.told(&call));
        distances.lend().iter_mut().for_each(|bits| *bits = one_nan(*bits));
        distances.assert_holds(&cell.distances.map(one_nan), "eight distances", &|| self.told(&call));
    }

    /// Each vertex that is handed out with places has a dual cell, and that the same places, on any tables. The answer is their number.
    pub fn cells_as_dual_cells(&self, seen: &mut Seen) -> usize {
        let placed = &self.walk().placed;
        self.cells(0, [placed.len(), placed.len(), 8 * placed.len()], seen);
        for at in placed {
            let _ = self.dual_cell(at.vertex, at.level, seen);
            let places = self.descent.dual_cell_trusting(at.vertex, at.level).map(|cell| cell.places);
            assert_eq!(places, Ok(at.places), "{}", self.told(&format_args!("the dual cell of {:#x}", at.vertex)));
        }
        placed.len()
    }

    /// Both calls for slabs, of which the trusting one answers an unsound tree too.
    pub fn slabs(&self, vertex: u64, level: u32, exponent: u32, seen: &mut Seen) -> Answer<Slabs> {
        let expected = self.reading.slabs(vertex, level, exponent);
        let trusting = self.descent.slabs_trusting(vertex, level, exponent);
        let call = format!("slabs({vertex:#x}, {level}, {exponent})");
        self.agree(&self.ask_slabs(vertex, level, exponent), &out_of(expected), &call);
        self.agree(&self.ask_slabs_trusting(vertex, level, exponent), &out_of(trusting), format_args!("trusting {call}"));
        if self.reading.is_sound() {
            assert_eq!(trusting, expected, "{}: the ways down in a sound tree", self.told(&call));
        } else {
            let is_empty = matches!(self.descent.dual_cell_trusting(vertex, level), Ok(cell) if cell.keys == [0; 8]);
            seen.trusted.count_slabs(trusting, is_empty);
        }
        match expected {
            Ok(_) => seen.slabs[exponent as usize] += 1,
            refused => seen.count_refusal(refused),
        }
        expected
    }

    /// The number that the call for slabs returns, and what the out parameters then hold. It is quick: the tree's tables aren't looked at.
    pub fn ask_slabs(&self, vertex: u64, level: u32, exponent: u32) -> (u32, [u32; 2]) {
        let [mut first, mut last] = UNTOUCHED_SLABS;
        let number = with_tree!(mittenhelm_slabs, self, vertex, level, exponent, &mut first, &mut last);
        (number, [first, last])
    }

    /// The same of the call that trusts the tree.
    pub fn ask_slabs_trusting(&self, vertex: u64, level: u32, exponent: u32) -> (u32, [u32; 2]) {
        let [mut first, mut last] = UNTOUCHED_SLABS;
        let number =
            with_tables!(mittenhelm_slabs_trusting, self, [keys, firsts], vertex, level, exponent, &mut first, &mut last);
        (number, [first, last])
    }

    pub fn needs(&self) -> Rc<Needed> {
        let needs = || {
            let checked = Needs::of_sound(&self.tables, &self.reading);
            Rc::new(Needed { checked, trusted: Needs::of_trusted(&self.tables, &self.walk()) })
        };
        self.needs.borrow_mut().get_or_insert_with(needs).clone()
    }

    /// What the model reports: of a sound tree one thing, whether it is checked or trusted.
    pub fn reports(&self, exponent: u32) -> Reports {
        let needs = self.needs();
        let checked = needs.checked.as_ref().map_err(|&number| number).and_then(|needs| needs.lifetimes(exponent));
        let trusted = needs.trusted.lifetimes(exponent);
        if self.reading.is_sound() {
            assert_eq!(trusted, checked, "{}", self.told(&"the lifetimes in a sound tree"));
        }
        Reports { exponent, checked, trusted }
    }

    /// The least lengths of first slabs, last slabs and numbers with which a report isn't refused; the numbers' as if an exponent above 15
    /// were 0.
    pub fn report_room(&self, exponent: u32) -> [usize; 3] {
        let leaves = self.needs().trusted.leaves;
        [leaves, leaves, if exponent < 16 { 1 << exponent } else { 1 }]
    }

    /// Both calls for lifetimes, with tables of these lengths for first slabs, last slabs and numbers; the trusting one answers an unsound
    /// tree too.
    pub fn lifetimes(&self, reports: &Reports, lengths: [usize; 3], seen: &mut Seen) -> Answer<u32> {
        let exponent = reports.exponent;
        let call = format!("lifetimes of exponent {exponent} in tables of {lengths:?}");
        let expected = self.agree_report(&reports.checked, lengths, &call, |first, f, last, l, needed, n, greatest| {
            with_tree!(mittenhelm_lifetimes, self, exponent, first, f, last, l, needed, n, greatest)
        });
        let call = format!("trusting {call}");
        let trusting = self.agree_report(&reports.trusted, lengths, &call, |first, f, last, l, needed, n, greatest| {
            with_tables!(mittenhelm_lifetimes_trusting, self, [keys, firsts], exponent, first, f, last, l, needed, n, greatest)
        });
        if !self.reading.is_sound() {
            seen.trusted.count_lifetimes(trusting);
        }
        match expected {
            Ok(_) => seen.lifetimes[exponent as usize] += 1,
            refused => seen.count_refusal(refused),
        }
        expected
    }

    /// When each leaf of a sound tree is needed, by the call that checks it. It is quick: neither the model nor the tree's tables are looked at.
    pub fn ask_lifetimes(&self, exponent: u32) -> Vec<[u32; 2]> {
        let (leaves, slabs) = (self.tables.leaves.len(), 1 << exponent);
        let [mut first, mut last, mut needed] = [leaves, leaves, slabs].map(|length| vec![0; length]);
        let (f, l, n, mut greatest) = (first.as_mut_ptr(), last.as_mut_ptr(), needed.as_mut_ptr(), 0);
        let (leaves, slabs) = (leaves as u64, slabs as u64);
        let number = with_tree!(mittenhelm_lifetimes, self, exponent, f, leaves, l, leaves, n, slabs, &mut greatest);
        assert_eq!(number, 0, "{}", self.told(&"lifetimes"));
        first.into_iter().zip(last).map(|(first, last)| [first, last]).collect()
    }

    /// Makes a call for lifetimes that is handed three tables with their lengths and the greatest number's place, and sees that it leaves
    /// what the model does, which writes this report or has refused before.
    fn agree_report(
        &self,
        report: &Answer<Lifetimes>,
        lengths: [usize; 3],
        call: &str,
        lifetimes: impl FnOnce(*mut u32, u64, *mut u32, u64, *mut u32, u64, &mut u32) -> u32,
    ) -> Answer<u32> {
        let [mut first, mut last, mut needed] = lengths.map(report_before);
        let [mut our_first, mut our_last, mut our_needed] = [&first, &last, &needed].map(|table| Fenced::new(table));
        let expected = match report {
            Ok(report) => report.write(&mut first, &mut last, &mut needed),
            Err(number) => Err(*number),
        };

        let mut greatest = UNTOUCHED_COUNT;
        let [f, l, n] = [our_first.lend(), our_last.lend(), our_needed.lend()];
        let [f_length, l_length, n_length] = [f.len(), l.len(), n.len()].map(|length| length as u64);
        let (f, l, n) = (f.as_mut_ptr(), l.as_mut_ptr(), n.as_mut_ptr());
        let number = lifetimes(f, f_length, l, l_length, n, n_length, &mut greatest);
        let expected_out = expected.map_or_else(|number| (number, UNTOUCHED_COUNT), |greatest| (0, greatest));
        self.agree(&(number, greatest), &expected_out, call);
        our_first.assert_holds(&first, "first slabs", &|| self.told(&call));
        our_last.assert_holds(&last, "last slabs", &|| self.told(&call));
        our_needed.assert_holds(&needed, "numbers of leaves", &|| self.told(&call));
        expected
    }

    /// Lifetimes in tables that are just long enough, in longer ones, and in such of which each alone, or all, is one place too short.
    /// The answer is that of the first.
    pub fn lifetimes_in_rooms(&self, reports: &Reports, seen: &mut Seen) -> Answer<u32> {
        let room = self.report_room(reports.exponent);
        let answer = self.lifetimes(reports, room, seen);
        assert_eq!(self.lifetimes(reports, [room[0] + 3, room[1] + 1, room[2] + 2], seen), answer);
        for short in 0..3 {
            let mut lengths = [room[0] + 5, room[1] + 5, room[2] + 5];
            // A tree without keys has no leaves, and needs no room for them.
            if let Some(less) = room[short].checked_sub(1) {
                lengths[short] = less;
                let refused = self.lifetimes(reports, lengths, seen);
                assert_eq!(refused, answer.and(Err(17)), "{}", self.told(&format_args!("table {short} too short")));
            }
        }
        let _ = self.lifetimes(reports, room.map(|length| length.saturating_sub(1)), seen);
        answer
    }

    /// Each call once, and the one for lifetimes in one of two cases, with parameters of all kinds. Of an unsound tree those that check it
    /// tell nothing, whatever else is wrong.
    pub fn every_call(&self, random: &mut Random, seen: &mut Seen) {
        self.sound(seen);
        let _ = self.look_up(self.asked(random), seen);
        let _ = self.list(random.below(3) as usize, [[0, 2000][random.below(2) as usize]; 2], seen);
        let (vertex, level) = random.vertex_and_level();
        let _ = self.dual_cell(vertex, level, seen);
        let _ = self.slabs(vertex, level, random.below(18) as u32, seen);
        // A report takes as long as the others together.
        if random.below(2) == 0 {
            let exponent = random.one_of(&[0, 1, 2, 3, 5, 8, 16, 17]);
            let mut room = self.report_room(exponent);
            let short = &mut room[random.below(3) as usize];
            *short = short.saturating_sub(random.below(2) as usize);
            let _ = self.lifetimes(&self.reports(exponent), room, seen);
        }
    }

    fn agree<T: PartialEq + Debug>(&self, ours: &T, model: &T, call: impl Display) {
        assert!(ours == model, "{}: ours is {ours:x?}, the model says {model:x?}", self.told(&call));
        let told = || self.told(&call);
        self.keys.assert_holds(&self.tables.keys, "tree's keys", &told);
        self.distances.assert_holds(&self.tables.distances, "tree's distances", &told);
        self.firsts.assert_holds(&self.tables.firsts, "tree's first children", &told);
        self.leaves.assert_holds(&self.tables.leaves, "tree's leaves", &told);
    }

    /// A call with the tree that it was given, for a message.
    fn told(&self, call: &impl Display) -> String {
        let Tables { keys, distances, firsts, leaves } = &self.tables;
        format!(
            "{call} of {} keys {:?}.., {} distances, {} first children {:?}.. and {} leaves {:?}..",
            keys.len(),
            &keys[..keys.len().min(30)],
            distances.len(),
            firsts.len(),
            &firsts[..firsts.len().min(30)],
            leaves.len(),
            &leaves[..leaves.len().min(30)]
        )
    }
}

/// The number that a call for slabs has to return, and what its out parameters have to hold.
pub fn out_of(slabs: Answer<Slabs>) -> (u32, [u32; 2]) {
    slabs.map_or_else(|number| (number, UNTOUCHED_SLABS), |Slabs { first, last }| (0, [first, last]))
}
