//! Start and distance, over states and tables of all kinds: noise, what fits, what nearly fits, and builds that are driven on
//! while their state and tables change under them.

use crate::case::{told, Case, Checked, Difference, Out};
use crate::inputs::{disturb, number, or_edge};
use crate::outcomes::ACCEPTED;
use crate::reading::Given;
use mittenhelm::raw::{mittenhelm_distance, mittenhelm_start};
use oracle_answers::fields::{field, KINDS};
use oracle_answers::forged::{garbage, some_lengths, Forged, WORDS};
use oracle_answers::inputs::Random;
use oracle_answers::lent::Fenced;
use oracle_answers::model::build::{self, Request, STATE_WORDS, TABLES};
use oracle_answers::model::{level, reading, Answer};

/// A state and the tables as they are lent.
struct Lent {
    state: Fenced<u64>,
    keys: Fenced<u64>,
    distances: Fenced<u32>,
    firsts: Fenced<u16>,
    leaves: Fenced<u64>,
    queue: Fenced<u64>,
}

impl Lent {
    fn of(Forged { words, tables }: &Forged) -> Self {
        Lent {
            state: Fenced::new(words),
            keys: Fenced::new(&tables.keys),
            distances: Fenced::new(&tables.distances),
            firsts: Fenced::new(&tables.firsts),
            leaves: Fenced::new(&tables.leaves),
            queue: Fenced::new(&tables.queue),
        }
    }

    fn differences(&self, Forged { words, tables }: &Forged) -> [Option<String>; 1 + TABLES] {
        [
            self.state.difference(words, "state"),
            self.keys.difference(&tables.keys, "node keys"),
            self.distances.difference(&tables.distances, "node distances"),
            self.firsts.difference(&tables.firsts, "first children"),
            self.leaves.difference(&tables.leaves, "leaf keys"),
            self.queue.difference(&tables.queue, "queue"),
        ]
    }
}

/// The places for what is asked: the key, then x, y, z and the half size.
struct Asked {
    key: Out<u64>,
    floats: [Out<u32>; 4],
}

impl Asked {
    fn new() -> Self {
        Asked { key: Out::new(), floats: [(); 4].map(|()| Out::new()) }
    }

    fn places(&mut self) -> (&mut u64, [&mut f32; 4]) {
        let [x, y, z, half] = &mut self.floats;
        (self.key.place(), [x.float(), y.float(), z.float(), half.float()])
    }

    fn differences(&self, request: Option<Request>) -> [Option<String>; 5] {
        let [x, y, z, half] = &self.floats;
        let bits = |float: fn(Request) -> f32| request.map(|request| [float(request).to_bits()]);
        [
            self.key.difference(request.map(|request| [request.key]), "asked key"),
            x.difference(bits(|request| request.centre[0]), "asked x"),
            y.difference(bits(|request| request.centre[1]), "asked y"),
            z.difference(bits(|request| request.centre[2]), "asked z"),
            half.difference(bits(|request| request.half), "asked half size"),
        ]
    }
}

fn told_all(Forged { words, tables }: &Forged) -> String {
    format!(
        "state of {}, keys of {}, distances of {}, first children of {}, leaves of {}, queue of {}",
        told(words),
        told(&tables.keys),
        told(&tables.distances),
        told(&tables.firsts),
        told(&tables.leaves),
        told(&tables.queue)
    )
}

/// Starts a build, and hands on what is asked.
fn begin(case: &mut Case, bound: u32, forged: &mut Forged) -> Result<Answer<Request>, Difference> {
    let (before, mut lent, mut asked) = (forged.clone(), Lent::of(forged), Asked::new());
    let (keys, distances, firsts) = (lent.keys.part(), lent.distances.part(), lent.firsts.part());
    let (leaves, queue) = (lent.leaves.part(), lent.queue.part());
    let (state, (key, [x, y, z, half])) = (lent.state.lend(), asked.places());
    let said = unsafe {
        mittenhelm_start(
            bound,
            keys.as_ptr(),
            keys.len() as u64,
            distances.as_ptr().cast(),
            distances.len() as u64,
            firsts.as_ptr(),
            firsts.len() as u64,
            leaves.as_ptr(),
            leaves.len() as u64,
            queue.as_ptr(),
            queue.len() as u64,
            state.as_mut_ptr(),
            state.len() as u64,
            key,
            x,
            y,
            z,
            half,
        )
    };
    let expected = build::start(bound, &forged.tables, &mut forged.words);
    let differences = [&asked.differences(expected.ok())[..], &lent.differences(forged)].concat();
    case.judge("start", said, expected.map(|_| ACCEPTED), &differences, || format!("{bound}, {}", told_all(&before)))?;
    Ok(expected)
}

/// Gives a distance, and hands on what is asked next.
fn give(case: &mut Case, forged: &mut Forged, distance: f32) -> Result<Answer<Option<Request>>, Difference> {
    let (before, mut lent, mut asked) = (forged.clone(), Lent::of(forged), Asked::new());
    let (state, keys, distances) = (lent.state.lend(), lent.keys.lend(), lent.distances.lend());
    let (firsts, leaves, queue) = (lent.firsts.lend(), lent.leaves.lend(), lent.queue.lend());
    let (key, [x, y, z, half]) = asked.places();
    let said = unsafe {
        mittenhelm_distance(
            state.as_mut_ptr(),
            state.len() as u64,
            keys.as_mut_ptr(),
            keys.len() as u64,
            distances.as_mut_ptr().cast(),
            distances.len() as u64,
            firsts.as_mut_ptr(),
            firsts.len() as u64,
            leaves.as_mut_ptr(),
            leaves.len() as u64,
            queue.as_mut_ptr(),
            queue.len() as u64,
            distance,
            key,
            x,
            y,
            z,
            half,
        )
    };
    let expected = build::distance(&mut forged.words, &mut forged.tables, distance);
    let way = |next: Option<Request>| match next {
        None => "finished",
        _ if forged.words[2] == before.words[2] => "split",
        _ => "leaf",
    };
    let differences = [&asked.differences(expected.ok().flatten())[..], &lent.differences(forged)].concat();
    let arguments = || format!("{}, float {:#x}", told_all(&before), distance.to_bits());
    case.judge("distance", said, expected.map(way), &differences, arguments)?;
    Ok(expected)
}

/// The refusal of a distance that is infinite or NaN.
const BROKEN: u32 = 16;

/// A distance for a cell of the level: any, also next to the infinities, or a broken one.
fn some_distance(level: u32, random: &mut Random) -> f32 {
    if random.below(8) == 0 {
        random.broken_distance()
    } else {
        random.distance(level)
    }
}

/// Any words and any tables; the state has as many words as one has in most cases, and in half of these the lengths of the tables.
fn noise(random: &mut Random) -> Forged {
    let lengths = some_lengths(random);
    let mut tables = garbage(lengths);
    if random.below(2) == 0 {
        let keys = tables.keys.iter_mut().chain(&mut tables.leaves).chain(&mut tables.queue);
        keys.for_each(|key| *key = number(random));
    }
    let count = if random.below(4) == 0 { random.below(18) as usize } else { STATE_WORDS };
    let mut words: Vec<u64> =
        (0..count).map(|_| if random.below(2) == 0 { number(random) } else { random.one_of(&WORDS) }).collect();
    if count == STATE_WORDS && random.below(2) == 0 {
        words[4..].copy_from_slice(&tables.lengths());
    }
    Forged { words, tables }
}

/// Changes a thing of the state or the tables.
fn mutate(forged: &mut Forged, random: &mut Random) {
    let tables = &mut forged.tables;
    let value = number(random);
    match random.below(13) {
        0 => disturb(&mut tables.keys, value, random),
        1 => disturb(&mut tables.distances, value as u32, random),
        2 => disturb(&mut tables.firsts, value as u16, random),
        3 => disturb(&mut tables.leaves, value, random),
        4 => disturb(&mut tables.queue, value, random),
        _ if forged.words.len() >= STATE_WORDS => forged.change(random),
        _ => forged.words.resize(STATE_WORDS, value),
    }
}

pub fn start(case: &mut Case) -> Checked {
    for _ in 0..8 {
        let mut forged = noise(&mut case.random);
        let some = case.random.below(17) as u32;
        let bound = or_edge(some, &mut case.random);
        let _ = begin(case, bound, &mut forged)?;
    }
    Ok(())
}

pub fn distance(case: &mut Case) -> Checked {
    (0..3).try_for_each(|_| give_any(case))
}

fn give_any(case: &mut Case) -> Checked {
    match case.random.below(8) {
        0 => {
            let forged = noise(&mut case.random);
            give_some(case, forged, 2)
        }
        1..=3 => {
            let lengths = some_lengths(&mut case.random);
            give_forged(case, lengths, 4)
        }
        4 if case.random.below(8) == 0 => {
            let lengths = long_lengths(&mut case.random);
            give_forged(case, lengths, 2)
        }
        _ => drive(case),
    }
}

/// Gives distances, and now and then changes a thing before one. What follows a refusal is tried once more, and what follows a broken
/// distance as it was.
fn give_some(case: &mut Case, mut forged: Forged, distances: u64) -> Checked {
    for _ in 0..distances {
        let asked = forged.words.get(3).copied().unwrap_or(1);
        let distance = some_distance(level(asked), &mut case.random);
        let is_stuck = matches!(give(case, &mut forged, distance)?, Err(refusal) if refusal != BROKEN);
        if is_stuck || case.random.below(4) == 0 {
            mutate(&mut forged, &mut case.random);
        }
    }
    Ok(())
}

/// A state that fits, or one with up to three changes.
fn give_forged(case: &mut Case, lengths: [usize; TABLES], distances: u64) -> Checked {
    let mut forged = Forged::new(lengths, &mut case.random);
    for _ in 0..case.random.below(8).saturating_sub(4) {
        mutate(&mut forged, &mut case.random);
    }
    give_some(case, forged, distances)
}

/// Tables at and above the 4,096 nodes that there can be.
fn long_lengths(random: &mut Random) -> [usize; TABLES] {
    let [keys, distances, firsts] = [(); 3].map(|()| random.one_of(&[4095, 4096, 4097, 4100]));
    [keys, distances, firsts, random.one_of(&[3583, 3584, 4100]), random.one_of(&[64, 4096, 7 * 4095 + 8])]
}

/// Lengths of tables for a build: of the least tree and around it, and longer ones.
fn lengths_of_build(random: &mut Random) -> [usize; TABLES] {
    let (least, greater) = ([73, 73, 73, 64, 64], [400, 400, 400, 350, 200]);
    match random.below(8) {
        0 => some_lengths(random),
        1 | 2 => least.map(|length| length + random.below(3) as usize),
        3 => least.map(|length| length - random.below(2) as usize),
        4 => [400, 400, 400, random.below(350) as usize, 200],
        _ => greater.map(|length| length + random.below(9) as usize),
    }
}

/// Drives a build over a field for many steps. On the way it is tried with things changed, some of which stay so, and with other
/// distances. Where it finishes, its tree is read.
fn drive(case: &mut Case) -> Checked {
    let some = case.random.below(16) as u32;
    let bound = or_edge(some, &mut case.random);
    let field = field(case.random.one_of(&KINDS), bound.min(15), &mut case.random);
    let mut forged = Forged { words: vec![0xbad; STATE_WORDS], tables: garbage(lengths_of_build(&mut case.random)) };
    let mut next = begin(case, bound, &mut forged)?.map(Some);
    let lasting = case.random.below(2) == 0;
    while let Ok(Some(request)) = next {
        let distance = match case.random.below(24) {
            0 => some_distance(level(request.key), &mut case.random),
            _ => field(request.centre),
        };
        if case.random.below(8) == 0 {
            let mut other = forged.clone();
            mutate(&mut other, &mut case.random);
            let _ = give(case, &mut other, distance)?;
        }
        if lasting && case.random.below(100) == 0 {
            mutate(&mut forged, &mut case.random);
        }
        let answer = give(case, &mut forged, distance)?;
        // After a broken distance the same cell is asked for.
        if answer != Err(BROKEN) {
            next = answer;
        }
    }
    if next == Ok(None) {
        let _ = give(case, &mut forged, 0.0)?;
        let state = forged.words[..].try_into().expect("the state of a finished build");
        Given::new(reading::Tables::finished(state, &forged.tables)).every_call(case)?;
    }
    Ok(())
}
