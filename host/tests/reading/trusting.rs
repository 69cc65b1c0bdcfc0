//! Calls that trust the tree, where it isn't sound: tables of any lengths, in any order. On the trees of the other tests, `Given`
//! makes them beside the calls that check.

use crate::calls::{Given, Seen};
use crate::lists::rooms;
use mittenhelm::most_vertices;
use oracle_answers::broken::change;
use oracle_answers::inputs::{last_cell, Random};
use oracle_answers::misled::FORGERIES;
use oracle_answers::model::reading::{firsts_of, Lookup, Reading, Tables};
use oracle_answers::model::{level, Answer};
use oracle_answers::trees::{grown, Growth, GROWTHS};

/// Keys below a bound, so that many are cells, or twice there; sometimes sorted, as far as that makes them ascend.
fn some_keys(random: &mut Random) -> Vec<u64> {
    let (length, bound) = (random.below(40), [20, 80, 600, u64::MAX][random.below(4) as usize]);
    let mut keys: Vec<u64> =
        (0..length).map(|_| if random.below(4) == 0 { random.number() } else { random.below(bound) }).collect();
    if random.below(2) == 0 {
        keys.sort_unstable();
    }
    keys
}

/// Distances of any bits: as many as keys, fewer or more.
fn some_distances(keys: usize, random: &mut Random) -> Vec<u32> {
    let length = if random.below(2) == 0 { keys } else { random.below(2 * keys as u64 + 2) as usize };
    (0..length).map(|_| random.bits() as u32).collect()
}

/// First children of any places, often of eight places of the keys; as many as keys, fewer or more.
fn some_firsts(keys: &[u64], random: &mut Random) -> Vec<u16> {
    // Whatever stands at the first place, the way down takes it for the root.
    let own: Vec<u64> = [1].into_iter().chain(keys.iter().copied().skip(1)).take(keys.len()).collect();
    let mut firsts = firsts_of(&own);
    if random.below(2) == 0 {
        firsts.resize(random.below(2 * keys.len() as u64 + 2) as usize, 1);
    }
    for first in &mut firsts {
        match random.below(4) {
            0 => *first = 8 * random.below(keys.len() as u64 / 8 + 2) as u16 + 1,
            1 if random.below(4) == 0 => *first = random.bits() as u16,
            _ => {}
        }
    }
    firsts
}

/// Puts the children of a cell that stands somewhere where a step could lead to, or nearly there.
fn put_children(keys: &mut [u64], random: &mut Random) {
    let parent = if random.below(2) == 0 { 1 } else { random.one_of(keys) };
    let at = (8 * random.below(keys.len() as u64 / 8 + 1) + [1, 1, 1, random.below(8)][random.below(4) as usize]) as usize;
    for (child, place) in keys.iter_mut().skip(at).take(8).enumerate() {
        *place = parent.wrapping_mul(8).wrapping_add(child as u64);
    }
}

#[test]
fn any_tables() {
    let (mut random, mut seen) = (Random::new(1), Seen::default());
    // Keys that are there, but that no way leads to; and those that were found without a distance.
    let (mut missed, mut without) = (0, 0);
    for _ in 0..40_000 {
        let mut keys = some_keys(&mut random);
        if !keys.is_empty() {
            (0..random.below(6)).for_each(|_| put_children(&mut keys, &mut random));
        }
        let distances = some_distances(keys.len(), &mut random);
        let firsts = some_firsts(&keys, &mut random);
        let given = Given::new(Tables { keys, distances, firsts, leaves: vec![] });
        for _ in 0..8 {
            let key = given.asked(&mut random);
            let _ = given.look_up(key, &mut seen);
            match given.descent.look_up_trusting(key) {
                Ok(Lookup::Found { place, .. }) if place as usize >= given.tables.distances.len() => without += 1,
                Ok(Lookup::Found { key: found, .. }) if found == key => {}
                Ok(_) => missed += (key != 1 && given.tables.keys.contains(&key)) as u64,
                Err(_) => {}
            }
            let (vertex, level) = random.vertex_and_level();
            let _ = given.dual_cell(vertex, level, &mut seen);
            let _ = given.slabs(vertex, level, random.below(18) as u32, &mut seen);
        }
        let (count, start) = (given.walked().len(), random.below(3) as usize);
        let mut length = || (start + count + random.below(3) as usize).saturating_sub(1);
        let _ = given.list(start, [length(), length()], &mut seen);
        let exponent = random.one_of(&[0, 2, 5, 16]);
        let mut room = given.report_room(exponent);
        let table = random.below(3) as usize;
        room[table] = (room[table] + random.below(4) as usize).saturating_sub(1);
        let _ = given.lifetimes(&given.reports(exponent), room, &mut seen);
    }
    println!("any tables, {missed} keys missed and {without} without a distance: {seen:?}");
    assert!(missed > 2000 && without > 2000, "{missed}, {without}");
    seen.trusted.assert_every_answer(1000);
    assert!([seen.all_placed, seen.some_placed, seen.none_placed].iter().all(|&seen| seen > 1000), "{seen:?}");
}

/// What is proved of the walk over any tables: how many vertices it lists, and that their nodes stand among the keys. And that the model
/// goes through few cells: each split node is an entry of eight at most, and each of those has eight children.
fn assert_linear(given: &Given) {
    let (keys, walk) = (given.tables.keys.len(), given.walk());
    assert!(walk.placed.len() <= most_vertices(keys), "{} vertices of {keys} keys", walk.placed.len());
    assert!(walk.cells <= 1 + 64 * (keys / 8), "{} cells of {keys} keys", walk.cells);
    assert!(walk.placed.iter().all(|at| at.places.iter().all(|&place| place < keys as u64)));
}

/// Lists in tables that have room for all vertices that there could be, which are never refused, and in those with one place less.
fn list_in_one_pass(given: &Given, start: usize, seen: &mut Seen) {
    let most = start + most_vertices(given.tables.keys.len());
    let refused = seen.trusted.refused[12];
    for lengths in [[most, most], [most + 3, most]] {
        let _ = given.list(start, lengths, seen);
    }
    assert_eq!(seen.trusted.refused[12], refused);
    let _ = given.list(start, [most.saturating_sub(1), most], seen);
}

/// A tree that is sound but for its levels, which go down to 21, and then for up to three changes; and the tree before them.
fn broken(round: usize, random: &mut Random) -> (Tables, Tables) {
    let whole = grown(GROWTHS[round % 3], random.below(45) as usize, [15, 18, 21][random.below(3) as usize], random);
    let mut tables = whole.clone();
    for _ in 0..random.below(4) {
        change(&mut tables, random);
    }
    (whole, tables)
}

/// What was listed of trees that aren't sound.
#[derive(Debug, Default)]
struct Listed {
    /// Lists with the vertices that a sound tree had before it was changed, and others that aren't empty.
    same: u64,
    other: u64,
    /// Lists of trees with keys above level 15, with vertices.
    too_deep: u64,
    /// Vertices of each level.
    levels: [u64; 16],
}

/// The walk goes on where it can, whatever is wrong elsewhere.
#[test]
fn lists_of_unsound_trees() {
    let (mut random, mut seen, mut listed) = (Random::new(2), Seen::default(), Listed::default());
    for round in 0..6000 {
        let (whole, tables) = broken(round, &mut random);
        let given = Given::new(tables);
        if given.reading.is_sound() {
            continue;
        }
        assert_linear(&given);
        let walked = given.walked();
        walked.iter().for_each(|&(_, level)| listed.levels[level as usize] += 1);
        let before = Reading::of(&whole).vertices();
        listed.same += (before.as_ref() == Ok(&walked)) as u64;
        listed.other += (matches!(before, Ok(before) if before != walked) && !walked.is_empty()) as u64;
        listed.too_deep += (given.tables.keys.iter().any(|&key| level(key) > 15) && !walked.is_empty()) as u64;
        let (count, start) = (walked.len(), random.below(9) as usize);
        assert_eq!(given.list(start, [start + count, start + count], &mut seen), Err(11));
        list_in_one_pass(&given, start, &mut seen);
        if round % 40 == 0 {
            for (start, lengths) in rooms(count, &[0, start]) {
                assert_eq!(given.list(start, lengths, &mut seen), Err(11));
            }
        }
    }
    println!("unsound trees: {listed:?}, {seen:?}");
    let Listed { same, other, too_deep, levels } = &listed;
    assert!([same, other, too_deep].iter().all(|&&seen| seen > 300), "{listed:?}");
    assert!(levels[1..].iter().all(|&seen| seen > 100), "{listed:?}");
    let trusted = &seen.trusted;
    assert!(trusted.lists > 3000 && trusted.empty_lists > 200 && trusted.refused[12] > 5000, "{trusted:?}");
    assert!([seen.all_placed, seen.some_placed, seen.none_placed].iter().all(|&seen| seen > 1000), "{seen:?}");
}

/// First children that lead astray in every way: round, to nodes of others, behind the end, to what is no first child. Each way at every
/// size, up to tables as long as places reach, where a walk by places alone would take 8^15 steps: ours ends with the model.
#[test]
fn forged_first_children() {
    let (mut random, mut seen) = (Random::new(4), Seen::default());
    for (what, forge) in FORGERIES {
        let (mut far, mut astray) = (0, 0);
        for round in 0..300 {
            let splits = [random.below(4), random.below(40), 15 + random.below(60)][round % 3] as usize;
            let deepest = [15, 3, 21][random.below(3) as usize];
            let mut tables = grown(GROWTHS[round % 3], splits, deepest, &mut random);
            let whole = tables.descent().walk().vertices();
            forge(&mut tables, &mut random);
            let given = Given::new(tables);
            assert_linear(&given);
            far += (given.walked().len() > 1) as u64;
            astray += (given.walked() != whole) as u64;
            list_in_one_pass(&given, round % 4, &mut seen);
            (0..8).for_each(|_| given.every_call(&mut random, &mut seen));
        }
        println!("{what}: {far} ways lead far, {astray} elsewhere than before");
        assert!(far > 0 || astray > 200, "{what}: {far}, {astray}");
    }
    println!("forged first children: {seen:?}");
    seen.trusted.assert_every_answer(100);
}

/// As great as places reach, and greater.
#[test]
fn forged_first_children_of_great_trees() {
    let (mut random, mut seen) = (Random::new(5), Seen::default());
    for splits in [8192, 8300] {
        let tables = grown(Growth::Any, splits, 15, &mut random);
        for (_, forge) in FORGERIES {
            let mut tables = tables.clone();
            forge(&mut tables, &mut random);
            let given = Given::new(tables);
            assert_linear(&given);
            list_in_one_pass(&given, 0, &mut seen);
        }
    }
    assert!(seen.trusted.lists > 20 && seen.trusted.empty_lists > 20, "{seen:?}");
}

/// A lookup's answer with 0 for the place, and the place apart, where the key found has to stand.
fn place_apart(given: &Given, asked: u64) -> (Answer<Lookup>, u64) {
    match given.descent.look_up_trusting(asked) {
        Ok(Lookup::Found { key, distance, place, tried }) => {
            assert_eq!(given.tables.keys[place as usize], key);
            (Ok(Lookup::Found { key, distance, place: 0, tried }), place)
        }
        other => (other, 0),
    }
}

/// The eights of a sound tree in another order, each led to where it stands: no sound tree, and every answer is that of the sound one, but
/// for the places.
#[test]
fn eights_in_another_order() {
    let (mut random, mut seen) = (Random::new(6), Seen::default());
    let (_, reorder) = FORGERIES.into_iter().find(|(what, _)| what.contains("another order")).expect("a way of that name");
    let (mut others, mut moved) = (0, 0);
    for round in 0..400 {
        let sound = Given::new(grown(GROWTHS[round % 3], 1 + round / 8, 15, &mut random));
        let mut tables = sound.tables.clone();
        reorder(&mut tables, &mut random);
        let given = Given::new(tables);
        others += !given.reading.is_sound() as u64;
        assert_eq!(given.walked(), sound.vertices());
        let _ = given.list(0, [sound.vertices().len(); 2], &mut seen);
        for _ in 0..50 {
            let key = sound.asked(&mut random);
            let _ = given.look_up(key, &mut seen);
            let ((answer, place), (sound_answer, sound_place)) = (place_apart(&given, key), place_apart(&sound, key));
            assert_eq!(answer, sound_answer);
            moved += (place != sound_place) as u64;
        }
    }
    assert!(others > 300 && moved > 10_000, "{others}, {moved}");
}

/// A way with one step for each eight places, down to level 21: a lookup goes all of it, the walk to level 15.
#[test]
fn the_longest_way() {
    let mut seen = Seen::default();
    for deepest in 1..=21 {
        let end = last_cell(deepest);
        let above = (1..=deepest).map(|level| end >> (3 * (deepest - level)));
        let keys: Vec<u64> =
            [5].into_iter().chain(above.flat_map(|cell| (0..8).map(move |child| 8 * (cell / 8) + child))).collect();
        let distances: Vec<u32> = (0..keys.len() as u32).collect();
        // The root's own key isn't looked at, so its first child isn't found by it.
        let firsts: Vec<u16> = [1].into_iter().chain(firsts_of(&keys).into_iter().skip(1)).collect();
        let given = Given::new(Tables { keys, distances, firsts, leaves: vec![] });
        for level in 1..=21 {
            let asked = last_cell(level);
            let found = level.min(deepest);
            assert_eq!(given.look_up(asked, &mut seen), Err(11));
            let (key, distance, tried) = (last_cell(found), 8 * found, level - found + 1);
            let place = distance.into();
            assert_eq!(given.descent.look_up_trusting(asked), Ok(Lookup::Found { key, distance, place, tried }));
        }
        let _ = given.list(0, [most_vertices(given.tables.keys.len()); 2], &mut seen);
        assert_linear(&given);
    }
}

/// A step asks for the first of eight keys alone. So any others beside it give the list of the sound tree, and so do other roots.
#[test]
fn lists_by_first_children() {
    let (mut random, mut seen) = (Random::new(3), Seen::default());
    for round in 0..300 {
        let sound = Given::new(grown(GROWTHS[round % 3], 1 + round / 8, 15, &mut random));
        let mut tables = sound.tables.clone();
        for (place, key) in tables.keys.iter_mut().enumerate().filter(|(place, _)| place % 8 != 1) {
            *key = [*key - *key % 8, 0, u64::MAX, random.number()][(place + round) % 4];
        }
        let given = Given::new(tables);
        assert_eq!(given.walked(), sound.vertices());
        let count = sound.vertices().len();
        assert_eq!(given.list(0, [count, count + 1], &mut seen), Err(11));
    }
    assert_eq!(seen.trusted.lists, 300);
}
