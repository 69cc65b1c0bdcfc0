//! Document 01's examples of reading, and the safe functions as a host uses them.

use crate::calls::Given;
use mittenhelm::{distance, most_vertices, start, DualCell, Lookup, State, Tables, Tree, STATE_WORDS};
use oracle_answers::fields::cell_at;
use oracle_answers::inputs::Random;
use oracle_answers::model::lifetimes::Needs;
use oracle_answers::model::reading::{self, Reading};
use oracle_answers::trees::{self, grown, GROWTHS};

const MIDDLE: u64 = 0xf000_0000_0000_0000;

const ROOT: Tree = Tree { keys: &[1], distances: &[2.0], firsts: &[0], leaves: &[1] };

/// Tables in which a build was finished.
struct Built {
    keys: Vec<u64>,
    distances: Vec<f32>,
    firsts: Vec<u16>,
    leaves: Vec<u64>,
    queue: Vec<u64>,
    state: State,
}

impl Built {
    fn new(bound: u32, field: impl Fn(u64) -> f32) -> Self {
        let mut built = Built {
            keys: vec![0; 100],
            distances: vec![0.0; 110],
            firsts: vec![7; 105],
            leaves: vec![0; 120],
            queue: vec![0; 130],
            state: State([0; STATE_WORDS]),
        };
        let Built { keys, distances, firsts, leaves, queue, .. } = &mut built;
        let mut tables = Tables { keys, distances, firsts, leaves, queue };
        let (mut state, mut request) = start(bound, &tables).expect("a bound up to 15");
        assert!(state.tree(&tables).is_none());
        while let Some(next) = distance(&mut state, &mut tables, field(request.key)).expect("room enough") {
            assert!(state.tree(&tables).is_none());
            request = next;
        }
        built.state = state;
        built
    }

    fn read<T>(&mut self, read: impl Fn(Tree) -> T) -> T {
        let Built { keys, distances, firsts, leaves, queue, state } = self;
        read(state.tree(&Tables { keys, distances, firsts, leaves, queue }).expect("a finished build"))
    }
}

fn at_64(key: u64) -> f32 {
    if key == 64 {
        0.0
    } else {
        1.0
    }
}

/// Nodes, leaves and vertices of a tree.
fn counted(tree: Tree) -> [usize; 3] {
    let vertices = tree.list(0, &mut [0; 1024], &mut [0; 1024]).expect("room enough");
    [tree.keys.len(), tree.leaves.len(), vertices]
}

#[test]
fn nodes_leaves_and_vertices() {
    assert_eq!(Built::new(2, |_| 1.0).read(counted), [73, 64, 27]);
    assert_eq!(Built::new(3, at_64).read(counted), [81, 71, 34]);
}

/// Room for all vertices that so many nodes could have: those that there are come first, and the places behind them stay.
#[test]
fn room_for_the_most_vertices() {
    assert_eq!([0, 1, 8, 9, 73, 81, 4096].map(most_vertices), [0, 0, 0, 19, 171, 190, 9709]);
    Built::new(3, at_64).read(|tree| {
        for places in [34, most_vertices(81) - 1, most_vertices(81)] {
            let (mut vertices, mut levels) = (vec![7; places], vec![7; places]);
            assert_eq!(tree.list(0, &mut vertices, &mut levels), Ok(34));
            assert!(vertices[34..].iter().all(|&vertex| vertex == 7) && levels[34..].iter().all(|&level| level == 7));
            assert!(vertices[..34].iter().zip(&levels).all(|(&vertex, &level)| mittenhelm::is_inner(vertex, level.into())));
        }
    });
}

#[test]
fn a_dual_cell_of_two_levels() {
    let corner = mittenhelm::vertex(519, 3, 7).expect("a cell key with its own level");
    let cell = Built::new(3, at_64).read(|tree| tree.dual_cell(corner, 3));
    let expected = DualCell {
        keys: [71, 70, 69, 68, 67, 66, 65, 519],
        distances: [1.0; 8],
        places: [16, 15, 14, 13, 12, 11, 10, 80],
        tried: 15,
    };
    assert_eq!(cell, Ok(expected));
}

#[test]
fn a_dual_cell_of_the_finest_level() {
    let corner = mittenhelm::vertex(512, 3, 7).expect("a cell key with its own level");
    let cell = Built::new(3, at_64).read(|tree| tree.dual_cell(corner, 3)).expect("an inner vertex");
    assert_eq!((cell.keys, cell.tried), ([519, 518, 517, 516, 515, 514, 513, 512], 8));
    assert_eq!(cell.places, [80, 79, 78, 77, 76, 75, 74, 73]);
}

/// The root and its eight children.
const NINE: Tree = Tree {
    keys: &[1, 8, 9, 10, 11, 12, 13, 14, 15],
    distances: &[0.0, 0.5, 1.0, 1.5, 2.0, 2.5, 3.0, 3.5, 4.0],
    firsts: &[1, 0, 0, 0, 0, 0, 0, 0, 0],
    leaves: &[8, 9, 10, 11, 12, 13, 14, 15],
};

/// The example of the header and of `DualCell`: which of the eight entries is which.
#[test]
fn the_middle_of_nine_nodes() {
    let tree = NINE;
    let expected = DualCell {
        keys: [15, 14, 13, 12, 11, 10, 9, 8],
        distances: [4.0, 3.5, 3.0, 2.5, 2.0, 1.5, 1.0, 0.5],
        places: [8, 7, 6, 5, 4, 3, 2, 1],
        tried: 8,
    };
    assert_eq!(tree.dual_cell(MIDDLE, 1), Ok(expected));
    assert_eq!(tree.checked().and_then(|tree| tree.dual_cell(MIDDLE, 1)), Ok(expected));
    for (corner, key) in (0..8).zip(expected.keys) {
        assert_eq!(mittenhelm::vertex(key, 1, corner), Ok(MIDDLE), "entry {corner}");
    }
    assert_eq!(mittenhelm::centre(15), Ok([0.75; 3]));
}

/// The example of the header and of `Tree::slabs`: centres at the heights 1/4 and 3/4.
#[test]
fn slabs_of_the_middle_of_nine_nodes() {
    let checked = NINE.checked().expect("a sound tree");
    for (exponent, slabs) in [(0, 0..=0), (1, 0..=1), (2, 1..=3), (3, 2..=6), (15, 8192..=24576)] {
        assert_eq!(NINE.slabs(MIDDLE, 1, exponent), Ok(slabs.clone()), "exponent {exponent}");
        assert_eq!(checked.slabs(MIDDLE, 1, exponent), Ok(slabs), "exponent {exponent}");
    }
    let reached: Vec<u32> = checked.slabs(MIDDLE, 1, 2).expect("an inner vertex").collect();
    assert_eq!(reached, [1, 2, 3]);
}

/// The example of the header and of `Tree::lifetimes`: the one cell has all leaves.
#[test]
fn lifetimes_of_nine_nodes() {
    let checked = NINE.checked().expect("a sound tree");
    let (mut first, mut last, mut needed) = ([7; 9], [7; 8], [7; 6]);
    assert_eq!(NINE.lifetimes(2, &mut first, &mut last, &mut needed), Ok(8));
    assert_eq!((first, last, needed), ([1, 1, 1, 1, 1, 1, 1, 1, 7], [3; 8], [0, 8, 8, 8, 7, 7]));
    let (mut first, mut last, mut needed) = ([7; 8], [7; 8], [7; 8]);
    assert_eq!(checked.lifetimes(2, &mut first, &mut last, &mut needed[..4]), Ok(8));
    assert_eq!((first, last, needed), ([1; 8], [3; 8], [0, 8, 8, 8, 7, 7, 7, 7]));
    assert_eq!(checked.lifetimes(3, &mut first, &mut last, &mut needed), Ok(8));
    assert_eq!((first, last, needed), ([2; 8], [6; 8], [0, 0, 8, 8, 8, 8, 8, 0]));
}

/// By hand: of sixteen slabs the four layers of level 2 have their centres in 2, 6, 10 and 14, the small leaves in 1 and 3.
#[test]
fn lifetimes_of_two_levels() {
    Built::new(3, at_64).read(|tree| {
        let (mut first, mut last, mut needed) = ([0; 71], [0; 71], [0; 16]);
        assert_eq!(tree.lifetimes(4, &mut first, &mut last, &mut needed), Ok(51));
        let span = |key| tree.leaves.binary_search(&key).map(|leaf| (first[leaf], last[leaf]));
        // A low one and a high one of the small leaves; one of the lowest layer beside them, and one that isn't; and one of each other layer.
        assert_eq!([512, 519, 65, 72].map(span), [(1, 3), (1, 6), (1, 6), (2, 6)].map(Ok));
        assert_eq!([71, 120, 127].map(span), [(2, 10), (6, 14), (10, 14)].map(Ok));
        // The eight small leaves with three beside them, then the two lowest layers; where a layer's centres are, three layers meet.
        assert_eq!(needed, [0, 11, 39, 39, 35, 35, 51, 32, 32, 32, 48, 32, 32, 32, 32, 0]);
    });
}

/// A cell of two levels: the corner of cell 519 of level 3 that lies in the middle of the cube's lowest eighth.
#[test]
fn slabs_of_two_levels() {
    let corner = mittenhelm::vertex(519, 3, 7).expect("a cell key with its own level");
    let slabs = |exponent| Built::new(3, at_64).read(|tree| tree.slabs(corner, 3, exponent));
    // The centre of 65, 66 and 67 is at 1/8, that of 519 at 3/16, and that of 68 to 71 at 3/8.
    assert_eq!([0, 1, 2, 3, 4].map(slabs), [0..=0, 0..=0, 0..=1, 1..=3, 2..=6].map(Ok));
}

/// The same dual cells by the text, whose tree of this field is another one: the integer build's.
#[test]
fn the_examples_by_the_text() {
    let field = |p| at_64(cell_at(p));
    let tree =
        if oracle_answers::compares_with_text() { trees::Tree::by_integer(3, &field) } else { trees::Tree::by_rule(3, &field) };
    let given = Given::new(tree.tables());
    let mut built = Built::new(3, at_64);
    built.read(|tree| {
        assert_eq!((tree.keys, tree.leaves), (&given.tables.keys[..], &given.tables.leaves[..]));
        assert_eq!(tree.firsts, given.tables.firsts);
        assert!(tree.distances.iter().map(|d| d.to_bits()).eq(given.tables.distances.iter().copied()));
    });
    assert_eq!(given.vertices().len(), 34);
}

#[test]
fn lookups() {
    let look_up = |key| Built::new(3, at_64).read(|tree| tree.look_up(key).map_err(|refusal| refusal.number()));
    assert_eq!(look_up(64), Ok(Lookup::Found { key: 64, distance: 0.0, place: 9, tried: 1 }));
    assert_eq!(look_up(65 * 64 + 9), Ok(Lookup::Found { key: 65, distance: 1.0, place: 10, tried: 3 }));
    assert_eq!(look_up(u64::MAX), Ok(Lookup::Found { key: 127, distance: 1.0, place: 72, tried: 20 }));
    assert_eq!(look_up(1), Ok(Lookup::Nothing { tried: 0 }));
    assert_eq!(look_up(16), Err(1));
    assert_eq!(ROOT.look_up(u64::MAX), Ok(Lookup::Nothing { tried: 21 }));
}

#[test]
fn refusals_in_words() {
    let told = |refused: Result<(), mittenhelm::Refusal>| {
        refused.map_or_else(|refusal| refusal.to_string(), |()| "accepted".to_string())
    };
    let root = ROOT;
    let none = Tree { leaves: &[], ..root };
    assert!(root.sound() && !none.sound());
    assert_eq!(root.checked().map(|checked| checked.tree().keys), Ok(root.keys));
    assert_eq!(told(none.checked().map(|_| ())), "refused 11: not a sound tree");
    assert_eq!(told(none.look_up(0).map(|_| ())), "refused 11: not a sound tree");
    for firsts in [&[][..], &[1], &[0, 0]] {
        assert_eq!(told(Tree { firsts, ..root }.checked().map(|_| ())), "refused 11: not a sound tree");
    }
    for broken in [f32::INFINITY, f32::NEG_INFINITY, f32::NAN] {
        assert_eq!(told(Tree { distances: &[broken], ..root }.checked().map(|_| ())), "refused 11: not a sound tree");
    }
    assert_eq!(told(root.look_up(0).map(|_| ())), "refused 1: not a cell key");
    assert_eq!(told(root.list(0, &mut [], &mut []).map(|_| ())), "accepted");
    assert_eq!(
        told(root.list(1, &mut [0], &mut []).map(|_| ())),
        "refused 12: start place past the end of a table, or no room for all vertices"
    );
    assert_eq!(
        told(root.dual_cell(MIDDLE, 1).map(|_| ())),
        "refused 4: not an inner vertex at that level, or the tree is the root alone"
    );
    assert_eq!(
        told(root.slabs(MIDDLE, 1, 16).map(|_| ())),
        "refused 4: not an inner vertex at that level, or the tree is the root alone"
    );
    assert_eq!(told(NINE.slabs(MIDDLE, 1, 16).map(|_| ())), "refused 5: bound or slab exponent above 15");
    assert_eq!(told(none.slabs(MIDDLE, 1, 16).map(|_| ())), "refused 11: not a sound tree");
    assert_eq!(told(root.lifetimes(0, &mut [0], &mut [0], &mut [0]).map(|_| ())), "accepted");
    assert_eq!(told(root.lifetimes(0, &mut [0], &mut [], &mut [0]).map(|_| ())), "refused 17: a report table too short");
    assert_eq!(told(root.lifetimes(16, &mut [0], &mut [], &mut [0]).map(|_| ())), "refused 5: bound or slab exponent above 15");
    assert_eq!(told(none.lifetimes(16, &mut [], &mut [], &mut []).map(|_| ())), "refused 11: not a sound tree");
}

/// A state that isn't of these tables gives no tree.
#[test]
fn a_tree_of_shorter_tables() {
    let mut built = Built::new(2, |_| 1.0);
    built.keys.truncate(73);
    assert!(built.read(|tree| tree.sound()));
    built.keys.truncate(72);
    let Built { keys, distances, firsts, leaves, queue, state } = &mut built;
    assert!(state.tree(&Tables { keys, distances, firsts, leaves, queue }).is_none());
    let mut built = Built::new(2, |_| 1.0);
    built.firsts.truncate(72);
    let Built { keys, distances, firsts, leaves, queue, state } = &mut built;
    assert!(state.tree(&Tables { keys, distances, firsts, leaves, queue }).is_none());
}

/// The safe functions hand on what the C functions say.
#[test]
fn wrappers() {
    let mut random = Random::new(9);
    let number = |refusal: mittenhelm::Refusal| refusal.number();
    for round in 0..300 {
        let mut tables = grown(GROWTHS[round % 3], round / 10, 15, &mut random);
        match round % 10 {
            3 => tables.distances[round / 10 % 9] = random.broken_distance().to_bits(),
            5 => tables.firsts[0] ^= 1 << random.below(16),
            7 => drop(tables.leaves.pop()),
            _ => {}
        }
        let distances: Vec<f32> = tables.distances.iter().map(|&bits| f32::from_bits(bits)).collect();
        let tree = Tree { keys: &tables.keys, distances: &distances, firsts: &tables.firsts, leaves: &tables.leaves };
        let model = Reading::of(&tables);
        assert_eq!(tree.sound(), model.is_sound());
        let checked = tree.checked();
        assert_eq!(checked.map(|_| ()).map_err(number), if model.is_sound() { Ok(()) } else { Err(11) });
        for _ in 0..50 {
            let key = random.number();
            let expected = model.look_up(key).map(|answer| match answer {
                reading::Lookup::Found { key, distance, place, tried } => {
                    Lookup::Found { key, distance: f32::from_bits(distance), place, tried }
                }
                reading::Lookup::Nothing { tried } => Lookup::Nothing { tried },
            });
            assert_eq!(tree.look_up(key).map_err(number), expected);
            assert_eq!(checked.and_then(|tree| tree.look_up(key)).map_err(number), expected);
            let (vertex, level) = random.vertex_and_level();
            let expected = model.dual_cell(vertex, level).map(|cell| DualCell {
                keys: cell.keys,
                distances: cell.distances.map(f32::from_bits),
                places: cell.places,
                tried: cell.tried,
            });
            assert_eq!(tree.dual_cell(vertex, level).map_err(number), expected);
            assert_eq!(checked.and_then(|tree| tree.dual_cell(vertex, level)).map_err(number), expected);
            let exponent = random.below(18) as u32;
            let expected = model.slabs(vertex, level, exponent).map(|slabs| slabs.first..=slabs.last);
            assert_eq!(tree.slabs(vertex, level, exponent).map_err(number), expected);
            assert_eq!(checked.and_then(|tree| tree.slabs(vertex, level, exponent)).map_err(number), expected);
        }
        let (start, lengths) = (random.below(4) as usize, [random.below(600), random.below(600)].map(|length| length as usize));
        let (mut vertices, mut levels) = (vec![7; lengths[0]], vec![7; lengths[1]]);
        let (mut expected_vertices, mut expected_levels) = (vertices.clone(), levels.clone());
        let expected = model.list(start, &mut expected_vertices, &mut expected_levels);
        let (mut again_vertices, mut again_levels) = (vertices.clone(), levels.clone());
        assert_eq!(tree.list(start, &mut vertices, &mut levels).map_err(number), expected);
        assert_eq!((&vertices, &levels), (&expected_vertices, &expected_levels));
        let again = checked.and_then(|tree| tree.list(start, &mut again_vertices, &mut again_levels));
        assert_eq!(again.map_err(number), expected);
        assert_eq!((again_vertices, again_levels), (expected_vertices, expected_levels));

        let (exponent, room) = (random.below(7) as u32, tables.leaves.len() + random.below(3) as usize);
        let report = Needs::of_sound(&tables, &model).and_then(|needs| needs.lifetimes(exponent));
        let [mut first, mut last, mut needed] = [room, room, 32].map(|length| vec![7; length]);
        let [mut again_first, mut again_last, mut again_needed] = [first.clone(), last.clone(), needed.clone()];
        let [mut expected_first, mut expected_last, mut expected_needed] = [first.clone(), last.clone(), needed.clone()];
        let expected = report.and_then(|report| report.write(&mut expected_first, &mut expected_last, &mut expected_needed));
        assert_eq!(tree.lifetimes(exponent, &mut first, &mut last, &mut needed).map_err(number), expected);
        assert_eq!((&first, &last, &needed), (&expected_first, &expected_last, &expected_needed));
        let again = checked.and_then(|tree| tree.lifetimes(exponent, &mut again_first, &mut again_last, &mut again_needed));
        assert_eq!(again.map_err(number), expected);
        assert_eq!((again_first, again_last, again_needed), (expected_first, expected_last, expected_needed));
    }
}
