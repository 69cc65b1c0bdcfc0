//! Document 01's examples of builds, and the safe functions as a host uses them.

use mittenhelm::{distance, start, Refusal, Request, State, Tables};
use oracle_answers::fields::{cell_at, KINDS};
use oracle_answers::inputs::BROKEN_DISTANCES;
use oracle_answers::model::build::TABLES;

use crate::fields::Case;

/// Tables for a build, with room for so many nodes, leaves and waiting cells.
struct Room {
    keys: Vec<u64>,
    distances: Vec<f32>,
    firsts: Vec<u16>,
    leaves: Vec<u64>,
    queue: Vec<u64>,
}

impl Room {
    fn new([keys, distances, firsts, leaves, queue]: [usize; TABLES]) -> Self {
        Room {
            keys: vec![0; keys],
            distances: vec![0.0; distances],
            // What no node has: a build writes a leaf's too.
            firsts: vec![u16::MAX; firsts],
            leaves: vec![0; leaves],
            queue: vec![0; queue],
        }
    }

    fn tables(&mut self) -> Tables<'_> {
        let Room { keys, distances, firsts, leaves, queue } = self;
        Tables { keys, distances, firsts, leaves, queue }
    }
}

/// Builds until nothing is asked for, or up to a refusal, which comes with the number of the distance.
fn build(bound: u32, tables: &mut Tables, field: impl Fn(Request) -> f32) -> Result<State, (u64, Refusal)> {
    let (mut state, mut request) = start(bound, tables).map_err(|refusal| (0, refusal))?;
    loop {
        let given = state.nodes() + 1;
        match distance(&mut state, tables, field(request)).map_err(|refusal| (given, refusal))? {
            Some(next) => request = next,
            None => return Ok(state),
        }
    }
}

#[test]
fn a_queue_of_64_and_of_63() {
    let state = build(2, &mut Room::new([73, 73, 73, 64, 64]).tables(), |_| 1.0).expect("room enough");
    assert_eq!((state.bound(), state.nodes(), state.leaves(), state.asked()), (2, 73, 64, None));
    let (given, refusal) = build(2, &mut Room::new([73, 73, 73, 64, 63]).tables(), |_| 1.0).expect_err("a short queue");
    assert_eq!((given, refusal.number()), (9, 8));
}

#[test]
fn key_65_at_the_edge() {
    for (distance, nodes) in [(14529495.0, 81), (14529496.0, 73)] {
        let at_65 = |request: Request| if request.key == 65 { distance / 67108864.0 } else { 1.0 };
        let mut room = Room::new([100; TABLES]);
        let state = build(3, &mut room.tables(), at_65).expect("room enough");
        assert_eq!(state.nodes(), nodes);
        assert_eq!(room.leaves.contains(&65), nodes == 73);
    }
}

#[test]
fn eight_cells_beneath_64() {
    let mut room = Room::new([81, 81, 81, 71, 71]);
    let state = build(3, &mut room.tables(), |request| if request.key == 64 { 0.0 } else { 1.0 }).expect("room enough");
    assert_eq!((state.nodes(), state.leaves()), (81, 71));
    assert_eq!((room.keys[9], room.keys[72..].to_vec()), (64, [127].into_iter().chain(512..520).collect::<Vec<u64>>()));
    assert_eq!((room.leaves[0], room.leaves[62], room.leaves[63..].to_vec()), (65, 127, (512..520).collect::<Vec<u64>>()));
    assert_eq!((room.distances[9], room.distances[10]), (0.0, 1.0));
    let firsts = [1].into_iter().chain((1..9).map(|split| 8 * split + 1)).chain([73]).chain([0; 71]);
    assert_eq!(room.firsts, firsts.collect::<Vec<u16>>());
}

#[test]
fn refusals_in_words() {
    let told = |bound, lengths| match build(bound, &mut Room::new(lengths).tables(), |_| 1.0) {
        Ok(_) => "accepted".to_string(),
        Err((given, refusal)) => format!("{given}: {refusal}"),
    };
    assert_eq!(told(15, [73, 73, 73, 64, 64]), "accepted");
    assert_eq!(told(16, [73, 73, 73, 64, 64]), "0: refused 5: bound or slab exponent above 15");
    assert_eq!(told(2, [73, 72, 73, 64, 64]), "73: refused 6: no room for another node");
    assert_eq!(told(2, [73, 73, 72, 64, 64]), "73: refused 6: no room for another node");
    assert_eq!(told(2, [73, 73, 73, 10, 64]), "20: refused 7: no room for another leaf");
    assert_eq!(told(2, [73, 73, 73, 64, 7]), "1: refused 8: no room in the queue for eight children");
}

/// A sampler that divides by zero is told so at the cell where it does, and the build goes on when it gives a distance after all.
#[test]
fn a_broken_distance() {
    let (mut room, mut other) = (Room::new([81, 81, 81, 71, 71]), Room::new([81, 81, 81, 71, 71]));
    let at_64 = |request: Request| if request.key == 64 { 0.0 } else { 1.0 };
    let expected = build(3, &mut other.tables(), at_64).expect("room enough");
    let (mut state, request) = start(3, &room.tables()).expect("a bound up to 15");
    let mut asked = Some(request);
    while let Some(request) = asked {
        for bits in BROKEN_DISTANCES {
            let before = state;
            let refused = distance(&mut state, &mut room.tables(), f32::from_bits(bits)).expect_err("no distance");
            assert_eq!((refused.to_string(), state), ("refused 16: the distance is infinite or NaN".to_string(), before));
        }
        asked = distance(&mut state, &mut room.tables(), at_64(request)).expect("room enough");
    }
    assert_eq!(state, expected);
    assert_eq!((room.keys, room.distances, room.firsts), (other.keys, other.distances, other.firsts));
    assert_eq!(room.leaves, other.leaves);
}

/// A state can be kept, and brought back with its tables; other tables are refused, and what is finished stays so.
#[test]
fn a_kept_state() {
    let mut room = Room::new([73, 73, 73, 64, 64]);
    let (mut state, _) = start(0, &room.tables()).expect("a bound up to 15");
    for key in 1..10 {
        assert_eq!((state.asked(), state.nodes()), (Some(if key < 2 { 1 } else { key + 6 }), key - 1));
        distance(&mut state, &mut room.tables(), 0.0).expect("room enough");
    }
    let kept = state;
    let first = distance(&mut state, &mut room.tables(), f32::MAX);
    let mut state = State(kept.0);
    assert_eq!(distance(&mut state, &mut room.tables(), f32::MAX), first);
    for other in [[73, 73, 73, 64, 65], [73, 73, 74, 64, 64]] {
        let other = distance(&mut state, &mut Room::new(other).tables(), 0.0);
        assert_eq!(other.map_err(|refusal| refusal.number()), Err(10));
    }
    while state.asked().is_some() {
        distance(&mut state, &mut room.tables(), 0.0).expect("room enough");
    }
    let after = distance(&mut state, &mut room.tables(), 0.0);
    assert_eq!(after.map_err(|refusal| refusal.number()), Err(9));
}

/// The safe functions hand on what the C functions say: trees of all kinds are the text's.
#[test]
fn wrappers() {
    for kind in KINDS {
        for bound in [1, 3, 15] {
            let case = Case::new(kind, bound, 900);
            let mut room = Room::new(case.tree.needs());
            let state = build(bound, &mut room.tables(), |request| {
                assert_eq!(cell_at(request.centre), request.key);
                assert_eq!(Ok(request.half), mittenhelm::half_size(request.key));
                (case.field)(request.centre)
            });
            let state = state.expect("room enough");
            assert_eq!(state.nodes() as usize, case.tree.nodes.len());
            assert!(room.keys.iter().zip(&case.tree.nodes).all(|(&key, node)| key == node.request.key));
            assert_eq!(room.firsts, case.tree.tables().firsts);
            assert_eq!(room.leaves, case.tree.leaves);
        }
    }
}
