//! What the published text answers, in its release build, where our calls refuse. docs/DIFFERENCES.md tells it.

use oracle_answers::fields::cell_at;
use oracle_answers::inputs::BROKEN_DISTANCES;
use oracle_answers::model::build::{self, Tables, STATE_WORDS, TABLES};
use oracle_answers::trees::{Field, Tree};
use oracle_answers::{compares_with_text, model, published};

#[test]
fn where_we_refuse_the_rust_answers_something() {
    if !compares_with_text() {
        return;
    }
    // Level 21: the leading one is shifted out.
    assert_eq!((model::child(1 << 63, 5), published::child(1 << 63, 5)), (Err(3), 5));
    // Child 9: its bits run into the key's, and children of 8 and of 9 are the same.
    assert_eq!((model::child(8, 9), published::child(8, 9)), (Err(2), 73));
    assert_eq!((model::child(9, 1), published::child(9, 1)), (Ok(73), 73));
    // No cell key: the answer of the cell with the same level and low bits.
    assert_eq!((model::child(16, 0), published::child(16, 0)), (Err(1), 128));
    assert_eq!((model::half_size(16), published::size(16)), (Err(1), 0.25));
    assert_eq!((model::centre(16), published::center(16)), (Err(1), [0.25; 3]));
    assert_eq!((model::half_size(0), published::size(0)), (Err(1), 0.5));

    // A level that isn't the key's own, a corner above 7.
    assert_eq!((model::vertex(8, 2, 7), published::primal_vertex(8, 2, 7)), (Err(3), 0x1e00_0000_0000_0000));
    assert_eq!((model::vertex(71, 2, 8), published::primal_vertex(71, 2, 8)), (Err(2), 0x9e00_0000_0000_0000));
    // A number that is no inner vertex, a level that has none, a side above 7: no answer is a cell key of that level.
    assert_eq!((model::side(1 << 63, 1, 7), published::dual_vertex(1 << 63, 1, 7)), (Err(4), 0x6db6_db6d_b6db_6db7));
    assert_eq!((model::side(15 << 60, 0, 7), published::dual_vertex(15 << 60, 0, 7)), (Err(4), 0x6db6_db6d_b6db_6db6));
    assert_eq!((model::side(15 << 60, 1, 8), published::dual_vertex(15 << 60, 1, 8)), (Err(2), 7));
}

/// The refusal of the first distance that is refused in a build with room, and the key that is then asked for.
fn refused(bound: u32, field: &Field) -> Option<(u32, u64)> {
    let (mut state, mut tables) = ([0; STATE_WORDS], Tables::of([1000; TABLES]));
    let mut asked = build::start(bound, &tables, &mut state).map(Some);
    while let Ok(Some(request)) = asked {
        asked = build::distance(&mut state, &mut tables, field(request.centre));
    }
    asked.err().map(|refusal| (refusal, state[3]))
}

/// A distance that is infinite or NaN: the text splits as ever at level 0 and 1, and from level 2 on makes the cell a leaf, however near
/// the others are.
#[test]
fn a_broken_distance_is_a_leaf_of_the_rust() {
    if !compares_with_text() {
        return;
    }
    let near: &Field = &|_| 0.0;
    let whole = Tree::by_integer(3, near);
    for bits in BROKEN_DISTANCES {
        for broken in [1, 9, 70, 127, 520] {
            let field: &Field = &move |p| if cell_at(p) == broken { f32::from_bits(bits) } else { 0.0 };
            assert_eq!(refused(3, field), Some((16, broken)), "{bits:#x} for {broken}");
            for theirs in [Tree::by_integer(3, field), Tree::by_published(3, field)] {
                let kept = theirs.place_of(broken).map(|place| theirs.nodes[place].distance.to_bits());
                assert_eq!(kept, Some(bits), "{bits:#x} for {broken}");
                assert_eq!(theirs.is_leaf(broken), broken >= 64, "{bits:#x} for {broken}");
            }
            let lost = if (64..128).contains(&broken) { 8 } else { 0 };
            assert_eq!(Tree::by_integer(3, field).nodes.len(), whole.nodes.len() - lost);
        }
    }
    assert_eq!(refused(3, near), None);
}
