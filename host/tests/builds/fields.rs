//! Builds over fields of all kinds, as a host makes them: every request, node, distance and leaf against both builds of the text,
//! and every call against the model.

use crate::calls::{bits, Pair, Seen};
use oracle_answers::compares_with_text;
use oracle_answers::fields::{field, Kind};
use oracle_answers::forged::garbage;
use oracle_answers::inputs::{Random, BROKEN_DISTANCES};
use oracle_answers::model::build::{Tables, STATE_WORDS, TABLES};
use oracle_answers::model::level;
use oracle_answers::trees::{unreached, Field, Tree};

/// A field and the trees that the text builds over it.
pub struct Case {
    name: String,
    pub bound: u32,
    pub field: Box<Field>,
    /// The integer build's; by document 01's rule where the text isn't there.
    pub tree: Tree,
    /// The published build's, and for each node of the other one its place there, unless a differing level reaches it.
    published: Option<(Tree, Vec<Option<usize>>)>,
}

/// What was compared.
#[derive(Debug, Default)]
pub struct Compared {
    pub builds: u64,
    pub nodes: u64,
    /// Nodes that the published build was compared at, and those of them from level 11 on, where not the first key alone is wrong.
    pub published: u64,
    pub deep: u64,
    /// Nodes that a differing level reaches.
    pub reached: u64,
    /// Builds whose published tree is another one.
    pub differing: u64,
}

impl Case {
    pub fn new(kind: Kind, bound: u32, seed: u64) -> Self {
        let own_seed = (kind as u64) << 32 | (bound as u64) << 16 | seed;
        let field = field(kind, bound, &mut Random::new(own_seed));
        Case::of(format!("{kind:?} {seed}, bound {bound}"), bound, field)
    }

    pub fn of(name: String, bound: u32, field: Box<Field>) -> Self {
        if !compares_with_text() {
            let tree = Tree::by_rule(bound, &*field);
            return Case { name, bound, field, tree, published: None };
        }
        let tree = Tree::by_integer(bound, &*field);
        let theirs = Tree::by_published(bound, &*field);
        let places = unreached(&tree, &theirs);
        Case { name, bound, field, tree, published: Some((theirs, places)) }
    }

    /// The refusal of the distance for a node, by the tree alone: with so many leaves before it, and so many cells waiting.
    fn refusal(&self, place: usize, leaves: usize, waiting: usize, lengths: [usize; TABLES]) -> Option<u32> {
        let is_leaf = self.tree.is_leaf(self.tree.nodes[place].request.key);
        let [keys, distances, firsts, leaf_room, queue] = lengths;
        if place == keys.min(distances).min(firsts).min(4096) {
            Some(6)
        } else if is_leaf {
            Some(7).filter(|_| leaves == leaf_room)
        } else {
            Some(8).filter(|_| waiting + 8 > queue)
        }
    }

    /// Builds in tables of these lengths, to the end or to the first refusal, which is handed on.
    pub fn build(&self, lengths: [usize; TABLES], compared: &mut Compared, seen: &mut Seen) -> Option<u32> {
        let mut pair = Pair::new(vec![0xbad; STATE_WORDS], garbage(lengths));
        let mut request = pair.start(self.bound, seen).expect("a bound up to 15");
        let mut leaves = 0;
        let waiting = self.tree.waiting();
        for (place, node) in self.tree.nodes.iter().enumerate() {
            let at = || format!("{}, node {place} of tables of {lengths:?}", self.name);
            assert_eq!(bits(&request), bits(&node.request), "{}: ours and the integer build's", at());
            let distance = (self.field)(request.centre);
            assert_eq!(distance.to_bits(), node.distance.to_bits(), "{}: the field changed", at());

            // Often enough, and in each of eight siblings: nothing changes, so that all goes on as the text does.
            if place % 7 == 0 {
                self.assert_broken(&mut pair, &[BROKEN_DISTANCES[place / 7 % BROKEN_DISTANCES.len()]], 16, seen);
            }
            if let Some(refusal) = self.refusal(place, leaves, waiting[place], lengths) {
                self.assert_refused(&pair, distance, refusal, seen);
                self.compare_tables(&pair.tables, place, leaves, compared);
                return Some(refusal);
            }
            let next = pair.distance(distance, seen).unwrap_or_else(|number| panic!("{}: refused {number}", at()));
            let is_leaf = self.tree.is_leaf(request.key);
            leaves += is_leaf as usize;
            self.compare_published(place, is_leaf, bits(&request), distance, compared);

            let asked = self.tree.nodes.get(place + 1).map_or(0, |node| node.request.key);
            let words = [self.bound as u64, place as u64 + 1, leaves as u64, asked];
            assert_eq!(pair.words[..4], words, "{}", at());
            assert_eq!(pair.words[4..], lengths.map(|length| length as u64), "{}", at());
            match next {
                Some(next) => request = next,
                None => assert_eq!(place + 1, self.tree.nodes.len(), "{}: finished", at()),
            }
        }
        self.compare_tables(&pair.tables, self.tree.nodes.len(), self.tree.leaves.len(), compared);
        for distance in [0.0, 1.0] {
            assert_eq!(pair.distance(distance, seen), Err(9), "{}", self.name);
        }
        self.assert_broken(&mut pair, &BROKEN_DISTANCES, 9, seen);
        None
    }

    /// Broken distances, which are all refused. (That no place changed, `Pair` sees to.)
    fn assert_broken(&self, pair: &mut Pair, broken: &[u32], refusal: u32, seen: &mut Seen) {
        for &bits in broken {
            assert_eq!(pair.distance(f32::from_bits(bits), seen), Err(refusal), "{}: {bits:#x}", self.name);
        }
    }

    /// A refused distance is refused again, after broken ones too, and changes nothing for another one.
    fn assert_refused(&self, pair: &Pair, distance: f32, refusal: u32, seen: &mut Seen) {
        let mut refused = pair.clone();
        for _ in 0..2 {
            assert_eq!(refused.distance(distance, seen), Err(refusal), "{}", self.name);
            self.assert_broken(&mut refused, &BROKEN_DISTANCES, 16, seen);
        }
        for other in [0.0, f32::MAX, distance] {
            let _ = refused.distance(other, seen);
        }
    }

    fn compare_published(&self, place: usize, is_leaf: bool, request: (u64, [u32; 4]), distance: f32, compared: &mut Compared) {
        compared.nodes += 1;
        let (theirs, places) = match &self.published {
            Some(published) => published,
            None => return,
        };
        match places[place] {
            Some(there) => {
                let node = &theirs.nodes[there];
                assert_eq!(request, bits(&node.request), "{}: ours and the published build's", self.name);
                assert_eq!(distance.to_bits(), node.distance.to_bits(), "{}: key {}", self.name, request.0);
                assert_eq!(is_leaf, theirs.is_leaf(request.0), "{}: key {}", self.name, request.0);
                compared.published += 1;
                compared.deep += (level(request.0) >= 11) as u64;
            }
            None => compared.reached += 1,
        }
    }

    /// The first places hold the nodes and leaves in the order of the text.
    fn compare_tables(&self, tables: &Tables, nodes: usize, leaves: usize, compared: &mut Compared) {
        for (place, node) in self.tree.nodes[..nodes].iter().enumerate() {
            assert_eq!(tables.keys[place], node.request.key, "{}", self.name);
            assert_eq!(tables.distances[place], node.distance.to_bits(), "{}: place {place}", self.name);
            // Where the text's nodes, in their order, have the first child: also before that has its turn.
            let first = self.tree.place_of(8 * node.request.key).unwrap_or(0);
            assert_eq!(tables.firsts[place] as usize, first, "{}: place {place}", self.name);
        }
        assert_eq!(tables.leaves[..leaves], self.tree.leaves[..leaves], "{}", self.name);
        compared.builds += 1;
        if let Some((theirs, _)) = &self.published {
            compared.differing += (theirs.leaves != self.tree.leaves) as u64;
        }
    }
}

/// Lengths for a tree: exact ones, greater ones, one too short, and any.
fn lengths(tree: &Tree, random: &mut Random) -> [usize; TABLES] {
    let needs = tree.needs();
    let mut one_short = needs;
    let one = random.below(TABLES as u64) as usize;
    match random.below(10) {
        0..=2 => needs,
        3 => needs.map(|length| length + random.below(20) as usize),
        4 => needs.map(usize::next_power_of_two),
        5 => [4096, 4100, 4098, 4096, 4000].map(|length| length + random.below(3) as usize),
        6 => {
            one_short[one] -= 1;
            one_short
        }
        7 => {
            one_short[one] = random.below(needs[one] as u64) as usize;
            one_short
        }
        8 => {
            one_short[one] = needs[one] - 1 - needs[one] / 100;
            one_short
        }
        _ => needs.map(|length| length / 2 + random.below(length as u64) as usize),
    }
}

/// Fields of each kind and bound: with 13 kinds and 16 bounds, 10,400 builds.
const FIELDS: u64 = 50;

/// Builds of one kind, of every bound.
fn builds(kind: Kind) {
    let (mut compared, mut seen) = (Compared::default(), Seen::default());
    for bound in 0..16 {
        let mut random = Random::new((kind as u64) << 32 | bound as u64);
        for seed in 0..FIELDS {
            let case = Case::new(kind, bound, seed);
            case.build(lengths(&case.tree, &mut random), &mut compared, &mut seen);
        }
    }
    println!("{kind:?}: {compared:?}, {seen:?}");
    seen.assert_often(20, &[6, 7, 8, 9, 16]);
    assert_eq!((compared.builds, seen.started), (16 * FIELDS, 16 * FIELDS));
    assert!(compared.nodes > 73 * compared.builds, "{compared:?}");
    if compares_with_text() {
        // Of the 73 nodes that every tree has, 8 and 64 alone are reached; but no published tree is ours.
        assert!(compared.published > compared.nodes / 10 * 8, "{compared:?}");
        assert!(compared.reached > compared.builds && compared.differing == compared.builds, "{compared:?}");
        assert_eq!(compared.deep > 100, kind != Kind::Constant, "{compared:?}");
    }
}

of_each_kind!(builds);
