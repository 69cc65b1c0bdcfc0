//! The program `counts`, run as it is, against the model. It is the command that the environment variable MITTENHELM_COUNTS names,
//! else the one that `tools/program counts` makes.

use oracle_answers::fields::{field, KINDS};
use oracle_answers::inputs::{Random, BROKEN_DISTANCES, GREATEST_DISTANCES};
use oracle_answers::model::reading::{counts, Reading, Tables};
use oracle_answers::model::{level, vertex};
use oracle_answers::trees::{grown, Growth, Tree};
use std::collections::{BTreeMap, BTreeSet};
use std::env;
use std::io::{self, Write};
use std::path::PathBuf;
use std::process::{Command, Output, Stdio};
use std::thread;
use std::time::Duration;

fn program() -> PathBuf {
    let path = match env::var_os("MITTENHELM_COUNTS") {
        Some(path) if !path.is_empty() => PathBuf::from(path),
        _ => PathBuf::from(env!("CARGO_MANIFEST_DIR")).join("../build/program/counts"),
    };
    assert!(path.is_file(), "there is no program {}: make it with tools/program counts", path.display());
    path
}

fn printed(output: Output) -> String {
    assert!(output.status.success() && output.stderr.is_empty(), "{output:?}");
    String::from_utf8(output.stdout).expect("plain text")
}

/// Runs it with an input that comes in pieces of these lengths, over and over, with a pause after each; all at once for none.
fn run(input: &[u8], pieces: &[usize]) -> String {
    let mut command = Command::new(program());
    let mut child =
        command.stdin(Stdio::piped()).stdout(Stdio::piped()).stderr(Stdio::piped()).spawn().expect("a program that runs");
    let mut pipe = child.stdin.take().expect("a pipe");
    let (mut rest, mut lengths) = (input, pieces.iter().cycle());
    while !rest.is_empty() {
        let (piece, more) = rest.split_at(lengths.next().map_or(rest.len(), |&length| length.min(rest.len())));
        match pipe.write_all(piece).and_then(|()| pipe.flush()) {
            // It has ended, and ignores later bytes.
            Err(e) if e.kind() == io::ErrorKind::BrokenPipe => break,
            written => written.expect("a pipe that takes bytes"),
        }
        if !pieces.is_empty() {
            thread::sleep(Duration::from_micros(300));
        }
        rest = more;
    }
    drop(pipe);
    printed(child.wait_with_output().expect("a program that ends"))
}

/// How often each answer was seen: by its first word and, of a refusal, its number.
#[derive(Debug, Default)]
struct Seen(BTreeMap<String, u64>);

impl Seen {
    fn check(&mut self, input: &[u8], pieces: &[usize]) -> String {
        let (ours, expected) = (run(input, pieces), counts(input));
        assert_eq!(ours, expected, "{} bytes, {:?}.., in pieces of {pieces:?}", input.len(), &input[..input.len().min(40)]);
        let kind = if expected.starts_with(|c: char| c.is_ascii_digit()) { "numbers" } else { expected.trim_end() };
        *self.0.entry(kind.to_string()).or_default() += 1;
        expected
    }

    fn assert_often(&self, times: u64, kinds: &[&str]) {
        for &kind in kinds {
            assert!(self.0.get(kind).map_or(false, |&seen| seen >= times), "{kind} was too rare: {self:?}");
        }
    }
}

fn input_of(bound: u8, distances: impl Iterator<Item = f32>) -> Vec<u8> {
    [bound].into_iter().chain(distances.flat_map(f32::to_le_bytes)).collect()
}

/// The input that builds a tree: near where a cell is split, far where it isn't.
fn input_for(tables: &Tables) -> Vec<u8> {
    let far = |key: &u64| tables.leaves.binary_search(key).is_ok();
    input_of(15, tables.keys.iter().map(|key| if far(key) { f32::MAX } else { -0.0 }))
}

fn nearly_all() -> impl Iterator<Item = Vec<u8>> {
    let mut random = Random::new(1);
    let kinds_and_bounds = KINDS.into_iter().flat_map(|kind| [0, 2, 3, 4, 6, 15].map(|bound| (kind, bound)));
    kinds_and_bounds.map(move |(kind, bound)| {
        let tree = Tree::by_rule(bound, &*field(kind, bound, &mut random));
        input_of(bound as u8, tree.nodes.iter().map(|node| node.distance))
    })
}

#[test]
fn examples() {
    let far = input_of(2, [1.0; 73].into_iter());
    assert_eq!(run(&far, &[]), "73 64 27\n");
    let at_64 = input_of(3, (0..81).map(|place| if place == 9 { 0.0 } else { 1.0 }));
    assert_eq!(run(&at_64, &[]), "81 71 34\n");
    assert_eq!(run(&far[..292], &[]), "short\n");
    assert_eq!(run(&input_of(5, [0.0; 1024].into_iter()), &[]), "refused 8\n");
}

/// Fields of every kind, whole, with bytes behind them, and cut short.
#[test]
fn fields_of_every_kind() {
    let (mut random, mut seen) = (Random::new(2), Seen::default());
    for mut input in nearly_all() {
        seen.check(&input, &[]);
        let cut = random.below(input.len() as u64) as usize;
        seen.check(&input[..cut], &[]);
        input.extend((0..1 + random.below(9)).map(|_| random.bits() as u8));
        seen.check(&input, &[]);
    }
    println!("fields: {seen:?}");
    seen.assert_often(50, &["numbers", "short"]);
    seen.assert_often(5, &["refused 8"]);
}

/// Where input ends and a distance is due it is short, whatever else is wrong; a refusal needs the distance.
#[test]
fn every_end() {
    let mut seen = Seen::default();
    let at_64 = input_of(3, (0..81).map(|place| if place == 9 { 0.0 } else { 1.0 }));
    for end in (0..12).chain(280..at_64.len() + 1) {
        let said = seen.check(&at_64[..end], &[]);
        assert_eq!(said == "short\n", end < at_64.len());
    }
    // The last node that has room, and one more; leaves that have no room for their list.
    let mut random = Random::new(3);
    let great = input_for(&grown(Growth::Any, 140, 15, &mut random));
    for nodes in [1023, 1024, 1025, 1121] {
        for more in 0..4 {
            let said = seen.check(&great[..(1 + 4 * nodes + more).min(great.len())], &[]);
            assert_eq!(said, if nodes <= 1024 { "short\n" } else { "refused 6\n" });
        }
    }
    for bound in (0..24).chain([31, 32, 127, 128, 254, 255]) {
        seen.check(&[bound], &[]);
        seen.check(&[bound, 0, 0, 0x80, 0x3f], &[]);
    }
    println!("ends: {seen:?}");
    seen.assert_often(20, &["short", "refused 5"]);
    seen.assert_often(8, &["refused 6"]);
}

/// The input with one distance changed.
fn with_distance(input: &[u8], place: usize, distance: f32) -> Vec<u8> {
    let (mut changed, at) = (input.to_vec(), 1 + 4 * place);
    changed[at..at + 4].copy_from_slice(&distance.to_le_bytes());
    changed
}

/// A broken distance is refused where it is due and whole, before a room that is too short; what comes after the last is ignored.
#[test]
fn broken_distances() {
    let mut seen = Seen::default();
    let far = input_of(2, [1.0; 80].into_iter());
    for (number, bits) in BROKEN_DISTANCES.into_iter().enumerate() {
        for place in [0, 1, 8, 9, 40, 72] {
            let broken = with_distance(&far, place, f32::from_bits(bits));
            assert_eq!(seen.check(&broken, &[]), "refused 16\n", "{bits:#x} at {place}");
            let end = 1 + 4 * (place + 1);
            assert_eq!(seen.check(&broken[..end], &[]), "refused 16\n", "{bits:#x} at {place}");
            assert_eq!(seen.check(&broken[..end - 1 - number % 3], &[]), "short\n", "{bits:#x} at {place}");
        }
        assert_eq!(seen.check(&with_distance(&far, 73, f32::from_bits(bits)), &[]), "73 64 27\n");
    }
    for greatest in GREATEST_DISTANCES {
        assert_eq!(seen.check(&input_of(2, [greatest; 73].into_iter()), &[]), "73 64 27\n");
    }
    // A bound above 15 goes before.
    let broken = input_of(3, [f32::NAN; 2].into_iter());
    assert_eq!(seen.check(&broken, &[]), "refused 16\n");
    assert_eq!(seen.check(&[&[16], &broken[1..]].concat(), &[]), "refused 5\n");

    // Where there is no room for a node, and where there is none in the queue, since 146 splits leave fewer than 8 of its places.
    let no_node = input_for(&grown(Growth::Any, 140, 15, &mut Random::new(3)));
    let no_queue = input_of(5, [0.0; 1024].into_iter());
    for (input, refused, number) in [(no_node, 1024, 6), (no_queue, 146, 8)] {
        assert_eq!(seen.check(&input, &[]), format!("refused {number}\n"));
        for (place, distance, expected) in [
            (refused, f32::INFINITY, "refused 16\n".to_string()),
            (refused - 1, f32::NAN, "refused 16\n".to_string()),
            (refused + 1, f32::NAN, format!("refused {number}\n")),
        ] {
            assert_eq!(seen.check(&with_distance(&input, place, distance), &[]), expected, "{distance} at {place}");
        }
    }
    println!("broken distances: {seen:?}");
}

/// The vertices that a split of a leaf would give, beside those that are there.
fn new_vertices(leaf: u64, there: &BTreeSet<u64>) -> BTreeSet<u64> {
    let corners = (0..64).map(|i| (8 * leaf + i % 8, i as u32 / 8));
    let vertices = corners.map(|(child, corner)| vertex(child, level(child), corner).expect("a cell with its own level"));
    vertices.filter(|vertex| *vertex != 0 && !there.contains(vertex)).collect()
}

/// A tree that has so many vertices, grown from the one of 73 nodes by splits that don't give it more.
fn with_vertices(target: usize, random: &mut Random) -> Tables {
    loop {
        let mut tree = grown(Growth::Even, 9, 15, random);
        let mut vertices: BTreeSet<u64> = Reading::of(&tree).vertices().expect("a sound tree").iter().map(|&(v, _)| v).collect();
        // Where no split fits any more, another tree is grown.
        for _ in 0..2000 {
            let place = random.below(tree.leaves.len() as u64) as usize;
            let leaf = tree.leaves[place];
            let mut more = new_vertices(leaf, &vertices);
            if level(leaf) < 15 && vertices.len() + more.len() <= target {
                vertices.append(&mut more);
                tree.leaves.remove(place);
                tree.leaves.extend((0..8).map(|child| 8 * leaf + child));
                tree.keys.extend((0..8).map(|child| 8 * leaf + child));
            }
            if vertices.len() == target {
                tree.leaves.sort_unstable();
                tree.keys.sort_unstable();
                return tree;
            }
        }
    }
}

/// A list of exactly 1,024 vertices has room, and no longer one.
#[test]
fn lists_around_1024() {
    let (mut random, mut seen) = (Random::new(4), Seen::default());
    for target in [1000, 1022, 1023, 1024, 1024, 1025, 1025, 1026, 1100] {
        let tree = with_vertices(target, &mut random);
        let expected = match target {
            0..=1024 => format!("{} {} {target}\n", tree.keys.len(), tree.leaves.len()),
            _ => "refused 12\n".to_string(),
        };
        assert_eq!(seen.check(&input_for(&tree), &[]), expected);
    }
    println!("lists: {seen:?}");
    seen.assert_often(4, &["numbers", "refused 12"]);
}

/// Input that comes in pieces, of odd lengths and of single bytes, is the same input.
#[test]
fn in_pieces() {
    let mut seen = Seen::default();
    for (number, input) in nearly_all().enumerate().filter(|(number, _)| number % 5 == 0) {
        seen.check(&input, [&[1021, 3, 7][..], &[4097], &[1, 2, 509], &[4096, 1], &[333]][number / 5 % 5]);
    }
    let far = input_of(2, [1.0; 73].into_iter());
    for pieces in [&[1][..], &[2], &[3], &[5], &[1, 4], &[292], &[290, 1, 1]] {
        assert_eq!(seen.check(&far, pieces), "73 64 27\n");
        assert_eq!(seen.check(&far[..291], pieces), "short\n");
    }
    println!("pieces: {seen:?}");
    seen.assert_often(5, &["numbers", "short"]);
}

/// Input from a file, and none at all.
#[test]
fn other_inputs() {
    let far = input_of(2, [1.0; 80].into_iter());
    let path = PathBuf::from(env!("CARGO_TARGET_TMPDIR")).join("counts-input");
    std::fs::write(&path, far).expect("a folder for tests");
    let from = |input: Stdio| printed(Command::new(program()).stdin(input).output().expect("a program that runs"));
    assert_eq!(from(std::fs::File::open(&path).expect("the file").into()), "73 64 27\n");
    assert_eq!(from(Stdio::null()), "short\n");
    // Under an emulator, what is closed may be opened for something else.
    if cfg!(target_arch = "x86_64") {
        let closed = Command::new("sh").args(["-c", "exec \"$0\" <&-"]).arg(program()).output();
        assert_eq!(printed(closed.expect("a shell")), "short\n");
    }
}
