//! The benchmark on small trees, and its comparison of both sides' answers. No time is tested.

use benchmark::answers::Answers;
use benchmark::measures::{Lifetimes, Measure, Row, Times, EXPONENTS, MEASURES};
use benchmark::ours::{checked, look_ups, Building, Reporting};
use benchmark::report::{below_goal, exponent, geometric_mean, growing_faster, long_lifetimes, report, with_kept_end, KEPT_FROM};
use benchmark::rivals::{Hashed, Pointed};
use benchmark::text::{Integer, Published};
use benchmark::trees::{cases, is_near, Case, SHAPES, SIZES};
use oracle_answers::compares_with_text;
use std::time::Duration;

fn case(bound: u32) -> Case {
    let (name, shape) = SHAPES[0];
    Case::new(name, bound, &shape(0.5, 0.1), &mut Building::new()).expect("a small tree")
}

#[test]
fn runs_on_small_trees() {
    if !compares_with_text() {
        return;
    }
    let measured = |case: &Case| Row::measured(case, Duration::from_secs(0)).expect("the same answers");
    let rows: Vec<Row> = [case(2), case(3)].iter().map(measured).collect();
    assert_eq!((rows[0].case.nodes(), rows[0].leaves, rows[0].vertices), (73, 64, 27));
    assert!(rows[1].case.nodes() > 73);
    assert!(rows.iter().all(|row| row.times.len() == MEASURES.len()));
    let report = report(&rows);
    for measure in MEASURES {
        let heading = format!("## Each tree: {}\n", measure.name());
        let section = report.split(&heading).nth(1).expect("a table for each measure");
        let table = section.split("\n## ").next().expect("a part");
        assert_eq!(table.lines().filter(|line| line.starts_with("| sphere")).count(), rows.len(), "{report}");
        // Only lookups have rivals beside the Rust, and soundness has none. (As published it has none of these trees.)
        let columns = table.lines().find(|line| line.starts_with("| field")).expect("a head").matches("µs").count();
        let expected = match measure {
            Measure::LookUps => 4,
            Measure::Soundness => 1,
            _ => 2,
        };
        assert_eq!(columns, expected, "{table}");
    }
    let table = report.split("## Each tree: lifetimes\n").nth(1).expect("a table of lifetimes");
    assert_eq!(table.lines().filter(|line| line.starts_with("| sphere")).count(), rows.len(), "{report}");
    assert_eq!(
        table.lines().find(|line| line.starts_with("| field")).expect("a head").matches("µs").count(),
        1 + EXPONENTS.len()
    );
}

/// A report of the tree's cells is told from one of another tree's.
#[test]
fn lifetimes_are_those_of_the_cells() {
    let mut building = Building::new();
    let [few, many] = [2, 3].map(|bound| {
        let case = case(bound);
        let state = building.build_ready(case.bound, &case.distances).expect("room for the tree");
        building.finished(state)
    });
    for finished in [&few, &many] {
        for exponent in EXPONENTS {
            assert!(Reporting::new(finished.tree(), 1 << exponent).is_of_cells(checked(finished.tree()), exponent));
        }
    }
    // Room for more leaves leaves what was there before.
    assert!(!Reporting::new(many.tree(), 1).is_of_cells(checked(few.tree()), 0));
}

/// The other lookups find what ours finds, key by key: the root and what is below it, at every level and below every leaf.
#[test]
fn other_lookups_find_the_same() {
    let case = case(3);
    let mut building = Building::new();
    let state = building.build_ready(case.bound, &case.distances).expect("room for the tree");
    let finished = building.finished(state);
    let (tree, mut different) = (finished.tree(), 0);
    let (hashed, pointed) = (Hashed::of(tree), Pointed::of(tree));
    for key in finished.keys.iter().copied().chain(case.keys()) {
        let ours = look_ups(tree, &[key]);
        assert_eq!([hashed.look_ups(&[key]), pointed.look_ups(&[key])], [ours; 2], "{key}");
        different += (ours != 0) as usize;
    }
    assert!(different > 9_000 + finished.keys.len() / 2, "{different}");
}

/// A row of a tree of so many nodes and vertices, in which each measure took so long, and the published Rust so many times that.
fn row(nodes: usize, vertices: usize, ours: f64, ratio: f64) -> Row {
    let mut case = case(2);
    case.distances.resize(nodes, 1.0);
    let times = Times { ours, rivals: [Some(ours * ratio), None, None, None] };
    let lifetimes = Lifetimes { cells: ours, reports: [ours, ours * ratio, 2.5 * ours] };
    Row { case, leaves: 0, vertices, times: vec![times; MEASURES.len()], lifetimes }
}

/// Goals are told of by name: ratios by their mean, growth by the fit to nodes + vertices and not to nodes.
#[test]
fn goals() {
    let rows = |ratio| vec![row(100, 100, 1.0, ratio), row(1000, 5000, 30.0, ratio)];
    assert_eq!(below_goal(&rows(10.0)), vec![]);
    assert_eq!(below_goal(&rows(9.9)), vec![Measure::ListAndDualCells]);
    assert_eq!(below_goal(&rows(5.9)), vec![Measure::List, Measure::ListAndDualCells, Measure::LookUps]);
    assert_eq!(below_goal(&rows(1.9)), MEASURES[..5]);
    assert_eq!([3.1, 2.9].map(|ratio| long_lifetimes(&rows(ratio))), [vec![5], vec![]]);
    assert_eq!(growing_faster(&rows(1.0)), vec![]);
    assert_eq!(growing_faster(&[row(100, 100, 1.0, 1.0), row(1000, 1000, 15.0, 1.0)]), MEASURES);
}

/// A tree that differs in one place differs in its answers, and each part of them counts.
#[test]
fn finds_every_difference() {
    let case = case(3);
    let keys = case.keys();
    let ours = Answers::ours(case.bound, &case.distances, &keys);
    assert_eq!(ours.difference(&ours.clone()), None);
    let differs = |change: fn(&mut Answers)| {
        let mut other = ours.clone();
        change(&mut other);
        ours.difference(&other)
    };
    assert_eq!(differs(|a| a.nodes[9].1 ^= 1), Some("nodes"));
    assert_eq!(differs(|a| a.leaves[9] ^= 1), Some("leaves"));
    assert_eq!(differs(|a| a.vertices[9].1 += 1), Some("vertices"));
    assert_eq!(differs(|a| a.cells[9].swap(0, 1)), Some("dual cells"));
    assert_eq!(differs(|a| a.places[9].swap(0, 1)), Some("places of the dual cells"));
    assert_eq!(differs(|a| a.listed_places[9].swap(0, 1)), Some("places of the list's dual cells"));
    assert_eq!(differs(|a| a.slabs.as_mut().expect("slabs")[9].0 += 1), Some("slabs of the dual cells"));
    assert_eq!(differs(|a| a.slabs.as_mut().expect("slabs")[9].1 += 1), Some("slabs of the dual cells"));
    assert_eq!(differs(|a| (a.slabs, a.sum_of_slabs) = (None, None)), None);
    assert_eq!(differs(|a| a.sum_of_slabs = a.sum_of_slabs.map(|sum| sum + 1)), Some("sum of the slabs"));
    assert_eq!(differs(|a| a.sum_of_cells += 1), Some("sum of the dual cells"));
    assert_eq!(differs(|a| a.sum_of_listed_cells += 1), Some("sum of the list's dual cells"));
    assert_eq!(differs(|a| a.sum_of_look_ups += 1), Some("sum of the lookups"));
}

/// What is compared is what the text itself says: from other distances it gives another answer, and as published another tree.
#[test]
fn the_text_answers_for_itself() {
    if !compares_with_text() {
        return;
    }
    let case = case(3);
    let keys = case.keys();
    let ours = Answers::ours(case.bound, &case.distances, &keys);
    assert_eq!(ours.difference(&Answers::of_text::<Integer>(case.bound, &case.distances, &keys)), None);
    let mut others = case.distances.clone();
    *others.last_mut().expect("a node") += 1.0;
    assert_eq!(ours.difference(&Answers::of_text::<Integer>(case.bound, &others, &keys)), Some("nodes"));
    let least = self::case(2);
    let ours = Answers::ours(least.bound, &least.distances, &keys);
    assert_eq!(ours.difference(&Answers::of_text::<Published>(least.bound, &least.distances, &keys)), Some("nodes"));
    assert!(!least.is_built_by::<Published>() && least.is_built_by::<Integer>());
}

#[test]
fn the_trees_have_their_sizes() {
    if !compares_with_text() {
        return;
    }
    let cases = cases();
    assert_eq!(cases.len(), SHAPES.len() * SIZES.len());
    for (i, case) in cases.iter().enumerate() {
        let size = SIZES[i % SIZES.len()];
        assert!(case.nodes() <= 4096 && (case.nodes() == 73) == (size == 73), "{} of {} nodes", case.field, case.nodes());
        assert!(is_near(case.nodes(), size), "{} of {} nodes", case.field, case.nodes());
    }
    let as_published = cases.iter().filter(|case| case.is_built_by::<Published>()).count();
    assert!(2 * as_published > cases.len(), "only {as_published} trees are such as published");
}

#[test]
fn means_and_exponents() {
    assert!((geometric_mean(&[1.0, 4.0, 16.0]) - 4.0).abs() < 1e-9);
    let square: Vec<(f64, f64)> = (1..9).map(|n| (n as f64, 3.0 * (n * n) as f64)).collect();
    assert!((exponent(&square).expect("many sizes") - 2.0).abs() < 1e-9);
    assert_eq!(exponent(&[(7.0, 1.0), (7.0, 2.0)]), None);
}

#[test]
fn a_hand_written_end_is_kept() {
    let earlier = format!("# Old\n\nold numbers\n\n{KEPT_FROM}\n\nWhy.\n");
    assert_eq!(with_kept_end("# New\n", &earlier), format!("# New\n\n{KEPT_FROM}\n\nWhy.\n"));
    assert_eq!(with_kept_end("# New\n", "# Old\n"), "# New\n");
}
