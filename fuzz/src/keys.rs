//! The calls on keys by value.

use crate::case::{same, Case, Checked, Out};
use crate::inputs::{number, or_edge, vertex_and_level};
use crate::outcomes::{yes_or_no, ACCEPTED};
use mittenhelm::raw::*;
use oracle_answers::inputs::Random;
use oracle_answers::model::{self, Answer};

/// How often a case makes its call.
const TIMES: u32 = 64;

/// A call that takes a number and hands one back.
fn of_number(case: &mut Case, name: &'static str, ours: impl Fn(u64) -> u64, model: impl Fn(u64) -> u64) -> Checked {
    for _ in 0..TIMES {
        let key = number(&mut case.random);
        case.judge(name, 0, Ok(ACCEPTED), &[same(&ours(key), &model(key), "answer")], || format!("{key:#x}"))?;
    }
    Ok(())
}

pub fn level(case: &mut Case) -> Checked {
    of_number(case, "level", |key| unsafe { mittenhelm_level(key) } as u64, |key| model::level(key) as u64)
}

pub fn parent(case: &mut Case) -> Checked {
    of_number(case, "parent", |key| unsafe { mittenhelm_parent(key) }, model::parent)
}

/// A second number: any, or near the first one.
fn second(first: u64, random: &mut Random) -> u64 {
    match random.below(4) {
        0 => first,
        1 => first ^ 1 << random.below(64),
        _ => number(random),
    }
}

/// A call that takes two numbers and hands one back.
fn of_two(case: &mut Case, name: &'static str, ours: impl Fn(u64, u64) -> u64, model: impl Fn(u64, u64) -> u64) -> Checked {
    for _ in 0..TIMES {
        let a = number(&mut case.random);
        let b = second(a, &mut case.random);
        case.judge(name, 0, Ok(ACCEPTED), &[same(&ours(a, b), &model(a, b), "answer")], || format!("{a:#x}, {b:#x}"))?;
    }
    Ok(())
}

pub fn add(case: &mut Case) -> Checked {
    of_two(case, "add", |a, b| unsafe { mittenhelm_add(a, b) }, model::add)
}

pub fn sub(case: &mut Case) -> Checked {
    of_two(case, "sub", |a, b| unsafe { mittenhelm_sub(a, b) }, model::sub)
}

/// Judges an answer of yes or no.
fn judge_yes(case: &mut Case, name: &'static str, ours: u8, model: bool, arguments: impl Fn() -> String) -> Checked {
    case.judge(name, 0, Ok(yes_or_no(model)), &[same(&ours, &(model as u8), "answer")], arguments)
}

pub fn is_cell(case: &mut Case) -> Checked {
    for _ in 0..TIMES {
        let key = number(&mut case.random);
        let ours = unsafe { mittenhelm_is_cell(key) };
        judge_yes(case, "is_cell", ours, model::is_cell(key), || format!("{key:#x}"))?;
    }
    Ok(())
}

pub fn is_inner(case: &mut Case) -> Checked {
    for _ in 0..TIMES {
        let (vertex, level) = vertex_and_level(&mut case.random);
        let ours = unsafe { mittenhelm_is_inner(vertex, level) };
        judge_yes(case, "is_inner", ours, model::is_inner(vertex, level), || format!("{vertex:#x}, {level}"))?;
    }
    Ok(())
}

pub fn should_refine(case: &mut Case) -> Checked {
    for _ in 0..TIMES {
        let some = case.random.below(22) as u32;
        let level = or_edge(some, &mut case.random);
        let bound = case.random.bound(level);
        let (bound, distance) = (or_edge(bound, &mut case.random), case.random.distance(level));
        let ours = unsafe { mittenhelm_should_refine(level, bound, distance) };
        let model = model::should_refine(level, bound, distance);
        judge_yes(case, "should_refine", ours, model, || format!("{level}, {bound}, float {:#x}", distance.to_bits()))?;
    }
    Ok(())
}

/// Judges a call that hands out one number, and accepts in a way that the number tells.
fn judge_key(
    case: &mut Case,
    name: &'static str,
    ask: impl Fn(&mut u64) -> u32,
    model: Answer<u64>,
    way: fn(u64) -> &'static str,
    arguments: impl Fn() -> String,
) -> Checked {
    let mut out = Out::<u64>::new();
    let said = ask(out.place());
    case.judge(name, said, model.map(way), &[out.difference(model.ok().map(|key| [key]), name)], arguments)
}

pub fn child(case: &mut Case) -> Checked {
    for _ in 0..TIMES {
        let (key, which) = (number(&mut case.random), case.random.which());
        let ask = |out: &mut u64| unsafe { mittenhelm_child(key, which, out) };
        judge_key(case, "child", ask, model::child(key, which), |_| ACCEPTED, || format!("{key:#x}, {which}"))?;
    }
    Ok(())
}

pub fn vertex(case: &mut Case) -> Checked {
    for _ in 0..TIMES {
        let key = number(&mut case.random);
        let level = case.random.level(model::level(key));
        let (level, corner) = (or_edge(level, &mut case.random), case.random.which());
        let ask = |out: &mut u64| unsafe { mittenhelm_vertex(key, level, corner, out) };
        let way = |vertex| if vertex == 0 { "none" } else { "a vertex" };
        judge_key(case, "vertex", ask, model::vertex(key, level, corner), way, || format!("{key:#x}, {level}, {corner}"))?;
    }
    Ok(())
}

pub fn side(case: &mut Case) -> Checked {
    for _ in 0..TIMES {
        let (vertex, level) = vertex_and_level(&mut case.random);
        let which = case.random.which();
        let ask = |out: &mut u64| unsafe { mittenhelm_side(vertex, level, which, out) };
        let model = model::side(vertex, level, which);
        judge_key(case, "side", ask, model, |_| ACCEPTED, || format!("{vertex:#x}, {level}, {which}"))?;
    }
    Ok(())
}

pub fn half_size(case: &mut Case) -> Checked {
    for _ in 0..TIMES {
        let key = number(&mut case.random);
        let mut half = Out::<u32>::new();
        let said = unsafe { mittenhelm_half_size(key, half.float()) };
        let model = model::half_size(key);
        let difference = half.difference(model.ok().map(|half| [half.to_bits()]), "half size");
        case.judge("half_size", said, model.map(|_| ACCEPTED), &[difference], || format!("{key:#x}"))?;
    }
    Ok(())
}

pub fn centre(case: &mut Case) -> Checked {
    for _ in 0..TIMES {
        let key = number(&mut case.random);
        let [mut x, mut y, mut z] = [(); 3].map(|()| Out::<u32>::new());
        let said = unsafe { mittenhelm_centre(key, x.float(), y.float(), z.float()) };
        let model = model::centre(key);
        let on = |axis: usize| model.ok().map(|centre| [centre[axis].to_bits()]);
        let differences = [x.difference(on(0), "x"), y.difference(on(1), "y"), z.difference(on(2), "z")];
        case.judge("centre", said, model.map(|_| ACCEPTED), &differences, || format!("{key:#x}"))?;
    }
    Ok(())
}
