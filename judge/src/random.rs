//! Tasks, states and lists by chance.

use crate::limits::*;
use crate::rng::Rng;
use crate::space::distances;
use crate::task::{Facts, Op, State, Task};

/// How large a task may become.
#[derive(Clone, Copy)]
pub struct Size {
    pub vars: (usize, usize),
    pub values: (usize, usize),
    pub ops: (usize, usize),
    pub maps: (usize, usize),
}

pub const TINY: Size = Size { vars: (1, 2), values: (1, 3), ops: (0, 3), maps: (1, 2) };
pub const SMALL: Size = Size { vars: (2, 4), values: (1, 4), ops: (2, 9), maps: (1, 4) };
pub const MEDIUM: Size = Size { vars: (3, 6), values: (1, 5), ops: (6, 24), maps: (1, 5) };
pub const LARGE: Size = Size { vars: (7, 8), values: (3, 8), ops: (40, 64), maps: (5, 8) };
pub const FULL: Size = Size { vars: (8, 8), values: (8, 8), ops: (64, 64), maps: (8, 8) };

fn facts(rng: &mut Rng, dom: &[usize], of: usize, in_all: usize) -> Facts {
    dom.iter().map(|values| rng.chance(of, in_all).then(|| rng.below(*values))).collect()
}

pub fn state(rng: &mut Rng, dom: &[usize]) -> State {
    dom.iter().map(|values| rng.below(*values)).collect()
}

fn cost(rng: &mut Rng) -> u64 {
    match rng.below(8) {
        0 => 0,
        1 | 2 => rng.between(1, 9) as u64,
        3..=5 => rng.between(10, 999) as u64,
        6 => rng.between(1_000, 999_999) as u64,
        _ => COST,
    }
}

/// An operator of any facts, or one that moves a variable from value to value.
fn op(rng: &mut Rng, dom: &[usize]) -> Op {
    let places = 2 * dom.len().max(2);
    let v = rng.below(dom.len());
    let (from, to) = (rng.below(dom[v]), rng.below(dom[v]));
    if rng.chance(1, 2) {
        return moving(rng, dom, v, from, to);
    }
    let (pre, eff) = (rng.between(0, 3), rng.between(0, 4));
    let mut op = Op::new(cost(rng), facts(rng, dom, pre, places), facts(rng, dom, eff, places));
    if op.is_idle() {
        alter(&mut op, dom, v, to);
    }
    op
}

fn moving(rng: &mut Rng, dom: &[usize], v: usize, from: usize, to: usize) -> Op {
    let mut op = Op::new(cost(rng), facts(rng, dom, 1, 3 * dom.len()), vec![None; dom.len()]);
    op.pre[v] = Some(from);
    alter(&mut op, dom, v, to);
    op
}

/// An effect that isn't among the preconditions: where just this value is asked for it becomes the next one. A variable of one
/// value has no other, so there nothing is asked for.
fn alter(op: &mut Op, dom: &[usize], v: usize, to: usize) {
    let asked = op.pre[v] == Some(to);
    if asked && dom[v] == 1 {
        op.pre[v] = None;
    }
    op.eff[v] = Some(if asked { (to + 1) % dom[v] } else { to });
}

/// An operator that moves a variable to a value beside its own, so that goals are far.
fn short_move(rng: &mut Rng, dom: &[usize]) -> Op {
    let v = rng.below(dom.len());
    let from = rng.below(dom[v]);
    let up = from + 1 < dom[v] && (from == 0 || rng.chance(3, 4));
    moving(rng, dom, v, from, if up { from + 1 } else { from.saturating_sub(1) })
}

/// The operator; now and then one of its preconditions is an effect too, beside the one that alters.
fn repeating_some(rng: &mut Rng, mut op: Op) -> Op {
    let asked: Vec<usize> = (0..op.pre.len()).filter(|v| op.pre[*v].is_some() && op.eff[*v].is_none()).collect();
    if !asked.is_empty() && rng.chance(1, 3) {
        let v = rng.pick(&asked);
        op.eff[v] = op.pre[v];
    }
    op
}

/// A variable's classes: kept apart, all in one, or thrown together with none missing.
fn classes(rng: &mut Rng, values: usize) -> Vec<usize> {
    match rng.below(5) {
        0 | 1 => (0..values).collect(),
        2 | 3 => vec![0; values],
        _ => {
            let count = rng.between(1, values);
            let mut classes: Vec<usize> = (0..values).map(|value| if value < count { value } else { rng.below(count) }).collect();
            for i in (1..values).rev() {
                classes.swap(i, rng.below(i + 1));
            }
            classes
        }
    }
}

/// A map within the limit: variables are merged until it is.
fn map(rng: &mut Rng, dom: &[usize]) -> Vec<Vec<usize>> {
    let mut map: Vec<Vec<usize>> = dom.iter().map(|values| classes(rng, *values)).collect();
    let states = |map: &Vec<Vec<usize>>| map.iter().map(|classes| 1 + classes.iter().max().unwrap()).product::<usize>();
    while states(&map) > STATES {
        let v = rng.below(dom.len());
        map[v] = vec![0; dom[v]];
    }
    map
}

/// A split of the costs over the maps: an even one, or one by chance.
fn split(rng: &mut Rng, ops: &[Op], maps: usize) -> Vec<Vec<u64>> {
    let even = rng.chance(2, 3);
    let mut shares = vec![vec![0; ops.len()]; maps];
    for (o, op) in ops.iter().enumerate() {
        let parts = if even { vec![op.cost / maps as u64; maps] } else { parts(rng, op.cost, maps) };
        for (m, part) in parts.into_iter().enumerate() {
            shares[m][o] = part;
        }
    }
    shares
}

/// Parts of a cost by chance, often down to the last second.
fn parts(rng: &mut Rng, cost: u64, maps: usize) -> Vec<u64> {
    let mut parts = vec![0; maps];
    let mut rest = cost;
    for _ in 0..rng.between(1, maps) {
        let part = if rng.chance(1, 2) { rest } else { rng.below(rest as usize + 1) as u64 };
        parts[rng.below(maps)] += part;
        rest -= part;
    }
    parts
}

/// How many tests may be stored: few, so that a walk comes to the last, or the most, or any number.
fn quota(rng: &mut Rng) -> usize {
    match rng.below(8) {
        0 => 0,
        1..=4 => rng.between(1, 5),
        5 => rng.between(6, 40),
        6 => rng.below(QUOTA),
        _ => QUOTA,
    }
}

/// The task with a quota and marks by chance, which make it one of edition 2.
fn storing(rng: &mut Rng, mut task: Task) -> Task {
    task.quota = Some(quota(rng));
    let often = rng.between(1, 3);
    task.ops.iter_mut().for_each(|op| op.stores = rng.chance(often, 4));
    task
}

/// A valid task, with no idle operator; its goal is met after some steps, or empty, or anything.
pub fn task(rng: &mut Rng, size: Size) -> Task {
    let edition = rng.edition();
    task_of(rng, size, edition)
}

pub fn task_of(rng: &mut Rng, size: Size, edition: usize) -> Task {
    let vars = rng.between(size.vars.0, size.vars.1);
    let dom: Vec<usize> = (0..vars).map(|_| rng.between(size.values.0, size.values.1)).collect();
    let far = rng.chance(1, 2);
    let some_op = if far { short_move } else { op };
    let next_op = |rng: &mut Rng| {
        let op = some_op(rng, &dom);
        repeating_some(rng, op)
    };
    let ops: Vec<Op> = (0..rng.between(size.ops.0, size.ops.1)).map(|_| next_op(rng)).collect();
    let maps: Vec<_> = (0..rng.between(size.maps.0, size.maps.1)).map(|_| map(rng, &dom)).collect();
    let shares = split(rng, &ops, maps.len());
    let init = if far { vec![0; vars] } else { state(rng, &dom) };
    let mut task = Task { goal: vec![None; vars], dom, init, quota: None, ops, maps, shares };
    task.goal = goal(rng, &task, if far { 40 } else { 8 });
    if edition == 2 {
        return storing(rng, task);
    }
    task
}

fn goal(rng: &mut Rng, task: &Task, steps: usize) -> Facts {
    let steps = rng.between(1, steps);
    let (_, end) = walk(rng, task, &task.init, steps);
    match rng.below(12) {
        0 => vec![None; task.dom.len()],
        1 => facts(rng, &task.dom, 1, 2),
        _ => end.iter().map(|value| rng.chance(2, 3).then_some(*value)).collect(),
    }
}

/// Of some tasks the one whose maps tell the most states apart by their distances.
pub fn telling_task(rng: &mut Rng, size: Size) -> Task {
    let tasks: Vec<Task> = (0..5).map(|_| task(rng, size)).collect();
    let told_apart = |task: &Task| (0..task.maps.len()).map(|m| different(task, m)).sum::<usize>();
    tasks.into_iter().max_by_key(told_apart).unwrap()
}

/// How many different distances a map has.
fn different(task: &Task, m: usize) -> usize {
    let mut least = distances(task, m).least;
    least.sort_unstable();
    least.dedup();
    least.len()
}

/// Up to so many steps that may run and keep the quota, and the state after them; a step that moves is preferred.
pub fn walk(rng: &mut Rng, task: &Task, start: &State, steps: usize) -> (Vec<u32>, State) {
    let (mut state, mut stored) = (start.clone(), 0);
    let mut list = Vec::new();
    while list.len() < steps {
        let able: Vec<usize> = (0..task.ops.len()).filter(|o| task.may_run(*o, &state) && !task.is_past_quota(*o, stored)).collect();
        let moving: Vec<usize> = able.iter().copied().filter(|o| task.after(*o, &state) != state).collect();
        let choice = if moving.is_empty() || rng.chance(1, 8) { &able } else { &moving };
        if choice.is_empty() {
            break;
        }
        let o = rng.pick(choice);
        state = task.after(o, &state);
        stored += usize::from(task.ops[o].stores);
        list.push(o as u32);
    }
    (list, state)
}

/// Steps that may run until a goal holds, if the walk comes upon one.
pub fn walk_to_goal(rng: &mut Rng, task: &Task, start: &State, steps: usize) -> Option<Vec<u32>> {
    for _ in 0..20 {
        let (list, _) = walk(rng, task, start, steps);
        let mut state = start.clone();
        for (i, o) in list.iter().enumerate() {
            if task.at_goal(&state) {
                return Some(list[..i].to_vec());
            }
            state = task.after(*o as usize, &state);
        }
        if task.at_goal(&state) {
            return Some(list);
        }
    }
    None
}

/// A task on which walks go on for ever, and whose goal is met on the way.
pub fn lively_task(rng: &mut Rng, size: Size) -> Task {
    let edition = rng.edition();
    lively_task_of(rng, size, edition)
}

pub fn lively_task_of(rng: &mut Rng, size: Size, edition: usize) -> Task {
    loop {
        let task = task_of(rng, size, edition);
        let init = task.init.clone();
        let (list, end) = walk(rng, &task, &init, 40);
        let moves = end != init || list.iter().any(|o| task.after(*o as usize, &init) != init);
        if list.len() == 40 && moves && !task.at_goal(&init) && walk_to_goal(rng, &task, &init, 40).is_some() {
            return task;
        }
    }
}
