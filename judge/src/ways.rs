//! Vectors over best steps on small tasks by name: loops that cost nothing, ways that cost the same, goals, and states without a way.

use crate::builder::Vector;
use crate::limits::OPS;
use crate::space::combination;
use crate::task::{Op, State, Task};

/// From one value to another for a share.
pub type Road = (usize, usize, u64);

/// One variable and a map that keeps its values apart: each operator is a road. Its cost is one above its share.
pub fn roads(values: usize, goal: usize, roads: &[Road]) -> Task {
    let op = |(from, to, share): &Road| Op::new(share + 1, vec![Some(*from)], vec![Some(*to)]);
    Task {
        dom: vec![values],
        init: vec![0],
        goal: vec![Some(goal)],
        quota: None,
        ops: roads.iter().map(op).collect(),
        maps: vec![vec![(0..values).collect()]],
        shares: vec![roads.iter().map(|(_, _, share)| *share).collect()],
    }
}

pub fn all_states(task: &Task) -> Vec<State> {
    (0..task.dom.iter().product()).map(|number| combination(number, &task.dom)).collect()
}

/// The tables of the task, and something in every place of the tables that are filled.
pub fn filled(vector: Vector, task: &Task) -> Vector {
    vector.tables(task).lines("e 3 99; e 15 77")
}

/// The best steps of a map, and that of each state by itself.
pub fn asked(vector: Vector, task: &Task, m: usize) -> Vector {
    all_states(task).iter().fold(vector.lines(&format!("D {m}")), |vector, at| vector.state(at).lines(&format!("N {m}")))
}

fn of_one_map(title: &str, task: &Task) -> Vector {
    asked(filled(Vector::new(title), task), task, 0)
}

/// Roads as they are and with the values the other way round, each with the operators in this order and in the other: so that neither the
/// order of the states nor that of the operators settles what is to be settled by cost and steps.
fn four_ways(title: &str, values: usize, goal: usize, given: &[Road]) -> Vector {
    let turned = |place: usize| values - 1 - place;
    let turned_roads: Vec<Road> = given.iter().map(|(from, to, share)| (turned(*from), turned(*to), *share)).collect();
    let backwards = |roads: &[Road]| roads.iter().rev().copied().collect::<Vec<_>>();
    let tasks = [
        roads(values, goal, given),
        roads(values, goal, &backwards(given)),
        roads(values, turned(goal), &turned_roads),
        roads(values, turned(goal), &backwards(&turned_roads)),
    ];
    tasks.iter().fold(Vector::new(title), |vector, task| asked(filled(vector, task), task, 0))
}

/// Each value to the next for a share, the last to the first.
fn ring(values: usize, share: u64) -> Vec<Road> {
    (0..values).map(|value| (value, (value + 1) % values, share)).collect()
}

/// Each value to the next and back for a share.
fn row(values: usize, share: u64) -> Vec<Road> {
    (1..values).flat_map(|value| [(value - 1, value, share), (value, value - 1, share)]).collect()
}

/// Who takes the lowest operator that keeps to the distance goes round in these for ever.
fn loops() -> Vec<Vector> {
    let and = |roads: Vec<Road>, more: &[Road]| [roads, more.to_vec()].concat();
    vec![
        four_ways("two states that lead to each other for nothing, and a way out of the second", 3, 2, &[(0, 1, 0), (1, 0, 0), (1, 2, 5)]),
        four_ways("a ring of seven states for nothing, and one way out", 8, 7, &and(ring(7, 0), &[(3, 7, 4)])),
        four_ways(
            "a ring for nothing, and three ways out: the cheap ones count",
            8,
            7,
            &and(ring(7, 0), &[(1, 7, 4), (5, 7, 4), (6, 7, 5)]),
        ),
        four_ways("a row that leads both ways for nothing, paid at its end", 7, 6, &and(row(6, 0), &[(5, 6, 7)])),
        four_ways(
            "two rings for nothing, free steps between them, and one way out",
            8,
            7,
            &[(0, 1, 0), (1, 2, 0), (2, 0, 0), (3, 4, 0), (4, 5, 0), (5, 3, 0), (2, 3, 0), (3, 2, 0), (5, 6, 1), (6, 7, 1)],
        ),
        four_ways("every step is free, and every distance 0", 8, 5, &and(row(8, 0), &[(0, 4, 0), (7, 4, 0), (2, 7, 0), (1, 6, 0)])),
        four_ways(
            "a loop for nothing behind a step that is paid",
            5,
            4,
            &[(0, 1, 2), (1, 2, 0), (2, 1, 0), (2, 3, 0), (3, 1, 0), (3, 4, 3)],
        ),
    ]
}

fn ties() -> Vec<Vector> {
    let singly: Vec<Road> = (0..6).map(|value| (value, value + 1, 1)).collect();
    let longer = [(0, 2, 2), (2, 4, 2), (4, 6, 2), (0, 3, 3), (3, 6, 3), (0, 6, 6), (1, 3, 2), (3, 5, 2)];
    vec![
        four_ways("one step or two at the same cost", 3, 2, &[(0, 1, 1), (1, 2, 1), (0, 2, 2)]),
        four_ways("one step, two, three or six at the same cost", 7, 6, &[singly.as_slice(), &longer].concat()),
        four_ways("a free step more is a step more", 4, 3, &[(0, 1, 0), (1, 3, 3), (0, 3, 3), (0, 2, 3), (2, 3, 0)]),
        four_ways("more steps where they cost less", 4, 3, &[(0, 3, 6), (0, 1, 2), (1, 2, 2), (2, 3, 1), (1, 3, 4)]),
        four_ways("of two ways the first operators decide, and not the last", 4, 3, &[(2, 3, 1), (1, 3, 1), (0, 2, 1), (0, 1, 1)]),
        four_ways("the same cost in other parts", 4, 3, &[(0, 1, 3), (1, 3, 1), (0, 2, 1), (2, 3, 3)]),
        four_ways(
            "cheaper with each step more, and at last as cheap",
            6,
            5,
            &[(0, 5, 9), (0, 1, 1), (1, 5, 5), (1, 2, 1), (2, 5, 2), (2, 3, 1), (3, 5, 1), (0, 4, 2), (4, 5, 2)],
        ),
        four_ways(
            "operators between the same states",
            3,
            2,
            &[(0, 1, 5), (0, 1, 3), (0, 1, 3), (0, 1, 4), (1, 2, 0), (1, 2, 0), (0, 2, 4)],
        ),
        four_ways("all ways of a square at the same cost", 8, 7, &square()),
    ]
}

/// Three switches as one value: every order of switching them on costs the same.
fn square() -> Vec<Road> {
    let on = |value: usize, bit: usize| (value & bit == 0).then_some((value, value | bit, 1));
    (0..8).flat_map(|value| [4, 1, 2].into_iter().filter_map(move |bit| on(value, bit))).collect()
}

fn goals_and_ends() -> Vec<Vector> {
    let mut all = roads(4, 3, &row(4, 0));
    all.goal = vec![None];
    let mut beside = roads(4, 3, &row(4, 2));
    beside.maps = vec![vec![vec![0, 1, 1, 1]]];
    vec![
        four_ways("free operators at the goal", 4, 2, &[(2, 0, 0), (0, 2, 0), (2, 1, 0), (1, 2, 0), (2, 3, 1), (3, 2, 1)]),
        four_ways("a way that goes on behind the goal", 5, 2, &ring(5, 1)),
        of_one_map("a goal without facts: every state is one", &all),
        of_one_map("values in one class with the goal are at it", &beside),
        four_ways("states without a way to the goal", 6, 5, &[(0, 1, 1), (1, 0, 0), (2, 5, 1), (5, 3, 0), (3, 4, 0), (4, 3, 0)]),
        four_ways("a goal that nothing leads to", 4, 3, &[(0, 1, 0), (1, 2, 0), (2, 0, 0), (3, 0, 0)]),
        of_one_map("no operators", &roads(3, 1, &[])),
    ]
}

/// Values of which a map keeps some together: a step between them is a loop of the map.
fn steps_within_a_class() -> Vec<Vector> {
    let merged = |given: &[Road], classes: &[usize]| {
        let mut task = roads(classes.len(), classes.len() - 1, given);
        task.maps = vec![vec![classes.to_vec()]];
        task
    };
    let within = [(0, 1, 0), (1, 0, 0), (1, 2, 3), (2, 1, 0), (2, 3, 1)];
    vec![
        of_one_map("free steps within a class aren't the step to take", &merged(&within, &[0, 0, 1, 2])),
        of_one_map("a step of a map that may not run at each of its states", &merged(&within, &[0, 1, 0, 2])),
        of_one_map("classes in another order than the values", &merged(&within, &[2, 1, 1, 0])),
        of_one_map("all values in one class: one state, and it is a goal", &merged(&within, &[0, 0, 0, 0])),
    ]
}

/// 64 roads between two values, of these shares.
fn all_between(shares: impl Fn(usize) -> u64) -> Task {
    roads(3, 1, &(0..OPS).map(|o| (0, 1, shares(o))).collect::<Vec<_>>())
}

fn many_operators() -> Vec<Vector> {
    let cheap = |lowest: &'static [usize]| all_between(move |o| if lowest.contains(&o) { 2 } else { 3 });
    let falling = all_between(|o| 1_000 - o as u64);
    let rising = all_between(|o| 1_000 + o as u64);
    let mut ends = all_between(|_| 4);
    ends.ops[63] = Op::new(9, vec![Some(2)], vec![Some(0)]);
    ends.ops[0] = Op::new(9, vec![Some(2)], vec![Some(0)]);
    let tasks: [(&str, Task); 9] = [
        ("64 operators at the same share: the first", all_between(|_| 3)),
        ("64 operators: operator 0 alone is cheap", cheap(&[0])),
        ("64 operators: operator 63 alone is cheap", cheap(&[63])),
        ("64 operators: 0 and 63 are cheap", cheap(&[0, 63])),
        ("64 operators: 62 and 63 are cheap", cheap(&[62, 63])),
        ("64 operators: 31, 32 and 40 are cheap", cheap(&[31, 32, 40])),
        ("64 operators, each cheaper than the one before", falling),
        ("64 operators, each dearer than the one before", rising),
        ("64 operators: the first and the last lead from one state, the others from another", ends),
    ];
    tasks.iter().map(|(title, task)| of_one_map(title, task)).collect()
}

pub fn ways() -> Vec<Vector> {
    let groups = [loops(), ties(), goals_and_ends(), steps_within_a_class(), many_operators()];
    groups.into_iter().flatten().collect()
}
