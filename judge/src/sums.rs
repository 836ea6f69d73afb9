//! Vectors over the sum of the maps: one map that says none settles it.

use crate::builder::Vector;
use crate::random::*;
use crate::rng::Rng;
use crate::space::distance_at;
use crate::task::{Op, State, Task};

/// So many vectors by chance come after the ones by name.
const BY_CHANCE: usize = 12;

/// Few operators and several maps, so that some maps have a way and others have none.
const STUCK: Size = Size { vars: (2, 4), values: (2, 3), ops: (1, 6), maps: (2, 8) };

/// Switches that must go on, each with a map and a price of its own; a stuck one has no operator.
pub fn switches(count: usize, stuck: &[usize]) -> Task {
    let only = |v: usize, value: usize| (0..count).map(|at| (at == v).then_some(value)).collect();
    let moved: Vec<usize> = (0..count).filter(|v| !stuck.contains(v)).collect();
    let price = |v: usize| 1 << v;
    Task {
        dom: vec![2; count],
        init: vec![0; count],
        goal: vec![Some(1); count],
        quota: None,
        ops: moved.iter().map(|v| Op::new(price(*v), only(*v, 0), only(*v, 1))).collect(),
        maps: (0..count).map(|m| (0..count).map(|v| if v == m { vec![0, 1] } else { vec![0, 0] }).collect()).collect(),
        shares: (0..count).map(|m| moved.iter().map(|v| if *v == m { price(m) } else { 0 }).collect()).collect(),
    }
}

/// What each map says of each of the states, and the sum.
fn asked(title: &str, task: &Task, states: &[State]) -> Vector {
    let maps = (0..task.maps.len()).map(|m| format!("A {}; ", m)).collect::<String>();
    states.iter().fold(Vector::new(title).task(task), |vector, at| vector.state(at).lines(&format!("{}B", maps)))
}

/// The initial state; the one where the stuck switches alone are on; the goal.
fn stuck(title: &str, count: usize, stuck: &[usize]) -> Vector {
    let on = (0..count).map(|v| usize::from(stuck.contains(&v))).collect();
    asked(title, &switches(count, stuck), &[vec![0; count], on, vec![1; count]])
}

fn by_name() -> Vec<Vector> {
    let but = |kept: usize| (0..8).filter(|v| *v != kept).collect::<Vec<_>>();
    let mut vectors = vec![
        stuck("the sum of one map: a number", 1, &[]),
        stuck("the sum of one map: none", 1, &[0]),
        stuck("the sum of eight maps: each says a number", 8, &[]),
        stuck("the sum of eight maps: none in every one", 8, &[0, 1, 2, 3, 4, 5, 6, 7]),
        stuck("the sum of eight maps: a number in the first alone", 8, &but(0)),
        stuck("the sum of eight maps: a number in the last alone", 8, &but(7)),
    ];
    vectors.extend((0..8).map(|m| stuck(&format!("the sum of eight maps: none in map {} alone", m), 8, &[m])));
    vectors.push(lost_on_the_way());
    vectors
}

/// Switches of which the last must stay off and can be put on: after that step there is no way, though the other maps say a number.
pub fn easily_lost(count: usize) -> Task {
    let mut task = switches(count, &[]);
    task.goal[count - 1] = Some(0);
    task
}

fn lost_on_the_way() -> Vector {
    let task = easily_lost(2);
    let vector = asked("a step after which one map says none", &task, &[vec![0, 0], vec![0, 1], vec![1, 1], vec![1, 0]]);
    vector.state(&task.init).lines("G; O 1 1; B; s 4 0 0 1; B; s 4 0 0 1 1; B; J")
}

/// Of some tasks and states the ones where most often some maps say none and others a number.
pub fn mixed(rng: &mut Rng) -> Vector {
    let some = |rng: &mut Rng| {
        let task = task(rng, STUCK);
        let states: Vec<State> = (0..4).map(|_| state(rng, &task.dom)).collect();
        (task, states)
    };
    let tried: Vec<(Task, Vec<State>)> = (0..20).map(|_| some(rng)).collect();
    let both = |task: &Task, at: &State| {
        let none = (0..task.maps.len()).filter(|m| distance_at(task, *m, at).is_none()).count();
        0 < none && none < task.maps.len()
    };
    let (task, states) = tried.into_iter().max_by_key(|(task, states)| states.iter().filter(|at| both(task, at)).count()).unwrap();
    asked("maps of which some say none", &task, &states)
}

pub fn sums(seed: u64) -> Vec<Vector> {
    let mut vectors = by_name();
    let mut rng = Rng::new(seed);
    vectors.extend((0..BY_CHANCE).map(|_| mixed(&mut rng)));
    vectors
}
