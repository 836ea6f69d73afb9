//! Views: the induced abstraction of source document 001, its goal distances and their rounds, and the best steps.

use crate::limits::{ENUMERATED, NONE, NO_STEP};
use crate::task::{State, Task};

/// An abstract state space. A step says from where, by which operator, to where.
#[derive(Debug, PartialEq, Eq)]
pub struct View {
    pub goals: Vec<bool>,
    pub steps: Vec<(usize, usize, usize)>,
}

/// The distances of a map at all its abstract states, none where no goal is reached; and the best steps there, none at a goal too.
pub struct Distances {
    pub rounds: usize,
    pub least: Vec<Option<u64>>,
    pub best: Vec<Option<usize>>,
}

fn class_counts(task: &Task, m: usize) -> Vec<usize> {
    task.maps[m].iter().map(|classes| 1 + classes.iter().max().unwrap()).collect()
}

pub fn abstract_states(task: &Task, m: usize) -> usize {
    class_counts(task, m).iter().product()
}

/// The number of a combination, with variable 0 changing fastest.
fn number_of(places: &[usize], sizes: &[usize]) -> usize {
    places.iter().zip(sizes).rev().fold(0, |number, (place, size)| number * size + place)
}

pub fn combination(number: usize, sizes: &[usize]) -> Vec<usize> {
    let mut rest = number;
    let mut places = Vec::new();
    for size in sizes {
        places.push(rest % size);
        rest /= size;
    }
    places
}

/// The abstract state that holds the state.
pub fn image(task: &Task, m: usize, state: &State) -> usize {
    let classes: Vec<usize> = state.iter().enumerate().map(|(v, value)| task.maps[m][v][*value]).collect();
    number_of(&classes, &class_counts(task, m))
}

pub fn view(task: &Task, m: usize) -> View {
    let concrete: usize = task.dom.iter().product();
    if concrete <= ENUMERATED {
        view_by_states(task, m)
    } else {
        view_by_classes(task, m)
    }
}

/// By the definition: a step exists exactly if some concrete state in the first class product is
/// taken into the second by that operator; an abstract state is a goal if it holds a concrete one.
pub fn view_by_states(task: &Task, m: usize) -> View {
    let mut goals = vec![false; abstract_states(task, m)];
    let mut steps = Vec::new();
    for number in 0..task.dom.iter().product() {
        let state = combination(number, &task.dom);
        let from = image(task, m, &state);
        goals[from] |= task.at_goal(&state);
        for o in (0..task.ops.len()).filter(|o| task.may_run(*o, &state)) {
            steps.push((from, o, image(task, m, &task.after(o, &state))));
        }
    }
    steps.sort_unstable();
    steps.dedup();
    View { goals, steps }
}

/// Class by class, for tasks with too many states to look at: as no class is empty, a step starts
/// exactly where the classes of the preconditions are, and ends in the classes of the effects.
pub fn view_by_classes(task: &Task, m: usize) -> View {
    let sizes = class_counts(task, m);
    let map = &task.maps[m];
    let class = |v: usize, fact: Option<usize>| fact.map(|value| map[v][value]);
    let meets = |facts: &Vec<Option<usize>>, places: &[usize]| {
        (0..places.len()).all(|v| class(v, facts[v]).map_or(true, |class| class == places[v]))
    };
    let mut goals = Vec::new();
    let mut steps = Vec::new();
    for from in 0..abstract_states(task, m) {
        let places = combination(from, &sizes);
        goals.push(meets(&task.goal, &places));
        for (o, op) in task.ops.iter().enumerate().filter(|(_, op)| meets(&op.pre, &places)) {
            let to: Vec<usize> = (0..places.len()).map(|v| class(v, op.eff[v]).unwrap_or(places[v])).collect();
            steps.push((from, o, number_of(&to, &sizes)));
        }
    }
    View { goals, steps }
}

/// The least cost over at most i steps, from that over at most i-1 steps.
fn sweep(view: &View, shares: &[u64], before: &[Option<u64>]) -> Vec<Option<u64>> {
    let mut least = before.to_vec();
    for (from, o, to) in &view.steps {
        if let Some(rest) = before[*to] {
            let cost = shares[*o] + rest;
            least[*from] = Some(least[*from].map_or(cost, |best| best.min(cost)));
        }
    }
    least
}

/// Rounds: the smallest i of at least 1 whose table equals the one before. The fewest steps: the smallest i whose table has the distance.
/// No table says more than the one before, so that is where a state's number changed last.
pub fn distances(task: &Task, m: usize) -> Distances {
    let (view, shares) = (view(task, m), &task.shares[m]);
    let mut before: Vec<Option<u64>> = view.goals.iter().map(|goal| goal.then_some(0)).collect();
    let mut fewest = vec![0; before.len()];
    for rounds in 1.. {
        let least = sweep(&view, shares, &before);
        if least == before {
            assert!(rounds <= view.goals.len());
            let best = best_steps(&view, shares, &least, &fewest);
            return Distances { rounds, least, best };
        }
        (0..least.len()).filter(|a| least[*a] != before[*a]).for_each(|a| fewest[a] = rounds);
        before = least;
    }
    unreachable!()
}

/// A cheapest sequence with fewest steps begins with an operator after which the distance is less by its share and the fewest steps are one
/// fewer; and after such an operator there is the rest of such a sequence. Of these operators the lowest; at a goal there is none, since the
/// fewest steps are 0 there.
fn best_steps(view: &View, shares: &[u64], least: &[Option<u64>], fewest: &[usize]) -> Vec<Option<usize>> {
    let mut best: Vec<Option<usize>> = vec![None; least.len()];
    for (from, o, to) in &view.steps {
        let cheapest = least[*to].map_or(false, |rest| least[*from] == Some(shares[*o] + rest));
        if cheapest && fewest[*from] == fewest[*to] + 1 {
            best[*from] = Some(best[*from].map_or(*o, |lowest| lowest.min(*o)));
        }
    }
    best
}

pub fn distance_at(task: &Task, m: usize, state: &State) -> Option<u64> {
    distances(task, m).least[image(task, m, state)]
}

pub fn best_at(task: &Task, m: usize, state: &State) -> Option<usize> {
    distances(task, m).best[image(task, m, state)]
}

/// Source document 000: the sum is infinite, which is none here, if any term is.
pub fn bound(task: &Task, state: &State) -> Option<u64> {
    (0..task.maps.len()).map(|m| distance_at(task, m, state)).sum()
}

/// A distance as a table holds it.
pub fn written(distance: Option<u64>) -> u32 {
    distance.map_or(NONE, |distance| u32::try_from(distance).expect("a distance fits"))
}

/// A best step as a table holds it.
pub fn written_step(best: Option<usize>) -> u8 {
    best.map_or(NO_STEP, |o| u8::try_from(o).expect("an operator's number fits"))
}
