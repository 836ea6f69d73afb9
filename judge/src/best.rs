//! Vectors over best steps: the table that `D` fills beside the distances, and `N`, the best step of a state. By name, with those of ways.rs
//! before them, and by chance.

use crate::builder::Vector;
use crate::cases::{f, A, E, G};
use crate::damages::some_places;
use crate::edges::{counters, switch, wide};
use crate::limits::*;
use crate::random::{lively_task, state, task, Size, MEDIUM, SMALL, TINY};
use crate::rng::Rng;
use crate::script::{ARRAYS, BEST, FIRST, OUT};
use crate::space::{best_at, distances, image, view};
use crate::task::{Op, State, Task};
use crate::text::read_text;
use crate::ways::{asked, filled, roads, ways, Road};
use crate::writing::of_one_value;

/// So many vectors by chance come after the ones by name: the three kinds take turns.
const BY_CHANCE: usize = 15;

fn task_of(text: &str) -> Task {
    read_text(text.as_bytes()).unwrap()
}

/// A task in the tables, and something in every place of those that are filled.
fn known(title: &str, task: &Task) -> Vector {
    filled(Vector::new(title), task)
}

/// Every map of a task, and each state in it.
fn of_all_maps(title: &str, task: &Task) -> Vector {
    (0..task.maps.len()).fold(Vector::new(title), |vector, m| asked(filled(vector, task), task, m))
}

fn cases() -> Vec<Vector> {
    vec![
        of_all_maps("case A: the best steps of its maps, and of each of its states", &task_of(A)),
        of_all_maps("case E: one map has a best step, the other none", &task_of(E)),
        of_all_maps("case F: keeping the package", &f(false)),
        of_all_maps("case F: keeping package and truck A", &f(true)),
        of_all_maps("case G, of edition 2: quota and marks don't matter", &task_of(G)),
        of_all_maps("a switch: in one map of one state, and in one with the values swapped", &switch()),
        known("case A: a best step of a map need not run at the state", &task_of(A))
            .lines("s 4 0 0 0 1; N 1; G; O 1 1; s 4 0 0 2 0; N 2; G; O 1 1"),
        followed("case F: who takes the best steps from the initial state comes to the goal at the distance", &kept_apart(&f(true))),
        followed("case A in one map with full costs, followed to its goal", &kept_apart(&task_of(A))),
    ]
}

/// Eight maps of the same states, with shares of their own.
fn eight_maps() -> Task {
    let given: [Road; 5] = [(0, 1, 0), (1, 3, 0), (0, 2, 0), (2, 3, 0), (0, 3, 0)];
    let mut task = roads(4, 3, &given);
    let bit = |m: usize, o: usize| (m >> o & 1) as u64;
    task.maps = vec![task.maps[0].clone(); MAPS];
    task.shares = (0..MAPS).map(|m| vec![bit(m, 0), bit(m, 1), bit(m, 2), 1 - bit(m, 0), 1 + bit(m, 1)]).collect();
    (0..given.len()).for_each(|o| task.ops[o].cost = task.shares.iter().map(|row| row[o]).sum());
    task
}

/// Four dials of eight values, all kept apart: 4,096 abstract states. An operator sets one dial to one value, whatever the others say.
fn dials(ops: usize, share: impl Fn(usize) -> u64) -> Task {
    let only = |v: usize, value: usize| (0..4).map(|at| (at == v).then_some(value)).collect();
    let op = |o: usize| Op::new(share(o) + 1, vec![None; 4], only(o % 4, 7 - o / 4 % 8));
    let ops: Vec<Op> = (0..ops).map(op).collect();
    let shares = vec![ops.iter().map(|op| op.cost - 1).collect()];
    let maps = vec![vec![(0..8).collect(); 4]];
    Task { dom: vec![8; 4], init: vec![0; 4], goal: vec![Some(7), Some(7), Some(0), Some(7)], quota: None, ops, maps, shares }
}

fn large_maps() -> Vec<Vector> {
    let some = ["s 4 0 0 0 1 0", "s 4 0 7 7 1 7", "s 4 0 7 7 0 7", "s 4 0 6 7 0 3", "s 4 0 7 1 0 0"].join("; N 0; ") + "; N 0";
    let large = |title: &str, task: &Task| known(title, task).lines("D 0").lines(&some);
    let counter = counters(1, 3, 8);
    vec![
        of_all_maps("eight maps of the same states, with other shares", &eight_maps()),
        large("4096 states and 32 operators: every order costs the same", &dials(32, |_| 1)),
        large("4096 states and 64 operators at the same share", &dials(OPS, |_| 5)),
        large("4096 states and 64 operators: the later ones are cheaper", &dials(OPS, |o| 70 - o as u64)),
        large("4096 states and 64 operators, all free", &dials(OPS, |_| 0)),
        large("4096 states of which most have no way", &dials(3, |o| o as u64)),
        known("4096 states and one step", &wide(5, 4)).lines("D 0; N 0; s 4 0 7 7 7 7 0; N 0; s 4 0 7 7 7 6 0; N 0"),
        known("a counter of 512 states", &counter)
            .lines("D 0; N 0; s 4 0 7 7 6; N 0; s 4 0 7 6 7; N 0; s 4 0 6 7 7; N 0; s 4 0 7 7 7; N 0"),
        known("8 variables of one value, and free operators: one state, and it is a goal", &of_one_value(VARS, 2)).lines("D 0; N 0"),
    ]
}

/// The lengths that the two tables are lent with.
fn lent(out: usize, best: usize) -> String {
    format!("l {OUT} {out}; l {BEST} {best}")
}

fn lengths() -> Vec<Vector> {
    let task = task_of(A);
    let both =
        [(0, 4096), (4095, 4096), (4200, 4096), (4096, 0), (4096, 4095), (4096, 4200), (0, 0), (4095, 4095), (4095, 4200), (4200, 4095)];
    let lines: Vec<String> = both.iter().map(|(out, best)| format!("e 3 99; e 15 77; {}; D 1; p 3 0; p 15 0", lent(*out, *best))).collect();
    let short = [(4096, 4095), (4095, 4096), (4095, 4095)];
    let before = |fault: &str| short.iter().map(|(out, best)| format!("{}; {fault}", lent(*out, *best))).collect::<Vec<_>>().join("; ");
    let first =
        |title: &str, set: &str, call: &str| known(title, &task).lines(set).lines(&before(call)).lines(&lent(4096, 4096)).lines(call);
    let beyond = "p 3 2; p 3 3; p 3 4095; p 3 4096; p 3 4199; p 15 2; p 15 3; p 15 4095; p 15 4096; p 15 4199";
    vec![
        known("either table lent with 0, 4095, 4096 and 4200 places", &task).lines(&lines.join("; ")),
        first("a short table of either kind comes before a map that isn't there", "K", "D 3"),
        first("a short table of either kind comes before a fault in the tables", "s 0 0 9", "D 0"),
        first("a short table of either kind comes before too many shares", "s 2 0 9", "D 0"),
        first("a short table of either kind comes before counts that aren't right", "n 0 65 9", "D 0"),
        first("a short table of either kind, and short tables of the task", "l 0 1623", "D 0"),
        known("places beyond the map stay, whatever is lent of them", &task)
            .lines("D 1")
            .lines(beyond)
            .lines("e 3 98; e 15 76; l 3 4200; l 15 4200; D 1")
            .lines(beyond),
        known("a smaller map after a larger one: the places behind it stay", &task).lines("D 1; D 0; D 2; D 1"),
        known("the same map again changes nothing, and where other shares are paid it does", &task)
            .lines("D 1; D 1; s 2 65 0; D 1; s 2 65 1; D 1"),
        known("a refusal leaves both tables", &task)
            .lines("D 1; D 3; s 0 0 9; D 0; s 0 0 2; s 1 0 1000001; D 0; s 1 0 1; s 2 0 2; D 0; s 2 0 1")
            .lines("l 1 63; D 0; l 1 64; n 3 4 0; D 0; n 3 4 3; D 0"),
    ]
}

/// `N` where something isn't right.
fn faults_of_a_state() -> Vec<Vector> {
    let a = |title: &str| known(title, &task_of(A));
    vec![
        a("the best step of a map that isn't there").lines("N 3; N 8; N 4294967295; N 2; N 0; n 3 4 1; N 0; N 1"),
        a("the best step of a state outside its variables")
            .lines("s 4 0 2; N 0; s 4 0 1 3; N 1; s 4 1 0 255; N 2; s 4 2 2; N 2; s 4 2 3; N 2; N 0"),
        a("the best step of a state of too few places, and of one with more")
            .lines("l 4 2; N 0; l 4 0; N 0; l 4 3; N 0; l 4 16; s 4 3 9 9 9 9 9 9; N 0"),
        a("the map comes before the state, the tables before both, and a short table first")
            .lines("s 4 0 9; N 0; N 3; s 1 0 1000001; N 3; l 1 63; N 3; l 1 64; N 3; s 1 0 1; N 3; N 0; l 4 0; N 0; s 4 0 0; l 4 8; N 0"),
        a("the best step with tables too short")
            .lines("l 0 1623; N 0; l 0 1624; l 1 63; N 0; l 1 64; l 2 511; N 0; l 2 512; N 0")
            .lines("l 0 0; l 1 0; l 2 0; N 0"),
        a("the best step with counts that aren't right")
            .lines("n 0 4 3; N 0; n 9 4 3; N 0; n 3 65 3; N 0; n 3 4 0; N 0; n 3 4 9; N 0")
            .lines("n 3 4 3 3 0; N 0; n 3 4 3 2 1025; N 0; n 3 4 3; N 0"),
        a("the best step with an idle operator, a class missing, too many shares")
            .lines("s 0 536 0; N 0; s 0 536 2; N 0")
            .lines("s 0 1121 2; N 1; s 0 1121 1; N 1; s 2 1 1; N 1; s 2 1 0; N 1"),
        a("the best step needs none of the tables that are filled, and leaves them")
            .lines("l 3 0; l 15 0; N 0; D 0; p 3 0; p 15 0; p 15 4095"),
        a("before any task").lines("z; N 0; D 0; n 3 4 3; N 0"),
    ]
}

fn lines_of_the_script() -> Vec<Vector> {
    vec![
        known("lines on best steps off the script's form are bad", &task_of(A))
            .lines("N; N x; N 0 0; N 4294967296; n; N  0; D; D 0 0; N 0"),
        Vector::new("the places of the best steps are bytes and have an end")
            .lines("p 15 0; s 15 4199 7 8; p 15 4199; p 15 4200; s 15 0 256 255 1; p 15 0; p 15 1; p 15 2")
            .lines("e 15 256; p 15 1; e 15 9; p 15 0; p 15 4199; z; p 15 0; p 15 4199"),
        known("the length of the best steps has an end, and a reset lends 4096", &task_of(E))
            .lines("l 15 4201; D 0; l 15 4200; D 0; l 15 4201; D 0; l 15 4294967295; D 0; l 15 4095; D 0; l 15 4096; D 0; l 15 0; z")
            .tables(&task_of(E))
            .lines("D 0"),
        Vector::new("arrays 12, 16 and those above 18 aren't there")
            .lines("n 1 2 3; e 12 7; e 16 7; e 19 7; e 20 7; e 21 7; e 22 7; s 12 0 7; s 21 0 7 7 7 7 7")
            .lines("p 12 0; p 16 0; p 19 0; p 20 0; p 21 0; p 22 0; l 16 1; l 19 1; l 21 1; q; D 0"),
    ]
}

/// 64 and 512 states, from all of which one step for 5 leads to the last: nearly all distances are 5, and nearly all best steps 0.
fn changed_places() -> Vec<Vector> {
    let (some, more) = (wide(2, 2), wide(3, 3));
    let gaps =
        "s 3 0 5; s 3 17 5; s 3 20 5 5; s 3 39 5; s 3 60 5 5 5 5 5; s 15 1 0; s 15 3 0; s 15 5 0 0 0 0; s 15 26 0; s 15 43 0; s 15 44 0";
    let but = |k: u32, last: usize| format!("s {k} {last} {}", if k == OUT { 8 } else { 78 });
    let each = |k: u32, count: usize, apart: usize| (0..count).map(|i| but(k, apart * i)).collect::<Vec<_>>().join("; ");
    vec![
        known("64 changed places are four lines, and none is left", &some).lines("D 0"),
        known("512 changed places: four lines, and a digest of the others", &more).lines("D 0; e 15 77; D 0; e 3 99; D 0"),
        known("places that don't change end a line", &more).lines(gaps).lines("D 0"),
        known("every second place changes: 64 lines, and more", &more)
            .lines("D 0")
            .lines(&each(OUT, 64, 2))
            .lines("D 0")
            .lines(&each(BEST, 65, 2))
            .lines("D 0"),
        known("15, 16, 17, 63, 64 and 65 places side by side", &more)
            .lines("D 0")
            .lines(&[15, 16, 17, 63, 64, 65].map(|count| each(OUT, count, 1) + "; " + &each(BEST, count, 1) + "; D 0").join("; ")),
    ]
}

/// The task with one map that keeps every value apart, with full costs: its distance is the least cost of any sequence.
pub fn kept_apart(task: &Task) -> Task {
    let maps = vec![task.dom.iter().map(|values| (0..*values).collect()).collect()];
    Task { maps, shares: vec![task.ops.iter().map(|op| op.cost).collect()], ..task.clone() }
}

/// A run that takes the best steps of a map that keeps all apart, to where there is none; then they are judged as a list.
fn followed(title: &str, task: &Task) -> Vector {
    let list = steps_from(task, &task.init);
    let mut vector = known(title, task).state(&task.init).lines("D 0; A 0; N 0; G");
    let mut at = task.init.clone();
    for (i, o) in list.iter().enumerate() {
        at = task.after(*o as usize, &at);
        vector = vector.lines(&format!("O {} {o}", i + 1)).state(&at).lines("N 0");
    }
    vector.state(&task.init).lend(FIRST, &list).lines("J")
}

/// The shares are at most 2, and now and then an operator asks for and does the same as another: so many sequences cost the same, and many steps
/// nothing. What no map pays is 0 or 1.
fn at_low_shares(rng: &mut Rng, mut task: Task) -> Task {
    let dear = rng.between(1, 3);
    for o in 0..task.ops.len() {
        if rng.chance(1, 4) {
            task.ops[o] = task.ops[rng.below(task.ops.len())].clone();
        }
        task.shares.iter_mut().for_each(|row| row[o] = rng.below(dear) as u64);
        task.ops[o].cost = task.shares.iter().map(|row| row[o]).sum::<u64>() + rng.below(2) as u64;
    }
    task
}

/// At so many states of a map the lowest operator that keeps to the distance isn't the best step.
pub fn misleading(task: &Task, m: usize) -> usize {
    let found = distances(task, m);
    let keeps = |(from, o, to): &&(usize, usize, usize)| {
        found.least[*to].map_or(false, |rest| found.least[*from] == Some(task.shares[m][*o] + rest))
    };
    let mut misled: Vec<usize> = view(task, m)
        .steps
        .iter()
        .filter(keeps)
        .filter(|(from, o, _)| found.best[*from].map_or(false, |best| *o < best))
        .map(|step| step.0)
        .collect();
    misled.sort_unstable();
    misled.dedup();
    misled.len()
}

/// Of some tasks the one with the most such states.
pub fn misleading_task(rng: &mut Rng, size: Size) -> Task {
    let some = |rng: &mut Rng| {
        let task = task(rng, size);
        at_low_shares(rng, task)
    };
    let tasks: Vec<Task> = (0..10).map(|_| some(rng)).collect();
    tasks.into_iter().max_by_key(|task| (0..task.maps.len()).map(|m| misleading(task, m)).sum::<usize>()).unwrap()
}

/// Of some states one at which there is a step to take, if there is one.
fn telling_state(rng: &mut Rng, task: &Task, m: usize) -> State {
    let states: Vec<State> = (0..4).map(|_| state(rng, &task.dom)).collect();
    states.into_iter().max_by_key(|at| best_at(task, m, at).is_some()).unwrap()
}

pub fn many_ties(rng: &mut Rng) -> Vector {
    let size = rng.pick(&[TINY, SMALL, SMALL, MEDIUM]);
    let task = misleading_task(rng, size);
    let mut vector = Vector::new("best steps where many sequences cost the same").dirty().tables(&task).lines("e 15 77");
    for m in 0..task.maps.len() {
        vector = vector.lines(&format!("D {m}"));
        for _ in 0..3 {
            vector = vector.state(&telling_state(rng, &task, m)).lines(&format!("N {m}; A {m}"));
        }
    }
    vector
}

/// The best steps of the first map from a state on, for a map that keeps all apart.
fn steps_from(task: &Task, start: &State) -> Vec<u32> {
    let (best, mut at, mut list) = (distances(task, 0).best, start.clone(), Vec::new());
    while let Some(o) = best[image(task, 0, &at)] {
        at = task.after(o, &at);
        list.push(o as u32);
    }
    list
}

/// A task by chance in one map with full costs, which are low as often as not; of some the one with the most steps to the goal. Best steps know
/// of no quota, so that is the highest.
pub fn far_task(rng: &mut Rng) -> Task {
    let some = |rng: &mut Rng| {
        let mut task = lively_task(rng, SMALL);
        task.quota = task.quota.map(|_| QUOTA);
        if rng.chance(1, 2) {
            task.ops.iter_mut().for_each(|op| op.cost = rng.below(3) as u64);
        }
        kept_apart(&task)
    };
    let tasks: Vec<Task> = (0..6).map(|_| some(rng)).collect();
    tasks.into_iter().max_by_key(|task| steps_from(task, &task.init).len()).unwrap()
}

pub fn followed_to_the_goal(rng: &mut Rng) -> Vector {
    followed("best steps taken one after another", &far_task(rng))
}

/// A length by chance, at the border more often than not.
fn some_length(rng: &mut Rng) -> usize {
    let any = rng.below(ARRAYS[BEST as usize].1 + 1);
    rng.pick(&[BEST_ROOM, BEST_ROOM, BEST_ROOM, BEST_ROOM - 1, BEST_ROOM + 1, any])
}

/// Damaged tables, lengths, states and maps, in any order of faults.
pub fn lengths_and_damage(rng: &mut Rng) -> Vector {
    let size = rng.pick(&[TINY, SMALL, MEDIUM]);
    let task = misleading_task(rng, size);
    let mut vector = known("best steps with tables of any length, and damaged ones", &task);
    for _ in 0..10 {
        let (k, place, old, new) = some_places(rng, &task);
        let (out, best, map) = (some_length(rng), some_length(rng), rng.below(task.maps.len() + 1));
        let new = if rng.chance(1, 2) { new } else { old.clone() };
        let mut at: State = state(rng, &task.dom);
        if rng.chance(1, 4) {
            let v = rng.below(at.len());
            at[v] = task.dom[v] + rng.below(3);
        }
        vector = vector.set(k, place, &new).lines(&lent(out, best)).state(&at).lines(&format!("D {map}; N {map}")).set(k, place, &old);
    }
    vector
}

/// The ones by name, then some by chance, of either edition.
pub fn best(seed: u64) -> Vec<Vector> {
    let groups = [ways(), cases(), large_maps(), lengths(), faults_of_a_state(), lines_of_the_script(), changed_places()];
    let mut vectors: Vec<Vector> = groups.into_iter().flatten().collect();
    let mut rng = Rng::of_either_edition(seed);
    let kinds = [many_ties, followed_to_the_goal, lengths_and_damage];
    vectors.extend((0..BY_CHANCE).map(|i| kinds[i % kinds.len()](&mut rng)));
    vectors
}
