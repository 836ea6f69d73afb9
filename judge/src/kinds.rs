//! Vectors by chance, kind after kind.

use crate::best;
use crate::builder::{text_of_task, Vector};
use crate::damages::*;
use crate::edges::run_of;
use crate::idle;
use crate::limits::*;
use crate::moments;
use crate::pieces;
use crate::quota;
use crate::random::*;
use crate::rng::Rng;
use crate::rows;
use crate::run::Run;
use crate::script::*;
use crate::steps;
use crate::sums;
use crate::task::{State, Task};
use crate::writing;

type Kind = fn(&mut Rng) -> Vector;

const KINDS: [Kind; 24] = [
    |rng| valid(rng, "tiny", TINY, true),
    |rng| valid(rng, "small", SMALL, true),
    |rng| valid(rng, "medium", MEDIUM, true),
    |rng| valid(rng, "large", LARGE, false),
    |rng| damaged_texts(rng, "tiny", TINY, 12),
    |rng| damaged_texts(rng, "small", SMALL, 12),
    |rng| damaged_texts(rng, "medium", MEDIUM, 6),
    |rng| damaged_texts(rng, "full", FULL, 1),
    |rng| damaged_tables(rng, "tiny", TINY, 12),
    |rng| damaged_tables(rng, "small", SMALL, 12),
    |rng| damaged_tables(rng, "large", LARGE, 8),
    unread_places,
    states,
    each_op,
    lists,
    long_lists,
    two_lists,
    two_lists,
    honest_run,
    honest_run,
    damaged_run,
    damaged_run,
    full_run,
    shares_at_cost,
];

/// The kinds over a row of records, over sums of which some terms are none, over runs watched at every moment, over lists and
/// runs of any length, over an idle operator, over writing, over edition 2, over texts in pieces, and over best steps.
const LATER_KINDS: [Kind; 18] = [
    rows::row_of_a_task,
    rows::damaged_row,
    sums::mixed,
    moments::watched,
    steps::any_length,
    idle::somewhere,
    writing::rubbish_and_lengths,
    writing::damaged_tables,
    writing::damaged_text,
    quota::lists_at_the_quota,
    quota::run_to_the_quota,
    quota::unread_in_edition_1,
    quota::damaged_additions,
    pieces::with_slips,
    pieces::cut_by_chance,
    best::many_ties,
    best::followed_to_the_goal,
    best::lengths_and_damage,
];

/// The i-th vector by chance: the kinds take turns.
pub fn by_chance(rng: &mut Rng, i: usize) -> Vector {
    KINDS[i % KINDS.len()](rng)
}

/// The same with the later kinds, which come after the others.
pub fn any_by_chance(rng: &mut Rng, i: usize) -> Vector {
    let turn = i % (KINDS.len() + LATER_KINDS.len());
    KINDS.iter().chain(&LATER_KINDS).nth(turn).unwrap()(rng)
}

fn valid(rng: &mut Rng, name: &str, size: Size, all_maps: bool) -> Vector {
    let task = telling_task(rng, size);
    let mut vector = Vector::new(&format!("a {} task", name)).dirty().task(&task).lines("K");
    let asked = if all_maps { 0..task.maps.len() } else { task.maps.len() - 1..task.maps.len() };
    for m in asked {
        vector = vector.lines(&format!("D {}", m));
    }
    for _ in 0..3 {
        let at = state(rng, &task.dom);
        vector = vector.state(&at).lines(&format!("A {}", rng.below(task.maps.len())));
    }
    vector.state(&task.init).lines("B")
}

fn damaged_texts(rng: &mut Rng, name: &str, size: Size, copies: usize) -> Vector {
    let task = task(rng, size);
    let text = text_of_task(&task);
    (0..copies).fold(Vector::new(&format!("damaged texts of a {} task", name)), |vector, _| {
        let text = match rng.below(6) {
            0 => idle_text(rng, &task),
            1 | 2 => renumbered(rng, &text),
            _ => damaged(rng, &text),
        };
        vector.dirty().text(&text).lines("R; q")
    })
}

/// One entry of those that take tables.
fn some_entry(rng: &mut Rng, task: &Task) -> String {
    let map = rng.below(task.maps.len());
    let entries = [
        format!("D {}", map),
        format!("A {}", map),
        "B".to_string(),
        "J".to_string(),
        "C".to_string(),
        "P".to_string(),
        "G".to_string(),
        "O 1 0".to_string(),
    ];
    entries[rng.below(entries.len())].clone()
}

fn damaged_tables(rng: &mut Rng, name: &str, size: Size, times: usize) -> Vector {
    let task = telling_task(rng, size);
    let init = task.init.clone();
    let (list, _) = walk(rng, &task, &init, 6);
    let vector = Vector::new(&format!("damaged tables of a {} task", name)).task(&task).state(&init).lend(FIRST, &list);
    (0..times).fold(vector, |vector, _| {
        let (k, place, old, new) = some_places(rng, &task);
        let entry = some_entry(rng, &task);
        vector.set(k, place, &new).lines("K").lines(&entry).set(k, place, &old)
    })
}

/// The tables set by hand, with something in every place that isn't the task's.
fn unread_places(rng: &mut Rng) -> Vector {
    let size = rng.pick(&[TINY, SMALL, SMALL, MEDIUM]);
    let task = telling_task(rng, size);
    let (list, _) = walk(rng, &task, &task.init.clone(), 5);
    let first = list.first().copied().unwrap_or(0);
    Vector::new("places beyond the task's counts aren't read")
        .dirty()
        .tables(&task)
        .state(&task.init)
        .lend(FIRST, &list)
        .lines("K; D 0; B; J; C; P; G")
        .lines(&format!("O 1 {}; O 1 {}", first, first))
}

/// States with a value outside, and with too few places.
fn states(rng: &mut Rng) -> Vector {
    let task = telling_task(rng, SMALL);
    let vars = task.dom.len();
    let mut vector = Vector::new("states outside their variables").task(&task);
    for _ in 0..6 {
        let mut at: State = state(rng, &task.dom);
        for _ in 0..rng.between(0, 2) {
            let v = rng.below(vars);
            at[v] = if rng.chance(1, 2) { task.dom[v] } else { rng.below(256) };
        }
        let lent = if rng.chance(1, 4) { rng.below(vars + 1) } else { rng.between(vars, 16) };
        let map = rng.below(task.maps.len() + 1);
        vector = vector.state(&at).lines(&format!("l 4 {}; A {}; B; J; C; P; G", lent, map));
    }
    vector
}

/// A list with or without a fault somewhere.
pub fn some_list(rng: &mut Rng, task: &Task, start: &State) -> Vec<u32> {
    let steps = rng.between(0, 12);
    // now and then the quota isn't kept
    let free = task.quota.is_some() && rng.chance(1, 3);
    let walked = &Task { quota: task.quota.filter(|_| !free), ..task.clone() };
    let mut list = walk_to_goal(rng, walked, start, 40).filter(|_| rng.chance(3, 4)).unwrap_or_else(|| walk(rng, walked, start, steps).0);
    if rng.chance(1, 3) && !list.is_empty() {
        let i = rng.below(list.len());
        let any = rng.word();
        list[i] = rng.pick(&[rng_op(task, any), task.ops.len() as u32, any]);
    }
    if rng.chance(1, 4) {
        list.extend([0, 1, 64, 2]);
    }
    list
}

pub fn rng_op(task: &Task, any: u32) -> u32 {
    any % task.ops.len().max(1) as u32
}

fn lists(rng: &mut Rng) -> Vector {
    let task = lively_task(rng, SMALL);
    let mut vector = Vector::new("lists of steps, right and wrong").task(&task).state(&task.init);
    for _ in 0..8 {
        let list = some_list(rng, &task, &task.init);
        vector = vector.lend(FIRST, &list).lines("J");
    }
    vector
}

/// Lists about as long as a sequence may be, a goal anywhere or nowhere.
fn long_lists(rng: &mut Rng) -> Vector {
    let task = lively_task(rng, SMALL);
    let mut vector = Vector::new(&format!("lists of about {STEPS} steps")).task(&task).state(&task.init);
    for _ in 0..3 {
        let (a, b) = (rng.between(STEPS - 1, STEPS + 2), rng.between(STEPS - 1, STEPS + 2));
        let init = task.init.clone();
        let (a, _) = walk(rng, &task, &init, a);
        let (b, _) = walk(rng, &task, &init, b);
        vector = vector.lend(FIRST, &a).lend(SECOND, &b).lines("J; C; P");
    }
    vector
}

/// Which operators may run, told one by one.
fn each_op(rng: &mut Rng) -> Vector {
    let size = rng.pick(&[SMALL, LARGE, FULL]);
    let task = task(rng, size);
    let mut vector = Vector::new("each operator alone at some states").task(&task).lines("l 5 1");
    for _ in 0..3 {
        let at = state(rng, &task.dom);
        vector = (0..=task.ops.len()).fold(vector.state(&at), |vector, o| vector.lines(&format!("s 5 0 {}; J", o)));
    }
    vector
}

fn two_lists(rng: &mut Rng) -> Vector {
    let size = rng.pick(&[SMALL, MEDIUM, LARGE]);
    let task = lively_task(rng, size);
    let mut vector = Vector::new("the cheaper of two lists").task(&task).state(&task.init);
    for _ in 0..6 {
        let a = some_list(rng, &task, &task.init);
        let b = if rng.chance(1, 5) { a.clone() } else { some_list(rng, &task, &task.init) };
        vector = vector.lend(FIRST, &a).lend(SECOND, &b).lines("C; P");
    }
    vector
}

/// The number and the operator of an offer, as a careful or a careless caller makes it: the next step more often than not.
pub fn some_offer(rng: &mut Rng, task: &Task, run: &Run) -> (u32, u32) {
    let (next, _) = walk(rng, task, &run.state(task), 1);
    let able = next.first().copied().unwrap_or(0);
    let old = rng.between(1, run.len.max(1) as usize) as u32;
    let any = rng.word();
    match rng.below(10) {
        0 => (old, run.log[old as usize - 1]),
        1 => (old, rng_op(task, any)),
        2 => (run.len + 1, rng_op(task, any)),
        3 => (rng.pick(&[0, run.len + 2, any, run.len + 1]), rng.pick(&[able, task.ops.len() as u32, any])),
        _ => (run.len + 1, able),
    }
}

fn honest_run(rng: &mut Rng) -> Vector {
    let size = rng.pick(&[TINY, SMALL, MEDIUM, LARGE]);
    let task = lively_task(rng, size);
    let mut run = Run::fresh(&task.init);
    let mut vector = Vector::new("offers to a run, with retries and slips").task(&task).state(&task.init).lines("G");
    for _ in 0..30 {
        let (number, op) = some_offer(rng, &task, &run);
        run = run.offer(&task, number, op).0;
        vector = vector.lines(&format!("O {} {}", number, op));
    }
    vector
}

/// One field of the run set to something else.
pub fn some_field(rng: &mut Rng, task: &Task, run: &Run) -> (u32, usize, u32, u32) {
    // of a task of edition 1 the column of stored tests has vectors of its own
    let columns = if task.quota.is_some() { COLUMNS } else { STORED };
    let (v, i, c) = (rng.below(VARS), rng.below(STEPS), rng.below(columns));
    let any = rng.word();
    let near = rng.below(4) as u32;
    let step = if run.len > 0 && rng.chance(3, 4) { rng.below(run.len as usize) } else { i };
    match rng.below(5) {
        0 => (START, v, u32::from(run.start[v]), near),
        1 => (LOG, step, run.log[step], rng.pick(&[rng_op(task, any), task.ops.len() as u32, any, near])),
        2 => (LEN, 0, run.len, rng.pick(&[run.len + 1, run.len.saturating_sub(1), 0, STEPS as u32, STEPS as u32 + 1, any])),
        3 => (NOW, v, u32::from(run.now[v]), near),
        _ => (COLUMN, c, run.columns[c], rng.pick(&[run.columns[c] + 1, 0, near, any])),
    }
}

fn damaged_run(rng: &mut Rng) -> Vector {
    let size = rng.pick(&[TINY, SMALL, MEDIUM, LARGE]);
    let task = lively_task(rng, size);
    let steps = rng.between(0, 20);
    let (list, _) = walk(rng, &task, &task.init.clone(), steps);
    let run = run_of(&task, &list);
    let mut vector = Vector::new("a run with one field damaged").task(&task).run(&run);
    for _ in 0..12 {
        let (k, place, old, new) = some_field(rng, &task, &run);
        let (number, op) = (rng.between(0, run.len as usize + 2), rng.below(task.ops.len() + 1));
        // a run that passes even so is advanced, so the whole of it is set again
        vector = vector.set(k, place, &[new]).lines(&format!("O {} {}", number, op)).set(k, place, &[old]).run(&run);
    }
    vector
}

/// A run of nearly or just as many steps as there may be.
fn full_run(rng: &mut Rng) -> Vector {
    let task = lively_task(rng, SMALL);
    let steps = rng.between(STEPS - 2, STEPS);
    let (list, _) = walk(rng, &task, &task.init.clone(), steps);
    let run = run_of(&task, &list);
    let mut vector = Vector::new(&format!("a run of up to {STEPS} steps")).task(&task).run(&run);
    for number in [run.len + 1, run.len + 1, run.len + 2, run.len + 3, run.len, 1] {
        let op = rng.below(task.ops.len() + 1);
        vector = vector.lines(&format!("O {} {}", number, op));
    }
    vector.lines(&format!("O {} {}", run.len, run.log[run.len.max(1) as usize - 1]))
}

/// Shares that total the cost, one less or one more.
fn shares_at_cost(rng: &mut Rng) -> Vector {
    let task = task(rng, SMALL);
    let mut vector = Vector::new("share totals at the cost, below and above").task(&task);
    for _ in 0..6 {
        let (o, m) = (rng.below(task.ops.len()), rng.below(task.maps.len()));
        let others: u64 = (0..task.maps.len()).filter(|other| *other != m).map(|other| task.shares[other][o]).sum();
        let just = (task.ops[o].cost - others) as u32;
        for share in [just, just.saturating_sub(1), just + 1] {
            vector = vector.set(SHARES, OPS * m + o, &[share]).lines("K");
        }
        vector = vector.set(SHARES, OPS * m + o, &[task.shares[m][o] as u32]);
    }
    vector
}
