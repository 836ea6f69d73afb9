//! Vectors over edition 2, by name and by chance: texts and tables in files of their own; here sequences, runs and the cheaper of
//! two that come to the quota of stored tests.

use crate::builder::{row_of, text_of_task, Vector};
use crate::damages::{damaged_at, some_places};
use crate::edges::run_of;
use crate::kinds::{some_field, some_list, some_offer};
use crate::limits::*;
use crate::quota_tables::{counts, g, held, tables, MARKS};
use crate::quota_texts::{all_storing, texts};
use crate::random::*;
use crate::rng::Rng;
use crate::run::Run;
use crate::script::{COLUMN, FACTS, FIRST, LOG, MARK, SECOND};
use crate::steps::{by_turns, shuttle, to_home, BACK, HOME, THERE, THERE_CHEAPLY, THERE_UNPAID};
use crate::tables::{counts_of, Counts};
use crate::task::Task;

/// So many vectors by chance come after the ones by name: the four kinds take turns.
const BY_CHANCE: usize = 20;

/// The shuttle in edition 2, of which these operators store a test.
pub fn storing(quota: usize, ops: &[u32]) -> Task {
    let mut task = Task { quota: Some(quota), ..shuttle() };
    ops.iter().for_each(|o| task.ops[*o as usize].stores = true);
    task
}

/// The shuttle's counts with this quota.
fn quota(quota: usize) -> String {
    format!("n 1 6 2 2 {quota}")
}

fn lists() -> Vec<Vector> {
    let with = |title: &str, list: &[u32]| g(title).lend(FIRST, list);
    let quotas = |lines: &str| [1, 0, 2, 1024].map(|quota| format!("{}; {lines}", counts(2, quota))).join("; ");
    vec![
        with("case G: the coupling is mounted and its test stored", &[0, 1]).lines(&quotas("J; W; C; P")),
        with("case G: a second test is refused at its step", &[0, 1, 2, 1]).lines(&quotas("J; W; C; P")),
        with("case G: the quota is met, and the goal isn't", &[0, 1, 2]).lines(&quotas("J; W")),
        with("a step at the quota: 10, then 12, then 19, then what follows", &[0, 1, 2, 1])
            .lines("s 5 3 3; J; W; s 5 3 0; J; W; s 5 3 4294967295; J; W; s 5 3 1; J; W; s 5 1 0; J; W; s 5 1 3; J; W; s 5 1 1; l 5 6; s 5 4 7 7; J; W")
            .lines("s 5 3 1 7 1; J; W; s 5 2 1; J; W; s 4 0 1; s 5 0 1 2 1; l 5 3; J; W; s 4 1 1; J; W; s 5 0 2 1 2; J; W; l 5 1025; J; W; s 4 0 2; J; W"),
        with("without operators that store the quota is never met", &[0, 1, 2, 1, 2, 1]).lines("s 0 1561 0; s 18 1 0; J; W; n 2 3 1 2 0; J; W; C; P"),
        with("an operator that stores and may not run is 12, at the quota and before", &[1]).lines(&quotas("J; W; C; P")),
    ]
}

fn cheaper() -> Vec<Vector> {
    let compared = |title: &str, quota: usize, stored: &[u32], first: &[u32], second: &[u32]| {
        held(title, &storing(quota, stored)).lend(FIRST, first).lend(SECOND, second).lines("C; P; J")
    };
    let there = [THERE, THERE_CHEAPLY];
    let (once, twice, cheaply) = ([THERE, BACK, HOME], [THERE, BACK, THERE, HOME], [THERE_CHEAPLY, BACK, THERE_CHEAPLY, HOME]);
    vec![
        compared("past the quota before the goal: the first list is out", 1, &there, &cheaply, &once).lines("n 1 6 2 2 2; C; P; J"),
        compared("past the quota before the goal: the second list is out", 1, &there, &once, &cheaply).lines("n 1 6 2 2 2; C; P; J"),
        compared("past the quota in both lists: neither", 1, &there, &twice, &cheaply).lines("n 1 6 2 2 0; C; P; J"),
        compared(
            "past the quota behind the goal doesn't count, at the step to it it does",
            1,
            &[HOME],
            &[THERE, HOME, HOME],
            &[HOME, HOME, THERE],
        )
        .lines("n 1 6 2 2 0; C; P; J; s 5 0 2; C; P; J; s 4 0 2; C; P; J; n 1 6 2 2 1; C; P; J"),
        compared("each list counts its own stored tests from 0", 2, &there, &twice, &cheaply)
            .lines("s 5 0 5; C; P; J; s 5 2 5; C; P; J; n 1 6 2 2 1; C; P; J"),
        compared("equal costs name the first, unless it is past the quota", 1, &there, &[THERE, HOME], &[THERE_UNPAID, HOME])
            .lines("n 1 6 2 2 0; C; P; J"),
    ]
}

/// Lists as long as they may be, of which each step stores a test.
fn long_lists() -> Vec<Vector> {
    let task = all_storing(shuttle(), QUOTA);
    let with = |title: &str, length: usize| held(title, &task).lend(FIRST, &to_home(length)).lend(SECOND, &to_home(length));
    let quotas = |quotas: &[usize]| quotas.iter().map(|to| format!("{}; J; W; C", quota(*to))).collect::<Vec<_>>().join("; ");
    vec![
        with("1024 steps that each store a test", STEPS).lines(&quotas(&[1024, 1023, 1022, 1, 0, 1025])),
        with("1025 steps that each store a test are too many before they are past the quota", STEPS + 1).lines(&quotas(&[1024, 0])),
        with("257 steps that each store a test", 257).lines(&quotas(&[257, 256, 255])),
    ]
}

fn case_g_runs() -> Vec<Vector> {
    let stored = "G; O 1 0; O 2 1; O 3 2";
    vec![
        g("the coupling that nearly left: a retried step that stored its test doesn't meet the quota")
            .lines("G; O 1 0; O 1 0; O 2 1; O 2 1; M; O 3 2; O 2 1; O 3 2; O 4 1; O 4 1; M; O 2 1; p 11 9; O 4 1; O 1 0; O 3 2; O 5 1; O 4 2; p 11 9"),
        g("a quota of 0: the first test is refused").lines("n 2 3 1 2 0; G; O 1 1; O 1 0; O 2 1; O 2 1; O 1 0; O 2 2; O 1 1; p 11 9"),
        g("at the quota 10, 13, repeated and 14 come before 12 and 19")
            .lines(stored)
            .lines("O 4 3; O 9 3; O 0 1; O 5 1; O 2 1; O 2 0; O 1 1; O 3 1; O 4 2; O 4 0; O 4 1; O 4294967295 1; p 9 0; p 11 9"),
        g("a quota that is raised lets a test through, one that is lowered makes the run 17")
            .lines(stored)
            .lines("O 4 1; n 2 3 1 2 2; O 4 1; O 5 2; O 6 1; n 2 3 1 2 1; O 6 1; O 4 1; O 1 0; M; n 2 3 1 2 0; O 1 0; n 2 3 1 2 2; O 1 0; n 2 3 1 2 1024; O 6 1; p 11 9"),
        g("a wrong number of stored tests is 17")
            .lines("G; s 11 9 1; O 1 0; s 11 9 0; O 1 0; s 11 9 1; O 1 0; O 2 1; s 11 9 0; O 2 1; O 1 0; s 11 9 2; O 2 1; s 11 9 0; O 2 1; s 11 9 1; O 2 1; M")
            .lines("s 11 9 4294967295; O 3 2; O 9 9; s 11 9 0; O 3 2; s 11 9 1; O 3 2; s 11 9 2; O 4 1; s 11 9 1; O 4 1"),
        g("a log that stores past the quota is 17, though all else is right")
            .lines("s 8 0 0 1 2 1; s 9 0 4; s 10 0 1 1; s 11 0 9; s 11 9 2; O 1 0; O 4 1; O 5 2; n 2 3 1 2 2; O 1 0; O 5 2; O 6 1; n 2 3 1 2 1; O 5 2")
            .lines("s 9 0 2; s 8 2 0 0 0; s 10 1 1; s 11 0 5; O 1 0; s 11 9 1; O 1 0"),
        g("the marks say what a run has stored")
            .lines(stored)
            .lines("s 0 1561 0; O 1 0; s 11 9 0; O 1 0; s 0 1560 1; O 1 0; s 11 9 1; O 1 0; O 2 1; O 4 1; s 0 1560 1 1; O 1 0; s 11 9 3; O 1 0; n 2 3 1 2 3; O 1 0; O 5 2; O 6 1"),
        g("a run of one edition handed in with the other")
            .lines(stored)
            .lines("n 2 3 1 1 1; O 1 0; s 11 9 0; O 1 0; O 4 1; O 5 2; n 2 3 1 2 2; O 1 0; s 11 9 2; O 1 0; n 2 3 1; O 1 0; M; G; O 1 0; s 11 9 1; O 1 0; s 11 9 0; O 1 0"),
        g("a start that is refused, and one that isn't, where tests were stored").lines(stored).lines("s 4 0 2; G; O 1 0; s 4 0 1; G; O 1 1; G; O 1 1; O 1 1; O 2 2; O 3 1"),
    ]
}

/// Runs of which each step stores a test, about as long as a run may be.
fn long_runs() -> Vec<Vector> {
    let (less, over) = (STEPS - 1, STEPS + 1);
    let of = |title: &str, task: &Task, length: usize| {
        let run = run_of(&Task { quota: Some(QUOTA), ..task.clone() }, &by_turns(THERE, BACK, length));
        Vector::new(title).tables(task).run(&run)
    };
    let all = |quota: usize| all_storing(shuttle(), quota);
    let offers = |offers: &[(usize, u32)]| offers.iter().map(|(number, op)| format!("O {number} {op}")).collect::<Vec<_>>().join("; ");
    vec![
        of("step 1024 of a run stores the last of 1024 tests", &all(1024), less)
            .lines(&offers(&[
                (STEPS, THERE),
                (STEPS, BACK),
                (STEPS, BACK),
                (STEPS, THERE),
                (over, THERE),
                (over, BACK),
                (over, 6),
                (over + 1, THERE),
            ]))
            .lines(&format!("p 11 9; {}; O 1 0; {}; s 11 9 1023; O 1 0; s 11 9 1025; O 1 0; s 11 9 1024; O 1 0", quota(1023), quota(1024))),
        of("step 1024 of a run at a quota of 1023: 12, then 19", &storing(1023, &[THERE, BACK]), less)
            .lines(&offers(&[(STEPS, THERE), (STEPS, BACK), (STEPS, BACK), (less, THERE), (STEPS, HOME), (STEPS, HOME), (over, HOME)]))
            .lines(&format!("{}; O 1 0", quota(1022))),
        of("a full run at the quota: 15, then 12, then 19", &storing(512, &[THERE]), STEPS)
            .lines(&offers(&[(over, BACK), (over, THERE), (over, HOME), (STEPS, BACK), (less, THERE), (1, THERE)]))
            .lines(&format!("{}; O 1 0; {}; O 1 0", quota(511), quota(513))),
        of("steps 256 and 257 of a run at a quota of 256", &all(256), 255).lines(&offers(&[
            (256, BACK),
            (256, BACK),
            (257, THERE),
            (257, BACK),
            (256, BACK),
            (1, THERE),
        ])),
    ]
}

/// A run of which each step stores a test, offered step by step to its full length.
pub fn long() -> Vector {
    let begun =
        Vector::new("1024 honest offers that each store a test, and what follows them").task(&all_storing(shuttle(), QUOTA)).lines("G");
    let offers = by_turns(THERE, BACK, STEPS);
    let full = offers.iter().enumerate().fold(begun, |vector, (i, op)| vector.lines(&format!("O {} {}", i + 1, op)));
    full.lines("O 1025 0; O 1025 1; O 1024 1; O 1024 0; O 1 0; n 1 6 2 2 1023; O 1 0")
}

/// A task of which most operators store a test, with this quota.
fn often_storing(rng: &mut Rng, sizes: &[Size], quota: usize) -> Task {
    let size = rng.pick(sizes);
    let mut task = Task { quota: Some(quota), ..lively_task_of(rng, size, 2) };
    task.ops.iter_mut().for_each(|op| op.stores = rng.chance(3, 4));
    task
}

/// A list to the goal, judged with quotas about the number of tests that it stores.
pub fn lists_at_the_quota(rng: &mut Rng) -> Vector {
    let task = often_storing(rng, &[SMALL, SMALL, MEDIUM, LARGE], QUOTA);
    let stored = |list: &Vec<u32>| list.iter().filter(|o| task.ops[**o as usize].stores).count();
    let some = |rng: &mut Rng| walk_to_goal(rng, &task, &task.init, 40).unwrap_or_else(|| walk(rng, &task, &task.init, 20).0);
    let list = (0..5).map(|_| some(rng)).max_by_key(stored).unwrap();
    let other = some_list(rng, &task, &task.init);
    let stored = stored(&list);
    let text = text_of_task(&task);
    let vector = held("a list that stores some tests, with quotas about their number", &task).text(&text).lines("R").state(&task.init);
    let quotas = [stored, stored.saturating_sub(1), stored + 1, rng.below(stored + 1)];
    quotas.iter().fold(vector.lend(FIRST, &list).lend(SECOND, &other), |vector, quota| {
        vector.counts(Counts { quota: *quota as u32, ..counts_of(&task) }).lines("J; W; C; P")
    })
}

/// Offers to a run that comes to its quota, each now and then sent twice; then fields of the run damaged, and other quotas.
pub fn run_to_the_quota(rng: &mut Rng) -> Vector {
    let quota = rng.below(4);
    let task = often_storing(rng, &[TINY, SMALL, MEDIUM], quota);
    let mut run = Run::fresh(&task.init);
    let mut vector = held("a run that comes to its quota, with retries and slips", &task).state(&task.init).lines("G");
    for _ in 0..15 {
        let (number, op) = some_offer(rng, &task, &run);
        run = run.offer(&task, number, op).0;
        let again = if rng.chance(1, 3) { format!("O {number} {op}; ") } else { String::new() };
        vector = vector.lines(&format!("{again}O {number} {op}"));
    }
    let again = format!("O {} {}", run.len.max(1), run.log[run.len.max(1) as usize - 1]);
    let stored = run.columns[STORED];
    for quota in [stored.saturating_sub(1), stored, stored + 1, task.quota.unwrap() as u32] {
        vector = vector.counts(Counts { quota, ..counts_of(&task) }).run(&run).lines(&again);
    }
    for _ in 0..4 {
        let (k, place, old, new) = some_field(rng, &task, &run);
        vector = vector.set(k, place, &[new]).lines(&again).set(k, place, &[old]).run(&run);
    }
    vector.set(COLUMN, STORED, &[stored + 1]).lines(&again).set(COLUMN, STORED, &[stored]).set(LOG, STEPS - 1, &[1]).lines(&again)
}

/// A task of edition 1 with something for a quota and for marks, and then with 0: the same is told.
pub fn unread_in_edition_1(rng: &mut Rng) -> Vector {
    let size = rng.pick(&[TINY, SMALL, MEDIUM]);
    let task = lively_task_of(rng, size, 1);
    let list = some_list(rng, &task, &task.init);
    let (walked, _) = walk(rng, &task, &task.init, 2);
    let offers: Vec<String> = walked.iter().enumerate().map(|(i, op)| format!("O {0} {op}; O {0} {op}", i + 1)).collect();
    let entries = format!("K; T; A 0; B; M; J; W; C; G; {}", offers.join("; "));
    let (any, mark) = (rng.word(), rng.below(256) as u32);
    let vector = held("edition 1 with something for a quota and for marks, and with 0", &task).state(&task.init).lend(FIRST, &list);
    [(0, 1), (any, mark), (0, 0)].iter().fold(vector, |vector, (quota, mark)| {
        let marks = vec![*mark; OPS];
        vector.counts(Counts { quota: *quota, ..counts_of(&task) }).set(FACTS, MARKS, &marks).set(MARK, 0, &marks).lines(&entries)
    })
}

/// The bytes that edition 2 added: those of the edition, of the quota's line, and of the fourth fields with their line ends.
fn added_bytes(text: &[u8]) -> Vec<usize> {
    let mut from = 0;
    let mut bytes = Vec::new();
    for line in text.split_inclusive(|byte| *byte == b'\n') {
        let end = from + line.len();
        match line {
            [b'e', ..] | [b'q', ..] => bytes.extend(from..end),
            [b'o', b'p', b'=', ..] => bytes.extend(end - 3..end),
            _ => {}
        }
        from = end;
    }
    bytes
}

/// Texts and tables of edition 2 with something damaged that edition 1 hasn't.
pub fn damaged_additions(rng: &mut Rng) -> Vector {
    let size = rng.pick(&[SMALL, MEDIUM]);
    let task = task_of(rng, size, 2);
    let text = text_of_task(&task);
    let bytes = added_bytes(&text);
    let mut vector = held("an edition, a quota or a fourth field that is damaged", &task).text(&text).lines("R");
    for _ in 0..8 {
        let i = rng.pick(&bytes);
        vector = vector.text(&damaged_at(rng, &text, i)).lines("R");
    }
    vector = vector.tables(&task).row(&row_of(&task));
    for _ in 0..6 {
        let any = rng.word();
        let (edition, quota) = (rng.pick(&[1, 2, 2, 2, 2, 3, any]), rng.pick(&[0, 1, 1024, 1025, any]));
        let (k, place, old, new) = some_places(rng, &task);
        vector = vector.counts(Counts { edition, quota, ..counts_of(&task) }).set(k, place, &new).lines("K; W").set(k, place, &old);
        let (o, mark) = (rng.below(task.ops.len()), rng.pick(&[0, 1, 2, 255]));
        let old = u32::from(task.ops[o].stores);
        let marked = |vector: Vector, mark: u32| vector.set(FACTS, MARKS + o, &[mark]).set(MARK, o, &[mark]);
        vector = marked(marked(vector, mark).lines("K; W").counts(counts_of(&task)).lines("K; W"), old);
    }
    vector
}

/// The ones by name, then some by chance.
pub fn quotas(seed: u64) -> Vec<Vector> {
    let mut vectors = texts();
    vectors.extend(tables());
    vectors.extend([lists(), cheaper(), long_lists(), case_g_runs(), long_runs()].into_iter().flatten());
    let mut rng = Rng::new(seed);
    let kinds = [lists_at_the_quota, run_to_the_quota, unread_in_edition_1, damaged_additions];
    vectors.extend((0..BY_CHANCE).map(|i| kinds[i % kinds.len()](&mut rng)));
    vectors
}
