//! Lists and runs of many steps: both sides of the limit in every entry, lengths on the way to it (256 was the limit once), the
//! columns of a full run, and the places of a long log.

use crate::builder::{row_of, Vector};
use crate::edges::run_of;
use crate::kinds::{rng_op, some_field};
use crate::limits::*;
use crate::random::*;
use crate::rng::Rng;
use crate::run::Run;
use crate::script::{FIRST, LIST, LOG, SECOND};
use crate::task::{Op, Task};

/// So many vectors by chance come after the ones by name.
const BY_CHANCE: usize = 8;

/// The operators of the shuttle.
pub const THERE: u32 = 0;
pub const BACK: u32 = 1;
pub const HOME: u32 = 2;
pub const THERE_UNPAID: u32 = 3;
const BACK_UNPAID: u32 = 4;
pub const THERE_CHEAPLY: u32 = 5;

/// There and back between two values, and home from any, each at the highest cost and paid by one map; there and back at the
/// same cost, paid by none; and there for 1, paid by the other map. The goal is to be home.
pub fn shuttle() -> Task {
    let op = |cost, from, to| Op::new(cost, vec![from], vec![Some(to)]);
    Task {
        dom: vec![3],
        init: vec![0],
        goal: vec![Some(2)],
        quota: None,
        ops: vec![
            op(COST, Some(0), 1),
            op(COST, Some(1), 0),
            op(COST, None, 2),
            op(COST, Some(0), 1),
            op(COST, Some(1), 0),
            op(1, Some(0), 1),
        ],
        maps: vec![vec![vec![0, 1, 2]], vec![vec![0, 0, 1]]],
        shares: vec![vec![COST, COST, COST, 0, 0, 0], vec![0, 0, 0, 0, 0, 1]],
    }
}

pub fn by_turns(first: u32, second: u32, length: usize) -> Vec<u32> {
    (0..length).map(|i| if i % 2 == 0 { first } else { second }).collect()
}

/// So many steps, of which the last is the first that reaches the goal.
pub fn to_home(length: usize) -> Vec<u32> {
    let mut list = by_turns(THERE, BACK, length);
    list[length - 1] = HOME;
    list
}

/// The same, cheaper at its first step.
fn to_home_cheaply(length: usize) -> Vec<u32> {
    let mut list = to_home(length);
    list[0] = THERE_CHEAPLY;
    list
}

fn lists() -> Vec<Vector> {
    let task = shuttle();
    let begun = |title: &str| Vector::new(title).task(&task).row(&row_of(&task));
    let (less, over) = (STEPS - 1, STEPS + 1);
    let judged = |vector: Vector, length: usize| vector.lend(FIRST, &to_home(length)).lines("J; W; C; P");
    let last = |op: u32| format!("s 5 {less} {op}; J; W; C; P");
    let compared =
        |title: &str, first: &[u32], second: &[u32]| Vector::new(title).task(&task).lend(FIRST, first).lend(SECOND, second).lines("C; P");
    vec![
        [255, 256, 257, 258].into_iter().fold(begun("lists of 255 to 258 steps pass"), judged),
        [less, STEPS, over].into_iter().fold(begun(&format!("{less} steps pass and {STEPS}, {over} are 11")), judged),
        begun("the longest list that can be lent is 11").lend(FIRST, &to_home(LIST)).lines("J; W; C; P"),
        begun(&format!("a fault at step {STEPS}"))
            .lend(FIRST, &by_turns(THERE, BACK, STEPS))
            .lines(&[THERE, 6, u32::MAX, BACK].map(last).join("; ")),
        compared("257 steps, and as many that are cheaper", &to_home(257), &to_home_cheaply(257)),
        compared(&format!("{STEPS} steps, and as many that are cheaper"), &to_home(STEPS), &to_home_cheaply(STEPS)),
        compared(&format!("{STEPS} steps, and as many that are dearer"), &to_home_cheaply(STEPS), &to_home(STEPS)),
        compared(&format!("{STEPS} steps, and the same"), &to_home(STEPS), &to_home(STEPS)),
        compared(&format!("{over} steps, and {STEPS} that are dearer"), &to_home_cheaply(over), &to_home(STEPS)),
        compared(&format!("{STEPS} steps, and {over} that are cheaper"), &to_home(STEPS), &to_home_cheaply(over)),
        compared(&format!("{over} steps in both lists"), &to_home(over), &to_home_cheaply(over)),
    ]
}

/// Each of the places of the log with another operator in it, and then as it was: an offer of the first step is 17, and then
/// repeated.
fn altered(vector: Vector, run: &Run, places: &[usize]) -> Vector {
    places.iter().fold(vector, |vector, place| {
        let old = run.log[*place];
        vector.set(LOG, *place, &[HOME]).lines("O 1 0").set(LOG, *place, &[old]).lines("O 1 0")
    })
}

fn runs() -> Vec<Vector> {
    let task = shuttle();
    let held = |title: &str, run: &Run| Vector::new(title).task(&task).run(run);
    let of = |first: u32, second: u32, length: usize| run_of(&task, &by_turns(first, second, length));
    let (less, over, beyond) = (STEPS - 1, STEPS + 1, STEPS + 2);
    let full = of(THERE, BACK, STEPS);
    let some = of(THERE, BACK, 300);
    let end =
        |there: u32, back: u32| format!("O {STEPS} {back}; M; O {over} {there}; O {over} {back}; O {beyond} {there}; O {STEPS} {back}");
    let highest = STEPS as u64 * COST;
    let columns = |column: usize, op: u32| {
        let set = |value: u64| format!("s 11 {column} {value}; O 1 {op}");
        [highest + 1, highest - COST, highest].map(set).join("; ")
    };
    vec![
        held("steps 256, 257 and 258 of a run are accepted", &of(THERE, BACK, 255))
            .lines("O 256 1; O 256 1; O 258 1; O 257 1; O 257 0; O 257 3; O 258 1; O 256 0; O 259 2; M"),
        held(&format!("step {STEPS} brings a map's column to {highest}"), &of(THERE, BACK, less))
            .lines(&end(THERE, BACK))
            .lines(&columns(0, THERE)),
        held(&format!("step {STEPS} brings the unshared column to {highest}"), &of(THERE_UNPAID, BACK_UNPAID, less))
            .lines(&end(THERE_UNPAID, BACK_UNPAID))
            .lines(&columns(MAPS, THERE_UNPAID)),
        altered(held("a full run with an altered place of its log", &full), &full, &[0, 1, 255, 256, 257, 511, 512, less - 1, less]),
        altered(held("a run of 300 steps with something in an unused place of its log", &some), &some, &[300, 301, 600, less - 1, less])
            .lines("O 301 0; s 8 700 1; O 302 1; s 8 700 0; O 302 1"),
        held("a full run with another number of steps", &full).lines(&format!(
            "s 9 0 {less}; O 1 0; s 9 0 256; O 1 0; s 9 0 257; O 1 0; s 9 0 0; O 1 0; s 9 0 {over}; O 1 0; s 9 0 {STEPS}; O 1 0; O {over} 0"
        )),
        held("a run begun in the place of a full one, and once more", &full).lines("G; O 1 0; O 2 1; G; O 1 0"),
        held("a start that is refused in the place of a full run", &full).lines("s 4 0 3; G; O 1 0"),
    ]
}

/// The last places of the lists and of the log, as the script sets, shows and lends them; nothing goes over into the array
/// behind.
fn last_places() -> Vector {
    let (end, over, less) = (LIST - 1, LIST + 1, STEPS - 1);
    let list = |k: u32| {
        let set = format!("s {k} {end} 7 8; p {k} {end}; p {k} {LIST}; e {k} {HOME}; p {k} {end}");
        format!("{set}; l {k} 1; l {k} {over}; C; l {k} {LIST}; C")
    };
    let log = format!("s 8 {less} 7 8; p 8 {less}; p 8 {STEPS}; p 9 0; e 8 9; p 8 0; p 8 {less}; p 7 7; p 9 0; G");
    let title = "the places of the lists and of the log have an end";
    Vector::new(title).task(&shuttle()).lines(&list(FIRST)).lines(&list(SECOND)).lines(&log)
}

/// A list up to the last moment that a goal holds; the whole list if none does.
fn up_to_a_goal(task: &Task, list: &[u32]) -> Vec<u32> {
    let mut state = task.init.clone();
    let mut end = list.len();
    for (i, o) in list.iter().enumerate() {
        state = task.after(*o as usize, &state);
        if task.at_goal(&state) {
            end = i + 1;
        }
    }
    list[..end].to_vec()
}

/// A list and a run of any length up to the most, and one thing damaged anywhere in each, time after time. What is offered is
/// a step that was run, so that the run stays.
pub fn any_length(rng: &mut Rng) -> Vector {
    let task = lively_task(rng, SMALL);
    let steps = rng.between(1, STEPS);
    let (list, _) = walk(rng, &task, &task.init, steps);
    let (list, run) = (up_to_a_goal(&task, &list), run_of(&task, &list));
    let title = "a list and a run of any length, with one thing damaged";
    let mut vector = Vector::new(title).task(&task).row(&row_of(&task)).state(&task.init).run(&run).lend(FIRST, &list).lines("J; W; C; P");
    for _ in 0..6 {
        let (i, any) = (rng.below(list.len()), rng.word());
        let op = rng.pick(&[rng_op(&task, any), rng_op(&task, any), task.ops.len() as u32, any]);
        vector = vector.set(FIRST, i, &[op]).lines("J; W").set(FIRST, i, &[list[i]]);
        let (k, place, old, new) = some_field(rng, &task, &run);
        let number = rng.between(1, run.len as usize);
        vector = vector.set(k, place, &[new]).lines(&format!("O {} {}", number, run.log[number - 1])).set(k, place, &[old]);
    }
    vector
}

/// The ones by name, then some by chance.
pub fn steps(seed: u64) -> Vec<Vector> {
    let mut vectors = lists();
    vectors.extend(runs());
    vectors.push(last_places());
    let mut rng = Rng::new(seed);
    vectors.extend((0..BY_CHANCE).map(|_| any_length(&mut rng)));
    vectors
}
