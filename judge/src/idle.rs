//! Vectors over idle operators, by name and by chance: texts, the tables in every entry that takes them, and rows of records.

use crate::builder::{row_of, text_of_task, Vector};
use crate::cases::{row_of_ops, A};
use crate::damages::{damaged, repeating, some_places};
use crate::idle_texts::texts;
use crate::limits::*;
use crate::random::*;
use crate::rng::Rng;
use crate::row::Record;
use crate::rows::row_alone;
use crate::script::{COSTS, FACTS, FIRST, RECORD, RECORDS};
use crate::task::{Op, Task};
use crate::text::read_text;

/// So many vectors by chance come after the ones by name.
const BY_CHANCE: usize = 8;

/// Every entry that takes tables; the row of records has its own vectors.
const EVERY_ENTRY: &str = "K; D 0; A 0; B; M; J; C; P; G; O 1 0";

fn case() -> Task {
    read_text(A.as_bytes()).unwrap()
}

/// Where the preconditions and the effects of operator o begin in the tables.
fn pre(o: usize) -> usize {
    ROW * (ROW_PRE + o)
}

fn eff(o: usize) -> usize {
    ROW * (ROW_EFF + o)
}

/// The tables of case A, set by hand, with its list to the goal.
fn a(title: &str) -> Vector {
    Vector::new(title).tables(&case()).lend(FIRST, &[0, 1, 2, 3])
}

/// Lines with some places of the facts first set and afterwards cleared.
fn while_set(vector: Vector, place: usize, values: &[u32], lines: &str) -> Vector {
    vector.set(FACTS, place, values).lines(lines).set(FACTS, place, &vec![0; values.len()])
}

/// One of 64 operators is idle, first by asking for its effect and then by having none. It is told before a map, a state, a
/// list and a run that aren't right, and after tables that are too short.
fn among_64(title: &str, o: usize) -> Vector {
    let asking = format!("s 0 {} 2", pre(o));
    let asking_nothing = format!("s 0 {} 0", pre(o));
    let wrong = "D 1; A 1; s 4 0 2; A 0; B; J; C; P; G; s 10 0 9; M; l 5 1100; J; C; P; s 9 0 1025; O 1 0; O 2 64";
    Vector::new(title)
        .tables(&row_of_ops(&[1; OPS]))
        .lend(FIRST, &[o as u32])
        .lines(&format!("{EVERY_ENTRY}; {asking}; {EVERY_ENTRY}; {asking_nothing}"))
        .lines(&format!("G; O 1 5; O 2 6; s 0 {} 0; {EVERY_ENTRY}", eff(o)))
        .lines(wrong)
        .lines("l 3 4095; D 0; l 3 4096; l 1 63; K; D 0; G; O 1 0; l 1 64; K")
        .lines(&format!("s 0 {} 2; K", eff(o)))
        .lines(wrong)
}

/// What the places of a fact can say of each of two variables.
fn pairs(values: [u32; 2]) -> Vec<[u32; 2]> {
    (0..=values[0]).flat_map(|first| (0..=values[1]).map(move |second| [first, second])).collect()
}

/// Every operator over two variables of so many values, in the tables and as a record.
fn every_operator(title: &str, values: [u32; 2]) -> Vector {
    let dom = values.map(|count| count as usize).to_vec();
    let op = Op::new(0, vec![None, None], vec![None, None]);
    let maps = vec![dom.iter().map(|count| vec![0; *count]).collect()];
    let task = Task { init: vec![0, 0], goal: vec![None, None], quota: None, ops: vec![op], maps, shares: vec![vec![0]], dom };
    let begun = Vector::new(title).tables(&task).row(&row_of(&task));
    let all = pairs(values);
    all.iter().flat_map(|asked| all.iter().map(move |effects| (asked, effects))).fold(begun, |vector, (asked, effects)| {
        let tables = vector.set(FACTS, pre(0), asked).set(FACTS, eff(0), effects).lines("K");
        tables.set(RECORDS, 1, asked).set(RECORDS, 1 + VARS, effects).lines("W")
    })
}

/// Eight variables, all asked for and set to just that; then with one of them altered, not asked for, or not set.
fn eight_variables() -> Vector {
    let op = Op::new(1, vec![Some(1); VARS], vec![Some(1); VARS]);
    let maps = vec![vec![vec![0; 3]; VARS]];
    let task =
        Task { dom: vec![3; VARS], init: vec![1; VARS], goal: vec![None; VARS], quota: None, ops: vec![op], maps, shares: vec![vec![1]] };
    let begun = Vector::new("eight effects that are preconditions, and each of them in turn altered").tables(&task).lines("K");
    (0..VARS).fold(begun, |vector, v| {
        let (asked, effect) = (pre(0) + v, eff(0) + v);
        vector
            .lines(&format!("s 0 {effect} 1; K; s 0 {effect} 3; K; s 0 {effect} 0; K; s 0 {effect} 2; s 0 {asked} 0; K; s 0 {asked} 2; K"))
    })
}

fn unread() -> Vec<Vector> {
    let junk = [1, 2, 201, 1, 255];
    let beyond = a("places beyond the variables don't matter to what is idle").set(FACTS, eff(1), &[0, 1, 1]).lines("K");
    let beyond = while_set(beyond, eff(1) + 3, &junk, "K; B; J");
    let beyond = while_set(beyond, pre(1) + 3, &junk, "K; B; J").set(FACTS, pre(1) + 3, &junk).set(FACTS, eff(1) + 3, &junk);
    vec![
        beyond.lines("K; B; J").set(FACTS, eff(1), &[0, 1, 2]).lines("K; B; J"),
        a("with a variable less an operator of that variable alone is idle").lines("n 2 4 3; K; n 1 4 3; K; n 3 4 3; K"),
        a("operators beyond the count may be idle").lines(&format!("K; n 3 5 3; {EVERY_ENTRY}; n 3 64 3; K; n 3 65 3; K; n 3 4 3; K")),
        a("with operators less an idle one is beyond the count")
            .set(FACTS, eff(2), &[0, 2])
            .lines("K; n 3 3 3; K; n 3 2 3; K; n 3 1 3; K; n 3 0 3; K"),
    ]
}

/// The tables of case A with operator 1 (line 8) idle, and another fault beside it.
fn beside_another_fault() -> Vec<Vector> {
    let idle = |title: &str| a(title).set(FACTS, eff(1), &[0, 1, 1]).lines("K");
    vec![
        idle("an idle operator's own numbers come before").lines(&format!(
            "s 1 1 1000001; K; B; s 1 1 1; s 0 {0} 4; K; s 0 {1} 4; K; s 0 {0} 1; K; s 0 {1} 1; s 0 {2} 255; s 0 {3} 255; K; s 0 {2} 0; s 0 {3} 0; K",
            pre(1) + 1,
            eff(1) + 1,
            pre(1),
            eff(1)
        )),
        idle("faults of the lines before an idle operator come before").lines(&format!(
            "s 1 0 1000001; K; s 1 0 1; s 0 {} 3; K; s 0 {} 0; K; s 0 16 3; K; n 3 65 3; K; s 0 8 2; K; s 0 2 0; K; n 0 4 3; K",
            eff(0),
            eff(0)
        )),
        idle("faults of the lines behind an idle operator come after").lines(&format!(
            "s 1 2 1000001; K; s 1 2 1; s 0 {} 4; K; s 0 {} 0; K; n 3 4 9; K; n 3 4 3; s 0 {} 1 1; K; s 2 0 1000001; K; s 2 0 2; K; s 0 {} 2 2; K",
            pre(2) + 1,
            eff(3) + 2,
            ROW * ROW_MAP,
            eff(1) + 1
        )),
        idle("of two idle operators the lower is named").set(FACTS, eff(3), &[0, 0, 2]).lines(&format!(
            "K; B; s 0 {} 2; K; B; s 0 {} 3; K; B",
            eff(1) + 1,
            eff(3) + 2
        )),
        idle("shares above the cost of an operator before an idle one").lines(&format!("s 2 0 2; K; B; s 0 {} 2; K; B", eff(1) + 2)),
    ]
}

/// Case A as a row of which one record is changed, judged before, with the change and after it.
fn a_changed(title: &str, changes: &[(usize, &dyn Fn(&mut Record))]) -> Vector {
    let begun = row_alone(title, &case()).lend(FIRST, &[0, 1, 2, 3]).lines("W");
    changes.iter().fold(begun, |vector, (o, change)| {
        let old = row_of(&case())[*o];
        let mut new = old;
        change(&mut new);
        vector.record(*o, &new).lines("W").record(*o, &old).lines("W")
    })
}

fn records() -> Vec<Vector> {
    let repeats = |record: &mut Record| record.eff = record.pre;
    let says_nothing = |record: &mut Record| record.eff = [0; VARS];
    let lines =
        |o: usize| format!("s 13 {} 0; W; l 5 1025; W; s 4 0 2; W; l 4 0; W; s 13 {} 1000001; W", RECORD * o + 1 + VARS, RECORD * o);
    let of_64 = |title: &str, o: usize| row_alone(title, &row_of_ops(&[7; OPS])).lend(FIRST, &[o as u32]).lines("W").lines(&lines(o));
    let idle = |title: &str| row_alone(title, &case()).lend(FIRST, &[0, 1, 2, 3]).lines("W; s 13 27 1 1; W");
    vec![
        a_changed("each record in turn repeats what it asks for", &[(0, &repeats), (1, &repeats), (2, &repeats), (3, &repeats)]),
        a_changed("each record in turn has no effects", &[(0, &says_nothing), (1, &says_nothing), (2, &says_nothing), (3, &says_nothing)]),
        a_changed(
            "records that repeat some of what they ask for, or ask for what they do",
            &[
                (1, &|record| record.eff[1] = 0),
                (1, &|record| record.eff[1] = 1),
                (1, &|record| record.eff[..3].copy_from_slice(&[0, 1, 0])),
                (1, &|record| record.eff[..3].copy_from_slice(&[1, 1, 1])),
                (2, &|record| record.pre = record.eff),
                (2, &|record| record.pre[2] = 3),
            ],
        ),
        a_changed(
            "places of a record beyond the variables don't matter to what is idle",
            &[
                (2, &|record| record.eff = [0, 2, 0, 1, 2, 3, 4, 5]),
                (2, &|record| (record.pre[3], record.eff) = (7, [0, 2, 0, 0, 0, 0, 0, 0])),
                (2, &|record| (record.pre[7], record.eff) = (255, [0, 2, 0, 0, 0, 0, 0, 255])),
                (2, &|record| (record.pre[7], record.eff[7]) = (255, 255)),
            ],
        ),
        of_64("a row of 64 records of which the first is idle", 0),
        of_64("a row of 64 records of which one in the middle is idle", 31),
        of_64("a row of 64 records of which the last is idle", OPS - 1),
        idle("an idle record's own numbers come before").lines("s 13 17 1000001; W; s 13 17 1; s 13 19 4; W; s 13 27 4; W; s 13 19 1; W"),
        idle("faults before an idle record come before").lines("s 13 0 1000001; W; s 13 0 1; s 13 9 3; W; s 13 9 0; W; s 0 16 3; W; l 13 65; W; n 9 4 3; W"),
        idle("faults behind an idle record come after").lines("s 13 34 1000001; W; n 3 4 9; W; n 3 4 3; s 0 1048 1 1; W; s 2 0 1000001; W; s 2 0 2; W; l 2 511; W; l 2 512; s 13 27 2; W; s 13 34 1; W"),
        row_alone("records beyond the row's end may be idle", &case()).lines("l 5 0; W; l 13 5; W; l 13 64; W; l 13 65; W; s 13 77 1; l 13 5; W"),
        a("a row and tables of which only the row is idle, or only the tables")
            .row(&row_of(&case()))
            .lines(&format!("W; J; s 13 27 1 1; W; J; s 13 27 2 2; s 0 {} 1 1; W; J", eff(1) + 1)),
    ]
}

/// An operator by chance of a task by chance is idle: in the text, in the tables and in the row, alone and with another thing
/// damaged.
pub fn somewhere(rng: &mut Rng) -> Vector {
    let size = rng.pick(&[TINY, SMALL, SMALL, MEDIUM, LARGE]);
    let task = lively_task(rng, size);
    let (o, entry) = (rng.below(task.ops.len()), rng.pick(&["D 0", "A 0", "B", "M", "J", "C", "P", "G", "O 1 0"]));
    let mut idle = task.clone();
    while !idle.ops[o].is_idle() {
        idle.ops[o].eff = repeating(rng, &task.ops[o].pre);
    }
    let text = text_of_task(&idle);
    let (list, _) = walk(rng, &task, &task.init, 6);
    let title = "an operator that is idle somewhere, alone and beside another fault";
    let read = Vector::new(title).text(&text).lines("R").text(&damaged(rng, &text)).lines("R");
    let mut vector = read.tables(&idle).row(&row_of(&idle)).state(&task.init).lend(FIRST, &list).lines("K; W").lines(entry);
    for _ in 0..4 {
        let (k, place, old, new) = some_places(rng, &idle);
        vector = vector.set(k, place, &new).lines("K; W").set(k, place, &old);
    }
    let dear = rng.below(task.ops.len());
    vector = vector.set(COSTS, dear, &[1_000_001]).set(RECORDS, RECORD * dear, &[1_000_001]).lines("K; W");
    vector.tables(&task).row(&row_of(&task)).lines("K; W").lines(entry)
}

/// The ones by name, then some by chance.
pub fn idle(seed: u64) -> Vec<Vector> {
    let mut vectors = texts();
    vectors.extend([
        among_64("tables of 64 operators of which the first is idle", 0),
        among_64("tables of 64 operators of which one in the middle is idle", 31),
        among_64("tables of 64 operators of which the last is idle", OPS - 1),
        every_operator("every operator over two variables of two values", [2, 2]),
        every_operator("every operator over a variable of one value and one of two", [1, 2]),
        eight_variables(),
    ]);
    vectors.extend(unread());
    vectors.extend(beside_another_fault());
    vectors.extend(records());
    let mut rng = Rng::new(seed);
    vectors.extend((0..BY_CHANCE).map(|_| somewhere(&mut rng)));
    vectors
}
