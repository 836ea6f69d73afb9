//! Vectors over a row of records: judging with the operators lent as records, cost and facts together.

use crate::builder::{row_of, Vector};
use crate::cases::{row_of_ops, A};
use crate::damages::{repeating, some_cost, some_places};
use crate::kinds::some_list;
use crate::limits::*;
use crate::random::*;
use crate::rng::Rng;
use crate::row::Record;
use crate::script::*;
use crate::tables::{counts_of, Counts};
use crate::task::{Op, Task};
use crate::text::read_text;

/// So many vectors by chance come after the ones by name.
const BY_CHANCE: usize = 24;

/// An operator that says nothing.
const EMPTY: Record = Record { cost: 0, pre: [0; VARS], eff: [0; VARS], mark: 0 };

/// A task with its operators in the row alone: where they would stand in the tables is rubbish, and the count says none.
pub fn row_alone(title: &str, task: &Task) -> Vector {
    let dirty = Vector::new(title).lines("e 0 201; e 1 4000000000").counts(Counts { ops: 0, ..counts_of(task) });
    dirty.by_hand(task, 0..ROW_PRE).row(&row_of(task))
}

fn case() -> Task {
    read_text(A.as_bytes()).unwrap()
}

fn a(title: &str) -> Vector {
    row_alone(title, &case())
}

/// Case A's list to the goal, judged.
fn a_whole(title: &str, lines: &str) -> Vector {
    a(title).lend(FIRST, &[0, 1, 2, 3]).lines(lines)
}

/// Case A with one record changed, before and after.
fn a_changed(title: &str, o: usize, change: impl Fn(&mut Record)) -> Vector {
    let old = row_of(&case())[o];
    let mut new = old;
    change(&mut new);
    a_whole(title, "W").record(o, &new).lines("W").record(o, &old).lines("W")
}

fn case_a() -> Vec<Vector> {
    let judged = |title: &str, list: &[u32]| a(title).lend(FIRST, list).lines("W");
    vec![
        judged("case A as a row: operators 0,1,2,3 pass at cost 4", &[0, 1, 2, 3]),
        judged("case A as a row: 0,2 may not run at step 2", &[0, 2]),
        judged("case A as a row: 0 alone ends without goal", &[0]),
        judged("case A as a row: the empty list ends without goal", &[]),
        judged("case A as a row: an operator that isn't there", &[0, 4]),
        a("case A as a row: each operator alone, at two states")
            .lines("l 5 1; s 5 0 0; W; s 5 0 1; W; s 5 0 2; W; s 5 0 3; W; s 4 0 1 1 2; s 5 0 0; W; s 5 0 1; W; s 5 0 2; W; s 5 0 3; W"),
        a_whole("case A as a row: a state outside, and one of too few places", "s 4 1 3; W; l 4 2; W; l 4 3; W; s 4 1 0; W"),
        a(&format!("case A as a row: {} steps are too many", STEPS + 1)).lend(FIRST, &[1; STEPS + 1]).lines(&format!("W; l 5 {STEPS}; W")),
        Vector::new("case A as a row and as tables")
            .task(&case())
            .row(&row_of(&case()))
            .lend(FIRST, &[0, 1, 2, 3])
            .lines("W; J; l 13 0; W; J; n 3 0 3; W; J"),
    ]
}

/// The row's length is the number of operators, whatever the count says.
fn lengths() -> Vec<Vector> {
    let many = |title: &str, count: usize| {
        let task = row_of_ops(&vec![7; count.min(OPS)]);
        let row: Vec<Record> = row_of(&task).into_iter().cycle().take(count).collect();
        row_alone(title, &task).row(&row).lend(FIRST, &[count as u32 - 1]).lines("W; s 0 0 0; W")
    };
    vec![
        a_whole("an empty row", "l 13 0; W; l 5 0; W; s 4 0 1 2 2; W"),
        many("a row of 64 records: the last one passes", 64),
        many("a row of 65 records", 65),
        many("a row of 80 records", 80),
        a_whole("a row longer than the count", "n 3 3 3; W; n 3 1 3; W; n 3 0 3; W"),
        a_whole("a row shorter than the count", "n 3 5 3; W; n 3 64 3; W; n 3 65 3; W; n 3 4294967295 3; W"),
        a_whole("a row shorter than the list needs", "l 13 3; W; l 13 2; W; l 13 1; W"),
        a_whole("records beyond the row's end aren't read", "s 13 68 1000001 9 9 9; W; l 13 5; W"),
        a_whole("shares beyond the row's end aren't read", "s 13 77 1; s 2 4 1000001; s 2 63 4294967295; W; l 13 5; W"),
    ]
}

fn tables_beside_the_row() -> Vec<Vector> {
    // each of the records behind case A's has one effect
    let filled = |title: &str, lines: &str| {
        let effects: String = (4..OPS).map(|o| format!("s 13 {} 1; ", RECORD * o + 1 + VARS)).collect();
        a_whole(title, &(effects + lines))
    };
    vec![
        a_whole("costs that aren't lent aren't asked for", "l 1 0; W; l 1 63; W; l 1 80; W"),
        a_whole("facts lent too short", "l 0 1623; W; l 0 1048; W; l 0 24; W; l 0 0; W; l 0 1624; W; l 0 1700; W"),
        a_whole("shares lent too short", "l 2 511; W; l 2 0; W; l 2 600; W"),
        a_whole("facts too short come before too many records", "l 13 65; W; l 0 1623; W"),
        a_whole("no variables, nine variables, no maps, nine maps", "n 0 0 3; W; n 9 0 3; W; n 3 0 0; W; n 3 0 9; W; n 9 0 9; W"),
        a_whole("a fault of the goal comes before too many records", "l 13 65; W; s 0 16 4; W; s 0 8 2; W; s 0 0 9; W"),
        filled("the lines of the maps follow the row's length", "s 0 1122 0; W; s 0 1121 2; W; l 13 2; W; l 13 0; W; l 13 64; W"),
        filled("the lines of the shares follow the row's length", "s 2 65 1000001; W; l 13 2; W; l 13 1; W; l 13 64; W"),
    ]
}

fn records_at_the_edge() -> Vec<Vector> {
    vec![
        a_changed("a record with a precondition out of range", 1, |record| record.pre[1] = 4),
        a_changed("a record with an effect out of range", 3, |record| record.eff[0] = 3),
        a_changed("a record with a fact of the highest byte", 0, |record| record.eff[2] = 255),
        a_changed("a record with a fact at the top of its range", 0, |record| record.pre[2] = 3),
        a_changed("places of a record beyond the variables aren't read", 2, |record| {
            record.pre[3..].fill(201);
            record.eff[3..].fill(202);
        }),
        a_changed("a record with a cost of 1000000", 0, |record| record.cost = 1_000_000),
        a_changed("a record with a cost of 1000001", 0, |record| record.cost = 1_000_001),
        a_changed("a record with the highest cost that a number can say", 3, |record| record.cost = u32::MAX),
        a_changed("shares above a record's cost", 1, |record| record.cost = 0),
        a_changed("a record that says nothing", 2, |record| *record = EMPTY),
        a_changed("preconditions and effects the other way round", 1, |record| std::mem::swap(&mut record.pre, &mut record.eff)),
        eight_variables(),
        a_whole("of two records below their shares the lower is named", "s 13 51 0; W; s 13 17 0; W"),
        a_whole("a record out of range comes before one below its shares", "s 13 0 0; W; s 13 51 1000001; W"),
    ]
}

/// One operator with a precondition and an effect on each of the most variables, and what its last places say.
fn eight_variables() -> Vector {
    let op = Op::new(3, vec![Some(0); VARS], vec![Some(1); VARS]);
    let map = vec![vec![0, 0]; VARS];
    let task = Task {
        dom: vec![2; VARS],
        init: vec![0; VARS],
        goal: vec![Some(1); VARS],
        quota: None,
        ops: vec![op],
        maps: vec![map],
        shares: vec![vec![3]],
    };
    row_alone("a record with facts on eight variables", &task)
        .lend(FIRST, &[0])
        .lines("W; s 13 8 2; W; s 13 8 1; s 13 16 1; W; s 13 16 3; W")
}

/// The row's places, as the script sets, shows and lends them.
fn places_of_the_row() -> Vec<Vector> {
    vec![
        Vector::new("a record's cost is a number and its facts are bytes").lines("s 13 17 4294967295 255 256 7; p 13 17; p 13 18; p 13 19; p 13 20; s 13 33 8 9 10; p 13 33; p 13 34; p 13 35; s 13 34 300 300; p 13 34; p 13 35"),
        Vector::new("the row's places and its length have an end").lines("s 13 1359 5 6; p 13 1359; p 13 1360; e 13 77; p 13 0; p 13 1358; e 13 256; p 13 0; p 13 1; l 13 80; l 13 81; s 15 0 1; p 15 0; s 12 0 1; p 12 0; l 12 1; W 1; W"),
    ]
}

/// A valid task's operators as a row, and lists right and wrong; as often as not there is rubbish in the tables instead.
pub fn row_of_a_task(rng: &mut Rng) -> Vector {
    let size = rng.pick(&[TINY, SMALL, SMALL, MEDIUM, LARGE]);
    let task = lively_task(rng, size);
    let title = "a task's operators as a row of records";
    let mut vector = if rng.chance(1, 2) { row_alone(title, &task) } else { Vector::new(title).task(&task).row(&row_of(&task)) };
    vector = vector.state(&task.init);
    if rng.chance(1, 2) {
        let any = rng.word();
        let ops = rng.pick(&[0, 1, 65, any]);
        vector = vector.counts(Counts { ops, ..counts_of(&task) }).lines(&format!("l 1 {}", rng.below(81)));
    }
    for _ in 0..6 {
        let list = some_list(rng, &task, &task.init);
        vector = vector.lend(FIRST, &list).lines("W; J");
    }
    vector
}

/// A place of a record, with another value.
fn some_record(rng: &mut Rng, task: &Task, row: &[Record]) -> (usize, Record) {
    let o = rng.below(row.len());
    let v = if rng.chance(7, 8) { rng.below(task.dom.len()) } else { rng.below(VARS) };
    let value = if rng.chance(3, 4) { rng.below(10) as u8 } else { rng.below(256) as u8 };
    let mut record = row[o];
    let vars = task.dom.len();
    if task.quota.is_some() && rng.chance(1, 5) {
        record.mark = rng.pick(&[1 - record.mark, 2, value]);
        return (o, record);
    }
    match rng.below(6) {
        0 | 1 => record.pre[v] = value,
        2 | 3 => record.eff[v] = value,
        4 => record.eff[..vars].copy_from_slice(&repeating(rng, &record.pre[..vars])),
        _ => record.cost = some_cost(rng, record.cost),
    }
    (o, record)
}

/// A row with a place, its length or a place of the tables damaged, one after the other.
pub fn damaged_row(rng: &mut Rng) -> Vector {
    let size = rng.pick(&[SMALL, MEDIUM, LARGE]);
    let task = lively_task(rng, size);
    let row = row_of(&task);
    let mut vector = Vector::new("a row of records with something damaged").task(&task).state(&task.init).row(&row);
    for _ in 0..10 {
        let list = some_list(rng, &task, &task.init);
        vector = vector.lend(FIRST, &list);
        vector = match rng.below(5) {
            0 => {
                let length = rng.pick(&[0, 1, row.len() - 1, row.len() + 1, 64, 65, 80]);
                vector.lines(&format!("l 13 {}; W; l 13 {}", length, row.len()))
            }
            1 => {
                let (k, place, old, new) = some_places(rng, &task);
                vector.set(k, place, &new).lines("W; J").set(k, place, &old)
            }
            _ => {
                let (o, record) = some_record(rng, &task, &row);
                vector.record(o, &record).lines("W").record(o, &row[o])
            }
        };
    }
    vector.lines("W")
}

/// The ones by name, then some by chance. They come after all other vectors, so that those keep their numbers.
pub fn rows(seed: u64) -> Vec<Vector> {
    let mut vectors: Vec<Vector> =
        [case_a(), lengths(), tables_beside_the_row(), records_at_the_edge(), places_of_the_row()].into_iter().flatten().collect();
    let mut rng = Rng::new(seed);
    for _ in 0..BY_CHANCE / 2 {
        vectors.push(row_of_a_task(&mut rng));
        vectors.push(damaged_row(&mut rng));
    }
    vectors
}
