//! Tables and rows of records of edition 2: the edition, the quota and the marks, in every entry that takes them; that edition 1
//! reads neither quota nor marks; and the script's places for them.

use crate::builder::{row_of, text_of_task, Vector};
use crate::cases::{row_of_ops, A, G};
use crate::edges::wide;
use crate::limits::*;
use crate::quota_texts::all_storing;
use crate::rows::row_alone;
use crate::script::{COSTS, FACTS, FIRST, MARK, RECORD, SECOND, SHARES};
use crate::task::Task;
use crate::text::read_text;

/// Every entry that takes tables.
const EVERY_ENTRY: &str = "K; T; D 0; A 0; B; M; J; W; C; P; G; O 1 0";

/// Where the marks begin in the tables; those of case G are 0, 1, 0.
pub const MARKS: usize = ROW * ROW_MARK;

pub fn case_g() -> Task {
    read_text(G.as_bytes()).unwrap()
}

/// A task by hand, as tables and as a row, with its text in the buffer.
pub fn held(title: &str, task: &Task) -> Vector {
    Vector::new(title).text(&text_of_task(task)).lines("b").tables(task).row(&row_of(task))
}

/// Case G with its list to the goal.
pub fn g(title: &str) -> Vector {
    held(title, &case_g()).lend(FIRST, &[0, 1]).lend(SECOND, &[0, 1, 2])
}

/// Case A by hand in edition 2.
fn a(title: &str) -> Vector {
    let task = Task { quota: Some(7), ..read_text(A.as_bytes()).unwrap() };
    held(title, &task).lend(FIRST, &[0, 1, 2, 3])
}

/// The counts of case G with another edition and quota.
pub fn counts(edition: u32, quota: u32) -> String {
    format!("n 2 3 1 {edition} {quota}")
}

/// Lines with one place first set, and then set back.
fn while_set(vector: Vector, k: u32, place: usize, (new, old): (u32, u32), lines: &str) -> Vector {
    vector.set(k, place, &[new]).lines(lines).set(k, place, &[old])
}

fn editions_and_quotas() -> Vec<Vector> {
    let entries = |edition: u32, quota: u32| format!("{}; {EVERY_ENTRY}", counts(edition, quota));
    let checked = |edition: u32, quota: u32| format!("{}; K; W", counts(edition, quota));
    let editions = [0, 4, 255, 258, u32::MAX].map(|edition| checked(edition, 1)).join("; ");
    let quotas = [0, 1023, 1024, 1026, 2048, 65_536, u32::MAX].map(|quota| checked(2, quota)).join("; ");
    vec![
        g("tables of other editions than 1 and 2").lines(&entries(2, 1)).lines(&entries(3, 1)).lines(&editions),
        g("an edition that there isn't comes after short tables and before all else")
            .lines("n 0 65 9 3 1025; K; W; s 0 0 9; K; l 0 1623; K; W; l 0 1624; l 2 511; K; W; l 2 512; l 1 63; K; W; l 1 64; s 0 0 2")
            .lines(
                "l 14 16383; T; l 14 16384; T; n 2 3 1 3 0; D 9; A 9; s 4 0 9; B; J; G; l 3 4095; D 0; s 9 0 2000; O 9 9; n 2 3 1 2 1; K",
            ),
        g("tables of quotas up to 1024 and above").lines(&entries(2, 1025)).lines(&quotas),
        g("a quota above 1024 comes after the goal and before the number of operators")
            .lines("n 2 65 9 2 1025; K; l 13 65; W; s 0 17 3; K; W; s 0 17 2; s 0 9 2; K; W; s 0 9 0; K; W; n 2 65 9 2 1024; K; W")
            .lines("n 9 3 1 2 1025; K; n 2 3 1 2 1025; s 1 0 1000001; K; s 1 0 2; s 0 1561 2; K; s 0 1561 1; l 13 3; D 9; s 4 0 9; B; W")
            .lines("s 4 0 0; l 5 1100; J; W; s 9 0 1025; O 2 7; l 0 1623; K; W"),
    ]
}

/// Each mark of case G in turn, and what is told before and after it.
fn marks() -> Vec<Vector> {
    let old = [0, 1, 0];
    let each = (0..3).fold(g("marks of operators: 0 and 1, and above"), |vector, o| {
        [0, 1, 2, 3, 255].iter().fold(vector, |vector, mark| while_set(vector, FACTS, MARKS + o, (*mark, old[o]), "K"))
    });
    let (pre, eff) = (ROW * (ROW_PRE + 1), ROW * (ROW_EFF + 1));
    let wrong = g("a mark above 1 beside other numbers of its operator out of range").set(FACTS, MARKS + 1, &[2]).lines("K");
    let wrong = while_set(wrong, COSTS, 1, (1_000_001, 3), "K; B");
    let wrong = while_set(wrong, FACTS, pre + 1, (3, 1), "K; B");
    let wrong = while_set(wrong, FACTS, eff + 1, (3, 2), "K; B");
    let idle = g("a mark above 1 comes before its operator is idle, and both before what is behind").set(FACTS, eff + 1, &[1]).lines("K");
    let idle = while_set(idle, FACTS, MARKS + 1, (2, 1), "K; T; B; G");
    let idle = while_set(idle, FACTS, MARKS + 1, (0, 1), "K; T");
    let idle = while_set(idle, FACTS, MARKS, (2, 0), "K; T");
    let idle = while_set(idle, FACTS, MARKS + 2, (2, 0), "K; T");
    let idle = while_set(idle, FACTS, ROW * (ROW_EFF), (0, 2), "K; T").set(FACTS, eff + 1, &[2]).set(FACTS, MARKS + 1, &[2]);
    let idle = while_set(idle, FACTS, ROW * (ROW_EFF), (0, 2), "K; T");
    let idle = while_set(idle, FACTS, ROW * (ROW_EFF + 2) + 1, (0, 1), "K; T");
    let lines =
        format!("s 0 {} 255; K; n 1 63 1 2 9; K; n 1 64 1 1 9; K; n 1 64 1 2 9; s 0 {} 2; K; n 1 65 1 2 9; K", MARKS + 63, MARKS + 31);
    vec![
        each.set(FACTS, MARKS + 3, &[255; 61]).lines("K; T; J"),
        g("a mark above 1 in every entry; the row of records has its own").set(FACTS, MARKS + 2, &[2]).lines(EVERY_ENTRY),
        wrong.lines("n 2 3 9 2 1; K; n 2 65 1 2 1; K; n 2 1 1 2 1; K; n 2 2 1 2 1; K"),
        idle.lines("n 2 3 0 2 1; K; s 0 1561 1; K"),
        held("the marks of 64 operators", &all_storing(row_of_ops(&[1; OPS]), 9)).lines("K; T").lines(&lines),
    ]
}

/// The same fault of the tables in both editions: behind the goal it is told one line later in the second.
fn lines_of_faults() -> Vec<Vector> {
    let faults: [(u32, usize, u32, u32); 13] = [
        (FACTS, 2, 9, 3),
        (FACTS, 10, 3, 0),
        (FACTS, 18, 4, 3),
        (COSTS, 0, 1_000_001, 1),
        (FACTS, ROW * (ROW_PRE + 1) + 1, 4, 1),
        (FACTS, ROW * (ROW_EFF + 2) + 1, 4, 3),
        (FACTS, ROW * (ROW_EFF + 3) + 2, 2, 3),
        (FACTS, ROW * ROW_MAP, 2, 0),
        (FACTS, ROW * (ROW_MAP + MAPS + 1), 1, 0),
        (FACTS, ROW * (ROW_MAP + 2 * MAPS + 2) + 2, 3, 2),
        (SHARES, OPS, 1_000_001, 0),
        (SHARES, 2 * OPS + 3, 2, 1),
        (SHARES, 2 * OPS + 1, 1, 0),
    ];
    let both = "n 3 4 3; K; n 3 4 3 2 7; K; B";
    let begun = a("the same faults of tables in both editions").lines(both);
    let counts = "n 0 4 3 2 7; K; n 3 65 3; K; n 3 65 3 2 7; K; n 3 4 0; K; n 3 4 0 2 7; K; n 3 4 9; K; n 3 4 9 2 7; K; n 3 0 0 2 7; K; n 3 0 3 2 7; K";
    let five = Task { quota: Some(3), ..wide(5, 4) };
    vec![
        faults.iter().fold(begun, |vector, (k, place, new, old)| while_set(vector, *k, *place, (*new, *old), both)).lines(counts),
        Vector::new("too many abstract states in both editions")
            .tables(&five)
            .set(FACTS, ROW * (ROW_MAP + 4), &[0, 1])
            .lines("K; D 0; n 5 1 1; K; D 0"),
    ]
}

/// Quota and marks of edition 1 aren't read: whatever is there, every entry says what it says of 0.
fn unread_in_edition_1() -> Vec<Vector> {
    let text = text_of_task(&Task { quota: None, ..case_g() });
    let offers = "O 2 1; O 2 1; O 3 2; O 4 1; O 4 1; O 5 2; O 2 0; O 1 0";
    let begun =
        g("edition 1: neither quota nor marks are read, in tables and in records").text(&text).lines("b").lend(FIRST, &[0, 1, 2, 1]);
    let with = |vector: Vector, (quota, mark): (u32, u32)| {
        let marks = vec![mark; OPS];
        vector.set(FACTS, MARKS, &marks).set(MARK, 0, &marks).lines(&format!("{}; {EVERY_ENTRY}; {offers}", counts(1, quota)))
    };
    let read =
        "p 0 1560; p 0 1561; p 0 1623; q; s 0 1560 1 1 1 1; n 3 4 3 1 0; K; J; n 3 4 3 1 4294967295; K; J; G; O 1 0; p 11 9; b; T; q";
    vec![
        [(0, 0), (0, 1), (1, 2), (1025, 255), (u32::MAX, 1)].into_iter().fold(begun, with),
        Vector::new("edition 1 read over edition 2 sets quota and marks to 0, and writes none")
            .text(G.as_bytes())
            .lines("R; q")
            .text(A.as_bytes())
            .lines("R")
            .lend(FIRST, &[0, 1, 2, 3])
            .lines(read)
            .text(G.as_bytes())
            .lines("R; q"),
        g("edition 1: faults are told at its lines, whatever quota and marks are")
            .text(&text)
            .lines("b")
            .lines("e 18 255; s 0 1560 255 255 255; n 2 3 1 1 9999; K; s 1 0 1000001; K; B; s 13 0 1000001; W; s 1 0 2; s 13 0 2; s 0 553 0; K; s 13 44 0; W")
            .lines("n 2 3 9 1 9999; K; n 2 65 1 1 9999; K; s 0 553 1; n 2 3 1 1 9999; K; s 2 1 4; K; T; s 2 1 3; K; T"),
    ]
}

fn rows() -> Vec<Vector> {
    let alone = |title: &str| row_alone(title, &case_g()).lend(FIRST, &[0, 1, 2, 1]).lines("W");
    let (cost, pre, eff) = (RECORD, RECORD + 2, RECORD + 10);
    let many = all_storing(row_of_ops(&[7; OPS]), 1);
    vec![
        alone("case G as a row: the records' marks count, and those of the tables don't")
            .lines("l 5 2; W; l 5 3; W; l 5 4; n 2 0 1 2 2; W; n 2 0 1 2 0; W; s 18 1 0; W; s 18 0 1; W; n 2 0 1 2 1; W; s 18 0 0 1; l 5 2; n 2 9 1 2 0; W; J"),
        alone("marks of records: 0 and 1, and above")
            .lines("s 18 0 1; W; s 18 0 2; W; s 18 0 255; W; s 18 0 0 2; W; s 18 1 1 2; W; s 18 1 0 255; W; s 18 1 1 0; W"),
        alone("a record's mark above 1, beside its other numbers, and before it is idle")
            .lines(&format!("s 18 1 2; W; s 13 {cost} 1000001; W; s 13 {cost} 3; s 13 {pre} 3; W; s 13 {pre} 1; s 13 {eff} 3; W; s 13 {eff} 1; W"))
            .lines(&format!("s 18 1 1; W; s 18 0 2; W; s 13 9 0; W; s 18 0 0; W; s 13 9 2; s 18 2 2; W; s 13 {eff} 2; W; s 18 2 0; W"))
            .lines("n 2 0 9 2 1; s 18 1 2; W; n 2 0 1 2 1025; W; n 2 0 1 3 1; W; n 2 0 1 1 1; W"),
        alone("marks beyond the row's end aren't read").lines("s 18 3 255 255 255; W; l 13 2; W; s 18 2 2; W; l 13 3; W; l 13 1; W"),
        row_alone("the marks of 64 records, and of more", &many)
            .lend(FIRST, &[63, 62])
            .lines("W; l 5 1; W; s 18 63 2 2; W; l 13 63; W; l 13 64; s 18 63 0; W; l 5 2; W; l 13 65; W; l 13 80; e 18 2; W; n 1 0 1 2 1025; W"),
        held("a row and tables of which only the row stores tests, or only the tables", &case_g())
            .lend(FIRST, &[0, 1, 2, 1])
            .lines("W; J; s 18 1 0; W; J; s 18 1 1; s 0 1561 0; W; J; s 0 1561 2; W; J; s 18 1 2; s 0 1561 1; W; J"),
    ]
}

/// Marks, columns and counts as the script sets, shows and lends them.
fn places_of_the_script() -> Vec<Vector> {
    vec![
        Vector::new("the marks of records are bytes, and have an end")
            .lines("p 18 0; s 18 79 5 6; p 18 79; p 18 80; s 18 0 256 255 1; p 18 0; p 18 1; p 18 2; e 18 256; p 18 1; e 18 9; p 18 0; p 18 79; l 18 0; l 18 80; l 18 81")
            .lines("s 19 0 1; e 19 1; p 19 0; l 19 1; s 15 0 1; e 15 1; p 15 0; s 16 0 1; p 16 0; s 17 0 1; e 17 1; p 17 0; l 17 1; p 4294967295 0; z; p 18 0; p 18 79"),
        Vector::new("ten columns").lines("s 11 8 7 8 9; p 11 8; p 11 9; p 11 10; e 11 4294967295; p 11 0; p 11 9; p 13 0; z; p 11 9"),
        Vector::new("counts of three numbers and of five")
            .lines("q; n 1 2 3; q; n 1 2 3 1 0; q; n 1 2 3 1 5; q; n 1 2 3 2 0; q; n 1 2 3 0 0; q; n 4294967295 4294967295 4294967295 4294967295 4294967295; q")
            .lines("n 1 2 3; q; n 1 2 3 2 7; n; n 9; n 9 9; n 9 9 9 9; n 9 9 9 9 9 9; n 9 9 9 9 x; n 9 9 9 2 4294967296; q; z; q; K"),
        Vector::new("a refused text leaves edition and quota")
            .lines("n 1 2 3 2 7; R; q")
            .text(G.as_bytes())
            .lines("l 0 0; R; q; l 0 1624; R; q")
            .text(b"edition=3\n")
            .lines("R; q"),
    ]
}

pub fn tables() -> Vec<Vector> {
    let groups = [editions_and_quotas(), marks(), lines_of_faults(), unread_in_edition_1(), rows(), places_of_the_script()];
    groups.into_iter().flatten().collect()
}
