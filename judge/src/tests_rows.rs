//! A row of records is judged as the tables that it stands for.

use crate::builder::{row_of, tables_of};
use crate::cases::{row_of_ops, A};
use crate::desk;
use crate::limits::*;
use crate::random;
use crate::rng::Rng;
use crate::row::Record;
use crate::tables::{counts_of, Counts, Lent};
use crate::task::{Fault, Task};
use crate::tests::{repeat_preconditions, some_tasks};
use crate::text::read_text;

fn bytes(state: &[usize]) -> Vec<u8> {
    state.iter().map(|value| *value as u8).collect()
}

/// What is answered for a row, with rubbish where the operators would stand in the tables, and no costs.
fn by_row(task: &Task, row: &[Record], list: &[u32]) -> desk::Answer {
    let mut tables = tables_of(task);
    tables.facts[ROW * ROW_PRE..ROW * ROW_MAP].fill(201);
    tables.facts[ROW * ROW_MARK..].fill(202);
    let counts = Counts { ops: 77, ..counts_of(task) };
    desk::judge_row(Lent { counts, facts: &tables.facts, costs: &[], shares: &tables.shares }, row, &bytes(&task.init), list)
}

#[test]
fn case_a_as_a_row() {
    let task = read_text(A.as_bytes()).unwrap();
    let said = |list: &[u32]| by_row(&task, &row_of(&task), list).to_string();
    assert_eq!(said(&[0, 1, 2, 3]), "passed 4");
    assert_eq!(said(&[0, 2]), "refused 12 2");
    assert_eq!(said(&[0]), "refused 16 1");
    assert_eq!(said(&[]), "refused 16 0");
}

#[test]
fn a_row_has_the_length_that_it_has() {
    let task = row_of_ops(&[7; 64]);
    let row = row_of(&task);
    let said = |row: &[Record], op: u32| by_row(&task, row, &[op]).to_string();
    assert_eq!(said(&row, 63), "passed 7");
    assert_eq!(said(&row[..63], 63), "refused 10 1");
    assert_eq!(said(&[], 0), "refused 10 1");
    assert_eq!(said(&[&row[..], &row[..1]].concat(), 63), "refused 3 6");
    let tables = tables_of(&task);
    let short = Lent { counts: counts_of(&task), facts: &tables.facts[1..], costs: &tables.costs, shares: &tables.shares };
    assert_eq!(desk::judge_row(short, &row, &[0], &[0]).to_string(), "refused 8 0");
}

/// A row and tables with the same things changed in both.
#[test]
fn a_row_is_judged_as_its_tables_are() {
    let mut rng = Rng::new(7);
    let (mut idle, mut past) = (0, 0);
    for task in some_tasks(7, 2_000, &[random::TINY, random::SMALL, random::MEDIUM, random::LARGE]) {
        let (mut row, mut tables) = (row_of(&task), tables_of(&task));
        let changes = if row.is_empty() { 0 } else { rng.between(0, 2) };
        for _ in 0..changes {
            let (o, v, value) = (rng.below(row.len()), rng.below(VARS), rng.below(9) as u8);
            match rng.below(5) {
                4 => {
                    let mark = rng.below(3) as u8;
                    (row[o].mark, tables.facts[ROW * ROW_MARK + o]) = (mark, mark);
                }
                0 => (row[o].pre[v], tables.facts[ROW * (ROW_PRE + o) + v]) = (value, value),
                1 => (row[o].eff[v], tables.facts[ROW * (ROW_EFF + o) + v]) = (value, value),
                2 => {
                    row[o].eff = row[o].pre;
                    repeat_preconditions(&mut tables, o);
                }
                _ => {
                    let cost = rng.below(1_000_002) as u32;
                    (row[o].cost, tables.costs[o]) = (cost, cost);
                }
            }
        }
        let (list, _) = random::walk(&mut rng, &Task { quota: None, ..task.clone() }, &task.init, 9);
        let lent = Lent { counts: counts_of(&task), facts: &tables.facts, costs: &tables.costs, shares: &tables.shares };
        let judged = desk::judge(lent, &bytes(&task.init), &list);
        assert_eq!(by_row(&task, &row, &list), judged);
        idle += usize::from(matches!(judged, desk::Answer::Refused(Fault { number: 18, .. })));
        past += usize::from(matches!(judged, desk::Answer::Refused(Fault { number: 19, .. })));
    }
    assert!(idle > 100 && past > 50, "{} and {}", idle, past);
}
