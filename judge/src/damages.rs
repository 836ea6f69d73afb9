//! Texts and tables with something damaged by chance.

use crate::builder::{tables_of, text_of_task};
use crate::limits::*;
use crate::random::{task, FULL, LARGE, MEDIUM, SMALL, TINY};
use crate::rng::Rng;
use crate::script::{COSTS, FACTS, SHARES};
use crate::task::Task;

/// One byte deleted, doubled, changed or put in, or the text cut.
pub fn damaged(rng: &mut Rng, text: &[u8]) -> Vec<u8> {
    let i = rng.below(text.len());
    damaged_at(rng, text, i)
}

/// The same at this byte.
pub fn damaged_at(rng: &mut Rng, text: &[u8], i: usize) -> Vec<u8> {
    let likely = b"0123456789,:;/-=\n";
    match rng.below(6) {
        0 => [&text[..i], &text[i + 1..]].concat(),
        1 => [&text[..=i], &text[i..]].concat(),
        2 => [&text[..i], &[rng.below(256) as u8], &text[i + 1..]].concat(),
        3 => [&text[..i], &[rng.pick(likely)], &text[i + 1..]].concat(),
        4 => [&text[..i], &[rng.pick(likely)], &text[i..]].concat(),
        _ => text[..i].to_vec(),
    }
}

/// A digit put in place of a digit, so that a number and not the form is wrong; often a fact's variable.
pub fn renumbered(rng: &mut Rng, text: &[u8]) -> Vec<u8> {
    let digits: Vec<usize> = (0..text.len()).filter(|i| text[*i].is_ascii_digit()).collect();
    let vars: Vec<usize> = digits.iter().copied().filter(|i| text.get(i + 1) == Some(&b':')).collect();
    let digits = if vars.is_empty() || rng.chance(1, 2) { digits } else { vars };
    let mut text = text.to_vec();
    text[rng.pick(&digits)] = rng.pick(b"0123456789");
    text
}

/// The task's text with an operator whose effects repeat its preconditions, and as often as not one more thing damaged.
pub fn idle_text(rng: &mut Rng, task: &Task) -> Vec<u8> {
    let mut task = task.clone();
    if !task.ops.is_empty() {
        let o = rng.below(task.ops.len());
        task.ops[o].eff = repeating(rng, &task.ops[o].pre);
    }
    let text = text_of_task(&task);
    if rng.chance(1, 2) {
        damaged(rng, &text)
    } else {
        text
    }
}

/// The text of a task by chance, as often as not with something damaged.
pub fn some_text(rng: &mut Rng) -> Vec<u8> {
    let size = rng.pick(&[TINY, SMALL, MEDIUM, LARGE, FULL]);
    let task = task(rng, size);
    let text = text_of_task(&task);
    match rng.below(6) {
        0 => damaged(rng, &text),
        1 => renumbered(rng, &text),
        2 => idle_text(rng, &task),
        _ => text,
    }
}

/// Effects with which an operator is idle, or nearly so: what its preconditions say, none of it, all but what they say of one
/// variable; or what they say, each said of the variable behind.
pub fn repeating<T: Copy + Default>(rng: &mut Rng, pre: &[T]) -> Vec<T> {
    let mut eff = pre.to_vec();
    match rng.below(5) {
        0 => eff.fill(T::default()),
        1 => eff[rng.below(pre.len())] = T::default(),
        2 => eff.rotate_right(1),
        _ => {}
    }
    eff
}

/// A place of the tables, one that is read more often than not, with its value and another one.
fn some_place(rng: &mut Rng, task: &Task) -> (u32, usize, u32, u32) {
    let tables = tables_of(task);
    let (vars, ops, maps) = (task.dom.len(), task.ops.len().max(1), task.maps.len());
    let (v, o, m) = (rng.below(vars), rng.below(ops), rng.below(maps));
    if task.quota.is_some() && rng.chance(1, 6) {
        let place = ROW * ROW_MARK + if rng.chance(7, 8) { o } else { rng.below(OPS) };
        return (FACTS, place, u32::from(tables.facts[place]), rng.pick(&[0, 1, 2, 255]));
    }
    let row = match rng.below(9) {
        0 => ROW_DOM,
        1 => ROW_INIT,
        2 => ROW_GOAL,
        3 => ROW_PRE + o,
        4 => ROW_EFF + o,
        5 | 6 => {
            let place = ROW * (ROW_MAP + MAPS * m + v) + rng.below(task.dom[v]);
            return (FACTS, place, u32::from(tables.facts[place]), rng.below(task.dom[v] + 2) as u32);
        }
        7 => {
            let costly = rng.chance(1, 2);
            let (k, place, old) = if costly { (COSTS, o, tables.costs[o]) } else { (SHARES, OPS * m + o, tables.shares[OPS * m + o]) };
            return (k, place, old, some_cost(rng, old));
        }
        _ => rng.below(FACTS_ROOM / ROW),
    };
    let place = ROW * row + if rng.chance(7, 8) { v } else { rng.below(ROW) };
    let near = rng.chance(3, 4);
    (FACTS, place, u32::from(tables.facts[place]), if near { rng.below(10) as u32 } else { rng.below(256) as u32 })
}

/// The places of an operator's effects, with what they say and what would repeat its preconditions.
fn some_effects(rng: &mut Rng, task: &Task) -> (usize, Vec<u32>, Vec<u32>) {
    let (facts, o) = (tables_of(task).facts, rng.below(task.ops.len().max(1)));
    let row = |row: usize| facts[ROW * row..][..task.dom.len()].iter().map(|place| u32::from(*place)).collect::<Vec<_>>();
    (ROW * (ROW_EFF + o), row(ROW_EFF + o), repeating(rng, &row(ROW_PRE + o)))
}

/// Places of the tables, with their values and others: one of any kind, or an operator's effects.
pub fn some_places(rng: &mut Rng, task: &Task) -> (u32, usize, Vec<u32>, Vec<u32>) {
    if rng.chance(1, 5) {
        let (place, old, new) = some_effects(rng, task);
        return (FACTS, place, old, new);
    }
    let (k, place, old, new) = some_place(rng, task);
    (k, place, vec![old], vec![new])
}

pub fn some_cost(rng: &mut Rng, old: u32) -> u32 {
    let any = rng.word();
    rng.pick(&[0, 1, old + 1, old.saturating_sub(1), 1_000_000, 1_000_001, u32::MAX, any])
}
