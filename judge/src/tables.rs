//! The lent tables of a task: where each number stands, and the text that the same task would have.

use crate::limits::*;
use crate::task::{refuse, Facts, Fault, Task};
use crate::text::read_any_length;
use std::fmt;

#[derive(Clone, Copy, Debug, PartialEq, Eq)]
pub struct Counts {
    pub vars: u32,
    pub ops: u32,
    pub maps: u32,
    pub edition: u32,
    pub quota: u32,
}

impl Counts {
    /// The counts of a task of edition 1, whose quota isn't read.
    pub fn of_edition_1(vars: u32, ops: u32, maps: u32) -> Counts {
        Counts { vars, ops, maps, edition: 1, quota: 0 }
    }
}

/// As the script has them: edition and quota are told unless they are those of edition 1.
impl fmt::Display for Counts {
    fn fmt(&self, f: &mut fmt::Formatter) -> fmt::Result {
        write!(f, "{} {} {}", self.vars, self.ops, self.maps)?;
        if (self.edition, self.quota) != (1, 0) {
            write!(f, " {} {}", self.edition, self.quota)?;
        }
        Ok(())
    }
}

/// The tables as an entry is lent them.
#[derive(Clone, Copy)]
pub struct Lent<'a> {
    pub counts: Counts,
    pub facts: &'a [u8],
    pub costs: &'a [u32],
    pub shares: &'a [u32],
}

pub fn counts_of(task: &Task) -> Counts {
    Counts {
        vars: task.dom.len() as u32,
        ops: task.ops.len() as u32,
        maps: task.maps.len() as u32,
        edition: task.edition() as u32,
        quota: task.quota.unwrap_or(0) as u32,
    }
}

pub fn room_for_tables(facts: usize, costs: usize, shares: usize) -> Result<(), Fault> {
    if facts < FACTS_ROOM || costs < COSTS_ROOM || shares < SHARES_ROOM {
        return refuse(8, 0);
    }
    Ok(())
}

/// Every place of the tables is written: the task's numbers, and 0 in all others.
pub fn write_tables(task: &Task, facts: &mut [u8], costs: &mut [u32], shares: &mut [u32]) {
    facts.fill(0);
    costs.fill(0);
    shares.fill(0);
    for v in 0..task.dom.len() {
        facts[ROW * ROW_DOM + v] = task.dom[v] as u8;
        facts[ROW * ROW_INIT + v] = task.init[v] as u8;
    }
    write_facts(&task.goal, &mut facts[ROW * ROW_GOAL..]);
    for (o, op) in task.ops.iter().enumerate() {
        write_facts(&op.pre, &mut facts[ROW * (ROW_PRE + o)..]);
        write_facts(&op.eff, &mut facts[ROW * (ROW_EFF + o)..]);
        facts[ROW * ROW_MARK + o] = u8::from(op.stores);
        costs[o] = op.cost as u32;
    }
    for (m, map) in task.maps.iter().enumerate() {
        for (v, classes) in map.iter().enumerate() {
            for (value, class) in classes.iter().enumerate() {
                facts[ROW * (ROW_MAP + MAPS * m + v) + value] = *class as u8;
            }
        }
        for (o, share) in task.shares[m].iter().enumerate() {
            shares[OPS * m + o] = *share as u32;
        }
    }
}

/// 0 says 'no fact on this variable', k+1 says 'variable:k'.
fn write_facts(list: &Facts, row: &mut [u8]) {
    for (v, fact) in list.iter().enumerate() {
        row[v] = fact.map_or(0, |value| value as u8 + 1);
    }
}

/// The task of lent tables, or the first fault: 8, then what its text would be refused with.
pub fn read_tables(lent: Lent) -> Result<Task, Fault> {
    room_for_tables(lent.facts.len(), lent.costs.len(), lent.shares.len())?;
    read_any_length(&text_of(lent))
}

/// The text that the tables spell. A count above its limit is a fault on its own line, and so is an
/// edition that there isn't, so that the text need not be right after it, and the walks stop at the limit.
pub fn text_of(lent: Lent) -> Vec<u8> {
    let vars = (lent.counts.vars as usize).min(VARS);
    let ops = (lent.counts.ops as usize).min(OPS);
    let maps = (lent.counts.maps as usize).min(MAPS);
    let row = |r: usize| &lent.facts[ROW * r..ROW * r + vars];
    let marked = lent.counts.edition == 2;
    let mut text = format!("edition={}\nvars={}\n", lent.counts.edition, lent.counts.vars);
    text += &format!("dom={}\n", listed(row(ROW_DOM)));
    text += &format!("init={}\n", listed(row(ROW_INIT)));
    text += &format!("goal={}\n", facts_text(row(ROW_GOAL)));
    if marked {
        text += &format!("quota={}\n", lent.counts.quota);
    }
    text += &format!("ops={}\n", lent.counts.ops);
    for o in 0..ops {
        let (pre, eff) = (facts_text(row(ROW_PRE + o)), facts_text(row(ROW_EFF + o)));
        let mark = if marked { format!(";{}", lent.facts[ROW * ROW_MARK + o]) } else { String::new() };
        text += &format!("op={};{};{}{}\n", lent.costs[o], pre, eff, mark);
    }
    text += &format!("maps={}\n", lent.counts.maps);
    for m in 0..maps {
        text += &format!("map={}\n", map_text(lent.facts, m, vars));
    }
    for m in 0..maps {
        let row = &lent.shares[OPS * m..OPS * m + ops];
        text += &format!("share={}\n", if ops == 0 { "-".to_string() } else { listed(row) });
    }
    text.into_bytes()
}

fn listed<T: ToString>(row: &[T]) -> String {
    row.iter().map(T::to_string).collect::<Vec<_>>().join(",")
}

fn facts_text(row: &[u8]) -> String {
    let facts: Vec<String> =
        row.iter().enumerate().filter(|(_, place)| **place > 0).map(|(v, place)| format!("{}:{}", v, place - 1)).collect();
    if facts.is_empty() {
        "-".to_string()
    } else {
        facts.join(",")
    }
}

/// A variable's number of values is judged lines before; beyond the limit no map is read.
fn map_text(facts: &[u8], m: usize, vars: usize) -> String {
    let values = |v: usize| (facts[ROW * ROW_DOM + v] as usize).min(VALUES);
    let classes = |v: usize| {
        let from = ROW * (ROW_MAP + MAPS * m + v);
        listed(&facts[from..from + values(v)])
    };
    (0..vars).map(classes).collect::<Vec<_>>().join("/")
}
