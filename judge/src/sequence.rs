//! Step sequences: judging one, and naming the cheaper of two.

use crate::limits::STEPS;
use crate::task::{refuse, Fault, State, Task};

/// The cost of a sequence that may run step by step, keeps the quota and ends at a goal.
pub fn judge(task: &Task, start: &State, list: &[u32]) -> Result<u64, Fault> {
    if list.len() > STEPS {
        return refuse(11, 0);
    }
    let mut state = start.clone();
    let (mut cost, mut stored) = (0, 0);
    for (i, op) in list.iter().enumerate() {
        let o = *op as usize;
        if o >= task.ops.len() {
            return refuse(10, i + 1);
        }
        if !task.may_run(o, &state) {
            return refuse(12, i + 1);
        }
        if task.is_past_quota(o, stored) {
            return refuse(19, i + 1);
        }
        state = task.after(o, &state);
        cost += task.ops[o].cost;
        stored += usize::from(task.ops[o].stores);
    }
    if !task.at_goal(&state) {
        return refuse(16, list.len());
    }
    Ok(cost)
}

/// The list up to the first moment that a goal holds: its length and cost. A list is out if it is
/// above the limit, faulty before that moment, or never at a goal.
pub fn opening(task: &Task, start: &State, list: &[u32]) -> Option<(usize, u64)> {
    if list.len() > STEPS {
        return None;
    }
    let mut state = start.clone();
    let (mut cost, mut stored) = (0, 0);
    for (i, op) in list.iter().enumerate() {
        if task.at_goal(&state) {
            return Some((i, cost));
        }
        let o = *op as usize;
        if o >= task.ops.len() || !task.may_run(o, &state) || task.is_past_quota(o, stored) {
            return None;
        }
        state = task.after(o, &state);
        cost += task.ops[o].cost;
        stored += usize::from(task.ops[o].stores);
    }
    task.at_goal(&state).then_some((list.len(), cost))
}

#[derive(Clone, Copy, Debug, PartialEq, Eq)]
pub enum Cheaper {
    First { length: usize, cost: u64 },
    Second { length: usize, cost: u64 },
    Neither,
}

/// Equal costs name the first.
pub fn cheaper(task: &Task, start: &State, a: &[u32], b: &[u32]) -> Cheaper {
    match (opening(task, start, a), opening(task, start, b)) {
        (Some((length, cost)), None) => Cheaper::First { length, cost },
        (None, Some((length, cost))) => Cheaper::Second { length, cost },
        (Some((length, cost)), Some((_, other))) if cost <= other => Cheaper::First { length, cost },
        (Some(_), Some((length, cost))) => Cheaper::Second { length, cost },
        (None, None) => Cheaper::Neither,
    }
}
