//! The run and its ledger.

use crate::limits::{COLUMNS, STEPS, STORED, UNSHARED, VARS};
use crate::task::{refuse, Fault, State, Task};

#[derive(Clone, Debug, PartialEq, Eq)]
pub struct Run {
    pub start: [u8; VARS],
    pub log: [u32; STEPS],
    pub len: u32,
    pub now: [u8; VARS],
    /// one paid column a map, then the unshared one, then the number of stored tests
    pub columns: [u32; COLUMNS],
}

#[derive(Clone, Copy, Debug, PartialEq, Eq)]
pub enum Offered {
    Accepted,
    Repeated,
    Refused(Fault),
}

impl Run {
    pub const fn zeros() -> Run {
        Run { start: [0; VARS], log: [0; STEPS], len: 0, now: [0; VARS], columns: [0; COLUMNS] }
    }

    pub fn fresh(start: &State) -> Run {
        let mut run = Run::zeros();
        for (v, value) in start.iter().enumerate() {
            run.start[v] = *value as u8;
            run.now[v] = *value as u8;
        }
        run
    }

    pub fn state(&self, task: &Task) -> State {
        self.now[..task.dom.len()].iter().map(|value| *value as usize).collect()
    }

    /// The operator would store a test beyond the quota.
    fn is_past_quota(&self, task: &Task, o: usize) -> bool {
        task.is_past_quota(o, self.columns[STORED] as usize)
    }

    /// The run after one more step, which exists, may run, keeps the quota and has room.
    pub fn with(&self, task: &Task, o: usize) -> Run {
        let mut run = self.clone();
        for (v, value) in task.after(o, &self.state(task)).iter().enumerate() {
            run.now[v] = *value as u8;
        }
        run.log[self.len as usize] = o as u32;
        run.len += 1;
        for (m, row) in task.shares.iter().enumerate() {
            run.columns[m] += row[o] as u32;
        }
        run.columns[UNSHARED] += task.unshared(o) as u32;
        run.columns[STORED] += u32::from(task.ops[o].stores);
        run
    }

    /// What the start and the log give, if they give a run at all.
    pub fn replayed(&self, task: &Task) -> Option<Run> {
        let start: State = self.start[..task.dom.len()].iter().map(|value| *value as usize).collect();
        if start.iter().zip(&task.dom).any(|(value, values)| value >= values) || self.len as usize > STEPS {
            return None;
        }
        let mut run = Run::fresh(&start);
        for op in &self.log[..self.len as usize] {
            let o = *op as usize;
            if o >= task.ops.len() || !task.may_run(o, &run.state(task)) || run.is_past_quota(task, o) {
                return None;
            }
            run = run.with(task, o);
        }
        Some(run)
    }

    /// The run after an offer, and the answer; the tables are accepted already.
    pub fn offer(&self, task: &Task, number: u32, op: u32) -> (Run, Offered) {
        match self.judged(task, number, op) {
            Ok(true) => (self.with(task, op as usize), Offered::Accepted),
            Ok(false) => (self.clone(), Offered::Repeated),
            Err(fault) => (self.clone(), Offered::Refused(fault)),
        }
    }

    /// Whether the offer is a step to book (or one that repeats), or why not.
    fn judged(&self, task: &Task, number: u32, op: u32) -> Result<bool, Fault> {
        let place = number as usize;
        if self.replayed(task).as_ref() != Some(self) {
            return refuse(17, 0);
        }
        if op as usize >= task.ops.len() {
            return refuse(10, place);
        }
        if number == 0 || number > self.len + 1 {
            return refuse(13, place);
        }
        if number <= self.len {
            return if self.log[place - 1] == op { Ok(false) } else { refuse(14, place) };
        }
        if self.len as usize == STEPS {
            return refuse(15, place);
        }
        if !task.may_run(op as usize, &self.state(task)) {
            return refuse(12, place);
        }
        if self.is_past_quota(task, op as usize) {
            return refuse(19, place);
        }
        Ok(true)
    }
}
