//! A task's counts and tables, as both sides are lent them; to be read into, and to be altered.
use mihaedop::{Counts, Refusal, Task, COSTS, COUNTS, FACTS, MARKS, QUOTA, SHARES};

/// The places of the counts and the tables, one after another.
pub const PLACES: usize = COUNTS + FACTS + COSTS + SHARES;

/// How a place can be altered.
pub const KINDS: usize = 8;

/// Where the edition and the quota stand in the row of counts.
const EDITION_AT: usize = 3;
const QUOTA_AT: usize = 4;

/// Where the operators' effects begin in the facts, 8 places each.
const EFFECTS: usize = 8 * 67;

/// A task's row of counts (variables, operators, maps, edition, quota) and its tables.
#[derive(Clone)]
pub struct Tables {
    pub counts: [u32; COUNTS],
    pub facts: [u8; FACTS],
    pub costs: [u32; COSTS],
    pub shares: [u32; SHARES],
}

impl Tables {
    pub fn of(task: &Task) -> Tables {
        let (facts, costs, shares) = task.tables();
        Tables { counts: task.counts().row(), facts: *facts, costs: *costs, shares: *shares }
    }

    pub fn zeros() -> Tables {
        Tables { counts: [0; COUNTS], facts: [0; FACTS], costs: [0; COSTS], shares: [0; SHARES] }
    }

    pub fn counts(&self) -> Counts {
        Counts::of_row(self.counts)
    }

    /// The task that they are, if the desk accepts them.
    pub fn task(&self) -> Result<Task, Refusal> {
        Task::of_tables(self.counts(), self.facts, self.costs, self.shares)
    }

    /// The same tables in this edition, with this quota and each operator marked as it is told.
    pub fn marked(&self, edition: u32, quota: u32, mark: impl Fn(u32) -> u8) -> Tables {
        let mut tables = self.clone();
        (tables.counts[EDITION_AT], tables.counts[QUOTA_AT]) = (edition, quota);
        for (op, place) in (0..).zip(&mut tables.facts[MARKS..]) {
            *place = mark(op);
        }
        tables
    }

    /// Takes an operator its effects.
    pub fn make_idle(&mut self, op: u32) {
        self.facts[EFFECTS + 8 * op as usize..][..8].fill(0);
    }

    /// Alters a place: to a number near the one that stands there, or near a limit.
    pub fn alter(&mut self, place: usize, kind: usize) {
        let near = |was: u32| [0, 1, was.wrapping_sub(1), was.wrapping_add(1)];
        if place < COUNTS {
            let was = self.counts[place];
            let limits = if place == QUOTA_AT { [2, QUOTA, QUOTA + 1, u32::MAX] } else { [8, 9, 65, u32::MAX] };
            self.counts[place] = limits.iter().chain(&near(was)).copied().nth(kind).unwrap_or(was);
        } else if place < COUNTS + FACTS {
            let at = &mut self.facts[place - COUNTS];
            let was = *at;
            *at = [0, 1, was.wrapping_sub(1), was.wrapping_add(1), 7, 8, 9, u8::MAX][kind];
        } else {
            let place = place - COUNTS - FACTS;
            let at = if place < COSTS { &mut self.costs[place] } else { &mut self.shares[place - COSTS] };
            *at = [1_000_000, 1_000_001, *at / 2, u32::MAX].iter().chain(&near(*at)).copied().nth(kind).unwrap_or(*at);
        }
    }
}
