//! THE BASELINE: the same run and the same offers as a plain Rust program keeps them; judging a sequence, the distances and best steps of a map, writing a task's text and
//! reading it, whole or in pieces, are in the modules below. It was written from the paper for this comparison, and shares nothing with the desk but the layout of the lent tables.
//!
//! An offer does what the desk's entry promises, in the same order: the tables are judged afresh, then the run that is handed in, then the offer. Nothing is kept
//! between offers.
mod gathering;
mod judging;
mod pieces;
mod reading;
mod views;
mod writing;

pub use gathering::Gathering;
use mihaedop::{COSTS, COUNTS, FACTS, SHARES, STEPS};
pub use pieces::Stepping;
pub use reading::read;

// The limits of the paper.
const VARIABLES: usize = 8;
const VALUES: u8 = 8;
const OPERATORS: usize = 64;
const MAPS: usize = 8;
const COST: u32 = 1_000_000;
const STATES: u32 = 4_096;
const QUOTA: u32 = 1_024;

// The facts stand in rows of 8 places: numbers of values, initial state, goal, preconditions and effects of each operator, classes of each variable in each map. Behind
// them stand the marks, a place an operator.
const ROW: usize = 8;
const VALUES_ROW: usize = 0;
const INITIAL_ROW: usize = 1;
const GOAL_ROW: usize = 2;
const PRECONDITIONS: usize = 3;
const EFFECTS: usize = PRECONDITIONS + OPERATORS;
const CLASSES: usize = EFFECTS + OPERATORS;
const MARKS: usize = ROW * (CLASSES + VARIABLES * MAPS);

/// A task: its counts and its tables. In a row of facts 0 says nothing of a variable, and k + 1 says its value k.
#[derive(Clone, Copy)]
pub struct Task<'a> {
    variables: usize,
    operators: usize,
    maps: usize,
    edition: u32,
    quota: u32,
    facts: &'a [u8],
    costs: &'a [u32],
    shares: &'a [u32],
}

/// Why not: the number on the paper's list, and the place.
#[derive(Clone, Copy, Debug, PartialEq, Eq)]
pub struct Refusal {
    pub number: u8,
    pub place: u32,
}

#[derive(Clone, Copy, Debug, PartialEq, Eq)]
pub enum Answer {
    Accepted,
    Repeated,
}

/// Where a run is, and what was booked for its steps. Unused places are 0.
#[derive(Clone, Debug, PartialEq, Eq)]
pub struct Moment {
    pub state: [u8; VARIABLES],
    pub paid: [u32; MAPS],
    pub unshared: u32,
    pub stored: u32,
}

/// A run: its start, the operators of its steps, how many they are, and the moment that they led to. Unused places are 0.
#[derive(Clone, Debug, PartialEq, Eq)]
pub struct Run {
    pub start: [u8; VARIABLES],
    pub log: [u32; STEPS],
    pub steps: u32,
    pub now: Moment,
}

fn refuse<T>(number: u8, place: usize) -> Result<T, Refusal> {
    Err(Refusal { number, place: place as u32 })
}

/// A number on this line is in its range, or is refused.
fn in_range(holds: bool, line: usize) -> Result<(), Refusal> {
    if holds {
        Ok(())
    } else {
        refuse(3, line)
    }
}

/// Each fact of the row holds in the state.
fn hold(facts: &[u8], state: &[u8]) -> bool {
    facts.iter().zip(state).all(|(&fact, &value)| fact == 0 || fact == value + 1)
}

/// Each of the effects stands among what is asked for.
fn idle(effects: &[u8], asked: &[u8]) -> bool {
    effects.iter().zip(asked).all(|(&effect, &asked)| effect == 0 || effect == asked)
}

/// How many classes were seen, a bit each, if they are numbered from 0 and none is missing.
fn gapless(seen: u32) -> Option<u32> {
    let classes = seen.trailing_ones();
    (seen >> classes == 0).then_some(classes)
}

/// Afterwards each fact of the row holds in the state, and all else stays.
fn set(facts: &[u8], state: &mut [u8]) {
    for (&fact, value) in facts.iter().zip(state) {
        if fact != 0 {
            *value = fact - 1;
        }
    }
}

impl<'a> Task<'a> {
    /// The task of lent tables; its counts are those of variables, operators and maps, the edition and the quota.
    pub fn of(counts: [u32; COUNTS], facts: &'a [u8], costs: &'a [u32], shares: &'a [u32]) -> Task<'a> {
        let [.., edition, quota] = counts;
        let [variables, operators, maps, ..] = counts.map(|count| count as usize);
        Task { variables, operators, maps, edition, quota, facts, costs, shares }
    }

    /// Whether tests are stored: edition 2 has a quota and marks, and in edition 1 they aren't read.
    fn counts_tests(&self) -> bool {
        self.edition == 2
    }

    /// The line of the number of operators: it comes after the goal, or after the quota.
    fn operators_line(&self) -> usize {
        if self.counts_tests() {
            7
        } else {
            6
        }
    }

    /// Whether a step of this operator stores a test.
    fn stores(&self, op: usize) -> bool {
        self.counts_tests() && self.facts[MARKS + op] == 1
    }

    /// After so many stored tests a step of this operator keeps the quota.
    fn keeps_quota(&self, stored: u32, op: usize) -> bool {
        stored < self.quota || !self.stores(op)
    }

    /// A row of the facts, as far as there are variables.
    fn row(&self, row: usize) -> &'a [u8] {
        &self.facts[ROW * row..][..self.variables]
    }

    /// The class of each value of a variable in a map; the variable has so many values.
    fn classes(&self, map: usize, variable: usize, values: u8) -> &'a [u8] {
        let row = ROW * (CLASSES + VARIABLES * map + variable);
        &self.facts[row..row + values as usize]
    }

    /// What the operators cost in a map.
    fn shares(&self, map: usize) -> &'a [u32] {
        &self.shares[OPERATORS * map..][..self.operators]
    }

    /// A row of facts names values that the variables have.
    fn row_fits(&self, row: usize) -> bool {
        self.row(row).iter().zip(self.row(VALUES_ROW)).all(|(fact, values)| fact <= values)
    }

    /// The first fault of the tables, at the line that the task's text would have.
    pub fn check(&self) -> Result<(), Refusal> {
        if self.facts.len() < FACTS || self.costs.len() < COSTS || self.shares.len() < SHARES {
            return refuse(8, 0);
        }
        in_range((1..=2).contains(&self.edition), 1)?;
        in_range((1..=VARIABLES).contains(&self.variables), 2)?;
        let values = self.row(VALUES_ROW);
        in_range(values.iter().all(|values| (1..=VALUES).contains(values)), 3)?;
        in_range(self.holds_state(self.row(INITIAL_ROW)), 4)?;
        in_range(self.row_fits(GOAL_ROW), 5)?;
        in_range(!self.counts_tests() || self.quota <= QUOTA, 6)?;
        let line = self.operators_line();
        in_range(self.operators <= OPERATORS, line)?;
        for op in 0..self.operators {
            self.check_operator(op, line + 1 + op)?;
        }
        let line = line + 1 + self.operators;
        in_range((1..=MAPS).contains(&self.maps), line)?;
        for map in 0..self.maps {
            self.check_map(map, line + 1 + map)?;
        }
        self.check_shares(line + 1 + self.maps)
    }

    /// An operator on its line: its numbers in their ranges, and not idle.
    fn check_operator(&self, op: usize, line: usize) -> Result<(), Refusal> {
        let marked = !self.counts_tests() || self.facts[MARKS + op] <= 1;
        in_range(marked && self.costs[op] <= COST && self.row_fits(PRECONDITIONS + op) && self.row_fits(EFFECTS + op), line)?;
        if idle(self.row(EFFECTS + op), self.row(PRECONDITIONS + op)) {
            return refuse(18, line);
        }
        Ok(())
    }

    /// The classes of a map on its line: each in its range, none missing, not too many abstract states.
    fn check_map(&self, map: usize, line: usize) -> Result<(), Refusal> {
        let mut states = 1;
        for (variable, &values) in self.row(VALUES_ROW).iter().enumerate() {
            let mut seen = 0u32;
            for &class in self.classes(map, variable, values) {
                in_range(class < values, line)?;
                seen |= 1 << class;
            }
            match gapless(seen) {
                Some(classes) => states *= classes,
                None => return refuse(5, line),
            }
        }
        if states > STATES {
            return refuse(7, line);
        }
        Ok(())
    }

    /// The shares, from this line on: each in its range, and last of all no operator's total above its cost.
    fn check_shares(&self, line: usize) -> Result<(), Refusal> {
        let mut totals = [0; OPERATORS];
        for map in 0..self.maps {
            let shares = self.shares(map);
            in_range(shares.iter().all(|&share| share <= COST), line + map)?;
            for (total, share) in totals.iter_mut().zip(shares) {
                *total += share;
            }
        }
        match totals.iter().zip(&self.costs[..self.operators]).position(|(total, cost)| total > cost) {
            Some(op) => refuse(6, self.operators_line() + 1 + op),
            None => Ok(()),
        }
    }

    /// Each value is one that its variable has.
    fn holds_state(&self, state: &[u8]) -> bool {
        state.iter().zip(self.row(VALUES_ROW)).all(|(value, values)| value < values)
    }

    /// Judges the tables and then a state to start from, and gives its values, with 0 beyond the variables.
    fn start(&self, state: &[u8]) -> Result<[u8; VARIABLES], Refusal> {
        self.check()?;
        if state.len() < self.variables {
            return refuse(8, 0);
        }
        let state = &state[..self.variables];
        if let Some(variable) = state.iter().zip(self.row(VALUES_ROW)).position(|(value, values)| value >= values) {
            return refuse(9, variable);
        }
        let mut start = [0; VARIABLES];
        start[..self.variables].copy_from_slice(state);
        Ok(start)
    }

    fn may_run(&self, state: &[u8; VARIABLES], op: usize) -> bool {
        hold(self.row(PRECONDITIONS + op), state)
    }

    /// The run is what its start and its log give.
    fn gives(&self, run: &Run) -> bool {
        let steps = run.steps as usize;
        if steps > STEPS {
            return false;
        }
        let (start, beyond) = run.start.split_at(self.variables);
        let (log, unused) = run.log.split_at(steps);
        if !self.holds_state(start) || beyond.iter().any(|&value| value != 0) || unused.iter().any(|&op| op != 0) {
            return false;
        }
        let mut now = Moment::fresh(run.start);
        for &op in log {
            let op = op as usize;
            if op >= self.operators || !self.may_run(&now.state, op) || !self.keeps_quota(now.stored, op) {
                return false;
            }
            now.step(self, op);
        }
        now == run.now
    }
}

impl Moment {
    fn fresh(state: [u8; VARIABLES]) -> Moment {
        Moment { state, paid: [0; MAPS], unshared: 0, stored: 0 }
    }

    /// Runs an operator that may run: its effects hold, its cost is booked, and a test that it stores is counted.
    fn step(&mut self, task: &Task, op: usize) {
        set(task.row(EFFECTS + op), &mut self.state);
        let mut rest = task.costs[op];
        for (map, paid) in self.paid[..task.maps].iter_mut().enumerate() {
            let share = task.shares[OPERATORS * map + op];
            *paid += share;
            rest -= share;
        }
        self.unshared += rest;
        self.stored += u32::from(task.stores(op));
    }
}

impl Run {
    pub fn zeros() -> Run {
        Run::fresh([0; VARIABLES])
    }

    fn fresh(start: [u8; VARIABLES]) -> Run {
        Run { start, log: [0; STEPS], steps: 0, now: Moment::fresh(start) }
    }

    /// Begins a run: the tables are judged, then the state to start from.
    pub fn begin(task: &Task, start: &[u8]) -> Result<Run, Refusal> {
        task.start(start).map(Run::fresh)
    }

    /// Offers a step: its number and its operator. Only an accepted offer moves the run.
    // Not inlined, as the desk's entry can't be: otherwise work that gives the same each time could be taken out of the loop that times it.
    #[inline(never)]
    pub fn offer(&mut self, task: &Task, number: u32, op: u32) -> Result<Answer, Refusal> {
        task.check()?;
        if !task.gives(self) {
            return refuse(17, 0);
        }
        let (place, operator) = (number as usize, op as usize);
        if operator >= task.operators {
            return refuse(10, place);
        }
        if number == 0 || number > self.steps + 1 {
            return refuse(13, place);
        }
        if number <= self.steps {
            return if self.log[place - 1] == op { Ok(Answer::Repeated) } else { refuse(14, place) };
        }
        if place > STEPS {
            return refuse(15, place);
        }
        if !task.may_run(&self.now.state, operator) {
            return refuse(12, place);
        }
        if !task.keeps_quota(self.now.stored, operator) {
            return refuse(19, place);
        }
        self.log[place - 1] = op;
        self.steps = number;
        self.now.step(task, operator);
        Ok(Answer::Accepted)
    }
}
