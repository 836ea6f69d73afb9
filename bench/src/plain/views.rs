//! The baseline works out the distances and best steps of a map: every abstract state is swept, round after round, until nothing changes.
use super::{hold, refuse, set, Refusal, Task, EFFECTS, GOAL_ROW, PRECONDITIONS, VALUES_ROW, VARIABLES};
use mihaedop::{BEST_STEPS, DISTANCES, NO_DISTANCE, NO_STEP};
use std::mem::swap;

/// A place for each variable: an abstract state has its classes there, and seen facts have 0 for nothing and k + 1 for the class k, as the tables have them for values.
/// Beyond the variables it is 0.
type Row = [u8; VARIABLES];

/// The task that a map shows: classes for values, the map's shares for costs.
struct View {
    /// How many classes each variable has; 1 beyond the variables.
    classes: [usize; VARIABLES],
    /// The abstract states in the order of their numbers.
    states: Vec<Row>,
    goal: Row,
    operators: Vec<Operator>,
}

struct Operator {
    preconditions: Row,
    effects: Row,
    share: u32,
}

impl Task<'_> {
    /// The distances of a map into a table, its best steps into another, and the number of rounds. Places beyond the map are left alone.
    // Not inlined, as `Run::offer` isn't.
    #[inline(never)]
    pub fn distances(&self, map: u32, table: &mut [u32], best: &mut [u8]) -> Result<u32, Refusal> {
        if table.len() < DISTANCES || best.len() < BEST_STEPS {
            return refuse(8, 0);
        }
        self.check()?;
        let map = map as usize;
        if map >= self.maps {
            return refuse(3, 0);
        }
        let view = View::of(self, map);
        let mut distances = view.without_steps();
        let mut further = distances.clone();
        let mut noted = vec![NO_STEP; distances.len()];
        let mut rounds = 1;
        loop {
            view.sweep(&distances, &mut further, &mut noted);
            if further == distances {
                break;
            }
            swap(&mut distances, &mut further);
            rounds += 1;
        }
        table[..distances.len()].copy_from_slice(&distances);
        best[..noted.len()].copy_from_slice(&noted);
        Ok(rounds)
    }

    /// How many abstract states a map has.
    pub fn states(&self, map: u32) -> usize {
        counted(&self.map(map as usize)).iter().product()
    }

    /// A map: for each variable the class of each of its values.
    fn map(&self, map: usize) -> Vec<&[u8]> {
        self.row(VALUES_ROW).iter().enumerate().map(|(variable, &values)| self.classes(map, variable, values)).collect()
    }
}

impl View {
    fn of(task: &Task, map: usize) -> View {
        let classes = task.map(map);
        let seen = |row| seen(task.row(row), &classes);
        let operator = |(op, &share)| Operator { preconditions: seen(PRECONDITIONS + op), effects: seen(EFFECTS + op), share };
        let operators = task.shares(map).iter().enumerate().map(operator).collect();
        let goal = seen(GOAL_ROW);
        let classes = counted(&classes);
        let states = (0..classes.iter().product()).map(|number| numbered(number, &classes)).collect();
        View { classes, states, goal, operators }
    }

    /// The number of a state.
    fn number(&self, state: &Row) -> usize {
        self.classes.iter().zip(state).rev().fold(0, |number, (classes, &class)| number * classes + class as usize)
    }

    /// The distances where no step is allowed: 0 at the goals, else none.
    fn without_steps(&self) -> Vec<u32> {
        self.states.iter().map(|state| if hold(&self.goal, state) { 0 } else { NO_DISTANCE }).collect()
    }

    /// A round: the distances with one step more than those before. Where one falls, the lowest operator that makes it as low is noted. It falls for the last time in the
    /// round that has as many steps as the cheapest way takes at least, so that what is noted then is the best step.
    fn sweep(&self, before: &[u32], further: &mut [u32], noted: &mut [u8]) {
        for (((state, &distance), least), noted) in self.states.iter().zip(before).zip(further).zip(noted) {
            // Not written to the tables at each fall: so the largest task took nearly twice as long.
            let (mut cost, mut pick) = (distance, *noted);
            for (number, op) in (0..).zip(&self.operators) {
                if hold(&op.preconditions, state) {
                    let mut after = *state;
                    set(&op.effects, &mut after);
                    let rest = before[self.number(&after)];
                    // It fits: no distance is above 4,095,000,000, and no share above 1,000,000.
                    if rest != NO_DISTANCE && op.share + rest < cost {
                        (cost, pick) = (op.share + rest, number);
                    }
                }
            }
            (*least, *noted) = (cost, pick);
        }
    }
}

/// How many classes each variable has, in a map without faults: they are numbered from 0, and none is missing.
fn counted(classes: &[&[u8]]) -> [usize; VARIABLES] {
    let mut counts = [1; VARIABLES];
    for (count, classes) in counts.iter_mut().zip(classes) {
        *count += classes.iter().copied().max().map_or(0, usize::from);
    }
    counts
}

/// A row of facts, seen by a map's classes.
fn seen(facts: &[u8], classes: &[&[u8]]) -> Row {
    let mut seen = [0; VARIABLES];
    for ((seen, &fact), classes) in seen.iter_mut().zip(facts).zip(classes) {
        if fact != 0 {
            *seen = classes[fact as usize - 1] + 1;
        }
    }
    seen
}

/// The state of a number: variable 0 changes fastest.
fn numbered(mut number: usize, classes: &[usize; VARIABLES]) -> Row {
    classes.map(|classes| {
        let class = number % classes;
        number /= classes;
        class as u8
    })
}
