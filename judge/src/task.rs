//! A task as source document 001 has it: variables, initial state, goal, operators; and its maps and shares.

/// A partial assignment: for each variable a value or nothing.
pub type Facts = Vec<Option<usize>>;
/// A total assignment.
pub type State = Vec<usize>;

/// A refusal: the number and the place.
#[derive(Clone, Copy, Debug, PartialEq, Eq)]
pub struct Fault {
    pub number: u32,
    pub place: u32,
}

pub fn refuse<T>(number: u32, place: usize) -> Result<T, Fault> {
    Err(Fault { number, place: place as u32 })
}

#[derive(Clone, Debug, PartialEq, Eq)]
pub struct Op {
    pub cost: u64,
    pub pre: Facts,
    pub eff: Facts,
    /// It stores a test; none of a task of edition 1 does.
    pub stores: bool,
}

impl Op {
    /// An operator that stores no test.
    pub fn new(cost: u64, pre: Facts, eff: Facts) -> Op {
        Op { cost, pre, eff, stores: false }
    }

    /// It has no effects, or each of them stands among its preconditions.
    pub fn is_idle(&self) -> bool {
        self.eff.iter().zip(&self.pre).all(|(effect, asked)| effect.is_none() || effect == asked)
    }
}

#[derive(Clone, Debug, PartialEq, Eq)]
pub struct Task {
    /// the number of values of each variable
    pub dom: Vec<usize>,
    pub init: State,
    pub goal: Facts,
    /// in edition 2 how many tests may be stored; edition 1 has no quota
    pub quota: Option<usize>,
    pub ops: Vec<Op>,
    /// the class of value k of variable v in map m is `maps[m][v][k]`
    pub maps: Vec<Vec<Vec<usize>>>,
    /// the share of operator o in map m is `shares[m][o]`
    pub shares: Vec<Vec<u64>>,
}

/// Each fact of the list holds in the state.
pub fn complies(facts: &Facts, state: &State) -> bool {
    facts.iter().zip(state).all(|(fact, value)| fact.is_none() || *fact == Some(*value))
}

impl Task {
    pub fn may_run(&self, o: usize, state: &State) -> bool {
        complies(&self.ops[o].pre, state)
    }

    /// Each effect holds afterwards and all else stays.
    pub fn after(&self, o: usize, state: &State) -> State {
        let eff = &self.ops[o].eff;
        state.iter().zip(eff).map(|(value, fact)| fact.unwrap_or(*value)).collect()
    }

    pub fn at_goal(&self, state: &State) -> bool {
        complies(&self.goal, state)
    }

    pub fn edition(&self) -> usize {
        1 + usize::from(self.quota.is_some())
    }

    /// The operator would store a test, and as many as the quota are stored already.
    pub fn is_past_quota(&self, o: usize, stored: usize) -> bool {
        self.ops[o].stores && self.quota.map_or(false, |quota| stored >= quota)
    }

    /// What no map pays of the operator.
    pub fn unshared(&self, o: usize) -> u64 {
        let paid: u64 = self.shares.iter().map(|row| row[o]).sum();
        self.ops[o].cost - paid
    }

    /// The line of operator o in the task's text; one higher where a quota stands before.
    pub fn line_of_op(&self, o: usize) -> usize {
        6 + self.edition() + o
    }
}
