//! The sequence desk for Rust: a task read from its text, whole or in pieces, and written back, the least bench seconds any sequence still needs and the best step in a
//! view, sequences judged, and a run with its ledger and its stored tests.
//!
//! Everything here goes to the proved desk (`libdesk_c.a`, x86-64 Linux) and comes back as it answered; this crate only gives the numbers types that can't be mixed up.
//! A [`Refusal`] carries the desk's number and place, and then nothing was altered. What the desk's answers mean, and what is proved of them, is in the repository's
//! docs/PROMISES.md; what to do about a refusal at the bench is in docs/REFUSALS.md.
mod ffi;
mod reading;
mod refusal;
mod run;

pub use reading::{Reading, AREA, TEXT_WORDS};
pub use refusal::{Place, Refusal};
pub use run::{Answer, Run, RUN_BYTES, RUN_WORDS};
use std::fmt;

/// The places of a task's row of counts, and of its tables.
pub const COUNTS: usize = 5;
pub const FACTS: usize = 1624;
pub const COSTS: usize = 64;
pub const SHARES: usize = 512;

/// Where the marks of the operators begin in the facts, a place each: in edition 2 it is 1 if the operator stores a test, else 0.
pub const MARKS: usize = 1560;

/// The highest quota.
pub const QUOTA: u32 = 1024;

/// The bytes of a buffer for a task's text, whatever the task; no task's text has more than 10,588.
pub const TEXT: usize = 16384;

/// The places of a table of distances, and of one of best steps.
pub const DISTANCES: usize = 4096;
pub const BEST_STEPS: usize = 4096;

/// The most steps of a sequence or a run.
pub const STEPS: usize = 1024;

/// In a table of distances: none.
pub const NO_DISTANCE: u32 = u32::MAX;

/// In a table of best steps: none; no task has an operator of that number.
pub const NO_STEP: u8 = 255;

/// An operator's number, from 0.
#[derive(Clone, Copy, Debug, PartialEq, Eq, PartialOrd, Ord, Hash)]
#[repr(transparent)]
pub struct Operator(pub u32);

/// A map's number, from 0.
#[derive(Clone, Copy, Debug, PartialEq, Eq, PartialOrd, Ord, Hash)]
pub struct Map(pub u32);

/// A step's number, from 1.
#[derive(Clone, Copy, Debug, PartialEq, Eq, PartialOrd, Ord, Hash)]
pub struct Step(pub u32);

/// Bench seconds.
#[derive(Clone, Copy, Debug, PartialEq, Eq, PartialOrd, Ord, Hash)]
pub struct Seconds(pub u64);

/// A number of stored tests.
#[derive(Clone, Copy, Debug, PartialEq, Eq, PartialOrd, Ord, Hash)]
pub struct Tests(pub u32);

/// The rounds after which a map's distances are settled.
#[derive(Clone, Copy, Debug, PartialEq, Eq, PartialOrd, Ord, Hash)]
pub struct Rounds(pub u32);

/// How many variables, operators and maps a task has, its edition, and its quota: how many tests a sequence or a run may store. In edition 1 the quota isn't read.
#[derive(Clone, Copy, Debug, PartialEq, Eq, Hash)]
pub struct Counts {
    pub variables: u32,
    pub operators: u32,
    pub maps: u32,
    pub edition: u32,
    pub quota: u32,
}

/// A state: a value for each variable. Any bytes may be one; the desk judges it.
#[derive(Clone, Debug, PartialEq, Eq, Hash)]
pub struct State(Vec<u8>);

/// Which of two lists is the cheaper, with the seconds up to its first goal moment.
#[derive(Clone, Copy, Debug, PartialEq, Eq)]
pub enum Cheaper {
    First(Seconds),
    Second(Seconds),
    Neither,
}

/// A task, as its row of counts and its tables.
#[derive(Clone)]
pub struct Task {
    counts: [u32; COUNTS],
    facts: [u8; FACTS],
    costs: [u32; COSTS],
    shares: [u32; SHARES],
}

// The kinds of answers that are no refusals, but for 0: done.
const NONE: u8 = 128;
const REPEATED: u8 = 129;
const FIRST: u8 = 130;
const SECOND: u8 = 131;

/// An answer's word taken apart: its kind and its number, or the refusal that it is.
fn told(word: u64) -> Result<(u8, u64), Refusal> {
    let (kind, number) = (word as u8, word >> 8);
    match kind {
        1..=127 => Err(Refusal::new(kind, number as u32)),
        _ => Ok((kind, number)),
    }
}

/// A number of seconds, or none.
fn seconds(word: u64) -> Result<Option<Seconds>, Refusal> {
    let (kind, number) = told(word)?;
    Ok(if kind == NONE { None } else { Some(Seconds(number)) })
}

/// The numbers of the operators of a list: `Operator` is one number and nothing else, so the list is one of numbers.
fn numbers(list: &[Operator]) -> &[u32] {
    // `Operator` is `repr(transparent)` over `u32`.
    unsafe { std::slice::from_raw_parts(list.as_ptr().cast(), list.len()) }
}

/// Reads a task's text into lent tables of at least [`FACTS`], [`COSTS`] and [`SHARES`] places: its counts. Every place beyond the task's own is 0 then.
pub fn read(text: &[u8], facts: &mut [u8], costs: &mut [u32], shares: &mut [u32]) -> Result<Counts, Refusal> {
    let mut row = [0; COUNTS];
    told(ffi::read(text, &mut row, facts, costs, shares))?;
    Ok(Counts::of_row(row))
}

/// Writes the text of tables, in their edition, into a lent buffer of at least [`TEXT`] bytes: the text's length. Faulty tables are refused as by [`check`].
///
/// The bytes after the text are as they were. Places of the tables beyond the task's own aren't read, in edition 1 the quota and the marks neither: with whatever they
/// hold, the text is the same.
pub fn write(counts: Counts, facts: &[u8], costs: &[u32], shares: &[u32], buffer: &mut [u8]) -> Result<usize, Refusal> {
    told(ffi::write(ffi::Lent { counts: &counts.row(), facts, costs, shares }, buffer)).map(|(_, length)| length as usize)
}

/// Checks counts and tables by the rules of the text: they are a task's, or the first fault with the line that the same task's text would have.
pub fn check(counts: Counts, facts: &[u8], costs: &[u32], shares: &[u32]) -> Result<(), Refusal> {
    told(ffi::check(ffi::Lent { counts: &counts.row(), facts, costs, shares })).map(|_| ())
}

impl Counts {
    /// The counts that stand in a row.
    pub fn of_row([variables, operators, maps, edition, quota]: [u32; COUNTS]) -> Counts {
        Counts { variables, operators, maps, edition, quota }
    }

    /// The row, as the desk is lent it.
    pub fn row(self) -> [u32; COUNTS] {
        [self.variables, self.operators, self.maps, self.edition, self.quota]
    }
}

impl State {
    /// The state with these values.
    pub fn of(values: &[u8]) -> State {
        State(values.to_vec())
    }

    /// The values of the variables.
    pub fn values(&self) -> &[u8] {
        &self.0
    }
}

impl Task {
    /// Reads a task's text. One that comes in pieces is read by a [`Reading`].
    pub fn read(text: &[u8]) -> Result<Task, Refusal> {
        let mut facts = [0; FACTS];
        let mut costs = [0; COSTS];
        let mut shares = [0; SHARES];
        let counts = read(text, &mut facts, &mut costs, &mut shares)?.row();
        Ok(Task { counts, facts, costs, shares })
    }

    /// The task of tables that were made otherwise, once the desk has checked them.
    pub fn of_tables(counts: Counts, facts: [u8; FACTS], costs: [u32; COSTS], shares: [u32; SHARES]) -> Result<Task, Refusal> {
        check(counts, &facts, &costs, &shares)?;
        Ok(Task { counts: counts.row(), facts, costs, shares })
    }

    /// Its text; each task has one. [`Task::read`] gives the same counts and tables for it, with 0 in every place beyond the task's own (in edition 1 for the quota and the
    /// marks too), and a task that was read has the text that was read.
    ///
    /// There is nothing to refuse: a `Task` has tables that the desk has accepted, and [`write()`] refuses just what [`check`] refuses and a buffer of less than [`TEXT`] bytes.
    pub fn to_text(&self) -> Vec<u8> {
        let mut buffer = [0; TEXT];
        let length = write(self.counts(), &self.facts, &self.costs, &self.shares, &mut buffer).expect("tables that the desk has accepted");
        buffer[..length].to_vec()
    }

    /// How many variables, operators and maps it has, its edition and its quota.
    pub fn counts(&self) -> Counts {
        Counts::of_row(self.counts)
    }

    /// Its edition, 1 or 2.
    pub fn edition(&self) -> u32 {
        self.counts().edition
    }

    /// How many tests a sequence or a run may store; none is told in edition 1, in which no operator stores one.
    pub fn quota(&self) -> Option<Tests> {
        (self.edition() == 2).then(|| Tests(self.counts().quota))
    }

    /// Whether each step of this operator stores a test. In edition 1 none does, nor does an operator that the task hasn't.
    pub fn stores(&self, op: Operator) -> bool {
        self.edition() == 2 && op.0 < self.counts().operators && self.facts[MARKS + op.0 as usize] == 1
    }

    /// Its tables, as the desk is lent them: facts, costs and shares.
    pub fn tables(&self) -> (&[u8; FACTS], &[u32; COSTS], &[u32; SHARES]) {
        (&self.facts, &self.costs, &self.shares)
    }

    /// Its initial state: the second row of the facts.
    pub fn initial(&self) -> State {
        State::of(&self.facts[8..8 + self.counts().variables as usize])
    }

    fn lent(&self) -> ffi::Lent<'_> {
        ffi::Lent { counts: &self.counts, facts: &self.facts, costs: &self.costs, shares: &self.shares }
    }

    /// The distances of a map at all its abstract states, into a table of at least [`DISTANCES`] places ([`NO_DISTANCE`] for none); and the best step at each, into one of at
    /// least [`BEST_STEPS`] places ([`NO_STEP`] for none). Places beyond the map are left alone. The quota counts for nothing here, nor in a distance, a best step or a bound.
    ///
    /// The best step is an operator's number: of the sequences that cost the distance those with fewest steps, and of their first operators the lowest. There is none at a
    /// goal of the map's view, and where the distance is none. Followed in the view the best steps come to a goal and cost exactly the distance, also where loops cost 0:
    ///
    /// ```
    /// use mihaedop::{Map, Rounds, Task, BEST_STEPS, DISTANCES, NO_STEP};
    ///
    /// // 0 and 1 lead from the first value to the second and back for nothing; 2 goes on to the goal.
    /// let task = Task::read(b"edition=1\nvars=1\ndom=3\ninit=0\ngoal=0:2\nops=3\nop=0;0:0;0:1\nop=0;0:1;0:0\nop=5;0:1;0:2\nmaps=1\nmap=0,1,2\nshare=0,0,5\n")?;
    /// let (mut distances, mut best) = ([0; DISTANCES], [0; BEST_STEPS]);
    /// assert_eq!(task.distances(Map(0), &mut distances, &mut best)?, Rounds(3));
    /// assert_eq!((&distances[..3], &best[..3]), (&[5, 5, 0][..], &[0, 2, NO_STEP][..]));
    /// # Ok::<(), mihaedop::Refusal>(())
    /// ```
    pub fn distances(&self, map: Map, distances: &mut [u32], best: &mut [u8]) -> Result<Rounds, Refusal> {
        told(ffi::distances(self.lent(), map.0, distances, best)).map(|(_, rounds)| Rounds(rounds as u32))
    }

    /// The distance of a state's image in one map, or none.
    pub fn distance_at(&self, map: Map, state: &State) -> Result<Option<Seconds>, Refusal> {
        seconds(ffi::distance_at(self.lent(), map.0, &state.0))
    }

    /// The best step of a state's image in one map, or none: at a goal of the map's view, and where the distance is none.
    ///
    /// In the view the operator may run; in the state itself it need not.
    pub fn best_at(&self, map: Map, state: &State) -> Result<Option<Operator>, Refusal> {
        let (kind, op) = told(ffi::best_at(self.lent(), map.0, &state.0))?;
        Ok(if kind == NONE { None } else { Some(Operator(op as u32)) })
    }

    /// The summed bound of a state: at most the cost of every sequence from there to the goal. None exactly if at least one map says none: then there is no such sequence.
    ///
    /// Asked at [`Run::now`] it falls, from one moment of a run to any later one, by at most what the maps were paid in between; from none it doesn't come back.
    pub fn bound(&self, state: &State) -> Result<Option<Seconds>, Refusal> {
        seconds(ffi::bound(self.lent(), &state.0))
    }

    /// Judges a sequence from a state: its cost, if every step may run, no more tests are stored than the quota, and the end meets the goal.
    pub fn judge(&self, state: &State, list: &[Operator]) -> Result<Seconds, Refusal> {
        told(ffi::judge(self.lent(), &state.0, numbers(list))).map(|(_, cost)| Seconds(cost))
    }

    /// The cheaper of two lists, each judged up to the first moment a goal holds, and each with the whole quota; equal costs name the first.
    pub fn cheaper(&self, state: &State, a: &[Operator], b: &[Operator]) -> Result<Cheaper, Refusal> {
        let (kind, cost) = told(ffi::cheaper(self.lent(), &state.0, numbers(a), numbers(b)))?;
        Ok(match kind {
            FIRST => Cheaper::First(Seconds(cost)),
            SECOND => Cheaper::Second(Seconds(cost)),
            _ => Cheaper::Neither,
        })
    }

    /// The opening part of the cheaper list, up to its first goal moment; the empty part of the first list for neither, and for a refused state.
    pub fn opening<'a>(&self, state: &State, a: &'a [Operator], b: &'a [Operator]) -> &'a [Operator] {
        match told(ffi::opening(self.lent(), &state.0, numbers(a), numbers(b))) {
            Ok((SECOND, steps)) => &b[..steps as usize],
            Ok((_, steps)) => &a[..steps as usize],
            Err(_) => &a[..0],
        }
    }

    /// Begins a run from a state.
    pub fn begin(&self, start: &State) -> Result<Run, Refusal> {
        Run::begin(self.lent(), &start.0)
    }
}

impl fmt::Display for Seconds {
    fn fmt(&self, f: &mut fmt::Formatter<'_>) -> fmt::Result {
        self.0.fmt(f)
    }
}

impl fmt::Display for Tests {
    fn fmt(&self, f: &mut fmt::Formatter<'_>) -> fmt::Result {
        self.0.fmt(f)
    }
}
