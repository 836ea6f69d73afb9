//! The two sides by one face: the desk, through the library for C, and the baseline. Both are asked by the same code.
use crate::plain;
use mihaedop::{Answer, Counts, Map, Operator, Reading, Refusal, Run, State, Step, Task, COUNTS, RUN_BYTES, RUN_WORDS, STEPS};

/// What a side answers.
#[derive(Clone, Copy, Debug, PartialEq, Eq)]
pub enum Told {
    Accepted,
    Repeated,
    Cost(u64),
    Rounds(u32),
    Counts([u32; COUNTS]),
    Length(usize),
    Taken,
    Refused { number: u8, place: u32 },
}

/// A run as the desk is lent it: bytes and words.
pub type Parts = ([u8; RUN_BYTES], [u32; RUN_WORDS]);

pub trait Side {
    type Run;

    /// A sequence as this side is lent it.
    type List;

    /// A text as this side takes it in pieces.
    type SoFar: Pieces;

    /// A fresh run from the task's initial state.
    fn begin(&self) -> Self::Run;

    fn offer(&self, run: &mut Self::Run, number: u32, op: u32) -> Told;

    fn of_parts(parts: &Parts) -> Self::Run;

    fn parts(run: &Self::Run) -> Parts;

    fn list(sequence: &[u32]) -> Self::List;

    fn judge(&self, start: &State, list: &Self::List) -> Told;

    /// The distances of a map into a table, and its best steps into another.
    fn distances(&self, map: u32, table: &mut [u32], best: &mut [u8]) -> Told;

    /// Reads any text into tables.
    fn read(text: &[u8], facts: &mut [u8], costs: &mut [u32], shares: &mut [u32]) -> Told;

    /// Writes the text of any tables into a buffer.
    fn write(counts: [u32; COUNTS], facts: &[u8], costs: &[u32], shares: &[u32], buffer: &mut [u8]) -> Told;
}

/// A text so far, as a side takes it in pieces; the same memory serves one text after another.
pub trait Pieces {
    fn new() -> Self;

    /// Another text begins.
    fn begin_again(&mut self);

    fn take(&mut self, piece: &[u8]) -> Told;

    /// The text has ended, and is read into tables.
    fn end(&mut self, facts: &mut [u8], costs: &mut [u32], shares: &mut [u32]) -> Told;
}

/// The desk with a task that it has read.
pub struct Desk {
    pub task: Task,
    start: State,
}

/// The baseline with the tables of the same task.
pub struct Plain<'a> {
    pub task: plain::Task<'a>,
    start: State,
}

impl Desk {
    pub fn of(task: Task) -> Desk {
        let start = task.initial();
        Desk { task, start }
    }
}

impl<'a> Plain<'a> {
    pub fn of(task: &'a Task) -> Plain<'a> {
        let (facts, costs, shares) = task.tables();
        Plain { task: plain::Task::of(task.counts().row(), facts, costs, shares), start: task.initial() }
    }
}

/// A refusal of the desk.
pub fn refused(refusal: Refusal) -> Told {
    Told::Refused { number: refusal.number(), place: refusal.place_number() }
}

/// A refusal of the baseline.
pub fn plainly_refused(refusal: plain::Refusal) -> Told {
    Told::Refused { number: refusal.number, place: refusal.place }
}

impl Side for Desk {
    type Run = Run;
    type List = Vec<Operator>;
    type SoFar = Reading;

    fn begin(&self) -> Run {
        self.task.begin(&self.start).expect("the initial state is a start")
    }

    fn offer(&self, run: &mut Run, number: u32, op: u32) -> Told {
        match run.offer(&self.task, Step(number), Operator(op)) {
            Ok(Answer::Accepted) => Told::Accepted,
            Ok(Answer::Repeated) => Told::Repeated,
            Err(refusal) => refused(refusal),
        }
    }

    fn of_parts((bytes, words): &Parts) -> Run {
        Run::of_parts(*bytes, *words)
    }

    fn parts(run: &Run) -> Parts {
        let (bytes, words) = run.parts();
        (*bytes, *words)
    }

    fn list(sequence: &[u32]) -> Vec<Operator> {
        sequence.iter().map(|&op| Operator(op)).collect()
    }

    fn judge(&self, start: &State, list: &Vec<Operator>) -> Told {
        self.task.judge(start, list).map_or_else(refused, |cost| Told::Cost(cost.0))
    }

    fn distances(&self, map: u32, table: &mut [u32], best: &mut [u8]) -> Told {
        self.task.distances(Map(map), table, best).map_or_else(refused, |rounds| Told::Rounds(rounds.0))
    }

    fn read(text: &[u8], facts: &mut [u8], costs: &mut [u32], shares: &mut [u32]) -> Told {
        mihaedop::read(text, facts, costs, shares).map_or_else(refused, |counts| Told::Counts(counts.row()))
    }

    fn write(counts: [u32; COUNTS], facts: &[u8], costs: &[u32], shares: &[u32], buffer: &mut [u8]) -> Told {
        mihaedop::write(Counts::of_row(counts), facts, costs, shares, buffer).map_or_else(refused, Told::Length)
    }
}

impl Side for Plain<'_> {
    type Run = plain::Run;
    type List = Vec<u32>;
    type SoFar = plain::Stepping;

    fn begin(&self) -> plain::Run {
        plain::Run::begin(&self.task, self.start.values()).expect("the initial state is a start")
    }

    fn offer(&self, run: &mut plain::Run, number: u32, op: u32) -> Told {
        match run.offer(&self.task, number, op) {
            Ok(plain::Answer::Accepted) => Told::Accepted,
            Ok(plain::Answer::Repeated) => Told::Repeated,
            Err(refusal) => plainly_refused(refusal),
        }
    }

    fn of_parts((bytes, words): &Parts) -> plain::Run {
        let mut run = plain::Run::zeros();
        run.start.copy_from_slice(&bytes[..8]);
        run.now.state.copy_from_slice(&bytes[8..]);
        run.log.copy_from_slice(&words[..STEPS]);
        run.steps = words[STEPS];
        run.now.paid.copy_from_slice(&words[STEPS + 1..STEPS + 9]);
        run.now.unshared = words[STEPS + 9];
        run.now.stored = words[STEPS + 10];
        run
    }

    fn parts(run: &plain::Run) -> Parts {
        let (mut bytes, mut words) = ([0; RUN_BYTES], [0; RUN_WORDS]);
        bytes[..8].copy_from_slice(&run.start);
        bytes[8..].copy_from_slice(&run.now.state);
        words[..STEPS].copy_from_slice(&run.log);
        words[STEPS] = run.steps;
        words[STEPS + 1..STEPS + 9].copy_from_slice(&run.now.paid);
        words[STEPS + 9] = run.now.unshared;
        words[STEPS + 10] = run.now.stored;
        (bytes, words)
    }

    fn list(sequence: &[u32]) -> Vec<u32> {
        sequence.to_vec()
    }

    fn judge(&self, start: &State, list: &Vec<u32>) -> Told {
        self.task.judge(start.values(), list).map_or_else(plainly_refused, |cost| Told::Cost(cost.into()))
    }

    fn distances(&self, map: u32, table: &mut [u32], best: &mut [u8]) -> Told {
        self.task.distances(map, table, best).map_or_else(plainly_refused, Told::Rounds)
    }

    fn read(text: &[u8], facts: &mut [u8], costs: &mut [u32], shares: &mut [u32]) -> Told {
        plain::read(text, facts, costs, shares).map_or_else(plainly_refused, Told::Counts)
    }

    fn write(counts: [u32; COUNTS], facts: &[u8], costs: &[u32], shares: &[u32], buffer: &mut [u8]) -> Told {
        plain::Task::of(counts, facts, costs, shares).write(buffer).map_or_else(plainly_refused, Told::Length)
    }
}

impl Pieces for Reading {
    fn new() -> Reading {
        Reading::new()
    }

    fn begin_again(&mut self) {
        Reading::begin_again(self);
    }

    fn take(&mut self, piece: &[u8]) -> Told {
        Reading::take(self, piece).map_or_else(refused, |()| Told::Taken)
    }

    fn end(&mut self, facts: &mut [u8], costs: &mut [u32], shares: &mut [u32]) -> Told {
        self.end_into(facts, costs, shares).map_or_else(refused, |counts| Told::Counts(counts.row()))
    }
}

impl Pieces for plain::Stepping {
    fn new() -> plain::Stepping {
        plain::Stepping::new()
    }

    fn begin_again(&mut self) {
        *self = plain::Stepping::new();
    }

    fn take(&mut self, piece: &[u8]) -> Told {
        plain::Stepping::take(self, piece).map_or_else(plainly_refused, |()| Told::Taken)
    }

    fn end(&mut self, facts: &mut [u8], costs: &mut [u32], shares: &mut [u32]) -> Told {
        plain::Stepping::end(self, facts, costs, shares).map_or_else(plainly_refused, Told::Counts)
    }
}

impl Pieces for plain::Gathering {
    fn new() -> plain::Gathering {
        plain::Gathering::new()
    }

    fn begin_again(&mut self) {
        plain::Gathering::begin_again(self);
    }

    fn take(&mut self, piece: &[u8]) -> Told {
        plain::Gathering::take(self, piece).map_or_else(plainly_refused, |()| Told::Taken)
    }

    fn end(&mut self, facts: &mut [u8], costs: &mut [u32], shares: &mut [u32]) -> Told {
        plain::Gathering::end(self, facts, costs, shares).map_or_else(plainly_refused, Told::Counts)
    }
}
