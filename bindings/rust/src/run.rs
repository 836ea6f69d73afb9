//! A run and its ledger, in memory that the desk is lent.
use crate::{ffi, told, Map, Operator, Refusal, Seconds, State, Step, Task, Tests, REPEATED, STEPS};
use std::convert::TryFrom;

/// The places of a run in memory: bytes for its start and its state now, words for its log, the number of its steps and its columns.
pub const RUN_BYTES: usize = 16;
pub const RUN_WORDS: usize = STEPS + 11;

/// What an offer that was not refused is answered.
#[derive(Clone, Copy, Debug, PartialEq, Eq)]
pub enum Answer {
    /// The step was really run, and is booked.
    Accepted,
    /// The step had been accepted before; nothing moved.
    Repeated,
}

/// A run: where it started, the steps that were really run, where it is now, and what was booked for them.
#[derive(Clone, Debug, PartialEq, Eq)]
pub struct Run {
    bytes: [u8; RUN_BYTES],
    words: [u32; RUN_WORDS],
}

impl Run {
    pub(crate) fn begin(task: ffi::Lent<'_>, start: &[u8]) -> Result<Run, Refusal> {
        let mut run = Run { bytes: [0; RUN_BYTES], words: [0; RUN_WORDS] };
        told(ffi::begin(task, start, &mut run.bytes, &mut run.words))?;
        Ok(run)
    }

    /// A run that was stored. Any contents may be handed in: what no offers could have left is refused with 17 when a step is offered.
    pub fn of_parts(bytes: [u8; RUN_BYTES], words: [u32; RUN_WORDS]) -> Run {
        Run { bytes, words }
    }

    /// The run's memory, to store it.
    pub fn parts(&self) -> (&[u8; RUN_BYTES], &[u32; RUN_WORDS]) {
        (&self.bytes, &self.words)
    }

    /// Offers a step: its number and its operator. A refusal, and a repeat, leave the run as it was: a step that is offered again stores no second test.
    pub fn offer(&mut self, task: &Task, number: Step, op: Operator) -> Result<Answer, Refusal> {
        let (kind, _) = told(ffi::offer(task.lent(), &mut self.bytes, &mut self.words, number.0, op.0))?;
        Ok(if kind == REPEATED { Answer::Repeated } else { Answer::Accepted })
    }

    /// The number of the step that may come next.
    pub fn next(&self) -> Step {
        Step(self.words[STEPS].saturating_add(1))
    }

    /// The operators of the steps that were really run; at most [`STEPS`], whatever was stored.
    pub fn log(&self) -> Vec<Operator> {
        let steps = usize::try_from(self.words[STEPS]).map_or(STEPS, |n| n.min(STEPS));
        self.words[..steps].iter().map(|&op| Operator(op)).collect()
    }

    /// Where the run started, in a task of so many variables.
    pub fn start(&self, task: &Task) -> State {
        State::of(&self.bytes[..task.counts().variables as usize])
    }

    /// Where the run is now.
    pub fn now(&self, task: &Task) -> State {
        State::of(&self.bytes[8..8 + task.counts().variables as usize])
    }

    /// What a map was paid. A number beyond the 8 maps was paid nothing.
    pub fn paid(&self, map: Map) -> Seconds {
        Seconds(if map.0 < 8 { u64::from(self.words[STEPS + 1 + map.0 as usize]) } else { 0 })
    }

    /// What no map was paid.
    pub fn unshared(&self) -> Seconds {
        Seconds(u64::from(self.words[STEPS + 9]))
    }

    /// How many tests were stored: the steps that were really run and whose operators store one.
    pub fn stored(&self) -> Tests {
        Tests(self.words[STEPS + 10])
    }
}
