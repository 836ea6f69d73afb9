//! Judging a sequence that passes, of as many steps as there can be: every step is looked at, and then the goal.
use crate::shift::sequence;
use crate::sides::{Desk, Plain, Side, Told};
use crate::timing::{tell, timed};
use mihaedop::{Counts, State, RUN_BYTES, STEPS};

/// A sequence that passes, and what it costs.
pub struct Passing {
    pub start: State,
    pub sequence: Vec<u32>,
    cost: Told,
}

impl Passing {
    /// The operators in their order, over and over, from the first moment of the shift on from which they end at the goal; the moments before each operator's first step
    /// are tried, and a side is asked.
    pub fn of<S: Side>(side: &S, counts: Counts) -> Result<Passing, String> {
        let mut run = side.begin();
        for first in 0..counts.operators {
            let start = State::of(&S::parts(&run).0[RUN_BYTES / 2..][..counts.variables as usize]);
            let sequence = sequence(counts.operators, first);
            let cost = side.judge(&start, &S::list(&sequence));
            if let Told::Cost(_) = cost {
                return Ok(Passing { start, sequence, cost });
            }
            if side.offer(&mut run, first + 1, first) != Told::Accepted {
                break;
            }
        }
        Err(format!("the operators in their order don't end at the goal after {STEPS} steps, whichever of them comes first"))
    }

    /// The work of judging it.
    pub fn judging<'a, S: Side>(&'a self, side: &'a S) -> impl FnMut() + 'a
    where
        S::List: 'a,
    {
        let list = S::list(&self.sequence);
        move || assert_eq!(side.judge(&self.start, &list), self.cost)
    }
}

pub fn measure(name: &str, desk: &Desk, plain: &Plain) -> Result<(), String> {
    let passing = Passing::of(plain, desk.task.counts())?;
    tell(name, &format!("judging a sequence of {STEPS} steps that passes"), timed(passing.judging(desk), passing.judging(plain)));
    Ok(())
}
