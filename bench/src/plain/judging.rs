//! The baseline judges a sequence: the state is taken through its steps, the cost summed up, and the stored tests counted.
use super::{hold, refuse, set, Refusal, Task, EFFECTS, GOAL_ROW};
use mihaedop::STEPS;

impl Task<'_> {
    /// Judges a sequence from a state, once tables and state are judged: its cost, if every step may run and keeps the quota and the end meets the goal.
    // Not inlined, as `Run::offer` isn't.
    #[inline(never)]
    pub fn judge(&self, start: &[u8], sequence: &[u32]) -> Result<u32, Refusal> {
        let mut state = self.start(start)?;
        if sequence.len() > STEPS {
            return refuse(11, 0);
        }
        let (mut cost, mut stored) = (0, 0);
        for (step, &op) in (1..).zip(sequence) {
            let op = op as usize;
            if op >= self.operators {
                return refuse(10, step);
            }
            if !self.may_run(&state, op) {
                return refuse(12, step);
            }
            if !self.keeps_quota(stored, op) {
                return refuse(19, step);
            }
            set(self.row(EFFECTS + op), &mut state);
            cost += self.costs[op];
            stored += u32::from(self.stores(op));
        }
        if !hold(self.row(GOAL_ROW), &state) {
            return refuse(16, sequence.len());
        }
        Ok(cost)
    }
}
