//! That both sides judge sequences the same.
use super::{beside, Both};
use crate::judging::Passing;
use crate::sides::{Desk, Plain, Side};
use mihaedop::{State, STEPS};

impl Both<'_> {
    pub fn judge(&mut self, start: &State, sequence: &[u32]) -> Result<(), String> {
        let desk = self.desk.judge(start, &Desk::list(sequence));
        let plain = self.plain.judge(start, &Plain::list(sequence));
        self.count(&format!("judging {} steps from {:?}", sequence.len(), start.values()), desk, plain)
    }

    /// The sequence that passes, its opening parts and a step too many; with another operator at some places; and from other states.
    pub fn judging(&mut self, passing: &Passing) -> Result<(), String> {
        let Passing { start, sequence, .. } = passing;
        let mut longer = sequence.clone();
        longer.push(sequence[0]);
        for steps in [0, 1, 2, STEPS / 2, STEPS - 1, STEPS, STEPS + 1] {
            self.judge(start, &longer[..steps])?;
        }
        for place in [0, 1, STEPS / 2, STEPS - 1] {
            for op in self.operators() {
                let mut altered = longer.clone();
                altered[place] = op;
                for steps in [place + 1, STEPS, STEPS + 1] {
                    self.judge(start, &altered[..steps])?;
                }
            }
        }
        for start in others(start.values()) {
            for list in [&[], &sequence[..], &longer[..]] {
                self.judge(&start, list)?;
            }
        }
        Ok(())
    }
}

/// States with another value, with a place too few or none at all, and with one too many, which isn't read.
fn others(values: &[u8]) -> Vec<State> {
    let mut others = Vec::new();
    for (variable, &was) in values.iter().enumerate() {
        for value in beside(was) {
            let mut altered = values.to_vec();
            altered[variable] = value;
            others.push(State::of(&altered));
        }
    }
    let longer = [values, &[u8::MAX]].concat();
    others.extend([0, values.len() - 1, values.len() + 1].map(|places| State::of(&longer[..places])));
    others
}
