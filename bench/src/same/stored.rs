//! That both sides count stored tests the same, whatever edition the task is of: in edition 2 with other marks and quotas, and in edition 1 with a quota and marks that
//! aren't read.
use super::Both;
use crate::judging::Passing;
use crate::shift::sequence;
use crate::sides::{Desk, Parts, Side, Told};
use crate::tables::Tables;
use mihaedop::{COSTS, FACTS, QUOTA, SHARES};

/// Which operators store a test: all of them, the first alone, every other one, none.
const MARKED: [fn(u32) -> bool; 4] = [|_| true, |op| op == 0, |op| op % 2 == 1, |_| false];

/// What is read for a quota.
const QUOTAS: [&str; 12] = ["", "-", "0", "00", "1", "01", "1023", "1024", "1025", "01025", "10240", "4294967297"];

impl Both<'_> {
    /// For each way to mark the operators quotas below, at and above what the shift stores; faulty marks and quotas.
    pub fn stored(&mut self, passing: &Passing) -> Result<(), String> {
        let whole = Tables::of(&self.desk.task);
        let shift = sequence(self.desk.task.counts().operators, 0);
        for marked in MARKED {
            let tests = shift.iter().filter(|&&op| marked(op)).count() as u32;
            for quota in [0, 1, tests / 2, tests.saturating_sub(1), tests, QUOTA] {
                let tables = |edition, quota| whole.marked(edition, quota, |op| u8::from(marked(op)));
                let left = self.counted(&tables(2, quota), passing, &shift, quota.min(tests))?;
                if quota > 0 && quota <= tests {
                    self.no_run(&tables(2, quota - 1), &left)?;
                    self.no_run(&tables(1, quota), &left)?;
                }
                self.counted(&tables(1, quota), passing, &shift, 0)?;
            }
        }
        self.quotas(&whole)?;
        self.marks(&whole)?;
        for quota in [QUOTA + 1, u32::MAX] {
            self.counted(&whole.marked(1, quota, |op| 2 + op as u8), passing, &shift, 0)?;
        }
        Ok(())
    }

    /// The tables are checked and written, their text is read, and the sequence is judged. Then the shift's steps are offered, up to one that would be a test beyond the
    /// quota; there all kinds of offers are made, and sequences judged that go on with any operator. Gives the run that is left, which has to have stored so many tests.
    fn counted(&mut self, tables: &Tables, passing: &Passing, shift: &[u32], tests: u32) -> Result<Parts, String> {
        let task = tables.task().map_err(|refusal| format!("the task with other marks and another quota: {refusal}"))?;
        let desk = Desk::of(task);
        let mut both = Both::of(&desk);
        both.check("tables with other marks and another quota", tables, [FACTS, COSTS, SHARES])?;
        both.read("the text of a task with other marks and another quota", &desk.task.to_text())?;
        both.judge(&passing.start, &passing.sequence)?;
        let mut run = Desk::parts(&desk.begin());
        for (number, &op) in (1..).zip(shift) {
            let (told, left) = both.offer(&run, number, op)?;
            if told != Told::Accepted {
                if told != (Told::Refused { number: 19, place: number }) {
                    return Err(format!("step {number}, which the task itself accepts, is {told:?} with other marks and another quota"));
                }
                both.around(&run, op)?;
                for op in both.operators() {
                    both.judge(&desk.task.initial(), &[&shift[..number as usize - 1], &[op]].concat())?;
                }
                break;
            }
            run = left;
        }
        let stored = Desk::of_parts(&run).stored().0;
        if stored != tests {
            return Err(format!("{stored} tests were stored, and not {tests}"));
        }
        self.alike += both.alike;
        Ok(run)
    }

    /// By these tables no offers could have left the run: it stored more tests than they allow.
    fn no_run(&mut self, tables: &Tables, run: &Parts) -> Result<(), String> {
        let task = tables.task().map_err(|refusal| format!("the task with a lower quota: {refusal}"))?;
        let desk = Desk::of(task);
        let mut both = Both::of(&desk);
        for number in [0, 1, 2] {
            let (told, _) = both.offer(run, number, 0)?;
            if told != (Told::Refused { number: 17, place: 0 }) {
                return Err(format!("a run that stored more tests than the task allows is {told:?}"));
            }
        }
        self.alike += both.alike;
        Ok(())
    }

    /// The text of the task in edition 2, with something else for its quota.
    fn quotas(&mut self, whole: &Tables) -> Result<(), String> {
        let task = whole.marked(2, 0, |_| 0).task().map_err(|refusal| format!("the task in edition 2: {refusal}"))?;
        let text = String::from_utf8(task.to_text()).map_err(|error| error.to_string())?;
        for quota in QUOTAS {
            self.read(&format!("a quota of {quota}"), text.replace("\nquota=0\n", &format!("\nquota={quota}\n")).as_bytes())?;
        }
        Ok(())
    }

    /// Each operator with any mark, and idle too, so that it shows which of the two faults comes first.
    fn marks(&mut self, whole: &Tables) -> Result<(), String> {
        for op in 0..self.desk.task.counts().operators {
            for (edition, mark) in [(1, 2), (2, 0), (2, 1), (2, 2), (2, u8::MAX)] {
                let mut tables = whole.marked(edition, QUOTA, |other| if other == op { mark } else { 0 });
                self.check("tables with a mark", &tables, [FACTS, COSTS, SHARES])?;
                tables.make_idle(op);
                self.check("tables with a mark and an idle operator", &tables, [FACTS, COSTS, SHARES])?;
            }
        }
        Ok(())
    }
}
