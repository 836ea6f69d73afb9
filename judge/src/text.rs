//! The task text, judged from left to right; the first fault decides.

use crate::limits::*;
use crate::task::{refuse, Facts, Fault, Op, Task};

struct Reader<'a> {
    text: &'a [u8],
    at: usize,
    line: usize,
}

/// The task of a text, number 1 included.
pub fn read_text(text: &[u8]) -> Result<Task, Fault> {
    if text.len() > TEXT {
        return refuse(1, 0);
    }
    read_any_length(text)
}

/// The task of a text whose length isn't judged.
pub fn read_any_length(text: &[u8]) -> Result<Task, Fault> {
    let mut reader = Reader { text, at: 0, line: 1 };
    let task = reader.task()?;
    if reader.next().is_some() {
        return refuse(2, reader.line);
    }
    shares_within_costs(&task)?;
    Ok(task)
}

/// Number 6 comes after all else, at the line of the lowest operator that is overpaid.
fn shares_within_costs(task: &Task) -> Result<(), Fault> {
    for (o, op) in task.ops.iter().enumerate() {
        let total: u64 = task.shares.iter().map(|row| row[o]).sum();
        if total > op.cost {
            return refuse(6, task.line_of_op(o));
        }
    }
    Ok(())
}

impl Reader<'_> {
    fn next(&self) -> Option<u8> {
        self.text.get(self.at).copied()
    }

    fn off_form<T>(&self) -> Result<T, Fault> {
        refuse(2, self.line)
    }

    /// The bytes that must stand here. A line end counts to the line that it ends.
    fn expect(&mut self, bytes: &[u8]) -> Result<(), Fault> {
        for byte in bytes {
            if self.next() != Some(*byte) {
                return self.off_form();
            }
            self.at += 1;
            if *byte == b'\n' {
                self.line += 1;
            }
        }
        Ok(())
    }

    /// The byte is passed over if it stands here.
    fn passes(&mut self, byte: u8) -> bool {
        let here = self.next() == Some(byte);
        self.at += usize::from(here);
        here
    }

    /// A digit run, first its form and then its range.
    fn number(&mut self, least: u64, most: u64) -> Result<u64, Fault> {
        let from = self.at;
        while self.next().map_or(false, |byte| byte.is_ascii_digit()) {
            self.at += 1;
        }
        let digits = &self.text[from..self.at];
        if digits.is_empty() || (digits.len() > 1 && digits[0] == b'0') {
            return self.off_form();
        }
        let value = digits.iter().fold(0u64, |value, digit| value.saturating_mul(10).saturating_add(u64::from(digit - b'0')));
        if value < least || value > most {
            return refuse(3, self.line);
        }
        Ok(value)
    }

    fn index(&mut self, below: usize) -> Result<usize, Fault> {
        Ok(self.number(0, below as u64 - 1)? as usize)
    }

    /// One number for each upper limit in the row, parted by commas.
    fn numbers(&mut self, least: u64, most: &[u64]) -> Result<Vec<u64>, Fault> {
        let mut row = Vec::new();
        for (i, most) in most.iter().enumerate() {
            if i > 0 {
                self.expect(b",")?;
            }
            row.push(self.number(least, *most)?);
        }
        Ok(row)
    }

    fn facts(&mut self, dom: &[usize]) -> Result<Facts, Fault> {
        let mut facts = vec![None; dom.len()];
        if !self.passes(b'-') {
            self.more_facts(dom, None, &mut facts)?;
        }
        Ok(facts)
    }

    /// Range and order of the variable are judged before its colon is read.
    fn more_facts(&mut self, dom: &[usize], before: Option<usize>, facts: &mut Facts) -> Result<(), Fault> {
        let var = self.index(dom.len())?;
        if before.map_or(false, |before| var <= before) {
            return refuse(4, self.line);
        }
        self.expect(b":")?;
        facts[var] = Some(self.index(dom[var])?);
        if self.passes(b',') {
            return self.more_facts(dom, Some(var), facts);
        }
        Ok(())
    }

    /// The fourth field of edition 2: whether the operator stores a test.
    fn mark(&mut self) -> Result<bool, Fault> {
        self.expect(b";")?;
        Ok(self.number(0, 1)? == 1)
    }

    /// Number 18 comes once the last field is over, before the line end is read.
    fn op(&mut self, dom: &[usize], marked: bool) -> Result<Op, Fault> {
        self.expect(b"op=")?;
        let cost = self.number(0, COST)?;
        self.expect(b";")?;
        let pre = self.facts(dom)?;
        self.expect(b";")?;
        let eff = self.facts(dom)?;
        let stores = marked && self.mark()?;
        let op = Op { cost, pre, eff, stores };
        if op.is_idle() {
            return refuse(18, self.line);
        }
        self.expect(b"\n")?;
        Ok(op)
    }

    /// A variable's classes; number 5 before the next byte is read.
    fn classes(&mut self, values: usize) -> Result<Vec<usize>, Fault> {
        let below = vec![values as u64 - 1; values];
        let classes: Vec<usize> = self.numbers(0, &below)?.into_iter().map(|class| class as usize).collect();
        let highest = classes.iter().max().copied().unwrap_or(0);
        if (0..highest).any(|class| !classes.contains(&class)) {
            return refuse(5, self.line);
        }
        Ok(classes)
    }

    fn map(&mut self, dom: &[usize]) -> Result<Vec<Vec<usize>>, Fault> {
        self.expect(b"map=")?;
        let mut map = Vec::new();
        for (v, values) in dom.iter().enumerate() {
            if v > 0 {
                self.expect(b"/")?;
            }
            map.push(self.classes(*values)?);
        }
        let states: usize = map.iter().map(|classes| 1 + classes.iter().max().unwrap()).product();
        if states > STATES {
            return refuse(7, self.line);
        }
        self.expect(b"\n")?;
        Ok(map)
    }

    fn share(&mut self, ops: usize) -> Result<Vec<u64>, Fault> {
        self.expect(b"share=")?;
        if ops == 0 {
            self.expect(b"-")?;
        }
        let row = self.numbers(0, &vec![COST; ops])?;
        self.expect(b"\n")?;
        Ok(row)
    }

    /// A line that holds one number.
    fn count(&mut self, name: &[u8], least: u64, most: u64) -> Result<usize, Fault> {
        self.expect(name)?;
        let value = self.number(least, most)?;
        self.expect(b"\n")?;
        Ok(value as usize)
    }

    fn task(&mut self) -> Result<Task, Fault> {
        let marked = self.count(b"edition=", 1, 2)? == 2;
        let vars = self.count(b"vars=", 1, VARS as u64)?;
        self.expect(b"dom=")?;
        let dom: Vec<usize> = self.numbers(1, &vec![VALUES as u64; vars])?.into_iter().map(|n| n as usize).collect();
        self.expect(b"\ninit=")?;
        let highest: Vec<u64> = dom.iter().map(|values| *values as u64 - 1).collect();
        let init = self.numbers(0, &highest)?.into_iter().map(|value| value as usize).collect();
        self.expect(b"\ngoal=")?;
        let goal = self.facts(&dom)?;
        self.expect(b"\n")?;
        let quota = if marked { Some(self.count(b"quota=", 0, QUOTA as u64)?) } else { None };
        let ops = self.count(b"ops=", 0, OPS as u64)?;
        let ops: Vec<Op> = (0..ops).map(|_| self.op(&dom, marked)).collect::<Result<_, _>>()?;
        let maps = self.count(b"maps=", 1, MAPS as u64)?;
        let maps: Vec<_> = (0..maps).map(|_| self.map(&dom)).collect::<Result<_, _>>()?;
        let shares = maps.iter().map(|_| self.share(ops.len())).collect::<Result<_, _>>()?;
        Ok(Task { dom, init, goal, quota, ops, maps, shares })
    }
}
