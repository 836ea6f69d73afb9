//! The baseline reads a task's text: from left to right, the first fault deciding, into tables of its own that are handed over once the text is accepted.
use super::{gapless, idle, in_range, refuse, Refusal, COST, MAPS, OPERATORS, QUOTA, ROW, STATES, VALUES, VARIABLES};
use super::{CLASSES, EFFECTS, GOAL_ROW, INITIAL_ROW, MARKS, PRECONDITIONS, VALUES_ROW};
use mihaedop::{COSTS, COUNTS, FACTS, SHARES, TEXT};
use std::ops::RangeInclusive;

/// A text, where its next byte is, and the line that this byte stands on.
struct Reader<'a> {
    text: &'a [u8],
    at: usize,
    line: usize,
}

/// What was read so far. Unused places are 0.
pub(super) struct Tables {
    pub(super) counts: [usize; COUNTS],
    pub(super) facts: [u8; FACTS],
    pub(super) costs: [u32; COSTS],
    pub(super) shares: [u32; SHARES],
}

/// Reads a text into tables, whose other places are 0 then: its counts, edition and quota among them. A refusal leaves the tables alone.
// Not inlined, as `Run::offer` isn't.
#[inline(never)]
pub fn read(text: &[u8], facts: &mut [u8], costs: &mut [u32], shares: &mut [u32]) -> Result<[u32; COUNTS], Refusal> {
    long_enough(facts, costs, shares)?;
    if text.len() > TEXT {
        return refuse(1, 0);
    }
    let mut read = Tables::zeros();
    Reader { text, at: 0, line: 1 }.task(&mut read)?;
    Ok(read.hand_over(facts, costs, shares))
}

/// Lent tables have the places that the largest task needs.
pub(super) fn long_enough(facts: &[u8], costs: &[u32], shares: &[u32]) -> Result<(), Refusal> {
    if facts.len() < FACTS || costs.len() < COSTS || shares.len() < SHARES {
        return refuse(8, 0);
    }
    Ok(())
}

impl Tables {
    pub(super) fn zeros() -> Tables {
        Tables { counts: [0; COUNTS], facts: [0; FACTS], costs: [0; COSTS], shares: [0; SHARES] }
    }

    /// Fills lent tables, and gives the counts.
    pub(super) fn hand_over(&self, facts: &mut [u8], costs: &mut [u32], shares: &mut [u32]) -> [u32; COUNTS] {
        hand_over(&self.facts, facts);
        hand_over(&self.costs, costs);
        hand_over(&self.shares, shares);
        self.counts.map(|count| count as u32)
    }

    /// That no operator's shares total above its cost, the first of the operators standing on this line.
    pub(super) fn totals_fit(&self, totals: &[u32; OPERATORS], first: usize) -> Result<(), Refusal> {
        match totals.iter().zip(&self.costs).position(|(total, cost)| total > cost) {
            Some(op) => refuse(6, first + op),
            None => Ok(()),
        }
    }
}

/// A table that was read into one that may be longer.
fn hand_over<T: Copy + Default>(read: &[T], table: &mut [T]) {
    let (own, beyond) = table.split_at_mut(read.len());
    own.copy_from_slice(read);
    beyond.fill(T::default());
}

/// A row of the facts, as far as there are variables.
pub(super) fn row(facts: &mut [u8], row: usize, variables: usize) -> &mut [u8] {
    &mut facts[ROW * row..][..variables]
}

impl Reader<'_> {
    /// The whole text. That no operator's shares total above its cost is asked last of all.
    fn task(&mut self, to: &mut Tables) -> Result<(), Refusal> {
        let edition = self.count(b"edition=", 1..=2)?;
        let variables = self.count(b"vars=", 1..=VARIABLES)?;
        let values = &mut [0; VARIABLES][..variables];
        self.values(values)?;
        row(&mut to.facts, VALUES_ROW, variables).copy_from_slice(values);
        self.initial(row(&mut to.facts, INITIAL_ROW, variables), values)?;
        self.expect(b"goal=")?;
        self.facts(row(&mut to.facts, GOAL_ROW, variables), values)?;
        self.line_end()?;
        let quota = if edition == 2 { self.count(b"quota=", 0..=QUOTA as usize)? } else { 0 };
        let operators = self.count(b"ops=", 0..=OPERATORS)?;
        let first = self.line;
        for op in 0..operators {
            to.costs[op] = self.operator(&mut to.facts, op, values, edition)?;
        }
        let maps = self.count(b"maps=", 1..=MAPS)?;
        for classes in to.facts[ROW * CLASSES..].chunks_exact_mut(ROW * VARIABLES).take(maps) {
            self.map(classes, values)?;
        }
        let mut totals = [0; OPERATORS];
        for shares in to.shares.chunks_exact_mut(OPERATORS).take(maps) {
            self.shares(&mut shares[..operators], &mut totals)?;
        }
        if self.at < self.text.len() {
            return self.off_form();
        }
        to.counts = [variables, operators, maps, edition, quota];
        to.totals_fit(&totals, first)
    }

    fn off_form<T>(&self) -> Result<T, Refusal> {
        refuse(2, self.line)
    }

    fn next(&self) -> Option<u8> {
        self.text.get(self.at).copied()
    }

    /// The next byte is this one, and is passed over.
    fn passes(&mut self, byte: u8) -> bool {
        let passes = self.next() == Some(byte);
        self.at += usize::from(passes);
        passes
    }

    /// These bytes come next.
    fn expect(&mut self, bytes: &[u8]) -> Result<(), Refusal> {
        if !self.text[self.at..].starts_with(bytes) {
            return self.off_form();
        }
        self.at += bytes.len();
        Ok(())
    }

    fn line_end(&mut self) -> Result<(), Refusal> {
        self.expect(b"\n")?;
        self.line += 1;
        Ok(())
    }

    /// The mark before each thing of a row but the first.
    fn mark(&mut self, mark: &[u8], place: usize) -> Result<(), Refusal> {
        if place == 0 {
            Ok(())
        } else {
            self.expect(mark)
        }
    }

    /// A number without leading zeros, and in its range; of any length, so a greater one than fits is the greatest that does.
    fn number(&mut self, range: RangeInclusive<u32>) -> Result<u32, Refusal> {
        let first = self.at;
        let mut number = 0u32;
        while let Some(digit) = self.next().filter(u8::is_ascii_digit) {
            number = number.saturating_mul(10).saturating_add(u32::from(digit - b'0'));
            self.at += 1;
        }
        let digits = &self.text[first..self.at];
        if digits.is_empty() || (digits[0] == b'0' && digits.len() > 1) {
            return self.off_form();
        }
        in_range(range.contains(&number), self.line)?;
        Ok(number)
    }

    /// A number from 0 on that is below another.
    fn below(&mut self, limit: u8) -> Result<u8, Refusal> {
        self.number(0..=u32::from(limit) - 1).map(|number| number as u8)
    }

    /// A line of one number.
    fn count(&mut self, name: &[u8], range: RangeInclusive<usize>) -> Result<usize, Refusal> {
        self.expect(name)?;
        let count = self.number(*range.start() as u32..=*range.end() as u32)?;
        self.line_end()?;
        Ok(count as usize)
    }

    /// How many values each variable has.
    fn values(&mut self, all: &mut [u8]) -> Result<(), Refusal> {
        self.expect(b"dom=")?;
        for (variable, values) in all.iter_mut().enumerate() {
            self.mark(b",", variable)?;
            *values = self.number(1..=u32::from(VALUES))? as u8;
        }
        self.line_end()
    }

    fn initial(&mut self, row: &mut [u8], values: &[u8]) -> Result<(), Refusal> {
        self.expect(b"init=")?;
        for (variable, (value, &values)) in row.iter_mut().zip(values).enumerate() {
            self.mark(b",", variable)?;
            *value = self.below(values)?;
        }
        self.line_end()
    }

    /// A list of facts, or a dash. A variable's range and order are judged before its colon is read.
    fn facts(&mut self, row: &mut [u8], values: &[u8]) -> Result<(), Refusal> {
        if self.passes(b'-') {
            return Ok(());
        }
        let mut least = 0;
        loop {
            let variable = usize::from(self.below(values.len() as u8)?);
            if variable < least {
                return refuse(4, self.line);
            }
            self.expect(b":")?;
            row[variable] = 1 + self.below(values[variable])?;
            least = variable + 1;
            if !self.passes(b',') {
                return Ok(());
            }
        }
    }

    /// An operator's facts into their rows, in edition 2 its mark, and its cost. Whether it is idle is judged before its line end is read.
    fn operator(&mut self, facts: &mut [u8], op: usize, values: &[u8], edition: usize) -> Result<u32, Refusal> {
        self.expect(b"op=")?;
        let cost = self.number(0..=COST)?;
        self.expect(b";")?;
        let (facts, marks) = facts.split_at_mut(MARKS);
        let (asked, effects) = facts.split_at_mut(ROW * EFFECTS);
        let (asked, effects) = (row(asked, PRECONDITIONS + op, values.len()), row(effects, op, values.len()));
        self.facts(asked, values)?;
        self.expect(b";")?;
        self.facts(effects, values)?;
        if edition == 2 {
            self.expect(b";")?;
            marks[op] = self.below(2)?;
        }
        if idle(effects, asked) {
            return refuse(18, self.line);
        }
        self.line_end()?;
        Ok(cost)
    }

    /// The classes of each variable's values. A missing one is told at the end of the variable's list, too many abstract states at the end of the map's.
    fn map(&mut self, classes: &mut [u8], values: &[u8]) -> Result<(), Refusal> {
        self.expect(b"map=")?;
        let mut states = 1;
        for (variable, (row, &values)) in classes.chunks_exact_mut(ROW).zip(values).enumerate() {
            self.mark(b"/", variable)?;
            let mut seen = 0;
            for (value, class) in row[..usize::from(values)].iter_mut().enumerate() {
                self.mark(b",", value)?;
                *class = self.below(values)?;
                seen |= 1 << *class;
            }
            match gapless(seen) {
                Some(classes) => states *= classes,
                None => return refuse(5, self.line),
            }
        }
        if states > STATES {
            return refuse(7, self.line);
        }
        self.line_end()
    }

    /// What a map charges for each operator, or a dash if there are none; and what each was charged so far.
    fn shares(&mut self, shares: &mut [u32], totals: &mut [u32]) -> Result<(), Refusal> {
        self.expect(b"share=")?;
        if shares.is_empty() {
            self.expect(b"-")?;
        }
        for (op, (share, total)) in shares.iter_mut().zip(totals).enumerate() {
            self.mark(b",", op)?;
            *share = self.number(0..=COST)?;
            *total += *share;
        }
        self.line_end()
    }
}
