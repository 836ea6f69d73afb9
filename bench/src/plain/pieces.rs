//! The baseline takes a task's text in pieces and keeps none of it: it goes on a byte at a time, the first fault deciding, in tables of its own that are handed over at the
//! end if the text is accepted.
use super::reading::{long_enough, Tables};
use super::{gapless, idle, in_range, refuse, Refusal, COST, MAPS, OPERATORS, QUOTA, ROW, STATES, VALUES, VARIABLES};
use super::{CLASSES, EFFECTS, GOAL_ROW, INITIAL_ROW, MARKS, PRECONDITIONS, VALUES_ROW};
use mihaedop::{COUNTS, TEXT};
use std::ops::RangeInclusive;

/// A byte that fits nowhere: what stands before it is judged as at the end of the text.
const NOWHERE: u8 = 0;

/// The line of the first operator in edition 1; in edition 2 there is a line more before it.
const FIRST_OPERATOR: usize = 7;

/// A count, in the order of the row of counts.
#[derive(Clone, Copy)]
enum Count {
    Variables,
    Operators,
    Maps,
    Edition,
    Quota,
}

/// A list of facts.
#[derive(Clone, Copy)]
enum List {
    Goal,
    Asked,
    Effects,
}

/// What a number of the text tells; its range and what may follow it go by that.
#[derive(Clone, Copy)]
enum Field {
    Count(Count),
    Values,
    Initial,
    Variable(List),
    Value(List),
    Cost,
    Mark,
    Class,
    Share,
}

/// What the next byte belongs to.
#[derive(Clone, Copy)]
enum Next {
    /// This rest of a line's name; a number comes after it.
    Name(&'static [u8], Field),
    /// A number, or what follows it.
    Number(Field),
    /// What follows the dash of a list of facts.
    AfterDash(List),
    /// The dash of a row of shares that has no number, and the line end after that.
    NoShares,
    NoSharesEnd,
    /// Nothing: all lines were read.
    Nothing,
}

/// A text so far, read a byte at a time.
pub struct Stepping {
    read: Tables,
    totals: [u32; OPERATORS],
    next: Next,
    line: usize,
    /// The number so far; nothing before its first digit.
    number: Option<u32>,
    /// The line's operator or map.
    row: usize,
    /// The variable of the next number, in a list of facts the least that may come; in a row of shares the operator.
    item: usize,
    /// In a map: the variable's value, the classes of those before it, a bit each, and the abstract states of the variables before.
    value: usize,
    seen: u32,
    states: u32,
    bytes: usize,
    fault: Option<Refusal>,
    ended: bool,
}

impl Stepping {
    pub fn new() -> Stepping {
        Stepping {
            read: Tables::zeros(),
            totals: [0; OPERATORS],
            next: Next::Name(b"edition=", Field::Count(Count::Edition)),
            line: 1,
            number: None,
            row: 0,
            item: 0,
            value: 0,
            seen: 0,
            states: 1,
            bytes: 0,
            fault: None,
            ended: false,
        }
    }

    /// Takes a piece. After a fault the bytes are only counted, since there may be too many of them.
    // Not inlined, as `Run::offer` isn't.
    #[inline(never)]
    pub fn take(&mut self, piece: &[u8]) -> Result<(), Refusal> {
        if self.ended {
            return refuse(2, 0);
        }
        self.bytes = self.bytes.saturating_add(piece.len());
        if self.fault.is_none() {
            self.fault = piece.iter().find_map(|&byte| self.step(byte).err());
        }
        Ok(())
    }

    /// Ends the text, and reads it into tables as `read` does.
    #[inline(never)]
    pub fn end(&mut self, facts: &mut [u8], costs: &mut [u32], shares: &mut [u32]) -> Result<[u32; COUNTS], Refusal> {
        long_enough(facts, costs, shares)?;
        if self.ended {
            return refuse(2, 0);
        }
        self.ended = true;
        if self.bytes > TEXT {
            return refuse(1, 0);
        }
        if let Some(fault) = self.fault {
            return Err(fault);
        }
        if !matches!(self.next, Next::Nothing) {
            self.step(NOWHERE)?;
        }
        self.read.totals_fit(&self.totals, FIRST_OPERATOR + self.count(Count::Edition) - 1)?;
        Ok(self.read.hand_over(facts, costs, shares))
    }

    fn count(&self, count: Count) -> usize {
        self.read.counts[count as usize]
    }

    /// How many values a variable has.
    fn values(&self, variable: usize) -> u8 {
        self.read.facts[ROW * VALUES_ROW + variable]
    }

    fn off_form<T>(&self) -> Result<T, Refusal> {
        refuse(2, self.line)
    }

    /// The byte is this one.
    fn expect(&self, byte: u8, expected: u8) -> Result<(), Refusal> {
        if byte == expected {
            Ok(())
        } else {
            self.off_form()
        }
    }

    /// Goes on by one byte.
    // Inlined where the bytes of a piece are gone over: it takes a fourth less there.
    #[inline(always)]
    fn step(&mut self, byte: u8) -> Result<(), Refusal> {
        match self.next {
            Next::Name(name, field) => {
                self.expect(byte, name[0])?;
                self.next = match (&name[1..], field) {
                    ([], Field::Share) if self.count(Count::Operators) == 0 => Next::NoShares,
                    ([], _) => Next::Number(field),
                    (rest, _) => Next::Name(rest, field),
                };
                Ok(())
            }
            Next::Number(field) => match (byte, field) {
                (b'0'..=b'9', _) => self.digit(byte - b'0'),
                (b'-', Field::Variable(list)) if self.item == 0 && self.number.is_none() => {
                    self.next = Next::AfterDash(list);
                    Ok(())
                }
                _ => self.after_number(field, byte),
            },
            Next::AfterDash(list) => self.after_list(list, byte),
            Next::NoShares => {
                self.expect(byte, b'-')?;
                self.next = Next::NoSharesEnd;
                Ok(())
            }
            Next::NoSharesEnd => self.after_shares(byte),
            Next::Nothing => self.off_form(),
        }
    }

    /// One digit more, after which the number may have any length: a greater one than fits is the greatest that does.
    fn digit(&mut self, digit: u8) -> Result<(), Refusal> {
        let digit = u32::from(digit);
        self.number = match self.number {
            None => Some(digit),
            Some(0) => return self.off_form(),
            Some(number) => Some(number.saturating_mul(10).saturating_add(digit)),
        };
        Ok(())
    }

    /// The number that ends here, in its range.
    fn number(&mut self, range: RangeInclusive<u32>) -> Result<u32, Refusal> {
        let Some(number) = self.number.take() else { return self.off_form() };
        in_range(range.contains(&number), self.line)?;
        Ok(number)
    }

    /// A number from 0 on that is below another.
    fn below(&mut self, limit: u8) -> Result<u8, Refusal> {
        self.number(0..=u32::from(limit) - 1).map(|number| number as u8)
    }

    /// The line ends, and another begins.
    fn line_end(&mut self, byte: u8, row: usize, next: Next) -> Result<(), Refusal> {
        self.expect(byte, b'\n')?;
        self.line += 1;
        (self.row, self.item, self.value, self.seen, self.states) = (row, 0, 0, 0, 1);
        self.next = next;
        Ok(())
    }

    /// A line of one number.
    fn count_line(&mut self, byte: u8, name: &'static [u8], count: Count) -> Result<(), Refusal> {
        self.line_end(byte, 0, Next::Name(name, Field::Count(count)))
    }

    /// A number ends before this byte.
    fn after_number(&mut self, field: Field, byte: u8) -> Result<(), Refusal> {
        match field {
            Field::Count(count) => self.after_count(count, byte),
            Field::Values => {
                self.read.facts[ROW * VALUES_ROW + self.item] = self.number(1..=u32::from(VALUES))? as u8;
                self.after_item(byte, Next::Name(b"init=", Field::Initial))
            }
            Field::Initial => {
                self.read.facts[ROW * INITIAL_ROW + self.item] = self.below(self.values(self.item))?;
                self.after_item(byte, Next::Name(b"goal=", Field::Variable(List::Goal)))
            }
            Field::Variable(list) => self.after_variable(list, byte),
            Field::Value(list) => self.after_value(list, byte),
            Field::Cost => {
                self.read.costs[self.row] = self.number(0..=COST)?;
                self.expect(byte, b';')?;
                self.next = Next::Number(Field::Variable(List::Asked));
                Ok(())
            }
            Field::Mark => {
                self.read.facts[MARKS + self.row] = self.below(2)?;
                self.after_operator(byte)
            }
            Field::Class => self.after_class(byte),
            Field::Share => self.after_share(byte),
        }
    }

    fn after_count(&mut self, count: Count, byte: u8) -> Result<(), Refusal> {
        let range = match count {
            Count::Edition => 1..=2,
            Count::Variables => 1..=VARIABLES as u32,
            Count::Quota => 0..=QUOTA,
            Count::Operators => 0..=OPERATORS as u32,
            Count::Maps => 1..=MAPS as u32,
        };
        self.read.counts[count as usize] = self.number(range)? as usize;
        match count {
            Count::Edition => self.count_line(byte, b"vars=", Count::Variables),
            Count::Variables => self.line_end(byte, 0, Next::Name(b"dom=", Field::Values)),
            Count::Quota => self.count_line(byte, b"ops=", Count::Operators),
            Count::Operators => self.operator_line(byte, 0),
            Count::Maps => self.line_end(byte, 0, Next::Name(b"map=", Field::Class)),
        }
    }

    /// The line of an operator, or the one after the last of them.
    fn operator_line(&mut self, byte: u8, op: usize) -> Result<(), Refusal> {
        if op < self.count(Count::Operators) {
            self.line_end(byte, op, Next::Name(b"op=", Field::Cost))
        } else {
            self.count_line(byte, b"maps=", Count::Maps)
        }
    }

    /// In a row with a number for each variable.
    fn after_item(&mut self, byte: u8, next: Next) -> Result<(), Refusal> {
        self.item += 1;
        if self.item < self.count(Count::Variables) {
            self.expect(byte, b',')
        } else {
            self.line_end(byte, 0, next)
        }
    }

    /// A variable's range and order are judged before its colon is read.
    fn after_variable(&mut self, list: List, byte: u8) -> Result<(), Refusal> {
        let variable = usize::from(self.below(self.count(Count::Variables) as u8)?);
        if variable < self.item {
            return refuse(4, self.line);
        }
        self.expect(byte, b':')?;
        self.item = variable;
        self.next = Next::Number(Field::Value(list));
        Ok(())
    }

    fn after_value(&mut self, list: List, byte: u8) -> Result<(), Refusal> {
        let row = match list {
            List::Goal => GOAL_ROW,
            List::Asked => PRECONDITIONS + self.row,
            List::Effects => EFFECTS + self.row,
        };
        self.read.facts[ROW * row + self.item] = 1 + self.below(self.values(self.item))?;
        self.item += 1;
        if byte != b',' {
            return self.after_list(list, byte);
        }
        self.next = Next::Number(Field::Variable(list));
        Ok(())
    }

    fn after_list(&mut self, list: List, byte: u8) -> Result<(), Refusal> {
        let second = self.count(Count::Edition) == 2;
        self.item = 0;
        match list {
            List::Goal if second => self.count_line(byte, b"quota=", Count::Quota),
            List::Goal => self.count_line(byte, b"ops=", Count::Operators),
            List::Effects if !second => self.after_operator(byte),
            _ => {
                self.expect(byte, b';')?;
                self.next = Next::Number(if let List::Asked = list { Field::Variable(List::Effects) } else { Field::Mark });
                Ok(())
            }
        }
    }

    /// Whether the operator is idle is judged before its line end is read.
    fn after_operator(&mut self, byte: u8) -> Result<(), Refusal> {
        let row = |row: usize| &self.read.facts[ROW * row..][..self.count(Count::Variables)];
        if idle(row(EFFECTS + self.row), row(PRECONDITIONS + self.row)) {
            return refuse(18, self.line);
        }
        self.operator_line(byte, self.row + 1)
    }

    /// A missing class is told at the end of the variable's list, too many abstract states at the end of the map's.
    fn after_class(&mut self, byte: u8) -> Result<(), Refusal> {
        let values = self.values(self.item);
        let class = self.below(values)?;
        self.read.facts[ROW * (CLASSES + VARIABLES * self.row + self.item) + self.value] = class;
        self.seen |= 1 << class;
        self.value += 1;
        if self.value < usize::from(values) {
            return self.expect(byte, b',');
        }
        match gapless(self.seen) {
            Some(classes) => self.states *= classes,
            None => return refuse(5, self.line),
        }
        (self.item, self.value, self.seen) = (self.item + 1, 0, 0);
        if self.item < self.count(Count::Variables) {
            return self.expect(byte, b'/');
        }
        if self.states > STATES {
            return refuse(7, self.line);
        }
        if self.row + 1 < self.count(Count::Maps) {
            self.line_end(byte, self.row + 1, Next::Name(b"map=", Field::Class))
        } else {
            self.line_end(byte, 0, Next::Name(b"share=", Field::Share))
        }
    }

    fn after_share(&mut self, byte: u8) -> Result<(), Refusal> {
        let share = self.number(0..=COST)?;
        self.read.shares[OPERATORS * self.row + self.item] = share;
        self.totals[self.item] += share;
        self.item += 1;
        if self.item < self.count(Count::Operators) {
            return self.expect(byte, b',');
        }
        self.after_shares(byte)
    }

    fn after_shares(&mut self, byte: u8) -> Result<(), Refusal> {
        if self.row + 1 < self.count(Count::Maps) {
            self.line_end(byte, self.row + 1, Next::Name(b"share=", Field::Share))
        } else {
            self.line_end(byte, 0, Next::Nothing)
        }
    }
}
