//! The baseline writes a task's text: line by line into the buffer, each number digit by digit.
use super::{refuse, Refusal, Task, EFFECTS, GOAL_ROW, INITIAL_ROW, MARKS, PRECONDITIONS, VALUES_ROW};
use mihaedop::TEXT;

/// A buffer, and where its next byte goes.
struct Pen<'a> {
    buffer: &'a mut [u8],
    at: usize,
}

impl Task<'_> {
    /// Writes the text of the tables into a buffer, once they are judged: the text's length. The bytes after it are left alone.
    // Not inlined, as `Run::offer` isn't.
    #[inline(never)]
    pub fn write(&self, buffer: &mut [u8]) -> Result<usize, Refusal> {
        if buffer.len() < TEXT {
            return refuse(8, 0);
        }
        self.check()?;
        let mut pen = Pen { buffer, at: 0 };
        pen.count(b"edition=", self.edition as usize);
        pen.count(b"vars=", self.variables);
        pen.word(b"dom=");
        pen.digits(self.row(VALUES_ROW));
        pen.word(b"\ninit=");
        pen.digits(self.row(INITIAL_ROW));
        pen.word(b"\ngoal=");
        pen.facts(self.row(GOAL_ROW));
        pen.byte(b'\n');
        if self.counts_tests() {
            pen.count(b"quota=", self.quota as usize);
        }
        pen.count(b"ops=", self.operators);
        (0..self.operators).for_each(|op| self.write_operator(op, &mut pen));
        pen.count(b"maps=", self.maps);
        (0..self.maps).for_each(|map| self.write_map(map, &mut pen));
        (0..self.maps).for_each(|map| self.write_shares(map, &mut pen));
        Ok(pen.at)
    }

    fn write_operator(&self, op: usize, pen: &mut Pen) {
        pen.word(b"op=");
        pen.number(self.costs[op]);
        pen.byte(b';');
        pen.facts(self.row(PRECONDITIONS + op));
        pen.byte(b';');
        pen.facts(self.row(EFFECTS + op));
        if self.counts_tests() {
            pen.byte(b';');
            pen.digit(self.facts[MARKS + op]);
        }
        pen.byte(b'\n');
    }

    fn write_map(&self, map: usize, pen: &mut Pen) {
        pen.word(b"map=");
        for (variable, &values) in self.row(VALUES_ROW).iter().enumerate() {
            if variable > 0 {
                pen.byte(b'/');
            }
            pen.digits(self.classes(map, variable, values));
        }
        pen.byte(b'\n');
    }

    fn write_shares(&self, map: usize, pen: &mut Pen) {
        pen.word(b"share=");
        for (op, &share) in self.shares(map).iter().enumerate() {
            if op > 0 {
                pen.byte(b',');
            }
            pen.number(share);
        }
        if self.operators == 0 {
            pen.byte(b'-');
        }
        pen.byte(b'\n');
    }
}

impl Pen<'_> {
    fn byte(&mut self, byte: u8) {
        self.buffer[self.at] = byte;
        self.at += 1;
    }

    fn word(&mut self, word: &[u8]) {
        self.buffer[self.at..][..word.len()].copy_from_slice(word);
        self.at += word.len();
    }

    /// A number of one digit, as variables, values and classes are.
    fn digit(&mut self, digit: u8) {
        self.byte(b'0' + digit);
    }

    /// A number of any length: its digits from the last one on, once it is known how many they are.
    fn number(&mut self, mut number: u32) {
        let digits = number.checked_ilog10().map_or(1, |tens| tens as usize + 1);
        for place in self.buffer[self.at..][..digits].iter_mut().rev() {
            *place = b'0' + (number % 10) as u8;
            number /= 10;
        }
        self.at += digits;
    }

    /// A line of one number.
    fn count(&mut self, name: &[u8], count: usize) {
        self.word(name);
        self.number(count as u32);
        self.byte(b'\n');
    }

    /// Numbers of one digit each, parted by commas.
    fn digits(&mut self, row: &[u8]) {
        for (place, &digit) in row.iter().enumerate() {
            if place > 0 {
                self.byte(b',');
            }
            self.digit(digit);
        }
    }

    /// The facts of a row, or a dash if there are none.
    fn facts(&mut self, row: &[u8]) {
        let mut some = false;
        for (variable, &fact) in row.iter().enumerate().filter(|(_, &fact)| fact != 0) {
            if some {
                self.byte(b',');
            }
            some = true;
            self.digit(variable as u8);
            self.byte(b':');
            self.digit(fact - 1);
        }
        if !some {
            self.byte(b'-');
        }
    }
}
