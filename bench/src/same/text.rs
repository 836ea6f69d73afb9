//! That both sides read and write the same texts.
use super::pieces::marked;
use super::{Both, Chance};
use crate::sides::{Desk, Plain, Side, Told};
use crate::tables::Tables;
use mihaedop::{COSTS, COUNTS, FACTS, SHARES, TEXT};

/// What stands in a place before it is written.
pub const MARK: u8 = 0xa5;

/// Tables of any length: facts, costs and shares.
pub type Lent = (Vec<u8>, Vec<u32>, Vec<u32>);

/// At most so many places of a text are edited; of a longer one these, by chance.
const EDITED: usize = 400;

/// How many texts by chance are edited at some places at once, each at most so many bytes after the one before.
const BY_CHANCE: usize = 10_000;
const NEAR: usize = 4;

/// The bytes that are tried at a place.
const BYTES: &[u8] = b"012789,:;-/=\n \0\xff";

impl Both<'_> {
    /// A text read by both sides: the tables afterwards. What is accepted is written as the same text.
    pub fn read(&mut self, what: &str, text: &[u8]) -> Result<Lent, String> {
        let (told, lent) = self.read_into(what, text, [FACTS, COSTS, SHARES])?;
        if let Told::Counts(counts) = told {
            let (_, buffer) = self.write(what, counts, &lent.0, &lent.1, &lent.2, TEXT)?;
            if !buffer.starts_with(text) || buffer[text.len()..].iter().any(|&byte| byte != MARK) {
                return Err(format!("{what}: it is not written as it was read"));
            }
        }
        Ok(lent)
    }

    /// A text read by both sides, whole and in pieces, into tables of so many places, with something else in them: the answer, and every place afterwards.
    fn read_into(&mut self, what: &str, text: &[u8], places: [usize; 3]) -> Result<(Told, Lent), String> {
        let (mut left, mut of_plain) = (marked(places), marked(places));
        let desk = Desk::read(text, &mut left.0, &mut left.1, &mut left.2);
        let plain = Plain::read(text, &mut of_plain.0, &mut of_plain.1, &mut of_plain.2);
        self.count(&format!("{what}, read into tables of {places:?} places"), desk, plain)?;
        if left != of_plain {
            return Err(format!("{what}: the tables differ after it"));
        }
        if matches!(desk, Told::Refused { .. }) && left != marked(places) {
            return Err(format!("{what}: the tables were written, though it was refused"));
        }
        let whole = (desk, left);
        self.in_pieces(what, text, places, &whole)?;
        Ok(whole)
    }

    /// Tables written by both sides into buffers of so many bytes: the answer, and every byte afterwards.
    pub fn write(
        &mut self,
        what: &str,
        counts: [u32; COUNTS],
        facts: &[u8],
        costs: &[u32],
        shares: &[u32],
        bytes: usize,
    ) -> Result<(Told, Vec<u8>), String> {
        let (mut left, mut of_plain) = (vec![MARK; bytes], vec![MARK; bytes]);
        let desk = Desk::write(counts, facts, costs, shares, &mut left);
        let plain = Plain::write(counts, facts, costs, shares, &mut of_plain);
        self.count(&format!("{what}, written into {bytes} bytes"), desk, plain)?;
        if left != of_plain {
            return Err(format!("{what}: what was written differs"));
        }
        let after = if let Told::Length(length) = desk { length } else { 0 };
        if left[after..].iter().any(|&byte| byte != MARK) {
            return Err(format!("{what}: more was written than the text"));
        }
        Ok((desk, left))
    }

    /// The task's text, and texts near it; tables and buffers that are too short, long enough and longer.
    pub fn texts(&mut self, text: &[u8]) -> Result<(), String> {
        let whole = Tables::of(&self.desk.task);
        let left = self.read("the task's text", text)?;
        if left != (whole.facts.to_vec(), whole.costs.to_vec(), whole.shares.to_vec()) {
            return Err("the task's text gives other tables than the desk has".to_string());
        }
        self.short_memory(text, &(Told::Counts(whole.counts), left))?;
        self.lengths(text, &whole)?;
        let mut chance = Chance(1);
        let places: Vec<usize> =
            if text.len() < EDITED { (0..=text.len()).collect() } else { (0..EDITED).map(|_| chance.below(text.len() + 1)).collect() };
        for place in places {
            for (what, edited) in edits(text, place) {
                self.read(&format!("the task's text with {what} at byte {place}"), &edited)?;
            }
        }
        self.line_ends(text)?;
        for _ in 0..BY_CHANCE {
            let mut edited = text.to_vec();
            let mut place = chance.below(text.len() + 1);
            for _ in 0..2 + chance.below(3) {
                let mut others = edits(&edited, place.min(edited.len()));
                edited = others.swap_remove(chance.below(others.len())).1;
                place += chance.below(NEAR + 1);
            }
            self.read("a text edited by chance", &edited)?;
        }
        Ok(())
    }

    /// Each line with another digit at its end, and with and without something else for the line end: some faults are told before that is read.
    fn line_ends(&mut self, text: &[u8]) -> Result<(), String> {
        for place in (1..text.len()).filter(|&place| text[place] == b'\n') {
            for digit in b'0'..=b'9' {
                for end in [b'\n', b' '] {
                    let mut edited = text.to_vec();
                    edited[place - 1..=place].copy_from_slice(&[digit, end]);
                    self.read(&format!("digit {digit} and byte {end} at the end of a line, at byte {place}"), &edited)?;
                }
            }
        }
        Ok(())
    }

    /// What is lent is a place too short, just long enough, and a place longer; and so is the text.
    fn lengths(&mut self, text: &[u8], whole: &Tables) -> Result<(), String> {
        let lent = [
            [0; 3],
            [FACTS - 1, COSTS, SHARES],
            [FACTS, COSTS - 1, SHARES],
            [FACTS, COSTS, SHARES - 1],
            [FACTS + 1, COSTS + 1, SHARES + 1],
        ];
        for places in lent {
            for text in [text, &text[1..], &[b'\n'; TEXT + 1]] {
                self.read_into("a text", text, places)?;
            }
        }
        for counts in [whole.counts, [0; COUNTS]] {
            for bytes in [0, 1, text.len(), TEXT - 1, TEXT, TEXT + 1] {
                self.write("the task's tables", counts, &whole.facts, &whole.costs, &whole.shares, bytes)?;
            }
        }
        for bytes in [text.len() + 1, TEXT, TEXT + 1, 2 * TEXT] {
            for (text, more) in [(text, b'\n'), (text, b'e'), (b"edition=1", b'1'), (b"edition=2", b'2')] {
                let mut longer = text.to_vec();
                longer.resize(bytes, more);
                self.read(&format!("a text of {bytes} bytes"), &longer)?;
            }
        }
        Ok(())
    }
}

/// The text with something else at a place, and what that is.
fn edits(text: &[u8], place: usize) -> Vec<(String, Vec<u8>)> {
    let (before, after) = text.split_at(place);
    let mut edits = vec![("the end".to_string(), before.to_vec())];
    let mut with = |what: &str, middle: &[u8], after: &[u8]| edits.push((what.to_string(), [before, middle, after].concat()));
    for byte in BYTES {
        with(&format!("byte {byte} put in"), &[*byte], after);
    }
    if let [was, after @ ..] = after {
        with("a byte dropped", &[], after);
        for byte in BYTES.iter().chain(&[was.wrapping_sub(1), was.wrapping_add(1)]) {
            with(&format!("byte {byte}"), &[*byte], after);
        }
    }
    let item = after.iter().take_while(|byte| !b",;/\n".contains(byte)).count();
    with("a dash for an item", b"-", &after[item..]);
    let digits = after.iter().take_while(|byte| byte.is_ascii_digit()).count();
    if let Some(number) = std::str::from_utf8(&after[..digits]).ok().and_then(|digits| digits.parse::<u128>().ok()) {
        // what fits into no number of the tables, and is the same number in the bits of one that is cut off
        for more in [1 << 8, 1 << 16, 1 << 32, 1 << 64] {
            with(&format!("{more} added"), (number + more).to_string().as_bytes(), &after[digits..]);
        }
    }
    edits
}
