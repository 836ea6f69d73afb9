//! The script of the vectors: what the program holds, and what it prints for each line (docs/VECTORS.md).

use crate::changes::{changed_lines, line_of};
use crate::desk::{self, Answer};
use crate::feed::{read_in_pieces, Feed, AREA_PLACES};
use crate::limits::*;
use crate::row::Record;
use crate::run::Run;
use crate::tables::{Counts, Lent};

/// The longest line, without its line end.
pub const LINE: usize = 200;
/// The most numbers on a line.
pub const NUMBERS: usize = 16;
/// So many bytes of a text are kept, and so many the buffer has places for: more than a text may have.
pub const TEXT_ROOM: usize = 16_500;
/// The room of a table with a place an abstract state: more than a map may have.
pub const STATES_ROOM: usize = 4_200;
/// The room of a list of steps: more than a sequence may have.
pub const LIST: usize = 1_100;

pub const FACTS: u32 = 0;
pub const COSTS: u32 = 1;
pub const SHARES: u32 = 2;
pub const OUT: u32 = 3;
pub const STATE: u32 = 4;
pub const FIRST: u32 = 5;
pub const SECOND: u32 = 6;
pub const START: u32 = 7;
pub const LOG: u32 = 8;
pub const LEN: u32 = 9;
pub const NOW: u32 = 10;
pub const COLUMN: u32 = 11;
pub const RECORDS: u32 = 13;
pub const BUFFER: u32 = 14;
pub const BEST: u32 = 15;
pub const AREA: u32 = 17;
pub const MARK: u32 = 18;

/// The places of a record: its cost, and a place a variable for its preconditions and for its effects.
pub const RECORD: usize = 1 + 2 * VARS;
/// The room of the row, in records: more than there may be operators.
pub const ROW_ROOM: usize = 80;

/// An array that isn't there.
const NO_ARRAY: (&str, usize, usize, u32) = ("", 0, 0, 0);

/// The arrays by number: name, places, places lent after a reset, greatest value. Of a record only the cost goes so far; the
/// others of its places are bytes. The marks are lent with the records. The area has no places here: its bytes are nobody's answer.
pub const ARRAYS: [(&str, usize, usize, u32); 19] = [
    ("facts", 1_700, FACTS_ROOM, 255),
    ("costs", 80, COSTS_ROOM, u32::MAX),
    ("shares", 600, SHARES_ROOM, u32::MAX),
    ("out", STATES_ROOM, OUT_ROOM, u32::MAX),
    ("state", 16, VARS, 255),
    ("first", LIST, 0, u32::MAX),
    ("second", LIST, 0, u32::MAX),
    ("start", VARS, VARS, 255),
    ("log", STEPS, STEPS, u32::MAX),
    ("len", 1, 1, u32::MAX),
    ("now", VARS, VARS, 255),
    ("column", COLUMNS, COLUMNS, u32::MAX),
    NO_ARRAY,
    ("records", RECORD * ROW_ROOM, 0, u32::MAX),
    ("buffer", TEXT_ROOM, BUFFER_ROOM, 255),
    ("best", STATES_ROOM, BEST_ROOM, 255),
    NO_ARRAY,
    ("", 0, AREA_ROOM, 0),
    ("mark", ROW_ROOM, 0, 255),
];

/// The greatest value that a place can hold.
fn greatest(k: usize, place: usize) -> u32 {
    if k == RECORDS as usize && place % RECORD > 0 {
        return 255;
    }
    ARRAYS[k].3
}

/// All that the program holds.
pub struct Bench {
    arrays: Vec<Vec<u32>>,
    lent: Vec<usize>,
    text: Vec<u8>,
    counts: Counts,
    feed: Feed,
    printed: Vec<u8>,
}

/// A line taken apart: its letter and its numbers; none if it is malformed.
fn parsed(line: &[u8]) -> Option<(u8, Vec<u32>)> {
    let (letter, rest) = line.split_first()?;
    let mut numbers = Vec::new();
    let mut words = rest.split(|byte| *byte == b' ');
    if !words.next()?.is_empty() {
        return None;
    }
    for word in words {
        numbers.push(number(word)?);
    }
    (numbers.len() <= NUMBERS).then_some((*letter, numbers))
}

/// One to ten digits that fit.
fn number(word: &[u8]) -> Option<u32> {
    if word.is_empty() || word.len() > 10 || !word.iter().all(u8::is_ascii_digit) {
        return None;
    }
    std::str::from_utf8(word).ok()?.parse().ok()
}

/// What a script prints.
pub fn expect(script: &[u8]) -> Vec<u8> {
    let mut bench = Bench::new();
    let mut rest = script;
    while let Some(end) = rest.iter().position(|byte| *byte == b'\n') {
        let (line, after) = (&rest[..end], &rest[end + 1..]);
        rest = bench.line(line, after);
    }
    bench.printed
}

impl Bench {
    pub fn new() -> Bench {
        let (counts, feed) = (Counts::of_edition_1(0, 0, 0), Feed::new());
        let mut bench = Bench { arrays: Vec::new(), lent: Vec::new(), text: Vec::new(), counts, feed, printed: Vec::new() };
        bench.reset();
        bench
    }

    fn reset(&mut self) {
        self.arrays = ARRAYS.iter().map(|(_, places, _, _)| vec![0; *places]).collect();
        self.lent = ARRAYS.iter().map(|(_, _, lent, _)| *lent).collect();
        self.text = Vec::new();
        self.counts = Counts::of_edition_1(0, 0, 0);
        self.feed = Feed::new();
    }

    fn print(&mut self, line: &str) {
        self.printed.extend_from_slice(line.as_bytes());
        self.printed.push(b'\n');
    }

    /// Carries out one line and hands back what follows it.
    pub fn line<'a>(&mut self, line: &[u8], after: &'a [u8]) -> &'a [u8] {
        if line.len() <= LINE && line.first() == Some(&b'#') {
            self.printed.extend_from_slice(line);
            self.printed.push(b'\n');
            return after;
        }
        let command = if line.len() <= LINE { parsed(line) } else { None };
        if let Some((b't', [length])) = command.as_ref().map(|(letter, numbers)| (*letter, &numbers[..])) {
            return self.load(*length as usize, after);
        }
        let known = command.map_or(false, |(letter, numbers)| self.set(letter, &numbers) || self.call(letter, &numbers));
        if !known {
            self.print("bad");
        }
        after
    }

    /// The raw bytes of a text, and the byte after them.
    fn load<'a>(&mut self, length: usize, after: &'a [u8]) -> &'a [u8] {
        let text = &after[..length.min(after.len())];
        self.set_text(text[..text.len().min(TEXT_ROOM)].to_vec());
        &after[after.len().min(length + 1)..]
    }

    /// The commands that set and show; false if it is none of them.
    fn set(&mut self, letter: u8, numbers: &[u32]) -> bool {
        match (letter, numbers) {
            (b'z', []) => self.reset(),
            (b'n', [vars, ops, maps]) => self.counts = Counts::of_edition_1(*vars, *ops, *maps),
            (b'n', [vars, ops, maps, edition, quota]) => {
                self.counts = Counts { vars: *vars, ops: *ops, maps: *maps, edition: *edition, quota: *quota };
            }
            (b'l', [k, length]) => self.lend(*k as usize, *length as usize),
            (b's', [k, place, values @ ..]) if !values.is_empty() => self.write(*k as usize, *place as usize, values),
            (b'e', [k, value]) => {
                let places = ARRAYS.get(*k as usize).map_or(0, |array| array.1);
                self.write(*k as usize, 0, &vec![*value; places]);
            }
            (b'p', [k, place]) => self.show(*k as usize, *place as usize),
            (b'b', []) => self.put_bytes(BUFFER, &self.text.clone()),
            (b'u', [length]) => self.take_copy(*length as usize),
            (b'q', []) => self.print(&format!("counts {}", self.counts)),
            _ => return false,
        }
        true
    }

    /// Only what a caller lends has a length to set, and none is beyond its array. Of the row a record is counted as one.
    fn lend(&mut self, k: usize, length: usize) {
        let most = match k as u32 {
            FACTS..=SECOND | BUFFER | BEST => ARRAYS[k].1,
            RECORDS => ROW_ROOM,
            AREA => AREA_PLACES,
            _ => return,
        };
        if length <= most {
            self.lent[k] = length;
        }
    }

    /// Places beyond the array, and values that a place can't hold, are ignored.
    fn write(&mut self, k: usize, place: usize, values: &[u32]) {
        let places = self.arrays.get(k).map_or(0, Vec::len);
        for (i, value) in values.iter().enumerate() {
            if place + i < places && *value <= greatest(k, place + i) {
                self.arrays[k][place + i] = *value;
            }
        }
    }

    fn show(&mut self, k: usize, place: usize) {
        if let Some(value) = self.arrays.get(k).and_then(|array| array.get(place)).copied() {
            self.print(&line_of(k, place, &[value]));
        }
    }

    fn bytes(&self, k: u32) -> Vec<u8> {
        self.words(k).iter().map(|value| *value as u8).collect()
    }

    /// The places lent of an array.
    fn words(&self, k: u32) -> &[u32] {
        &self.arrays[k as usize][..self.lent[k as usize]]
    }

    /// The records lent of the row, each with its mark.
    fn row(&self) -> Vec<Record> {
        let places = &self.arrays[RECORDS as usize][..RECORD * self.lent[RECORDS as usize]];
        let marks = &self.arrays[MARK as usize];
        let byte = |place: &u32| *place as u8;
        let facts = |places: &[u32]| -> [u8; VARS] { places.iter().map(byte).collect::<Vec<u8>>().try_into().unwrap() };
        let record = |(record, mark): (&[u32], &u32)| Record {
            cost: record[0],
            pre: facts(&record[1..1 + VARS]),
            eff: facts(&record[1 + VARS..]),
            mark: byte(mark),
        };
        places.chunks(RECORD).zip(marks).map(record).collect()
    }

    fn put(&mut self, k: u32, values: &[u32]) {
        self.arrays[k as usize][..values.len()].copy_from_slice(values);
    }

    fn put_bytes(&mut self, k: u32, bytes: &[u8]) {
        self.put(k, &bytes.iter().map(|byte| u32::from(*byte)).collect::<Vec<_>>());
    }

    /// The text is the first bytes of the buffer, those that aren't lent included.
    fn take_copy(&mut self, length: usize) {
        self.set_text(self.arrays[BUFFER as usize].iter().take(length).map(|byte| *byte as u8).collect());
    }

    /// Another text, of which no piece was taken yet.
    fn set_text(&mut self, text: Vec<u8>) {
        self.text = text;
        self.feed.rewind();
    }

    /// The text that is read next.
    pub fn text(&self) -> &[u8] {
        &self.text
    }

    /// How many places of an array are lent.
    pub fn length(&self, k: u32) -> usize {
        self.lent[k as usize]
    }

    fn run(&self) -> Run {
        Run {
            start: self.bytes(START).try_into().unwrap(),
            log: self.words(LOG).try_into().unwrap(),
            len: self.words(LEN)[0],
            now: self.bytes(NOW).try_into().unwrap(),
            columns: self.words(COLUMN).try_into().unwrap(),
        }
    }

    fn put_run(&mut self, run: &Run) {
        self.put(START, &run.start.map(u32::from));
        self.put(LOG, &run.log);
        self.put(LEN, &[run.len]);
        self.put(NOW, &run.now.map(u32::from));
        self.put(COLUMN, &run.columns);
    }

    /// The desk's entries; false if it is none of them.
    fn call(&mut self, letter: u8, numbers: &[u32]) -> bool {
        let before = self.arrays.clone();
        let answer = match self.answer(letter, numbers) {
            Some(answer) => answer,
            None => return false,
        };
        self.print(&answer.to_string());
        for (k, old) in before.iter().enumerate() {
            for line in changed_lines(k, old, &self.arrays[k]) {
                self.print(&line);
            }
        }
        true
    }

    fn answer(&mut self, letter: u8, numbers: &[u32]) -> Option<Answer> {
        let facts = self.bytes(FACTS);
        let (state, a, b) = (self.bytes(STATE), self.words(FIRST), self.words(SECOND));
        let (costs, shares) = (self.words(COSTS), self.words(SHARES));
        let lent = Lent { counts: self.counts, facts: &facts, costs, shares };
        Some(match (letter, numbers) {
            (b'R', []) => self.read(|bench, facts, costs, shares| desk::read(&bench.text, facts, costs, shares)),
            (b'S', []) => self.feed.begin(),
            (b'I', [length]) => self.feed.take(&self.text, self.lent[AREA as usize], *length as usize),
            (b'F', []) => self.read(|bench, facts, costs, shares| bench.feed.end(bench.lent[AREA as usize], facts, costs, shares)),
            (b'V', [_, ..]) => self.read(|bench, facts, costs, shares| read_in_pieces(&bench.text, numbers, facts, costs, shares)),
            (b'T', []) => {
                let mut buffer = self.bytes(BUFFER);
                let answer = desk::write(lent, &mut buffer);
                self.put_bytes(BUFFER, &buffer);
                answer
            }
            (b'K', []) => desk::check(lent),
            (b'D', [map]) => {
                let (mut out, mut best) = (self.words(OUT).to_vec(), self.bytes(BEST));
                let answer = desk::distances(lent, *map, &mut out, &mut best);
                self.put(OUT, &out);
                self.put_bytes(BEST, &best);
                answer
            }
            (b'A', [map]) => desk::distance_at(lent, *map, &state),
            (b'N', [map]) => desk::best_at(lent, *map, &state),
            (b'B', []) => desk::bound(lent, &state),
            (b'M', []) => desk::bound(lent, &self.bytes(NOW)),
            (b'J', []) => desk::judge(lent, &state, a),
            (b'W', []) => desk::judge_row(Lent { costs: &[], ..lent }, &self.row(), &state, a),
            (b'C', []) => desk::cheaper(lent, &state, a, b),
            (b'P', []) => desk::opening(lent, &state, a, b),
            (b'G', []) => {
                let (run, answer) = desk::begin(lent, &state);
                self.put_run(&run);
                answer
            }
            (b'O', [number, op]) => {
                let (run, answer) = desk::offer(&self.run(), lent, *number, *op);
                self.put_run(&run);
                answer
            }
            _ => return None,
        })
    }

    /// A reading into the lent tables. An accepted text's counts become the bench's.
    fn read(&mut self, read: impl FnOnce(&mut Bench, &mut [u8], &mut [u32], &mut [u32]) -> Answer) -> Answer {
        let (mut facts, mut costs, mut shares) = (self.bytes(FACTS), self.words(COSTS).to_vec(), self.words(SHARES).to_vec());
        let answer = read(self, &mut facts, &mut costs, &mut shares);
        self.put_bytes(FACTS, &facts);
        self.put(COSTS, &costs);
        self.put(SHARES, &shares);
        if let Answer::Read(counts) = answer {
            self.counts = counts;
        }
        answer
    }
}
