//! Carries out a script of the vectors (docs/VECTORS.md) through the library, so that it can be held to what the judge prints for it:
//!
//!     script < SCRIPT
//!
//! The lines are read by the judge's own reader of scripts; the entries behind it are the library's, with exactly the lengths that the script lends. Each text that is
//! read is besides read in pieces, and `in pieces otherwise` is printed where that differs; the judge never prints it.
#[path = "../../../judge/src/changes.rs"]
mod changes;
#[path = "../../../judge/src/feed.rs"]
mod feed;
#[path = "../src/ffi.rs"]
mod ffi;
#[path = "../../../judge/src/limits.rs"]
#[allow(dead_code)]
mod limits;
#[path = "../../../judge/src/rng.rs"]
#[allow(dead_code)]
mod rng;
#[path = "../../../judge/src/row.rs"]
#[allow(dead_code)]
mod row;
#[path = "../../../judge/src/script.rs"]
#[allow(dead_code)]
mod script;

/// What the reader of scripts lends.
mod tables {
    use std::fmt;

    #[derive(Clone, Copy)]
    pub struct Counts {
        pub vars: u32,
        pub ops: u32,
        pub maps: u32,
        pub edition: u32,
        pub quota: u32,
    }

    impl Counts {
        pub fn of_edition_1(vars: u32, ops: u32, maps: u32) -> Counts {
            Counts { vars, ops, maps, edition: 1, quota: 0 }
        }
    }

    /// As the script prints them: edition and quota only where they aren't those of edition 1.
    impl fmt::Display for Counts {
        fn fmt(&self, f: &mut fmt::Formatter<'_>) -> fmt::Result {
            let Counts { vars, ops, maps, edition, quota } = self;
            write!(f, "{vars} {ops} {maps}")?;
            if (*edition, *quota) == (1, 0) {
                Ok(())
            } else {
                write!(f, " {edition} {quota}")
            }
        }
    }

    #[derive(Clone, Copy)]
    pub struct Lent<'a> {
        pub counts: Counts,
        pub facts: &'a [u8],
        pub costs: &'a [u32],
        pub shares: &'a [u32],
    }
}

/// The run of the script, and the same in the library's memory.
mod run {
    use crate::limits::{MAPS, STEPS, VARS};

    #[derive(Clone)]
    pub struct Run {
        pub start: [u8; VARS],
        pub log: [u32; STEPS],
        pub len: u32,
        pub now: [u8; VARS],
        pub columns: [u32; MAPS + 2],
    }

    impl Run {
        pub fn lent(&self) -> (Vec<u8>, Vec<u32>) {
            let words = [&self.log[..], &[self.len], &self.columns].concat();
            ([self.start, self.now].concat(), words)
        }

        pub fn of(bytes: &[u8], words: &[u32]) -> Run {
            Run {
                start: bytes[..VARS].try_into().unwrap(),
                log: words[..STEPS].try_into().unwrap(),
                len: words[STEPS],
                now: bytes[VARS..].try_into().unwrap(),
                columns: words[STEPS + 1..].try_into().unwrap(),
            }
        }
    }
}

/// A text that is read through the library into lent tables: the word, the counts, and every place of the tables.
mod reading {
    use crate::ffi;
    use crate::rng::Rng;

    #[derive(Clone, PartialEq)]
    pub struct Reading {
        pub word: u64,
        pub row: [u32; 5],
        pub facts: Vec<u8>,
        pub costs: Vec<u32>,
        pub shares: Vec<u32>,
    }

    impl Reading {
        pub fn before(facts: &[u8], costs: &[u32], shares: &[u32]) -> Reading {
            Reading { word: 0, row: [0; 5], facts: facts.to_vec(), costs: costs.to_vec(), shares: shares.to_vec() }
        }

        pub fn whole(mut self, text: &[u8]) -> Reading {
            self.word = ffi::read(text, &mut self.row, &mut self.facts, &mut self.costs, &mut self.shares);
            self
        }

        /// In an area that holds something before; a piece that is refused is no reading.
        fn in_pieces(mut self, pieces: &[&[u8]]) -> Option<Reading> {
            let (mut words, mut area) = ([u32::MAX; 20], [u8::MAX; 8192]);
            let begun = ffi::begin_text(&mut words) == 0;
            if !begun || pieces.iter().any(|piece| ffi::take_piece(&mut words, &mut area, piece) != 0) {
                return None;
            }
            self.word = ffi::end_text(&mut words, &area, &mut self.row, &mut self.facts, &mut self.costs, &mut self.shares);
            Some(self)
        }

        /// The same in pieces, singly and cut by chance, from what was before.
        pub fn is_that_of_pieces(&self, before: &Reading, text: &[u8]) -> bool {
            [singly(text), by_chance(text)].iter().all(|pieces| before.clone().in_pieces(pieces).as_ref() == Some(self))
        }
    }

    /// Single bytes, with an empty piece before each.
    fn singly(text: &[u8]) -> Vec<&[u8]> {
        text.chunks(1).flat_map(|byte| [&byte[..0], byte]).collect()
    }

    /// Pieces of 0 to 39 bytes; the text's length and its first bytes tell where it is cut.
    fn by_chance(text: &[u8]) -> Vec<&[u8]> {
        let begin = |seed: u64, byte: &u8| seed.wrapping_mul(31).wrapping_add(u64::from(*byte));
        let mut rng = Rng::new(text.iter().take(64).fold(text.len() as u64, begin));
        let (mut pieces, mut rest) = (Vec::new(), text);
        while !rest.is_empty() {
            let (piece, after) = rest.split_at(rng.below(40).min(rest.len()));
            pieces.push(piece);
            rest = after;
        }
        pieces
    }
}

/// The entries, each with the line that the script prints for its answer.
mod desk {
    use crate::ffi;
    use crate::limits::{MAPS, STEPS, VARS};
    use crate::reading::Reading;
    use crate::row::{laid, Record};
    use crate::run::Run;
    use crate::tables::{Counts, Lent};
    use std::fmt;

    pub enum Answer {
        Read(Counts),
        Told(String),
    }

    impl fmt::Display for Answer {
        fn fmt(&self, f: &mut fmt::Formatter<'_>) -> fmt::Result {
            match self {
                Answer::Read(counts) => write!(f, "accepted {counts}"),
                Answer::Told(line) => f.write_str(line),
            }
        }
    }

    /// The line of a word; `done` names what a number is of where the answer has one.
    fn told(word: u64, done: &str, numbered: bool) -> Answer {
        let (kind, number) = (word % 256, word / 256);
        Answer::Told(match kind {
            0 if numbered => format!("{done} {number}"),
            0 => done.to_string(),
            128 => "none".to_string(),
            129 => "repeated".to_string(),
            130 => format!("first {number}"),
            131 => format!("second {number}"),
            132 => "neither".to_string(),
            _ => format!("refused {kind} {number}"),
        })
    }

    /// The word for a lent task; its counts go over as a row.
    fn over(lent: Lent<'_>, ask: impl FnOnce(ffi::Lent<'_>) -> u64) -> u64 {
        let Counts { vars, ops, maps, edition, quota } = lent.counts;
        ask(ffi::Lent { counts: &[vars, ops, maps, edition, quota], facts: lent.facts, costs: lent.costs, shares: lent.shares })
    }

    /// The answer of a reading, by its word and the row of counts that it left.
    fn as_read(word: u64, [vars, ops, maps, edition, quota]: [u32; 5]) -> Answer {
        match word {
            0 => Answer::Read(Counts { vars, ops, maps, edition, quota }),
            _ => told(word, "", false),
        }
    }

    pub fn read(text: &[u8], facts: &mut [u8], costs: &mut [u32], shares: &mut [u32]) -> Answer {
        let before = Reading::before(facts, costs, shares);
        let whole = before.clone().whole(text);
        facts.copy_from_slice(&whole.facts);
        costs.copy_from_slice(&whole.costs);
        shares.copy_from_slice(&whole.shares);
        match as_read(whole.word, whole.row) {
            answer if whole.is_that_of_pieces(&before, text) => answer,
            answer => Answer::Told(format!("{answer}\nin pieces otherwise")),
        }
    }

    /// A text in pieces: its words, as the library is lent them.
    pub struct SoFar([u32; 20]);

    pub fn begin_text() -> (SoFar, Answer) {
        let mut words = [u32::MAX; 20];
        let word = ffi::begin_text(&mut words);
        (SoFar(words), told(word, "begun", false))
    }

    pub fn take_piece(so_far: &mut SoFar, area: &mut [u8], piece: &[u8]) -> Answer {
        told(ffi::take_piece(&mut so_far.0, area, piece), "taken", false)
    }

    pub fn end_text(so_far: &mut SoFar, area: &[u8], facts: &mut [u8], costs: &mut [u32], shares: &mut [u32]) -> Answer {
        let mut row = [0; 5];
        let word = ffi::end_text(&mut so_far.0, area, &mut row, facts, costs, shares);
        as_read(word, row)
    }

    pub fn write(lent: Lent<'_>, buffer: &mut [u8]) -> Answer {
        told(over(lent, |task| ffi::write(task, buffer)), "length", true)
    }

    pub fn check(lent: Lent<'_>) -> Answer {
        told(over(lent, ffi::check), "clean", false)
    }

    pub fn distances(lent: Lent<'_>, map: u32, out: &mut [u32], best: &mut [u8]) -> Answer {
        told(over(lent, |task| ffi::distances(task, map, out, best)), "rounds", true)
    }

    pub fn distance_at(lent: Lent<'_>, map: u32, state: &[u8]) -> Answer {
        told(over(lent, |task| ffi::distance_at(task, map, state)), "of", true)
    }

    pub fn best_at(lent: Lent<'_>, map: u32, state: &[u8]) -> Answer {
        told(over(lent, |task| ffi::best_at(task, map, state)), "take", true)
    }

    pub fn bound(lent: Lent<'_>, state: &[u8]) -> Answer {
        told(over(lent, |task| ffi::bound(task, state)), "of", true)
    }

    pub fn judge(lent: Lent<'_>, state: &[u8], list: &[u32]) -> Answer {
        told(over(lent, |task| ffi::judge(task, state, list)), "passed", true)
    }

    /// The library has no function for a row of records: it is lent the tables that the row stands for.
    pub fn judge_row(lent: Lent<'_>, row: &[Record], state: &[u8], list: &[u32]) -> Answer {
        let (facts, costs) = laid(row, lent.facts);
        let counts = Counts { ops: row.len() as u32, ..lent.counts };
        judge(Lent { counts, facts: &facts, costs: &costs, ..lent }, state, list)
    }

    pub fn cheaper(lent: Lent<'_>, state: &[u8], a: &[u32], b: &[u32]) -> Answer {
        told(over(lent, |task| ffi::cheaper(task, state, a, b)), "", false)
    }

    pub fn opening(lent: Lent<'_>, state: &[u8], a: &[u32], b: &[u32]) -> Answer {
        let word = over(lent, |task| ffi::opening(task, state, a, b));
        let (list, of) = if word % 256 == 131 { (2, b) } else { (1, a) };
        let part = &of[..(word / 256) as usize];
        let ops: String = part.iter().map(|op| format!(" {op}")).collect();
        Answer::Told(format!("opening {list} {}{ops}", part.len()))
    }

    /// A refused start leaves the memory of zeros that it is lent here, and so the script's run of zeros.
    pub fn begin(lent: Lent<'_>, start: &[u8]) -> (Run, Answer) {
        let (mut bytes, mut words) = ([0; 2 * VARS], [0; STEPS + 1 + MAPS + 2]);
        let word = over(lent, |task| ffi::begin(task, start, &mut bytes, &mut words));
        (Run::of(&bytes, &words), told(word, "fresh", false))
    }

    pub fn offer(run: &Run, lent: Lent<'_>, number: u32, op: u32) -> (Run, Answer) {
        let (mut bytes, mut words) = run.lent();
        let word = over(lent, |task| ffi::offer(task, &mut bytes, &mut words, number, op));
        (Run::of(&bytes, &words), told(word, "accepted", false))
    }
}

use std::io::{self, Read, Write};

fn main() -> io::Result<()> {
    let mut lines = Vec::new();
    io::stdin().read_to_end(&mut lines)?;
    io::stdout().write_all(&script::expect(&lines))
}
