//! That the desk, lent words or an area that are too short for a text in pieces, says 8 and alters nothing, and that the text goes on as if it hadn't been asked. The
//! baselines have memory of their own. The crate lends none that is too short, so that the exported functions are asked themselves.
#[allow(dead_code)]
#[path = "../../../bindings/rust/src/ffi.rs"]
mod ffi;

use super::pieces::{marked, Read, NEEDED};
use super::text::{Lent, MARK};
use super::Both;
use crate::sides::Told;
use mihaedop::{AREA, COUNTS, TEXT_WORDS};

/// The bytes of a piece.
const SIZE: usize = 64;

/// Words for done, for 8, and for what comes after the end.
const DONE: u64 = 0;
const SHORT: u64 = 8;
const OVER: u64 = 2;

/// Words and areas of which one is too short.
const SHORTER: [(usize, usize); 4] = [(0, AREA), (TEXT_WORDS - 1, AREA), (TEXT_WORDS, 0), (TEXT_WORDS, AREA - 1)];

/// All that is lent for a text in pieces, the words and the area with a place beyond.
#[derive(Clone, PartialEq)]
struct Memory {
    words: [u32; TEXT_WORDS + 1],
    area: [u8; AREA + 1],
    counts: [u32; COUNTS],
    tables: Lent,
}

impl Memory {
    fn take(&mut self, (words, area): (usize, usize), piece: &[u8]) -> u64 {
        ffi::take_piece(&mut self.words[..words], &mut self.area[..area], piece)
    }

    fn end(&mut self, (words, area): (usize, usize), counts: usize) -> u64 {
        let Memory { words: of_text, area: work, counts: row, tables: (facts, costs, shares) } = self;
        ffi::end_text(&mut of_text[..words], &work[..area], &mut row[..counts], facts, costs, shares)
    }

    /// Asked with each memory that is too short, nothing is altered.
    fn refuses(&mut self, what: &str, ask: impl Fn(&mut Memory, (usize, usize)) -> u64) -> Result<(), String> {
        let before = self.clone();
        for shorter in SHORTER {
            let told = ask(self, shorter);
            if told != SHORT || *self != before {
                return Err(format!(
                    "{what}, with {} words and an area of {} bytes, the desk says {told}, or alters something",
                    shorter.0, shorter.1
                ));
            }
        }
        Ok(())
    }
}

impl Both<'_> {
    /// A text for which this was told and left when it was read whole.
    pub fn short_memory(&mut self, text: &[u8], whole: &Read) -> Result<(), String> {
        let enough = (TEXT_WORDS + 1, AREA + 1);
        let mark = u32::from(MARK);
        let mut memory = Memory { words: [mark; TEXT_WORDS + 1], area: [MARK; AREA + 1], counts: [0; COUNTS], tables: marked(NEEDED) };
        let mut told = vec![ffi::begin_text(&mut memory.words)];
        for piece in text.chunks(SIZE) {
            memory.refuses("before a piece", |memory, shorter| memory.take(shorter, piece))?;
            told.push(memory.take(enough, piece));
        }
        memory.refuses("before the end", |memory, shorter| memory.end(shorter, COUNTS))?;
        memory.refuses("before the end, with a row of 4 counts", |memory, _| memory.end(enough, COUNTS - 1))?;
        told.push(memory.end(enough, COUNTS));
        if told.iter().any(|&told| told != DONE) || (Told::Counts(memory.counts), &memory.tables) != (whole.0, &whole.1) {
            return Err("a text in pieces is read otherwise after memory that was too short".to_string());
        }
        memory.refuses("after the end", |memory, shorter| memory.end(shorter, COUNTS).max(memory.take(shorter, text)))?;
        let before = memory.clone();
        let beyond = (memory.words[TEXT_WORDS], memory.area[AREA]);
        if [memory.take(enough, text), memory.end(enough, COUNTS)] != [OVER; 2] || memory != before || beyond != (mark, MARK) {
            return Err("the desk goes on after the end, or alters what is lent beyond its memory".to_string());
        }
        self.alike += 2 * SHORTER.len() + told.len();
        Ok(())
    }
}
