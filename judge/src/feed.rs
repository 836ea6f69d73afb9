//! What a script does with a text in pieces: from line to line, and a whole text by the lengths of one line.

use crate::desk::{self, Answer, SoFar};
use crate::limits::AREA_ROOM;

/// The places of the area: more than have to be lent.
pub const AREA_PLACES: usize = 8_200;
/// What the area holds after a reset. It may hold anything, so it isn't 0: a desk clears what it uses.
const RUBBISH: u8 = 255;

/// The text so far, its area, and how many bytes of the script's text were taken.
pub struct Feed {
    so_far: SoFar,
    area: Vec<u8>,
    pub taken: usize,
}

impl Feed {
    pub fn new() -> Feed {
        Feed { so_far: desk::begin_text().0, area: vec![RUBBISH; AREA_PLACES], taken: 0 }
    }

    /// The script's text is another one: pieces are taken from its beginning on.
    pub fn rewind(&mut self) {
        self.taken = 0;
    }

    /// The area stays as it was left.
    pub fn begin(&mut self) -> Answer {
        let (so_far, answer) = desk::begin_text();
        self.so_far = so_far;
        self.rewind();
        answer
    }

    /// The next bytes of the text, as many as there are, with so many places of the area lent. The place moves on also where they are
    /// refused.
    pub fn take(&mut self, text: &[u8], lent: usize, length: usize) -> Answer {
        let left = &text[self.taken..];
        let piece = &left[..length.min(left.len())];
        self.taken += piece.len();
        desk::take_piece(&mut self.so_far, &mut self.area[..lent], piece)
    }

    pub fn end(&mut self, lent: usize, facts: &mut [u8], costs: &mut [u32], shares: &mut [u32]) -> Answer {
        desk::end_text(&mut self.so_far, &self.area[..lent], facts, costs, shares)
    }
}

/// A whole text in pieces of these lengths, which are one at least; what is left after them goes in pieces of the last one, or in one
/// piece if that is 0.
pub fn read_in_pieces(text: &[u8], lengths: &[u32], facts: &mut [u8], costs: &mut [u32], shares: &mut [u32]) -> Answer {
    let mut feed = Feed::new();
    for length in lengths {
        feed.take(text, AREA_ROOM, *length as usize);
    }
    let rest = lengths.last().filter(|length| **length > 0).map_or(text.len(), |length| *length as usize);
    while feed.taken < text.len() {
        feed.take(text, AREA_ROOM, rest);
    }
    feed.end(AREA_ROOM, facts, costs, shares)
}
