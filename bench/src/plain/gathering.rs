//! What most would write to take a text in pieces: they are put together, and read whole at the end.
use super::reading::{long_enough, read};
use super::{refuse, Refusal};
use mihaedop::{COUNTS, TEXT};

/// A text so far, put together from its pieces; of one that is too long only as much as shows that.
pub struct Gathering {
    text: Vec<u8>,
    ended: bool,
}

impl Gathering {
    pub fn new() -> Gathering {
        Gathering { text: Vec::with_capacity(TEXT + 1), ended: false }
    }

    /// Begins another text in the same memory.
    pub fn begin_again(&mut self) {
        self.text.clear();
        self.ended = false;
    }

    #[inline(never)]
    pub fn take(&mut self, piece: &[u8]) -> Result<(), Refusal> {
        if self.ended {
            return refuse(2, 0);
        }
        let room = TEXT + 1 - self.text.len();
        self.text.extend_from_slice(&piece[..piece.len().min(room)]);
        Ok(())
    }

    #[inline(never)]
    pub fn end(&mut self, facts: &mut [u8], costs: &mut [u32], shares: &mut [u32]) -> Result<[u32; COUNTS], Refusal> {
        long_enough(facts, costs, shares)?;
        if self.ended {
            return refuse(2, 0);
        }
        self.ended = true;
        read(&self.text, facts, costs, shares)
    }
}
