//! A task's text that comes in pieces, in memory that the desk is lent.
use crate::{ffi, told, Counts, Refusal, Task, COSTS, COUNTS, FACTS, SHARES};
use std::io;

/// The places of a text in pieces in memory: words that say how far it was read, and the bytes of an area to read it in, which are nobody's answer.
pub const TEXT_WORDS: usize = 20;
pub const AREA: usize = 8192;

/// A task's text that comes in pieces of any lengths, empty ones too. The text isn't kept, only what has been read so far.
///
/// However it was cut, [`Reading::end`] answers what [`Task::read`] answers for the whole. Each write is one piece, so what comes through a pipe can be copied into it:
///
/// ```
/// use mihaedop::{Reading, Seconds};
///
/// let mut pipe: &[u8] = b"edition=1\nvars=1\ndom=2\ninit=0\ngoal=0:1\nops=1\nop=5;0:0;0:1\nmaps=1\nmap=0,1\nshare=5\n";
/// let mut reading = Reading::new();
/// std::io::copy(&mut pipe, &mut reading)?;
/// let task = reading.end()?;
/// assert_eq!(task.bound(&task.initial())?, Some(Seconds(5)));
/// # Ok::<(), Box<dyn std::error::Error>>(())
/// ```
// Nobody else writes to them, so that they are handed on as they were left: altered ones could end in tables that are no task's.
#[derive(Clone)]
pub struct Reading {
    words: [u32; TEXT_WORDS],
    area: Box<[u8; AREA]>,
}

impl Reading {
    /// Begins a text.
    pub fn new() -> Reading {
        let mut reading = Reading { words: [0; TEXT_WORDS], area: Box::new([0; AREA]) };
        reading.begin_again();
        reading
    }

    /// Begins another text in the same memory, wherever the one before was left.
    pub fn begin_again(&mut self) {
        told(ffi::begin_text(&mut self.words)).expect("as many words as the desk asks for");
    }

    /// Takes the next piece. A fault in the text is told at the end; after the end a piece is refused, with 2 at place 0.
    pub fn take(&mut self, piece: &[u8]) -> Result<(), Refusal> {
        told(ffi::take_piece(&mut self.words, &mut self.area[..], piece)).map(|_| ())
    }

    /// Ends the text: the task, or why not. A second end is refused, with 2 at place 0.
    pub fn end(&mut self) -> Result<Task, Refusal> {
        let mut facts = [0; FACTS];
        let mut costs = [0; COSTS];
        let mut shares = [0; SHARES];
        let counts = self.end_into(&mut facts, &mut costs, &mut shares)?.row();
        Ok(Task { counts, facts, costs, shares })
    }

    /// The same into lent tables, as [`read()`](crate::read) fills them. A table that is too short is refused with 8 and isn't the end: the text may go on, or be ended again.
    pub fn end_into(&mut self, facts: &mut [u8], costs: &mut [u32], shares: &mut [u32]) -> Result<Counts, Refusal> {
        let mut row = [0; COUNTS];
        told(ffi::end_text(&mut self.words, &self.area[..], &mut row, facts, costs, shares))?;
        Ok(Counts::of_row(row))
    }
}

impl Default for Reading {
    fn default() -> Reading {
        Reading::new()
    }
}

/// Each write is one piece, and all of it is taken; after the end the error carries the [`Refusal`]. There is nothing to flush.
impl io::Write for Reading {
    fn write(&mut self, piece: &[u8]) -> io::Result<usize> {
        self.take(piece).map_err(|refusal| io::Error::new(io::ErrorKind::Other, refusal))?;
        Ok(piece.len())
    }

    fn flush(&mut self) -> io::Result<()> {
        Ok(())
    }
}
