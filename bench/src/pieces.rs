//! Reading a task's text whole, and in pieces, by the desk and two baselines: one goes on a byte at a time and keeps no text, the other reads a text at once, and gathers
//! pieces before. Each has the same memory each time.
use crate::plain::{Gathering, Stepping};
use crate::sides::{Desk, Pieces, Plain, Told};
use crate::tables::Tables;
use crate::text::Text;
use crate::timing::{tell_rates, timed_with_two};
use mihaedop::{Reading, Task};

/// The bytes of a piece.
const SIZES: [usize; 3] = [1, 64, 4096];

impl Text<'_> {
    /// The work of reading it in pieces of so many bytes; the last of them may be shorter.
    pub fn reading_in_pieces<'a, P: Pieces + 'a>(&'a self, size: usize) -> impl FnMut() + 'a {
        let (mut so_far, mut tables) = (P::new(), Tables::zeros());
        let told = Told::Counts(self.tables.counts);
        move || {
            so_far.begin_again();
            for piece in self.text.chunks(size) {
                assert!(matches!(so_far.take(piece), Told::Taken));
            }
            let Tables { facts, costs, shares, .. } = &mut tables;
            assert_eq!(so_far.end(facts, costs, shares), told);
        }
    }
}

pub fn measure(name: &str, task: &Task, text: &[u8]) {
    let text = Text::of(task, text);
    let bytes = text.text.len();
    let whole = timed_with_two(text.reading::<Desk>(), text.reading_in_pieces::<Stepping>(bytes), text.reading::<Plain>());
    tell_rates(name, &format!("whole, {bytes} bytes"), bytes, whole);
    for size in SIZES {
        let (desk, stepping) = (text.reading_in_pieces::<Reading>(size), text.reading_in_pieces::<Stepping>(size));
        let times = timed_with_two(desk, stepping, text.reading_in_pieces::<Gathering>(size));
        tell_rates(name, &format!("in pieces of {size}"), bytes, times);
    }
}
