//! Every function of the library, lent a row of counts, a table, or the words or the area of a text in pieces that are too short: 8 at place 0, and nothing is written.
//! The crate lends none of these too short, so that the exported functions are asked themselves.
#[path = "../src/ffi.rs"]
mod ffi;

use ffi::Lent;

/// The places that are needed: of the row of counts, facts, costs and shares; and of what is written.
const NEEDED: [usize; 4] = [5, 1624, 64, 512];
const TEXT: usize = 16384;
const DISTANCES: usize = 4096;
const BEST_STEPS: usize = 4096;
const RUN_BYTES: usize = 16;
const RUN_WORDS: usize = 1035;

/// The places that a text in pieces needs: of its words, its area, and then as above.
const NEEDED_AT_THE_END: [usize; 6] = [20, 8192, 5, 1624, 64, 512];

/// The words of 8 at place 0, of no best step, and of the first list's empty part.
const SHORT: u64 = 8;
const NO_STEP: u64 = 128;
const EMPTY: u64 = 130;

/// A task without operators in either edition, its parts lent with these lengths: one variable of one value, a map and no goal.
fn lent(edition: u32, lengths: [usize; 4], ask: impl Fn(Lent<'_>)) {
    let mut facts = [0; 1625];
    facts[0] = 1;
    let [counts, of_facts, costs, shares] = lengths;
    let row = [1, 0, 1, edition, 0, 0];
    ask(Lent { counts: &row[..counts], facts: &facts[..of_facts], costs: &[0; 65][..costs], shares: &[0; 513][..shares] });
}

/// What each function answers that takes a task, and whether all that was lent to be written is as it was.
fn answers(task: Lent<'_>) -> ([u64; 11], bool) {
    let (mut buffer, mut out, mut best) = ([7; TEXT], [7; DISTANCES], [7; BEST_STEPS]);
    let (mut bytes, mut words) = ([7; RUN_BYTES], [7; RUN_WORDS]);
    let told = [
        ffi::write(task, &mut buffer),
        ffi::check(task),
        ffi::distances(task, 0, &mut out, &mut best),
        ffi::distance_at(task, 0, &[0]),
        ffi::best_at(task, 0, &[0]),
        ffi::bound(task, &[0]),
        ffi::judge(task, &[0], &[]),
        ffi::cheaper(task, &[0], &[], &[]),
        ffi::opening(task, &[0], &[], &[]),
        ffi::begin(task, &[0], &mut bytes, &mut words),
        ffi::offer(task, &mut bytes, &mut words, 1, 0),
    ];
    let run_kept = bytes == [7; RUN_BYTES] && words == [7; RUN_WORDS];
    (told, run_kept && buffer == [7; TEXT] && out == [7; DISTANCES] && best == [7; BEST_STEPS])
}

#[test]
fn a_row_or_a_table_that_is_too_short_is_8_for_every_function() {
    for edition in [1, 2, 3] {
        for part in 0..NEEDED.len() {
            for length in [0, 1, NEEDED[part] - 1] {
                let mut lengths = NEEDED;
                lengths[part] = length;
                lent(edition, lengths, |task| {
                    let (told, kept) = answers(task);
                    assert_eq!(told, [SHORT, SHORT, SHORT, SHORT, SHORT, SHORT, SHORT, SHORT, EMPTY, SHORT, SHORT]);
                    assert!(kept);
                });
            }
        }
    }
}

#[test]
fn a_row_and_tables_that_are_long_enough_are_a_task_and_further_places_are_not_read() {
    for lengths in [NEEDED, NEEDED.map(|places| places + 1)] {
        for edition in [1, 2] {
            let bytes = if edition == 1 { 64 } else { 72 };
            // the offer is 10 at step 1: the task has no operator
            lent(edition, lengths, |task| {
                let (told, kept) = answers(task);
                assert_eq!(told, [256 * bytes, 0, 256, 0, NO_STEP, 0, 0, EMPTY, EMPTY, 0, 10 + 256]);
                assert!(!kept);
            });
        }
        lent(3, lengths, |task| assert_eq!(ffi::check(task), 3 + 256));
    }
}

#[test]
fn a_text_is_read_into_a_row_that_is_long_enough() {
    let text = b"edition=2\nvars=1\ndom=1\ninit=0\ngoal=-\nquota=1024\nops=0\nmaps=1\nmap=0\nshare=-\n";
    let read = |counts: &mut [u32]| ffi::read(text, counts, &mut [0; 1624], &mut [0; 64], &mut [0; 512]);
    for length in 0..5 {
        let mut row = vec![7; length];
        assert_eq!(read(&mut row), SHORT);
        assert_eq!(row, vec![7; length]);
    }
    let mut row = [7; 6];
    assert_eq!(read(&mut row[..5]), 0);
    assert_eq!(row, [1, 0, 1, 2, 1024, 7]);
    assert_eq!(read(&mut row), 0);
    assert_eq!(row, [1, 0, 1, 2, 1024, 7]);
}

const SMALL: &[u8] = b"edition=1\nvars=1\ndom=1\ninit=0\ngoal=-\nops=0\nmaps=1\nmap=0\nshare=-\n";

/// A text in pieces and what its end fills, with a place more than is needed of each.
#[derive(Clone, Debug, PartialEq)]
struct InPieces {
    words: [u32; 21],
    area: [u8; 8193],
    counts: [u32; 6],
    facts: [u8; 1625],
    costs: [u32; 65],
    shares: [u32; 513],
}

impl InPieces {
    fn take(&mut self, piece: &[u8], [words, area, ..]: [usize; 6]) -> u64 {
        ffi::take_piece(&mut self.words[..words], &mut self.area[..area], piece)
    }

    fn end(&mut self, [words, area, counts, facts, costs, shares]: [usize; 6]) -> u64 {
        ffi::end_text(
            &mut self.words[..words],
            &self.area[..area],
            &mut self.counts[..counts],
            &mut self.facts[..facts],
            &mut self.costs[..costs],
            &mut self.shares[..shares],
        )
    }

    /// Each part too short: 8 wherever it is lent, and nothing is written.
    fn refuses_short_parts(&mut self) {
        let was = self.clone();
        for part in 0..NEEDED_AT_THE_END.len() {
            for length in [0, 1, NEEDED_AT_THE_END[part] - 1] {
                let mut lengths = NEEDED_AT_THE_END;
                lengths[part] = length;
                assert_eq!(self.end(lengths), SHORT);
                if part < 2 {
                    assert_eq!(self.take(SMALL, lengths), SHORT);
                }
                if part == 0 {
                    assert_eq!(ffi::begin_text(&mut self.words[..length]), SHORT);
                }
            }
        }
        assert_eq!(*self, was);
    }
}

#[test]
fn a_text_in_pieces_goes_on_after_what_was_too_short_and_further_places_stay_but_those_of_tables() {
    for lengths in [NEEDED_AT_THE_END, NEEDED_AT_THE_END.map(|places| places + 1)] {
        let mut text = InPieces { words: [7; 21], area: [7; 8193], counts: [7; 6], facts: [7; 1625], costs: [7; 65], shares: [7; 513] };
        assert_eq!(ffi::begin_text(&mut text.words[..lengths[0]]), 0);
        text.refuses_short_parts();
        for byte in SMALL.chunks(1) {
            assert_eq!(text.take(byte, lengths), 0);
            text.refuses_short_parts();
        }
        assert_eq!(text.end(lengths), 0);
        let beyond = if lengths == NEEDED_AT_THE_END { 7 } else { 0 };
        assert_eq!((text.words[20], text.area[8192], text.counts), (7, 7, [1, 0, 1, 1, 0, 7]));
        assert_eq!((text.facts[1624], text.costs[64], text.shares[512]), (beyond, u32::from(beyond), u32::from(beyond)));
        text.refuses_short_parts();
        assert_eq!((text.take(b"", lengths), text.end(lengths)), (2, 2));
    }
}
