//! A text that comes in pieces: however it is cut, it is read as the whole is. What is refused after its end, what is no end yet, and that the area it is read in may
//! hold anything before.
#[path = "../src/ffi.rs"]
#[allow(dead_code)]
mod ffi;
mod shared;

use mihaedop::*;
use shared::{refusal, A, G};
use std::io::{self, Read, Write};

/// Texts that are accepted, those with every count at its limit among them.
const ACCEPTED: [&str; 4] = [A, G, include_str!("../../../bench/largest.txt"), include_str!("../../../bench/largest2.txt")];

/// A view with eight classes in each of five variables.
const LARGE_VIEW: &str = "edition=1
vars=5
dom=8,8,8,8,8
init=0,0,0,0,0
goal=-
ops=0
maps=1
map=0,1,2,3,4,5,6,7/0,1,2,3,4,5,6,7/0,1,2,3,4,5,6,7/0,1,2,3,4,5,6,7/0,1,2,3,4,5,6,7
share=-
";

/// Texts with a fault, and what they are refused with.
const FAULTY: [(&str, (u8, u32)); 11] = [
    ("", (2, 1)),
    ("edition=1\nvars=01\n", (2, 2)),
    ("edition=2\nvars=1\ndom=2,\n", (2, 3)),
    ("edition=3\nvars=1\n", (3, 1)),
    ("edition=2\nvars=1\ndom=2\ninit=0\ngoal=0:1\nquota=1025\nops=1\n", (3, 6)),
    ("edition=1\nvars=2\ndom=2,2\ninit=0,0\ngoal=1:1,0:1\nops=1\n", (4, 5)),
    ("edition=1\nvars=1\ndom=2\ninit=0\ngoal=-\nops=0\nmaps=1\nmap=1,1\nshare=-\n", (5, 8)),
    (include_str!("../../../cases/C.txt"), (6, 8)),
    (LARGE_VIEW, (7, 8)),
    ("edition=1\nvars=1\ndom=2\ninit=0\ngoal=-\nops=1\nop=5;0:0;0:0\nmaps=1\nmap=0,1\nshare=5\n", (18, 7)),
    ("edition=2\nvars=1\ndom=2\ninit=0\ngoal=-\nquota=1\nops=1\nop=5;0:0;0:0;1\nmaps=1\nmap=0,1\nshare=5\n", (18, 8)),
];

/// What stands in a place of a table before it is written.
const OTHER: u8 = 0xa5;
const OTHER_WORD: u32 = 0xa5a5_a5a5;

/// An answer, and every place of the tables that were lent for it, some of them beyond those that are needed.
#[derive(Debug, PartialEq)]
struct Left {
    answer: Result<Counts, Refusal>,
    facts: [u8; FACTS + 1],
    costs: [u32; COSTS + 1],
    shares: [u32; SHARES + 1],
}

fn left(answer: impl FnOnce(&mut [u8], &mut [u32], &mut [u32]) -> Result<Counts, Refusal>) -> Left {
    let (mut facts, mut costs, mut shares) = ([OTHER; FACTS + 1], [OTHER_WORD; COSTS + 1], [OTHER_WORD; SHARES + 1]);
    Left { answer: answer(&mut facts, &mut costs, &mut shares), facts, costs, shares }
}

impl Left {
    fn of_whole(text: &[u8]) -> Left {
        left(|facts, costs, shares| read(text, facts, costs, shares))
    }

    fn of_end(reading: &mut Reading) -> Left {
        left(|facts, costs, shares| reading.end_into(facts, costs, shares))
    }

    fn of_pieces<'a>(pieces: impl IntoIterator<Item = &'a [u8]>) -> Left {
        Left::of_end(&mut taken(pieces))
    }

    /// The tables are as they were before.
    fn unwritten(&self) -> bool {
        left(|_, _, _| self.answer) == *self
    }
}

/// A text so far, after these pieces.
fn taken<'a>(pieces: impl IntoIterator<Item = &'a [u8]>) -> Reading {
    let mut reading = Reading::new();
    pieces.into_iter().for_each(|piece| reading.take(piece).expect("a piece before the end"));
    reading
}

/// A text cut after each so many bytes, with an empty piece before each.
fn with_empty_ones(text: &[u8], bytes: usize) -> impl Iterator<Item = &[u8]> {
    text.chunks(bytes).flat_map(|piece| [&piece[..0], piece])
}

#[test]
fn however_it_is_cut_a_text_is_read_as_the_whole_is() {
    for text in ACCEPTED.iter().chain(FAULTY.iter().map(|(text, _)| text)).map(|text| text.as_bytes()) {
        let whole = Left::of_whole(text);
        assert_eq!(Left::of_pieces([text]), whole);
        for at in 0..=text.len() {
            let (before, after) = text.split_at(at);
            assert_eq!(Left::of_pieces([before, after]), whole);
        }
        for bytes in 1..=20 {
            assert_eq!(Left::of_pieces(text.chunks(bytes)), whole);
            assert_eq!(Left::of_pieces(with_empty_ones(text, bytes)), whole);
        }
    }
}

#[test]
fn an_accepted_text_gives_the_task_of_the_whole_and_a_fault_is_told_at_its_line() {
    for text in ACCEPTED.map(str::as_bytes) {
        let (task, whole) = (taken(text.chunks(3)).end().expect("a task"), Task::read(text).expect("a task"));
        assert_eq!((task.counts(), task.tables(), task.to_text()), (whole.counts(), whole.tables(), text.to_vec()));
    }
    for (text, told) in FAULTY {
        let end = Left::of_pieces(text.as_bytes().chunks(3));
        assert!(end.unwritten());
        assert_eq!((refusal(end.answer), refusal(Task::read(text.as_bytes()))), (told, told));
        assert_eq!(refusal(taken(text.as_bytes().chunks(3)).end()), told);
    }
    assert_eq!(refusal(Reading::new().end()), (2, 1));
}

#[test]
fn one_byte_too_many_is_1_before_any_fault_wherever_it_is() {
    for (text, _) in FAULTY.iter().chain([&(A, (0, 0))]) {
        let mut long = text.as_bytes().to_vec();
        long.resize(3 * TEXT, b'x');
        for bytes in [1, 7, 4096, TEXT, TEXT + 1, 3 * TEXT] {
            assert_eq!(Left::of_pieces(with_empty_ones(&long[..TEXT], bytes)), Left::of_whole(&long[..TEXT]));
            assert_ne!(refusal(Left::of_whole(&long[..TEXT]).answer), (1, 0));
            for length in [TEXT + 1, 3 * TEXT] {
                let end = Left::of_pieces(with_empty_ones(&long[..length], bytes));
                assert!(end.unwritten());
                assert_eq!(refusal(end.answer), (1, 0));
            }
        }
    }
}

#[test]
fn after_the_end_a_piece_and_a_second_end_are_refused() {
    for text in [A.as_bytes(), b"edition=3", &[0; TEXT + 1]] {
        let mut reading = taken([text]);
        let first = reading.end().map(|task| task.to_text());
        assert_eq!(first, Task::read(text).map(|task| task.to_text()));
        for piece in [&b""[..], b"edition=1\n"] {
            assert_eq!(refusal(reading.take(piece)), (2, 0));
        }
        let second = Left::of_end(&mut reading);
        assert!(second.unwritten());
        assert_eq!(refusal(second.answer), (2, 0));
        let told = reading.end().err().expect("a refusal");
        assert_eq!((told.place(), told.to_string()), (Place::Nowhere, "refused 2 at place 0: the text has ended".to_string()));
    }
}

#[test]
fn a_table_that_is_too_short_is_no_end() {
    let (half, rest) = A.as_bytes().split_at(100);
    let mut reading = taken([half]);
    let refuse = |reading: &mut Reading| {
        for [facts, costs, shares] in [[FACTS - 1, COSTS, SHARES], [FACTS, COSTS - 1, SHARES], [FACTS, COSTS, SHARES - 1], [0, 0, 0]] {
            let end = left(|f, c, s| reading.end_into(&mut f[..facts], &mut c[..costs], &mut s[..shares]));
            assert!(end.unwritten());
            assert_eq!(refusal(end.answer), (8, 0));
        }
    };
    refuse(&mut reading);
    reading.take(rest).expect("a piece before the end");
    refuse(&mut reading);
    assert_eq!(Left::of_end(&mut reading), Left::of_whole(A.as_bytes()));
    refuse(&mut reading);
    assert_eq!(refusal(reading.end()), (2, 0));
}

/// Delivers a text in so many bytes a read.
struct Pipe<'a>(&'a [u8], usize);

impl Read for Pipe<'_> {
    fn read(&mut self, buffer: &mut [u8]) -> io::Result<usize> {
        let bytes = self.1.min(buffer.len());
        self.0.read(&mut buffer[..bytes])
    }
}

#[test]
fn what_is_written_is_a_piece_and_after_the_end_an_error_that_carries_the_refusal() {
    for bytes in [1, 7, 64, TEXT] {
        let mut reading = Reading::default();
        assert_eq!(io::copy(&mut Pipe(A.as_bytes(), bytes), &mut reading).expect("all is taken"), A.len() as u64);
        assert_eq!(Left::of_end(&mut reading), Left::of_whole(A.as_bytes()));
    }
    let mut reading = Reading::new();
    assert_eq!(reading.write(b"").expect("an empty piece"), 0);
    assert_eq!(reading.write(G.as_bytes()).expect("a piece"), G.len());
    reading.flush().expect("nothing to flush");
    assert_eq!(Left::of_end(&mut reading), Left::of_whole(G.as_bytes()));
    let error = reading.write(b"x").expect_err("a piece after the end");
    let carried = error.get_ref().and_then(|inner| inner.downcast_ref::<Refusal>()).expect("a refusal");
    assert_eq!((carried.number(), carried.place_number()), (2, 0));
    assert!(reading.flush().is_ok() && io::copy(&mut Pipe(b"x", 1), &mut reading).is_err());
}

#[test]
fn two_texts_that_come_by_turns_and_a_copy_are_read_each_by_itself() {
    let [mut first, mut second] = [Reading::new(), Reading::new()];
    let mut bytes = [A, G].map(|text| text.as_bytes().chunks(1));
    for _ in 0..A.len().max(G.len()) {
        first.take(bytes[0].next().unwrap_or(b"")).expect("a piece before the end");
        second.take(bytes[1].next().unwrap_or(b"")).expect("a piece before the end");
    }
    let mut copy = first.clone();
    copy.take(b"x").expect("a piece before the end");
    assert_eq!(Left::of_end(&mut first), Left::of_whole(A.as_bytes()));
    assert_eq!(Left::of_end(&mut second), Left::of_whole(G.as_bytes()));
    assert_eq!(Left::of_end(&mut copy), Left::of_whole(format!("{A}x").as_bytes()));
}

#[test]
fn another_text_is_begun_in_the_same_memory_wherever_the_one_before_was_left() {
    let mut reading = Reading::new();
    for at in 0..=A.len() {
        reading.take(&A.as_bytes()[..at]).expect("a piece before the end");
        if at % 2 == 0 {
            assert_eq!(Left::of_end(&mut reading), Left::of_whole(&A.as_bytes()[..at]));
        }
        for text in [G, A, ""] {
            reading.begin_again();
            reading.take(text.as_bytes()).expect("a piece before the end");
            assert_eq!(Left::of_end(&mut reading), Left::of_whole(text.as_bytes()));
        }
        reading.begin_again();
    }
}

/// Words and an area that are lent by hand.
#[derive(Clone, Debug, PartialEq)]
struct Lent([u32; TEXT_WORDS], [u8; AREA]);

impl Lent {
    fn begin(&mut self) {
        assert_eq!(ffi::begin_text(&mut self.0), 0);
    }

    fn take(&mut self, piece: &[u8]) -> u64 {
        ffi::take_piece(&mut self.0, &mut self.1, piece)
    }

    fn end(&mut self) -> (u64, Left) {
        let (mut word, mut row) = (0, [0; COUNTS]);
        let left = left(|facts, costs, shares| {
            word = ffi::end_text(&mut self.0, &self.1, &mut row, facts, costs, shares);
            Ok(Counts::of_row(row))
        });
        (word, left)
    }
}

#[test]
fn an_area_may_hold_anything_before_the_first_byte_and_a_text_be_begun_anew_anywhere() {
    let mut lent = Lent([u32::MAX; TEXT_WORDS], [0xff; AREA]);
    for at in 0..=A.len() {
        lent.begin();
        assert_eq!(lent.take(&A.as_bytes()[..at]), 0);
        for text in [A, G] {
            lent.begin();
            assert_eq!(lent.take(b""), 0);
            lent.1[at..].fill(at as u8);
            assert_eq!(lent.take(text.as_bytes()), 0);
            assert_eq!(lent.end(), (0, Left::of_whole(text.as_bytes())));
        }
    }
}

#[test]
fn changed_words_and_areas_get_an_answer_and_a_refusal_alters_nothing() {
    let mut state = 1u64;
    let mut by_chance = |below: u32| {
        state = state.wrapping_mul(6364136223846793005).wrapping_add(1442695040888963407);
        (state >> 33) as u32 % below
    };
    for round in 0..5000 {
        let most = [u32::MAX, 100, 9][round % 3];
        let mut lent = Lent([0; TEXT_WORDS], [0; AREA]);
        lent.begin();
        assert_eq!(lent.take(&A.as_bytes()[..by_chance(A.len() as u32) as usize]), 0);
        (0..1 + round % 30).for_each(|_| lent.0[by_chance(TEXT_WORDS as u32) as usize] = by_chance(most));
        (0..round % 3000).for_each(|_| lent.1[by_chance(AREA as u32) as usize] = by_chance(256) as u8);
        let (was, ended) = (lent.clone(), lent.0[0] != 0);
        assert_eq!(lent.take(&A.as_bytes()[by_chance(A.len() as u32) as usize..]), if ended { 2 } else { 0 });
        assert!(!ended || lent == was);
        let mut expected = lent.clone();
        let (word, tables) = lent.end();
        assert!(word == 0 || (1..128).contains(&(word % 256)) && tables.unwritten());
        if ended {
            assert_eq!(word, 2);
        } else {
            expected.0[0] = 1;
        }
        assert_eq!(lent, expected);
    }
}
