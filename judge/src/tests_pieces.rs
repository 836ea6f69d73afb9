//! Texts in pieces: the end answers as a reading of the whole does, and the refusals come in their order.

use crate::builder::{script_of, text_of_task};
use crate::cases::{A, E};
use crate::damages::some_text;
use crate::desk::{self, Answer};
use crate::feed::{read_in_pieces, Feed, AREA_PLACES};
use crate::limits::*;
use crate::pieces::{cut_by_chance, pieces, with_slips};
use crate::rng::Rng;
use crate::script::expect;
use crate::task::Fault;
use crate::writing::largest;

/// Tables with something in every place.
struct Tables {
    facts: Vec<u8>,
    costs: Vec<u32>,
    shares: Vec<u32>,
}

fn dirty() -> Tables {
    Tables { facts: vec![201; FACTS_ROOM], costs: vec![4_000_000_000; COSTS_ROOM], shares: vec![4_000_000_001; SHARES_ROOM] }
}

/// An answer with what is left in the tables.
type Left = (Answer, Vec<u8>, Vec<u32>, Vec<u32>);

fn left_by(read: impl FnOnce(&mut [u8], &mut [u32], &mut [u32]) -> Answer) -> Left {
    let Tables { mut facts, mut costs, mut shares } = dirty();
    let answer = read(&mut facts, &mut costs, &mut shares);
    (answer, facts, costs, shares)
}

fn whole(text: &[u8]) -> Left {
    left_by(|facts, costs, shares| desk::read(text, facts, costs, shares))
}

fn in_pieces(text: &[u8], lengths: &[u32]) -> Left {
    left_by(|facts, costs, shares| read_in_pieces(text, lengths, facts, costs, shares))
}

fn refusal(number: u32, place: u32) -> Answer {
    Answer::Refused(Fault { number, place })
}

/// What a script prints but the places, the text being held.
fn answers(text: &str, lines: &str) -> Vec<String> {
    let script = format!("t {}\n{}\n{}\n", text.len(), text, lines.replace("; ", "\n"));
    let printed = String::from_utf8(expect(script.as_bytes())).unwrap();
    let place = |line: &&str| ["facts", "costs", "shares"].contains(&line.split(' ').next().unwrap());
    printed.lines().filter(|line| !place(line)).map(str::to_string).collect()
}

#[test]
fn a_text_cut_by_chance_is_read_as_the_whole() {
    let mut rng = Rng::of_either_edition(21);
    let mut accepted = 0;
    for _ in 0..300 {
        let text = some_text(&mut rng);
        let most = rng.pick(&[1, 3, 40, text.len()]);
        let lengths: Vec<u32> = (0..rng.between(1, 16)).map(|_| rng.below(most + 1) as u32).collect();
        let left = whole(&text);
        assert_eq!(in_pieces(&text, &lengths), left, "{:?}", lengths);
        accepted += usize::from(matches!(left.0, Answer::Read(_)));
    }
    assert!((100..250).contains(&accepted), "{}", accepted);
}

#[test]
fn case_a_cut_in_two_at_every_place() {
    for place in 0..=A.len() as u32 + 1 {
        assert_eq!(in_pieces(A.as_bytes(), &[place, 0]), whole(A.as_bytes()));
    }
}

/// The place of the next piece tells how many bytes the last one had.
#[test]
fn a_piece_has_as_many_bytes_as_are_asked_for_or_left() {
    let mut feed = Feed::new();
    for (length, from, to) in [(3, 0, 3), (0, 3, 3), (4, 3, 7), (9, 7, 10), (1, 10, 10)] {
        assert_eq!(feed.taken, from);
        assert_eq!(feed.take(b"0123456789", AREA_ROOM, length), Answer::Taken);
        assert_eq!(feed.taken, to);
    }
    feed.rewind();
    assert_eq!(feed.taken, 0);
}

#[test]
fn number_1_comes_before_a_fault_and_only_above_16384_bytes() {
    for fault in ["", "x"] {
        let text = |length: usize| format!("{fault}{A}{}", "y".repeat(length - A.len() - fault.len())).into_bytes();
        for lengths in [&[1][..], &[4_096], &[16_384, 1], &[0], &[0, 0, 16_385]] {
            assert_eq!(in_pieces(&text(16_385), lengths).0, refusal(1, 0));
            assert_eq!(in_pieces(&text(16_384), lengths).0, refusal(2, if fault.is_empty() { 18 } else { 1 }));
        }
    }
}

#[test]
fn the_longest_text_in_pieces() {
    let text = text_of_task(&largest());
    assert!(text.len() > AREA_PLACES);
    for length in [1, 4_095, 4_096, 9_596, 0] {
        assert_eq!(in_pieces(&text, &[length]), whole(&text));
    }
}

/// Every end into tables with something in each place; what it leaves is told by its answer alone.
#[test]
fn tables_are_written_by_an_accepted_end_alone() {
    let mut feed = Feed::new();
    let untouched = |left: Left, answer: Answer| {
        let Tables { facts, costs, shares } = dirty();
        assert_eq!(left, (answer, facts, costs, shares));
    };
    let end = |feed: &mut Feed, area: usize| left_by(|facts, costs, shares| feed.end(area, facts, costs, shares));
    assert_eq!(feed.take(E.as_bytes(), AREA_ROOM, 112), Answer::Taken);
    untouched(end(&mut feed, AREA_ROOM - 1), refusal(8, 0));
    untouched(left_by(|facts, costs, shares| feed.end(AREA_ROOM, &mut facts[1..], costs, shares)), refusal(8, 0));
    untouched(left_by(|facts, costs, shares| feed.end(AREA_ROOM, facts, &mut costs[1..], shares)), refusal(8, 0));
    untouched(left_by(|facts, costs, shares| feed.end(AREA_ROOM, facts, costs, &mut shares[1..])), refusal(8, 0));
    assert_eq!(feed.take(E.as_bytes(), AREA_ROOM, 1), Answer::Taken);
    assert_eq!(end(&mut feed, AREA_ROOM), whole(E.as_bytes()));
    untouched(end(&mut feed, AREA_ROOM), refusal(2, 0));
    assert_eq!(feed.begin(), Answer::Begun);
    untouched(end(&mut feed, AREA_ROOM), refusal(2, 1));
}

#[test]
fn after_the_end_8_comes_before_2_at_place_0() {
    let lines = "S; I 113; F; I 1; F; l 17 8191; I 0; F; l 17 8192; I 0; l 0 1623; I 0; F; l 0 1624; F";
    let due = [
        "begun",
        "taken",
        "accepted 2 1 2",
        "refused 2 0",
        "refused 2 0",
        "refused 8 0",
        "refused 8 0",
        "refused 2 0",
        "refused 2 0",
        "refused 8 0",
        "refused 2 0",
    ];
    assert_eq!(answers(E, lines), due);
}

#[test]
fn a_refusal_of_8_is_not_the_end() {
    let lines = "I 50; l 17 8191; I 0; F; l 17 8192; I 62; l 1 63; F; l 1 64; I 1; F; F; q";
    let due = ["taken", "refused 8 0", "refused 8 0", "taken", "refused 8 0", "taken", "accepted 2 1 2", "refused 2 0", "counts 2 1 2"];
    assert_eq!(answers(E, lines), due);
}

/// The place moves on; a new text is taken from its beginning; and a whole text in pieces is beside all that.
#[test]
fn the_script_of_pieces() {
    let text = format!("{}xx{}", &E[..50], &E[50..]);
    let taken = answers(&text, "S; I 50; l 17 0; I 2; l 17 8200; V 7; I 99; F; F; S; F; z; F");
    let due =
        ["begun", "taken", "refused 8 0", "refused 2 6", "taken", "accepted 2 1 2", "refused 2 0", "begun", "refused 2 1", "refused 2 1"];
    assert_eq!(taken, due);
    assert_eq!(
        answers(E, "I 113\nt 0\n\nI 9; F; V 1; l 17 8201; I 0; p 17 0"),
        ["taken", "taken", "accepted 2 1 2", "refused 2 1", "refused 2 0"]
    );
    assert_eq!(answers(E, "S 1; I; I 1 2; F 1; V; V x"), ["bad"; 6]);
}

/// What they try stays tried: each number that a text is refused with, and a piece or an end that comes too late.
#[test]
fn the_vectors_over_pieces_have_every_refusal_of_a_text() {
    let printed = String::from_utf8(expect(&script_of(&pieces(1)))).unwrap();
    for refused in ["1 0", "2 0", "2 1", "3 ", "4 ", "5 ", "6 ", "7 ", "8 0", "18 "] {
        assert!(printed.contains(&format!("\nrefused {}", refused)), "{}", refused);
    }
}

#[test]
fn vectors_by_chance_over_pieces_are_accepted_and_refused() {
    let mut rng = Rng::of_either_edition(22);
    let vectors: Vec<_> = (0..60).map(|i| if i % 2 == 0 { with_slips(&mut rng) } else { cut_by_chance(&mut rng) }).collect();
    let printed = String::from_utf8(expect(&script_of(&vectors))).unwrap();
    let count = |line: &str| printed.lines().filter(|printed| printed.starts_with(line)).count();
    for (line, least) in [("accepted", 100), ("refused 2 0", 20), ("refused 8 0", 5), ("refused 2 ", 60), ("refused 3 ", 5), ("taken", 200)]
    {
        assert!(count(line) >= least, "{} {}", count(line), line);
    }
}
