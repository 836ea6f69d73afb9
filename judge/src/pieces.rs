//! Vectors over texts in pieces, by name and by chance. Where that shows enough, the tables hold the task before: then its reading prints
//! no place.

use crate::builder::{text_of_task, Vector};
use crate::cases::{a_with, c, A, E, G};
use crate::damages::{damaged, idle_text, renumbered};
use crate::edges::wide;
use crate::limits::*;
use crate::quota_texts::{all_storing, g_with, in_edition_2};
use crate::random::{task, Size, LARGE, MEDIUM, SMALL, TINY};
use crate::rng::Rng;
use crate::script::{AREA, ARRAYS, COSTS, FACTS, NUMBERS, SHARES};
use crate::task::Task;
use crate::text::read_text;
use crate::writing::{largest, of_one_value};

/// So many vectors by chance come after the ones by name: the two kinds take turns.
const BY_CHANCE: usize = 10;

/// A text that is held.
fn held(title: &str, text: &str) -> Vector {
    Vector::new(title).text(text.as_bytes())
}

/// A task's text that is held, with the task in the tables.
fn known(title: &str, task: &Task) -> Vector {
    Vector::new(title).tables(task).text(&text_of_task(task))
}

fn task_of(text: &str) -> Task {
    read_text(text.as_bytes()).unwrap()
}

/// The same line with each of these numbers.
fn each(line: &str, numbers: impl IntoIterator<Item = usize>) -> String {
    numbers.into_iter().map(|number| format!("{line} {number}")).collect::<Vec<_>>().join("; ")
}

fn from_line_to_line() -> Vec<Vector> {
    vec![
        held("case A in three pieces: nothing is written before the end", A).lines("S; I 100; I 100; q; p 0 0; I 4294967295; p 0 0; F; q"),
        held("case G in two pieces", G).lines("S; I 90; I 90; F; q"),
        held("after a reset a text is begun", E).lines("I 113; F; F; z; F; F"),
        held("no piece at all, and empty ones alone", E)
            .lines("S; F; S; I 0; F; S; I 0; I 0; I 0; F; q")
            .text(b"")
            .lines("S; I 5; I 0; F; V 0; V 3; R"),
        held("without its last byte, with it alone, and with one too many", E)
            .lines("S; I 112; F; S; I 112; I 0; I 1; I 0; F")
            .text(format!("{E}x").as_bytes())
            .lines("S; I 113; I 1; F; S; I 113; F"),
        held("the counts are those of the last text that was accepted", E).lines("n 1 2 3; S; I 112; F; q; S; I 113; q; F; q; I 1; F; q"),
        held("tables longer than needed: zeros to the last place lent, and those behind stay", E)
            .lines("l 0 1650; l 1 70; l 2 520; s 0 1649 9 9; s 1 69 9 9; s 2 519 9 9; S; I 113; F; p 0 1650; p 1 70; p 2 520"),
        held("a refused end leaves the tables", &g_with("share=2,3,1", "share=2,3,2"))
            .lines("e 0 7; e 1 7; e 2 7; S; I 500; F; p 0 0; p 0 1623; p 1 63; p 2 511; q"),
        known("the pieces of one text come from several that are held, and what was taken isn't read again", &task_of(E))
            .lines("S; I 50")
            .text(&[b'x'; 113])
            .lines("I 0")
            .text(&E.as_bytes()[50..])
            .lines("I 60; I 60; F; S; F"),
        known("other entries leave the text so far and its area alone", &task_of(E))
            .lines("S; I 50; R; K; T; B; D 0; G; O 1 0; V 9; b; e 14 7")
            .text(&E.as_bytes()[50..])
            .lines("R; I 63; F"),
    ]
}

/// A text with bytes put in at a place: without them it is accepted.
fn with_bytes(text: &str, place: usize, bytes: &str) -> String {
    format!("{}{bytes}{}", &text[..place], &text[place..])
}

fn refusals_in_their_order() -> Vec<Vector> {
    let tables = [(FACTS, 1623), (COSTS, 63), (SHARES, 511), (FACTS, 0), (COSTS, 0), (SHARES, 0)];
    let short = |lines: &str| {
        let line = |(k, lent): &(u32, usize)| format!("l {k} {lent}; {lines}; l {k} {}", lent_after_a_reset(*k));
        tables.iter().map(line).collect::<Vec<_>>().join("; ")
    };
    vec![
        known("a piece after the end, and a second end", &task_of(E))
            .lines("S; I 113; F; F; I 0; I 1; F; q; S; I 5; F; I 108; F; S; I 113; F; F"),
        known("8 comes before 2 at place 0", &task_of(E))
            .lines("S; I 113; F; l 17 8191; I 0; I 1; F; l 17 8192; I 1; F")
            .lines(&short("I 0; F")),
        known("a piece that meets a short area is passed over, and the text goes on", &task_of(E))
            .text(with_bytes(E, 50, "rubbish").as_bytes())
            .lines("S; I 50; l 17 8191; I 7; l 17 8192; I 63; F; S; I 50; l 17 0; I 3; l 17 1; I 4; F; l 17 8200; I 63; F"),
        known("a short area at the end isn't the end", &task_of(E))
            .lines("S; I 60; l 17 8191; F; l 17 0; F; l 17 8192; I 53; l 17 8191; F; l 17 8200; F; F"),
        known("a short table at the end isn't the end", &task_of(E))
            .lines("S; I 60")
            .lines(&short("F"))
            .lines("I 53")
            .lines(&short("F"))
            .lines("F; F"),
        held("a short area or table comes before 1 and before a fault", &"x".repeat(16_385)).lines(
            "S; I 9; l 17 8191; F; l 17 8192; l 2 511; F; l 2 512; I 16376; l 17 8191; F; l 17 8192; l 0 1623; F; l 0 1624; F; F; I 1",
        ),
        known("of a piece the tables' lengths aren't asked", &task_of(E))
            .lines("l 0 0; l 1 0; l 2 0; S; I 50; I 63; l 0 1624; l 1 64; F; l 2 512; F"),
    ]
}

fn lent_after_a_reset(k: u32) -> usize {
    ARRAYS[k as usize].2
}

fn used_areas() -> Vec<Vector> {
    let longest = text_of_task(&largest());
    vec![
        known("begun anew on the way, after an end, and after a fault", &task_of(A))
            .lines("S; I 200; S; I 230; F; S; I 229; F; S; I 230; F")
            .text(a_with("op=1;2:1", "op=x;2:1").as_bytes())
            .lines("S; I 230; S")
            .text(A.as_bytes())
            .lines("I 230; F; S; I 230; S; F"),
        known("a short text where a long one was read", &of_one_value(1, 0))
            .text(&longest)
            .lines("S; I 9000; S; I 0")
            .text(&text_of_task(&of_one_value(1, 0)))
            .lines("I 1; I 63; F; V 0"),
    ]
}

/// Every fault of a text, in either edition: case A with one thing changed, and a map that is too wide.
fn faults() -> Vec<Vector> {
    let edits = [
        ("goal=0:1", "goal=0;1"),
        ("vars=3", "vars=9"),
        ("goal=0:1,1:2,2:2", "goal=1:2,0:1"),
        ("map=0,1/0,0,0", "map=0,1/0,2,2"),
        ("op=1;1:1;1:2", "op=1;1:1;1:1"),
    ];
    let mut texts: Vec<String> = edits.iter().map(|(old, new)| a_with(old, new)).collect();
    texts.extend([c(), String::from_utf8(text_of_task(&wide(5, 5))).unwrap()]);
    let cut = |title: &str, texts: &[String]| {
        texts.iter().fold(Vector::new(title), |vector, text| vector.text(text.as_bytes()).lines("V 1; V 0; V 40 0 3; S; I 120; I 9999; F"))
    };
    let second: Vec<String> = texts.iter().map(|text| in_edition_2(text, "7", ";1")).collect();
    vec![cut("every fault of edition 1", &texts), cut("every fault of edition 2", &second)]
}

/// Texts about as long as they may be, with a fault behind case A or at the beginning.
fn too_long() -> Vec<Vector> {
    let longer = |length: usize| format!("{A}{}", "x".repeat(length - A.len()));
    let sizes = each("V", [1, 2, 3, 35, 1000, 4096, 8192, 16_383, 16_384, 16_385, 0]);
    let more = "b; S; I 16384; u 16384; I 16384; u 16384; I 16384; u 16384; I 16384; F; S; I 16384; u 16384; I 16384; u 16384; I 16384; u 16384; I 16384; u 231; I 231; F";
    let last = "V 16384 1; V 16384 0 1; V 0 16385; V 1 16384; V 1 0; V 230 0";
    vec![
        held("16385 bytes are 1, in pieces of all sizes", &longer(16_385)).lines(&sizes).lines(last),
        held("16384 bytes have their fault, in pieces of all sizes", &longer(16_384)).lines(&sizes).lines("V 16383 1; V 230 0"),
        held("a fault in the first byte, and 1 all the same", &"x".repeat(16_500))
            .lines(&each("V", [1, 4096, 16_384, 0]))
            .lines("S; I 16384; I 0; I 1; F; S; I 16384; I 0; F; S; I 16500; F"),
        held("65536 bytes and more are 1", &longer(16_384)).lines(more),
    ]
}

/// The lengths of a line that goes through a text, an empty piece behind each byte, as far as they go.
fn in_turns() -> String {
    let lengths: Vec<String> = (0..NUMBERS).map(|i| format!("{}", 1 - i % 2)).collect();
    format!("V {}", lengths.join(" "))
}

fn whole_texts() -> Vec<Vector> {
    let shortest = of_one_value(1, 0);
    let longest = all_storing(largest(), QUOTA);
    let in_two = (0..=text_of_task(&shortest).len()).map(|place| format!("V {place} 0")).collect::<Vec<_>>().join("; ");
    let whole = "V 0; V 4294967295; V 0 0 0 0 5; V 5 4294967295 1";
    vec![
        known("the shortest text, cut in two at every place", &shortest).lines(&in_two),
        held("case E in pieces of every small size", E).lines(&each("V", 1..=12)).lines(whole).lines(&in_turns()),
        known("case A in pieces", &task_of(A)).lines(&each("V", [1, 2, 3, 7, 50, 114, 115, 229, 230, 231])).lines(whole).lines(&in_turns()),
        known("case G in pieces", &task_of(G)).lines(&each("V", [1, 2, 3, 7, 50, 100])).lines(whole).lines(&in_turns()),
        known("the longest text", &largest()).lines("V 4096; V 1; V 4095 4096; V 0; V 9596 1; S; I 4096; I 4096; I 4096; F"),
        known("the longest text of edition 2", &longest).lines("V 4096; V 1; V 4095 4096; V 0; V 9735 1; S; I 4096; I 4096; I 4096; F"),
        known("a whole text in pieces leaves the one from line to line alone", &task_of(E))
            .lines("S; I 50; V 1; V 0; I 63; V 7; F; V 7; F; V 0"),
        known("a whole text in pieces has an area of its own, and the tables that are lent", &task_of(E))
            .lines("l 17 0; V 1; l 17 8192; l 0 1623; V 1; l 0 1624; l 1 63; V 0; l 1 64; l 2 511; V 9; l 2 512; V 9"),
    ]
}

fn lines_of_the_script() -> Vec<Vector> {
    let numbers = |count: usize| format!("V{}", " 9".repeat(count));
    vec![
        known("lines on pieces off the script's form are bad", &task_of(E))
            .lines("S 0; S x; I; I x; I 1 2; I 4294967296; F 0; F x; V; V x; V 1 x; V 4294967296; f; i 1; s; v 1")
            .lines(&format!("{}; {}; I 113; F", numbers(NUMBERS + 1), numbers(NUMBERS))),
        known("the area has a length and no places, and a reset lends 8192", &task_of(E))
            .lines("s 17 0 7; e 17 7; p 17 0; p 17 8191; l 17 8191; I 0; l 17 8201; I 0; l 17 4294967295; I 0; l 17 8200; I 0")
            .lines("l 17 8201; I 113; F; l 17 0; I 0; z; I 0; l 17 0; F; s 19 0 1; p 19 0; p 20 0; l 19 1; l 20 1; I 0"),
        held("a reset begins a text anew", E).lines("S; I 50; z").text(E.as_bytes()).lines("I 113; F; z; F"),
    ]
}

/// A task by chance and a text of it, which is as often as not damaged.
fn some_text(rng: &mut Rng, sizes: &[Size]) -> (Task, Vec<u8>) {
    let size = rng.pick(sizes);
    let task = task(rng, size);
    let text = text_of_task(&task);
    let text = match rng.below(8) {
        0 | 1 => damaged(rng, &text),
        2 => renumbered(rng, &text),
        3 => idle_text(rng, &task),
        _ => text,
    };
    (task, text)
}

/// What else may stand between two pieces: an empty piece, a short area or table, the whole text in pieces, or an end that comes early.
fn some_slip(rng: &mut Rng) -> String {
    let (k, short) = (rng.pick(&[FACTS, COSTS, SHARES, AREA]), rng.chance(1, 2));
    let needed = lent_after_a_reset(k);
    let lent = if short { needed - 1 } else { rng.below(needed) };
    let what = rng.pick(&["F", "I 0", "V 3"]);
    match rng.below(8) {
        0..=2 => "I 0".to_string(),
        3..=5 => format!("l {k} {lent}; {what}; l {k} {needed}"),
        6 => format!("V {}", rng.below(40)),
        _ => "F".to_string(),
    }
}

/// Texts from line to line in pieces by chance, with slips between them.
pub fn with_slips(rng: &mut Rng) -> Vector {
    let (task, text) = some_text(rng, &[TINY, SMALL, SMALL, MEDIUM]);
    let mut vector = Vector::new("a text in pieces, with slips").tables(&task).text(&text);
    for _ in 0..2 {
        let (mut at, most) = (0, 1 + text.len() / rng.between(1, 6));
        vector = vector.lines("S");
        while at < text.len() {
            let length = rng.below(most + 1);
            at += length;
            let slip = if rng.chance(1, 4) { some_slip(rng) + "; " } else { String::new() };
            vector = vector.lines(&format!("{slip}I {length}"));
        }
        vector = vector.lines(if rng.chance(1, 2) { "F; I 1; F" } else { "F" });
    }
    vector
}

/// Lengths by chance: of single bytes, of any small pieces, and of some large ones.
fn some_lengths(rng: &mut Rng, text: &[u8]) -> String {
    let most = rng.pick(&[1, 2, 5, 30, text.len()]);
    let lengths: Vec<String> = (0..rng.between(1, NUMBERS)).map(|_| format!(" {}", rng.below(most + 1))).collect();
    format!("V{}", lengths.concat())
}

/// Whole texts in pieces by chance.
pub fn cut_by_chance(rng: &mut Rng) -> Vector {
    let mut vector = Vector::new("texts cut by chance");
    for _ in 0..3 {
        let (task, text) = some_text(rng, &[TINY, SMALL, MEDIUM, LARGE]);
        vector = vector.lines("e 0 0; e 1 0; e 2 0").tables(&task).text(&text);
        for _ in 0..4 {
            vector = vector.lines(&some_lengths(rng, &text));
        }
    }
    vector
}

/// The ones by name, then some by chance, of either edition.
pub fn pieces(seed: u64) -> Vec<Vector> {
    let groups = [from_line_to_line(), refusals_in_their_order(), used_areas(), faults(), too_long(), whole_texts(), lines_of_the_script()];
    let mut vectors: Vec<Vector> = groups.into_iter().flatten().collect();
    let mut rng = Rng::of_either_edition(seed);
    let kinds = [with_slips, cut_by_chance];
    vectors.extend((0..BY_CHANCE).map(|i| kinds[i % kinds.len()](&mut rng)));
    vectors
}
