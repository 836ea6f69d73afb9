//! Vectors over writing a task's text, by name and by chance. Where that shows enough, the text is put into the buffer first: then
//! a place is printed only if it isn't written as it stood.

use crate::builder::{tables_of, text_of_task, Vector};
use crate::cases::{a_with, f, row_of_ops, A, E};
use crate::damages::some_places;
use crate::edges::{switch, wide};
use crate::limits::*;
use crate::random::*;
use crate::rng::Rng;
use crate::script::{ARRAYS, BUFFER, COSTS, FACTS, FIRST, SHARES, TEXT_ROOM};
use crate::task::{Op, Task};
use crate::text::read_text;

/// So many vectors by chance come after the ones by name: the three kinds take turns.
const BY_CHANCE: usize = 12;

fn case() -> Task {
    read_text(A.as_bytes()).unwrap()
}

/// A text that is read, and a buffer full of a byte that no text has.
pub fn over_rubbish(title: &str, text: &[u8]) -> Vector {
    Vector::new(title).text(text).lines("R; e 14 255")
}

fn a(title: &str) -> Vector {
    over_rubbish(title, A.as_bytes())
}

/// The text's last byte, the place behind it, and the places at the end of what is lent after a reset and of the buffer.
pub fn around_its_end(text: &[u8]) -> String {
    format!("p 14 {}; p 14 {}; p 14 16383; p 14 16384; p 14 16499", text.len() - 1, text.len())
}

/// The text written over rubbish, and once more over itself.
fn written_twice(title: &str, text: &[u8]) -> Vector {
    over_rubbish(title, text).lines("T").lines(&around_its_end(text)).lines("T")
}

fn buffers() -> Vec<Vector> {
    let lent = |vector: Vector, places: usize| vector.lines(&format!("l 14 {}; T", places));
    let short = [0, 1, A.len() - 1, A.len(), A.len() + 1, 16_382, 16_383];
    let end = around_its_end(A.as_bytes());
    vec![
        short.into_iter().fold(a("a buffer of less than 16384 places stays as it is, also where the text would fit"), lent),
        lent(a("a buffer of 16384 places is enough"), 16_384).lines(&end),
        lent(a("a buffer of 16385 places has one more than is needed").lines("b"), 16_385).lines(&end),
        lent(a("a buffer of all places").lines("b"), TEXT_ROOM).lines(&end),
        a("more places than there are can't be lent").lines("l 14 16383; l 14 16501; T; l 14 16384; l 14 16501; b; T"),
        a("a short buffer comes before short tables, and both before a rule that is broken")
            .lines("l 14 16383; l 0 1623; T; l 0 1624; l 1 63; T; l 1 64; l 2 511; T; l 14 16384; T; l 2 512; s 1 0 1000001; T; l 14 16383; T; l 14 16384; l 0 1623; T; l 0 1624; T"),
        a("each table one place short, and without places").lines("l 0 1623; T; l 0 0; T; l 0 1624; l 1 63; T; l 1 0; T; l 1 64; l 2 511; T; l 2 0; T; l 2 512; b; T"),
        a("tables and buffer longer than needed, with something behind").lines("l 0 1700; l 1 80; l 2 600; l 14 16500; s 0 1624 9 9; s 1 64 9 9; s 2 512 9 9; b; T"),
        Vector::new("no task at all").lines("T; e 14 255; l 14 0; T; l 14 16384; T"),
    ]
}

/// Places of case A's tables set to something else, one after another, and each time the text is written; then as they were.
fn a_changed(title: &str, changes: &[(u32, usize, &[u32])]) -> Vector {
    let tables = tables_of(&case());
    let old = |k: u32, place: usize, places: usize| -> Vec<u32> {
        match k {
            FACTS => tables.facts[place..place + places].iter().map(|fact| u32::from(*fact)).collect(),
            COSTS => tables.costs[place..place + places].to_vec(),
            _ => tables.shares[place..place + places].to_vec(),
        }
    };
    let changed = |vector: Vector, (k, place, new): &(u32, usize, &[u32])| {
        vector.set(*k, *place, new).lines("T").set(*k, *place, &old(*k, *place, new.len()))
    };
    changes.iter().fold(a(title), changed).lines("b; T")
}

/// Where the preconditions and the effects of operator o begin, and the classes of variable v in map m.
fn pre(o: usize) -> usize {
    ROW * (ROW_PRE + o)
}

fn eff(o: usize) -> usize {
    ROW * (ROW_EFF + o)
}

fn class(m: usize, v: usize) -> usize {
    ROW * (ROW_MAP + MAPS * m + v)
}

fn numbers_out_of_range() -> Vec<Vector> {
    let counts = ["0 4 3", "9 4 3", "4294967295 4 3", "3 65 3", "3 4294967295 3", "3 4 0", "3 4 9", "3 4 4294967295", "9 65 9", "3 65 9"];
    vec![
        counts
            .iter()
            .fold(a("counts out of their ranges"), |vector, counts| vector.lines(&format!("n {}; T", counts)))
            .lines("n 3 4 3; b; T"),
        a_changed("numbers of values out of their range", &[(FACTS, 0, &[0]), (FACTS, 0, &[9]), (FACTS, 2, &[255]), (FACTS, 2, &[0])]),
        a_changed(
            "values of the initial state and of the goal out of their ranges",
            &[(FACTS, 8, &[2]), (FACTS, 10, &[3]), (FACTS, 10, &[255]), (FACTS, 16, &[3]), (FACTS, 18, &[4]), (FACTS, 18, &[255])],
        ),
        a_changed(
            "numbers of operators out of their ranges",
            &[
                (COSTS, 0, &[1_000_001]),
                (COSTS, 3, &[u32::MAX]),
                (FACTS, pre(1) + 1, &[4]),
                (FACTS, eff(2) + 1, &[4]),
                (FACTS, pre(3) + 2, &[255]),
                (FACTS, eff(3) + 2, &[255]),
            ],
        ),
        a_changed(
            "classes and shares out of their ranges",
            &[
                (FACTS, class(0, 0), &[2]),
                (FACTS, class(1, 1) + 1, &[3]),
                (FACTS, class(2, 2) + 2, &[255]),
                (SHARES, 0, &[1_000_001]),
                (SHARES, OPS + 2, &[u32::MAX]),
                (SHARES, 2 * OPS + 3, &[1_000_001]),
            ],
        ),
    ]
}

fn other_rules() -> Vec<Vector> {
    let five = ROW * (ROW_MAP + 4);
    vec![
        a_changed(
            "a class missing",
            &[
                (FACTS, class(0, 0), &[1]),
                (FACTS, class(1, 1), &[0, 2, 2]),
                (FACTS, class(2, 2), &[1, 1, 2]),
                (FACTS, class(2, 0), &[1, 1]),
            ],
        ),
        over_rubbish("too many abstract states, after a class missing or out of range", &text_of_task(&wide(5, 4)))
            .set(FACTS, five, &[0, 1])
            .lines("T")
            .set(FACTS, five, &[0, 2])
            .lines("T")
            .set(FACTS, five, &[0, 8])
            .lines("T")
            .set(FACTS, five, &[0, 0])
            .lines("b; T"),
        a_changed(
            "shares above the cost, at the line of the lowest such operator",
            &[(SHARES, 2 * OPS + 1, &[1]), (SHARES, 3, &[1]), (SHARES, 0, &[2, 1, 1, 1]), (COSTS, 2, &[0]), (COSTS, 0, &[0, 0, 0, 0])],
        ),
        a_changed(
            "idle operators",
            &[
                (FACTS, eff(0), &[1]),
                (FACTS, eff(1), &[0, 1, 1]),
                (FACTS, eff(1), &[0, 0, 1]),
                (FACTS, eff(3), &[0, 0, 0]),
                (FACTS, pre(3), &[0, 0, 3]),
            ],
        ),
        a("of several rules that are broken the first in the text decides")
            .set(SHARES, 0, &[2])
            .lines("T")
            .set(SHARES, OPS, &[1_000_001])
            .lines("T")
            .set(FACTS, class(2, 2), &[0, 2, 2])
            .lines("T")
            .set(FACTS, eff(2), &[0, 2])
            .lines("T")
            .set(COSTS, 1, &[1_000_001])
            .lines("T")
            .set(FACTS, 16, &[3])
            .lines("T; n 0 4 3; T"),
    ]
}

/// The longest text: eight variables of eight values, and every list full. A cost of seven digits can be split into eight shares
/// of six; one share of seven would leave nothing for the others.
pub fn largest() -> Task {
    let op = Op::new(COST, vec![Some(0); VARS], vec![Some(7); VARS]);
    let kept = |m: usize, v: usize| (0..VALUES).map(|value| if (v + m) % VARS < 4 { value } else { 0 }).collect();
    Task {
        dom: vec![VALUES; VARS],
        init: vec![0; VARS],
        goal: vec![Some(7); VARS],
        quota: None,
        ops: vec![op; OPS],
        maps: (0..MAPS).map(|m| (0..VARS).map(|v| kept(m, v)).collect()).collect(),
        shares: vec![vec![COST / MAPS as u64; OPS]; MAPS],
    }
}

/// Operators of costs with one to seven digits, paid by one map of two.
fn costs() -> Task {
    let costs = [0, 9, 10, 99, 100, 999, 1_000, 9_999, 10_000, 99_999, 100_000, 999_999, 1_000_000];
    let task = row_of_ops(&costs);
    Task { maps: vec![task.maps[0].clone(); 2], shares: vec![vec![0; costs.len()], costs.to_vec()], ..task }
}

/// Variables of one value, and one map, without operators or with one that sets them all.
pub fn of_one_value(vars: usize, ops: usize) -> Task {
    Task {
        dom: vec![1; vars],
        init: vec![0; vars],
        goal: vec![None; vars],
        quota: None,
        ops: vec![Op::new(0, vec![None; vars], vec![Some(0); vars]); ops],
        maps: vec![vec![vec![0]; vars]],
        shares: vec![vec![0; ops]],
    }
}

fn texts() -> Vec<Vector> {
    let no_facts = a_with("goal=0:1,1:2,2:2", "goal=-").replace("op=1;0:0;0:1", "op=1;-;0:1").replace("op=1;2:1;", "op=1;-;");
    let written = |title: &str, task: &Task| written_twice(title, &text_of_task(task));
    vec![
        written_twice("the text of case A, and again over itself", A.as_bytes()),
        written_twice("the text of case E", E.as_bytes()),
        written("the text of case F", &f(true)),
        written_twice("a goal without facts, and operators without preconditions", no_facts.as_bytes()),
        written("one variable of one value and no operators: the shortest text", &of_one_value(1, 0)),
        written("one variable of one value and an operator that sets it", &of_one_value(1, 1)),
        written("eight variables of one value", &of_one_value(VARS, 2)),
        written("no operators", &row_of_ops(&[])),
        written("one operator", &row_of_ops(&[7])),
        written("costs and shares of one to seven digits", &costs()),
        written("the longest text", &largest()),
    ]
}

/// The tables of a task with rubbish in every other place, and its text in the buffer.
fn among_rubbish(title: &str, task: &Task, byte: u32, word: u32) -> Vector {
    let rubbish = format!("e 0 {byte}; e 1 {word}; e 2 {word}; e 14 255");
    Vector::new(title).text(&text_of_task(task)).lines(&rubbish).lines("b").tables(task).lines("T")
}

/// Case A with its first operators and maps alone.
fn a_of(ops: usize, maps: usize) -> Task {
    let task = case();
    let shares = task.shares[..maps].iter().map(|row| row[..ops].to_vec()).collect();
    Task { ops: task.ops[..ops].to_vec(), maps: task.maps[..maps].to_vec(), shares, ..task }
}

fn places_that_are_not_read() -> Vec<Vector> {
    let fewer = [(3, 3), (1, 3), (0, 3), (0, 1), (4, 2), (4, 1), (4, 3)];
    let (text, longer) = (text_of_task(&switch()), text_of_task(&f(false)));
    vec![
        among_rubbish("rubbish beyond case A's counts", &case(), 201, 4_000_000_000),
        among_rubbish("ones beyond case A's counts", &case(), 1, 1),
        among_rubbish("the highest numbers beyond the shortest text's counts", &of_one_value(1, 0), 255, u32::MAX),
        among_rubbish("no place of the tables is beyond the longest text's counts", &largest(), 255, u32::MAX),
        fewer.into_iter().fold(a("case A's tables with fewer operators, and with fewer maps"), |vector, (ops, maps)| {
            vector.text(&text_of_task(&a_of(ops, maps))).lines(&format!("n 3 {ops} {maps}; b; T"))
        }),
        Vector::new("behind a shorter text the rest of a longer one stays")
            .text(&longer)
            .lines("R")
            .text(&text)
            .lines("R")
            .text(&longer)
            .lines("b; T")
            .lines(&around_its_end(&text))
            .lines(&format!("u {}; R; u {}; R", longer.len(), text.len())),
        Vector::new("what was written is read into tables full of rubbish")
            .text(&text)
            .lines(&format!("R; e 14 255; T; u {}", text.len()))
            .dirty()
            .lines("R; K"),
        a("writing leaves all but the buffer, and the other entries leave the buffer")
            .lend(FIRST, &[0, 1, 2, 3])
            .lines("b; G; D 0; T; O 1 0; T; D 0; K; A 1; B; M; J; C; P; T; O 1 0; O 2 1; T; G; T; q"),
    ]
}

/// A byte of the written text changed, what stands there read and its tables written; and the text as it was read again.
pub fn one_byte(vector: Vector, text: &[u8], i: usize, byte: u8) -> Vector {
    vector.lines(&format!("s 14 {i} {byte}; u {0}; R; T; s 14 {i} {1}; u {0}; R", text.len(), text[i]))
}

/// Each has one byte that differs: refused, or another task that is written as it stands.
fn one_byte_of_a() -> Vector {
    let lines = [
        ("edition=1", "edition=2"),
        ("vars=3", "vars=2"),
        ("dom=2", "dom=3"),
        ("init=0,0", "init=0,2"),
        ("goal=0:1", "goal=0:0"),
        ("goal=0:1,1", "goal=0:1,0"),
        ("ops=4", "ops=3"),
        ("op=1;0:0;0:1", "op=9;0:0;0:1"),
        ("op=1;0:0;0:1", "op=0;0:0;0:1"),
        ("op=1;0:0;0:1", "op=1;0:1;0:1"),
        ("op=1;1:1;1:2", "op=1;1:0;1:2"),
        ("op=1;1:1;1:2", "op=1;1:1;2:2"),
        ("op=1;2:1;2:2", "op=1;2:1,2:2"),
        ("map=0,1/", "map=0,0/"),
        ("/0,1,2/", "/0,1,1/"),
        ("/0,1,2/", "/0,2,2/"),
        ("share=1,0,0,0", "share=0,0,0,0"),
        ("share=1,0,0,0", "share=2,0,0,0"),
        ("share=0,0,0,1", "share=0,0,0,0"),
        ("share=0,0,0,1\n", "share=0,0,0,1\r"),
    ];
    let begun = a("case A with one byte changed is refused, or is another task with that text").lines("b; T");
    lines.iter().fold(begun, |vector, (old, new)| {
        let text = a_with(old, new).into_bytes();
        let i = (0..A.len()).find(|i| text[*i] != A.as_bytes()[*i]).unwrap();
        one_byte(vector, A.as_bytes(), i, text[i])
    })
}

fn lines_of_the_script() -> Vec<Vector> {
    let lengths = [A.len() - 1, A.len() + 1, 0, A.len(), 16_384, 16_385, TEXT_ROOM, TEXT_ROOM + 1, u32::MAX as usize];
    vec![
        lengths.into_iter().fold(a("of the buffer as many bytes are taken as are asked for, or all").lines("T"), |vector, length| {
            vector.lines(&format!("u {length}; R"))
        }),
        a("bytes that aren't lent are taken too").lines(&format!("b; l 14 0; u {}; R; T", A.len())),
        Vector::new("the text goes into the buffer as far as there are places, and those behind it stay")
            .text(&[b'x'; TEXT_ROOM + 5])
            .lines("b; p 14 0; p 14 16499; R")
            .text(b"ab")
            .lines("l 14 0; b; p 14 0; p 14 1; p 14 2; p 14 16499; u 3")
            .lines("e 14 9; b; p 14 0; p 14 1; p 14 2; p 14 3")
            .text(b"")
            .lines("b; p 14 0; R"),
        Vector::new("a reset empties the buffer, and lends 16384 places").lines("e 14 255; l 14 0; T; z; p 14 0; p 14 16499; T; b; u 5; R"),
        Vector::new("lines on the buffer and the text off the script's form are bad")
            .text(A.as_bytes())
            .lines("b 0; u; u 1 2; u x; u 4294967296; T 0; U 1; p 14 0; R"),
        Vector::new("the buffer's places hold bytes and have an end")
            .lines("s 14 16499 7 7; p 14 16499; p 14 16500; s 14 0 256 8; p 14 0; p 14 1; e 14 256; p 14 0")
            .lines("e 14 255; p 14 0; p 14 16499; l 14 16500; l 14 16501; T"),
        Vector::new("behind the buffer there is array 15, and no array 16")
            .text(A.as_bytes())
            .lines("n 1 2 3; s 15 0 9; e 15 9; p 15 0; l 15 1; q; s 16 0 5; e 16 5; p 16 0; l 16 1; R; p 17 0; p 4294967295 0"),
    ]
}

/// A task by chance with rubbish in the places that aren't its own, lent with lengths by chance; then read from what was written.
pub fn rubbish_and_lengths(rng: &mut Rng) -> Vector {
    let size = rng.pick(&[TINY, SMALL, SMALL, MEDIUM, LARGE]);
    let (task, byte, word) = (task(rng, size), rng.below(256) as u32, rng.word());
    let mut vector = among_rubbish("the text of tables with rubbish, lent with any lengths", &task, byte, word);
    for _ in 0..6 {
        let k = rng.pick(&[FACTS, COSTS, SHARES, BUFFER, BUFFER]);
        let (_, places, needed, _) = ARRAYS[k as usize];
        let any = rng.below(places + 1);
        let lent = rng.pick(&[any, needed - 1, needed + 1, places]);
        vector = vector.lines(&format!("l {k} {lent}; T"));
        if rng.chance(2, 3) {
            vector = vector.lines(&format!("l {k} {needed}"));
        }
    }
    let lengths: Vec<String> = [FACTS, COSTS, SHARES, BUFFER].iter().map(|k| format!("l {} {}", k, ARRAYS[*k as usize].2)).collect();
    vector.lines(&lengths.join("; ")).lines(&format!("u {}; e 0 0; e 1 0; e 2 0; R", text_of_task(&task).len()))
}

/// Tables of which something is damaged: refused, or written as another task's.
pub fn damaged_tables(rng: &mut Rng) -> Vector {
    let size = rng.pick(&[TINY, SMALL, SMALL, MEDIUM]);
    let task = task(rng, size);
    (0..10).fold(Vector::new("the text of damaged tables").task(&task), |vector, _| {
        let (k, place, old, new) = some_places(rng, &task);
        vector.set(k, place, &new).lines("K; T; b").set(k, place, &old)
    })
}

/// A text of which one byte is changed.
pub fn damaged_text(rng: &mut Rng) -> Vector {
    let size = rng.pick(&[TINY, SMALL, SMALL, MEDIUM, LARGE]);
    let text = text_of_task(&task(rng, size));
    let digits: Vec<usize> = (0..text.len()).filter(|i| text[*i].is_ascii_digit()).collect();
    (0..10).fold(Vector::new("a written text with one byte changed").text(&text).lines("R"), |vector, _| {
        let i = if rng.chance(2, 3) { rng.pick(&digits) } else { rng.below(text.len()) };
        one_byte(vector, &text, i, rng.pick(b"0123456789,:;/-=\n"))
    })
}

/// The ones by name, then some by chance.
pub fn writing(seed: u64) -> Vec<Vector> {
    let groups = [
        buffers(),
        numbers_out_of_range(),
        other_rules(),
        texts(),
        places_that_are_not_read(),
        vec![one_byte_of_a()],
        lines_of_the_script(),
    ];
    let mut vectors: Vec<Vector> = groups.into_iter().flatten().collect();
    let mut rng = Rng::new(seed);
    let kinds = [rubbish_and_lengths, damaged_tables, damaged_text];
    vectors.extend((0..BY_CHANCE).map(|i| kinds[i % kinds.len()](&mut rng)));
    vectors
}
