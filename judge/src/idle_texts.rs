//! Texts with an idle operator: at which byte it is told, and what is told before.

use crate::builder::{text_of_task, Vector};
use crate::cases::{a_with, row_of_ops, A};
use crate::limits::{OPS, TEXT};

/// Lines of idle operators, of the variables of case A: without effects, or with effects of which each is a precondition.
pub const IDLE: &[&str] = &[
    "op=0;-;-",
    "op=1000000;-;-",
    "op=1;0:0;-",
    "op=1;0:1,1:2,2:0;-",
    "op=1;0:0;0:0",
    "op=1;0:1;0:1",
    "op=1;2:2;2:2",
    "op=1;1:0,2:0;1:0",
    "op=1;1:0,2:0;2:0",
    "op=1;1:1,2:2;1:1,2:2",
    "op=1;0:1,1:2,2:0;0:1,2:0",
    "op=1;0:1,1:2,2:0;0:1,1:2,2:0",
];

/// Lines of operators that aren't: some effect isn't among the preconditions.
pub const BUSY: &[&str] = &[
    "op=1;-;0:0",
    "op=1;-;0:0,1:0,2:0",
    "op=1;0:1;0:0",
    "op=1;1:1;1:2",
    "op=1;0:1;1:1",
    "op=1;1:1;0:1",
    "op=1;1:1,2:2;1:2,2:1",
    "op=1;1:1,2:1;1:1,2:2",
    "op=1;1:1,2:1;1:0,2:1",
    "op=1;1:1;1:1,2:0",
    "op=1;1:1;0:0,1:1",
    "op=1;0:0,1:0,2:0;0:0,1:0,2:1",
];

/// Lists of effects that go on, the text cut there: after a comma or a digit nothing is idle yet.
const GOING_ON: &[&str] = &[
    "op=1;0:0;0:0",
    "op=1;0:0;0:0,",
    "op=1;0:0;0:0,\n",
    "op=1;0:0;0:0,-",
    "op=1;0:0;0:0,0",
    "op=1;0:0;0:0,0:0",
    "op=1;0:0;0:0,1",
    "op=1;0:0;0:0,3",
    "op=1;0:0;0:0,1:",
    "op=1;0:0;0:0,1:3",
    "op=1;0:0;0:0,1:0",
    "op=1;0:0;0:0,1:0\n",
    "op=1;0:0,1:0;0:0,1",
    "op=1;0:0,1:0;0:0,1:0",
    "op=1;0:0,1:0;0:0,1:0,",
    "op=1;0:0,1:0;0:0,1:00",
    "op=1;0:0;0:00",
    "op=1;0:1;0:01",
    "op=1;0:1;0:10",
];

/// Faults of the line itself, which are told before; the text is cut there.
pub const OWN_FAULTS: &[&str] = &[
    "op=1000001;-;-",
    "op=4294967296;0:0;0:0",
    "op=01;-;-",
    "op=;-;-",
    "op=1;0:2;-",
    "op=1;0:2;0:2",
    "op=1;3:0;-",
    "op=1;3:0;3:0",
    "op=1;0:0;0:2",
    "op=1;0:0;3",
    "op=1;1:0,0:0;-",
    "op=1;1:0,1:0;1:0",
    "op=1;1:0;1:0,0:0",
    "op=1;1:0;1:0,1:0",
    "op=1;0:0;0:0,1:3",
    "op=1;0:0;",
    "op=1;0:0",
    "op=1;0:0;0",
    "op=1;0:0;0:",
    "op=1;0:0;0:-",
    "op=1;;-",
    "op=1;--;-",
    "op=1;-,-",
];

/// What else is wrong in case A, beside its operator 2 (line 9) being idle; told first if it stands before.
pub const BESIDE: &[(&str, &str)] = &[
    ("edition=1", "edition=2"),
    ("vars=3", "vars=9"),
    ("dom=2,3,3", "dom=2,3,9"),
    ("init=0,0,0", "init=2,0,0"),
    ("goal=0:1,1:2,2:2", "goal=1:2,0:1"),
    ("ops=4", "ops=65"),
    ("ops=4", "ops=2"),
    ("ops=4", "ops=3"),
    ("op=1;0:0;0:1", "op=1;0:0;0:2"),
    ("op=1;0:0;0:1", "op=1;0:0;0:0"),
    ("op=1;1:0,2:0;1:1,2:1", "op=1;1:0,2:0;1:1,2:1;"),
    ("op=1;1:0,2:0;1:1,2:1", "op=1000001;1:0,2:0;1:1,2:1"),
    ("op=1;2:1;2:2", "op=1000001;2:1;2:2"),
    ("op=1;2:1;2:2", "op=1;2:1;2:1"),
    ("op=1;2:1;2:2", "po=1;2:1;2:2"),
    ("maps=3", "maps=9"),
    ("map=0,1/0,0,0/0,0,0", "map=1,1/0,0,0/0,0,0"),
    ("map=0,1/0,0,0/0,0,0", "map=0,2/0,0,0/0,0,0"),
    ("share=1,0,0,0", "share=1000001,0,0,0"),
    ("share=1,0,0,0", "share=2,0,2,0"),
    ("share=0,0,0,1\n", "share=0,0,0,1\n\n"),
];

fn first_lines(count: usize) -> String {
    A.split_inclusive('\n').take(count).collect()
}

/// Case A's variables with one operator, cut after its line or within.
fn cut(op: &str) -> String {
    format!("{}ops=1\n{}", first_lines(5), op)
}

/// What comes behind that operator's line.
const BEHIND: &str = "maps=1\nmap=0,1/0,0,0/0,0,0\nshare=0\n";

fn whole(op: &str) -> String {
    format!("{}\n{}", cut(op), BEHIND)
}

/// Texts read one after another.
pub fn read(vector: Vector, texts: impl IntoIterator<Item = String>) -> Vector {
    texts.into_iter().fold(vector, |vector, text| vector.text(text.as_bytes()).lines("R"))
}

/// The line end of an idle operator's line replaced by each of these bytes, with the rest behind it and without.
fn other_line_ends(title: &str, op: &str) -> Vector {
    let ends = ["x", " ", "\r", ";", ":", "-", "/", "=", ",", "0", "9", "\0", "\u{ff}"];
    read(Vector::new(title), ends.iter().flat_map(|end| [cut(op) + end + BEHIND, cut(op) + end]))
}

/// Case A with an idle operator 1 in this line, which is damaged at each of its bytes in turn.
fn each_byte(title: &str, line: &str, damaged: impl Fn(usize) -> String) -> Vector {
    let behind = A.split_inclusive('\n').skip(8).collect::<String>();
    read(Vector::new(title), (0..line.len()).map(|i| format!("{}{}{}", first_lines(7), damaged(i), behind)))
}

fn bytes_of_the_line() -> Vec<Vector> {
    let line = "op=1;0:0,1:0;0:0,1:0\n";
    let cuts = |line: &str| (0..=line.len()).map(|i| first_lines(7) + &line[..i]).collect::<Vec<_>>();
    let with = |byte: &str| {
        let title = format!("an idle operator's line with '{}' for each of its bytes", byte.escape_debug());
        each_byte(&title, line, |i| [&line[..i], byte, &line[i + 1..]].concat())
    };
    let mut vectors = vec![
        read(Vector::new("an idle operator's line cut before each of its bytes"), cuts(line)),
        read(Vector::new("the line of an operator without facts cut before each of its bytes"), cuts("op=0;-;-\n")),
        each_byte("an idle operator's line without each of its bytes", line, |i| [&line[..i], &line[i + 1..]].concat()),
        each_byte("an idle operator's line with each of its bytes doubled", line, |i| [&line[..=i], &line[i..]].concat()),
    ];
    vectors.extend(["0", "1", "-", ",", "\n"].map(with));
    vectors
}

/// Operators over a variable of one value and one of two.
fn one_value() -> Vector {
    let lines = [
        "op=1;-;0:0",
        "op=1;1:0;0:0",
        "op=1;0:0;-",
        "op=1;0:0;0:0",
        "op=1;0:0,1:0;0:0",
        "op=1;0:0,1:0;0:0,1:0",
        "op=1;0:0;0:0,1:0",
        "op=1;0:0,1:0;0:0,1:1",
        "op=1;0:1;0:1",
    ];
    let text = |op: &&str| format!("edition=1\nvars=2\ndom=1,2\ninit=0,0\ngoal=-\nops=1\n{op}\nmaps=1\nmap=0/0,1\nshare=0\n");
    read(Vector::new("what sets a variable of one value is idle only where it asks for that value"), lines.iter().map(text))
}

/// Case A with operator 2 idle and something else wrong.
fn beside_another_fault() -> Vector {
    let text = |(old, new): &(&str, &str)| a_with(old, new).replacen("op=1;1:1;1:2", "op=1;1:1;1:1", 1);
    read(Vector::new("an idle operator and another fault: the first one in the text decides").dirty(), BESIDE.iter().map(text))
}

fn among_64() -> Vector {
    let text = |o: usize| {
        let mut task = row_of_ops(&[1; OPS]);
        task.ops[o].eff = vec![None];
        String::from_utf8(text_of_task(&task)).unwrap()
    };
    read(Vector::new("an idle operator among 64, the first, one in the middle, the last"), [0, 31, OPS - 1].map(text))
}

/// Number 8, then 1, then the text.
fn before_the_text() -> Vector {
    let idle = a_with("op=1;1:1;1:2", "op=0;-;-");
    let long = |length: usize| idle.clone() + &"\n".repeat(length - idle.len());
    let vector = Vector::new("a short table and a long text come before an idle operator").text(long(TEXT + 1).as_bytes());
    vector.lines("l 2 511; R; l 2 512; R").text(long(TEXT).as_bytes()).lines("R; l 0 0; R")
}

pub fn texts() -> Vec<Vector> {
    let dirty = |title: &str| Vector::new(title).dirty();
    let mut vectors = vec![
        read(dirty("lines of idle operators"), IDLE.iter().map(|op| whole(op))),
        read(dirty("the text cut at the end of an idle operator's line"), IDLE.iter().map(|op| cut(op))),
        read(Vector::new("operators of which some effect isn't a precondition"), BUSY.iter().map(|op| whole(op))),
        read(dirty("effects that go on, cut there"), GOING_ON.iter().map(|op| cut(op))),
        read(dirty("faults of an idle operator's line that come before"), OWN_FAULTS.iter().map(|op| cut(op))),
        other_line_ends("no effects, and another byte for the line end", "op=0;-;-"),
        other_line_ends("an effect that is a precondition, and another byte for the line end", "op=1;0:0;0:0"),
        other_line_ends("another such effect, and another byte for the line end", "op=1;1:1;1:1"),
        one_value(),
        beside_another_fault(),
        among_64(),
        before_the_text(),
    ];
    vectors.extend(bytes_of_the_line());
    vectors
}
