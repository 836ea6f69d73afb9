//! Case A with one thing changed, each a fine point of the form; and A with each of its bytes damaged.

use crate::builder::Vector;
use crate::cases::{a_with, A};
use crate::rng::Rng;

/// What stands in case A, and what is put in its place.
pub const EDITS: &[(&str, &str)] = &[
    ("edition=1", "edition=2"),
    ("edition=1", "edition=0"),
    ("edition=1", "edition=01"),
    ("edition=1", "edition=11"),
    ("edition=1", "edition=4294967297"),
    ("edition=1", "edition="),
    ("edition=1", "edition=1 "),
    ("edition=1", "edition=-1"),
    ("edition=1", "edition=+1"),
    ("edition=1", "Edition=1"),
    ("edition=1", "edition=1\r"),
    ("edition=1\n", ""),
    ("edition=1\n", "edition=1\n\n"),
    ("edition=1\nvars=3", "vars=3\nedition=1"),
    ("vars=3", "vars=0"),
    ("vars=3", "vars=9"),
    ("vars=3", "vars=2"),
    ("vars=3", "vars=4"),
    ("vars=3", "vars=8"),
    ("vars=3", "vars=03"),
    ("vars=3", "vars=00000000000000000003"),
    ("vars=3", "vars=4294967299"),
    ("vars=3", "vars=18446744073709551619"),
    ("vars=3", "vars=340282366920938463463374607431768211459"),
    ("dom=2,3,3", "dom=2,3,0"),
    ("dom=2,3,3", "dom=2,3,8"),
    ("dom=2,3,3", "dom=2,3,9"),
    ("dom=2,3,3", "dom=2,3,259"),
    ("dom=2,3,3", "dom=2,3"),
    ("dom=2,3,3", "dom=2,3,3,3"),
    ("dom=2,3,3", "dom=2,3,"),
    ("dom=2,3,3", "dom=2;3;3"),
    ("dom=2,3,3", "dom=-"),
    ("dom=2,3,3", "dom=2,,3"),
    ("init=0,0,0", "init=2,0,0"),
    ("init=0,0,0", "init=0,0,3"),
    ("init=0,0,0", "init=256,0,0"),
    ("init=0,0,0", "init=0,0"),
    ("init=0,0,0", "init=00,0,0"),
    ("init=0,0,0", "init=1,2,2"),
    ("goal=0:1,1:2,2:2", "goal=-"),
    ("goal=0:1,1:2,2:2", "goal="),
    ("goal=0:1,1:2,2:2", "goal=-,0:1"),
    ("goal=0:1,1:2,2:2", "goal=0:1,-"),
    ("goal=0:1,1:2,2:2", "goal=--"),
    ("goal=0:1,1:2,2:2", "goal=1:2,0:1"),
    ("goal=0:1,1:2,2:2", "goal=1:2,1:2"),
    ("goal=0:1,1:2,2:2", "goal=3:0"),
    ("goal=0:1,1:2,2:2", "goal=1:2,3"),
    ("goal=0:1,1:2,2:2", "goal=1:2,0"),
    ("goal=0:1,1:2,2:2", "goal=1:2,00"),
    ("goal=0:1,1:2,2:2", "goal=1:2,01:1"),
    ("goal=0:1,1:2,2:2", "goal=1:3,0:1"),
    ("goal=0:1,1:2,2:2", "goal=0:2"),
    ("goal=0:1,1:2,2:2", "goal=0:256"),
    ("goal=0:1,1:2,2:2", "goal=256:1"),
    ("goal=0:1,1:2,2:2", "goal=0:1,"),
    ("goal=0:1,1:2,2:2", "goal=0:"),
    ("goal=0:1,1:2,2:2", "goal=0"),
    ("goal=0:1,1:2,2:2", "goal=:1"),
    ("goal=0:1,1:2,2:2", "goal=0;1"),
    ("goal=0:1,1:2,2:2", "goal=0:01"),
    ("goal=0:1,1:2,2:2", "goal=0:1;1:2"),
    ("goal=0:1,1:2,2:2", "goal=0:1,1:2,2:2,2:2"),
    ("goal=0:1,1:2,2:2", "goal=0:1,1:2,2:2,3:0"),
    ("ops=4", "ops=3"),
    ("ops=4", "ops=5"),
    ("ops=4", "ops=64"),
    ("ops=4", "ops=65"),
    ("ops=4", "ops=0"),
    ("ops=4", "ops=-"),
    ("ops=4", "ops=04"),
    ("op=1;0:0;0:1", "op=0;0:0;0:1"),
    ("op=1;0:0;0:1", "op=01;0:0;0:1"),
    ("op=1;0:0;0:1", "op=;0:0;0:1"),
    ("op=1;0:0;0:1", "op=4294967297;0:0;0:1"),
    ("op=1;0:0;0:1", "op=1;0:0"),
    ("op=1;0:0;0:1", "op=1;0:0;"),
    ("op=1;0:0;0:1", "op=1;0:0;0:1;"),
    ("op=1;0:0;0:1", "op=1;;0:1"),
    ("op=1;0:0;0:1", "op=1;-;0:1"),
    ("op=1;0:0;0:1", "op=1;0:0;-"),
    ("op=1;0:0;0:1", "op=1;0:2;0:1"),
    ("op=1;0:0;0:1", "op=1;0:0;0:2"),
    ("op=1;0:0;0:1", "op=1;1:0,0:0;0:1"),
    ("op=1;0:0;0:1", "op=1;0:0;1:1,1:1"),
    ("op=1;0:0;0:1", "op=1,0:0,0:1"),
    ("maps=3", "maps=0"),
    ("maps=3", "maps=9"),
    ("maps=3", "maps=2"),
    ("maps=3", "maps=4"),
    ("maps=3", "maps=1"),
    ("map=0,1/0,0,0/0,0,0", "map=1,0/0,0,0/0,0,0"),
    ("map=0,1/0,0,0/0,0,0", "map=1,1/0,0,0/0,0,0"),
    ("map=0,1/0,0,0/0,0,0", "map=0,2/0,0,0/0,0,0"),
    ("map=0,1/0,0,0/0,0,0", "map=0,1/0,2,2/0,0,0"),
    ("map=0,1/0,0,0/0,0,0", "map=0,1/0,2,3/0,0,0"),
    ("map=0,1/0,0,0/0,0,0", "map=0,1/0,2,2,0/0,0,0"),
    ("map=0,1/0,0,0/0,0,0", "map=0,1/0,1,2,0/0,0,0"),
    ("map=0,1/0,0,0/0,0,0", "map=0,1/0,2,2x0,0,0"),
    ("map=0,1/0,0,0/0,0,0", "map=0,1/0,2/0,0,0"),
    ("map=0,1/0,0,0/0,0,0", "map=0,1/0,0,0/0,0,2"),
    ("map=0,1/0,0,0/0,0,0", "map=0,1/0,0,0/0,0,2/"),
    ("map=0,1/0,0,0/0,0,0", "map=0,1/0,0,0/0,0,02"),
    ("map=0,1/0,0,0/0,0,0", "map=0,1/0,0,0/0,0,0/"),
    ("map=0,1/0,0,0/0,0,0", "map=0,1/0,0,0"),
    ("map=0,1/0,0,0/0,0,0", "map=0,1/0,0,0/-"),
    ("map=0,1/0,0,0/0,0,0", "map=0,1,0,0,0,0,0,0"),
    ("map=0,1/0,0,0/0,0,0", "map=0,1/2,1,0/2,0,1"),
    ("map=0,1/0,0,0/0,0,0", "map=0,1/1,2,1/0,0,0"),
    ("share=1,0,0,0", "share=-"),
    ("share=1,0,0,0", "share=1,0,0"),
    ("share=1,0,0,0", "share=1,0,0,0,0"),
    ("share=1,0,0,0", "share=1,0,0,-"),
    ("share=1,0,0,0", "share=1000001,0,0,0"),
    ("share=1,0,0,0", "share=1000000,0,0,0"),
    ("share=1,0,0,0", "share=4294967296,0,0,0"),
    ("share=1,0,0,0", "share=2,2,2,2"),
    ("share=1,0,0,0", "share=1,1,1,1"),
    ("share=1,0,0,0", "share=0,0,0,0"),
    ("share=0,0,0,1\n", ""),
    ("share=0,0,0,1\n", "share=0,0,0,1"),
    ("share=0,0,0,1\n", "share=0,0,0,1\n\n"),
    ("share=0,0,0,1\n", "share=0,0,0,1\nx"),
    ("share=0,0,0,1\n", "share=1,1,0,1\nx"),
    ("share=0,0,0,1\n", "share=1,1,0,1"),
];

/// Places where case A, so changed, is also cut.
const CUTS: &[(&str, &str)] = &[
    ("vars=3", "vars=9"),
    ("vars=3", "vars=03"),
    ("goal=0:1,1:2,2:2", "goal=1:2,0"),
    ("goal=0:1,1:2,2:2", "goal=1:2,3"),
    ("goal=0:1,1:2,2:2", "goal=1:2,2"),
    ("goal=0:1,1:2,2:2", "goal=1:3"),
    ("goal=0:1,1:2,2:2", "goal=1:2,"),
    ("op=1;0:0;0:1", "op=1000001"),
    ("op=1;0:0;0:1", "op=1000000"),
    ("map=0,1/0,0,0/0,0,0", "map=0,1/0,2,2"),
    ("map=0,1/0,0,0/0,0,0", "map=0,1/0,2"),
    ("map=0,1/0,0,0/0,0,0", "map=0,1/0,2,"),
    ("map=0,1/0,0,0/0,0,0", "map=0,1/0,0,0/0,0,2"),
    ("map=0,1/0,0,0/0,0,0", "map=0,1/0,0,0/0,0,1"),
    ("share=0,0,0,1", "share=0,0,0,1000001"),
    ("share=0,0,0,1", "share=1,1,0,1"),
];

fn shown(bytes: &str) -> String {
    bytes.escape_debug().to_string()
}

fn edit((old, new): &(&str, &str)) -> Vector {
    let title = format!("case A with '{}' for '{}'", shown(new), shown(old));
    Vector::new(&title).dirty().text(a_with(old, new).as_bytes()).lines("R; q")
}

fn cut((old, new): &(&str, &str)) -> Vector {
    let text = &A[..A.find(old).unwrap()];
    let title = format!("case A with '{}' for '{}', cut there", shown(new), shown(old));
    Vector::new(&title).dirty().text(format!("{}{}", text, new).as_bytes()).lines("R; q")
}

/// A vector that reads one damaged copy of case A after another.
fn each_byte(title: &str, mut damaged: impl FnMut(usize) -> Vec<u8>) -> Vector {
    (0..A.len()).fold(Vector::new(title), |vector, i| vector.text(&damaged(i)).lines("R"))
}

fn damages() -> Vec<Vector> {
    let bytes = A.as_bytes();
    let mut rng = Rng::new(1);
    let changed = |i: usize, byte: u8| {
        let mut text = bytes.to_vec();
        text[i] = byte;
        text
    };
    vec![
        each_byte("case A cut before each of its bytes", |i| bytes[..i].to_vec()),
        each_byte("case A without each of its bytes", |i| [&bytes[..i], &bytes[i + 1..]].concat()),
        each_byte("case A with each of its bytes doubled", |i| [&bytes[..=i], &bytes[i..]].concat()),
        each_byte("case A with 0 for each of its bytes", |i| changed(i, b'0')),
        each_byte("case A with 9 for each of its bytes", |i| changed(i, b'9')),
        each_byte("case A with - for each of its bytes", |i| changed(i, b'-')),
        each_byte("case A with a line end for each of its bytes", |i| changed(i, b'\n')),
        each_byte("case A with some byte for each of its bytes", |i| changed(i, rng.below(256) as u8)),
    ]
}

pub fn edits() -> Vec<Vector> {
    let mut vectors: Vec<Vector> = EDITS.iter().map(edit).collect();
    vectors.extend(CUTS.iter().map(cut));
    vectors.extend(damages());
    vectors
}

/// Small texts, whole or cut where something is due: what each is told first. Those that begin with `~` begin with the
/// first five lines of case A, those with `~~` with its operators too.
const SMALL: &[&str] = &[
    "~ops=1\nop=0;-;0:0\nmaps=1\nmap=0,0/0,0,0/0,0,0\nshare=0\n",
    "~ops=0\nmaps=1\nmap=0,0/0,0,0/0,0,0\nshare=-\n",
    "~ops=0\nmaps=1\nmap=0,0/0,0,0/0,0,0\nshare=0\n",
    "~~maps=1\nmap=0,1/0,2,2",
    "~~maps=1\nmap=0,1/0,1,3",
    "~ops=1\nop=1000000;-;0:0\nmaps=",
    "~ops=1\nop=1000001;-;0:0\nmaps=",
    "~ops=65",
    "~ops=64",
    "edition=1\nvars=123456789012345678901234567890123456789012345678901234567890",
    "edition=01",
    "edition=2\n",
    "edition=1\nvars=3\ndom=2,3,3\ninit=0,0,0\ngoal=1:1,1",
    "edition=1\nvars=3\ndom=2,3,3\ninit=0,0,0\ngoal=1:1,3",
    "edition=1\nvars=3\ndom=2,3,3\ninit=0,0,0\ngoal=1:3,0",
    "edition=1\nvars=3\ndom=2,3,3\ninit=0,0,0\ngoal=0:0,1:0,2:0,2",
    "edition=1\nvars=3\ndom=2,3,3\ninit=0,0,0\ngoal=1:1-",
    "edition=1\nvars=3\ndom=2,3,3\ninit=0,0,0\ngoal=-1:1",
];

/// One variable more of 8 classes each, of which the last has so many classes: 4,096 abstract states and more.
fn wide_map(last: &str, rest: &str) -> String {
    let eight = "0,1,2,3,4,5,6,7/".repeat(4);
    format!("edition=1\nvars=5\ndom=8,8,8,8,8\ninit=0,0,0,0,0\ngoal=-\nops=0\nmaps=1\nmap={}{}{}", eight, last, rest)
}

/// Read one after another. They come after all other vectors, so that those keep their numbers.
pub fn small() -> Vector {
    let lines = |count: usize| A.split_inclusive('\n').take(count).collect::<String>();
    let mut texts: Vec<String> = SMALL.iter().map(|text| text.replacen("~~", &lines(10), 1).replacen('~', &lines(5), 1)).collect();
    texts.push(wide_map("0,0,0,0,0,0,0,1", ""));
    texts.push(wide_map("0,0,0,0,0,0,0,0", "\nshare=-\n"));
    let vector = Vector::new("small texts, whole or cut where something is due").dirty();
    texts.iter().fold(vector, |vector, text| vector.text(text.as_bytes()).lines("R; q"))
}
