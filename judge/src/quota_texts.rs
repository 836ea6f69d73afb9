//! Texts of edition 2: the edition, the line of the quota, the fourth field of an operator, where an idle operator is told, and the
//! lines behind the goal, which are one higher. And how such texts are written.

use crate::builder::{text_of_task, Vector};
use crate::cases::{a_with, row_of_ops, A, G};
use crate::edges::wide;
use crate::edits::EDITS;
use crate::idle_texts::{read, BESIDE, BUSY, IDLE, OWN_FAULTS};
use crate::limits::*;
use crate::task::Task;
use crate::writing::{around_its_end, largest, of_one_value, one_byte, over_rubbish};

/// What may stand for a number where 1 or 2 is due.
const EDITIONS: &[&str] = &[
    "0",
    "1",
    "2",
    "3",
    "9",
    "02",
    "12",
    "20",
    "22",
    "",
    "-",
    "-2",
    "2 ",
    "2\r",
    "2;",
    "4294967295",
    "4294967297",
    "4294967298",
    "18446744073709551618",
];

/// What may stand for the number of a quota.
const QUOTAS: &[&str] = &[
    "0",
    "1",
    "9",
    "10",
    "99",
    "100",
    "999",
    "1000",
    "1023",
    "1024",
    "1025",
    "1030",
    "1124",
    "2024",
    "9999",
    "10000",
    "10240",
    "00",
    "01",
    "01024",
    "001025",
    "",
    "-",
    "-1",
    "+1",
    " 1",
    "1 ",
    "1\r",
    "1,",
    "1;1",
    "1024x",
    "1025x",
    "01025x",
    "4294967295",
    "4294967296",
    "4294967297",
    "18446744073709551617",
    "340282366920938463463374607431768211457",
];

/// What may stand behind an operator's effects. In edition 2 the first two are due.
const FOURTH_FIELDS: &[&str] = &[
    ";0",
    ";1",
    ";2",
    ";9",
    ";00",
    ";01",
    ";02",
    ";10",
    ";11",
    ";0x",
    ";1x",
    ";2x",
    ";02x",
    ";",
    "",
    ";-",
    ";-1",
    "; 1",
    ";1 ",
    ";1\r",
    ";1;",
    ";1;1",
    ";1,",
    ";1,0",
    ";1:",
    ";;1",
    ",",
    ",1",
    ":1",
    "-",
    "x",
    "\r",
    " ",
    ";256",
    ";257",
    ";4294967296",
    ";4294967297",
    ";18446744073709551617",
];

/// The text of edition 1 as one of edition 2: with a quota, and with this behind each operator.
pub fn in_edition_2(text: &str, quota: &str, fourth: &str) -> String {
    let line = |line: &str| match line.split_once('=') {
        Some(("edition", "1\n")) => "edition=2\n".to_string(),
        Some(("goal", _)) if line.ends_with('\n') => format!("{line}quota={quota}\n"),
        Some(("op", fields)) if fields.ends_with('\n') => format!("{}{fourth}\n", line.trim_end_matches('\n')),
        _ => line.to_string(),
    };
    text.split_inclusive('\n').map(line).collect()
}

/// Case G with one thing put in place of another that stands there.
pub fn g_with(old: &str, new: &str) -> String {
    assert!(G.contains(old), "{} stands in case G", old);
    G.replacen(old, new, 1)
}

/// The same, cut behind what was put in.
fn g_cut(old: &str, new: &str) -> String {
    format!("{}{}", &G[..G.find(old).unwrap()], new)
}

/// Each of these for what stands there in case G, whole and cut.
fn each_for(title: &str, old: &str, line: impl Fn(&str) -> String, others: &[&str]) -> Vector {
    let whole = others.iter().map(|other| g_with(old, &line(other)));
    let cut = others.iter().map(|other| g_cut(old, &line(other)));
    read(Vector::new(title).text(G.as_bytes()).lines("R"), whole.chain(cut))
}

fn numbers() -> Vec<Vector> {
    vec![
        Vector::new("case G is accepted, and every lent place is written")
            .lines("e 0 201")
            .text(G.as_bytes())
            .lines("R; K; q; D 0; A 0; B"),
        each_for("editions: 1 and 2 are read, and 1 has no quota", "edition=2", |edition| format!("edition={edition}"), EDITIONS),
        each_for("quotas: 0 to 1024 are read", "quota=1", |quota| format!("quota={quota}"), QUOTAS),
        each_for("fourth fields: 0 and 1 are read", "op=3;0:1,1:0;1:1;1", |field| format!("op=3;0:1,1:0;1:1{field}"), FOURTH_FIELDS),
        each_for("fourth fields of the last operator", "op=1;1:1;1:0;0", |field| format!("op=1;-;1:0{field}"), FOURTH_FIELDS),
    ]
}

/// Lines that are missing, doubled, or of the other edition.
fn lines() -> Vector {
    let (quota, fields) = (";1\n", ";0\n");
    let texts = [
        g_with("quota=1\n", ""),
        g_with("quota=1\n", "quota=1\nquota=1\n"),
        g_with("quota=1\n", "quota=1\n\n"),
        g_with("quota=1\nops=3\n", "ops=3\nquota=1\n"),
        g_with("goal=0:1,1:1\nquota=1\n", "quota=1\ngoal=0:1,1:1\n"),
        g_with("goal=0:1,1:1\nquota=1\n", "goal=0:1,1:1;1\n"),
        g_with("goal=0:1,1:1\n", "goal=-\n"),
        g_with("goal=0:1,1:1\n", "goal=0:1,1:2\n"),
        g_with("quota=1", "Quota=1"),
        g_with("quota=1", "quota:1"),
        g_with("quota=1", "quotas=1"),
        g_with("quota=1", "quot=1"),
        g_with("quota=1", "vars=2"),
        g_with("edition=2", "edition=1").replace("quota=1\n", ""),
        g_with("edition=2", "edition=1").replace("quota=1\n", "").replace(quota, "\n"),
        g_with("edition=2", "edition=1").replace(fields, "\n").replace(quota, "\n"),
        g_with("edition=2", "edition=1").replace("quota=1\n", "").replace(fields, "\n").replace(quota, "\n"),
        G.replace(fields, "\n"),
        G.replace(quota, "\n"),
        g_with("ops=3", "ops=2"),
        g_with("ops=3", "ops=4"),
        a_with("goal=0:1,1:2,2:2\n", "goal=0:1,1:2,2:2\nquota=0\n"),
        a_with("op=1;0:0;0:1", "op=1;0:0;0:1;0"),
        a_with("op=1;2:1;2:2", "op=1;2:1;2:2;1"),
        a_with("edition=1", "edition=2"),
        in_edition_2(A, "0", ""),
        in_edition_2(A, "0", ";0"),
        in_edition_2(A, "1024", ";1"),
    ];
    read(Vector::new("lines that are missing, doubled, in another place, or of the other edition"), texts)
}

/// Copies of case G, read one after another, of which each is damaged at one of these bytes.
fn damaged_at(title: &str, bytes: std::ops::Range<usize>, damaged: impl Fn(usize) -> String) -> Vector {
    read(Vector::new(title).text(G.as_bytes()).lines("R"), bytes.map(damaged))
}

/// The same for all bytes.
fn each_byte(title: &str, damaged: impl Fn(usize) -> String) -> Vector {
    damaged_at(title, 0..G.len(), damaged)
}

fn damages() -> Vec<Vector> {
    let with = |byte: &'static str| move |i: usize| [&G[..i], byte, &G[i + 1..]].concat();
    let (quota, maps) = (G.find("quota").unwrap(), G.find("maps").unwrap());
    vec![
        each_byte("case G cut before each of its bytes", |i| G[..i].to_string()),
        each_byte("case G without each of its bytes", |i| [&G[..i], &G[i + 1..]].concat()),
        each_byte("case G with each of its bytes doubled", |i| [&G[..=i], &G[i..]].concat()),
        each_byte("case G with 2 for each of its bytes", with("2")),
        damaged_at("case G with a semicolon for each byte from the quota to the operators", quota..maps, with(";")),
    ]
}

/// Case A's variables with one operator, in edition 2: cut behind it, and whole.
fn one_op(op: &str) -> String {
    let five: String = A.split_inclusive('\n').take(5).collect();
    in_edition_2(&five, "3", "") + "ops=1\n" + op
}

fn whole(op: &str) -> String {
    one_op(op) + "\nmaps=1\nmap=0,1/0,0,0/0,0,0\nshare=0\n"
}

/// Where an operator is idle, which edition 2 tells behind the fourth field.
fn idle() -> Vec<Vector> {
    let fields = |op: &str| FOURTH_FIELDS.iter().flat_map(|field| [format!("{op}{field}"), format!("{op}{field}\n")]).collect::<Vec<_>>();
    let marked = |ops: &[&str], field: &str| ops.iter().map(|op| format!("{op}{field}")).collect::<Vec<_>>();
    let beside = |(old, new): &(&str, &str)| {
        let text = a_with(old, new).replacen("op=1;1:1;1:2", "op=1;1:1;1:1", 1);
        in_edition_2(&text, "7", ";1")
    };
    vec![
        read(Vector::new("edition 2: lines of idle operators"), marked(IDLE, ";1").iter().chain(&marked(IDLE, ";0")).map(|op| whole(op))),
        read(
            Vector::new("edition 2: idle operators without their fourth field, cut or not"),
            IDLE.iter().flat_map(|op| [one_op(op), whole(op)]),
        ),
        read(
            Vector::new("edition 2: an effect that is a precondition, and what may follow"),
            fields("op=1;0:0;0:0").iter().map(|op| one_op(op)),
        ),
        read(Vector::new("edition 2: no effects, and what may follow"), fields("op=0;-;-").iter().map(|op| one_op(op))),
        read(
            Vector::new("edition 2: faults of an idle operator's line that come before"),
            marked(OWN_FAULTS, ";2").iter().map(|op| whole(op)),
        ),
        read(
            Vector::new("edition 2: operators of which some effect isn't a precondition"),
            marked(&BUSY[6..], ";1").iter().map(|op| whole(op)),
        ),
        read(
            Vector::new("edition 2: an idle operator and another fault"),
            BESIDE.iter().filter(|(old, _)| *old != "edition=1").map(beside),
        ),
    ]
}

/// What is wrong in case A is wrong in edition 2 too, behind the goal one line later.
fn edits() -> Vector {
    let edits = EDITS.iter().filter(|(old, _)| !old.starts_with("edition"));
    let begun = Vector::new("case A in edition 2 with each of the edits of case A").text(in_edition_2(A, "7", ";0").as_bytes());
    read(begun.lines("R"), edits.map(|(old, new)| in_edition_2(&a_with(old, new), "7", ";0")))
}

/// A task of edition 1 as one of edition 2, of which every operator stores a test.
pub fn all_storing(mut task: Task, quota: usize) -> Task {
    task.quota = Some(quota);
    task.ops.iter_mut().for_each(|op| op.stores = true);
    task
}

/// 64 operators, each of which stores a test.
fn many() -> Task {
    all_storing(row_of_ops(&[1; OPS]), QUOTA)
}

/// The task's text with one thing put in place of another that stands there.
fn text_with(task: &Task, old: &str, new: &str) -> String {
    let text = String::from_utf8(text_of_task(task)).unwrap();
    assert!(text.contains(old), "{} stands there", old);
    text.replacen(old, new, 1)
}

fn limits() -> Vec<Vector> {
    let last = "op=1;-;0:1;1\nmaps";
    let with = |old: &str, new: &str| text_with(&many(), old, new);
    let long = |length: usize| G.to_string() + &"\n".repeat(length - G.len());
    let digits = |length: usize| g_cut("1\nops", &"1".repeat(length - G.find("1\nops").unwrap()));
    vec![
        read(
            Vector::new("edition 2: 64 operators, and faults of the first, of the last and behind them").tables(&many()),
            [
                with("ops=64", "ops=64"),
                with("ops=64", "ops=65"),
                with("op=1;-;0:1;1", "op=1;-;0:1;2"),
                with(last, "op=1;-;0:1;2\nmaps"),
                with(last, "op=1;-;0:1\nmaps"),
                with(last, "op=1;-;-;1\nmaps"),
                with(last, "op=0;-;0:1;0\nmaps"),
                with("maps=1", "maps=0"),
                with("map=0,1", "map=1,1"),
                with("map=0,1", "map=0,2"),
                with("share=0", "share=2"),
                with("share=0", "share=1000001"),
                with("share=0", "x"),
                with("ops=64", "ops=64") + "x",
            ],
        ),
        read(
            Vector::new("too many abstract states and a class missing before, in both editions"),
            [wide(5, 5), all_storing(wide(5, 5), 2)]
                .iter()
                .flat_map(|task| [text_with(task, "6,7\nshare", "6,7\nshare"), text_with(task, "6,7\nshare", "7,7\nshare")]),
        ),
        read(
            Vector::new("edition 2: 16384 bytes get past number 1, and a quota to their end is judged"),
            [long(TEXT), long(TEXT + 1), digits(TEXT), digits(TEXT + 1)],
        )
        .text(G.as_bytes())
        .lines("l 0 1623; R; l 0 1624; R"),
    ]
}

/// Each has one byte that differs: refused, or another task that is written as it stands.
fn one_byte_of_g() -> Vector {
    let lines = [
        ("edition=2", "edition=1"),
        ("edition=2", "edition=3"),
        ("quota=1", "quota=0"),
        ("quota=1", "quota=9"),
        ("quota=1", "quota=x"),
        ("0:1;0\n", "0:1;1\n"),
        ("0:1;0\n", "0:1;2\n"),
        ("1:1;1\n", "1:1;0\n"),
        ("1:0;0\n", "1:0;\n\n"),
        ("1:0;0\n", "1:0,0\n"),
        ("1:1;1:0;0", "1:1;1:1;0"),
    ];
    let begun = over_rubbish("case G with one byte changed is refused, or is another task with that text", G.as_bytes()).lines("b; T");
    lines.iter().fold(begun, |vector, (old, new)| {
        let text = g_with(old, new).into_bytes();
        let i = (0..G.len()).find(|i| text[*i] != G.as_bytes()[*i]).unwrap();
        one_byte(vector, G.as_bytes(), i, text[i])
    })
}

/// A text that is read into tables which hold it, so that only what is written is told.
fn written(title: &str, task: &Task) -> Vector {
    let text = text_of_task(task);
    Vector::new(title).tables(task).text(&text).lines("R; b; T").lines(&around_its_end(&text))
}

fn writing() -> Vec<Vector> {
    vec![
        over_rubbish("the text of case G, and again over itself", G.as_bytes()).lines("T").lines(&around_its_end(G.as_bytes())).lines("T"),
        written("the shortest text of edition 2", &Task { quota: Some(0), ..of_one_value(1, 0) }),
        written("the longest text of edition 2", &all_storing(largest(), QUOTA)),
        one_byte_of_g(),
    ]
}

pub fn texts() -> Vec<Vector> {
    let mut vectors = numbers();
    vectors.push(lines());
    vectors.extend(damages());
    vectors.extend(idle());
    vectors.push(edits());
    vectors.extend(limits());
    vectors.extend(writing());
    vectors
}
