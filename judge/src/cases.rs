//! The cases of the bench by name.

use crate::builder::Vector;
use crate::limits::STEPS;
use crate::script::{FIRST, LOG, SECOND};
use crate::task::{Facts, Op, Task};

pub const A: &str = "\
edition=1
vars=3
dom=2,3,3
init=0,0,0
goal=0:1,1:2,2:2
ops=4
op=1;0:0;0:1
op=1;1:0,2:0;1:1,2:1
op=1;1:1;1:2
op=1;2:1;2:2
maps=3
map=0,1/0,0,0/0,0,0
map=0,0/0,1,2/0,0,0
map=0,0/0,0,0/0,1,2
share=1,0,0,0
share=0,1,1,0
share=0,0,0,1
";

pub const E: &str = "\
edition=1
vars=2
dom=2,2
init=0,0
goal=0:1,1:1
ops=1
op=1;0:0;0:1
maps=2
map=0,1/0,0
map=0,0/0,1
share=1
share=0
";

/// The coupling that nearly left: it is mounted, torqued while its test is stored, and its mark is taken back. One test may be
/// stored, so a second one is refused, and a retry of the first isn't a second one.
pub const G: &str = "\
edition=2
vars=2
dom=2,2
init=0,0
goal=0:1,1:1
quota=1
ops=3
op=2;0:0;0:1;0
op=3;0:1,1:0;1:1;1
op=1;1:1;1:0;0
maps=1
map=0,1/0,1
share=2,3,1
";

/// Case A with one thing put in place of another that stands there.
pub fn a_with(old: &str, new: &str) -> String {
    assert!(A.contains(old), "{} stands in case A", old);
    A.replacen(old, new, 1)
}

pub fn c() -> String {
    a_with("share=0,0,0,1", "share=0,1,0,1")
}

pub fn d() -> String {
    let costs = A.replace("op=1;", "op=2;");
    let shares = costs.find("share=").unwrap();
    costs[..shares].to_string() + "share=2,0,0,0\nshare=0,1,2,0\nshare=0,1,0,2\n"
}

/// The logistics task of source document 001: the package's places are left, right, in truck A, in
/// truck B; a truck's are left and right. One map with full shares.
pub fn f(keeps_truck_a: bool) -> Task {
    let dom = vec![4, 2, 2];
    let fact = |pairs: &[(usize, usize)]| -> Facts {
        let mut facts = vec![None; 3];
        pairs.iter().for_each(|(v, value)| facts[*v] = Some(*value));
        facts
    };
    let mut ops = Vec::new();
    for truck in 1..=2 {
        for side in 0..2 {
            ops.push(Op::new(1, fact(&[(truck, side), (0, side)]), fact(&[(0, truck + 1)])));
            ops.push(Op::new(1, fact(&[(truck, side), (0, truck + 1)]), fact(&[(0, side)])));
            ops.push(Op::new(1, fact(&[(truck, side)]), fact(&[(truck, 1 - side)])));
        }
    }
    let truck_a = if keeps_truck_a { vec![0, 1] } else { vec![0, 0] };
    let shares = vec![vec![1; ops.len()]];
    Task {
        dom,
        init: vec![0, 1, 1],
        goal: fact(&[(0, 1)]),
        quota: None,
        ops,
        maps: vec![vec![vec![0, 1, 2, 3], truck_a, vec![0, 0]]],
        shares,
    }
}

/// A task of one variable with that many operators, of the costs given in turn.
pub fn row_of_ops(costs: &[u64]) -> Task {
    let op = |cost: &u64| Op::new(*cost, vec![None], vec![Some(1)]);
    let ops: Vec<Op> = costs.iter().map(op).collect();
    let shares = vec![vec![0; ops.len()]];
    Task { dom: vec![2], init: vec![0], goal: vec![Some(1)], quota: None, ops, maps: vec![vec![vec![0, 1]]], shares }
}

fn a(title: &str) -> Vector {
    Vector::new(title).text(A.as_bytes()).lines("R")
}

fn judged(title: &str, list: &[u32]) -> Vector {
    a(title).lend(FIRST, list).lines("J")
}

/// The text of 64 operators with one more.
fn one_op_more(text: &str) -> String {
    text.replace("ops=64\n", "ops=65\nop=1;-;0:1\n").replace("share=", "share=0,")
}

fn texts_of_the_bench() -> Vec<Vector> {
    let read = |title: &str, text: &str| Vector::new(title).dirty().text(text.as_bytes()).lines("R; K");
    let ops = |count: usize| String::from_utf8(crate::builder::text_of_task(&row_of_ops(&vec![1; count]))).unwrap();
    vec![
        read("case A is accepted, and every lent place is written", A),
        read("case C: shares above the cost of operator 1", &c()),
        read("an operator without facts is idle", &a_with("op=1;1:0,2:0;1:1,2:1", "op=0;-;-").replace("share=0,1,1,0", "share=0,0,1,0")),
        read("64 operators pass", &ops(64)),
        read("ops=65 is out of range", &one_op_more(&ops(64))),
        read("no operators at all", &ops(0)),
        read("a share total equal to the cost passes", &a_with("share=0,0,0,1", "share=0,0,0,1")),
        read("a share total one above the cost", &a_with("share=0,0,0,1", "share=1,0,0,1")),
        read("class list 0,2,2 misses class 1", &a_with("/0,1,2/", "/0,2,2/")),
        read("cost 1000000 passes", &a_with("op=1;0:0", "op=1000000;0:0")),
        read("cost 1000001 is out of range", &a_with("op=1;0:0", "op=1000001;0:0")),
    ]
}

/// 16,384 bytes get past number 1, 16,385 don't; number 8 comes before both.
fn lengths() -> Vec<Vector> {
    let long = |length: usize| {
        let mut text = A.as_bytes().to_vec();
        text.resize(length, b'\n');
        text
    };
    let digits = |length: usize| {
        let mut text = b"edition=1\nvars=".to_vec();
        text.resize(length, b'3');
        text
    };
    vec![
        Vector::new("16384 bytes get past number 1").text(&long(16_384)).lines("R"),
        Vector::new("16385 bytes don't").text(&long(16_385)).lines("R"),
        Vector::new("16500 bytes don't").text(&long(16_500)).lines("R"),
        Vector::new("a digit run to the end of 16384 bytes is judged").text(&digits(16_384)).lines("R"),
        Vector::new("the same with one byte more").text(&digits(16_385)).lines("R"),
        Vector::new("a short table comes before a long text").text(&long(16_385)).lines("l 0 1623; R"),
    ]
}

fn a_by_entries() -> Vec<Vector> {
    vec![
        a("case A: distances and rounds of its maps").lines("D 0; D 1; D 2; D 3; D 4294967295"),
        a("case A: a distance table with something in it").lines("e 3 9; D 0; D 1; D 2"),
        a("case A: bound and distances at the initial state").lines("B; A 0; A 1; A 2; A 3"),
        a("case A: state 1,0,0 has bound 3").lines("s 4 0 1 0 0; B; A 0; A 1; A 2"),
        a("case A: bound at a goal is 0").lines("s 4 0 1 2 2; B; J; C; P"),
        judged("case A: operators 0,1,2,3 pass at cost 4", &[0, 1, 2, 3]),
        judged("case A: 0,2 may not run at step 2", &[0, 2]),
        judged("case A: 0 alone ends without goal", &[0]),
        judged("case A: the empty list ends without goal", &[]),
        judged("case A: an operator that isn't there", &[0, 4]),
        judged("case A: the earlier step decides, though its fault has the higher number", &[0, 2, 9]),
        a("case A: of two lists the first at equal cost").lend(FIRST, &[0, 1, 2, 3]).lend(SECOND, &[1, 2, 3, 0]).lines("C; P"),
        a("case A: the second where the first is faulty").lend(FIRST, &[0, 2]).lend(SECOND, &[1, 2, 3, 0, 0]).lines("C; P"),
        a("case A: neither").lend(FIRST, &[0]).lend(SECOND, &[4]).lines("C; P"),
        Vector::new("case D: bound 8").text(d().as_bytes()).lines("R; B; D 0; D 1; D 2"),
        Vector::new("case D: cost 8").text(d().as_bytes()).lines("R").lend(FIRST, &[0, 1, 2, 3]).lines("J; C; P"),
        Vector::new("case E: distances 1 and none, sum none").text(E.as_bytes()).lines("R; A 0; A 1; B; D 0; D 1"),
        Vector::new("case E: every map says none").text(E.as_bytes()).lines("R; n 2 0 2; K; A 0; A 1; B; D 0; D 1"),
        Vector::new("case F: keeping the package gives 2").task(&f(false)).lines("s 4 0 0 1 1; A 0; B; D 0"),
        Vector::new("case F: keeping package and truck A gives 2").task(&f(true)).lines("s 4 0 0 1 1; A 0; B; D 0"),
    ]
}

fn a_runs() -> Vec<Vector> {
    vec![
        a("case A, run: step 1, again, with another operator, step 3").lines("G; O 1 0; O 1 0; O 1 1; O 3 1"),
        a("case A, run: to the goal").lines("G; O 1 0; O 2 1; O 3 2; O 4 3; O 5 0; O 4 3; O 2 1; O 2 2"),
        a("case A, run: 10 comes before 13, 14 and repeated").lines("G; O 0 4; O 1 4; O 2 4; O 1 0; O 1 4; O 9 9; O 0 4294967295"),
        a("case A, run: step numbers 0 and beyond the next").lines("G; O 0 0; O 2 0; O 4294967295 0; O 1 1; O 0 0; O 3 0"),
        a("case A, run: a retry that could still run changes nothing").lines("s 0 24 0; G; O 1 0; O 1 0; O 2 0; O 2 0; O 1 0"),
        a("case A, run: an operator that may not run").lines("G; O 1 2; O 1 3; O 1 1; O 2 1"),
        a("case A, run: a refused start hands back zeros").lines("G; O 1 0; s 4 0 2; G; O 1 0; s 4 0 1; G"),
        a("case A, run: a start of too few places hands back zeros").lines("G; O 1 0; l 4 2; G; l 4 3; G; l 4 0; G"),
        a("case A, run: places of the start beyond the variables aren't read").lines("s 4 3 7 7 7 7 7 7 7 7 7 7 7 7 7; l 4 16; G; O 1 0"),
        a("case A, run: tables before the run, the run before the offer").lines("G; s 7 0 2; O 9 9; s 1 0 1000001; O 9 9; l 1 63; O 9 9"),
        a("case A, run: a run of zeros is fresh where 0,0,0 is a state").lines("O 1 0; O 1 0"),
        a("case A, run: a log with the wrong order").set(LOG, 0, &[2, 1]).lines("s 9 0 2; s 10 0 0 2 1; s 11 0 0 2; O 3 0"),
    ]
}

/// Runs of case A that agree with themselves but aren't runs of it.
fn a_wrong_runs() -> Vec<Vector> {
    let wrong = |title: &str, lines: &str| a(&format!("case A, run: {}", title)).lines(lines).lines("O 1 0; O 2 1");
    vec![
        wrong("a start just outside its variable, and the same now", "s 7 0 2; s 10 0 2"),
        wrong("a start far outside its variable, and the same now", "s 7 1 255; s 10 1 255"),
        wrong("the last variable's start outside", "s 7 2 3; s 10 2 3"),
        wrong("a start at the top of its variables is one", "s 7 0 1 2 2; s 10 0 1 2 2"),
        wrong("a start with a place beyond the variables", "s 7 3 1; s 10 3 1"),
        wrong("a state now with a place beyond the variables", "s 10 7 1"),
        wrong("a step that isn't there", "s 8 0 4; s 9 0 1"),
        wrong("a step that may not run", "s 8 0 2; s 9 0 1; s 10 1 2; s 11 1 1"),
        wrong("a step not counted", "s 8 0 1"),
        wrong("a place of the log used far behind", &format!("s 8 {} 1", STEPS - 1)),
        wrong("a column of a map that isn't there", "s 11 3 1"),
        wrong("a step booked as unshared", "s 9 0 1; s 10 0 1; s 11 8 1"),
        wrong("a step booked in another map", "s 9 0 1; s 10 0 1; s 11 1 1"),
        wrong("a step booked twice", "s 9 0 1; s 10 0 1; s 11 0 2"),
        wrong("a step not booked", "s 9 0 1; s 10 0 1"),
        wrong("a step not taken", "s 9 0 1; s 11 0 1"),
        wrong("a step taken and booked is one", "s 9 0 1; s 10 0 1; s 11 0 1"),
    ]
}

/// Lines that aren't in the script's form, and places and values that aren't there.
fn lines_of_the_script() -> Vec<Vector> {
    let long = format!("s 0 0 1{}", " 1".repeat(100));
    let comment = format!("#{}", "x".repeat(200));
    vec![
        a("lines off the script's form are bad").lines("x; X; 5; zz; z 1; q 1; n 1 2; n 1 2 3 4; s 0; s 0 1; l 0; l 0 1 2; e 0; p 0; t; R 1; D; D 1 2; A; O 1; O 1 2 3; q"),
        Vector::new("numbers off the script's form are bad").lines("s  0 1 2; s 0 1 x; s 0 1 -1; s 0 1 12345678901; s 0 1 4294967296; s 0 1 00000000005; s 0 1 0000000005; p 0 1"),
        Vector::new("long lines are bad").lines("s 0 0 1 2 3 4 5 6 7 8 9 10 11 12 13 14; p 0 13; s 0 1 1 2 3 4 5 6 7 8 9 10 11 12 13 14 15; p 0 14").lines(&long).lines(&comment).lines("p 0 0"),
        Vector::new("places and values that aren't there are ignored").lines("s 0 1699 7 7; p 0 1699; p 0 1700; s 12 0 1; p 12 0; e 12 0; l 7 3; l 0 1701; s 0 0 256; p 0 0; s 4 15 255 255; p 4 15; s 9 0 3 4; p 9 0; p 9 1; s 11 8 9; p 11 8; e 10 300; e 10 200; p 10 7; s 8 4294967295 1; s 7 7 1; p 7 7; K"),
    ]
}

pub fn bench() -> Vec<Vector> {
    let mut vectors = texts_of_the_bench();
    vectors.extend(lengths());
    vectors.extend(a_by_entries());
    vectors.extend(a_runs());
    vectors.extend(a_wrong_runs());
    vectors.extend(lines_of_the_script());
    vectors
}
