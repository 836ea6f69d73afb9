//! The writer against texts written by hand, and against the reader: each accepted task has one text.

use crate::builder::{script_of, tables_of, text_of_task, Tables};
use crate::cases::{a_with, row_of_ops, A, E};
use crate::damages::{damaged, renumbered, some_places};
use crate::desk::{self, Answer};
use crate::limits::*;
use crate::quota_texts::all_storing;
use crate::random::{task, FULL, LARGE, MEDIUM, SMALL, TINY};
use crate::rng::Rng;
use crate::round_trips::with_round_trips;
use crate::script::{expect, COSTS, FACTS};
use crate::tables::{counts_of, read_tables, Counts, Lent};
use crate::task::{Fault, Op, Task};
use crate::text::read_text;
use crate::writer::written;
use crate::writing::{largest, writing};

/// A byte that no text has.
const RUBBISH: u8 = 255;

fn told(task: &Task) -> String {
    String::from_utf8(written(task)).unwrap()
}

fn read(text: &[u8]) -> Task {
    read_text(text).unwrap()
}

fn some_tasks(seed: u64, count: usize) -> Vec<Task> {
    let mut rng = Rng::of_either_edition(seed);
    (0..count).map(|i| task(&mut rng, [TINY, SMALL, MEDIUM, LARGE, FULL][i % 5])).collect()
}

fn lent(counts: Counts, tables: &Tables) -> Lent<'_> {
    Lent { counts, facts: &tables.facts, costs: &tables.costs, shares: &tables.shares }
}

/// The answer for tables and a buffer of so many places full of rubbish, and the buffer afterwards.
fn written_into(places: usize, lent: Lent) -> (Answer, Vec<u8>) {
    let mut buffer = vec![RUBBISH; places];
    let answer = desk::write(lent, &mut buffer);
    (answer, buffer)
}

fn refusal(number: u32, place: u32) -> Answer {
    Answer::Refused(Fault { number, place })
}

#[test]
fn case_a_by_hand() {
    let op = |pre: [Option<usize>; 3], eff: [Option<usize>; 3]| Op::new(1, pre.to_vec(), eff.to_vec());
    let task = Task {
        dom: vec![2, 3, 3],
        init: vec![0, 0, 0],
        goal: vec![Some(1), Some(2), Some(2)],
        quota: None,
        ops: vec![
            op([Some(0), None, None], [Some(1), None, None]),
            op([None, Some(0), Some(0)], [None, Some(1), Some(1)]),
            op([None, Some(1), None], [None, Some(2), None]),
            op([None, None, Some(1)], [None, None, Some(2)]),
        ],
        maps: vec![
            vec![vec![0, 1], vec![0, 0, 0], vec![0, 0, 0]],
            vec![vec![0, 0], vec![0, 1, 2], vec![0, 0, 0]],
            vec![vec![0, 0], vec![0, 0, 0], vec![0, 1, 2]],
        ],
        shares: vec![vec![1, 0, 0, 0], vec![0, 1, 1, 0], vec![0, 0, 0, 1]],
    };
    assert_eq!(told(&task), A);
}

#[test]
fn empty_lists_are_dashes() {
    let op = Op::new(0, vec![None], vec![Some(0)]);
    let bare =
        Task { dom: vec![1], init: vec![0], goal: vec![None], quota: None, ops: vec![], maps: vec![vec![vec![0]]], shares: vec![vec![]] };
    let begun = "edition=1\nvars=1\ndom=1\ninit=0\ngoal=-\n";
    assert_eq!(told(&bare), format!("{begun}ops=0\nmaps=1\nmap=0\nshare=-\n"));
    let one = Task { ops: vec![op], shares: vec![vec![0]], ..bare };
    assert_eq!(told(&one), format!("{begun}ops=1\nop=0;-;0:0\nmaps=1\nmap=0\nshare=0\n"));
}

#[test]
fn numbers_have_no_leading_zeros() {
    let costs = [0, 9, 10, 99, 100, 999_999, 1_000_000];
    let task = Task { shares: vec![costs.to_vec()], ..row_of_ops(&costs) };
    let ops: String = costs.iter().map(|cost| format!("op={cost};-;0:1\n")).collect();
    let shares = "share=0,9,10,99,100,999999,1000000\n";
    assert_eq!(told(&task), format!("edition=1\nvars=1\ndom=2\ninit=0\ngoal=0:1\nops=7\n{ops}maps=1\nmap=0,1\n{shares}"));
}

/// The texts that a person wrote for the desk program, but the one that is refused.
#[test]
fn the_texts_of_the_cases_are_written_as_they_stand() {
    let cases = [
        include_str!("../../cases/A.txt"),
        include_str!("../../cases/D.txt"),
        include_str!("../../cases/E.txt"),
        include_str!("../../cases/F-package.txt"),
        include_str!("../../cases/F-package-and-truck.txt"),
        include_str!("../../cases/G.txt"),
    ];
    for text in cases {
        assert_eq!(told(&read(text.as_bytes())), text);
        assert_eq!(desk::format_program(text.as_bytes()), text.as_bytes());
    }
    let refused = include_str!("../../cases/C.txt");
    assert_eq!(desk::format_program(refused.as_bytes()), b"refused=6\nplace=8\n");
    assert_eq!(desk::format_program(b""), b"refused=2\nplace=1\n");
    assert_eq!(desk::format_program(&[b'x'; 16_385]), b"refused=1\nplace=0\n");
}

/// 109 bytes of the first lines and of the counts, 64 lines of 75, eight of 132 and eight of 454.
#[test]
fn the_longest_text_has_9597_bytes() {
    let text = written(&largest());
    assert_eq!(text.len(), 109 + 64 * 75 + 8 * 132 + 8 * 454);
    assert_eq!(text.len(), 9_597);
    assert_eq!(read(&text), largest());
    assert!(some_tasks(8, 100).iter().all(|task| written(task).len() < text.len()));
}

/// A line of 11 bytes more, and two bytes more in each of 64.
#[test]
fn the_longest_text_of_edition_2_has_9736_bytes() {
    let task = all_storing(largest(), 1_024);
    assert_eq!(written(&task).len(), 9_597 + 11 + 64 * 2);
    assert_eq!(written(&task).len(), 9_736);
    assert_eq!(read(&written(&task)), task);
}

/// The tables with something in every place that isn't the task's own.
fn among_rubbish(rng: &mut Rng, task: &Task) -> Tables {
    let mut tables = tables_of(task);
    let (vars, ops, maps) = (task.dom.len(), task.ops.len(), task.maps.len());
    for (i, place) in tables.facts.iter_mut().enumerate() {
        let (row, v) = (i / ROW, i % ROW);
        let unread = match row {
            ROW_MARK.. => task.quota.is_none() || i - ROW * ROW_MARK >= ops,
            ROW_MAP.. => {
                let (m, of) = ((row - ROW_MAP) / MAPS, (row - ROW_MAP) % MAPS);
                m >= maps || of >= vars || v >= task.dom[of]
            }
            ROW_EFF.. => v >= vars || row - ROW_EFF >= ops,
            ROW_PRE.. => v >= vars || row - ROW_PRE >= ops,
            _ => v >= vars,
        };
        if unread {
            *place = rng.below(256) as u8;
        }
    }
    tables.costs[ops..].iter_mut().for_each(|cost| *cost = rng.word());
    for (i, share) in tables.shares.iter_mut().enumerate() {
        if i / OPS >= maps || i % OPS >= ops {
            *share = rng.word();
        }
    }
    tables
}

#[test]
fn reading_what_was_written_gives_the_same_tables_with_zeros_behind() {
    let mut rng = Rng::new(11);
    for task in some_tasks(11, 500) {
        let tables = among_rubbish(&mut rng, &task);
        let places = rng.between(BUFFER_ROOM, BUFFER_ROOM + 200);
        let (answer, buffer) = written_into(places, lent(counts_of(&task), &tables));
        let text = written(&task);
        assert_eq!(answer, Answer::Length(text.len()));
        assert_eq!(buffer[..text.len()], text);
        assert!(buffer[text.len()..].iter().all(|byte| *byte == RUBBISH));
        let (mut facts, mut costs, mut shares) = (tables.facts, tables.costs, tables.shares);
        assert_eq!(desk::read(&buffer[..text.len()], &mut facts, &mut costs, &mut shares), Answer::Read(counts_of(&task)));
        let clean = tables_of(&task);
        assert_eq!((facts, costs, shares), (clean.facts, clean.costs, clean.shares));
    }
}

/// The writer works from the task, the other way from its tables.
#[test]
fn two_ways_to_the_text_agree() {
    for task in some_tasks(12, 500) {
        assert_eq!(written(&task), text_of_task(&task));
    }
}

/// Whatever text is accepted, a damaged one too.
#[test]
fn writing_what_was_read_gives_the_same_bytes() {
    let mut rng = Rng::new(13);
    let mut others = 0;
    for task in some_tasks(13, 500) {
        let text = written(&task);
        for _ in 0..20 {
            let other = if rng.chance(1, 2) { damaged(&mut rng, &text) } else { renumbered(&mut rng, &text) };
            if let Ok(read) = read_text(&other) {
                assert_eq!(written(&read), other);
                others += usize::from(other != text);
            }
        }
    }
    assert!(others > 1_000, "{}", others);
}

#[test]
fn a_text_with_one_byte_changed_is_refused_or_another_tasks() {
    let (mut refused, mut others) = (0, 0);
    for (i, task) in some_tasks(14, 60).iter().enumerate().filter(|(i, _)| i % 5 < 3) {
        let text = written(task);
        for place in 0..text.len() {
            let mut other = text.clone();
            other[place] = b"0123456789,:;/-=\nx\xff"[(place + i) % 19];
            match read_text(&other) {
                Ok(read) if other != text => {
                    assert_ne!(read, *task);
                    assert_eq!(written(&read), other);
                    others += 1;
                }
                Ok(read) => assert_eq!(read, *task),
                Err(_) => refused += 1,
            }
        }
    }
    assert!(refused > 5_000 && others > 100, "{} and {}", refused, others);
}

#[test]
fn a_buffer_below_16384_places_is_8_before_all_else() {
    let task = read(A.as_bytes());
    let (counts, mut tables) = (counts_of(&task), tables_of(&task));
    for places in [0, 230, 16_383] {
        assert_eq!(written_into(places, lent(counts, &tables)), (refusal(8, 0), vec![RUBBISH; places]));
    }
    for places in [16_384, 16_385] {
        let (answer, buffer) = written_into(places, lent(counts, &tables));
        assert_eq!(answer, Answer::Length(230));
        assert_eq!(buffer, [A.as_bytes(), &vec![RUBBISH; places - 230]].concat());
    }
    tables.costs[0] = 1_000_001;
    let short = Lent { costs: &tables.costs[1..], ..lent(counts, &tables) };
    assert_eq!(written_into(16_384, short), (refusal(8, 0), vec![RUBBISH; 16_384]));
    assert_eq!(written_into(16_383, lent(counts, &tables)), (refusal(8, 0), vec![RUBBISH; 16_383]));
    assert_eq!(written_into(16_384, lent(counts, &tables)), (refusal(3, 7), vec![RUBBISH; 16_384]));
}

#[test]
fn tables_that_break_a_rule_leave_the_buffer() {
    let mut rng = Rng::new(15);
    let mut refused = [0; 20];
    for task in some_tasks(15, 2_000) {
        let mut tables = tables_of(&task);
        let (k, place, _, new) = some_places(&mut rng, &task);
        for (i, value) in new.iter().enumerate() {
            match k {
                FACTS => tables.facts[place + i] = *value as u8,
                COSTS => tables.costs[place + i] = *value,
                _ => tables.shares[place + i] = *value,
            }
        }
        let lent = lent(counts_of(&task), &tables);
        let (answer, buffer) = written_into(BUFFER_ROOM, lent);
        match read_tables(lent) {
            Ok(task) => assert_eq!(answer, Answer::Length(written(&task).len())),
            Err(fault) => {
                assert_eq!((answer, buffer), (Answer::Refused(fault), vec![RUBBISH; BUFFER_ROOM]));
                refused[fault.number as usize] += 1;
            }
        }
    }
    assert!([3, 5, 6, 18].iter().all(|number| refused[*number] > 20), "{:?}", refused);
}

#[test]
fn the_script_of_a_round_trip() {
    let script = format!("t 113\n{E}\nR\nb\nT\nu 113\nR\nu 112\nR\ns 14 0 120\nT\nl 14 16383\nT\np 14 113\nT 1\nb 1\nu\n");
    let printed = String::from_utf8(expect(script.as_bytes())).unwrap();
    let answers: Vec<&str> =
        printed.lines().filter(|line| !["facts", "costs", "shares"].contains(&line.split(' ').next().unwrap())).collect();
    let due =
        ["accepted 2 1 2", "length 113", "accepted 2 1 2", "refused 2 12", "length 113", "buffer 0 101", "refused 8 0", "buffer 113 0"];
    assert_eq!(answers[..due.len()], due);
    assert_eq!(answers[due.len()..], ["bad"; 3]);
}

/// Only lines are looked at, not the bytes of a text; a refused reading, or one into short tables, has none.
#[test]
fn each_accepted_reading_has_its_round_trip() {
    let text = |bytes: &str| format!("t {}\n{}\n", bytes.len(), bytes);
    let trip = format!("b\nT\nu {}\nR\n", A.len());
    let accepted = text(A);
    assert_eq!(with_round_trips(format!("{accepted}R\nK\nR\n").as_bytes()), format!("{accepted}R\n{trip}K\nR\n{trip}").as_bytes());
    for refused in [
        text(&a_with("edition=1", "edition=2")) + "R\n",
        text("R\nR\n") + "R\n",
        accepted.clone() + "l 0 1623\nR\n",
        accepted.clone() + "R 1\nz\nR\n",
        "R\nR".to_string(),
    ] {
        assert_eq!(with_round_trips(refused.as_bytes()), refused.as_bytes());
    }
}

/// What they try stays tried: each number that tables are refused with, and the shortest and the longest text.
#[test]
fn the_vectors_over_writing_have_every_refusal_of_tables_and_the_texts_at_the_limits() {
    let printed = String::from_utf8(expect(&script_of(&writing(1)))).unwrap();
    for number in [3, 5, 6, 7, 8, 18] {
        assert!(printed.contains(&format!("\nrefused {} ", number)), "{}", number);
    }
    for length in ["length 64\n", "length 9597\n"] {
        assert!(printed.contains(length), "{}", length);
    }
}
