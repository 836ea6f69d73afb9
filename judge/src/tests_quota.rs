//! Edition 2: its text, the quota and the marks in every entry, and that edition 1 knows of neither.

use crate::builder::{row_of, script_of, tables_of, text_of_task, Tables};
use crate::cases::{a_with, row_of_ops, A, G};
use crate::desk::{self, Answer};
use crate::edges::run_of;
use crate::edits::EDITS;
use crate::kinds::{any_by_chance, some_offer};
use crate::limits::*;
use crate::quota::{quotas, storing};
use crate::quota_texts::{all_storing, g_with, in_edition_2};
use crate::random::{lively_task_of, task_of, walk, MEDIUM, SMALL, TINY};
use crate::rng::Rng;
use crate::row::Record;
use crate::run::{Offered, Run};
use crate::script::expect;
use crate::sequence::{cheaper, judge, opening, Cheaper};
use crate::space;
use crate::steps::{BACK, HOME, THERE, THERE_CHEAPLY};
use crate::tables::{counts_of, Counts, Lent};
use crate::task::{Fault, Task};
use crate::text::read_text;

fn read(text: &str) -> Task {
    read_text(text.as_bytes()).unwrap()
}

/// The number and the line that a text is refused with; 0 if it is accepted.
fn told(text: &str) -> (u32, u32) {
    read_text(text.as_bytes()).map_or_else(|fault| (fault.number, fault.place), |_| (0, 0))
}

/// Case G, up to what stands there and with this in its place.
fn cut(old: &str, new: &str) -> (u32, u32) {
    told(&format!("{}{}", &G[..G.find(old).unwrap()], new))
}

fn refused<T>(number: u32, place: u32) -> Result<T, Fault> {
    Err(Fault { number, place })
}

#[test]
fn case_g_is_read_as_it_stands() {
    assert_eq!(G, include_str!("../../cases/G.txt"));
    let task = read(G);
    assert_eq!((task.edition(), task.quota), (2, Some(1)));
    assert_eq!(task.ops.iter().map(|op| op.stores).collect::<Vec<_>>(), [false, true, false]);
    assert_eq!(task.ops.iter().map(|op| op.cost).collect::<Vec<_>>(), [2, 3, 1]);
    assert_eq!(desk::program(G.as_bytes()), "bound=5\nmap=5\n");
    assert_eq!(tables_of(&task).facts[1_560..], [&[0, 1, 0][..], &[0; 61]].concat());
    assert_eq!(counts_of(&task), Counts { vars: 2, ops: 3, maps: 1, edition: 2, quota: 1 });
}

#[test]
fn editions_1_and_2_are_read_and_another_is_3_at_line_1() {
    for edition in ["0", "3", "9", "10", "22", "4294967295", "4294967298"] {
        assert_eq!(told(&g_with("edition=2", &format!("edition={edition}"))), (3, 1), "{edition}");
        assert_eq!(cut("edition=2", &format!("edition={edition}")), (3, 1), "{edition}, cut there");
    }
    assert_eq!(told(&g_with("edition=2", "edition=02")), (2, 1));
    assert_eq!(told(&g_with("edition=2", "edition=1")), (2, 6));
    assert_eq!(cut("edition=2", "edition=2"), (2, 1));
    assert_eq!(cut("vars", ""), (2, 2));
}

#[test]
fn the_quota_stands_in_line_6_from_0_to_1024() {
    for quota in ["0", "1", "1023", "1024"] {
        assert_eq!(told(&g_with("quota=1", &format!("quota={quota}"))), (0, 0), "{quota}");
        assert_eq!(cut("quota=1", &format!("quota={quota}")), (2, 6), "{quota}, cut there");
    }
    for quota in ["1025", "9999", "10000", "4294967296", "4294967297", "1025x"] {
        assert_eq!(told(&g_with("quota=1", &format!("quota={quota}"))), (3, 6), "{quota}");
        assert_eq!(cut("quota=1", &format!("quota={quota}")), (3, 6), "{quota}, cut there");
    }
    for quota in ["", "00", "01", "01025", "-", "1,", "1024x"] {
        assert_eq!(told(&g_with("quota=1", &format!("quota={quota}"))), (2, 6), "{quota}");
    }
    assert_eq!(told(&g_with("quota=1\n", "")), (2, 6));
    assert_eq!(told(&g_with("quota=1\n", "quota=1\nquota=1\n")), (2, 7));
    assert_eq!(cut("ops=3", ""), (2, 7));
    assert_eq!(told(&a_with("ops=4", "quota=1\nops=4")), (2, 6));
}

#[test]
fn the_fourth_field_is_0_or_1() {
    let line = |field: &str| format!("op=3;0:1,1:0;1:1{field}");
    for field in [";0", ";1"] {
        assert_eq!(told(&g_with(&line(";1"), &line(field))), (0, 0), "{field}");
        assert_eq!(cut(&line(";1"), &line(field)), (2, 9), "{field}, cut there");
    }
    for field in [";2", ";9", ";10", ";256", ";4294967297", ";2x"] {
        assert_eq!(told(&g_with(&line(";1"), &line(field))), (3, 9), "{field}");
        assert_eq!(cut(&line(";1"), &line(field)), (3, 9), "{field}, cut there");
    }
    for field in ["", ";", ";00", ";01", ";02", ";-", ";1;", ";1x", ";;1", ",", ":1"] {
        assert_eq!(told(&g_with(&line(";1"), &line(field))), (2, 9), "{field}");
        assert_eq!(cut(&line(";1"), &line(field)), (2, 9), "{field}, cut there");
    }
    assert_eq!(told(&a_with("op=1;0:0;0:1", "op=1;0:0;0:1;0")), (2, 7));
}

#[test]
fn an_idle_operator_is_told_behind_its_fourth_field() {
    for idle in ["op=1;1:1;-", "op=0;-;-", "op=1;1:1;1:1", "op=1;0:0,1:1;1:1"] {
        let line = |field: &str| format!("{idle}{field}");
        let whole = |field: &str| told(&g_with("op=1;1:1;1:0;0", &line(field)));
        for field in [";0", ";1", ";0x", ";1;", ";1,", ";1\r"] {
            assert_eq!(whole(field), (18, 10), "{idle}{field}");
            assert_eq!(cut("op=1;1:1;1:0;0", &line(field)), (18, 10), "{idle}{field}, cut there");
        }
        for field in [";2", ";10", ";2x"] {
            assert_eq!(whole(field), (3, 10), "{idle}{field}");
            assert_eq!(cut("op=1;1:1;1:0;0", &line(field)), (3, 10), "{idle}{field}, cut there");
        }
        for field in ["", ";", "x", ";x", ";00", ";01", ":0"] {
            assert_eq!(whole(field), (2, 10), "{idle}{field}");
            assert_eq!(cut("op=1;1:1;1:0;0", &line(field)), (2, 10), "{idle}{field}, cut there");
        }
    }
}

#[test]
fn what_is_wrong_behind_the_goal_is_told_one_line_later() {
    let mut moved = 0;
    for (old, new) in EDITS.iter().filter(|(old, _)| !old.starts_with("edition")) {
        let text = a_with(old, new);
        let (number, line) = told(&text);
        let later = line + u32::from(line > 5);
        assert_eq!(told(&in_edition_2(&text, "0", ";1")), (number, later), "{new} for {old}");
        moved += usize::from(later > line);
    }
    assert!(moved > 50, "{}", moved);
    let wide = format!(
        "edition=2\nvars=5\ndom=8,8,8,8,8\ninit=0,0,0,0,0\ngoal=-\nquota=0\nops=0\nmaps=1\nmap={}",
        ["0,1,2,3,4,5,6,7"; 5].join("/")
    );
    assert_eq!(told(&wide), (7, 9));
}

#[test]
fn a_list_of_case_g_keeps_the_quota_or_is_19_at_its_step() {
    let with = |quota: usize| Task { quota: Some(quota), ..read(G) };
    let judged = |quota: usize, list: &[u32]| judge(&with(quota), &vec![0, 0], list);
    assert_eq!(judged(1, &[0, 1]), Ok(5));
    assert_eq!(judged(0, &[0, 1]), refused(19, 2));
    assert_eq!(judged(1, &[0, 1, 2, 1]), refused(19, 4));
    assert_eq!(judged(2, &[0, 1, 2, 1]), Ok(9));
    assert_eq!(judged(1, &[0, 1, 2]), refused(16, 3));
    // at the quota 10 and 12 come before, and what follows after
    assert_eq!(judged(0, &[3]), refused(10, 1));
    assert_eq!(judged(0, &[1]), refused(12, 1));
    assert_eq!(judged(1, &[0, 1, 2, 1, 9]), refused(19, 4));
    assert_eq!(judged(1, &[0, 1, 1, 1]), refused(12, 3));
    assert_eq!(judged(0, &[1; STEPS + 1]), refused(11, 0));
}

#[test]
fn past_the_quota_is_a_fault_to_the_cheaper_of_two() {
    let g = |quota: usize| Task { quota: Some(quota), ..read(G) };
    // the goal holds after two steps, and the second test is behind it
    assert_eq!(opening(&g(1), &vec![0, 0], &[0, 1, 2, 1]), Some((2, 5)));
    assert_eq!(opening(&g(0), &vec![0, 0], &[0, 1, 2, 1]), None);
    assert_eq!(opening(&g(0), &vec![1, 1], &[1]), Some((0, 0)));
    let (once, twice) = ([THERE, BACK, HOME], [THERE_CHEAPLY, BACK, THERE_CHEAPLY, HOME]);
    let named = |quota: usize, first: &[u32], second: &[u32]| cheaper(&storing(quota, &[THERE, THERE_CHEAPLY]), &vec![0], first, second);
    assert_eq!(named(2, &once, &twice), Cheaper::Second { length: 4, cost: 2_000_002 });
    assert_eq!(named(1, &once, &twice), Cheaper::First { length: 3, cost: 3_000_000 });
    assert_eq!(named(1, &twice, &once), Cheaper::Second { length: 3, cost: 3_000_000 });
    assert_eq!(named(0, &once, &twice), Cheaper::Neither);
    // each counts its own
    assert_eq!(named(2, &twice, &twice), Cheaper::First { length: 4, cost: 2_000_002 });
}

/// Each offer with its answer, from a fresh run of case G.
fn offered(offers: &[(u32, u32, Offered)]) -> Run {
    let task = read(G);
    offers.iter().fold(Run::fresh(&task.init), |run, (number, op, due)| {
        let (after, answer) = run.offer(&task, *number, *op);
        assert_eq!(answer, *due, "step {number} with operator {op}");
        after
    })
}

#[test]
fn a_retried_step_that_stored_its_test_does_not_meet_the_quota() {
    let past = |step: u32| Offered::Refused(Fault { number: 19, place: step });
    let run = offered(&[
        (1, 0, Offered::Accepted),
        (2, 1, Offered::Accepted),
        (2, 1, Offered::Repeated),
        (3, 2, Offered::Accepted),
        (2, 1, Offered::Repeated),
        (4, 1, past(4)),
        (4, 1, past(4)),
        (2, 1, Offered::Repeated),
        (4, 0, Offered::Refused(Fault { number: 12, place: 4 })),
        (4, 3, Offered::Refused(Fault { number: 10, place: 4 })),
        (5, 1, Offered::Refused(Fault { number: 13, place: 5 })),
        (1, 1, Offered::Refused(Fault { number: 14, place: 1 })),
    ]);
    assert_eq!((run.len, run.columns), (3, [6, 0, 0, 0, 0, 0, 0, 0, 0, 1]));
    let task = read(G);
    let seventeen = Offered::Refused(Fault { number: 17, place: 0 });
    for stored in [0, 2, u32::MAX] {
        let mut wrong = run.clone();
        wrong.columns[9] = stored;
        assert_eq!(wrong.offer(&task, 1, 0), (wrong.clone(), seventeen));
    }
    assert_eq!(run.offer(&Task { quota: Some(0), ..task.clone() }, 1, 0), (run.clone(), seventeen));
    assert_eq!(run.offer(&Task { quota: Some(2), ..task }, 4, 1).1, Offered::Accepted);
}

#[test]
fn a_run_stores_up_to_1024_tests_and_at_a_full_run_15_comes_first() {
    let task = all_storing(row_of_ops(&[1]), 1_024);
    let run = run_of(&task, &[0; 1_023]);
    let (full, answer) = run.offer(&task, 1_024, 0);
    assert_eq!((answer, full.columns[STORED]), (Offered::Accepted, 1_024));
    assert_eq!(full.offer(&task, 1_025, 0).1, Offered::Refused(Fault { number: 15, place: 1_025 }));
    assert_eq!(full.offer(&task, 1_024, 0).1, Offered::Repeated);
    let less = Task { quota: Some(1_023), ..task };
    assert_eq!(run.offer(&less, 1_024, 0), (run.clone(), Offered::Refused(Fault { number: 19, place: 1_024 })));
    assert_eq!(full.offer(&less, 1_024, 0).1, Offered::Refused(Fault { number: 17, place: 0 }));
}

#[test]
fn the_stored_tests_are_the_accepted_storing_steps_at_every_moment() {
    let mut rng = Rng::new(21);
    let (mut past, mut repeated, mut stored_in_all) = (0, 0, 0);
    for size in [TINY, SMALL, MEDIUM].iter().cycle().take(300) {
        let task = Task { quota: Some(rng.below(6)), ..lively_task_of(&mut rng, *size, 2) };
        let (mut run, mut stored) = (Run::fresh(&task.init), 0);
        for _ in 0..30 {
            let (number, op) = some_offer(&mut rng, &task, &run);
            let (after, answer) = run.offer(&task, number, op);
            match answer {
                Offered::Accepted => stored += u32::from(task.ops[op as usize].stores),
                Offered::Repeated => repeated += usize::from(task.ops[op as usize].stores),
                Offered::Refused(fault) => past += usize::from(fault.number == 19),
            }
            assert_eq!(after.columns[STORED], stored);
            assert!(stored as usize <= task.quota.unwrap());
            run = after;
        }
        stored_in_all += stored;
    }
    assert!(past > 200 && repeated > 100 && stored_in_all > 300, "{} and {} and {}", past, repeated, stored_in_all);
}

/// What a call answers for these counts and tables, one entry after another, and what it leaves.
fn every_answer(task: &Task, counts: Counts, tables: &Tables, row: &[Record], list: &[u32]) -> Vec<(Answer, Run, Vec<u8>)> {
    let lent = Lent { counts, facts: &tables.facts, costs: &tables.costs, shares: &tables.shares };
    let state: Vec<u8> = task.init.iter().map(|value| *value as u8).collect();
    let (mut out, mut best, mut buffer) = (vec![7; OUT_ROOM], vec![7; BEST_ROOM], vec![255; BUFFER_ROOM]);
    let answers = [
        desk::check(lent),
        desk::write(lent, &mut buffer),
        desk::distances(lent, 0, &mut out, &mut best),
        desk::distance_at(lent, 0, &state),
        desk::best_at(lent, 0, &state),
        desk::bound(lent, &state),
        desk::judge(lent, &state, list),
        desk::judge_row(lent, row, &state, list),
        desk::cheaper(lent, &state, list, &[]),
        desk::opening(lent, &state, list, &[]),
        desk::begin(lent, &state).1,
    ];
    let mut run = desk::begin(lent, &state).0;
    let mut all: Vec<_> = answers.map(|answer| (answer, run.clone(), buffer.clone())).to_vec();
    for (i, op) in list.iter().enumerate() {
        let (after, answer) = desk::offer(&run, lent, i as u32 + 1, *op);
        all.push((answer, after.clone(), Vec::new()));
        run = after;
    }
    all
}

#[test]
fn edition_1_answers_the_same_whatever_quota_and_marks_are() {
    let mut rng = Rng::new(22);
    for size in [TINY, SMALL, MEDIUM].iter().cycle().take(60) {
        let task = task_of(&mut rng, *size, 1);
        let (list, _) = walk(&mut rng, &task, &task.init, 6);
        let (mut tables, mut row) = (tables_of(&task), row_of(&task));
        if rng.chance(1, 3) && !task.ops.is_empty() {
            tables.costs[rng.below(task.ops.len())] = 1_000_001;
        }
        let plain = every_answer(&task, counts_of(&task), &tables, &row, &list);
        for quota in [0, 1, 1_025, u32::MAX] {
            tables.facts[ROW * ROW_MARK..].iter_mut().for_each(|mark| *mark = rng.pick(&[0, 1, 2, 255]));
            row.iter_mut().for_each(|record| record.mark = rng.pick(&[0, 1, 2, 255]));
            assert_eq!(every_answer(&task, Counts { quota, ..counts_of(&task) }, &tables, &row, &list), plain);
        }
    }
}

#[test]
fn distances_and_bounds_ignore_quota_and_marks() {
    let mut rng = Rng::new(23);
    for size in [TINY, SMALL, MEDIUM].iter().cycle().take(60) {
        let task = task_of(&mut rng, *size, 2);
        let plain = Task { quota: None, ..task.clone() };
        for m in 0..task.maps.len() {
            assert_eq!(space::distances(&task, m).least, space::distances(&plain, m).least);
        }
        assert_eq!(space::bound(&task, &task.init), space::bound(&plain, &task.init));
    }
}

#[test]
fn tables_have_an_edition_a_quota_and_marks_in_range() {
    let task = read(G);
    let tables = tables_of(&task);
    let checked =
        |counts: Counts, facts: &[u8]| desk::check(Lent { counts, facts, costs: &tables.costs, shares: &tables.shares }).to_string();
    let counts = counts_of(&task);
    for edition in [0, 3, u32::MAX] {
        assert_eq!(checked(Counts { edition, vars: 0, quota: 1_025, ..counts }, &tables.facts), "refused 3 1");
        assert_eq!(checked(Counts { edition, ..counts }, &tables.facts[1..]), "refused 8 0");
    }
    assert_eq!(checked(Counts { quota: 1_024, ..counts }, &tables.facts), "clean");
    assert_eq!(checked(Counts { quota: 1_025, ops: 65, ..counts }, &tables.facts), "refused 3 6");
    assert_eq!(checked(Counts { ops: 65, ..counts }, &tables.facts), "refused 3 7");
    for (o, line) in [(0, 8), (1, 9), (2, 10)] {
        let mut facts = tables.facts.clone();
        facts[1_560 + o] = 2;
        assert_eq!(checked(counts, &facts), format!("refused 3 {line}"));
        facts[ROW * (ROW_EFF + o)..][..ROW].fill(0);
        assert_eq!(checked(counts, &facts), format!("refused 3 {line}"));
        facts[1_560 + o] = 1;
        assert_eq!(checked(counts, &facts), format!("refused 18 {line}"));
    }
    let mut facts = tables.facts.clone();
    facts[1_563..].fill(255);
    assert_eq!(checked(counts, &facts), "clean");
}

#[test]
fn the_script_tells_edition_and_quota_unless_they_are_1_and_0() {
    let printed = |script: &str| String::from_utf8(expect(script.as_bytes())).unwrap();
    assert_eq!(printed("q\nn 1 2 3\nq\nn 1 2 3 1 0\nq\nn 1 2 3 1 4\nq\n"), "counts 0 0 0\ncounts 1 2 3\ncounts 1 2 3\ncounts 1 2 3 1 4\n");
    assert_eq!(
        printed("n 1 2 3 2 0\nq\nn 1 2 3 4\nn 1 2 3 4 5 6\nn 9 9 9\nq\nz\nq\n"),
        "counts 1 2 3 2 0\nbad\nbad\ncounts 9 9 9\ncounts 0 0 0\n"
    );
    assert_eq!(printed(&format!("t 141\n{G}\nR\n")).lines().next(), Some("accepted 2 3 1 2 1"));
    assert_eq!(
        printed("s 18 79 5 6\np 18 79\np 18 80\ns 18 0 256\np 18 0\np 17 0\np 19 0\ns 11 9 7 7\np 11 9\np 11 10\n"),
        "mark 79 5\nmark 0 0\ncolumn 9 7\n"
    );
}

/// Of the scripts by chance about half are of edition 2, and 19 is told among them.
#[test]
fn scripts_by_chance_are_of_either_edition() {
    let scripts: Vec<_> = (0..370).map(|i| script_of(&[any_by_chance(&mut Rng::of_either_edition(i as u64), i)])).collect();
    let of_edition_2 = |script: &[u8]| {
        let text = String::from_utf8_lossy(script);
        text.contains("\nedition=2\n") || text.lines().any(|line| line.starts_with("n ") && line.split(' ').nth(4) == Some("2"))
    };
    let second = scripts.iter().filter(|script| of_edition_2(script)).count();
    assert!((150..=230).contains(&second), "{}", second);
    let answers: String = scripts.iter().map(|script| String::from_utf8_lossy(&expect(script)).into_owned()).collect();
    assert!(answers.lines().filter(|line| line.starts_with("refused 19 ")).count() > 50);
}

/// What they try stays tried: 19 by lists and by offers, 18 and 3 behind the goal, and every length of a text that was added.
#[test]
fn the_vectors_over_edition_2_tell_every_refusal() {
    let printed = String::from_utf8(expect(&script_of(&quotas(1)))).unwrap();
    for number in (1..=19).map(|number| format!("\nrefused {number} ")) {
        assert!(printed.contains(&number), "{}", number);
    }
    for length in ["length 72\n", "length 9736\n", "column 9 1024\n", "refused 19 1024\n"] {
        assert!(printed.contains(length), "{}", length);
    }
}

/// A text of edition 1 or 2 by chance, written by both of the judge's ways, is read as the task that it is.
#[test]
fn texts_of_edition_2_are_read_as_they_were_written() {
    let mut rng = Rng::new(24);
    for size in [TINY, SMALL, MEDIUM].iter().cycle().take(150) {
        let task = task_of(&mut rng, *size, 2);
        let text = String::from_utf8(text_of_task(&task)).unwrap();
        assert_eq!(text.lines().nth(5), Some(&*format!("quota={}", task.quota.unwrap())));
        let marks: Vec<bool> = text.lines().filter(|line| line.starts_with("op=")).map(|line| line.ends_with(";1")).collect();
        assert_eq!(marks, task.ops.iter().map(|op| op.stores).collect::<Vec<_>>());
        assert_eq!(read(&text), task);
    }
    assert_eq!(read(&in_edition_2(A, "7", ";0")), Task { quota: Some(7), ..read(A) });
}
