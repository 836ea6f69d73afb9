//! The cases of the bench, and what must hold for any task.

use crate::best::kept_apart;
use crate::builder::{tables_of, text_of_task, Tables};
use crate::cases::{a_with, c, d, f, row_of_ops, A, E};
use crate::desk;
use crate::edges::{counters, run_of};
use crate::limits::*;
use crate::random::{self, Size};
use crate::rng::Rng;
use crate::run::Offered;
use crate::script::expect;
use crate::space::{self, distances, view_by_classes, view_by_states};
use crate::tables::{counts_of, read_tables, Counts, Lent};
use crate::task::{refuse, Fault, Task};
use crate::text::read_text;

fn fault(number: u32, place: u32) -> Fault {
    Fault { number, place }
}

fn read(text: &str) -> Task {
    read_text(text.as_bytes()).unwrap()
}

fn refused(text: &str) -> Fault {
    read_text(text.as_bytes()).unwrap_err()
}

/// What a script prints on case A, without the changed places.
fn answers(text: &str, lines: &str) -> Vec<String> {
    let script = format!("z\nt {}\n{}\nR\n{}\n", text.len(), text, lines.replace("; ", "\n"));
    let printed = String::from_utf8(expect(script.as_bytes())).unwrap();
    let places = ["facts", "costs", "shares", "log", "len", "now", "start"];
    printed.lines().skip(1).filter(|line| !places.iter().any(|name| line.starts_with(name))).map(str::to_string).collect()
}

fn least(task: &Task, m: usize) -> Vec<Option<u64>> {
    distances(task, m).least
}

#[test]
fn case_a_distances_and_rounds() {
    let task = read(A);
    assert_eq!(least(&task, 0), [Some(1), Some(0)]);
    assert_eq!(least(&task, 1), [Some(2), Some(1), Some(0)]);
    assert_eq!(least(&task, 2), [Some(1), Some(1), Some(0)]);
    assert_eq!((0..3).map(|m| distances(&task, m).rounds).collect::<Vec<_>>(), [2, 3, 3]);
    assert_eq!(space::bound(&task, &vec![1, 0, 0]), Some(3));
}

#[test]
fn case_a_sequences() {
    assert_eq!(answers(A, "s 5 0 0 1 2 3; l 5 4; J"), ["passed 4"]);
    assert_eq!(answers(A, "s 5 0 0 2; l 5 2; J"), ["refused 12 2"]);
    assert_eq!(answers(A, "s 5 0 0; l 5 1; J"), ["refused 16 1"]);
    assert_eq!(answers(A, "J"), ["refused 16 0"]);
}

#[test]
fn case_a_run() {
    let lines = "G; O 1 0; p 11 0; p 11 1; p 11 2; p 11 8; O 1 0; O 1 1; O 3 1";
    let columns = ["column 0 1", "column 0 1", "column 1 0", "column 2 0", "column 8 0"];
    let mut due = vec!["fresh", "accepted"];
    due.extend(columns);
    due.extend(["repeated", "refused 14 1", "refused 13 3"]);
    assert_eq!(answers(A, lines), due);
}

/// Case A with an operator 0 that may always run, and so may be the whole of a list or a log.
fn a_without_end() -> String {
    a_with("op=1;0:0;0:1", "op=1;-;0:1")
}

#[test]
fn a_sequence_of_1024_steps_passes_and_1025_are_11() {
    let judged = |steps: usize| answers(&a_without_end(), &format!("s 5 {} 1 2 3; l 5 {}; J; C", steps - 3, steps));
    for steps in [255, 256, 257, 1023, 1024] {
        assert_eq!(judged(steps), [format!("passed {}", steps), format!("first {}", steps)]);
    }
    assert_eq!(judged(1025), ["refused 11 0", "neither"]);
    assert_eq!(judged(1026), ["refused 11 0", "neither"]);
}

#[test]
fn step_1024_of_a_run_is_accepted_and_step_1025_is_15() {
    let run = |steps: u32, lines: &str| answers(&a_without_end(), &format!("G; s 9 0 {}; s 10 0 1; s 11 0 {}; {}", steps, steps, lines));
    assert_eq!(run(256, "O 257 0; O 257 0"), ["fresh", "accepted", "column 0 257", "repeated"]);
    let due =
        ["fresh", "accepted", "column 0 1024", "refused 15 1025", "refused 15 1025", "refused 10 1025", "refused 13 1026", "repeated"];
    assert_eq!(run(1023, "O 1024 0; O 1025 0; O 1025 2; O 1025 4; O 1026 0; O 1024 0"), due);
    assert_eq!(run(1025, "O 1 0"), ["fresh", "refused 17 0"]);
    assert_eq!(
        run(1024, "s 8 1023 1; O 1 0; s 8 1023 0; O 1 0; p 8 1024; s 9 0 1023; O 1 0"),
        ["fresh", "refused 17 0", "repeated", "refused 17 0"]
    );
    assert_eq!(run(300, "s 8 600 1; O 1 0; s 8 600 0; O 1 0"), ["fresh", "refused 17 0", "repeated"]);
}

#[test]
fn a_full_run_at_the_highest_cost() {
    let task = row_of_ops(&[COST]);
    let whole = Task { shares: vec![vec![COST]], ..task.clone() };
    let list = [0; 1024];
    let (unpaid, paid) = (run_of(&task, &list), run_of(&whole, &list));
    assert_eq!((unpaid.columns[0], unpaid.columns[UNSHARED]), (0, 1_024_000_000));
    assert_eq!((paid.columns[0], paid.columns[UNSHARED]), (1_024_000_000, 0));
    assert_eq!(paid.offer(&whole, 1024, 0), (paid.clone(), Offered::Repeated));
    assert_eq!(paid.offer(&whole, 1025, 0), (paid.clone(), Offered::Refused(fault(15, 1025))));
}

#[test]
fn case_c_is_6_at_line_8() {
    assert_eq!(refused(&c()), fault(6, 8));
}

#[test]
fn case_d_bound_8_and_cost_8() {
    assert_eq!(answers(&d(), "B; s 5 0 0 1 2 3; l 5 4; J"), ["of 8", "passed 8"]);
}

#[test]
fn case_e_is_settled_by_the_map_that_says_none() {
    assert_eq!(answers(E, "A 0; A 1; B"), ["of 1", "none", "none"]);
}

#[test]
fn case_f_gives_2_in_both_views() {
    assert_eq!(space::bound(&f(false), &vec![0, 1, 1]), Some(2));
    assert_eq!(space::bound(&f(true), &vec![0, 1, 1]), Some(2));
}

#[test]
fn single_lines_of_the_bench() {
    assert_eq!(refused(&a_with("op=1;1:0,2:0;1:1,2:1", "op=0;-;-").replace("share=0,1,1,0", "share=0,0,1,0")), fault(18, 8));
    assert_eq!(refused(&a_with("ops=4", "ops=65")), fault(3, 6));
    assert_eq!(refused(&a_with("/0,1,2/", "/0,2,2/")), fault(5, 13));
    assert!(read_text(a_with("op=1;0:0", "op=1000000;0:0").as_bytes()).is_ok());
    assert_eq!(refused(&a_with("op=1;0:0", "op=1000001;0:0")), fault(3, 7));
    assert_eq!(refused(&(A.to_string() + &"x".repeat(16_384 - A.len()))), fault(2, 18));
    assert_eq!(refused(&(A.to_string() + &"x".repeat(16_385 - A.len()))), fault(1, 0));
    assert_eq!(refused(""), fault(2, 1));
}

#[test]
fn the_desk_program_on_the_bench() {
    assert_eq!(desk::program(A.as_bytes()), "bound=4\nmap=1\nmap=2\nmap=1\n");
    assert_eq!(desk::program(c().as_bytes()), "refused=6\nplace=8\n");
    assert_eq!(desk::program(E.as_bytes()), "bound=none\nmap=1\nmap=none\n");
}

#[test]
fn the_longest_distance_and_the_most_rounds() {
    let found = distances(&counters(1, 4, 8), 0);
    assert_eq!(found.rounds, 4_096);
    assert_eq!(found.least[0], Some(4_095_000_000));
}

/// The largest task's text is far below number 1's limit.
#[test]
fn the_largest_task_has_a_text() {
    let mut rng = Rng::new(5);
    let task = random::task(&mut rng, random::FULL);
    assert_eq!(read_text(&text_of_task(&task)), Ok(task));
}

pub fn some_tasks(seed: u64, count: usize, sizes: &[Size]) -> Vec<Task> {
    let mut rng = Rng::of_either_edition(seed);
    (0..count).map(|i| random::task(&mut rng, sizes[i % sizes.len()])).collect()
}

#[test]
fn views_by_states_and_by_classes_agree() {
    for task in some_tasks(2, 200, &[random::TINY, random::SMALL, random::MEDIUM]) {
        for m in 0..task.maps.len() {
            assert_eq!(view_by_states(&task, m), view_by_classes(&task, m));
        }
    }
}

#[test]
fn no_sequence_costs_less_than_the_bound() {
    let mut rng = Rng::of_either_edition(3);
    for _ in 0..50 {
        let task = random::lively_task(&mut rng, random::SMALL);
        if let Some(list) = random::walk_to_goal(&mut rng, &task, &task.init, 40) {
            let cost: u64 = list.iter().map(|o| task.ops[*o as usize].cost).sum();
            assert!(space::bound(&task, &task.init).unwrap() <= cost);
            let run = run_of(&task, &list);
            assert_eq!(run.columns[..STORED].iter().map(|column| u64::from(*column)).sum::<u64>(), cost);
        }
    }
}

/// So where some sequence reaches the goal, every map says a number.
#[test]
fn the_sum_is_at_most_the_least_cost_and_none_only_where_there_is_no_sequence() {
    let mut rng = Rng::new(4);
    let (mut reached, mut settled) = (0, 0);
    for task in some_tasks(4, 500, &[random::TINY, random::SMALL]) {
        let whole = kept_apart(&task);
        for _ in 0..5 {
            let at = random::state(&mut rng, &task.dom);
            let sum = space::bound(&task, &at);
            if let Some(cost) = space::distance_at(&whole, 0, &at) {
                assert!(sum.unwrap() <= cost);
                reached += 1;
            }
            settled += usize::from(sum.is_none());
        }
    }
    assert!(reached > 1_000 && settled > 400, "{} and {}", reached, settled);
}

/// The first fault of tables place by place, without their text.
fn scanned(counts: Counts, tables: &Tables) -> Result<(), Fault> {
    let (vars, ops, maps) = (counts.vars as usize, counts.ops as usize, counts.maps as usize);
    let place = |row: usize, v: usize| tables.facts[ROW * row + v] as usize;
    let facts_within = |row: usize| (0..vars).all(|v| place(row, v) <= place(ROW_DOM, v));
    let within = |ok: bool, line: usize| if ok { Ok(()) } else { refuse(3, line) };
    within([1, 2].contains(&counts.edition), 1)?;
    within((1..=VARS).contains(&vars), 2)?;
    within((0..vars).all(|v| (1..=VALUES).contains(&place(ROW_DOM, v))), 3)?;
    within((0..vars).all(|v| place(ROW_INIT, v) < place(ROW_DOM, v)), 4)?;
    within(facts_within(ROW_GOAL), 5)?;
    let (quota_within, mark_within): (bool, &dyn Fn(usize) -> bool) = match counts.edition {
        1 => (true, &|_| true),
        _ => (counts.quota <= 1_024, &|o| tables.facts[1_560 + o] <= 1),
    };
    within(quota_within, 6)?;
    // the line of the number of operators, and of the first of them
    let (line, first) = if counts.edition == 1 { (6, 7) } else { (7, 8) };
    within(ops <= OPS, line)?;
    let idle = |o: usize| (0..vars).all(|v| [0, place(ROW_PRE + o, v)].contains(&place(ROW_EFF + o, v)));
    for o in 0..ops {
        within(tables.costs[o] <= 1_000_000 && facts_within(ROW_PRE + o) && facts_within(ROW_EFF + o), first + o)?;
        within(mark_within(o), first + o)?;
        if idle(o) {
            return refuse(18, first + o);
        }
    }
    let behind = first + ops;
    within((1..=MAPS).contains(&maps), behind)?;
    for m in 0..maps {
        scanned_map(&|v, value| place(ROW_MAP + MAPS * m + v, value), &|v| place(ROW_DOM, v), vars, behind + 1 + m)?;
    }
    for m in 0..maps {
        within((0..ops).all(|o| tables.shares[OPS * m + o] <= 1_000_000), behind + 1 + maps + m)?;
    }
    let overpaid = |o: &usize| (0..maps).map(|m| tables.shares[OPS * m + *o]).sum::<u32>() > tables.costs[*o];
    (0..ops).find(overpaid).map_or(Ok(()), |o| refuse(6, first + o))
}

fn scanned_map(class: &dyn Fn(usize, usize) -> usize, values: &dyn Fn(usize) -> usize, vars: usize, line: usize) -> Result<(), Fault> {
    let mut states = 1;
    for v in 0..vars {
        let mut mask = 0u32;
        for value in 0..values(v) {
            if class(v, value) >= values(v) {
                return refuse(3, line);
            }
            mask |= 1 << class(v, value);
        }
        if 32 - mask.leading_zeros() != mask.count_ones() {
            return refuse(5, line);
        }
        states *= mask.count_ones();
    }
    if states > 4_096 {
        return refuse(7, line);
    }
    Ok(())
}

/// The operator's effects become what its preconditions are.
pub fn repeat_preconditions(tables: &mut Tables, o: usize) {
    let asked = ROW * (ROW_PRE + o);
    tables.facts.copy_within(asked..asked + ROW, ROW * (ROW_EFF + o));
}

#[test]
fn tables_are_judged_as_their_text_is() {
    let mut rng = Rng::new(4);
    let (mut idle, mut marks) = (0, 0);
    for task in some_tasks(4, 4_000, &[random::TINY, random::SMALL, random::MEDIUM, random::LARGE]) {
        let mut tables = tables_of(&task);
        let mut counts = counts_of(&task);
        for _ in 0..rng.between(0, 3) {
            let (place, o) = (rng.below(FACTS_ROOM), rng.below(SHARES_ROOM));
            match rng.below(12) {
                0 => counts.vars = rng.below(10) as u32,
                1 => counts.ops = rng.below(66) as u32,
                2 => counts.maps = rng.below(10) as u32,
                3 => tables.costs[o % OPS] = rng.below(1_000_002) as u32,
                4 => tables.shares[o] = rng.below(1_000_002) as u32,
                5 => repeat_preconditions(&mut tables, o % task.ops.len().max(1)),
                6 => counts.edition = rng.below(4) as u32,
                7 => counts.quota = rng.between(1_023, 1_026) as u32,
                8 => tables.facts[ROW * ROW_MARK + o % task.ops.len().max(1)] = rng.below(4) as u8,
                _ => tables.facts[place] = rng.below(9) as u8,
            }
        }
        marks += usize::from(counts.edition == 2 && scanned(counts, &tables).is_err() && scanned(counts, &unmarked(&tables)).is_ok());
        let lent = Lent { counts, facts: &tables.facts, costs: &tables.costs, shares: &tables.shares };
        let scanned = scanned(counts, &tables);
        assert_eq!(read_tables(lent).map(|_| ()), scanned);
        idle += usize::from(matches!(scanned, Err(Fault { number: 18, .. })));
    }
    assert!(idle > 200 && marks > 50, "{} and {}", idle, marks);
}

/// The same tables with marks of 0.
fn unmarked(tables: &Tables) -> Tables {
    let mut facts = tables.facts.clone();
    facts[ROW * ROW_MARK..].fill(0);
    Tables { facts, costs: tables.costs.clone(), shares: tables.shares.clone() }
}

#[test]
fn a_text_read_and_written_is_the_same() {
    for task in some_tasks(6, 200, &[random::TINY, random::SMALL, random::MEDIUM, random::LARGE]) {
        assert_eq!(read_text(&text_of_task(&task)), Ok(task));
    }
}

#[test]
fn the_script_ignores_what_is_not_there_and_says_bad() {
    assert_eq!(
        expect(b"s 13 16 9 300 300\np 13 16\np 13 17\np 13 18\np 12 0\nl 13 81\nW 1\n"),
        b"records 16 9\nrecords 17 300\nrecords 18 0\nbad\n"
    );
    assert_eq!(expect(b"s 0 1699 7 7\np 0 1699\np 0 1700\nx\ns 0\n\n#a\nq"), b"facts 1699 7\nbad\nbad\nbad\n#a\n");
}
