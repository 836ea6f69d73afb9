//! An operator without effects, or each of whose effects is a precondition too: where it is told, and what isn't one.

use crate::builder::{row_of, script_of, tables_of, text_of_task, Tables};
use crate::cases::{a_with, row_of_ops, A};
use crate::damages::{idle_text, some_places};
use crate::desk;
use crate::edges::run_of;
use crate::idle::idle;
use crate::kinds::any_by_chance;
use crate::limits::*;
use crate::random::{task, FULL, LARGE, MEDIUM, SMALL, TINY};
use crate::rng::Rng;
use crate::run::Run;
use crate::script::{expect, FACTS};
use crate::tables::{counts_of, read_tables, Lent};
use crate::task::{Fault, Task};
use crate::text::read_text;

/// Case A's variables with one operator in line 7; what comes behind its line is due or isn't.
fn begun(op: &str) -> String {
    let five: String = A.split_inclusive('\n').take(5).collect();
    format!("{five}ops=1\n{op}")
}

fn whole(op: &str) -> String {
    begun(op) + "\nmaps=1\nmap=0,1/0,0,0/0,0,0\nshare=0\n"
}

/// The number and the line that a text is refused with; 0 if it is accepted.
fn told(text: &str) -> (u32, u32) {
    read_text(text.as_bytes()).map_or_else(|fault| (fault.number, fault.place), |_| (0, 0))
}

#[test]
fn without_effects_or_with_effects_that_are_preconditions_it_is_18_at_its_line() {
    let lines = [
        "op=0;-;-",
        "op=1;0:0;-",
        "op=1;0:0,1:2;-",
        "op=1;0:0;0:0",
        "op=1;2:2;2:2",
        "op=1;1:1,2:2;1:1,2:2",
        "op=1;1:1,2:2;1:1",
        "op=1;1:1,2:2;2:2",
        "op=1;0:1,1:2,2:0;0:1,2:0",
    ];
    for op in lines {
        assert_eq!(told(&whole(op)), (18, 7), "{op}");
        assert_eq!(told(&begun(op)), (18, 7), "{op}, cut there");
        for end in ["x", ";", ":", "-", "\r", " "] {
            assert_eq!(told(&begun(&format!("{op}{end}"))), (18, 7), "{op}{end}");
            assert_eq!(told(&whole(&format!("{op}{end}"))), (18, 7), "{op}{end}");
        }
    }
    assert_eq!(desk::program(whole("op=0;-;-").as_bytes()), "refused=18\nplace=7\n");
}

#[test]
fn after_the_dash_of_no_effects_it_is_18_whatever_byte_follows() {
    for byte in 0..=255u8 {
        let text = [begun("op=0;-;-").as_bytes(), &[byte], b"maps=1\n"].concat();
        assert_eq!(read_text(&text), Err(Fault { number: 18, place: 7 }), "{byte}");
    }
}

#[test]
fn after_a_digit_the_number_goes_on_and_after_a_comma_the_list() {
    assert_eq!(told(&begun("op=1;0:0;0:00")), (2, 7));
    assert_eq!(told(&begun("op=1;0:1;0:10")), (3, 7));
    assert_eq!(told(&begun("op=1;0:0;0:0,")), (2, 7));
    assert_eq!(told(&begun("op=1;0:0;0:0,\n")), (2, 7));
    assert_eq!(told(&begun("op=1;0:0;0:0,0:0")), (4, 7));
    assert_eq!(told(&begun("op=1;0:0;0:0,1:3")), (3, 7));
    assert_eq!(told(&begun("op=1;0:0,1:0;0:0,1")), (2, 7));
    assert_eq!(told(&begun("op=1;0:0,1:0;0:0,1:0")), (18, 7));
    assert_eq!(told(&begun("op=1;0:0;0:0,1:0")), (2, 7));
    assert_eq!(told(&begun("op=1;0:0;0:0,1:0\n")), (2, 8));
}

#[test]
fn what_is_wrong_in_the_line_itself_comes_before() {
    assert_eq!(told(&begun("op=1000001;-;-")), (3, 7));
    assert_eq!(told(&begun("op=1;0:2;-")), (3, 7));
    assert_eq!(told(&begun("op=1;0:2;0:2")), (3, 7));
    assert_eq!(told(&begun("op=1;0:0;0:2")), (3, 7));
    assert_eq!(told(&begun("op=1;0:0;3")), (3, 7));
    assert_eq!(told(&begun("op=1;1:0;1:0,0:0")), (4, 7));
    assert_eq!(told(&begun("op=1;1:0,0:0;-")), (4, 7));
    assert_eq!(told(&begun("op=01;-;-")), (2, 7));
    assert_eq!(told(&begun("op=1;0:0;")), (2, 7));
    assert_eq!(told(&begun("op=1;0:0;0")), (2, 7));
    assert_eq!(told(&begun("op=1;0:0")), (2, 7));
}

#[test]
fn with_one_effect_that_is_no_precondition_it_is_accepted() {
    let lines = [
        "op=1;-;0:0",
        "op=1;0:1;1:1",
        "op=1;1:1;0:1",
        "op=1;1:1;1:2",
        "op=1;1:1,2:2;1:2,2:1",
        "op=1;1:1,2:1;1:1,2:2",
        "op=1;1:1,2:1;1:2,2:1",
        "op=1;1:1;1:1,2:0",
        "op=1;0:0,1:0,2:0;0:0,1:0,2:1",
    ];
    for op in lines {
        assert_eq!(told(&whole(op)), (0, 0), "{op}");
    }
}

#[test]
fn a_variable_of_one_value_may_be_set_if_it_is_not_asked_for() {
    let text = |op: &str| format!("edition=1\nvars=2\ndom=1,2\ninit=0,0\ngoal=-\nops=1\n{op}\nmaps=1\nmap=0/0,1\nshare=0\n");
    for op in ["op=1;-;0:0", "op=1;1:0;0:0", "op=1;0:0;0:0,1:0"] {
        assert_eq!(told(&text(op)), (0, 0), "{op}");
    }
    for op in ["op=1;0:0;0:0", "op=1;0:0;-", "op=1;0:0,1:0;0:0"] {
        assert_eq!(told(&text(op)), (18, 7), "{op}");
    }
}

/// Case A with operator 1, in line 8, idle, and this in the place of that.
#[test]
fn the_first_fault_in_the_text_decides() {
    let beside = |old: &str, new: &str| told(&a_with(old, new).replacen("op=1;1:0,2:0;1:1,2:1", "op=1;1:0,2:0;2:0", 1));
    assert_eq!(beside("goal=0:1", "goal=0:2"), (3, 5));
    assert_eq!(beside("ops=4", "ops=65"), (3, 6));
    assert_eq!(beside("op=1;0:0;0:1", "op=1000001;0:0;0:1"), (3, 7));
    assert_eq!(beside("op=1;0:0;0:1", "op=1;0:0;0:0"), (18, 7));
    assert_eq!(beside("op=1;1:1;1:2", "op=1000001;1:1;1:2"), (18, 8));
    assert_eq!(beside("op=1;1:1;1:2", "op=1;1:1;1:1"), (18, 8));
    assert_eq!(beside("maps=3", "maps=9"), (18, 8));
    assert_eq!(beside("map=0,1", "map=1,1"), (18, 8));
    assert_eq!(beside("share=1,0,0,0", "share=1000001,0,0,0"), (18, 8));
    assert_eq!(beside("share=1,0,0,0", "share=2,0,0,0"), (18, 8));
    let wide = format!(
        "edition=1\nvars=5\ndom=8,8,8,8,8\ninit=0,0,0,0,0\ngoal=-\nops=1\nop=0;-;-\nmaps=1\nmap={}\nshare=0\n",
        [CLASSES; 5].join("/")
    );
    assert_eq!(told(&wide), (18, 7));
    assert_eq!(told(&wide.replace("op=0;-;-", "op=0;-;0:0")), (7, 9));
}

/// A variable of eight values kept apart; five of them are above 4,096 abstract states.
const CLASSES: &str = "0,1,2,3,4,5,6,7";

fn lent<'a>(task: &Task, tables: &'a Tables) -> Lent<'a> {
    Lent { counts: counts_of(task), facts: &tables.facts, costs: &tables.costs, shares: &tables.shares }
}

#[test]
fn every_entry_that_takes_tables_refuses_them() {
    for (o, line) in [(0, 7), (31, 38), (63, 70)] {
        let task = row_of_ops(&[1; OPS]);
        let (mut tables, mut row) = (tables_of(&task), row_of(&task));
        tables.facts[ROW * (ROW_EFF + o)] = 0;
        row[o].eff[0] = 0;
        let (run, mut out, mut best) = (run_of(&task, &[1, 2]), vec![9; OUT_ROOM], vec![9; BEST_ROOM]);
        let refused = desk::Answer::Refused(Fault { number: 18, place: line });
        let lent = lent(&task, &tables);
        assert_eq!(desk::check(lent), refused);
        assert_eq!(desk::distances(lent, 9, &mut out, &mut best), refused);
        assert_eq!((out, best), (vec![9; OUT_ROOM], vec![9; BEST_ROOM]));
        assert_eq!(desk::distance_at(lent, 9, &[7]), refused);
        assert_eq!(desk::best_at(lent, 9, &[7]), refused);
        assert_eq!(desk::bound(lent, &[7]), refused);
        assert_eq!(desk::judge(lent, &[7], &[64; STEPS + 1]), refused);
        assert_eq!(desk::cheaper(lent, &[7], &[], &[]), refused);
        assert_eq!(desk::opening(lent, &[0], &[1], &[1]), desk::Answer::Opening { list: 1, part: Vec::new() });
        assert_eq!(desk::begin(lent, &[7]), (Run::zeros(), refused.clone()));
        let broken = Run { len: 1, ..run.clone() };
        assert_eq!(desk::offer(&run, lent, 3, 0), (run, refused.clone()));
        assert_eq!(desk::offer(&broken, lent, 9, 64), (broken, refused.clone()));
        let whole = tables_of(&task);
        assert_eq!(desk::judge_row(Lent { facts: &whole.facts, ..lent }, &row, &[7], &[64; STEPS + 1]), refused);
        assert_eq!(desk::judge_row(lent, &row_of(&task), &[0], &[o as u32]).to_string(), "passed 1");
    }
}

/// Case A's tables with operator 1 idle: its own places decide, and those beyond the variables don't.
#[test]
fn only_the_tasks_own_variables_count() {
    let task = read_text(A.as_bytes()).unwrap();
    let judged = |tables: &Tables| read_tables(lent(&task, tables)).map(|_| ());
    let mut tables = tables_of(&task);
    tables.facts[ROW * (ROW_EFF + 1)..][..3].copy_from_slice(&[0, 1, 0]);
    for (pre, eff) in [(0, 0), (0, 1), (1, 0), (3, 200), (200, 200)] {
        tables.facts[ROW * (ROW_PRE + 1) + 3..][..5].fill(pre);
        tables.facts[ROW * (ROW_EFF + 1) + 3..][..5].fill(eff);
        assert_eq!(judged(&tables), Err(Fault { number: 18, place: 8 }), "{pre} and {eff}");
    }
    tables.facts[ROW * (ROW_EFF + 1) + 2] = 2;
    assert_eq!(judged(&tables), Ok(()));
    tables.facts[ROW * (ROW_PRE + 1) + 2] = 2;
    assert_eq!(judged(&tables), Err(Fault { number: 18, place: 8 }));
    tables.costs[1] = 1_000_001;
    assert_eq!(judged(&tables), Err(Fault { number: 3, place: 8 }));
}

#[test]
fn no_task_by_chance_has_an_idle_operator() {
    let mut rng = Rng::new(10);
    let (mut repeating, mut unmoving) = (0, 0);
    for size in [TINY, SMALL, MEDIUM, LARGE, FULL].iter().cycle().take(500) {
        let task = task(&mut rng, *size);
        assert_eq!(read_text(&text_of_task(&task)), Ok(task.clone()));
        for op in &task.ops {
            repeating += usize::from(op.eff.iter().zip(&op.pre).any(|(effect, asked)| effect.is_some() && effect == asked));
            unmoving += usize::from(op.eff.iter().zip(&task.dom).all(|(effect, values)| effect.is_none() || *values == 1));
        }
    }
    assert!(repeating > 200 && unmoving > 50, "{} and {}", repeating, unmoving);
}

/// How often a script's answers refuse with 18.
fn idle_told(script: &[u8]) -> usize {
    String::from_utf8(expect(script)).unwrap().lines().filter(|line| line.starts_with("refused 18 ")).count()
}

#[test]
fn damage_by_chance_makes_operators_idle_now_and_then() {
    let mut rng = Rng::new(11);
    let (mut texts, mut tables) = (0, 0);
    for _ in 0..300 {
        let task = task(&mut rng, SMALL);
        texts += usize::from(matches!(read_text(&idle_text(&mut rng, &task)), Err(Fault { number: 18, .. })));
        let (k, place, _, new) = some_places(&mut rng, &task);
        let mut damaged = tables_of(&task);
        if k == FACTS {
            damaged.facts[place..place + new.len()].iter_mut().zip(&new).for_each(|(at, value)| *at = *value as u8);
            tables += usize::from(matches!(read_tables(lent(&task, &damaged)), Err(Fault { number: 18, .. })));
        }
    }
    assert!(texts > 100 && tables > 30, "{} and {}", texts, tables);
}

#[test]
fn the_damaged_vectors_by_chance_tell_idle_operators() {
    let scripts: Vec<_> = (0..300).map(|i| script_of(&[any_by_chance(&mut Rng::new(i as u64), i)])).collect();
    for kind in ["damaged texts of a", "damaged tables of a", "a row of records with something damaged"] {
        let of_kind = scripts.iter().filter(|script| String::from_utf8_lossy(script).lines().nth(1).unwrap().contains(kind));
        let told: usize = of_kind.map(|script| idle_told(script)).sum();
        assert!(told > 9, "{} tells {}", kind, told);
    }
}

/// All but two: one reads operators that aren't idle, and one what is told before.
#[test]
fn the_vectors_over_idle_operators_tell_them() {
    let scripts: Vec<_> = idle(1).into_iter().map(|vector| script_of(&[vector])).collect();
    let silent: Vec<_> = scripts.iter().filter(|script| idle_told(script) == 0).map(|script| String::from_utf8_lossy(script)).collect();
    let title = |script: &str| script.lines().nth(1).unwrap().to_string();
    let titles = ["# 1 operators of which some effect isn't a precondition", "# 1 faults of an idle operator's line that come before"];
    assert_eq!(silent.iter().map(|script| title(script)).collect::<Vec<_>>(), titles);
}
