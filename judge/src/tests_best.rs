//! Best steps: against their definition, over all sequences of small maps; followed to a goal; and as the entries and the script give them.

use crate::best::{best, far_task, followed_to_the_goal, lengths_and_damage, many_ties, misleading, misleading_task};
use crate::builder::{script_of, tables_of};
use crate::cases::{A, E};
use crate::changes::changed_lines;
use crate::desk::{self, Answer};
use crate::limits::*;
use crate::random::{self, Size, MEDIUM, SMALL, TINY};
use crate::rng::Rng;
use crate::script::{expect, BEST, LEN, OUT};
use crate::space::{abstract_states, distances, image, view, View};
use crate::tables::{counts_of, Lent};
use crate::task::{Fault, Task};
use crate::text::read_text;
use crate::ways::{all_states, roads, Road};

fn read(text: &str) -> Task {
    read_text(text.as_bytes()).unwrap()
}

/// All sequences of a view from a state to a goal, of up to so many steps: each with what it costs.
fn sequences(view: &View, shares: &[u64], a: usize, most: usize) -> Vec<(u64, Vec<usize>)> {
    let mut found = Vec::new();
    let mut open = vec![(a, 0, Vec::new())];
    while let Some((at, cost, list)) = open.pop() {
        if list.len() < most {
            for (_, o, to) in view.steps.iter().filter(|(from, _, _)| *from == at) {
                open.push((*to, cost + shares[*o], [list.as_slice(), &[*o]].concat()));
            }
        }
        if view.goals[at] {
            found.push((cost, list));
        }
    }
    found
}

/// What the definition says of a state, and how hard it is to tell.
struct Defined {
    distance: Option<u64>,
    best: Option<usize>,
    /// cheapest sequences have different numbers of steps
    by_steps: bool,
    /// those with fewest steps have different first operators
    by_operator: bool,
    /// a cheapest sequence has as many steps as there are states, so that some part of it is a loop that costs 0
    has_free_loop: bool,
}

/// By the definition, word for word: the cheapest sequences, of them those with fewest steps, and of their first operators the lowest. No
/// sequence without a loop has as many steps as there are states, and a loop makes none cheaper.
fn defined(view: &View, shares: &[u64], a: usize) -> Defined {
    let states = view.goals.len();
    let all = sequences(view, shares, a, states);
    let distance = all.iter().map(|(cost, _)| *cost).min();
    let cheapest: Vec<&Vec<usize>> = all.iter().filter(|(cost, _)| Some(*cost) == distance).map(|(_, list)| list).collect();
    let fewest = cheapest.iter().map(|list| list.len()).min();
    let mut firsts: Vec<usize> =
        cheapest.iter().filter(|list| Some(list.len()) == fewest).filter_map(|list| list.first().copied()).collect();
    firsts.sort_unstable();
    firsts.dedup();
    Defined {
        distance,
        best: firsts.first().copied(),
        by_steps: cheapest.iter().any(|list| Some(list.len()) != fewest),
        by_operator: firsts.len() > 1,
        has_free_loop: cheapest.iter().any(|list| list.len() == states),
    }
}

/// Tasks whose sequences can be gone through one by one.
const FEW: Size = Size { vars: (1, 2), values: (2, 4), ops: (2, 6), maps: (1, 2) };

#[test]
fn best_steps_are_those_of_the_definition() {
    let mut rng = Rng::of_either_edition(31);
    let (mut by_steps, mut by_operator, mut free_loops, mut at_goals, mut without_way) = (0, 0, 0, 0, 0);
    for i in 0..2_000 {
        let task = if i % 4 == 0 { random::task(&mut rng, FEW) } else { misleading_task(&mut rng, FEW) };
        for m in (0..task.maps.len()).filter(|m| abstract_states(&task, *m) <= 7) {
            let (view, found) = (view(&task, m), distances(&task, m));
            for a in 0..view.goals.len() {
                let defined = defined(&view, &task.shares[m], a);
                assert_eq!((found.least[a], found.best[a]), (defined.distance, defined.best), "{:?} {} {}", task, m, a);
                assert_eq!(defined.best.is_none(), view.goals[a] || defined.distance.is_none());
                by_steps += usize::from(defined.by_steps);
                by_operator += usize::from(defined.by_operator);
                free_loops += usize::from(defined.has_free_loop && !view.goals[a]);
                at_goals += usize::from(defined.has_free_loop && view.goals[a]);
                without_way += usize::from(defined.distance.is_none());
            }
        }
    }
    let seen = [by_steps, by_operator, free_loops, at_goals, without_way];
    assert!(seen.iter().all(|count| *count > 400), "{:?}", seen);
}

/// The states and what is paid from a state on, step after step as it is advised, until nothing is.
fn followed(view: &View, shares: &[u64], best: &[Option<usize>], from: usize) -> (Vec<usize>, u64) {
    let (mut path, mut paid) = (vec![from], 0);
    while let Some(o) = best[path[path.len() - 1]] {
        let at = path[path.len() - 1];
        let (_, _, to) = view.steps.iter().find(|step| (step.0, step.1) == (at, o)).expect("the operator may be taken there");
        assert!(!path.contains(to), "a loop");
        path.push(*to);
        paid += shares[o];
    }
    (path, paid)
}

#[test]
fn following_the_best_steps_reaches_a_goal_at_the_distance() {
    let mut rng = Rng::of_either_edition(32);
    let mut steps = 0;
    for i in 0..300 {
        let size = [TINY, SMALL, MEDIUM][i % 3];
        let task = if i % 2 == 0 { random::telling_task(&mut rng, size) } else { misleading_task(&mut rng, size) };
        for m in 0..task.maps.len() {
            let (view, found) = (view(&task, m), distances(&task, m));
            for a in (0..view.goals.len()).filter(|a| found.least[*a].is_some()) {
                let (path, paid) = followed(&view, &task.shares[m], &found.best, a);
                assert!(view.goals[path[path.len() - 1]]);
                assert_eq!(Some(paid), found.least[a]);
                steps += path.len() - 1;
            }
        }
    }
    assert!(steps > 10_000, "{}", steps);
}

/// What the judge's vectors by name are for: on most of them the lowest operator that keeps to the distance isn't the step to take.
#[test]
fn a_loop_for_nothing_misleads_who_looks_at_the_distance_alone() {
    let given: [Road; 3] = [(1, 0, 0), (0, 1, 0), (1, 2, 5)];
    let task = roads(3, 2, &given);
    assert_eq!(misleading(&task, 0), 1);
    assert_eq!(distances(&task, 0).best, [Some(1), Some(2), None]);
    let mut rng = Rng::new(33);
    let misled =
        (0..50).map(|_| misleading_task(&mut rng, SMALL)).filter(|task| (0..task.maps.len()).any(|m| misleading(task, m) > 0)).count();
    assert!(misled > 30, "{}", misled);
}

#[test]
fn case_a_best_steps() {
    let task = read(A);
    assert_eq!(distances(&task, 0).best, [Some(0), None]);
    assert_eq!(distances(&task, 1).best, [Some(1), Some(2), None]);
    assert_eq!(distances(&task, 2).best, [Some(1), Some(3), None]);
    assert_eq!(distances(&read(E), 1).best, [None, None]);
}

/// The tables of a task, lent to an entry.
fn with_tables<T>(task: &Task, entry: impl FnOnce(Lent) -> T) -> T {
    let tables = tables_of(task);
    entry(Lent { counts: counts_of(task), facts: &tables.facts, costs: &tables.costs, shares: &tables.shares })
}

/// 255 is none, the places beyond the map stay, and a state is answered what the table says of its image.
#[test]
fn a_state_is_answered_as_the_table_says() {
    let mut rng = Rng::of_either_edition(34);
    for i in 0..90 {
        let task = misleading_task(&mut rng, [TINY, SMALL, SMALL][i % 3]);
        for m in 0..task.maps.len() {
            let (mut out, mut best) = (vec![98; OUT_ROOM + 4], vec![77; BEST_ROOM + 4]);
            let answer = with_tables(&task, |lent| desk::distances(lent, m as u32, &mut out, &mut best));
            assert_eq!(answer, Answer::Rounds(distances(&task, m).rounds));
            let states = abstract_states(&task, m);
            assert!(out[states..].iter().all(|place| *place == 98) && best[states..].iter().all(|place| *place == 77));
            for at in all_states(&task).iter().step_by(1 + i % 5) {
                let place = best[image(&task, m, at)];
                let due = if place == 255 { Answer::None } else { Answer::Take(place as usize) };
                let lent: Vec<u8> = at.iter().map(|value| *value as u8).collect();
                assert_eq!(with_tables(&task, |tables| desk::best_at(tables, m as u32, &lent)), due);
            }
        }
    }
}

/// So a run that takes the best steps of a map that keeps all apart is accepted, and ends at the goal.
#[test]
fn best_steps_of_a_map_that_keeps_all_apart_can_be_run() {
    let mut rng = Rng::new(35);
    let mut steps = 0;
    for _ in 0..40 {
        let task = far_task(&mut rng);
        let (found, mut at, mut paid) = (distances(&task, 0), task.init.clone(), 0);
        while let Some(o) = found.best[image(&task, 0, &at)] {
            assert!(task.may_run(o, &at));
            (at, paid, steps) = (task.after(o, &at), paid + task.ops[o].cost, steps + 1);
        }
        assert!(task.at_goal(&at));
        assert_eq!(Some(paid), found.least[image(&task, 0, &task.init)]);
    }
    assert!(steps > 80, "{}", steps);
}

#[test]
fn either_table_too_short_is_8_before_all_else_and_a_refusal_leaves_both() {
    let task = read(A);
    let fault = |number, place| Answer::Refused(Fault { number, place });
    let mut wrong = tables_of(&task);
    wrong.facts[0] = 9;
    let lent = Lent { counts: counts_of(&task), facts: &wrong.facts, costs: &wrong.costs, shares: &wrong.shares };
    let rooms = [0, 1, OUT_ROOM - 1, OUT_ROOM, OUT_ROOM + 1];
    for (out, best) in rooms.iter().flat_map(|out| rooms.iter().map(move |best| (*out, *best))) {
        let (mut out, mut best) = (vec![98; out], vec![77; best]);
        let short = out.len() < 4_096 || best.len() < 4_096;
        assert_eq!(desk::distances(lent, 9, &mut out, &mut best), if short { fault(8, 0) } else { fault(3, 3) });
        let unknown = with_tables(&task, |lent| desk::distances(lent, 3, &mut out, &mut best));
        assert_eq!(unknown, if short { fault(8, 0) } else { fault(3, 0) });
        assert!(out.iter().all(|place| *place == 98) && best.iter().all(|place| *place == 77));
    }
}

/// What a script prints on a text that is read.
fn printed(text: &str, lines: &str) -> Vec<String> {
    let script = format!("t {}\n{}\nR\n{}\n", text.len(), text, lines.replace("; ", "\n"));
    let printed = String::from_utf8(expect(script.as_bytes())).unwrap();
    let tables = ["accepted", "facts", "costs", "shares"];
    printed.lines().filter(|line| !tables.contains(&line.split(' ').next().unwrap())).map(str::to_string).collect()
}

#[test]
fn the_script_of_best_steps() {
    assert_eq!(printed(A, "e 15 7; D 1; p 15 3; D 1"), ["rounds 3", "out 0 2 1", "best 0 1 2 255", "best 3 7", "rounds 3"]);
    assert_eq!(printed(A, "N 0; N 1; N 2; N 3; s 4 0 1; N 0"), ["take 0", "take 1", "take 1", "refused 3 0", "none"]);
    assert_eq!(printed(A, "s 4 0 9; N 0; l 4 2; N 0; l 0 0; N 3"), ["refused 9 0", "refused 8 0", "refused 8 0"]);
    assert_eq!(printed(A, "N; N 0 0; N x"), ["bad"; 3]);
    assert_eq!(
        printed(A, "l 15 4095; D 0; l 15 4201; D 0; l 15 4200; D 0"),
        ["refused 8 0", "refused 8 0", "rounds 2", "out 0 1", "best 1 255"]
    );
    assert_eq!(
        printed(A, "s 15 4199 5 6; p 15 4199; p 15 4200; s 15 0 256; p 15 0; z; p 15 4199"),
        ["best 4199 5", "best 0 0", "best 4199 0"]
    );
}

/// The blocks of the document on the script's form: its example, and what that prints.
#[test]
fn the_example_of_the_document_prints_what_stands_there() {
    let blocks: Vec<&str> = include_str!("../../docs/VECTORS.md").split("```\n").collect();
    assert_eq!((blocks.len(), blocks[2]), (5, "prints\n"));
    assert_eq!(String::from_utf8(expect(blocks[1].as_bytes())).unwrap(), blocks[3]);
}

#[test]
fn changed_places_that_follow_each_other_stand_on_one_line() {
    let lines = |k: u32, old: &[u32], new: &[u32]| changed_lines(k as usize, old, new);
    assert_eq!(lines(OUT, &[0; 5], &[4, 4, 0, 7, 0]), ["out 0 4 4", "out 3 7"]);
    assert_eq!(lines(LEN, &[0], &[1]), ["len 1"]);
    assert_eq!(lines(BEST, &[7; 9], &[7; 9]), [""; 0]);
    let counted: Vec<u32> = (1..=70).collect();
    let full = |first: usize| format!("out {}{}", first, (first + 1..first + 17).map(|value| format!(" {}", value)).collect::<String>());
    assert_eq!(lines(OUT, &[0; 17], &counted[..17]), [full(0), "out 16 17".to_string()]);
    assert_eq!(lines(OUT, &[0; 64], &counted[..64]), [full(0), full(16), full(32), full(48)]);
    let more = lines(OUT, &[0; 66], &counted[..66]);
    // 64 + 65, and 31 times that and 65 + 66
    assert_eq!(more[4..], ["out more 2 4130"]);
    // every second place: 64 lines, and one place more
    let (old, new) = (vec![0; 129], (0..129).map(|place| 1 - place % 2).collect::<Vec<_>>());
    let singly = lines(BEST, &old, &new);
    assert_eq!((singly.len(), &*singly[63], &*singly[64]), (65, "best 126 1", "best more 1 129"));
}

/// What they try stays tried.
#[test]
fn the_vectors_over_best_steps_tell_all_that_there_is_to_tell() {
    let printed = String::from_utf8(expect(&script_of(&best(1)))).unwrap();
    let lines = ["take 0", "take 63", "take 62", "none", "refused 3 0", "refused 8 0", "refused 9 0", "refused 18 7", "passed 4", "bad"];
    for line in lines.map(|line| format!("\n{line}\n")) {
        assert!(printed.contains(&line), "{}", line);
    }
    assert_eq!(printed.matches("\nbest more 4032 ").count(), 6);
    assert!(printed.lines().all(|line| line.len() <= 200));
}

#[test]
fn vectors_by_chance_over_best_steps_take_halt_and_are_refused() {
    let mut rng = Rng::of_either_edition(36);
    let kinds = [many_ties, followed_to_the_goal, lengths_and_damage];
    let vectors: Vec<_> = (0..60).map(|i| kinds[i % 3](&mut rng)).collect();
    let printed = String::from_utf8(expect(&script_of(&vectors))).unwrap();
    let count = |line: &str| printed.lines().filter(|printed| printed.starts_with(line)).count();
    for (line, least) in
        [("take", 150), ("none", 60), ("best", 200), ("passed", 20), ("refused 8 0", 60), ("refused 9 ", 10), ("refused 3 0", 10)]
    {
        assert!(count(line) >= least, "{} {}", count(line), line);
    }
}
