//! Tasks, lists and runs at the limits.

use crate::builder::{text_of_task, Vector};
use crate::limits::*;
use crate::run::Run;
use crate::script::{FACTS, FIRST, LIST, SECOND};
use crate::task::{Op, Task};

/// Operators that count through all states of some variables, one step each; the lowest changes fastest.
fn counting_ops(vars: usize, from: usize, among: usize, values: usize) -> Vec<Op> {
    let mut ops = Vec::new();
    for v in from..from + among {
        for value in 0..values - 1 {
            let mut op = Op::new(COST, vec![None; vars], vec![None; vars]);
            for lower in from..v {
                op.pre[lower] = Some(values - 1);
                op.eff[lower] = Some(0);
            }
            op.pre[v] = Some(value);
            op.eff[v] = Some(value + 1);
            ops.push(op);
        }
    }
    ops
}

/// Counters side by side, each with a map of its own; from all zeros each has to count to its end.
pub fn counters(count: usize, among: usize, values: usize) -> Task {
    let vars = count * among;
    let ops: Vec<Op> = (0..count).flat_map(|c| counting_ops(vars, c * among, among, values)).collect();
    let of_counter = |c: usize, v: usize| v / among == c;
    let classes = |c: usize, v: usize| (0..values).map(|value| if of_counter(c, v) { value } else { 0 }).collect();
    let maps = (0..count).map(|c| (0..vars).map(|v| classes(c, v)).collect()).collect();
    let each = ops.len() / count;
    let shares = (0..count).map(|c| (0..ops.len()).map(|o| if o / each == c { COST } else { 0 }).collect()).collect();
    Task { dom: vec![values; vars], init: vec![0; vars], goal: vec![Some(values - 1); vars], quota: None, ops, maps, shares }
}

/// A switch that goes on and off; a goal is 'on'. Beside it is a thing of one value: two steps set it, which changes nothing;
/// neither asks for that value, so they aren't idle.
pub fn switch() -> Task {
    let op = |cost, on, to, beside| Op::new(cost, vec![on, None], vec![to, beside]);
    let ops =
        vec![op(COST, Some(0), Some(1), None), op(3, Some(1), Some(0), None), op(COST, None, None, Some(0)), op(0, Some(1), None, Some(0))];
    let maps = [[0, 1], [0, 0], [1, 0]].map(|classes| vec![classes.to_vec(), vec![0]]).to_vec();
    let shares = vec![vec![400_000, 1, COST, 0], vec![0, 0, 0, 0], vec![599_999, 2, 0, 0]];
    Task { dom: vec![2, 1], init: vec![0, 0], goal: vec![Some(1), None], quota: None, ops, maps, shares }
}

fn on_off(length: usize) -> Vec<u32> {
    (0..length).map(|i| (i % 2) as u32).collect()
}

/// Variables of eight values; the map keeps so many of them apart.
pub fn wide(vars: usize, kept: usize) -> Task {
    let classes = |v: usize| (0..8).map(|value| if v < kept { value } else { 0 }).collect();
    let op = Op::new(5, vec![None; vars], vec![Some(7); vars]);
    Task {
        dom: vec![8; vars],
        init: vec![0; vars],
        goal: vec![Some(7); vars],
        quota: None,
        ops: vec![op],
        maps: vec![(0..vars).map(classes).collect()],
        shares: vec![vec![5]],
    }
}

fn map_sizes() -> Vec<Vector> {
    let text = |vars, kept| String::from_utf8(text_of_task(&wide(vars, kept))).unwrap();
    let last = "/0,1,2,3,4,5,6,7\n";
    let cut = |text: String, end: &str| text[..text.find("share=").unwrap() - last.len()].to_string() + end;
    let read = |title: &str, text: String| Vector::new(title).text(text.as_bytes()).lines("R; K");
    vec![
        read("4096 abstract states pass", text(5, 4)).lines("D 0; B"),
        read("above 4096 abstract states", text(5, 5)),
        read("above 4096 abstract states, at the end of the list", cut(text(5, 5), "/0,1,2,3,4,5,6,7")),
        read("above 4096 abstract states, before the next byte", cut(text(5, 5), "/0,1,2,3,4,5,6,7,7\n")),
        read("above 4096 abstract states, but the list isn't at its end", cut(text(5, 5), "/0,1,2,3,4,5,6\n")),
        read("a missing class comes before too many states", cut(text(5, 5), "/0,1,2,3,4,5,7,7\n")),
        read("a class out of range comes before too many states", cut(text(5, 5), "/0,1,2,3,4,5,6,8\n")),
        read("8 to the 8th abstract states", text(8, 8)),
        read("tables with too many abstract states", text(5, 4)).set(FACTS, 8 * (131 + 4), &[0, 1]).lines("K; D 0; B; J; C; P; G; O 1 0"),
        read("tables with a missing class and too many states", text(5, 4)).set(FACTS, 8 * (131 + 4), &[0, 2]).lines("K; D 0; B; A 0"),
    ]
}

fn distances_at_the_edge() -> Vec<Vector> {
    let mut one = Task {
        dom: vec![1; 8],
        init: vec![0; 8],
        goal: vec![None; 8],
        quota: None,
        ops: vec![Op::new(4, vec![Some(0); 8], vec![None; 8])],
        maps: vec![vec![vec![0]; 8]; 8],
        shares: vec![vec![0]; 8],
    };
    (one.ops[0].pre[7], one.ops[0].eff[7]) = (None, Some(0));
    let mut unmet = switch();
    unmet.goal = vec![Some(0), None];
    unmet.ops.remove(1);
    for row in &mut unmet.shares {
        row.remove(1);
    }
    let mut free = switch();
    free.shares[0][0] = 0;
    vec![
        Vector::new("a counter of 512 states: rounds as many as states").task(&counters(1, 3, 8)).lines("D 0; A 0; B"),
        Vector::new("two counters side by side").task(&counters(2, 2, 5)).lines("D 0; D 1; B"),
        Vector::new("single-value variables only: one abstract state, one round").task(&one).lines("e 3 5; D 0; D 7; D 8; B; J; C; P"),
        Vector::new("no way to the goal in one view, and a way in another").task(&unmet).lines("s 4 0 1; A 0; A 1; A 2; B; D 0; D 1; D 2"),
        Vector::new("an operator with share 0 is a way to the goal").task(&free).lines("A 0; B; D 0; D 1; D 2"),
        Vector::new("a map that swaps the values").task(&switch()).lines("D 2; A 2; s 4 0 1; A 2"),
    ]
}

/// Each operator of a counter alone, at states of the two highest values.
fn highest_values() -> Vector {
    let task = counters(1, 3, 8);
    let states = (0..8).map(|bits| (0..3).map(|v| 6 + (bits >> v) % 2).collect::<Vec<usize>>());
    states.fold(Vector::new("each operator of a counter at its highest values").task(&task).lines("l 5 1"), |vector, at| {
        (0..task.ops.len()).fold(vector.state(&at), |vector, o| vector.lines(&format!("s 5 0 {}; J", o)))
    })
}

fn lists_at_the_edge() -> Vec<Vector> {
    let with = |title: &str, list: &[u32]| Vector::new(title).task(&switch()).lend(FIRST, list);
    let still = |length: usize| vec![2; length];
    let late = |length: usize| [still(length - 1), vec![0]].concat();
    let (less, over) = (STEPS - 1, STEPS + 1);
    vec![
        with(&format!("{STEPS} steps end without goal"), &on_off(STEPS)).lines("J; C; P"),
        with(&format!("{less} steps pass"), &on_off(less)).lines("J; C; P"),
        with(&format!("{STEPS} steps that reach the goal at the last"), &late(STEPS)).lines("J; C; P"),
        with(&format!("{over} steps are too many"), &late(over)).lines("J; C; P"),
        with(&format!("{over} steps with a fault at the first are too many"), &[vec![1], on_off(STEPS)].concat()).lines("J; C; P"),
        with(&format!("{over} steps from a goal: out even so"), &on_off(over)).lend(SECOND, &[]).lines("s 4 0 1; C; P"),
        with(&format!("both above {STEPS} steps from a goal"), &on_off(over)).lend(SECOND, &on_off(LIST)).lines("s 4 0 1; C; P"),
        with(&format!("{over} steps and a second list of {STEPS}"), &late(over)).lend(SECOND, &late(STEPS)).lines("C; P"),
        with("a fault after the goal moment doesn't count", &[0, 0, 77]).lend(SECOND, &[2, 0]).lines("J; C; P"),
        with("a fault before the goal moment does", &[4, 0]).lend(SECOND, &[2, 0]).lines("J; C; P"),
        with("equal costs name the first", &[0, 1]).lend(SECOND, &[0]).lines("C; P"),
        with("the second is cheaper", &[2, 0]).lend(SECOND, &[0, 1, 1]).lines("C; P"),
        with("at a goal at the start both are empty", &[4294967295]).lend(SECOND, &[]).lines("s 4 0 1; J; C; P"),
        with("two empty lists", &[]).lend(SECOND, &[]).lines("J; C; P"),
        with("a state outside comes before the lists", &on_off(STEPS + 44)).lines("s 4 0 2; J; C; P"),
        with("a state without places", &on_off(STEPS + 44)).lines("l 4 0; J; C; P; A 0; A 3; B; G"),
        with("an operator of the highest number", &[0, 4294967295]).lines("J; C; P"),
    ]
}

/// The run after the list, by the ledger's rules.
pub fn run_of(task: &Task, list: &[u32]) -> Run {
    list.iter().fold(Run::fresh(&task.init), |run, o| run.with(task, *o as usize))
}

fn full_runs() -> Vec<Vector> {
    let task = switch();
    let (less, over, beyond) = (STEPS - 1, STEPS + 1, STEPS + 2);
    let full = run_of(&task, &on_off(STEPS));
    let still = run_of(&task, &vec![2; STEPS]);
    let almost = run_of(&task, &on_off(less));
    let offers = format!("{STEPS} honest offers, and what follows them");
    let honest =
        (1..=STEPS).fold(Vector::new(&offers).task(&task).lines("G"), |vector, i| vector.lines(&format!("O {} {}", i, (i + 1) % 2)));
    let held = |title: &str, run: &Run, lines: String| Vector::new(title).task(&task).run(run).lines(&lines);
    vec![
        honest.lines(&format!("O {over} 0; O {beyond} 0; O {STEPS} 1; O {STEPS} 0; O {over} 4; O 1 0; O 0 0")),
        held(
            &format!("the {over}th step is 15, before 12"),
            &full,
            format!("O {over} 0; O {over} 1; O {over} 3; O {beyond} 0; O {over} 4"),
        ),
        held("the last step of a full run repeated", &full, format!("O {STEPS} 1; O {STEPS} 0; O 1 0; O 1 1")),
        held(&format!("the {STEPS}th step"), &almost, format!("O {STEPS} 0; O {STEPS} 1; O {STEPS} 1; O {over} 0")),
        held(&format!("{STEPS} steps at the highest cost"), &still, format!("O {STEPS} 2; O {over} 2; O {over} 0")),
        held("a full run with a length beyond the log", &full, format!("s 9 0 {over}; O {over} 0; s 9 0 4294967295; O 1 0")),
        held("a full run with one step less", &full, format!("s 9 0 {less}; O {STEPS} 1")),
        held(
            "a full run with a wrong last step",
            &full,
            format!("s 8 {less} 2; O {over} 0; s 8 {less} 4; O {over} 0; s 8 {less} 1; O {over} 0"),
        ),
        held("a full run with a wrong column", &full, format!("s 11 0 0; O {over} 0")),
    ]
}

const EVERY_ENTRY: &str = "K; D 0; A 0; B; J; C; P; G; O 1 0; R";

fn short_tables() -> Vec<Vector> {
    let short = |title: &str, line: &str| Vector::new(title).task(&switch()).lend(FIRST, &[0]).lines(line).lines(EVERY_ENTRY);
    vec![
        short("facts one place short", "l 0 1623"),
        short("no facts", "l 0 0"),
        short("costs one place short", "l 1 63"),
        short("shares one place short", "l 2 511"),
        short("the distance table one place short", "l 3 4095"),
        short("the distance table without places", "l 3 0"),
        short(
            "all tables longer than needed",
            "e 0 0; e 1 0; e 2 0; l 0 1700; l 1 80; l 2 600; l 3 4200; R; s 0 1630 9; s 1 70 9; s 2 520 9; e 3 9",
        ),
        short("a short table comes before a fault in the tables", "s 0 0 9; l 3 4095"),
        short("a state longer than needed", "l 4 16; s 4 2 200 200 200 200 200 200 200 200 200 200"),
        short("a short distance table comes before a map that isn't there", "l 3 4095; D 9; l 3 4096; D 9"),
    ]
}

fn counts_at_the_edge() -> Vec<Vector> {
    let with = |title: &str, line: &str| Vector::new(title).task(&switch()).lend(FIRST, &[0]).lines(line).lines(EVERY_ENTRY);
    let effects: String = (4..OPS).map(|o| format!("s 0 {} 1; ", ROW * (ROW_EFF + o) + 1)).collect();
    vec![
        with("tables without variables", "n 0 4 3"),
        with("tables with nine variables", "n 9 4 3"),
        with("tables with the most variables that a number can say", "n 4294967295 4 3"),
        with("tables with 65 operators", "n 2 65 3"),
        with("tables with 64 operators, most of them of one effect alone", &format!("{effects}n 2 64 3")),
        with("tables with no operators", "n 2 0 3"),
        with("tables without maps", "n 2 4 0"),
        with("tables with nine maps", "n 2 4 9"),
        with("tables with eight maps, most of them empty", "n 2 4 8"),
        with("tables with a variable of no values", "n 3 4 3"),
        with("the first faulty count decides", "n 9 65 9"),
        with("a fault in the goal before too many operators", "s 0 16 3; n 2 65 9"),
    ]
}

/// What takes long: counters of the most abstract states.
pub fn long() -> Vec<Vector> {
    vec![
        Vector::new("a counter of 4096 states: rounds as many, and the longest distance").task(&counters(1, 4, 8)).lines("D 0"),
        Vector::new("two counters whose bound is above the highest u32").task(&counters(2, 4, 7)).lines("B"),
    ]
}

pub fn edges() -> Vec<Vector> {
    let groups = [
        map_sizes(),
        vec![highest_values()],
        distances_at_the_edge(),
        lists_at_the_edge(),
        full_runs(),
        short_tables(),
        counts_at_the_edge(),
    ];
    groups.into_iter().flatten().collect()
}
