//! The best steps of a map: of the cheapest sequences to a goal those with fewest steps, and of their first operators the lowest number; none at a goal, and where there
//! is no way. They are held to a second reckoning from the task's tables, and followed to a goal.
mod shared;

use mihaedop::*;
use shared::{ops, refusal, task, A, G};

/// The cases of the bench, the bench's own work, and tasks with every count at its limit.
const TASKS: [&str; 9] = [
    A,
    G,
    include_str!("../../../cases/D.txt"),
    include_str!("../../../cases/E.txt"),
    include_str!("../../../cases/F-package.txt"),
    include_str!("../../../cases/F-package-and-truck.txt"),
    include_str!("../../../bench/shift.txt"),
    include_str!("../../../bench/largest.txt"),
    include_str!("../../../bench/dials.txt"),
];

/// What stands in the places of both tables before.
const OTHER: u8 = 77;

/// A task of one variable, of so many values, with one map that keeps them apart. The goal is a fact or `-`; a step has its value before, its value after and its cost,
/// which the map pays.
fn line(values: u32, goal: &str, steps: &[(u32, u32, u32)]) -> Task {
    let listed = |numbers: Vec<u32>| numbers.iter().map(u32::to_string).collect::<Vec<_>>().join(",");
    let operators: String = steps.iter().map(|(from, to, cost)| format!("op={cost};0:{from};0:{to}\n")).collect();
    let (map, shares) = (listed((0..values).collect()), listed(steps.iter().map(|step| step.2).collect()));
    let text = format!("edition=1\nvars=1\ndom={values}\ninit=0\ngoal={goal}\nops={}\n{operators}", steps.len());
    task(&format!("{text}maps=1\nmap={map}\nshare={shares}\n"))
}

// Where the rows of 8 facts begin: the goal, the operators' preconditions and effects, and the classes of the maps.
const GOAL: usize = 2;
const PRECONDITIONS: usize = 3;
const EFFECTS: usize = 67;
const CLASSES: usize = 131;

/// The class of a variable's value in a map.
fn class(task: &Task, map: usize, variable: usize, value: u8) -> usize {
    usize::from(task.tables().0[8 * (CLASSES + 8 * map + variable) + usize::from(value)])
}

/// What a view says of the variables: nothing, or a class.
type Row = Vec<Option<usize>>;

/// A task as a map shows it, from its tables: how many classes each variable has, the goal, and the operators' preconditions, effects and shares.
struct View {
    classes: Vec<usize>,
    goal: Row,
    operators: Vec<(Row, Row, u64)>,
}

impl View {
    fn of(task: &Task, map: usize) -> View {
        let (facts, _, shares) = task.tables();
        let Counts { variables, operators, .. } = task.counts();
        let seen = |row: usize| -> Row {
            let fact = |v: usize| facts[8 * row + v].checked_sub(1).map(|value| class(task, map, v, value));
            (0..variables as usize).map(fact).collect()
        };
        let classes = |v: usize| (0..facts[v]).map(|value| class(task, map, v, value) + 1).max().expect("a value");
        let operator = |op: usize| (seen(PRECONDITIONS + op), seen(EFFECTS + op), u64::from(shares[64 * map + op]));
        View {
            classes: (0..variables as usize).map(classes).collect(),
            goal: seen(GOAL),
            operators: (0..operators as usize).map(operator).collect(),
        }
    }

    fn states(&self) -> usize {
        self.classes.iter().product()
    }

    /// The classes of a state; variable 0 changes fastest.
    fn digits(&self, mut number: usize) -> Vec<usize> {
        let digit = |classes: &usize| {
            let digit = number % classes;
            number /= classes;
            digit
        };
        self.classes.iter().map(digit).collect()
    }

    fn number(&self, digits: &[usize]) -> usize {
        self.classes.iter().zip(digits).rev().fold(0, |number, (classes, digit)| number * classes + digit)
    }

    fn holds(row: &Row, digits: &[usize]) -> bool {
        row.iter().zip(digits).all(|(fact, digit)| fact.map_or(true, |class| class == *digit))
    }

    fn is_goal(&self, state: usize) -> bool {
        View::holds(&self.goal, &self.digits(state))
    }

    /// Where an operator leads, if it may run.
    fn after(&self, state: usize, op: usize) -> Option<usize> {
        let (asked, effects, _) = &self.operators[op];
        let digits = self.digits(state);
        let after: Vec<usize> = effects.iter().zip(&digits).map(|(effect, digit)| effect.unwrap_or(*digit)).collect();
        View::holds(asked, &digits).then(|| self.number(&after))
    }

    /// The least cost to a goal from each state and the fewest steps at that cost, by going over all steps until nothing changes; and the lowest operator that keeps both.
    fn reckoned(&self) -> Vec<Option<(u64, u64, u8)>> {
        let steps = |state: usize| (0..self.operators.len()).filter_map(move |op| Some((op, self.after(state, op)?)));
        let onward: Vec<Vec<(usize, usize)>> = (0..self.states()).map(|state| steps(state).collect()).collect();
        let goal = |state: usize| self.is_goal(state).then_some((0, 0, NO_STEP));
        let mut told: Vec<Option<(u64, u64, u8)>> = (0..self.states()).map(goal).collect();
        loop {
            let mut changed = false;
            for (state, onward) in onward.iter().enumerate().filter(|(state, _)| !self.is_goal(*state)) {
                let by = |&(op, to): &(usize, usize)| told[to].map(|(cost, steps, _)| (self.operators[op].2 + cost, steps + 1, op as u8));
                let least = onward.iter().filter_map(by).min();
                changed |= told[state] != least;
                told[state] = least;
            }
            if !changed {
                return told;
            }
        }
    }

    /// The operators that are taken, and what they cost, from a state to where no step is best.
    fn followed(&self, best: &[u8], mut state: usize) -> (Vec<u8>, u64, usize) {
        let (mut taken, mut cost) = (Vec::new(), 0);
        while best[state] != NO_STEP {
            let op = usize::from(best[state]);
            assert!(taken.len() < self.states(), "round and round: {taken:?}");
            taken.push(best[state]);
            cost += self.operators[op].2;
            state = self.after(state, op).expect("an operator that may run");
        }
        (taken, cost, state)
    }
}

/// The distances and best steps of a map at its states; beyond them both tables are as they were.
fn told(task: &Task, map: u32, states: usize) -> (Vec<u32>, Vec<u8>) {
    let (mut distances, mut best) = ([u32::from(OTHER); DISTANCES + 1], [OTHER; BEST_STEPS + 1]);
    assert!(task.distances(Map(map), &mut distances, &mut best).is_ok());
    assert!(distances[states..].iter().all(|&place| place == u32::from(OTHER)) && best[states..].iter().all(|&place| place == OTHER));
    (distances[..states].to_vec(), best[..states].to_vec())
}

/// Every map of a task: its tables are those that were reckoned, and from each state with a distance the best steps come to a goal, at that cost and in as few steps.
fn holds(task: &Task) {
    for map in 0..task.counts().maps {
        let view = View::of(task, map as usize);
        let (distances, best) = told(task, map, view.states());
        for (state, reckoned) in view.reckoned().into_iter().enumerate() {
            let (taken, cost, end) = view.followed(&best, state);
            let Some((least, fewest, op)) = reckoned else {
                assert_eq!((distances[state], best[state]), (NO_DISTANCE, NO_STEP));
                continue;
            };
            assert_eq!((u64::from(distances[state]), best[state]), (least, op));
            assert_eq!((cost, taken.len() as u64), (least, fewest));
            assert!(view.is_goal(end));
        }
    }
}

#[test]
fn case_a() {
    let a = task(A);
    for (map, best) in [(0, &[0, NO_STEP][..]), (1, &[1, 2, NO_STEP]), (2, &[1, 3, NO_STEP])] {
        assert_eq!(told(&a, map, best.len()).1, best);
    }
    assert_eq!([0, 1, 2].map(|map| a.best_at(Map(map), &a.initial())), [0, 1, 1].map(|op| Ok(Some(Operator(op)))));
    assert_eq!([0, 1, 2].map(|map| a.best_at(Map(map), &State::of(&[1, 1, 1]))), [None, Some(Operator(2)), Some(Operator(3))].map(Ok));
    assert_eq!([0, 1, 2].map(|map| a.best_at(Map(map), &State::of(&[1, 2, 2]))), [Ok(None); 3]);
}

#[test]
fn a_best_step_of_the_view_need_not_be_able_to_run_in_the_state() {
    let (a, state) = (task(A), State::of(&[1, 0, 1]));
    assert_eq!(a.best_at(Map(1), &state), Ok(Some(Operator(1))));
    assert_eq!(refusal(a.judge(&state, &ops(&[1]))), (12, 1));
}

#[test]
fn loops_that_cost_nothing_are_left() {
    // at value 1 operator 1 costs nothing and leads to where the distance is the same
    let there_and_back = line(3, "0:2", &[(0, 1, 0), (1, 0, 0), (1, 2, 5)]);
    assert_eq!(told(&there_and_back, 0, 3), (vec![5, 5, 0], vec![0, 2, NO_STEP]));
    let all_for_nothing = line(3, "0:2", &[(1, 0, 0), (0, 1, 0), (1, 2, 0)]);
    assert_eq!(told(&all_for_nothing, 0, 3), (vec![0, 0, 0], vec![1, 2, NO_STEP]));
    // a step back before each step on, and a ring
    let back: Vec<(u32, u32, u32)> = (1..8).map(|value| (value, value - 1, 0)).collect();
    let on: Vec<(u32, u32, u32)> = (0..7).map(|value| (value, value + 1, 0)).collect();
    assert_eq!(told(&line(8, "0:7", &[back, on].concat()), 0, 8), (vec![0; 8], vec![7, 8, 9, 10, 11, 12, 13, NO_STEP]));
    let ring: Vec<(u32, u32, u32)> = (0..8).flat_map(|value| [(value, (value + 1) % 8, 0), (value, (value + 7) % 8, 0)]).collect();
    assert_eq!(told(&line(8, "0:4", &ring), 0, 8), (vec![0; 8], vec![0, 2, 4, 6, NO_STEP, 11, 13, 15]));
}

#[test]
fn of_equal_costs_the_fewest_steps() {
    assert_eq!(told(&line(3, "0:2", &[(0, 1, 1), (1, 2, 1), (0, 2, 2)]), 0, 3), (vec![2, 1, 0], vec![2, 1, NO_STEP]));
    assert_eq!(told(&line(3, "0:2", &[(0, 1, 0), (1, 2, 2), (0, 2, 2)]), 0, 3), (vec![2, 2, 0], vec![2, 1, NO_STEP]));
    // a cheaper one is taken, however many steps it has
    assert_eq!(told(&line(4, "0:3", &[(0, 3, 4), (0, 1, 1), (1, 2, 1), (2, 3, 1)]), 0, 4), (vec![3, 2, 1, 0], vec![1, 2, 3, NO_STEP]));
}

#[test]
fn of_equal_costs_and_steps_the_lowest_operator() {
    assert_eq!(told(&line(2, "0:1", &[(0, 1, 3), (0, 1, 2), (0, 1, 2), (0, 1, 3)]), 0, 2), (vec![2, 0], vec![1, NO_STEP]));
    let ways = [(2, 3, 1), (1, 3, 1), (0, 2, 1), (0, 1, 1)];
    assert_eq!(told(&line(4, "0:3", &ways), 0, 4), (vec![2, 1, 1, 0], vec![2, 1, 0, NO_STEP]));
    // the lowest of all, and the last of as many as there can be
    let mut all = [(1, 0, 0); 64];
    all[63] = (0, 1, 0);
    assert_eq!(told(&line(2, "0:1", &all), 0, 2), (vec![0, 0], vec![63, NO_STEP]));
    assert_eq!(told(&line(2, "0:1", &[(0, 1, 0); 64]), 0, 2), (vec![0, 0], vec![0, NO_STEP]));
}

#[test]
fn no_step_at_a_goal_nor_where_there_is_no_way() {
    let free_at_the_goal = line(2, "0:1", &[(1, 0, 0), (0, 1, 0)]);
    assert_eq!(told(&free_at_the_goal, 0, 2), (vec![0, 0], vec![1, NO_STEP]));
    assert_eq!(free_at_the_goal.best_at(Map(0), &State::of(&[1])), Ok(None));
    let everywhere = line(3, "-", &[(0, 1, 0), (1, 2, 0), (2, 0, 0)]);
    assert_eq!(told(&everywhere, 0, 3), (vec![0; 3], vec![NO_STEP; 3]));
    let no_way = line(3, "0:1", &[(0, 1, 1), (1, 2, 0)]);
    assert_eq!(told(&no_way, 0, 3), (vec![1, 0, NO_DISTANCE], vec![0, NO_STEP, NO_STEP]));
    assert_eq!([0, 1, 2].map(|value| no_way.best_at(Map(0), &State::of(&[value]))), [Some(Operator(0)), None, None].map(Ok));
    // steps that may run, but to no goal
    assert_eq!(told(&line(3, "0:2", &[(0, 1, 0), (1, 0, 0)]), 0, 3), (vec![NO_DISTANCE, NO_DISTANCE, 0], vec![NO_STEP; 3]));
    let alone = task("edition=1\nvars=1\ndom=1\ninit=0\ngoal=-\nops=0\nmaps=1\nmap=0\nshare=-\n");
    assert_eq!(told(&alone, 0, 1), (vec![0], vec![NO_STEP]));
}

#[test]
fn a_refusal_leaves_both_tables() {
    let a = task(A);
    for (map, places, best_places, refused) in [
        (0, DISTANCES - 1, BEST_STEPS, (8, 0)),
        (0, DISTANCES, BEST_STEPS - 1, (8, 0)),
        (0, DISTANCES - 1, BEST_STEPS - 1, (8, 0)),
        (0, 0, BEST_STEPS, (8, 0)),
        (0, DISTANCES, 0, (8, 0)),
        (0, 0, 0, (8, 0)),
        (3, DISTANCES, BEST_STEPS - 1, (8, 0)),
        (3, DISTANCES, BEST_STEPS, (3, 0)),
        (u32::MAX, DISTANCES + 1, BEST_STEPS + 1, (3, 0)),
    ] {
        let (mut distances, mut best) = (vec![u32::from(OTHER); places], vec![OTHER; best_places]);
        assert_eq!(refusal(a.distances(Map(map), &mut distances, &mut best)), refused);
        assert_eq!((distances, best), (vec![u32::from(OTHER); places], vec![OTHER; best_places]));
    }
}

#[test]
fn the_best_step_of_a_state_is_refused_as_its_distance() {
    let a = task(A);
    let asked = |map: u32, values: &[u8]| {
        let state = State::of(values);
        let best = refusal(a.best_at(Map(map), &state));
        assert_eq!(refusal(a.distance_at(Map(map), &state)), best);
        best
    };
    assert_eq!((asked(3, &[0, 0, 0]), asked(u32::MAX, &[9])), ((3, 0), (3, 0)));
    assert_eq!((asked(0, &[0, 0]), asked(0, &[])), ((8, 0), (8, 0)));
    assert_eq!((asked(0, &[2, 0, 0]), asked(1, &[0, 3, 9]), asked(2, &[0, 0, 255])), ((9, 0), (9, 1), (9, 2)));
    assert_eq!(a.best_at(Map(1), &State::of(&[0, 1, 0, 255])), Ok(Some(Operator(2))));
}

#[test]
fn the_best_step_of_a_state_is_that_of_its_image() {
    for text in [A, G, TASKS[4], TASKS[5], TASKS[6]] {
        let task = task(text);
        let (facts, variables) = (task.tables().0, task.counts().variables as usize);
        for map in 0..task.counts().maps {
            let view = View::of(&task, map as usize);
            let (distances, best) = told(&task, map, view.states());
            let mut values = vec![0; variables];
            loop {
                let seen = |v: usize| class(&task, map as usize, v, values[v]);
                let image = view.number(&(0..variables).map(seen).collect::<Vec<_>>());
                let step = Some(best[image]).filter(|&op| op != NO_STEP).map(|op| Operator(op.into()));
                assert_eq!(task.best_at(Map(map), &State::of(&values)), Ok(step));
                let distance = Some(distances[image]).filter(|&d| d != NO_DISTANCE).map(|d| Seconds(d.into()));
                assert_eq!(task.distance_at(Map(map), &State::of(&values)), Ok(distance));
                let Some(v) = (0..variables).find(|&v| values[v] + 1 < facts[v]) else { break };
                values[v] += 1;
                values[..v].fill(0);
            }
        }
    }
}

#[test]
fn a_run_of_best_steps_pays_the_distance() {
    // case G, and case F seen by a map that keeps all values apart: there the best steps can really be run
    for text in [G, &TASKS[5].replace("/0,1/0,0\n", "/0,1/0,1\n")] {
        let task = task(text);
        let mut run = task.begin(&task.initial()).expect("a start");
        let distance = task.distance_at(Map(0), &task.initial());
        while let Some(op) = task.best_at(Map(0), &run.now(&task)).expect("a state") {
            assert_eq!(run.offer(&task, run.next(), op), Ok(Answer::Accepted));
        }
        assert_eq!(Ok(Some(run.paid(Map(0)))), distance);
        assert!(task.judge(&task.initial(), &run.log()).is_ok());
    }
}

#[test]
fn every_map_of_the_bench_is_followed_to_its_goals() {
    TASKS.iter().for_each(|text| holds(&task(text)));
}

/// Numbers by chance, the same ones each time (xorshift).
struct Chance(u64);

impl Chance {
    fn below(&mut self, limit: u64) -> u64 {
        self.0 ^= self.0 << 13;
        self.0 ^= self.0 >> 7;
        self.0 ^= self.0 << 17;
        (self.0 >> 11) % limit
    }

    fn numbers(&mut self, count: u64, limit: u64) -> Vec<u64> {
        (0..count).map(|_| self.below(limit)).collect()
    }

    /// A fact of one of two variables with these numbers of values, or one of each.
    fn facts(&mut self, values: &[u64]) -> String {
        let [first, second] = [0, 1].map(|v| format!("{v}:{}", self.below(values[v])));
        [&first, &second, &format!("{first},{second}")][self.below(3) as usize].clone()
    }

    /// A text with many loops that cost nothing and many ties. Its first map keeps all values apart and pays all, its second takes values together and pays nothing.
    fn text(&mut self) -> String {
        let listed = |numbers: &[u64]| numbers.iter().map(u64::to_string).collect::<Vec<_>>().join(",");
        let values = self.numbers(2, 3).iter().map(|more| 2 + more).collect::<Vec<_>>();
        let operators = 1 + self.below(10);
        let costs = self.numbers(operators, 3);
        let lines: String = costs.iter().map(|cost| format!("op={cost};{};{}\n", self.facts(&values), self.facts(&values))).collect();
        let classes = |v: usize, most: u64| listed(&(0..values[v]).map(|value| value.min(most)).collect::<Vec<_>>());
        let maps = format!("map={}/{}\nmap={}/{}\n", classes(0, 9), classes(1, 9), classes(0, 1), classes(1, self.below(3)));
        let shares = format!("share={}\nshare={}\n", listed(&costs), listed(&vec![0; costs.len()]));
        let (dom, goal) = (listed(&values), self.facts(&values));
        format!("edition=1\nvars=2\ndom={dom}\ninit=0,0\ngoal={goal}\nops={operators}\n{lines}maps=2\n{maps}{shares}")
    }
}

#[test]
fn so_is_every_map_of_tasks_by_chance() {
    let mut chance = Chance(1);
    // a text with an idle operator is refused, and passed over
    let tasks = std::iter::repeat_with(|| Task::read(chance.text().as_bytes())).filter_map(Result::ok);
    tasks.take(1000).for_each(|task| holds(&task));
}
