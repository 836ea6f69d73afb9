//! Runs that are watched: at every moment what the maps say of the state now and what they were paid so far, and the law
//! between any two moments. Vectors by name and by chance.

use crate::builder::Vector;
use crate::cases::A;
use crate::edges::switch;
use crate::kinds::some_offer;
use crate::limits::COST;
use crate::random::*;
use crate::rng::Rng;
use crate::run::{Offered, Run};
use crate::space;
use crate::sums::{easily_lost, switches};
use crate::task::{Op, State, Task};
use crate::text::read_text;
use std::collections::BTreeSet;

/// So many vectors by chance come after the ones by name.
const BY_CHANCE: usize = 12;

/// Several maps, so that what one is paid isn't what another needs; few operators, so that some steps can't be undone.
pub const WATCHED: Size = Size { vars: (2, 3), values: (3, 5), ops: (6, 16), maps: (2, 4) };

/// The offers to a run by chance.
const OFFERS: usize = 25;

/// A distance or a sum of them; none where there is no way.
pub type Cost = Option<u64>;

/// The order on costs: none is above every number.
fn at_most(a: Cost, b: Cost) -> bool {
    match (a, b) {
        (_, None) => true,
        (None, Some(_)) => false,
        (Some(a), Some(b)) => a <= b,
    }
}

/// A run at one moment. What no map pays isn't in it.
#[derive(Clone, Debug, PartialEq, Eq)]
pub struct Moment {
    /// each map's distance at the state now
    pub distances: Vec<Cost>,
    pub bound: Cost,
    /// each map's column
    pub paid: Vec<u64>,
}

impl Moment {
    pub fn of(task: &Task, run: &Run) -> Moment {
        let state = run.state(task);
        Moment {
            distances: (0..task.maps.len()).map(|m| space::distance_at(task, m, &state)).collect(),
            bound: space::bound(task, &state),
            paid: run.columns[..task.maps.len()].iter().map(|column| u64::from(*column)).collect(),
        }
    }

    /// What all maps were paid so far.
    pub fn paid_in_all(&self) -> u64 {
        self.paid.iter().sum()
    }
}

/// A cost is at most the one after it and what was paid in between.
fn covered(before: Cost, paid: u64, after: Cost) -> bool {
    at_most(before, after.map(|after| after + paid))
}

/// Where the law doesn't hold between a moment and a later one: the first map that falls by more than it was paid, or the
/// sum if it falls by more than all were.
pub fn breach(earlier: &Moment, later: &Moment) -> Option<String> {
    let grown = |before: u64, after: u64| after.checked_sub(before).expect("what was paid stays paid");
    let by_map = |m: &usize| covered(earlier.distances[*m], grown(earlier.paid[*m], later.paid[*m]), later.distances[*m]);
    let by_sum = covered(earlier.bound, grown(earlier.paid_in_all(), later.paid_in_all()), later.bound);
    let map = (0..earlier.distances.len()).find(|m| !by_map(m)).map(|m| format!("map {}", m));
    map.or_else(|| (!by_sum).then(|| "the sum".to_string()))
}

/// The planner's form: the bound at the start is at most what the maps were paid so far and the bound now.
pub fn foretold(start: Cost, now: &Moment) -> bool {
    covered(start, now.paid_in_all(), now.bound)
}

/// How often the bound fell, how often it rose, and whether a map came to say none on the way.
pub struct Changes {
    pub fell: usize,
    pub rose: usize,
    pub lost: usize,
}

/// A run that is played, with the answer to each offer, and a moment before the first offer and after each.
pub struct Watch {
    task: Task,
    start: State,
    run: Run,
    pub offers: Vec<(u32, u32, Offered)>,
    pub moments: Vec<Moment>,
}

impl Watch {
    pub fn begun(task: &Task, start: &State) -> Watch {
        let run = Run::fresh(start);
        let moments = vec![Moment::of(task, &run)];
        Watch { task: task.clone(), start: start.clone(), run, offers: Vec::new(), moments }
    }

    pub fn offer(&mut self, number: u32, op: u32) {
        let (run, answer) = self.run.offer(&self.task, number, op);
        // a run that stays needs no second look
        let last = self.moments.last().filter(|_| run == self.run).cloned();
        self.moments.push(last.unwrap_or_else(|| Moment::of(&self.task, &run)));
        self.offers.push((number, op, answer));
        self.run = run;
    }

    /// A run by chance, from any state.
    pub fn by_chance(rng: &mut Rng, task: &Task) -> Watch {
        let start = if rng.chance(1, 2) { task.init.clone() } else { state(rng, &task.dom) };
        let mut watch = Watch::begun(task, &start);
        for _ in 0..OFFERS {
            let (number, op) = some_offer(rng, task, &watch.run);
            watch.offer(number, op);
        }
        watch
    }

    /// What breaks the law first, at which two moments or at which one against the start; all pairs of moments are looked at.
    pub fn breach(&self) -> Option<String> {
        let start = space::bound(&self.task, &self.start);
        self.moments.iter().enumerate().find_map(|(j, later)| {
            let mut pairs = self.moments[..=j].iter().enumerate();
            let between =
                pairs.find_map(|(i, earlier)| breach(earlier, later).map(|what| format!("{} between moments {} and {}", what, i, j)));
            between.or_else(|| (!foretold(start, later)).then(|| format!("the bound at the start against moment {}", j)))
        })
    }

    pub fn changes(&self) -> Changes {
        let times = |change: fn(&Moment, &Moment) -> bool| self.moments.windows(2).filter(|pair| change(&pair[0], &pair[1])).count();
        Changes {
            fell: times(|before, after| !at_most(before.bound, after.bound)),
            rose: times(|before, after| after.bound.is_some() && !at_most(after.bound, before.bound)),
            lost: times(|before, after| after.distances.contains(&None) && !before.distances.contains(&None)),
        }
    }

    /// `M` after `G` and after every offer. A law that doesn't hold stops the judge.
    fn vector(&self, title: &str) -> Vector {
        if let Some(breach) = self.breach() {
            panic!("{}: the law doesn't hold for {}", title, breach);
        }
        let begun = Vector::new(title).task(&self.task).state(&self.start).lines("G; M");
        self.offers.iter().fold(begun, |vector, (number, op, _)| vector.lines(&format!("O {} {}; M", number, op)))
    }
}

/// Operators from the initial state, each as the next step and sent so many times.
fn steps(title: &str, task: &Task, times: usize, list: &[u32]) -> Vector {
    let mut watch = Watch::begun(task, &task.init);
    for op in list {
        let next = watch.run.len + 1;
        (0..times).for_each(|_| watch.offer(next, *op));
    }
    watch.vector(title)
}

fn case() -> Task {
    read_text(A.as_bytes()).unwrap()
}

/// Two things to do at a price of 5, each with a map of its own; and a step that costs 1, after which the first can't be done.
fn pit() -> Task {
    let only = |v: usize, value: usize| (0..2).map(|at| (at == v).then_some(value)).collect();
    let op = |cost: u64, v: usize, to: usize| Op::new(cost, only(v, 0), only(v, to));
    Task {
        dom: vec![3, 2],
        init: vec![0, 0],
        goal: vec![Some(1), Some(1)],
        quota: None,
        ops: vec![op(5, 0, 1), op(5, 1, 1), op(1, 0, 2)],
        maps: vec![vec![vec![0, 1, 2], vec![0, 0]], vec![vec![0, 0, 0], vec![0, 1]]],
        shares: vec![vec![5, 0, 1], vec![0, 5, 0]],
    }
}

/// Values in a ring, each with a step to the next; the last is the goal. One map keeps all apart, the other every two of
/// them together; each pays its share of any step.
fn ring(values: usize, cost: u64, shares: [u64; 2]) -> Task {
    let on = |from: usize| Op::new(cost, vec![Some(from)], vec![Some((from + 1) % values)]);
    Task {
        dom: vec![values],
        init: vec![0],
        goal: vec![Some(values - 1)],
        quota: None,
        ops: (0..values).map(on).collect(),
        maps: [1, 2].iter().map(|together| vec![(0..values).map(|value| value / together).collect()]).collect(),
        shares: shares.iter().map(|share| vec![*share; values]).collect(),
    }
}

fn watched_steps() -> Vec<Vector> {
    let mut unpaid = ring(6, 9, [4, 5]);
    unpaid.shares.iter_mut().for_each(|row| row[2] = 0);
    let around: Vec<u32> = (0..42).map(|i| i % 7).collect();
    vec![
        steps("case A to its goal, each step sent twice: the bound is 4, 3, 2, 1, 0", &case(), 2, &[0, 1, 2, 3]),
        steps("a step for 1 after which the map that said 5 says none: so does the bound, whatever follows", &pit(), 2, &[2, 0, 1, 2]),
        steps(
            "a step after which the map that said 0 says none: so does the bound, whatever follows",
            &easily_lost(4),
            1,
            &[0, 3, 2, 3, 1],
        ),
        steps("a run that begins where one map says none", &switches(4, &[1]), 1, &[2, 0, 0, 1]),
        steps("a step away from the goal: the bound rises", &switch(), 1, &[0, 1, 2, 0, 3, 1]),
        steps("a step of which part is unshared: the bound falls by less than the cost", &ring(6, 9, [4, 3]), 1, &[0, 1, 2, 3, 4]),
        steps("a step that no map pays: the bound doesn't fall", &unpaid, 1, &[0, 1, 2, 3, 4, 5]),
        steps("eight maps, of which each step pays one", &switches(8, &[]), 1, &[3, 0, 7, 5, 1, 6, 2, 4]),
        steps("42 steps round a ring: the bound falls to 0 and rises, time after time", &ring(7, COST, [600_000, 400_000]), 1, &around),
    ]
}

/// The call itself: what it is lent, and what it doesn't read.
fn bounds_now() -> Vec<Vector> {
    let a = |title: &str| Vector::new(title).task(&case());
    vec![
        Vector::new("the bound now: no tables after a reset, then tables, with a run of zeros").lines("M; M 0; M").task(&case()).lines("M"),
        a("the bound now: short tables, a fault in the tables")
            .lines("G; l 0 1623; M; l 0 1624; M; l 2 511; M; l 2 512; s 1 0 0; M; s 1 0 1; M"),
        a("the bound now: a state now outside its variables")
            .lines("G; s 10 1 3; M; O 1 0; s 10 0 2; M; s 10 0 0 0; M; s 10 3 9; M; O 1 0"),
        a("the bound now: an altered column is 17 to an offer, and the bound is told")
            .lines("G; O 1 0; M; s 11 0 0; O 2 1; M; s 11 0 1; O 2 1; M"),
        a("the bound now: of the run's state, whatever state is lent").lines("G; O 1 0; s 4 0 1 2 2; B; M; s 4 0 2; B; M; l 4 0; B; M"),
    ]
}

/// Of some tasks and runs one whose bound falls and rises, or falls and is lost by some map, if there is one; of those the
/// one on which the maps say the most different things.
pub fn telling_watch(rng: &mut Rng) -> Watch {
    let loses = rng.chance(1, 2);
    let edition = rng.edition();
    let some = |rng: &mut Rng| {
        let task = task_of(rng, WATCHED, edition);
        Watch::by_chance(rng, &task)
    };
    let telling = |watch: &Watch| {
        let changes = watch.changes();
        let said: BTreeSet<&Vec<Cost>> = watch.moments.iter().map(|moment| &moment.distances).collect();
        let other = if loses { changes.lost } else { changes.rose };
        (changes.fell > 0 && other > 0, said.len())
    };
    (0..20).map(|_| some(rng)).max_by_key(telling).unwrap()
}

pub fn watched(rng: &mut Rng) -> Vector {
    telling_watch(rng).vector("a run watched at every moment")
}

pub fn moments(seed: u64) -> Vec<Vector> {
    let mut vectors = watched_steps();
    vectors.extend(bounds_now());
    let mut rng = Rng::new(seed);
    vectors.extend((0..BY_CHANCE).map(|_| watched(&mut rng)));
    vectors
}
