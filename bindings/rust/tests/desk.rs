//! The crate on the cases of the bench: what each entry answers, what a refusal says, and that nothing moves where the desk says no.
mod shared;

use mihaedop::*;
use shared::{ops, refusal, task, A};

const E: &str = "edition=1
vars=2
dom=2,2
init=0,0
goal=0:1,1:1
ops=1
op=1;0:0;0:1
maps=2
map=0,1/0,0
map=0,0/0,1
share=1
share=0
";

/// The limit as the refusals write it.
fn most_steps() -> String {
    format!("{},{:03}", STEPS / 1000, STEPS % 1000)
}

/// Case A with an operator 0 that may always run and costs the most, all of which map 0 pays.
fn without_end() -> Task {
    task(&A.replace("op=1;0:0;0:1", "op=1000000;-;0:1").replace("share=1,0,0,0", "share=1000000,0,0,0"))
}

#[test]
fn reads_and_refuses_texts() {
    let a = task(A);
    assert_eq!(a.counts(), Counts { variables: 3, operators: 4, maps: 3, edition: 1, quota: 0 });
    assert_eq!(a.initial(), State::of(&[0, 0, 0]));
    assert_eq!(task(&A.replace("init=0,0,0", "init=1,2,0")).initial(), State::of(&[1, 2, 0]));
    assert_eq!(refusal(Task::read(b"")), (2, 1));
    assert_eq!(refusal(Task::read(&[b'e'; 16385])), (1, 0));
    assert_eq!(refusal(Task::read(&[0xff; 16384])), (2, 1));
    let c = A.replace("share=0,0,0,1", "share=0,1,0,1");
    assert_eq!(refusal(Task::read(c.as_bytes())), (6, 8));
    assert_eq!(refusal(Task::read(A.replace("ops=4", "ops=65").as_bytes())), (3, 6));
    assert_eq!(refusal(Task::read(A.replace("goal=0:1,1:2", "goal=1:2,0:1").as_bytes())), (4, 5));
    assert_eq!(refusal(Task::read(A.replace("map=0,0/0,1,2/0,0,0", "map=0,0/0,2,2/0,0,0").as_bytes())), (5, 13));
}

#[test]
fn idle_operators_are_refused() {
    let with = |effects: &str| A.replace("op=1;1:0,2:0;1:1,2:1", &format!("op=1;1:0,2:0;{effects}"));
    for idle in ["-", "1:0", "2:0", "1:0,2:0"] {
        let text = with(idle);
        let cut = text.find("op=1;1:1").expect("the next line") - 1;
        for text in [&text[..], &text[..cut], &text.replace(&format!("2:0;{idle}\n"), &format!("2:0;{idle};"))] {
            assert_eq!(refusal(Task::read(text.as_bytes())), (18, 8));
        }
    }
    for busy in ["0:0", "1:1", "1:2,2:0", "0:1,1:0,2:0"] {
        assert!(Task::read(with(busy).as_bytes()).is_ok());
    }
    assert_eq!(refusal(Task::read(with("1:0,2:3").as_bytes())), (3, 8));
    let refused = Task::read(with("-").as_bytes()).err().expect("refused");
    assert_eq!(refused.to_string(), "refused 18 at line 8: an operator is idle: it has no effect but what it asks for");
    let a = task(A);
    let (facts, costs, shares) = a.tables();
    let (asks, sets) = (8 * (3 + 1), 8 * (67 + 1));
    let mut idle = *facts;
    idle.copy_within(asks..asks + 8, sets);
    assert_eq!(refusal(Task::of_tables(a.counts(), idle, *costs, *shares)), (18, 8));
}

#[test]
fn refusals_say_number_place_and_meaning() {
    let c = A.replace("share=0,0,0,1", "share=0,1,0,1");
    let refusal = Task::read(c.as_bytes()).err().expect("refused");
    assert_eq!(refusal.to_string(), "refused 6 at line 8: an operator's shares total above its cost");
    assert_eq!(refusal.place(), Place::Line(8));
    let a = task(A);
    let start = a.initial();
    let error: Box<dyn std::error::Error> = a.judge(&start, &ops(&[0, 2])).err().expect("refused").into();
    assert_eq!(error.to_string(), "refused 12 at step 2: the operator may not run");
    assert_eq!(a.distance_at(Map(3), &start).err().expect("refused").to_string(), "refused 3 at place 0: the task has no such map");
    assert_eq!(a.bound(&State::of(&[0, 9, 0])).err().expect("refused").place(), Place::Variable(1));
    assert_eq!(a.judge(&start, &ops(&[0])).err().expect("refused").place(), Place::Length(1));
    assert_eq!(a.bound(&State::of(&[])).err().expect("refused").to_string(), "refused 8 at place 0: a lent table is shorter than needed");
    let long = a.judge(&start, &ops(&[0; STEPS + 1])).err().expect("refused");
    assert_eq!(long.to_string(), format!("refused 11 at place 0: the sequence has more than {} steps", most_steps()));
}

#[test]
fn checks_tables_of_any_length() {
    let counts = Counts { variables: 1, operators: 0, maps: 1, edition: 1, quota: 0 };
    let mut facts = [0; FACTS];
    facts[0] = 1;
    assert_eq!(check(counts, &facts, &[0; COSTS], &[0; SHARES]), Ok(()));
    assert!(Task::of_tables(counts, facts, [0; COSTS], [0; SHARES]).is_ok());
    assert_eq!(refusal(check(counts, &facts[..FACTS - 1], &[0; COSTS], &[0; SHARES])), (8, 0));
    assert_eq!(refusal(check(counts, &[], &[], &[])), (8, 0));
    assert_eq!(refusal(check(counts, &facts, &[0; COSTS - 1], &[0; SHARES])), (8, 0));
    assert_eq!(refusal(check(counts, &facts, &[0; COSTS], &[0; SHARES - 1])), (8, 0));
    facts[0] = 9;
    assert_eq!(refusal(Task::of_tables(counts, facts, [0; COSTS], [0; SHARES])), (3, 3));
}

#[test]
fn a_task_tells_its_tables() {
    let a = task(A);
    let (facts, costs, shares) = a.tables();
    assert_eq!((&facts[..4], &facts[16..20]), (&[2, 3, 3, 0][..], &[2, 3, 3, 0][..]));
    assert_eq!((&costs[..5], &shares[64..69]), (&[1, 1, 1, 1, 0][..], &[0, 1, 1, 0, 0][..]));
    let same = Task::of_tables(a.counts(), *facts, *costs, *shares).expect("a task");
    assert_eq!(same.bound(&same.initial()), Ok(Some(Seconds(4))));
}

#[test]
fn distances_and_bounds() {
    let a = task(A);
    let (mut table, mut best) = ([77; DISTANCES], [77; BEST_STEPS]);
    for (map, rounds, distances) in [(0, 2, &[1, 0][..]), (1, 3, &[2, 1, 0]), (2, 3, &[1, 1, 0])] {
        table[..4].fill(77);
        assert_eq!(a.distances(Map(map), &mut table, &mut best), Ok(Rounds(rounds)));
        assert_eq!(&table[..distances.len()], distances);
        assert!(table[distances.len()..].iter().all(|&place| place == 77));
    }
    assert_eq!(refusal(a.distances(Map(0), &mut [0; DISTANCES - 1], &mut best)), (8, 0));
    assert_eq!(refusal(a.distances(Map(0), &mut [], &mut best)), (8, 0));
    assert_eq!(a.bound(&a.initial()), Ok(Some(Seconds(4))));
    assert_eq!(a.bound(&State::of(&[1, 0, 0])), Ok(Some(Seconds(3))));
    let e = task(E);
    assert_eq!(e.distance_at(Map(0), &e.initial()), Ok(Some(Seconds(1))));
    assert_eq!(e.distance_at(Map(1), &e.initial()), Ok(None));
    assert_eq!(e.bound(&e.initial()), Ok(None));
    assert_eq!(e.bound(&State::of(&[0, 1])), Ok(Some(Seconds(1))));
    assert_eq!(e.distances(Map(1), &mut table, &mut best), Ok(Rounds(1)));
    assert_eq!(table[..2], [NO_DISTANCE, 0]);
    let closed = task(&E.replace("goal=0:1,1:1", "goal=1:1").replace("map=0,1/0,0", "map=0,1/0,1"));
    assert_eq!(closed.bound(&closed.initial()), Ok(None));
}

#[test]
fn sequences_and_the_cheaper_of_two() {
    let a = task(A);
    let start = a.initial();
    assert_eq!(a.judge(&start, &ops(&[0, 1, 2, 3])), Ok(Seconds(4)));
    assert_eq!(refusal(a.judge(&start, &ops(&[0, 4]))), (10, 2));
    assert_eq!(refusal(a.judge(&start, &ops(&[0; STEPS + 1]))), (11, 0));
    assert_eq!(refusal(a.judge(&start, &[])), (16, 0));
    let (all, stuck, longer) = (ops(&[0, 1, 2, 3]), ops(&[0, 2]), ops(&[1, 2, 3, 0, 9]));
    assert_eq!(a.cheaper(&start, &stuck, &longer), Ok(Cheaper::Second(Seconds(4))));
    assert_eq!(a.cheaper(&start, &all, &longer), Ok(Cheaper::First(Seconds(4))));
    assert_eq!(a.cheaper(&start, &stuck, &[]), Ok(Cheaper::Neither));
    assert_eq!(refusal(a.cheaper(&State::of(&[0, 0]), &all, &longer)), (8, 0));
    let part = a.opening(&start, &stuck, &longer);
    assert_eq!((part.as_ptr(), part.len()), (longer.as_ptr(), 4));
    let none = a.opening(&start, &stuck, &[]);
    assert_eq!((none.as_ptr(), none.len()), (stuck.as_ptr(), 0));
}

#[test]
fn so_many_steps_pass_and_one_more_is_too_many() {
    assert_eq!((STEPS, RUN_WORDS), (1024, 1035));
    let a = without_end();
    let start = a.initial();
    let list = |steps: usize| [vec![Operator(0); steps - 3], ops(&[1, 2, 3])].concat();
    let cost = |steps: usize| Seconds((steps as u64 - 3) * 1_000_000 + 3);
    for steps in [256, 257, STEPS - 1, STEPS] {
        assert_eq!(a.judge(&start, &list(steps)), Ok(cost(steps)));
        assert_eq!(refusal(a.judge(&start, &list(steps)[..steps - 1])), (16, steps as u32 - 1));
    }
    let (most, over) = (list(STEPS), list(STEPS + 1));
    assert_eq!(refusal(a.judge(&start, &over)), (11, 0));
    assert_eq!(a.cheaper(&start, &most, &over), Ok(Cheaper::First(cost(STEPS))));
    assert_eq!(a.cheaper(&start, &over, &most), Ok(Cheaper::Second(cost(STEPS))));
    assert_eq!(a.cheaper(&start, &over, &over), Ok(Cheaper::Neither));
    let part = a.opening(&start, &over, &most);
    assert_eq!((part.as_ptr(), part.len()), (most.as_ptr(), STEPS));
    assert_eq!(a.opening(&start, &over, &over).len(), 0);
}

#[test]
fn a_run_and_its_ledger() {
    let a = task(A);
    assert_eq!(refusal(a.begin(&State::of(&[2, 0, 0]))), (9, 0));
    let mut run = a.begin(&a.initial()).expect("a start");
    assert_eq!(run.next(), Step(1));
    assert_eq!(run.offer(&a, Step(1), Operator(0)), Ok(Answer::Accepted));
    let before = run.clone();
    assert_eq!(run.offer(&a, Step(1), Operator(0)), Ok(Answer::Repeated));
    assert_eq!(refusal(run.offer(&a, Step(1), Operator(1))), (14, 1));
    assert_eq!(refusal(run.offer(&a, Step(3), Operator(0))), (13, 3));
    assert_eq!(refusal(run.offer(&a, Step(0), Operator(0))), (13, 0));
    assert_eq!(refusal(run.offer(&a, Step(2), Operator(0))), (12, 2));
    assert_eq!(refusal(run.offer(&a, Step(2), Operator(u32::MAX))), (10, 2));
    assert_eq!(run, before);
    assert_eq!([0, 1, 2].map(|map| run.paid(Map(map))), [1, 0, 0].map(Seconds));
    assert_eq!(run.unshared(), Seconds(0));
    assert_eq!((run.start(&a), run.now(&a)), (a.initial(), State::of(&[1, 0, 0])));
    let (bytes, words) = run.parts();
    let mut stored = Run::of_parts(*bytes, *words);
    assert_eq!(stored.offer(&a, Step(2), Operator(1)), Ok(Answer::Accepted));
    assert_eq!(stored.log(), ops(&[0, 1]));
    let mut damaged = *words;
    damaged[STEPS + 9] += 1;
    let mut damaged = Run::of_parts(*bytes, damaged);
    let before = damaged.clone();
    assert_eq!(refusal(damaged.offer(&a, Step(2), Operator(1))), (17, 0));
    assert_eq!(damaged, before);
}

/// What the maps were paid so far and the bound now, at the start and after each offer, whatever it is answered.
fn watched(task: &Task, offers: &[(u32, u32)]) -> Vec<(u64, Option<u64>)> {
    let mut run = task.begin(&task.initial()).expect("a start");
    let moment = |run: &Run| {
        let paid = (0..task.counts().maps).map(|map| run.paid(Map(map)).0).sum();
        (paid, task.bound(&run.now(task)).expect("a bound").map(|bound| bound.0))
    };
    let mut moments = vec![moment(&run)];
    for &(number, op) in offers {
        let _ = run.offer(task, Step(number), Operator(op));
        moments.push(moment(&run));
    }
    moments
}

#[test]
fn the_bound_never_falls_faster_than_the_ledger_rises() {
    let moments = watched(&task(A), &[(1, 0), (1, 0), (2, 2), (2, 1), (1, 1), (3, 2), (4, 3), (4, 3)]);
    let told: Vec<(u64, u64)> = moments.into_iter().map(|(paid, bound)| (paid, bound.expect("a way"))).collect();
    assert_eq!((told[0], told[8]), ((0, 4), (4, 0)));
    for (i, (paid, bound)) in told.iter().enumerate() {
        assert!(told[..i].iter().all(|(before, earlier)| *earlier <= bound + (paid - before)), "{told:?}");
    }
}

#[test]
fn a_bound_of_none_does_not_come_back() {
    let lost = "edition=1\nvars=2\ndom=2,2\ninit=0,0\ngoal=0:1,1:0\nops=2\nop=1;0:0;0:1\nop=1;1:0;1:1\nmaps=2\nmap=0,1/0,0\nmap=0,0/0,1\nshare=1,0\nshare=0,1\n";
    assert_eq!(watched(&task(lost), &[(1, 1), (1, 1), (2, 0)]), [(0, Some(1)), (1, None), (1, None), (2, None)]);
}

#[test]
fn a_run_of_any_contents_tells_nothing_beyond_its_steps_and_maps() {
    let mut words = [0; RUN_WORDS];
    for (place, word) in words.iter_mut().enumerate() {
        *word = 1000 + place as u32;
    }
    words[STEPS] = 3;
    let run = Run::of_parts([0; RUN_BYTES], words);
    assert_eq!((run.log(), run.next()), (ops(&[1000, 1001, 1002]), Step(4)));
    let place = |place: usize| Seconds(1000 + place as u64);
    assert_eq!([0, 7].map(|map| run.paid(Map(map))), [STEPS + 1, STEPS + 8].map(place));
    assert_eq!([8, 9, u32::MAX].map(|map| run.paid(Map(map))), [0; 3].map(Seconds));
    assert_eq!(run.unshared(), place(STEPS + 9));
    assert_eq!(run.stored(), Tests(1000 + STEPS as u32 + 10));
    for more in [STEPS as u32, STEPS as u32 + 1, u32::MAX] {
        words[STEPS] = more;
        assert_eq!(Run::of_parts([0; RUN_BYTES], words).log().len(), STEPS);
    }
}

#[test]
fn a_run_is_full_after_its_last_step() {
    let round = task("edition=1\nvars=1\ndom=2\ninit=0\ngoal=-\nops=2\nop=3;0:0;0:1\nop=5;0:1;0:0\nmaps=1\nmap=0,1\nshare=1,2\n");
    let mut run = round.begin(&round.initial()).expect("a start");
    let (last, rounds) = (STEPS as u32, STEPS as u64 / 2);
    for step in 1..=last {
        assert_eq!(run.offer(&round, Step(step), Operator((step - 1) % 2)), Ok(Answer::Accepted));
    }
    assert_eq!((run.paid(Map(0)), run.unshared()), (Seconds(rounds * 3), Seconds(rounds * 5)));
    let full = run.offer(&round, Step(last + 1), Operator(0)).err().expect("refused");
    assert_eq!(full.to_string(), format!("refused 15 at step {}: the run already has {} steps", last + 1, most_steps()));
    assert_eq!(run.offer(&round, Step(last), Operator(1)), Ok(Answer::Repeated));
    assert_eq!(round.judge(&round.initial(), &run.log()), Ok(Seconds(rounds * 8)));
    let mut next = round.begin(&run.now(&round)).expect("a start");
    assert_eq!(next.offer(&round, Step(1), Operator(0)), Ok(Answer::Accepted));
}

#[test]
fn a_full_run_at_the_highest_cost_stays_as_it_is() {
    let a = without_end();
    let mut run = a.begin(&a.initial()).expect("a start");
    let last = STEPS as u32;
    for step in 1..=last {
        assert_eq!(run.next(), Step(step));
        assert_eq!(run.offer(&a, Step(step), Operator(0)), Ok(Answer::Accepted));
    }
    assert_eq!((run.paid(Map(0)), run.unshared()), (Seconds(1_024_000_000), Seconds(0)));
    assert_eq!((run.log(), run.now(&a)), (vec![Operator(0); STEPS], State::of(&[1, 0, 0])));
    let full = run.clone();
    assert_eq!(refusal(run.offer(&a, Step(last + 1), Operator(0))), (15, last + 1));
    assert_eq!(refusal(run.offer(&a, Step(last + 1), Operator(2))), (15, last + 1));
    assert_eq!(refusal(run.offer(&a, Step(last + 1), Operator(4))), (10, last + 1));
    assert_eq!(refusal(run.offer(&a, Step(last + 2), Operator(0))), (13, last + 2));
    assert_eq!(refusal(run.offer(&a, Step(last), Operator(1))), (14, last));
    assert_eq!(run.offer(&a, Step(last), Operator(0)), Ok(Answer::Repeated));
    assert_eq!(run.offer(&a, Step(257), Operator(0)), Ok(Answer::Repeated));
    assert_eq!(run, full);
    let (bytes, words) = full.parts();
    for (place, value) in [(STEPS - 1, 1), (STEPS, last - 1), (STEPS, last + 1), (STEPS + 1, 1_024_000_001)] {
        let mut damaged = *words;
        damaged[place] = value;
        let mut damaged = Run::of_parts(*bytes, damaged);
        let before = damaged.clone();
        assert_eq!(refusal(damaged.offer(&a, Step(1), Operator(0))), (17, 0));
        assert_eq!(damaged, before);
    }
}
