//! Edition 2: which steps store a test, that each is counted once and the quota kept, and that a task of edition 1 stores nothing whatever its tables hold.
mod shared;

use mihaedop::*;
use shared::{ops, refusal, task, A, G};

/// Case G with another quota.
fn with_quota(quota: u32) -> Task {
    task(&G.replace("quota=1", &format!("quota={quota}")))
}

/// Tables of a text with a place altered: the task that they are, if any.
fn altered(text: &str, alter: impl Fn(&mut Counts, &mut [u8; FACTS])) -> Result<Task, Refusal> {
    let was = task(text);
    let (facts, costs, shares) = was.tables();
    let (mut counts, mut facts) = (was.counts(), *facts);
    alter(&mut counts, &mut facts);
    Task::of_tables(counts, facts, *costs, *shares)
}

/// A run of a task's operators, offered one after another from its initial state and all accepted.
fn run_of(task: &Task, list: &[u32]) -> Run {
    let mut run = task.begin(&task.initial()).expect("a start");
    for op in ops(list) {
        assert_eq!(run.offer(task, run.next(), op), Ok(Answer::Accepted));
    }
    run
}

/// The run with another number of stored tests.
fn with_stored(run: &Run, stored: u32) -> Run {
    let (bytes, words) = run.parts();
    let mut words = *words;
    words[RUN_WORDS - 1] = stored;
    Run::of_parts(*bytes, words)
}

/// What a run is offered, and the number of tests that it has stored after it.
fn offered(run: &mut Run, task: &Task, number: u32, op: u32) -> (Result<Answer, (u8, u32)>, u32) {
    let before = run.clone();
    let answer = run.offer(task, Step(number), Operator(op)).map_err(|refusal| (refusal.number(), refusal.place_number()));
    assert_eq!(answer == Ok(Answer::Accepted), *run != before);
    (answer, run.stored().0)
}

#[test]
fn a_text_of_edition_2_says_its_quota_and_which_operators_store_a_test() {
    let g = task(G);
    assert_eq!(g.counts(), Counts { variables: 2, operators: 3, maps: 1, edition: 2, quota: 1 });
    assert_eq!((g.edition(), g.quota()), (2, Some(Tests(1))));
    assert_eq!([0, 1, 2, 3, 64, u32::MAX].map(|op| g.stores(Operator(op))), [false, true, false, false, false, false]);
    assert_eq!(MARKS + COSTS, FACTS);
    assert_eq!(g.tables().0[MARKS..MARKS + 4], [0, 1, 0, 0]);
    let marks = |g: Task| [0, 1, 2].map(|op| g.stores(Operator(op)));
    assert_eq!(marks(task(&G.replace("0:1;0\n", "0:1;1\n").replace("1:1;1\n", "1:1;0\n"))), [true, false, false]);
    for quota in [0, 1, 9, 10, 99, 100, 999, 1000, 1023, QUOTA] {
        let text = G.replace("quota=1", &format!("quota={quota}"));
        assert_eq!(task(&text).quota(), Some(Tests(quota)));
        assert_eq!(task(&text).to_text(), text.as_bytes());
    }
}

#[test]
fn a_text_is_refused_at_the_lines_of_its_edition() {
    let faults = [
        (G, "edition=2", "edition=0", (3, 1)),
        (G, "edition=2", "edition=3", (3, 1)),
        (G, "edition=2", "edition=4294967298", (3, 1)),
        (G, "edition=2", "edition=02", (2, 1)),
        (G, "edition=2", "edition=1", (2, 6)),
        (G, "quota=1\n", "", (2, 6)),
        (G, "quota=1", "quota=", (2, 6)),
        (G, "quota=1", "quota=01", (2, 6)),
        (G, "quota=1", "quota=1025", (3, 6)),
        (G, "quota=1", "quota=4294967297", (3, 6)),
        (G, "ops=3", "ops=65", (3, 7)),
        (G, "0:1;0\n", "0:1\n", (2, 8)),
        (G, "0:1;0\n", "0:1;\n", (2, 8)),
        (G, "0:1;0\n", "0:1;00\n", (2, 8)),
        (G, "0:1;0\n", "0:1;-\n", (2, 8)),
        (G, "0:1;0\n", "0:1;0;0\n", (2, 8)),
        (G, "0:1;0\n", "0:1;2\n", (3, 8)),
        (G, "1:1;1\n", "1:1;257\n", (3, 9)),
        (G, "maps=1", "maps=9", (3, 11)),
        (G, "map=0,1/0,1", "map=0,1/1,1", (5, 12)),
        (G, "share=2,3,1", "share=2,3", (2, 13)),
        (G, "share=2,3,1", "share=2,4,1", (6, 9)),
        (G, "share=2,3,1\n", "share=2,3,1\n\n", (2, 14)),
        (A, "ops=4", "quota=1\nops=4", (2, 6)),
        (A, "0:1\n", "0:1;0\n", (2, 7)),
    ];
    for (text, was, is, told) in faults {
        let faulty = text.replacen(was, is, 1);
        assert_ne!(faulty, text, "{was}");
        assert_eq!(refusal(Task::read(faulty.as_bytes())), told, "{is}");
    }
}

#[test]
fn an_idle_operator_is_told_after_its_fourth_field() {
    let cut = G.find("1:0;0\nmaps").expect("the last operator's effects") + 3;
    let idle = |rest: &str| refusal(Task::read(format!("{}1:1{rest}", &G[..cut - 3]).as_bytes()));
    for rest in [";0", ";1", ";0\n", ";1\nmaps=1\n", ";1;", ";0,", ";0x"] {
        assert_eq!(idle(rest), (18, 10), "{rest}");
    }
    for rest in ["", ";", "\n", ";\n", ";x", ";00", ";01\n", ";-\n"] {
        assert_eq!(idle(rest), (2, 10), "{rest}");
    }
    for rest in [";2", ";10\n", ";4294967296"] {
        assert_eq!(idle(rest), (3, 10), "{rest}");
    }
}

#[test]
fn tables_are_refused_at_the_lines_of_their_edition() {
    for edition in [0, 3, 258, u32::MAX] {
        assert_eq!(refusal(altered(G, |counts, _| counts.edition = edition)), (3, 1));
        assert_eq!(refusal(altered(A, |counts, _| (counts.edition, counts.variables) = (edition, 9))), (3, 1));
    }
    for quota in [QUOTA + 1, u32::MAX] {
        assert_eq!(refusal(altered(G, |counts, _| counts.quota = quota)), (3, 6));
    }
    assert_eq!(refusal(altered(G, |counts, _| counts.operators = 65)), (3, 7));
    for mark in [2, u8::MAX] {
        assert_eq!(refusal(altered(G, |_, facts| facts[MARKS] = mark)), (3, 8));
        assert_eq!(refusal(altered(G, |_, facts| facts[MARKS + 2] = mark)), (3, 10));
    }
    let idle = |mark| altered(G, move |_, facts| (facts[8 * 67], facts[MARKS]) = (0, mark));
    assert_eq!([0, 1, 2].map(|mark| refusal(idle(mark))), [(18, 8), (18, 8), (3, 8)]);
    let beyond = altered(G, |_, facts| facts[MARKS + 3..].fill(7)).expect("the same task");
    assert_eq!(beyond.to_text(), G.as_bytes());
}

#[test]
fn a_sequence_keeps_the_quota() {
    let g = task(G);
    let start = g.initial();
    let again = ops(&[0, 1, 2, 1]);
    for _ in 0..2 {
        assert_eq!(g.judge(&start, &ops(&[0, 1])), Ok(Seconds(5)));
    }
    let refused = g.judge(&start, &again).err().expect("refused");
    assert_eq!(refused.to_string(), "refused 19 at step 4: the step would store a test beyond the quota");
    assert_eq!(refused.place(), Place::Step(4));
    assert_eq!(refusal(g.judge(&start, &ops(&[0, 1, 2, 1, 9]))), (19, 4));
    assert_eq!(refusal(g.judge(&start, &ops(&[0, 1, 2]))), (16, 3));
    assert_eq!(refusal(g.judge(&start, &ops(&[0, 1, 1]))), (12, 3));
    assert_eq!(refusal(g.judge(&start, &ops(&[0, 1, 3]))), (10, 3));
    assert_eq!(with_quota(2).judge(&start, &again), Ok(Seconds(9)));
    assert_eq!(refusal(with_quota(2).judge(&start, &ops(&[0, 1, 2, 1, 2, 1]))), (19, 6));
    assert_eq!(refusal(with_quota(0).judge(&start, &ops(&[0, 1]))), (19, 2));
}

#[test]
fn the_cheaper_of_two_counts_a_step_beyond_the_quota_as_a_fault() {
    let (stores, on, by_hand) = (ops(&[0, 1]), ops(&[0, 1, 2, 1]), ops(&[0, 3]));
    let two_ways = G.replace("ops=3", "ops=4").replace("maps=1", "op=9;0:1,1:0;1:1;0\nmaps=1").replace("share=2,3,1", "share=2,3,1,9");
    let [none, one] = ["quota=0", "quota=1"].map(|quota| task(&two_ways.replace("quota=1", quota)));
    let start = one.initial();
    assert_eq!(one.cheaper(&start, &stores, &by_hand), Ok(Cheaper::First(Seconds(5))));
    assert_eq!(one.cheaper(&start, &stores, &stores), Ok(Cheaper::First(Seconds(5))));
    assert_eq!(none.cheaper(&start, &stores, &by_hand), Ok(Cheaper::Second(Seconds(11))));
    assert_eq!(none.cheaper(&start, &stores, &on), Ok(Cheaper::Neither));
    let part = none.opening(&start, &stores, &by_hand);
    assert_eq!((part.as_ptr(), part.len()), (by_hand.as_ptr(), 2));
    assert_eq!(none.opening(&start, &stores, &on).len(), 0);
    // the goal comes before the step that would be one test too many
    assert_eq!(one.cheaper(&start, &by_hand, &on), Ok(Cheaper::Second(Seconds(5))));
    let part = one.opening(&start, &by_hand, &on);
    assert_eq!((part.as_ptr(), part.len()), (on.as_ptr(), 2));
}

#[test]
fn a_test_is_stored_once_however_often_its_step_is_offered() {
    let g = task(G);
    let mut run = run_of(&g, &[]);
    assert_eq!(offered(&mut run, &g, 1, 0), (Ok(Answer::Accepted), 0));
    assert_eq!(offered(&mut run, &g, 2, 1), (Ok(Answer::Accepted), 1));
    for _ in 0..3 {
        assert_eq!(offered(&mut run, &g, 2, 1), (Ok(Answer::Repeated), 1));
    }
    assert_eq!(offered(&mut run, &g, 3, 1), (Err((12, 3)), 1));
    assert_eq!(offered(&mut run, &g, 3, 2), (Ok(Answer::Accepted), 1));
    for (number, op, told) in [(4, 1, 19), (4, 0, 12), (4, 3, 10), (5, 1, 13), (1, 1, 14), (3, 1, 14)] {
        assert_eq!(offered(&mut run, &g, number, op), (Err((told, number)), 1));
    }
    assert_eq!(offered(&mut run, &g, 2, 1), (Ok(Answer::Repeated), 1));
    assert_eq!((run.log(), run.paid(Map(0)), run.unshared()), (ops(&[0, 1, 2]), Seconds(6), Seconds(0)));
    let error = run.offer(&g, Step(4), Operator(1)).err().expect("refused");
    assert_eq!(error.to_string(), "refused 19 at step 4: the step would store a test beyond the quota");
    assert_eq!(error.place(), Place::Step(4));
}

#[test]
fn a_repeat_uses_nothing_of_the_quota() {
    let twice = with_quota(2);
    let mut run = run_of(&twice, &[0, 1]);
    assert_eq!(offered(&mut run, &twice, 2, 1), (Ok(Answer::Repeated), 1));
    assert_eq!(offered(&mut run, &twice, 3, 2), (Ok(Answer::Accepted), 1));
    assert_eq!(offered(&mut run, &twice, 4, 1), (Ok(Answer::Accepted), 2));
    assert_eq!(offered(&mut run, &twice, 4, 1), (Ok(Answer::Repeated), 2));
    assert_eq!(offered(&mut run, &twice, 5, 2), (Ok(Answer::Accepted), 2));
    assert_eq!(offered(&mut run, &twice, 6, 1), (Err((19, 6)), 2));
    let mut none = run_of(&with_quota(0), &[0]);
    assert_eq!(offered(&mut none, &with_quota(0), 2, 1), (Err((19, 2)), 0));
}

#[test]
fn a_run_with_a_wrong_number_of_stored_tests_or_past_the_quota_is_none() {
    let (g, twice) = (task(G), with_quota(2));
    let run = run_of(&g, &[0, 1]);
    for stored in [0, 2, u32::MAX] {
        assert_eq!(offered(&mut with_stored(&run, stored), &g, 3, 2), (Err((17, 0)), stored));
    }
    assert_eq!(offered(&mut with_stored(&run, 1), &g, 3, 2), (Ok(Answer::Accepted), 1));
    let mut past = run_of(&twice, &[0, 1, 2, 1]);
    for (number, op) in [(5, 2), (4, 1), (9, 9)] {
        assert_eq!(offered(&mut past.clone(), &g, number, op), (Err((17, 0)), 2));
        assert_eq!(offered(&mut with_stored(&past, 1), &g, number, op), (Err((17, 0)), 1));
    }
    assert_eq!(offered(&mut past, &twice, 5, 2), (Ok(Answer::Accepted), 2));
    let a = task(A);
    assert_eq!(offered(&mut with_stored(&run_of(&a, &[0]), 1), &a, 2, 1), (Err((17, 0)), 1));
}

#[test]
fn edition_1_reads_neither_the_quota_nor_the_marks() {
    let a = task(A);
    assert_eq!((a.edition(), a.quota(), a.counts().quota), (1, None, 0));
    let (all, stuck) = (ops(&[0, 1, 2, 3]), ops(&[0, 2]));
    for (quota, mark) in [(0, 1), (1, 0), (1, 1), (QUOTA + 1, 2), (u32::MAX, u8::MAX)] {
        let with = |counts: &mut Counts, facts: &mut [u8; FACTS]| {
            counts.quota = quota;
            facts[MARKS..].fill(mark);
        };
        let other = altered(A, with).expect("the same task");
        assert_eq!((other.edition(), other.quota()), (1, None));
        assert!((0..65).all(|op| !other.stores(Operator(op))));
        assert_eq!(other.to_text(), A.as_bytes());
        assert_eq!(other.judge(&a.initial(), &all), Ok(Seconds(4)));
        assert_eq!(other.judge(&a.initial(), &stuck), a.judge(&a.initial(), &stuck));
        assert_eq!(other.cheaper(&a.initial(), &stuck, &all), Ok(Cheaper::Second(Seconds(4))));
        assert_eq!(other.opening(&a.initial(), &stuck, &all), &all[..]);
        assert_eq!(other.bound(&a.initial()), Ok(Some(Seconds(4))));
        assert_eq!(run_of(&other, &[0, 1, 2, 3]), run_of(&a, &[0, 1, 2, 3]));
        assert_eq!(run_of(&other, &[0]).stored(), Tests(0));
        let idle = altered(A, |counts, facts| {
            with(counts, facts);
            facts[8 * 67] = 0;
        });
        assert_eq!(refusal(idle), (18, 7));
    }
    let first = altered(G, |counts, _| counts.edition = 1).expect("a task of edition 1");
    assert_eq!(first.judge(&first.initial(), &ops(&[0, 1, 2, 1])), Ok(Seconds(9)));
    assert_eq!(run_of(&first, &[0, 1, 2, 1]).stored(), Tests(0));
    assert_eq!(offered(&mut run_of(&task(G), &[0, 1]), &first, 3, 2), (Err((17, 0)), 1));
}

#[test]
fn distances_best_steps_and_bounds_ignore_the_quota() {
    let told = |task: &Task| {
        let (mut table, mut best, start) = ([0; DISTANCES], [0; BEST_STEPS], task.initial());
        let rounds = task.distances(Map(0), &mut table, &mut best);
        (rounds, table, best, task.distance_at(Map(0), &start), task.best_at(Map(0), &State::of(&[1, 0])), task.bound(&start))
    };
    let g = told(&task(G));
    assert_eq!((&g.1[..4], &g.2[..4]), (&[5, 3, 2, 0][..], &[0, 1, 0, NO_STEP][..]));
    assert_eq!((g.3, g.4, g.5), (Ok(Some(Seconds(5))), Ok(Some(Operator(1))), Ok(Some(Seconds(5)))));
    for other in [with_quota(0), with_quota(QUOTA), task(&G.replace("0:1;0\n", "0:1;1\n"))] {
        assert!(told(&other) == g);
    }
}

/// A task in which each step stores a test.
fn always(quota: usize) -> Task {
    task(&format!("edition=2\nvars=1\ndom=2\ninit=0\ngoal=-\nquota={quota}\nops=1\nop=2;-;0:1;1\nmaps=1\nmap=0,1\nshare=1\n"))
}

#[test]
fn so_many_tests_are_stored_as_a_run_can_have_steps() {
    let (most, less) = (always(STEPS), always(STEPS - 1));
    let (list, last) = (vec![0; STEPS], STEPS as u32);
    assert_eq!(QUOTA, 1024);
    assert_eq!(most.judge(&most.initial(), &ops(&list)), Ok(Seconds(2 * 1024)));
    assert_eq!(refusal(less.judge(&less.initial(), &ops(&list))), (19, last));
    let mut full = run_of(&most, &list);
    assert_eq!((full.stored(), full.paid(Map(0)), full.unshared()), (Tests(1024), Seconds(1024), Seconds(1024)));
    assert_eq!(offered(&mut full, &most, last, 0), (Ok(Answer::Repeated), last));
    assert_eq!(offered(&mut full, &most, last + 1, 0), (Err((15, last + 1)), last));
    let mut short = run_of(&less, &list[1..]);
    assert_eq!(offered(&mut short, &less, last, 0), (Err((19, last)), last - 1));
    assert_eq!(offered(&mut full, &less, last, 0), (Err((17, 0)), last));
}
