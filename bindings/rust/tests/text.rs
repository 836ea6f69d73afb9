//! The text of a task, read and written back: each accepted task has one, what is beyond it stays, and nothing moves where the desk says no.
mod shared;

use mihaedop::*;
use shared::{refusal, task, A, G};

const C: &str = include_str!("../../../cases/C.txt");

/// The cases of the bench that are accepted, a task without operators in each edition, and those with every count at its limit.
const ACCEPTED: [&str; 10] = [
    A,
    G,
    include_str!("../../../cases/D.txt"),
    include_str!("../../../cases/E.txt"),
    include_str!("../../../cases/F-package.txt"),
    include_str!("../../../cases/F-package-and-truck.txt"),
    "edition=1\nvars=1\ndom=1\ninit=0\ngoal=-\nops=0\nmaps=1\nmap=0\nshare=-\n",
    "edition=2\nvars=1\ndom=1\ninit=0\ngoal=-\nquota=0\nops=0\nmaps=1\nmap=0\nshare=-\n",
    include_str!("../../../bench/largest.txt"),
    include_str!("../../../bench/largest2.txt"),
];

/// What stands in a place before it is written, and in one that isn't read.
const OTHER: u8 = 0xa5;
const OTHER_WORD: u32 = 0xa5a5_a5a5;

/// Counts and tables of any origin.
#[derive(Clone, Debug, PartialEq)]
struct Tables {
    counts: Counts,
    facts: [u8; FACTS],
    costs: [u32; COSTS],
    shares: [u32; SHARES],
}

// Where the rows of 8 facts begin: the effects of the operators, and the classes of the maps.
const EFFECTS: usize = 67;
const CLASSES: usize = 131;

impl Tables {
    /// Tables with no task in them.
    fn others() -> Tables {
        let counts = Counts { variables: 0, operators: 0, maps: 0, edition: 0, quota: OTHER_WORD };
        Tables { counts, facts: [OTHER; FACTS], costs: [OTHER_WORD; COSTS], shares: [OTHER_WORD; SHARES] }
    }

    fn of(task: &Task) -> Tables {
        let (facts, costs, shares) = task.tables();
        Tables { counts: task.counts(), facts: *facts, costs: *costs, shares: *shares }
    }

    /// The same task, with other numbers in every place beyond its own. In edition 1 the quota and the marks are none of its own.
    fn with_others_beyond(&self) -> Tables {
        let [variables, operators, maps] = [self.counts.variables, self.counts.operators, self.counts.maps].map(|count| count as usize);
        let mut tables = Tables { counts: self.counts, ..Tables::others() };
        if self.counts.edition == 1 {
            tables.counts.quota = OTHER_WORD;
        } else {
            tables.facts[MARKS..][..operators].copy_from_slice(&self.facts[MARKS..][..operators]);
        }
        let mut keep = |row: usize, places: usize| {
            let own = 8 * row..8 * row + places;
            tables.facts[own.clone()].copy_from_slice(&self.facts[own]);
        };
        (0..3 + operators).chain(EFFECTS..EFFECTS + operators).for_each(|row| keep(row, variables));
        for map in 0..maps {
            (0..variables).for_each(|variable| keep(CLASSES + 8 * map + variable, self.facts[variable] as usize));
            tables.shares[64 * map..][..operators].copy_from_slice(&self.shares[64 * map..][..operators]);
        }
        tables.costs[..operators].copy_from_slice(&self.costs[..operators]);
        tables
    }

    fn read(&mut self, text: &[u8]) -> Result<Counts, Refusal> {
        self.counts = read(text, &mut self.facts, &mut self.costs, &mut self.shares)?;
        Ok(self.counts)
    }

    fn write(&self, buffer: &mut [u8]) -> Result<usize, Refusal> {
        write(self.counts, &self.facts, &self.costs, &self.shares, buffer)
    }
}

#[test]
fn what_was_read_is_written_byte_for_byte_and_what_is_beyond_stays() {
    for text in ACCEPTED {
        assert_eq!(task(text).to_text(), text.as_bytes());
        let tables = Tables::of(&task(text));
        for bytes in [TEXT, TEXT + 1] {
            let mut buffer = vec![OTHER; bytes];
            assert_eq!(tables.write(&mut buffer), Ok(text.len()));
            assert_eq!(&buffer[..text.len()], text.as_bytes());
            assert!(buffer[text.len()..].iter().all(|&byte| byte == OTHER));
        }
    }
}

#[test]
fn numbers_are_written_with_all_their_digits() {
    let near = |ten: u32| [ten - 1, ten, ten + 1];
    for cost in (0..6).flat_map(|zeros| near(10u32.pow(zeros))).chain([999_999, 1_000_000]) {
        let text = format!("edition=1\nvars=1\ndom=2\ninit=1\ngoal=-\nops=1\nop={cost};-;0:1\nmaps=1\nmap=0,0\nshare={cost}\n");
        assert_eq!(task(&text).to_text(), text.as_bytes());
    }
}

#[test]
fn what_was_written_is_read_as_the_same_tables_whatever_stood_beyond_them() {
    for text in ACCEPTED {
        let tables = Tables::of(&task(text));
        let others = tables.with_others_beyond();
        let Tables { counts, facts, costs, shares } = others.clone();
        let other = Task::of_tables(counts, facts, costs, shares).expect("the same task");
        assert_eq!(other.to_text(), text.as_bytes());
        assert_eq!(Tables::of(&Task::read(&other.to_text()).expect("a task")), tables);
        let mut again = others;
        assert_eq!(again.read(&other.to_text()), Ok(tables.counts));
        assert_eq!(again, tables);
    }
}

#[test]
fn a_refused_text_leaves_the_tables_as_they_were() {
    let mut tables = Tables::others();
    for (text, told) in [(C, (6, 8)), (&A[..A.len() - 1], (2, 17)), ("", (2, 1))] {
        assert_eq!(refusal(tables.read(text.as_bytes())), told);
        assert_eq!(tables, Tables::others());
    }
    let Tables { facts, costs, shares, .. } = &mut tables;
    assert_eq!(refusal(read(A.as_bytes(), &mut facts[1..], costs, shares)), (8, 0));
    assert_eq!(refusal(read(A.as_bytes(), facts, &mut costs[1..], shares)), (8, 0));
    assert_eq!(refusal(read(A.as_bytes(), facts, costs, &mut shares[1..])), (8, 0));
    assert_eq!(tables, Tables::others());
}

/// Tables that break a rule, and what they are refused with: case A or case G with a place altered, and a map of eight classes in each of five variables.
fn faulty() -> Vec<(Tables, (u8, u32))> {
    let altered_of = |text: &str, alter: fn(&mut Tables), told| {
        let mut tables = Tables::of(&task(text));
        alter(&mut tables);
        (tables, told)
    };
    let altered = |alter: fn(&mut Tables), told| altered_of(A, alter, told);
    let counts = Counts { variables: 5, operators: 0, maps: 1, edition: 1, quota: 0 };
    let mut large = Tables { counts, facts: [0; FACTS], ..Tables::others() };
    large.facts[..5].fill(8);
    (0..5).for_each(|variable| large.facts[8 * (CLASSES + variable)..][..8].copy_from_slice(&[0, 1, 2, 3, 4, 5, 6, 7]));
    vec![
        altered(|tables| tables.counts.edition = 3, (3, 1)),
        altered(|tables| tables.counts.variables = 9, (3, 2)),
        altered(|tables| tables.counts.operators = u32::MAX, (3, 6)),
        altered(|tables| tables.facts[0] = 9, (3, 3)),
        altered(|tables| tables.costs[3] = 1_000_001, (3, 10)),
        altered(|tables| tables.facts[8 * (CLASSES + 1)..][..3].copy_from_slice(&[0, 2, 2]), (5, 12)),
        altered(|tables| tables.shares[64 * 2 + 1] = 1, (6, 8)),
        altered(|tables| tables.facts[8 * EFFECTS] = 0, (18, 7)),
        altered_of(G, |tables| tables.counts.quota = QUOTA + 1, (3, 6)),
        altered_of(G, |tables| tables.facts[MARKS + 2] = 2, (3, 10)),
        altered_of(G, |tables| tables.facts[8 * (EFFECTS + 2)..][..2].fill(0), (18, 10)),
        altered_of(G, |tables| tables.shares[1] = 4, (6, 9)),
        (large, (7, 8)),
    ]
}

#[test]
fn a_refusal_leaves_the_buffer_as_it_was() {
    for (tables, told) in faulty() {
        let mut buffer = [OTHER; TEXT];
        assert_eq!(refusal(tables.write(&mut buffer)), told);
        assert_eq!(refusal(check(tables.counts, &tables.facts, &tables.costs, &tables.shares)), told);
        assert!(buffer.iter().all(|&byte| byte == OTHER));
    }
}

#[test]
fn what_is_lent_too_short_comes_before_all_else() {
    let whole = Tables::of(&task(A));
    for tables in faulty().iter().map(|(tables, _)| tables).chain([&whole]) {
        let mut buffer = [OTHER; TEXT];
        for bytes in [0, 1, A.len(), TEXT - 1] {
            assert_eq!(refusal(tables.write(&mut buffer[..bytes])), (8, 0));
        }
        let Tables { counts, facts, costs, shares } = tables;
        assert_eq!(refusal(write(*counts, &facts[1..], costs, shares, &mut buffer)), (8, 0));
        assert_eq!(refusal(write(*counts, facts, &costs[1..], shares, &mut buffer)), (8, 0));
        assert_eq!(refusal(write(*counts, facts, costs, &shares[1..], &mut buffer)), (8, 0));
        assert_eq!(refusal(write(*counts, &[], &[], &[], &mut buffer)), (8, 0));
        assert!(buffer.iter().all(|&byte| byte == OTHER));
    }
}
