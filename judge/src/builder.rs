//! Writes vectors in the form of the script.

use crate::limits::*;
use crate::round_trips::with_round_trips;
use crate::row::Record;
use crate::run::Run;
use crate::script::*;
use crate::tables::{counts_of, text_of, write_tables, Counts, Lent};
use crate::task::{Facts, Op, State, Task};

/// One vector: what it tries, and its lines after the reset.
pub struct Vector {
    title: String,
    body: Vec<u8>,
    /// the last task was of edition 2: its records have marks, and its runs a number of stored tests
    marked: bool,
}

/// The tables of a task, as long as the task needs them.
pub struct Tables {
    pub facts: Vec<u8>,
    pub costs: Vec<u32>,
    pub shares: Vec<u32>,
}

pub fn tables_of(task: &Task) -> Tables {
    let room = |k: u32| ARRAYS[k as usize].2;
    let mut tables = Tables { facts: vec![0; room(FACTS)], costs: vec![0; room(COSTS)], shares: vec![0; room(SHARES)] };
    write_tables(task, &mut tables.facts, &mut tables.costs, &mut tables.shares);
    tables
}

/// The operators of a task as records.
pub fn row_of(task: &Task) -> Vec<Record> {
    let places = |facts: &Facts| {
        let mut places = [0; VARS];
        facts.iter().zip(&mut places).for_each(|(fact, place)| *place = fact.map_or(0, |value| value as u8 + 1));
        places
    };
    let record = |op: &Op| Record { cost: op.cost as u32, pre: places(&op.pre), eff: places(&op.eff), mark: u8::from(op.stores) };
    task.ops.iter().map(record).collect()
}

pub fn text_of_task(task: &Task) -> Vec<u8> {
    let tables = tables_of(task);
    text_of(Lent { counts: counts_of(task), facts: &tables.facts, costs: &tables.costs, shares: &tables.shares })
}

/// The script of the vectors, numbered from 1, with the round trips of their readings.
pub fn script_of(vectors: &[Vector]) -> Vec<u8> {
    let mut script = Vec::new();
    for (i, vector) in vectors.iter().enumerate() {
        script.extend_from_slice(format!("z\n# {} {}\n", i + 1, vector.title).as_bytes());
        script.extend_from_slice(&with_round_trips(&vector.body));
    }
    script
}

impl Vector {
    pub fn new(title: &str) -> Vector {
        Vector { title: title.to_string(), body: Vec::new(), marked: false }
    }

    /// Lines as they stand, parted by a semicolon.
    pub fn lines(mut self, lines: &str) -> Vector {
        for line in lines.split(';') {
            self.body.extend_from_slice(line.trim().as_bytes());
            self.body.push(b'\n');
        }
        self
    }

    pub fn text(mut self, text: &[u8]) -> Vector {
        self.body.extend_from_slice(format!("t {}\n", text.len()).as_bytes());
        self.body.extend_from_slice(text);
        self.body.push(b'\n');
        self
    }

    pub fn task(self, task: &Task) -> Vector {
        self.text(&text_of_task(task)).lines("R").of_edition(task)
    }

    /// What follows is about this task.
    fn of_edition(mut self, task: &Task) -> Vector {
        self.marked = task.quota.is_some();
        self
    }

    pub fn counts(self, counts: Counts) -> Vector {
        self.lines(&format!("n {}", counts))
    }

    /// The places of an array from the given one on, as many to a line as it holds.
    pub fn set(mut self, k: u32, place: usize, values: &[u32]) -> Vector {
        for (i, chunk) in values.chunks(NUMBERS - 2).enumerate() {
            let mut line = format!("s {} {}", k, place + i * (NUMBERS - 2));
            for value in chunk {
                line += &format!(" {}", value);
            }
            self = self.lines(&line);
        }
        self
    }

    /// The same, lent with just these places.
    pub fn lend(self, k: u32, values: &[u32]) -> Vector {
        self.set(k, 0, values).lines(&format!("l {} {}", k, values.len()))
    }

    /// A record of the row, in its places, and its mark if the task is of edition 2.
    pub fn record(self, o: usize, record: &Record) -> Vector {
        let facts = [record.pre, record.eff].concat().into_iter().map(u32::from);
        let places: Vec<u32> = std::iter::once(record.cost).chain(facts).collect();
        let marks = vec![u32::from(record.mark); usize::from(self.marked)];
        self.set(RECORDS, RECORD * o, &places).set(MARK, o, &marks)
    }

    /// A row of records, lent with just these.
    pub fn row(self, row: &[Record]) -> Vector {
        let set = row.iter().enumerate().fold(self, |vector, (o, record)| vector.record(o, record));
        set.lines(&format!("l {} {}", RECORDS, row.len()))
    }

    pub fn state(self, state: &State) -> Vector {
        let values: Vec<u32> = state.iter().map(|value| *value as u32).collect();
        self.set(STATE, 0, &values)
    }

    /// The fields of a run, one by one; of the log no more than an accepted offer can have written, and likewise of the columns.
    pub fn run(self, run: &Run) -> Vector {
        let written = run.log.len().min(run.len as usize + 1);
        let columns = if self.marked { COLUMNS } else { STORED };
        self.set(START, 0, &run.start.map(u32::from))
            .set(LOG, 0, &run.log[..written])
            .set(LEN, 0, &[run.len])
            .set(NOW, 0, &run.now.map(u32::from))
            .set(COLUMN, 0, &run.columns[..columns])
    }

    /// The tables of a task set by hand where they are read: these rows of its facts, its maps and its shares.
    pub fn by_hand(mut self, task: &Task, rows: impl Iterator<Item = usize>) -> Vector {
        let (tables, vars, ops) = (tables_of(task), task.dom.len(), task.ops.len());
        for row in rows {
            let places: Vec<u32> = tables.facts[ROW * row..ROW * row + vars].iter().map(|place| u32::from(*place)).collect();
            self = self.set(FACTS, ROW * row, &places);
        }
        for (m, map) in task.maps.iter().enumerate() {
            for (v, classes) in map.iter().enumerate() {
                let classes: Vec<u32> = classes.iter().map(|class| *class as u32).collect();
                self = self.set(FACTS, ROW * (ROW_MAP + MAPS * m + v), &classes);
            }
            self = self.set(SHARES, OPS * m, &tables.shares[OPS * m..OPS * m + ops]);
        }
        self.of_edition(task)
    }

    /// A task set by hand, its counts, operators and costs too.
    pub fn tables(self, task: &Task) -> Vector {
        let ops = task.ops.len();
        self.counts(counts_of(task))
            .by_hand(task, (0..ROW_PRE + ops).chain(ROW_EFF..ROW_EFF + ops))
            .set(COSTS, 0, &tables_of(task).costs[..ops])
            .marks(task)
    }

    /// Where they are read, the marks of a task's operators.
    fn marks(self, task: &Task) -> Vector {
        let marks: Vec<u32> = task.ops.iter().filter(|_| task.quota.is_some()).map(|op| u32::from(op.stores)).collect();
        self.set(FACTS, ROW * ROW_MARK, &marks)
    }

    /// Something in every place of the tables and of the distance table.
    pub fn dirty(self) -> Vector {
        self.lines("e 0 201; e 1 4000000000; e 2 4000000001; e 3 4000000002")
    }
}
