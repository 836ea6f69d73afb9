//! The desk's entries, each with the answer that the rules give.

use crate::limits::*;
use crate::row::{laid, Record};
use crate::run::{Offered, Run};
use crate::sequence::{self, Cheaper};
use crate::space;
use crate::tables::{counts_of, read_tables, room_for_tables, write_tables, Counts, Lent};
use crate::task::{refuse, Fault, State, Task};
use crate::text::read_text;
use crate::writer::written;
use std::fmt;

#[derive(Clone, Debug, PartialEq, Eq)]
pub enum Answer {
    Read(Counts),
    Begun,
    Taken,
    Length(usize),
    Clean,
    Rounds(usize),
    Of(u64),
    Take(usize),
    None,
    Passed(u64),
    First(u64),
    Second(u64),
    Neither,
    Opening { list: u32, part: Vec<u32> },
    Fresh,
    Accepted,
    Repeated,
    Refused(Fault),
}

impl fmt::Display for Answer {
    fn fmt(&self, f: &mut fmt::Formatter) -> fmt::Result {
        match self {
            Answer::Read(counts) => write!(f, "accepted {}", counts),
            Answer::Begun => write!(f, "begun"),
            Answer::Taken => write!(f, "taken"),
            Answer::Length(length) => write!(f, "length {}", length),
            Answer::Clean => write!(f, "clean"),
            Answer::Rounds(rounds) => write!(f, "rounds {}", rounds),
            Answer::Of(number) => write!(f, "of {}", number),
            Answer::Take(op) => write!(f, "take {}", op),
            Answer::None => write!(f, "none"),
            Answer::Passed(cost) => write!(f, "passed {}", cost),
            Answer::First(cost) => write!(f, "first {}", cost),
            Answer::Second(cost) => write!(f, "second {}", cost),
            Answer::Neither => write!(f, "neither"),
            Answer::Opening { list, part } => {
                write!(f, "opening {} {}", list, part.len())?;
                part.iter().try_for_each(|op| write!(f, " {}", op))
            }
            Answer::Fresh => write!(f, "fresh"),
            Answer::Accepted => write!(f, "accepted"),
            Answer::Repeated => write!(f, "repeated"),
            Answer::Refused(fault) => write!(f, "refused {} {}", fault.number, fault.place),
        }
    }
}

/// An answer, a refusal being one too.
fn told(answer: Result<Answer, Fault>) -> Answer {
    answer.unwrap_or_else(Answer::Refused)
}

/// The lent state at the task's variables: 8 if it has too few places, then 9.
fn state_of(task: &Task, lent: &[u8]) -> Result<State, Fault> {
    if lent.len() < task.dom.len() {
        return refuse(8, 0);
    }
    for (v, values) in task.dom.iter().enumerate() {
        if lent[v] as usize >= *values {
            return refuse(9, v);
        }
    }
    Ok(lent[..task.dom.len()].iter().map(|value| *value as usize).collect())
}

fn map_of(task: &Task, map: u32) -> Result<usize, Fault> {
    if map as usize >= task.maps.len() {
        return refuse(3, 0);
    }
    Ok(map as usize)
}

fn number_or_none(number: Option<u64>) -> Answer {
    number.map_or(Answer::None, Answer::Of)
}

pub fn read(text: &[u8], facts: &mut [u8], costs: &mut [u32], shares: &mut [u32]) -> Answer {
    told(room_for_tables(facts.len(), costs.len(), shares.len()).and_then(|()| {
        let task = read_text(text)?;
        write_tables(&task, facts, costs, shares);
        Ok(Answer::Read(counts_of(&task)))
    }))
}

/// A text that comes in pieces: what has come of it, and whether it has ended.
pub struct SoFar {
    text: Vec<u8>,
    ended: bool,
}

pub fn begin_text() -> (SoFar, Answer) {
    (SoFar { text: Vec::new(), ended: false }, Answer::Begun)
}

fn room_for_pieces(area: usize) -> Result<(), Fault> {
    if area < AREA_ROOM {
        return refuse(8, 0);
    }
    Ok(())
}

/// After its end a text takes nothing more.
fn still_open(so_far: &SoFar) -> Result<(), Fault> {
    if so_far.ended {
        return refuse(2, 0);
    }
    Ok(())
}

/// Of the area the length alone counts here: the bytes that have come are gathered.
pub fn take_piece(so_far: &mut SoFar, area: &mut [u8], piece: &[u8]) -> Answer {
    told(room_for_pieces(area.len()).and_then(|()| {
        still_open(so_far)?;
        so_far.text.extend_from_slice(piece);
        Ok(Answer::Taken)
    }))
}

/// A short area or table isn't the end; after that, whatever the text is, it has ended.
pub fn end_text(so_far: &mut SoFar, area: &[u8], facts: &mut [u8], costs: &mut [u32], shares: &mut [u32]) -> Answer {
    told(room_for_pieces(area.len()).and_then(|()| {
        room_for_tables(facts.len(), costs.len(), shares.len())?;
        still_open(so_far)?;
        so_far.ended = true;
        Ok(read(&so_far.text, facts, costs, shares))
    }))
}

fn room_for_a_text(buffer: usize) -> Result<(), Fault> {
    if buffer < BUFFER_ROOM {
        return refuse(8, 0);
    }
    Ok(())
}

/// Bytes of the buffer after the text stay, and all of them if the tables are refused.
pub fn write(lent: Lent, buffer: &mut [u8]) -> Answer {
    told(room_for_a_text(buffer.len()).and_then(|()| {
        let text = written(&read_tables(lent)?);
        buffer[..text.len()].copy_from_slice(&text);
        Ok(Answer::Length(text.len()))
    }))
}

pub fn check(lent: Lent) -> Answer {
    told(read_tables(lent).map(|_| Answer::Clean))
}

fn room_for_distances(out: usize, best: usize) -> Result<(), Fault> {
    if out < OUT_ROOM || best < BEST_ROOM {
        return refuse(8, 0);
    }
    Ok(())
}

/// Places of both tables from the number of abstract states on stay, and all of them if the call is refused.
pub fn distances(lent: Lent, map: u32, out: &mut [u32], best: &mut [u8]) -> Answer {
    told(room_for_distances(out.len(), best.len()).and_then(|()| {
        let task = read_tables(lent)?;
        let found = space::distances(&task, map_of(&task, map)?);
        for (a, distance) in found.least.iter().enumerate() {
            out[a] = space::written(*distance);
        }
        for (a, step) in found.best.iter().enumerate() {
            best[a] = space::written_step(*step);
        }
        Ok(Answer::Rounds(found.rounds))
    }))
}

pub fn distance_at(lent: Lent, map: u32, state: &[u8]) -> Answer {
    told(read_tables(lent).and_then(|task| {
        let m = map_of(&task, map)?;
        let state = state_of(&task, state)?;
        Ok(number_or_none(space::distance_at(&task, m, &state)))
    }))
}

pub fn best_at(lent: Lent, map: u32, state: &[u8]) -> Answer {
    told(read_tables(lent).and_then(|task| {
        let m = map_of(&task, map)?;
        let state = state_of(&task, state)?;
        Ok(space::best_at(&task, m, &state).map_or(Answer::None, Answer::Take))
    }))
}

pub fn bound(lent: Lent, state: &[u8]) -> Answer {
    told(read_tables(lent).and_then(|task| {
        let state = state_of(&task, state)?;
        Ok(number_or_none(space::bound(&task, &state)))
    }))
}

pub fn judge(lent: Lent, state: &[u8], list: &[u32]) -> Answer {
    told(read_tables(lent).and_then(|task| {
        let state = state_of(&task, state)?;
        Ok(Answer::Passed(sequence::judge(&task, &state, list)?))
    }))
}

/// The same with the operators in a row: its length is their number, and neither the lent count nor lent costs are read.
pub fn judge_row(lent: Lent, row: &[Record], state: &[u8], list: &[u32]) -> Answer {
    let (facts, costs) = laid(row, lent.facts);
    let counts = Counts { ops: row.len() as u32, ..lent.counts };
    judge(Lent { counts, facts: &facts, costs: &costs, ..lent }, state, list)
}

fn compared(lent: Lent, state: &[u8], a: &[u32], b: &[u32]) -> Result<Cheaper, Fault> {
    let task = read_tables(lent)?;
    let state = state_of(&task, state)?;
    Ok(sequence::cheaper(&task, &state, a, b))
}

pub fn cheaper(lent: Lent, state: &[u8], a: &[u32], b: &[u32]) -> Answer {
    told(compared(lent, state, a, b).map(|which| match which {
        Cheaper::First { cost, .. } => Answer::First(cost),
        Cheaper::Second { cost, .. } => Answer::Second(cost),
        Cheaper::Neither => Answer::Neither,
    }))
}

/// For neither, or refused input, the empty part at the start of the first list.
pub fn opening(lent: Lent, state: &[u8], a: &[u32], b: &[u32]) -> Answer {
    match compared(lent, state, a, b) {
        Ok(Cheaper::First { length, .. }) => Answer::Opening { list: 1, part: a[..length].to_vec() },
        Ok(Cheaper::Second { length, .. }) => Answer::Opening { list: 2, part: b[..length].to_vec() },
        Ok(Cheaper::Neither) | Err(_) => Answer::Opening { list: 1, part: Vec::new() },
    }
}

/// A refused start hands back a run of zeros.
pub fn begin(lent: Lent, start: &[u8]) -> (Run, Answer) {
    match read_tables(lent).and_then(|task| state_of(&task, start)) {
        Ok(start) => (Run::fresh(&start), Answer::Fresh),
        Err(fault) => (Run::zeros(), Answer::Refused(fault)),
    }
}

pub fn offer(run: &Run, lent: Lent, number: u32, op: u32) -> (Run, Answer) {
    match read_tables(lent) {
        Err(fault) => (run.clone(), Answer::Refused(fault)),
        Ok(task) => match run.offer(&task, number, op) {
            (after, Offered::Accepted) => (after, Answer::Accepted),
            (after, Offered::Repeated) => (after, Answer::Repeated),
            (after, Offered::Refused(fault)) => (after, Answer::Refused(fault)),
        },
    }
}

/// The two lines of a refusal.
fn refusal(fault: Fault) -> String {
    format!("refused={}\nplace={}\n", fault.number, fault.place)
}

/// What the desk program writes for a text that is to be formatted: the task's text.
pub fn format_program(text: &[u8]) -> Vec<u8> {
    match read_text(text) {
        Ok(task) => written(&task),
        Err(fault) => refusal(fault).into_bytes(),
    }
}

/// What the desk program writes for a text.
pub fn program(text: &[u8]) -> String {
    let task = match read_text(text) {
        Ok(task) => task,
        Err(fault) => return refusal(fault),
    };
    let line = |name: &str, number: Option<u64>| match number {
        Some(number) => format!("{}={}\n", name, number),
        None => format!("{}=none\n", name),
    };
    let mut lines = line("bound", space::bound(&task, &task.init));
    for m in 0..task.maps.len() {
        lines += &line("map", space::distance_at(&task, m, &task.init));
    }
    lines
}
