//! Times the sides by turns, and tells many rounds as tables for docs/COSTS.md. Nothing fails because of a time.
//!
//! A round is a process of its own: where its stack and its tables come to lie differs from process to process, and moves what copying memory takes.
use std::time::{Duration, Instant};
use std::{io, io::BufRead};

/// How many turns each side has in a round; fewer if they take too long, but some. The best one counts: what else the machine does can only make a turn longer.
const TURNS: usize = 15;
const TOO_LONG: Duration = Duration::from_millis(500);
const LEAST_TURNS: usize = 3;

/// The least time of a turn: long for the clock, and short enough that most turns aren't interrupted.
const TURN_NANOSECONDS: f64 = 2e6;

/// The nanoseconds that one piece of work takes on each side.
#[derive(Clone, Copy)]
pub struct Times {
    pub desk: f64,
    pub plain: f64,
}

/// A side's work, and how often it is done in a turn.
struct Timed<F> {
    work: F,
    times: u32,
}

impl<F: FnMut()> Timed<F> {
    /// Finds how often the work has to be done to fill a turn; then it has been done before, and its memory is warm.
    fn of(work: F) -> Timed<F> {
        let mut timed = Timed { work, times: 1 };
        while timed.turn() * f64::from(timed.times) < TURN_NANOSECONDS {
            timed.times *= 2;
        }
        timed
    }

    /// The nanoseconds of one piece of work, in one turn.
    fn turn(&mut self) -> f64 {
        let began = Instant::now();
        for _ in 0..self.times {
            (self.work)();
        }
        began.elapsed().as_nanos() as f64 / f64::from(self.times)
    }
}

/// The best turn of each side, where they take turns.
fn best_turns<const N: usize>(mut sides: [&mut dyn FnMut() -> f64; N]) -> [f64; N] {
    let mut best = [f64::INFINITY; N];
    let began = Instant::now();
    for turn in 1..=TURNS {
        for (best, side) in best.iter_mut().zip(&mut sides) {
            *best = best.min(side());
        }
        if turn >= LEAST_TURNS && began.elapsed() > TOO_LONG {
            break;
        }
    }
    best
}

/// Times the two by turns.
pub fn timed(desk: impl FnMut(), plain: impl FnMut()) -> Times {
    let (mut desk, mut plain) = (Timed::of(desk), Timed::of(plain));
    let [desk, plain] = best_turns([&mut || desk.turn(), &mut || plain.turn()]);
    Times { desk, plain }
}

/// Times the desk and two baselines by turns: the nanoseconds of each.
pub fn timed_with_two(desk: impl FnMut(), plain: impl FnMut(), other: impl FnMut()) -> [f64; 3] {
    let (mut desk, mut plain, mut other) = (Timed::of(desk), Timed::of(plain), Timed::of(other));
    best_turns([&mut || desk.turn(), &mut || plain.turn(), &mut || other.turn()])
}

/// Tells what a round found, as a line for `tell_tables`.
pub fn tell(task: &str, measured: &str, times: Times) {
    println!("{task}\t{measured}\t{}\t{}", times.desk, times.plain);
}

/// The same of so many bytes that were read, by the desk and two baselines.
pub fn tell_rates(task: &str, measured: &str, bytes: usize, [desk, plain, other]: [f64; 3]) {
    println!("{task}\t{measured}\t{desk}\t{plain}\t{other}\t{bytes}");
}

/// A number with three digits, and its unit.
fn with_unit(number: f64, unit: &str) -> String {
    let digits = [10.0, 100.0].iter().filter(|limit| number < **limit).count();
    format!("{number:.digits$} {unit}")
}

/// A time with its unit.
fn shown(nanoseconds: f64) -> String {
    match nanoseconds {
        n if n < 1e3 => with_unit(n, "ns"),
        n if n < 1e6 => with_unit(n / 1e3, "µs"),
        n => with_unit(n / 1e6, "ms"),
    }
}

/// What was measured, and what each round found: the times of desk and plain Rust, or those of desk and both baselines and the number of bytes.
struct Row {
    measured: String,
    rounds: Vec<Vec<f64>>,
}

impl Row {
    /// The middle one of a number of the rounds, with the least and the most.
    fn middle(&self, number: impl Fn(&[f64]) -> f64) -> (f64, f64, f64) {
        let mut sorted: Vec<f64> = self.rounds.iter().map(|round| number(round)).collect();
        sorted.sort_by(f64::total_cmp);
        (sorted[sorted.len() / 2], sorted[0], sorted[sorted.len() - 1])
    }

    fn median(&self, side: usize) -> f64 {
        self.middle(|round| round[side]).0
    }

    /// The ratio of the desk's median to that of a baseline, and the least and the most ratio of a round.
    fn ratio(&self, baseline: usize) -> String {
        let (_, least, most) = self.middle(|round| round[0] / round[baseline]);
        format!("{:.2} | {least:.2} to {most:.2}", self.median(0) / self.median(baseline))
    }

    fn tell_times(&self) {
        println!("| {} | {} | {} | {} |", self.measured, shown(self.median(0)), shown(self.median(1)), self.ratio(1));
    }

    fn tell_rates(&self) {
        let rate = |side| with_unit(self.median(3) / self.median(side) * 1e3, "MB/s");
        println!("| {} | {} | {} | {} | {} | {} |", self.measured, rate(0), rate(1), rate(2), self.ratio(1), self.ratio(2));
    }
}

/// A line of a round taken apart: what was measured of which task, and the numbers.
fn taken_apart(line: &str) -> Option<(String, Vec<f64>)> {
    let mut fields = line.split('\t');
    let measured = format!("{} | {}", fields.next()?, fields.next()?);
    let numbers: Vec<f64> = fields.map(|field| field.parse().ok()).collect::<Option<_>>()?;
    [2, 4].contains(&numbers.len()).then_some((measured, numbers))
}

/// Reads the lines of many rounds from standard input, and writes a row for each measurement, those of bytes a second into a table of their own: the median of each side,
/// the ratios of these, and the least and the most ratio of a round.
pub fn tell_tables() -> Result<(), String> {
    let mut rows: Vec<Row> = Vec::new();
    for line in io::stdin().lock().lines() {
        let line = line.map_err(|error| error.to_string())?;
        let (measured, numbers) = taken_apart(&line).ok_or(format!("no line of a round: {line}"))?;
        match rows.iter_mut().find(|row| row.measured == measured) {
            Some(row) if row.rounds[0].len() != numbers.len() => return Err(format!("no line of the rounds before: {line}")),
            Some(row) => row.rounds.push(numbers),
            None => rows.push(Row { measured, rounds: vec![numbers] }),
        }
    }
    let (rates, times): (Vec<Row>, Vec<Row>) = rows.into_iter().partition(|row| row.rounds[0].len() == 4);
    println!("| Task | Measured | Desk | Plain Rust | Ratio | Ratios of the rounds |");
    println!("|---|---|---|---|---|---|");
    times.iter().for_each(Row::tell_times);
    println!();
    println!("| Task | Read | Desk | Plain Rust, by steps | Plain Rust, at once | Ratio to steps | of the rounds | Ratio to at once | of the rounds |");
    println!("|---|---|---|---|---|---|---|---|---|");
    rates.iter().for_each(Row::tell_rates);
    Ok(())
}
