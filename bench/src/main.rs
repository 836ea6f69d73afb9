//! The desk against plain Rust: the same work by both in one process, and what each took. bench/run calls it in this order:
//!
//!     bench same TASK-FILE ..     that both answer the same
//!     bench round TASK-FILE ..    the times of one round, a line a measurement
//!     bench table                 the lines of all rounds, from standard input, as a table
//!
//! and `bench desk TASK-FILE ..`, or `plain` for `desk`, has a whole shift done by that side alone and times nothing, for a profiler; with `judging`, `distances`,
//! `writing`, `reading` or `pieces` after it, that work. Behind `pieces` may stand the bytes of a piece, which else has one.
//! Ends with status 0, with 1 if the two differ or a task can't be measured, and with 2 if a file can't be read or the words are off.
mod distances;
mod judging;
mod pieces;
mod plain;
mod same;
mod shift;
mod sides;
mod tables;
mod text;
mod timing;

use distances::Largest;
use judging::Passing;
use mihaedop::{Task, STEPS};
use sides::{Desk, Plain, Side};
use std::{env, fs, path::Path, process};
use text::Text;

/// Says why on standard error, and ends.
fn end(status: i32, why: String) -> ! {
    eprintln!("{why}");
    process::exit(status)
}

/// The task of a file, which the desk reads, with the file's name and its text.
fn task(path: &str) -> (String, Vec<u8>, Desk) {
    let text = fs::read(path).unwrap_or_else(|error| end(2, format!("{path}: {error}")));
    let task = Task::read(&text).unwrap_or_else(|refusal| end(1, format!("{path}: {refusal}")));
    let name = Path::new(path).file_stem().map_or_else(|| path.to_string(), |stem| stem.to_string_lossy().into_owned());
    (name, text, Desk::of(task))
}

/// Says how many answers were the same.
fn compare(name: &str, desk: &Desk, text: &[u8]) -> Result<(), String> {
    let answers = same::compare(desk, text)?;
    println!("{name}: both sides gave the same {answers} answers, and left the same runs, distances, best steps, texts and tables");
    Ok(())
}

/// All measurements of a task.
fn measure(name: &str, desk: &Desk, text: &[u8]) -> Result<(), String> {
    let plain = Plain::of(&desk.task);
    shift::measure(name, desk, &plain);
    judging::measure(name, desk, &plain)?;
    distances::measure(name, desk, &plain)?;
    text::measure(name, &desk.task, text);
    pieces::measure(name, &desk.task, text);
    Ok(())
}

/// Work that is short, as often as a shift has offers.
fn many_times(mut work: impl FnMut()) {
    (0..STEPS).for_each(|_| work());
}

/// What is asked for: `same`, `round` or a side; for a side alone the work, and the bytes of a piece; and the files.
struct Asked<'a> {
    what: &'a str,
    work: &'a str,
    size: usize,
    files: &'a [&'a str],
}

fn asked<'a>(words: &'a [&'a str]) -> Option<Asked<'a>> {
    let (what, work, size, files) = match words {
        [side @ ("desk" | "plain"), "pieces", size, files @ ..] if size.parse().is_ok_and(|size: usize| size > 0) => {
            (*side, "pieces", size.parse().ok()?, files)
        }
        [side @ ("desk" | "plain"), work @ ("judging" | "distances" | "writing" | "reading" | "pieces"), files @ ..] => {
            (*side, *work, 1, files)
        }
        [what @ ("same" | "round" | "desk" | "plain"), files @ ..] => (*what, "shift", 1, files),
        _ => return None,
    };
    (!files.is_empty()).then_some(Asked { what, work, size, files })
}

/// The work that is asked for, done by one side; and what it was.
fn work<S: Side>(side: &S, asked: &Asked, task: &Task, text: &[u8]) -> Result<String, String> {
    let counts = task.counts();
    let text = Text::of(task, text);
    Ok(match asked.work {
        "judging" => {
            let passing = Passing::of(side, counts)?;
            many_times(passing.judging(side));
            format!("judged a sequence {STEPS} times")
        }
        "writing" => {
            many_times(text.writing::<S>());
            format!("wrote the task {STEPS} times")
        }
        "reading" => {
            many_times(text.reading::<S>());
            format!("read the task {STEPS} times")
        }
        "pieces" => {
            many_times(text.reading_in_pieces::<S::SoFar>(asked.size));
            format!("read the task {STEPS} times in pieces of {}", asked.size)
        }
        "distances" => {
            let largest = Largest::of(side, task)?;
            largest.distances(side)();
            format!("found the distances and best steps of map {} twice", largest.map)
        }
        _ => format!("accepted {} offers", shift::whole(side, &shift::sequence(counts.operators, 0)).1),
    })
}

fn main() {
    let words: Vec<String> = env::args().skip(1).collect();
    let words: Vec<&str> = words.iter().map(String::as_str).collect();
    if let ["table", ..] = words[..] {
        return timing::tell_tables().unwrap_or_else(|why| end(2, why));
    }
    let Some(asked) = asked(&words) else {
        let works = "[judging|distances|writing|reading|pieces [SIZE]]";
        end(2, format!("bench same|round TASK-FILE .., bench desk|plain {works} TASK-FILE .., or bench table"))
    };
    for (name, text, desk) in asked.files.iter().map(|path| task(path)) {
        let tell = |did| println!("{name}: {} {did}", asked.what);
        let done = match asked.what {
            "same" => compare(&name, &desk, &text),
            "round" => measure(&name, &desk, &text),
            "desk" => work(&desk, &asked, &desk.task, &text).map(tell),
            _ => work(&Plain::of(&desk.task), &asked, &desk.task, &text).map(tell),
        };
        done.unwrap_or_else(|why| end(1, format!("{name}: {why}")));
    }
}
