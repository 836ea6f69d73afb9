//! The desk on a pipe, from Rust: reads a task from standard input, a piece at a time as they come, and tells the bound of its initial state, or the two lines of a
//! refusal as the desk program writes them.
//!
//!     pipe < TASK
//!
//! Ends with status 0, with 1 if the desk refused the task, and with 2 if standard input can't be read.
use mihaedop::{Reading, Refusal, Seconds};
use std::{io, process};

/// The bound of the initial state, once the text has come.
fn bound(reading: &mut Reading) -> Result<Option<Seconds>, Refusal> {
    let task = reading.end()?;
    task.bound(&task.initial())
}

fn main() {
    let mut reading = Reading::new();
    if let Err(error) = io::copy(&mut io::stdin().lock(), &mut reading) {
        eprintln!("standard input: {error}");
        process::exit(2);
    }
    match bound(&mut reading) {
        Ok(Some(seconds)) => println!("bound={seconds}"),
        Ok(None) => println!("bound=none"),
        Err(refusal) => {
            println!("refused={}\nplace={}", refusal.number(), refusal.place_number());
            process::exit(1);
        }
    }
}
