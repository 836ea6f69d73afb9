//! The desk from Rust: reads a task from a file, tells the bound of its initial state, offers the steps named after it one by one, and tells what is left after each.
//!
//!     bench TASK-FILE [OPERATOR ..]
//!
//! Ends with status 0, with 1 if the desk refused the task or a step, and with 2 if the file can't be read or the words are off.
use mihaedop::{Answer, Map, Operator, Refusal, State, Task};
use std::{env, fs, process};

fn tell_bound(task: &Task, state: &State) -> Result<(), Refusal> {
    match task.bound(state)? {
        Some(seconds) => println!("bound={seconds}"),
        None => println!("bound=none"),
    }
    Ok(())
}

fn bench(text: &[u8], operators: &[Operator]) -> Result<(), Refusal> {
    let task = Task::read(text)?;
    let start = task.initial();
    tell_bound(&task, &start)?;
    let mut run = task.begin(&start)?;
    for &op in operators {
        let step = run.next();
        let answer = match run.offer(&task, step, op)? {
            Answer::Accepted => "accepted",
            Answer::Repeated => "repeated",
        };
        print!("step {} operator {} {}, ", step.0, op.0, answer);
        if let Some(quota) = task.quota() {
            print!("stored {} of {}, ", run.stored(), quota);
        }
        print!("unshared {}, paid", run.unshared());
        for map in 0..task.counts().maps {
            print!(" {}", run.paid(Map(map)));
        }
        println!();
        tell_bound(&task, &run.now(&task))?;
    }
    Ok(())
}

/// Says why on standard error, and ends with status 2.
fn off(why: String) -> ! {
    eprintln!("{why}");
    process::exit(2)
}

fn main() {
    let mut words = env::args().skip(1);
    let path = words.next().unwrap_or_else(|| off("bench TASK-FILE [OPERATOR ..]".to_string()));
    let text = fs::read(&path).unwrap_or_else(|error| off(format!("{path}: {error}")));
    let operator = |word: String| Operator(word.parse().unwrap_or_else(|_| off(format!("{word} is not an operator's number"))));
    let operators: Vec<Operator> = words.map(operator).collect();
    if let Err(refusal) = bench(&text, &operators) {
        println!("{refusal}");
        process::exit(1);
    }
}
