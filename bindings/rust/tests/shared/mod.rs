//! What the tests share: texts of the bench, and how an answer is looked at. No test uses all of it.
#![allow(dead_code)]
use mihaedop::{Operator, Refusal, Task};

/// Case A: three views, and four steps to the goal.
pub const A: &str = "edition=1
vars=3
dom=2,3,3
init=0,0,0
goal=0:1,1:2,2:2
ops=4
op=1;0:0;0:1
op=1;1:0,2:0;1:1,2:1
op=1;1:1;1:2
op=1;2:1;2:2
maps=3
map=0,1/0,0,0/0,0,0
map=0,0/0,1,2/0,0,0
map=0,0/0,0,0/0,1,2
share=1,0,0,0
share=0,1,1,0
share=0,0,0,1
";

/// Case G, of edition 2: mount the coupling (0), torque it and store the test (1), take it off for the next (2). One test may be stored.
pub const G: &str = "edition=2
vars=2
dom=2,2
init=0,0
goal=0:1,1:1
quota=1
ops=3
op=2;0:0;0:1;0
op=3;0:1,1:0;1:1;1
op=1;1:1;1:0;0
maps=1
map=0,1/0,1
share=2,3,1
";

pub fn task(text: &str) -> Task {
    Task::read(text.as_bytes()).unwrap_or_else(|refusal| panic!("{refusal}"))
}

pub fn ops(numbers: &[u32]) -> Vec<Operator> {
    numbers.iter().map(|&op| Operator(op)).collect()
}

/// The number and the place of a refusal.
pub fn refusal<T>(answer: Result<T, Refusal>) -> (u8, u32) {
    match answer {
        Ok(_) => panic!("not refused"),
        Err(refusal) => (refusal.number(), refusal.place_number()),
    }
}
