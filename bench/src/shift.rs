//! The first measurement: a whole shift, and single offers. Each offer judges the tables and the run anew, so an offer to a full run has as many steps to replay as there can be.
use crate::sides::{Desk, Plain, Side, Told};
use crate::timing::{tell, timed, Times};
use mihaedop::STEPS;

/// As many steps as a run can have: the operators in their order, over and over, from one of them on.
pub fn sequence(operators: u32, first: u32) -> Vec<u32> {
    (0..operators).cycle().skip(first as usize).take(STEPS).collect()
}

/// A fresh run, and the steps offered one after another, each to the run that the one before left; how many were accepted is told beside it.
pub fn whole<S: Side>(side: &S, sequence: &[u32]) -> (S::Run, usize) {
    let mut run = side.begin();
    let mut accepted = 0;
    for (number, &op) in (1..).zip(sequence) {
        accepted += usize::from(side.offer(&mut run, number, op) == Told::Accepted);
    }
    (run, accepted)
}

/// The work of a whole shift.
fn shift<'a, S: Side>(side: &'a S, sequence: &'a [u32]) -> impl FnMut() + 'a {
    move || assert_eq!(whole(side, sequence).1, sequence.len())
}

/// The work of one offer that leaves the run as it is.
fn offer<'a, S: Side>(side: &'a S, mut run: S::Run, number: u32, op: u32, told: Told) -> impl FnMut() + 'a
where
    S::Run: 'a,
{
    move || assert_eq!(side.offer(&mut run, number, op), told)
}

/// What an offer to the longer run takes more, for each step that it has to replay.
fn a_step(full: Times, fresh: Times) -> Times {
    let steps = STEPS as f64;
    Times { desk: (full.desk - fresh.desk) / steps, plain: (full.plain - fresh.plain) / steps }
}

pub fn measure(name: &str, desk: &Desk, plain: &Plain) {
    let sequence = sequence(desk.task.counts().operators, 0);
    let (first, again, last) = (sequence[0], sequence[STEPS - 1], STEPS as u32);
    tell(name, &format!("a whole shift: a fresh run and {STEPS} offers"), timed(shift(desk, &sequence), shift(plain, &sequence)));

    let full = |number, op, told| {
        let of_desk = offer(desk, whole(desk, &sequence).0, number, op, told);
        let of_plain = offer(plain, whole(plain, &sequence).0, number, op, told);
        timed(of_desk, of_plain)
    };
    let beyond = full(last + 1, first, Told::Refused { number: 15, place: last + 1 });
    tell(name, &format!("an offer to a run of {STEPS} steps, refused with 15"), beyond);
    tell(name, &format!("an offer to a run of {STEPS} steps, repeated"), full(last, again, Told::Repeated));

    let not_next = Told::Refused { number: 13, place: 2 };
    let fresh = timed(offer(desk, desk.begin(), 2, first, not_next), offer(plain, plain.begin(), 2, first, not_next));
    tell(name, "an offer to a fresh run, refused with 13", fresh);
    tell(name, "a replayed step: the offer refused with 15 less that to a fresh run, by steps", a_step(beyond, fresh));
}
