//! The distances and best steps of one map: of those with the most abstract states the first.
use crate::sides::{Desk, Plain, Side, Told};
use crate::timing::{tell, timed};
use mihaedop::{Task, BEST_STEPS, DISTANCES};

/// The map, how many abstract states it has, and the rounds that its distances take.
pub struct Largest {
    pub map: u32,
    states: usize,
    rounds: u32,
}

impl Largest {
    /// The task's largest map; a side is asked for the rounds.
    pub fn of(side: &impl Side, task: &Task) -> Result<Largest, String> {
        let views = Plain::of(task).task;
        let (mut map, mut states) = (0, 0);
        for (other, more) in (0..task.counts().maps).map(|map| (map, views.states(map))) {
            if more > states {
                (map, states) = (other, more);
            }
        }
        match side.distances(map, &mut [0; DISTANCES], &mut [0; BEST_STEPS]) {
            Told::Rounds(rounds) => Ok(Largest { map, states, rounds }),
            told => Err(format!("the distances of map {map} are {told:?}")),
        }
    }

    /// The work of its distances and best steps, into the same tables each time.
    pub fn distances<'a, S: Side>(&'a self, side: &'a S) -> impl FnMut() + 'a {
        let (mut table, mut best) = ([0; DISTANCES], [0; BEST_STEPS]);
        move || assert_eq!(side.distances(self.map, &mut table, &mut best), Told::Rounds(self.rounds))
    }
}

pub fn measure(name: &str, desk: &Desk, plain: &Plain) -> Result<(), String> {
    let largest = Largest::of(plain, &desk.task)?;
    let Largest { states, rounds, .. } = largest;
    let measured =
        format!("the distances and best steps of a map of {states} states, {rounds} round{}", if rounds == 1 { "" } else { "s" });
    tell(name, &measured, timed(largest.distances(desk), largest.distances(plain)));
    Ok(())
}
