//! That both sides answer the same, before anything is timed: every offer of the shift, offers that are refused, runs that no offers could have left, and faulty tables;
//! judging, distances, stored tests and texts are in the modules below.
mod distances;
mod judging;
mod pieces;
mod short;
mod stored;
mod text;

use crate::judging::Passing;
use crate::plain;
use crate::shift::sequence;
use crate::sides::{plainly_refused, refused, Desk, Parts, Plain, Side, Told};
use crate::tables::{Tables, KINDS, PLACES};
use mihaedop::{check, Task, BEST_STEPS, COSTS, DISTANCES, FACTS, RUN_BYTES, RUN_WORDS, SHARES, STEPS, TEXT};
use pieces::SoFar;

/// How many tables by chance have some places altered at once.
const BY_CHANCE: usize = 20_000;

/// How many abstract states are swept by such tables, in all rounds together; then no more distances are asked for.
const SWEPT: usize = 8_000_000;

/// Both sides, with the number of answers that they gave alike.
struct Both<'a> {
    desk: &'a Desk,
    plain: Plain<'a>,
    so_far: SoFar,
    alike: usize,
}

/// Asks both sides, and tells how many answers they gave alike, or where they differ.
pub fn compare(desk: &Desk, text: &[u8]) -> Result<usize, String> {
    let mut both = Both::of(desk);
    both.texts(text)?;
    both.shift()?;
    let passing = Passing::of(&both.plain, desk.task.counts())?;
    both.judging(&passing)?;
    both.maps()?;
    both.stored(&passing)?;
    both.tables(&passing)?;
    Ok(both.alike)
}

/// Values near one, and near the limit.
fn beside(was: u8) -> [u8; 6] {
    [0, was ^ 1, was.wrapping_add(1), 7, 8, u8::MAX]
}

impl<'a> Both<'a> {
    fn of(desk: &'a Desk) -> Both<'a> {
        Both { desk, plain: Plain::of(&desk.task), so_far: SoFar::new(), alike: 0 }
    }

    /// Every operator, and some that don't exist.
    fn operators(&self) -> impl Iterator<Item = u32> {
        (0..self.desk.task.counts().operators + 2).chain([64, u32::MAX])
    }

    fn count(&mut self, what: &str, desk: Told, plain: Told) -> Result<(), String> {
        if desk != plain {
            return Err(format!("{what}: the desk says {desk:?}, plain Rust says {plain:?}"));
        }
        self.alike += 1;
        Ok(())
    }

    /// An offer to the same run on both sides: the answer and the run that is left.
    fn offer(&mut self, parts: &Parts, number: u32, op: u32) -> Result<(Told, Parts), String> {
        let (mut of_desk, mut of_plain) = (Desk::of_parts(parts), Plain::of_parts(parts));
        let (desk, plain) = (self.desk.offer(&mut of_desk, number, op), self.plain.offer(&mut of_plain, number, op));
        let what = format!("step {number} operator {op}, offered to a run of {} steps", parts.1[STEPS]);
        self.count(&what, desk, plain)?;
        let left = Desk::parts(&of_desk);
        if left != Plain::parts(&of_plain) {
            return Err(format!("{what}: the runs differ after it"));
        }
        if desk != Told::Accepted && left != *parts {
            return Err(format!("{what}: the run moved, though it was not accepted"));
        }
        Ok((desk, left))
    }

    /// Every offer of the shift is accepted; at some moments all kinds of offers are made, and to all kinds of damaged runs.
    fn shift(&mut self) -> Result<(), String> {
        let sequence = sequence(self.desk.task.counts().operators, 0);
        let Some(&first) = sequence.first() else { return Err("without operators there are no steps".to_string()) };
        let mut run = Desk::parts(&self.desk.begin());
        if run != Plain::parts(&self.plain.begin()) {
            return Err("the fresh runs differ".to_string());
        }
        for (number, &op) in (1..).zip(&sequence) {
            if [1, 2, 3, STEPS as u32 / 2, STEPS as u32].contains(&number) {
                self.around(&run, op)?;
            }
            let (told, left) = self.offer(&run, number, op)?;
            if told != Told::Accepted {
                return Err(format!("the operators in their order can't go on for {STEPS} steps: step {number} is {told:?}"));
            }
            run = left;
        }
        self.around(&run, first)
    }

    /// Offers of every operator, and of some that don't exist, under old numbers, the next and others; then the step offered to the run with a place altered.
    fn around(&mut self, run: &Parts, op: u32) -> Result<(), String> {
        let (operators, next) = (self.desk.task.counts().operators, run.1[STEPS] + 1);
        for number in [0, 1, 2, next.saturating_sub(2), next - 1, next, next + 1, u32::MAX] {
            for op in self.operators() {
                self.offer(run, number, op)?;
            }
        }
        for place in 0..RUN_BYTES {
            let was = run.0[place];
            for value in beside(was) {
                let mut damaged = *run;
                damaged.0[place] = value;
                self.offer(&damaged, next, op)?;
                // the start and the state now together, which a replay alone would not find
                damaged.0[(place + RUN_BYTES / 2) % RUN_BYTES] = value;
                self.offer(&damaged, next, op)?;
            }
        }
        for place in 0..RUN_WORDS {
            let was = run.1[place];
            for value in [0, was ^ 1, was.wrapping_add(1), was.wrapping_sub(1), operators, u32::MAX] {
                let mut damaged = *run;
                damaged.1[place] = value;
                self.offer(&damaged, next, op)?;
            }
        }
        Ok(())
    }

    /// The task's tables with one place altered, each in turn, and by chance with some at once, so that it shows which fault comes first. Where there is none they are
    /// another task.
    fn tables(&mut self, passing: &Passing) -> Result<(), String> {
        let whole = Tables::of(&self.desk.task);
        self.check("the task's own tables", &whole, [FACTS, COSTS, SHARES])?;
        for short in [[FACTS - 1, COSTS, SHARES], [FACTS, COSTS - 1, SHARES], [FACTS, COSTS, SHARES - 1]] {
            self.check("tables too short", &whole, short)?;
        }
        for place in 0..PLACES {
            for kind in 0..KINDS {
                let mut altered = whole.clone();
                altered.alter(place, kind);
                self.check(&format!("tables with place {place} altered"), &altered, [FACTS, COSTS, SHARES])?;
            }
        }
        let (mut chance, mut swept) = (Chance(1), 0);
        for _ in 0..BY_CHANCE {
            let mut altered = whole.clone();
            for _ in 0..2 + chance.below(3) {
                altered.alter(chance.below(PLACES), chance.below(KINDS));
            }
            self.check("tables altered by chance", &altered, [FACTS, COSTS, SHARES])?;
            if let Ok(task) = altered.task() {
                self.another(task, passing, &mut chance, &mut swept)?;
            }
        }
        Ok(())
    }

    /// By another task, for which it was not made, the sequence is judged; and a map's distances and best steps are asked for, unless too much was swept before. Its text is read.
    fn another(&mut self, task: Task, passing: &Passing, chance: &mut Chance, swept: &mut usize) -> Result<(), String> {
        let desk = Desk::of(task);
        let mut both = Both::of(&desk);
        both.judge(&passing.start, &passing.sequence)?;
        both.read("the text of another task", &desk.task.to_text())?;
        if *swept < SWEPT {
            let map = chance.below(desk.task.counts().maps as usize) as u32;
            if let Told::Rounds(rounds) = both.distances(map, DISTANCES, BEST_STEPS)? {
                *swept += rounds as usize * both.plain.task.states(map);
            }
        }
        self.alike += both.alike;
        Ok(())
    }

    /// Tables as both sides check and write them. By faulty ones the baseline judges no sequence and finds no distances either; the desk can't be asked for that, since
    /// the crate makes no task of them.
    fn check(&mut self, what: &str, tables: &Tables, [facts, costs, shares]: [usize; 3]) -> Result<(), String> {
        let (facts, costs, shares) = (&tables.facts[..facts], &tables.costs[..costs], &tables.shares[..shares]);
        let desk = check(tables.counts(), facts, costs, shares).map_or_else(refused, |()| Told::Accepted);
        let task = plain::Task::of(tables.counts, facts, costs, shares);
        let plain = task.check();
        if let Err(refusal) = plain {
            if [task.judge(&[], &[]), task.distances(0, &mut [0; DISTANCES], &mut [0; BEST_STEPS])] != [Err(refusal); 2] {
                return Err(format!("{what}: plain Rust refuses them with {refusal:?}, but not whenever it is lent them"));
            }
        }
        self.count(what, desk, plain.map_or_else(plainly_refused, |()| Told::Accepted))?;
        let written = self.write(what, tables.counts, facts, costs, shares, TEXT)?.0;
        if desk != Told::Accepted && desk != written {
            return Err(format!("{what}: to check them gives {desk:?}, and to write them {written:?}"));
        }
        Ok(())
    }
}

/// Numbers by chance, the same ones each time (xorshift).
struct Chance(u64);

impl Chance {
    fn below(&mut self, limit: usize) -> usize {
        self.0 ^= self.0 << 13;
        self.0 ^= self.0 >> 7;
        self.0 ^= self.0 << 17;
        (self.0 >> 11) as usize % limit
    }
}
