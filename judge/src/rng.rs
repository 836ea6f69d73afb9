//! A small generator of numbers from a fixed seed, so that a script is the same wherever it is written.

pub struct Rng {
    state: u64,
    /// tasks by chance are of either edition, and not of edition 1 alone
    either_edition: bool,
}

impl Rng {
    pub fn new(seed: u64) -> Rng {
        Rng { state: seed.wrapping_mul(0x9E37_79B9_7F4A_7C15).wrapping_add(0x1234_5678_9ABC_DEF1), either_edition: false }
    }

    /// Two seeds of `new` give the same numbers, some draws apart; these are scattered.
    pub fn of_either_edition(seed: u64) -> Rng {
        Rng { state: Rng::new(seed).next(), either_edition: true }
    }

    /// The edition of the next task. Where it can only be 1 no number is drawn for it.
    pub fn edition(&mut self) -> usize {
        1 + usize::from(self.either_edition && self.chance(1, 2))
    }

    fn next(&mut self) -> u64 {
        self.state = self.state.wrapping_add(0x9E37_79B9_7F4A_7C15);
        let mut x = self.state;
        x = (x ^ (x >> 30)).wrapping_mul(0xBF58_476D_1CE4_E5B9);
        x = (x ^ (x >> 27)).wrapping_mul(0x94D0_49BB_1331_11EB);
        x ^ (x >> 31)
    }

    /// A number below the bound, which isn't 0.
    pub fn below(&mut self, bound: usize) -> usize {
        (self.next() % bound as u64) as usize
    }

    /// A number from the least to the most.
    pub fn between(&mut self, least: usize, most: usize) -> usize {
        least + self.below(most - least + 1)
    }

    pub fn chance(&mut self, of: usize, in_all: usize) -> bool {
        self.below(in_all) < of
    }

    pub fn pick<T: Copy>(&mut self, row: &[T]) -> T {
        row[self.below(row.len())]
    }

    pub fn word(&mut self) -> u32 {
        self.next() as u32
    }
}
