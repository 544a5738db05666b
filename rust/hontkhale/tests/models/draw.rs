//! Numbers from a fixed generator, and how many calls a test draws.

use std::env;

/// A fixed generator of numbers: the same seed gives the same numbers on every machine.
pub struct Draw {
    state: u64,
}

impl Draw {
    pub fn new(seed: u64) -> Self {
        Draw { state: seed }
    }

    /// The next number of 64 bits, by splitmix64.
    pub fn next(&mut self) -> u64 {
        self.state = self.state.wrapping_add(0x9e37_79b9_7f4a_7c15);
        let mut mixed = self.state;
        mixed = (mixed ^ (mixed >> 30)).wrapping_mul(0xbf58_476d_1ce4_e5b9);
        mixed = (mixed ^ (mixed >> 27)).wrapping_mul(0x94d0_49bb_1331_11eb);
        mixed ^ (mixed >> 31)
    }

    /// A number below the bound, or 0 where the bound is 0.
    pub fn below(&mut self, bound: u64) -> u64 {
        self.next().checked_rem(bound).unwrap_or(0)
    }

    /// A number of up to so many bits: each count of bits is as likely as the others.
    pub fn of_bits(&mut self, most: u64) -> u64 {
        let bits = self.below(most + 1);
        self.below(1 << bits)
    }

    /// Whether one of so many turns it is.
    pub fn one_in(&mut self, turns: u64) -> bool {
        self.below(turns) == 0
    }

    /// One of these.
    pub fn one_of<T: Copy>(&mut self, choices: &[T]) -> T {
        choices[self.below(choices.len() as u64) as usize]
    }
}

// Few enough for every run of the tests. A debug build is some ten times as slow.
const CALLS: u64 = if cfg!(debug_assertions) { 40_000 } else { 200_000 };

/// How many calls a model's test makes of each queue: `HONTKHALE_CALLS` of them, where that is set.
pub fn calls() -> u64 {
    match env::var("HONTKHALE_CALLS") {
        Ok(calls) => calls.parse().expect("HONTKHALE_CALLS is a number of calls"),
        Err(_) => CALLS,
    }
}
