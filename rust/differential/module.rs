//! What a module of the driver is: a group of functions to compare, and its part of the recorded sample.

use crate::record::Sample;
use crate::rng::Rng;
use crate::tally::Tally;

#[derive(Clone, Copy)]
pub struct Module {
    pub name: &'static str,
    /// How many random answers it compares where nothing else is asked for.
    pub count: u64,
    /// Compares the library with the oracle: a tally for each function.
    pub compare: fn(&Plan) -> Vec<Tally>,
    /// Adds the oracle's answers to a fixed sample.
    pub record: fn(&mut Sample),
}

/// How much is compared at random, beside what a module always compares.
pub struct Plan {
    pub count: u64,
    pub seed: u64,
}

impl Plan {
    /// The random answers of one function, where a module has `functions` of them.
    pub fn share(&self, functions: u64) -> u64 {
        self.count / functions
    }

    /// The random numbers of one part of a module: each part has its own, so that a change to one leaves the others alone.
    pub fn rng(&self, part: u64) -> Rng {
        Rng::new(self.seed ^ part.rotate_right(8))
    }
}
