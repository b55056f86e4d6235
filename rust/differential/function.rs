//! Functions on numbers.

use crate::answer::Answer;
use crate::panics;
use crate::record::Sample;
use crate::tally::Tally;
use std::fmt::Debug;

pub struct Function<T, const OUTS: usize> {
    /// Its code in the recorded sample.
    pub code: u8,
    pub name: &'static str,
    /// The numbers that have to be among its answers.
    pub must: &'static [usize],
    pub library: fn(T, &mut [u64; OUTS]) -> u32,
    /// The oracle's answer; where the oracle asserts, the one that the request sets.
    pub answer: fn(T) -> Answer,
}

impl<T: Numbers, const OUTS: usize> Function<T, OUTS> {
    pub fn compare(&self, inputs: impl Iterator<Item = T>) -> Tally {
        let mut tally = Tally::new(self.name, self.must);
        for input in inputs {
            let entry = |outs: &mut [u64; OUTS]| (self.library)(input, outs);
            tally.call(&(self.answer)(input), entry, || format!("{input:?}"));
        }
        tally
    }

    /// Compares where the oracle's own function panics.
    pub fn compare_panics<R>(&self, inputs: impl Iterator<Item = T>, oracle: impl Fn(T) -> R) -> Tally {
        panics::compare(self.name, self.must, inputs, self.answer, oracle)
    }

    pub fn record(&self, sample: &mut Sample, inputs: impl Iterator<Item = T>) {
        inputs.for_each(|input| sample.add(self.code, &input.bytes(), &(self.answer)(input)));
    }
}

/// Compares an entry that takes nothing and gives constants.
pub fn compare_constants<const OUTS: usize>(
    name: &'static str,
    constants: [u64; OUTS],
    library: fn(&mut [u64; OUTS]) -> u32,
) -> Tally {
    let mut tally = Tally::new(name, &[0]);
    tally.call(&Answer::done(&constants), library, || "nothing".to_string());
    tally
}

/// Numbers that a function takes.
pub trait Numbers: Copy + Debug {
    /// As a query has them: each with its most significant byte first.
    fn bytes(self) -> Vec<u8>;
}

macro_rules! numbers {
    ($($kind:ty),*) => {
        $(impl Numbers for $kind {
            fn bytes(self) -> Vec<u8> {
                self.to_be_bytes().to_vec()
            }
        })*
    };
}

numbers!(u8, u16, u32, u64);

impl<A: Numbers, B: Numbers> Numbers for (A, B) {
    fn bytes(self) -> Vec<u8> {
        [self.0.bytes(), self.1.bytes()].concat()
    }
}

/// A number and its neighbours, where there are any.
pub fn around(number: u64) -> impl Iterator<Item = u64> {
    number.saturating_sub(1)..=number.saturating_add(1)
}
