//! Where the oracle panics: held against the oracle alone, as no entry of the library panics.

use crate::answer::Answer;
use crate::tally::Tally;
use std::fmt::Debug;
use std::panic::{self, AssertUnwindSafe};

/// How many random inputs are tried: a panic takes long.
pub const COUNT: usize = 2_000;

/// Compares that the oracle panics for exactly the inputs whose answer is a refusal.
pub fn compare<T: Copy + Debug, R>(
    name: &str,
    must: &'static [usize],
    inputs: impl Iterator<Item = T>,
    answer: fn(T) -> Answer,
    oracle: impl Fn(T) -> R,
) -> Tally {
    let mut tally = Tally::of_oracle(&format!("{name}, where the Rust asserts"), must);
    let hook = panic::take_hook();
    panic::set_hook(Box::new(|_| ()));
    for input in inputs {
        let panicked = panic::catch_unwind(AssertUnwindSafe(|| oracle(input))).is_err();
        let expected = answer(input);
        let agrees = panicked == (expected.number() != 0);
        tally.take_check(&expected, agrees, || format!("{input:?}"), || format!("a panic: {panicked}"));
    }
    panic::set_hook(hook);
    tally
}
