//! An answer: its number (0 done, 1 to 20 a refusal) and the values given with it.

use std::fmt;

/// The most values that an answer has.
pub const MOST: usize = 9;

/// How many numbers there are: 0 to 20.
pub const NUMBERS: usize = 21;

#[derive(Clone, Copy, Debug, PartialEq)]
pub struct Answer {
    number: u32,
    count: usize,
    values: [u64; MOST],
}

impl Answer {
    pub fn done(values: &[u64]) -> Answer {
        Answer::new(0, values)
    }

    /// Done, with one value.
    pub fn value(value: impl Into<u64>) -> Answer {
        Answer::done(&[value.into()])
    }

    /// A refusal with the numbers named with it, at most two, each below 256.
    pub fn refused(number: u32, named: &[u64]) -> Answer {
        debug_assert!(number != 0 && (number as usize) < NUMBERS && named.len() <= 2);
        Answer::new(number, named)
    }

    fn new(number: u32, values: &[u64]) -> Answer {
        let mut answer = Answer { number, count: values.len(), values: [0; MOST] };
        answer.values[..values.len()].copy_from_slice(values);
        answer
    }

    pub fn number(&self) -> u32 {
        self.number
    }

    pub fn values(&self) -> &[u64] {
        &self.values[..self.count]
    }

    /// What an entry of the library returns for this answer: the number, plus 256 times the first and 65,536 times the second
    /// number named with a refusal.
    pub fn word(&self) -> u32 {
        match self.number {
            0 => 0,
            number => number + 256 * self.values[0] as u32 + 65_536 * self.values[1] as u32,
        }
    }
}

/// The number and the values, with single spaces between them: `0 90000`, `12 23`, `1`.
impl fmt::Display for Answer {
    fn fmt(&self, f: &mut fmt::Formatter<'_>) -> fmt::Result {
        write!(f, "{}", self.number)?;
        self.values().iter().try_for_each(|value| write!(f, " {value}"))
    }
}
