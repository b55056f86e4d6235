//! What was compared, and how it went, for one function.

use crate::answer::{Answer, MOST, NUMBERS};
use crate::host::Reader;
use crate::lent::Lent;
use std::fmt;
use std::time::Instant;

/// How many differences of a function are printed with their input.
const SHOWN: u64 = 5;

/// The most out numbers that a row has.
const LONGEST_ROW: usize = 34;

/// What the library gave for one call.
pub struct Given<'a> {
    /// The word that the entry returned.
    pub word: u32,
    /// The out numbers before the call and after it: a refusal leaves them as they were.
    pub held: &'a [u64],
    pub outs: &'a [u64],
    /// Whether every byte that was lent, and every byte around it, is as it was or as it is to be written.
    pub unchanged: bool,
}

/// A row with a guard on both sides.
#[repr(C)]
struct Guarded<const N: usize> {
    left: u64,
    row: [u64; N],
    right: u64,
}

impl Given<'_> {
    fn agrees(&self, expected: &Answer) -> bool {
        let outs = if expected.number() == 0 { expected.values() } else { self.held };
        self.word == expected.word() && self.outs == outs && self.unchanged
    }
}

/// The parts of the word, then the out numbers: `12 7 0, out numbers as before`.
impl fmt::Display for Given<'_> {
    fn fmt(&self, f: &mut fmt::Formatter<'_>) -> fmt::Result {
        write!(f, "{} {} {}", self.word % 256, self.word / 256 % 256, self.word / 65_536)?;
        match self.outs == self.held {
            true => write!(f, ", out numbers as before")?,
            false => write!(f, ", out numbers {:?}", self.outs)?,
        }
        write!(f, "{}", if self.unchanged { "" } else { ", LENT BYTES CHANGED" })
    }
}

pub struct Tally {
    name: String,
    must: &'static [usize],
    compared: u64,
    by_number: [u64; NUMBERS],
    differ: u64,
    /// Whether what is compared is an answer of the library, which no other tally counts.
    answers: bool,
}

impl Tally {
    /// A tally of the function `name`; each number of `must` has to be among the answers, or too little was compared.
    pub fn new(name: &str, must: &'static [usize]) -> Tally {
        Tally { name: name.to_string(), must, compared: 0, by_number: [0; NUMBERS], differ: 0, answers: true }
    }

    /// A tally of what is expected of the oracle itself: where it panics, and which slices it keeps.
    pub fn of_oracle(name: &str, must: &'static [usize]) -> Tally {
        Tally { answers: false, ..Tally::new(name, must) }
    }

    /// A tally of what the oracle makes of bytes that the library wrote or gathered.
    pub fn of_bytes(name: &str, must: &'static [usize]) -> Tally {
        Tally::of_oracle(name, must)
    }

    /// A tally of a number that stands in answers which another tally counts.
    pub fn beside(name: &str, must: &'static [usize]) -> Tally {
        Tally::of_oracle(name, must)
    }

    /// The answers of the library that were compared.
    pub fn compared(&self) -> u64 {
        if self.answers {
            self.compared
        } else {
            0
        }
    }

    pub fn differ(&self) -> u64 {
        self.differ
    }

    /// What an out number is to hold before the next call: another pattern each time, and none that is a likely answer.
    pub fn held(&self, nth: usize) -> u64 {
        !(self.compared + nth as u64).wrapping_mul(0x9e37_79b9_7f4a_7c15)
    }

    /// Calls an entry on numbers, with N out numbers, and counts its answer.
    pub fn call<const N: usize>(
        &mut self,
        expected: &Answer,
        entry: impl FnOnce(&mut [u64; N]) -> u32,
        input: impl FnOnce() -> String,
    ) {
        self.call_lending(expected, |outs| (entry(outs), true), input);
    }

    /// The same of an entry to which bytes are lent too: beside its word, whether all of them are afterwards what they are to be.
    pub fn call_lending<const N: usize>(
        &mut self,
        expected: &Answer,
        entry: impl FnOnce(&mut [u64; N]) -> (u32, bool),
        input: impl FnOnce() -> String,
    ) {
        let held: [u64; N] = std::array::from_fn(|nth| self.held(nth));
        let mut outs = held;
        let (word, unchanged) = entry(&mut outs);
        self.take(expected, &Given { word, held: &held, outs: &outs, unchanged }, input);
    }

    /// Calls an entry that reads a lent slice, and counts its answer.
    pub fn call_lent(&mut self, expected: &Answer, lent: &mut Lent, reader: &Reader, input: impl FnOnce() -> String) {
        let (held, outs) = (&mut [0; MOST][..reader.outs], &mut [0; MOST][..reader.outs]);
        held.iter_mut().enumerate().for_each(|(nth, number)| *number = self.held(nth));
        outs.copy_from_slice(held);
        let word = reader.call(lent.slice(), outs);
        self.take(expected, &Given { word, held, outs, unchanged: lent.unchanged() }, input);
    }

    /// The same of an entry that gives a row of answers: all of it is refused as `whole` is, or it is these values.
    pub fn call_row(
        &mut self,
        whole: &Answer,
        values: &[u64],
        lent: &mut Lent,
        reader: &Reader,
        input: impl FnOnce() -> String,
    ) {
        let held: [u64; LONGEST_ROW] = std::array::from_fn(|nth| self.held(nth));
        let (held, outs) = (&held[..reader.outs], &mut held.clone()[..reader.outs]);
        let word = reader.call(lent.slice(), outs);
        let row = if whole.number() == 0 { values } else { held };
        let given = Given { word, held, outs, unchanged: lent.unchanged() };
        let agrees = word == whole.word() && given.outs == row && given.unchanged;
        self.take_check(whole, agrees, input, || format!("{given} for {row:?}"));
    }

    /// Calls an entry that fills a row with constants, in place of these numbers.
    pub fn call_filling<const N: usize>(&mut self, constants: &[u64; N], entry: fn(&mut [u64; N]), before: [u64; N]) {
        let guard = self.held(0);
        let mut lent = Guarded { left: guard, row: before, right: guard };
        entry(&mut lent.row);
        let unchanged = (lent.left, lent.right) == (guard, guard);
        let given = Given { word: 0, held: &before, outs: &lent.row, unchanged };
        self.take(&Answer::done(constants), &given, || format!("{before:?}"));
    }

    /// Counts what a call gave; `input` is written out only where the answers differ.
    pub fn take(&mut self, expected: &Answer, given: &Given, input: impl FnOnce() -> String) {
        self.count(expected);
        if !given.agrees(expected) {
            self.report(expected, input, || given.to_string());
        }
    }

    /// Counts whether something is as it is expected to be: the oracle itself, or what it makes of the library's bytes.
    pub fn take_check(
        &mut self,
        expected: &Answer,
        agrees: bool,
        input: impl FnOnce() -> String,
        given: impl FnOnce() -> String,
    ) {
        self.count(expected);
        if !agrees {
            self.report(expected, input, given);
        }
    }

    fn count(&mut self, expected: &Answer) {
        self.compared += 1;
        self.by_number[expected.number() as usize] += 1;
    }

    fn report(&mut self, expected: &Answer, input: impl FnOnce() -> String, given: impl FnOnce() -> String) {
        self.differ += 1;
        if self.differ <= SHOWN {
            crate::differs(&format!("DIFFERS {}: expected {expected}, given {}, of {}", self.name, given(), input()));
        }
    }

    /// The numbers that had to occur and did not.
    fn missing(&self) -> impl Iterator<Item = usize> + '_ {
        self.must.iter().copied().filter(|&number| self.by_number[number] == 0)
    }

    pub fn passed(&self) -> bool {
        self.compared > 0 && self.differ == 0 && self.missing().next().is_none()
    }
}

/// One line: `timestamp::from_bytes: 3,072 compared, 1,024 accepted, 12: 2,048, 0 differ`.
impl fmt::Display for Tally {
    fn fmt(&self, f: &mut fmt::Formatter<'_>) -> fmt::Result {
        write!(f, "{}: {} compared, {} accepted", self.name, grouped(self.compared), grouped(self.by_number[0]))?;
        for (number, &count) in self.by_number.iter().enumerate().skip(1).filter(|(_, &count)| count > 0) {
            write!(f, ", {number}: {}", grouped(count))?;
        }
        write!(f, ", {} differ", grouped(self.differ))?;
        self.missing().try_for_each(|number| write!(f, ", NEVER GAVE {number}"))
    }
}

/// Prints a line for each function and one for all, and says whether nothing differs.
pub fn report(name: &str, began: Instant, tallies: &[Tally]) -> bool {
    tallies.iter().for_each(|tally| println!("{tally}"));
    total(name, began, tallies.iter());
    tallies.iter().all(|tally| tally.differ() == 0)
}

/// Prints what was compared in all, and how long it took.
pub fn total<'a>(name: &str, began: Instant, tallies: impl Iterator<Item = &'a Tally>) {
    let (compared, differ) = tallies.fold((0, 0), |(c, d), tally| (c + tally.compared(), d + tally.differ()));
    let seconds = began.elapsed().as_secs_f64();
    println!("{name}: {} answers compared, {} differ ({seconds:.1} s)", grouped(compared), grouped(differ));
}

/// A number with a comma between groups of three digits.
pub fn grouped(n: u64) -> String {
    let digits = n.to_string();
    let mut text = String::new();
    for (at, digit) in digits.chars().enumerate() {
        if at > 0 && (digits.len() - at) % 3 == 0 {
            text.push(',');
        }
        text.push(digit);
    }
    text
}

/// Bytes as they are printed: lower case hex, no spaces.
pub fn hex(bytes: &[u8]) -> String {
    bytes.iter().map(|byte| format!("{byte:02x}")).collect()
}
