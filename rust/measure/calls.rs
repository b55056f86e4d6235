//! Calls of one function, for each of many inputs once.

use crate::rng::Rng;
use crate::row::{Row, Side, Work};
use std::hint::black_box;

/// A function that reads a slice, as both sides have it: the word returned, and the value where it is 0.
pub type Entry = unsafe extern "C" fn(buf: *const u8, len: usize, value: *mut u64) -> u32;

#[derive(Clone, Copy)]
pub struct Function {
    pub name: &'static str,
    pub library: Entry,
    pub rust: Entry,
    /// How many inputs there are, and the length of each.
    pub count: usize,
    pub size: usize,
    /// Makes an input of random bytes. None is such that the Rust panics.
    pub make: fn(&mut [u8], &mut Rng, Kind),
    /// The inputs of each row.
    pub rows: &'static [Inputs],
}

#[derive(Clone, Copy, PartialEq)]
pub enum Kind {
    Accepted,
    /// Refused ones too.
    Any,
    /// What broadcasts have, and little else.
    Usual,
}

/// The inputs of a row: their name, and the kinds that they are of, in turns.
pub type Inputs = (&'static str, [Kind; 2]);

pub const ACCEPTED: Inputs = ("accepted", [Kind::Accepted; 2]);
pub const MIXED: Inputs = ("mixed", [Kind::Accepted, Kind::Any]);
pub const USUAL: Inputs = ("usual", [Kind::Usual; 2]);

impl Function {
    pub fn rows(self) -> impl Iterator<Item = Row> {
        self.rows.iter().map(move |&(name, kinds)| {
            Row::new(self.name, format!("{} {name}", self.count), move || Some(Calls::new(self, kinds)))
        })
    }
}

struct Calls {
    function: Function,
    bytes: Vec<u8>,
    sum: u64,
}

impl Calls {
    fn new(function: Function, kinds: [Kind; 2]) -> Calls {
        let mut rng = Rng::new(1);
        let mut bytes = vec![0; function.count * function.size];
        for (nth, input) in bytes.chunks_mut(function.size).enumerate() {
            rng.fill(input);
            (function.make)(input, &mut rng, kinds[nth % 2]);
        }
        Calls { function, bytes, sum: 0 }
    }
}

impl Work for Calls {
    fn units(&self) -> usize {
        self.function.count
    }

    fn run(&mut self, side: Side) {
        let entry = side.choose(self.function.library, self.function.rust, measure_none);
        self.sum = sum_of_calls(black_box(entry), &self.bytes, self.function.size);
    }

    fn sum(&self) -> u64 {
        self.sum
    }
}

/// Found by its name: its own instructions are no part of what the loop costs.
#[no_mangle]
#[inline(never)]
unsafe extern "C" fn measure_none(_buf: *const u8, _len: usize, _value: *mut u64) -> u32 {
    0
}

/// The same loop for every function: the call goes through a pointer that the compiler does not know.
#[inline(never)]
fn sum_of_calls(entry: Entry, bytes: &[u8], size: usize) -> u64 {
    let mut sum = u64::MAX; // not 0, which would stay for the empty function and takes other instructions to print
    for input in bytes.chunks_exact(size) {
        let mut value = 0;
        // The slice and the value are live.
        let word = unsafe { entry(input.as_ptr(), input.len(), &mut value) };
        sum = sum.rotate_left(1) ^ value ^ u64::from(word);
    }
    sum
}
