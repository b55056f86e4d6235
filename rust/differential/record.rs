//! A fixed sample of the oracle's answers, for a program that replays them against the library where no Rust is at hand.
//!
//! The file `stdin` has a query to a line, in lower case hex: the function's code, then its arguments: the bytes of the slice that it
//! reads, or its numbers, each with its most significant byte first. The file `stdout` has the answers in the same order: the number
//! and the values, in decimal, with single spaces between them.

use crate::answer::Answer;
use crate::tally::{grouped, hex};
use std::fmt::Write;
use std::path::Path;
use std::{fs, io};

/// The most bytes of a query: the program that replays has room for no more.
const LONGEST: usize = 256;

/// The seed of what is random in the sample: a constant, so that the sample is always the same.
pub const SEED: u64 = 0x5eed;

#[derive(Default)]
pub struct Sample {
    queries: String,
    answers: String,
    count: u64,
}

impl Sample {
    pub fn add(&mut self, code: u8, arguments: &[u8], answer: &Answer) {
        assert!(arguments.len() < LONGEST, "a query of {} bytes is too long", 1 + arguments.len());
        // Writing to a string cannot fail.
        let _ = writeln!(self.queries, "{code:02x}{}", hex(arguments));
        let _ = writeln!(self.answers, "{answer}");
        self.count += 1;
    }

    /// Writes the two files, and says how many answers they have.
    pub fn write(&self, dir: &Path) -> io::Result<()> {
        fs::create_dir_all(dir)?;
        fs::write(dir.join("stdin"), &self.queries)?;
        fs::write(dir.join("stdout"), &self.answers)?;
        println!("recorded {} answers of the oracle", grouped(self.count));
        Ok(())
    }
}
