//! What the sub-commands that write units leave out.

use crate::input::{counted, say, Failure};
use clomaverift::{Error, Found, FoundUnit};

/// What is left out so far.
#[derive(Default)]
pub struct Losses {
    /// Units that were read.
    read: u64,
    breaks: u64,
    dropped: u64,
    /// Units that could not be read or written, and the first of them.
    units: u64,
    first: Option<(u64, Error)>,
    /// Why the header of the open unit was refused: then it is not known where its payload begins.
    refused: Option<Error>,
}

impl Losses {
    /// The unit that was found, if it is one and its header was read. What else was found is counted.
    pub fn unit_of<'a>(&mut self, found: Found<'a>) -> Option<FoundUnit<'a>> {
        match found {
            Found::Begin { header, .. } => self.refused = header.payload().err(),
            Found::ContinuityError { .. } => self.breaks += 1,
            Found::Dropped { .. } => self.dropped += 1,
            Found::StoreFull { index, .. } => self.lose(index, Error::StoreFull),
            Found::Unit(unit) => match self.refused.take() {
                Some(error) => self.lose(unit.index, error),
                None => {
                    self.read += 1;
                    return Some(unit);
                }
            },
            _ => (),
        }
        None
    }

    /// Counts a unit that could not be read or written.
    pub fn lose(&mut self, index: u64, error: Error) {
        self.units += 1;
        self.first.get_or_insert((index, error));
    }

    /// Tells what the recording has and the output has not. Fails if a unit could not be read or written, or if there is none.
    pub fn say(&self) -> Result<(), Failure> {
        if self.breaks > 0 {
            say(&format!("{}: a unit that a break cuts off is left out", counted(self.breaks, "break", "breaks")));
        }
        if self.dropped > 0 {
            say(&format!(
                "{} marked as scrambled or damaged: dropped",
                counted(self.dropped, "packet is", "packets are")
            ));
        }
        let (index, error) = match self.first {
            Some(first) => first,
            None if self.read == 0 => return Err(Failure::Said("no unit was found".to_string())),
            None => return Ok(()),
        };
        let units = counted(self.units, "unit is", "units are");
        say(&format!("{units} not written, the first one at packet {index}: {error}"));
        Err(Failure::Told)
    }
}
