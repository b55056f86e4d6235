//! Functions that read a slice.

use crate::answer::Answer;
use crate::host::Reader;
use crate::lent::Lent;
use crate::record::Sample;
use crate::tally::{hex, Tally};
use std::ops::Deref;

pub struct Reading {
    /// Its code in the recorded sample.
    code: u8,
    name: &'static str,
    /// The numbers that have to be among its answers.
    must: &'static [usize],
    library: Reader,
    /// The oracle's answer; outside the oracle's domain, the one that the request sets.
    answer: fn(&[u8]) -> Answer,
}

impl Reading {
    pub const fn new(
        code: u8,
        name: &'static str,
        must: &'static [usize],
        library: Reader,
        answer: fn(&[u8]) -> Answer,
    ) -> Reading {
        Reading { code, name, must, library, answer }
    }

    pub fn name(&self) -> &'static str {
        self.name
    }

    pub fn library(&self) -> &Reader {
        &self.library
    }

    /// The oracle's answer.
    pub fn oracle(&self, bytes: &[u8]) -> Answer {
        (self.answer)(bytes)
    }
}

/// An entry that answers several readings at once. It refuses what the first reading of its module refuses; else it gives a row of
/// numbers, which is made of parts.
pub struct Row {
    name: &'static str,
    /// The numbers that have to be among its answers.
    must: &'static [usize],
    library: Reader,
    parts: &'static [Part],
}

/// A part of a row, by the name of the reading that it answers.
pub enum Part {
    /// The values alone, of a reading that refuses nothing that the first does not.
    Values(&'static str),
    /// The word, and the values, which are 0 where the reading is refused.
    Worded(&'static str),
}

impl Row {
    pub const fn new(name: &'static str, must: &'static [usize], library: Reader, parts: &'static [Part]) -> Row {
        Row { name, must, library, parts }
    }
}

/// Functions that are asked of the same slices, with a tally of each.
pub struct Readings {
    readings: &'static [Reading],
    tallies: Vec<Tally>,
    lent: Lent,
    /// Whether the slices are those of a stream, which has what it has: no number has to be among the answers.
    of_streams: bool,
    /// The oracle's answers to the readings, of the slice that is compared.
    answers: Vec<Answer>,
    row: Option<Asked>,
}

/// A row that is asked of the same slices as the readings.
struct Asked {
    library: Reader,
    tally: Tally,
    /// Of each part: the number of its reading, how many values that has, and whether the word stands before them.
    parts: Vec<(usize, usize, bool)>,
    /// What is expected where it is accepted.
    values: Vec<u64>,
}

impl Asked {
    fn new(row: &Row, readings: &[Reading], must: &'static [usize]) -> Asked {
        let parts = row.parts.iter().map(|part| {
            let (name, worded) = match part {
                Part::Values(name) => (name, false),
                Part::Worded(name) => (name, true),
            };
            let nth = readings.iter().position(|reading| reading.name == *name).expect("a reading of this name");
            (nth, readings[nth].library.outs, worded)
        });
        Asked { library: row.library, tally: Tally::new(row.name, must), parts: parts.collect(), values: vec![] }
    }

    /// By the oracle's answers to the readings.
    fn compare(&mut self, answers: &[Answer], lent: &mut Lent, input: impl FnOnce() -> String) {
        if answers[0].number() == 0 {
            self.expect(answers);
        }
        self.tally.call_row(&answers[0], &self.values, lent, &self.library, input);
    }

    fn expect(&mut self, answers: &[Answer]) {
        self.values.clear();
        for &(nth, outs, worded) in &self.parts {
            let answer = &answers[nth];
            self.values.extend(worded.then(|| u64::from(answer.word())));
            match answer.number() {
                0 => self.values.extend(answer.values()),
                _ => self.values.resize(self.values.len() + outs, 0),
            }
        }
    }
}

impl Readings {
    /// Room for slices of up to `most` bytes.
    pub fn new(readings: &'static [Reading], most: usize) -> Readings {
        Readings::with(readings, most, false)
    }

    /// The same, for slices of streams.
    pub fn of_streams(readings: &'static [Reading], most: usize) -> Readings {
        Readings::with(readings, most, true)
    }

    fn with(readings: &'static [Reading], most: usize, of_streams: bool) -> Readings {
        let must = |reading: &Reading| if of_streams { &[] } else { reading.must };
        let tallies = readings.iter().map(|reading| Tally::new(reading.name, must(reading))).collect();
        Readings { readings, tallies, lent: Lent::new(most), of_streams, answers: vec![], row: None }
    }

    /// With the entry that answers them at once.
    pub fn and_row(self, row: &Row) -> Readings {
        let asked = Asked::new(row, self.readings, if self.of_streams { &[] } else { row.must });
        Readings { row: Some(asked), ..self }
    }

    /// How many functions there are.
    pub fn count(&self) -> u64 {
        (self.readings.len() + usize::from(self.row.is_some())) as u64
    }

    pub fn compare(&mut self, bytes: &[u8], guard: u8) {
        let input = || format!("[{}] between {guard:02x}", hex(bytes));
        self.lent.set(bytes, guard);
        self.answers.clear();
        for (reading, tally) in self.readings.iter().zip(&mut self.tallies) {
            let answer = reading.oracle(bytes);
            tally.call_lent(&answer, &mut self.lent, &reading.library, input);
            self.answers.push(answer);
        }
        if let Some(asked) = &mut self.row {
            asked.compare(&self.answers, &mut self.lent, input);
        }
    }

    /// Compares each slice twice: with guard bytes whose bits are all clear, and with guard bytes whose bits are all set.
    pub fn compare_all(&mut self, slices: impl Iterator<Item = impl Deref<Target = [u8]>>) {
        for slice in slices {
            self.compare(&slice, 0x00);
            self.compare(&slice, 0xff);
        }
    }

    pub fn into_tallies(self) -> Vec<Tally> {
        self.tallies.into_iter().chain(self.row.map(|asked| asked.tally)).collect()
    }
}

/// Adds the answers of each function to each slice.
pub fn record(sample: &mut Sample, readings: &[Reading], slices: impl Iterator<Item = impl Deref<Target = [u8]>>) {
    for slice in slices {
        for reading in readings {
            sample.add(reading.code, &slice, &reading.oracle(&slice));
        }
    }
}
