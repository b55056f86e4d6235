//! Reads a recording in both modes and prints, for each PID that has breaks or repeats, how many breaks each mode finds and how many packets
//! the standard mode drops as repeats. If a station sends packets twice, its breaks are in the first number alone. A stream that a break
//! announces, which the crate's mode never does, is named so.
//!
//!     cargo run --example standard FILE

use clomaverift::{Demux, Found, Mode, Pid};
use std::collections::BTreeMap;
use std::error::Error;

#[derive(Default)]
struct Counts {
    /// In the crate's mode and in the standard mode.
    breaks: [u64; 2],
    repeats: u64,
    announced_by_break: bool,
}

impl Counts {
    fn print(&self, pid: Pid) {
        let [in_crate, in_standard] = self.breaks;
        print!("{pid}: breaks {in_crate} in the crate's mode, {in_standard} in the standard mode; ");
        println!("repeats {}{}", self.repeats, if self.announced_by_break { "; announced by a break" } else { "" });
    }
}

fn count(recording: &[u8]) -> BTreeMap<Pid, Counts> {
    let mut counts: BTreeMap<Pid, Counts> = BTreeMap::new();
    for (place, mode) in [Mode::Crate, Mode::Standard].into_iter().enumerate() {
        Demux::new().mode(mode).push(recording, |found| match found {
            Found::ContinuityError { pid, .. } => counts.entry(pid).or_default().breaks[place] += 1,
            Found::Repeated { pid, .. } => counts.entry(pid).or_default().repeats += 1,
            Found::StartStream { pid, by_break: true, .. } => counts.entry(pid).or_default().announced_by_break = true,
            _ => (),
        });
    }
    counts
}

fn main() -> Result<(), Box<dyn Error>> {
    let words: Vec<String> = std::env::args().skip(1).collect();
    let file = match &words[..] {
        [file] => file,
        _ => return Err("usage: standard FILE".into()),
    };
    count(&std::fs::read(file)?).iter().for_each(|(pid, counts)| counts.print(*pid));
    Ok(())
}
