//! Writes the payload of a PID's units to standard output: its elementary stream.
//!
//!     cargo run --example payload FILE PID

use clomaverift::{Demux, Found, Pid};
use std::error::Error;
use std::io::Write;

fn write_payload(file: &str, pid: &str) -> Result<(), Box<dyn Error>> {
    let recording = std::fs::read(file)?;
    let mut demux = Demux::new().only(&[Pid::new(pid.parse()?)?]);
    let mut payload = Vec::new();
    let mut keep = |found: Found<'_>| match found {
        Found::Unit(unit) => payload.extend(unit.payload),
        Found::ContinuityError { index, .. } => eprintln!("packet {index}: continuity error"),
        _ => (),
    };
    demux.push(&recording, &mut keep);
    demux.finish(&mut keep);
    std::io::stdout().write_all(&payload)?;
    Ok(())
}

fn main() -> Result<(), Box<dyn Error>> {
    let words: Vec<String> = std::env::args().skip(1).collect();
    match &words[..] {
        [file, pid] => write_payload(file, pid),
        _ => Err("usage: payload FILE PID".into()),
    }
}
