//! Prints the times of a transport stream: `pcr PID PLACE NUMBER` for each program clock reference, at 27 MHz, and `unit PID PLACE PTS DTS`
//! for each unit, at 90 kHz, with `-` for a time that is not there. A place is that of the packet in the file.
//!
//!     cargo run --example times FILE

use clomaverift::{Demux, Found, Packet, PesHeader, PtsDts, Timestamp};
use std::process::ExitCode;

fn shown(time: Option<Timestamp>) -> String {
    time.map_or("-".to_string(), |time| time.value().to_string())
}

fn times(header: &PesHeader<'_>) -> Option<PtsDts> {
    header.contents().parsed().ok()?.pts_dts().ok()
}

fn print(found: Found<'_>) {
    let place = |index: u64| index * Packet::SIZE as u64;
    match found {
        Found::Clock { pid, index, pcr, .. } => println!("pcr {} {} {}", u16::from(pid), place(index), u64::from(pcr)),
        Found::Begin { pid, index, header, .. } => {
            let times = times(&header);
            let pts = shown(times.and_then(|times| times.pts()));
            let dts = shown(times.and_then(|times| times.dts()));
            println!("unit {} {} {pts} {dts}", u16::from(pid), place(index));
        }
        Found::ContinuityError { pid, index, .. } => eprintln!("break {} {}", u16::from(pid), place(index)),
        Found::Refused { index, error, .. } => eprintln!("refused {}: {error}", place(index)),
        _ => (),
    }
}

fn main() -> ExitCode {
    let file = match std::env::args().nth(1) {
        Some(file) => file,
        None => {
            eprintln!("usage: times FILE");
            return ExitCode::from(2);
        }
    };
    match std::fs::read(&file) {
        Ok(recording) => {
            Demux::new().push(&recording, print);
            ExitCode::SUCCESS
        }
        Err(error) => {
            eprintln!("{file}: {error}");
            ExitCode::FAILURE
        }
    }
}
