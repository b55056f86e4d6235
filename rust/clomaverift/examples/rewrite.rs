//! Writes the units of a recording anew with the library's writer, every field of their headers as it was, after the recording's first
//! tables, to standard output: what other programs read of the two has to agree. Units that the writer does not take (more than 65,536
//! bytes, a stream id with a bare payload) are left out.
//!
//!     cargo run --example rewrite FILE

use clomaverift::{Demux, Found, FoundUnit, Packet, PesHeader, PesParsedContents, Unit};
use std::collections::{BTreeMap, BTreeSet};
use std::error::Error;
use std::io::Write;

/// Longer bounded units do not fit their length field, and only video may do without.
const LONGEST_BOUNDED: usize = 65_000;

/// What follows the head of the unit that begins with this packet of the recording.
fn contents_at(recording: &[u8], index: u64) -> Option<PesParsedContents<'_>> {
    let bytes = recording.chunks_exact(Packet::SIZE).nth(index.try_into().ok()?)?;
    PesHeader::from_bytes(Packet::try_new(bytes).ok()?.payload()?).ok()?.contents().parsed().ok()
}

/// The units in their order, each PID with counters of its own.
#[derive(Default)]
struct Writer {
    counters: BTreeMap<u16, u8>,
    out: Vec<u8>,
    left_out: usize,
}

impl Writer {
    fn unit(&mut self, found: &FoundUnit<'_>, contents: Option<PesParsedContents<'_>>) {
        let pid = u16::from(found.pid);
        let counter = self.counters.entry(pid).or_default();
        let unit =
            Unit::new(pid, found.stream_id.number()).counter(*counter).bounded(found.payload.len() <= LONGEST_BOUNDED);
        let unit = contents.map_or(unit, |contents| unit.fields_of(&contents));
        match unit.packets(found.payload) {
            Ok(packets) => {
                *counter = (*counter + (packets.len() / Packet::SIZE % 16) as u8) % 16;
                self.out.extend(packets);
            }
            Err(_) => self.left_out += 1,
        }
    }
}

/// The first packet of each PID that has no units: its tables.
fn tables(recording: &[u8], with_units: &BTreeSet<u16>) -> Vec<u8> {
    let mut seen = BTreeSet::new();
    let packets = recording.chunks_exact(Packet::SIZE).filter(|bytes| {
        Packet::try_new(bytes).map_or(false, |packet| {
            let pid = u16::from(packet.pid());
            !with_units.contains(&pid) && seen.insert(pid)
        })
    });
    packets.flatten().copied().collect()
}

fn rewrite(file: &str) -> Result<(), Box<dyn Error>> {
    let recording = std::fs::read(file)?;
    let mut demux = Demux::new();
    let mut writer = Writer::default();
    let mut tell = |found: Found<'_>| {
        if let Found::Unit(unit) = found {
            writer.unit(&unit, contents_at(&recording, unit.index));
        }
    };
    demux.push(&recording, &mut tell);
    demux.finish(&mut tell);
    let with_units = writer.counters.keys().copied().collect();
    let mut out = std::io::stdout().lock();
    out.write_all(&tables(&recording, &with_units))?;
    out.write_all(&writer.out)?;
    out.flush()?;
    eprintln!("{} units left out", writer.left_out);
    Ok(())
}

fn main() -> Result<(), Box<dyn Error>> {
    match &std::env::args().skip(1).collect::<Vec<_>>()[..] {
        [file] => rewrite(file),
        _ => Err("usage: rewrite FILE".into()),
    }
}
