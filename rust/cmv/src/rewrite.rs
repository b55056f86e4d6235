//! The units of a PID, written anew.

use crate::input::Failure;
use crate::losses::Losses;
use crate::options::Options;
use crate::table::standard_output;
use clomaverift::{Error, Found, FoundUnit, Packet, PesHeader, PesLength, Unit};
use std::io::Write;

/// The units so far.
#[derive(Default)]
struct Writer {
    /// The header of the unit that is open.
    opened: Option<Unit>,
    counter: u8,
    out: Vec<u8>,
    losses: Losses,
}

impl Writer {
    fn found(&mut self, found: Found<'_>) {
        if let Found::Begin { pid, header, .. } = found {
            self.opened = Some(unit_of(pid.into(), &header));
        }
        if let Some(unit) = self.losses.unit_of(found) {
            self.unit(&unit);
        }
    }

    fn unit(&mut self, found: &FoundUnit<'_>) {
        let written =
            self.opened.take().map_or(Err(Error::BadField), |unit| unit.counter(self.counter).packets(found.payload));
        match written {
            Ok(packets) => {
                self.counter = (self.counter + (packets.len() / Packet::SIZE % 16) as u8) % 16;
                self.out.extend(packets);
            }
            Err(error) => self.losses.lose(found.index, error),
        }
    }
}

/// A unit with the fields of this header.
fn unit_of(pid: u16, header: &PesHeader<'_>) -> Unit {
    let id = header.stream_id();
    // Only video may do without a length.
    let unbounded = header.pes_packet_length() == PesLength::Unbounded && id.video().is_some();
    let unit = Unit::new(pid, id.number()).bounded(!unbounded);
    header.contents().parsed().map_or(unit, |contents| unit.fields_of(&contents))
}

pub fn run(options: Options) -> Result<(), Failure> {
    let mut demux = options.demux();
    let mut writer = Writer::default();
    let mut out = standard_output();
    let tally = options.input.each(|_, bytes, _| {
        demux.push(bytes, |found| writer.found(found));
        out.write_all(&writer.out)?;
        writer.out.clear();
        Ok(())
    })?;
    demux.finish(|found| writer.found(found));
    out.write_all(&writer.out)?;
    out.flush()?;
    let said = writer.losses.say();
    tally.check().and(said)
}
