//! What the library reads of a transport stream, for other readers of such streams to be held against.

use crate::host::{self, Reader};
use crate::reading::Reading;
use crate::{adaptation, contents, head, packet, stream};
use mpeg2ts_reader::packet::Packet;
use std::io::{self, BufWriter, Write};

/// Prints a line for each answer that is accepted: the packet's place in the file, the function, the values. A PES header is read
/// where the start flag is set.
pub fn list(file: &str) -> bool {
    let Some(bytes) = stream::read(file) else { return false };
    let mut lines = BufWriter::new(io::stdout().lock());
    let mut packets = bytes.chunks_exact(Packet::SIZE).zip((0..).step_by(Packet::SIZE));
    packets.try_for_each(|(packet, at)| list_packet(&mut lines, at, packet)).and_then(|()| lines.flush()).is_ok()
}

fn list_packet(lines: &mut impl Write, at: usize, packet: &[u8]) -> io::Result<()> {
    list_all(lines, at, &packet::READINGS, packet)?;
    if let Some(field) = part(&host::PACKET_ADAPTATION_FIELD, packet) {
        list_field(lines, at, field)?;
    }
    match part(&host::PACKET_PAYLOAD, packet) {
        Some(payload) if first(&host::PACKET_PAYLOAD_UNIT_START_INDICATOR, packet) == Some(1) => {
            list_header(lines, at, payload)
        }
        _ => Ok(()),
    }
}

fn list_field(lines: &mut impl Write, at: usize, field: &[u8]) -> io::Result<()> {
    list_all(lines, at, &adaptation::FIELD, field)?;
    match part(&host::ADAPTATION_FIELD_EXTENSION, field) {
        Some(extension) => list_all(lines, at, &adaptation::EXTENSION, extension),
        None => Ok(()),
    }
}

fn list_header(lines: &mut impl Write, at: usize, payload: &[u8]) -> io::Result<()> {
    list_all(lines, at, &head::READINGS, payload)?;
    match part(&host::PES_HEADER_CONTENTS, payload) {
        Some(parsed) if first(&host::PES_HEADER_CONTENTS, payload) == Some(1) => {
            list_all(lines, at, &contents::READINGS, parsed)
        }
        _ => Ok(()),
    }
}

fn list_all(lines: &mut impl Write, at: usize, readings: &[Reading], bytes: &[u8]) -> io::Result<()> {
    for reading in readings {
        if let Some(values) = values(reading.library(), bytes) {
            let values: String = values.iter().map(|value| format!(" {value}")).collect();
            writeln!(lines, "{at} {}{values}", reading.name())?;
        }
    }
    Ok(())
}

/// The values that the library gives, where it accepts.
fn values(reader: &Reader, bytes: &[u8]) -> Option<Vec<u64>> {
    let mut outs = vec![0; reader.outs];
    (reader.call(&mut bytes.to_vec(), &mut outs) == 0).then_some(outs)
}

fn first(reader: &Reader, bytes: &[u8]) -> Option<u64> {
    values(reader, bytes)?.first().copied()
}

/// The part of the bytes whose place and length are a reader's last values.
fn part<'a>(reader: &Reader, bytes: &'a [u8]) -> Option<&'a [u8]> {
    match values(reader, bytes)?[..] {
        [.., place, length] => bytes.get(place as usize..)?.get(..length as usize),
        _ => None,
    }
}
