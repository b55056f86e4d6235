//! The packets of a unit, bit by bit, by the standard's tables: for the bits that no reader of the oracle looks at, which are
//! markers, reserved bits and stuffing.

use crate::host_writer::Unit;
use crate::unit::CARRIED;

/// Makes `packets` those of a permitted unit with this payload.
pub fn write(packets: &mut Vec<u8>, unit: &Unit, payload: &[u8]) {
    packets.clear();
    let header = header(unit, payload.len());
    let (begun, rest) = payload.split_at(payload.len().min(CARRIED - header.len()));
    put_packet(packets, unit, 0, &[header.as_slice(), begun]);
    rest.chunks(CARRIED).zip(1..).for_each(|(part, nth)| put_packet(packets, unit, nth, &[part]));
}

/// A packet that carries the parts, one after another.
fn put_packet(packets: &mut Vec<u8>, unit: &Unit, nth: usize, parts: &[&[u8]]) {
    let size: usize = parts.iter().map(|part| part.len()).sum();
    let (start, field) = (u64::from(nth == 0), u64::from(size < CARRIED));
    let counter = (u64::from(unit.counter) + nth as u64) % 16;
    packets.extend(bytes(&[(8, 0x47), (1, 0), (1, start), (1, 0), (13, unit.pid.into())]));
    packets.extend(bytes(&[(2, 0), (1, field), (1, 1), (4, counter)]));
    if size < CARRIED {
        put_field(packets, CARRIED - 1 - size);
    }
    parts.iter().for_each(|part| packets.extend_from_slice(part));
}

/// An adaptation field of this length that is only there to fill the packet.
fn put_field(packets: &mut Vec<u8>, length: usize) {
    packets.push(length as u8);
    let end = packets.len() + length;
    if length > 0 {
        packets.push(0x00);
    }
    packets.resize(end, 0xff);
}

fn header(unit: &Unit, size: usize) -> Vec<u8> {
    let there = |flag: u64| u64::from(flag != 0);
    let times = [0b00, 0b10, 0b11][unit.times as usize];
    let mut bits = vec![(24, 1), (8, unit.id), (16, unit.length(size) as u64), (2, 0b10), (2, 0)];
    bits.extend([unit.priority, unit.alignment, unit.copyright, unit.original].map(|flag| (1, there(flag))));
    bits.push((2, times));
    let flags = [unit.escr_there, unit.rate_there, unit.trick_there, unit.copy_there, unit.crc_there, 0];
    bits.extend(flags.map(|flag| (1, there(flag))));
    bits.push((8, unit.data() as u64));
    match unit.times {
        0 => (),
        1 => bits.extend(time(0b0010, unit.pts)),
        _ => bits.extend([time(0b0011, unit.pts), time(0b0001, unit.dts)].concat()),
    }
    if unit.escr_there != 0 {
        bits.extend(escr(unit));
    }
    if unit.rate_there != 0 {
        bits.extend([(1, 1), (22, unit.rate), (1, 1)]);
    }
    if unit.trick_there != 0 {
        bits.push((8, unit.trick));
    }
    if unit.copy_there != 0 {
        bits.extend([(1, 1), (7, unit.copy)]);
    }
    if unit.crc_there != 0 {
        bits.push((16, unit.crc));
    }
    bytes(&bits)
}

/// A number of so many bits.
type Bits = (u32, u64);

/// A prefix, then the parts of a time with a marker after each.
fn time(prefix: u64, time: u64) -> [Bits; 7] {
    let [high, middle, low] = parts(time);
    [(4, prefix), (3, high), (1, 1), (15, middle), (1, 1), (15, low), (1, 1)]
}

/// Two reserved bits, then the parts of the base and the extension with a marker after each.
fn escr(unit: &Unit) -> [Bits; 9] {
    let [high, middle, low] = parts(unit.escr_base);
    [(2, 0b11), (3, high), (1, 1), (15, middle), (1, 1), (15, low), (1, 1), (9, unit.escr_extension), (1, 1)]
}

/// Bits 32 to 30, 29 to 15 and 14 to 0.
fn parts(time: u64) -> [u64; 3] {
    [time >> 30, time >> 15 & 0x7fff, time & 0x7fff]
}

/// The numbers one after another, each with its most significant bit first; they fill whole bytes.
fn bytes(numbers: &[Bits]) -> Vec<u8> {
    let (mut bytes, mut held, mut width) = (vec![], 0_u64, 0);
    for (bits, number) in numbers {
        held = held << bits | number;
        width += bits;
        while width >= 8 {
            width -= 8;
            bytes.push((held >> width) as u8);
            held &= (1 << width) - 1;
        }
    }
    assert!(width == 0, "the numbers fill no whole bytes");
    bytes
}
