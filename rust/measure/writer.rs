//! The writer over the longest payload, in a unit with every field. The Rust copies the payload once, in pieces of 184 bytes, as the
//! oracle has no writer.

use crate::host_writer::{self, Unit};
use crate::rng::Rng;
use crate::row::{Row, Side, Work};
use mpeg2ts_reader::packet::Packet;
use std::hint::black_box;

/// The most bytes of payload that a unit has, and how many packets it takes with every field.
const PAYLOAD: usize = 65_536;
const PACKETS: usize = 357;

/// What a packet carries without an adaptation field, and where.
const PLACE: usize = 4;
const PIECE: usize = Packet::SIZE - PLACE;

const UNITS: usize = 1_000;

pub fn row() -> Row {
    Row::new("writer, a byte of payload", format!("{UNITS} units of {PAYLOAD}"), || Some(Written::new()))
}

struct Written {
    unit: Unit,
    payload: Vec<u8>,
    out: Vec<u8>,
}

impl Written {
    fn new() -> Written {
        let (mut payload, out) = (vec![0; PAYLOAD], vec![0; PACKETS * Packet::SIZE]);
        Rng::new(1).fill(&mut payload);
        Written { unit: unit(), payload, out }
    }
}

impl Work for Written {
    fn units(&self) -> usize {
        UNITS * PAYLOAD
    }

    /// The same loop for every side: the call goes through a pointer that the compiler does not know.
    fn run(&mut self, side: Side) {
        let write: fn(&mut Unit, &mut [u8], &mut [u8]) = black_box(side.choose(library, rust, |_, _, _| ()));
        (0..UNITS).for_each(|_| write(&mut self.unit, &mut self.payload, black_box(&mut self.out)));
    }

    /// The two sides give different bytes: there is nothing to compare.
    fn sum(&self) -> u64 {
        0
    }
}

/// A unit with every field and no bound.
fn unit() -> Unit {
    Unit {
        pid: 256,
        id: 0xe0,
        alignment: 1,
        times: 2,
        pts: 90_000,
        dts: 86_400,
        escr_there: 1,
        escr_base: 80_000,
        rate_there: 1,
        rate: 50_000,
        trick_there: 1,
        copy_there: 1,
        crc_there: 1,
        ..Unit::default()
    }
}

fn library(unit: &mut Unit, payload: &mut [u8], out: &mut [u8]) {
    let mut count = [0];
    let word = host_writer::write(unit, payload, out, &mut count);
    assert!((word, count) == (0, [PACKETS as u64]), "the unit was not written");
}

/// The pieces are a little more than the packets carry of the payload, as the header takes its part of the first packet.
fn rust(_: &mut Unit, payload: &mut [u8], out: &mut [u8]) {
    let packets = out.chunks_exact_mut(Packet::SIZE);
    for (piece, packet) in payload.chunks(PIECE).zip(packets) {
        packet[PLACE..][..piece.len()].copy_from_slice(piece);
    }
}
