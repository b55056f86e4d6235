//! Packets: `Packet` of the oracle's packet.rs.

use crate::answer::Answer;
use crate::control;
use crate::function::{compare_constants, Function};
use crate::host;
use crate::kept::{place_and_length, Keeps};
use crate::module::{Module, Plan};
use crate::panics;
use crate::reading::{self, Part, Reading, Readings, Row};
use crate::record::{self, Sample};
use crate::rng::Rng;
use crate::slice;
use crate::tally::Tally;
use mpeg2ts_reader::packet::Packet;

pub const MODULE: Module = Module { name: "packet", count: 10_000_000, compare, record };

const SIZE: usize = Packet::SIZE;
const SYNC: u8 = Packet::SYNC_BYTE;

/// The longest slice that is tried.
const LONGEST: usize = 200;

type Slice = slice::Slice<LONGEST>;

fn compare(plan: &Plan) -> Vec<Tally> {
    let mut tallies = vec![IS_SYNC_BYTE.compare(0..=255)];
    tallies.extend(compare_readings(plan));
    let constants = [SYNC.into(), SIZE as u64];
    tallies.push(compare_constants("packet::SYNC_BYTE and SIZE", constants, host::packet_constants));
    tallies.extend(compare_panics(plan));
    tallies
}

fn record(sample: &mut Sample) {
    let mut rng = Rng::new(record::SEED);
    IS_SYNC_BYTE.record(sample, [0x00, 0x46, 0x47, 0x48, 0xb8, 0xc7, 0xff].into_iter());
    reading::record(sample, &READINGS, corner_packets());
    reading::record(sample, &READINGS, (0..25).map(|_| random_packet(&mut rng)));
}

pub const IS_SYNC_BYTE: Function<u8, 1> = Function {
    code: 0x20,
    name: "packet::is_sync_byte",
    must: &[0],
    library: host::packet_is_sync_byte,
    answer: |byte| Answer::value(Packet::is_sync_byte(byte)),
};

pub const READINGS: [Reading; 10] = [
    Reading::new(0x21, "packet::try_new", &[0, 1, 2], host::PACKET_TRY_NEW, |bytes| {
        sound(bytes, |_| Answer::done(&[]))
    }),
    Reading::new(
        0x22,
        "packet::transport_error_indicator",
        &[0, 1, 2],
        host::PACKET_TRANSPORT_ERROR_INDICATOR,
        |bytes| sound(bytes, |packet| Answer::value(packet.transport_error_indicator())),
    ),
    Reading::new(
        0x23,
        "packet::payload_unit_start_indicator",
        &[0, 1, 2],
        host::PACKET_PAYLOAD_UNIT_START_INDICATOR,
        |bytes| sound(bytes, |packet| Answer::value(packet.payload_unit_start_indicator())),
    ),
    Reading::new(0x24, "packet::transport_priority", &[0, 1, 2], host::PACKET_TRANSPORT_PRIORITY, |bytes| {
        sound(bytes, |packet| Answer::value(packet.transport_priority()))
    }),
    Reading::new(0x25, "packet::pid", &[0, 1, 2], host::PACKET_PID, |bytes| {
        sound(bytes, |packet| Answer::value(u16::from(packet.pid())))
    }),
    Reading::new(
        0x26,
        "packet::transport_scrambling_control",
        &[0, 1, 2],
        host::PACKET_TRANSPORT_SCRAMBLING_CONTROL,
        |bytes| sound(bytes, control::scrambling_control),
    ),
    Reading::new(0x27, "packet::adaptation_control", &[0, 1, 2], host::PACKET_ADAPTATION_CONTROL, |bytes| {
        sound(bytes, control::adaptation_control)
    }),
    Reading::new(0x28, "packet::continuity_counter", &[0, 1, 2], host::PACKET_CONTINUITY_COUNTER, |bytes| {
        sound(bytes, |packet| Answer::value(packet.continuity_counter().count()))
    }),
    Reading::new(0x29, "packet::adaptation_field", &[0, 1, 2, 9], host::PACKET_ADAPTATION_FIELD, |bytes| {
        sound(bytes, |packet| part(bytes, packet.adaptation_field().map(|field| field.kept())))
    }),
    Reading::new(0x2a, "packet::payload", &[0, 1, 2, 9], host::PACKET_PAYLOAD, |bytes| {
        sound(bytes, |packet| part(bytes, packet.payload()))
    }),
];

/// All of it at one call.
pub const ROW: Row = Row::new(
    "packet::fields",
    &[0, 1, 2],
    host::PACKET_FIELDS,
    &[
        Part::Values("packet::transport_error_indicator"),
        Part::Values("packet::payload_unit_start_indicator"),
        Part::Values("packet::transport_priority"),
        Part::Values("packet::pid"),
        Part::Values("packet::continuity_counter"),
        Part::Values("packet::transport_scrambling_control"),
        Part::Values("packet::adaptation_control"),
        Part::Worded("packet::adaptation_field"),
        Part::Worded("packet::payload"),
    ],
);

/// What the oracle reads of a packet. It asserts that the slice has 188 bytes: the answer is 1 where it has not.
fn sound(bytes: &[u8], read: impl FnOnce(&Packet) -> Answer) -> Answer {
    if bytes.len() != SIZE {
        return Answer::refused(1, &[]);
    }
    match Packet::try_new(bytes) {
        Some(packet) => read(&packet),
        None => Answer::refused(2, &[]),
    }
}

/// A part of the packet, or 9 where there is none.
fn part(packet: &[u8], part: Option<&[u8]>) -> Answer {
    match part {
        Some(part) => Answer::done(&place_and_length(packet, part)),
        None => Answer::refused(9, &[]),
    }
}

fn compare_readings(plan: &Plan) -> Vec<Tally> {
    let mut readings = Readings::new(&READINGS, LONGEST).and_row(&ROW);
    let mut rng = plan.rng(1);
    readings.compare_all(corner_packets());
    readings.compare_all(every_length());
    readings.compare_all(every_sync_byte());
    for bytes in [[1, 3], [3, 4], [1, 2]] {
        every_two(bytes, &mut rng, |packet, guard| readings.compare(packet, guard));
    }
    for _ in 0..plan.share(readings.count()) {
        let packet = random_packet(&mut rng);
        readings.compare(&packet, rng.next() as u8);
    }
    readings.into_tallies()
}

/// Of the two ways to make a packet of a slice, one asserts the sync byte too.
fn compare_panics(plan: &Plan) -> [Tally; 2] {
    let mut rng = plan.rng(2);
    let random: Vec<Slice> = (0..panics::COUNT).map(|_| random_packet(&mut rng)).collect();
    let packets = || corner_packets().chain(every_length()).chain(random.iter().copied());
    let tried = |packet: Slice| sound(&packet, |_| Answer::done(&[]));
    let whole = |packet: Slice| if packet.len() == SIZE { Answer::done(&[]) } else { Answer::refused(1, &[]) };
    [
        panics::compare("packet::new", &[0, 1, 2], packets(), tried, |packet| Packet::new(&packet).pid()),
        panics::compare("packet::try_new", &[0, 1], packets(), whole, |packet| Packet::try_new(&packet).is_some()),
    ]
}

// ---- Packets.

/// A packet of bytes that are all the same after its header, with these four bytes after the sync byte.
fn packet(header: [u8; 4], filling: u8) -> Slice {
    Slice::filled(filling, SIZE).with(|bytes| {
        bytes[0] = SYNC;
        bytes[1..5].copy_from_slice(&header);
    })
}

/// Every control with the adaptation field lengths around each bound; each bit of the header alone; slices that are no packets.
fn corner_packets() -> impl Iterator<Item = Slice> {
    const LENGTHS: [u8; 8] = [0, 1, 2, 181, 182, 183, 184, 255];
    let controls = (0..4).flat_map(|control| LENGTHS.map(|length| packet([0x41, 0x00, control << 4, length], 0xff)));
    let bits = (0..24).map(|bit| packet([0; 4], 0x00).with(|bytes| bytes[1 + bit / 8] = 0x80 >> bit % 8));
    let lengths = [0, 1, 4, 187, 189].map(|len| packet([0x00, 0x21, 0x10, 0x00], 0x00).resized(len));
    let syncs = [0x00, 0x46, 0xb8].map(|sync| packet([0x00, 0x21, 0x10, 0x00], 0x00).with(|bytes| bytes[0] = sync));
    controls.chain(bits).chain(lengths).chain(syncs)
}

/// Every length, with the sync byte and without.
fn every_length() -> impl Iterator<Item = Slice> {
    let good = packet([0x41, 0x00, 0x30, 0x07], 0xff);
    [good, good.with(|bytes| bytes[0] = 0x00)]
        .into_iter()
        .flat_map(|slice| (0..=LONGEST).map(move |len| slice.resized(len)))
}

fn every_sync_byte() -> impl Iterator<Item = Slice> {
    (0..=255).map(|sync| packet([0x41, 0x00, 0x30, 0x07], 0xff).with(|bytes| bytes[0] = sync))
}

/// Every value of two bytes of the packet, with the others at random.
fn every_two(at: [usize; 2], rng: &mut Rng, mut take: impl FnMut(&[u8], u8)) {
    for values in 0..=u16::MAX {
        let mut packet = random_sound(rng);
        [packet[at[0]], packet[at[1]]] = values.to_be_bytes();
        take(&packet, rng.next() as u8);
    }
}

fn random_sound(rng: &mut Rng) -> Slice {
    Slice::random(rng, SIZE).with(|bytes| bytes[0] = SYNC)
}

/// Of eight, one of any length, one with any first byte and two damaged; half of the others with an adaptation field as long as
/// the control bits allow or nearly.
fn random_packet(rng: &mut Rng) -> Slice {
    let packet = random_sound(rng);
    match rng.below(8) {
        0 => packet.resized(rng.below(LONGEST + 1)),
        1 => packet.with(|bytes| bytes[0] = rng.next() as u8),
        2 | 3 => damaged(random_good(packet, rng), rng),
        4 | 5 => packet.with(|bytes| bytes[4] = [0, 1, 2, 181, 182, 183, 184, 255][rng.below(8)]),
        _ => packet,
    }
}

/// The packet with control bits and an adaptation field length that go together.
fn random_good(packet: Slice, rng: &mut Rng) -> Slice {
    let (control, length) = [(1, 0), (2, 183), (3, rng.below(183) as u8)][rng.below(3)];
    packet.with(|bytes| {
        bytes[3] = bytes[3] & 0xcf | control << 4;
        bytes[4] = length;
    })
}

/// The packet with one to three bits of its first bytes changed, or a byte more or less.
fn damaged(packet: Slice, rng: &mut Rng) -> Slice {
    match rng.below(8) {
        0 => packet.resized(SIZE - 1 + 2 * rng.below(2)),
        _ => packet.with(|bytes| (0..=rng.below(3)).for_each(|_| bytes[rng.below(6)] ^= 1 << rng.below(8))),
    }
}
