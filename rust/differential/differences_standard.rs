//! The second table of docs/DIFFERENCES.md: functions of which the answers are equal, and not what the standard says. The oracle's answer
//! is told as the library tells it. Each input stands beside the standard's own rule, by the bits of its tables: an input that the
//! standard reads as both sides do shows nothing.

use crate::answer::Answer;
use crate::consumer::{Oracle, SIZE};
use crate::differences_calls::{
    call_of, listed, machine, made, number_of, read, steps, text, values, Bytes, Call, Kind, Shown,
};
use crate::differences_calls::{CLOCK, EVERY, FIELD, PACKET, PACKETS, STAMP, UNIT};
use crate::gatherer::Gatherer;
use crate::host;
use crate::host_gather::Gathering;
use crate::host_writer::{self, Unit};
use crate::reading::Reading;
use crate::{adaptation, contents, control, head, packet, timestamp};
use mpeg2ts_reader::packet::Packet;
use mpeg2ts_reader::pes::{PesContents, PesHeader, Timestamp};

pub fn calls() -> Vec<Call> {
    let mut calls = vec![
        call_of(
            "Timestamp::from_u64",
            number_of(),
            vec![("8,589,934,592 (2^33)", |&number| number >= 1 << 33)],
            |&number| Answer::value(Timestamp::from_u64(number).value()).to_string(),
            |&number| made(|outs| host::timestamp_from_u64(number, outs)),
        ),
        reading(
            "Timestamp::from_bytes",
            STAMP,
            vec![("01 00 01 00 01", |stamp| ![0b0010, 0b0011, 0b0001].contains(&bits(stamp, 0, 4)))],
            &timestamp::READINGS,
            "timestamp::from_bytes",
        ),
        reading(
            "ClockRef::from_slice",
            CLOCK,
            vec![
                ("00 00 00 00 7F 2C", |clock| bits(clock, 39, 9) > 299),
                ("00 00 00 00 00 00", |clock| bits(clock, 33, 6) != 0b11_1111),
            ],
            &control::READINGS,
            "clock_ref::from_slice",
        ),
        reading(
            "Packet::adaptation_field",
            PACKET,
            vec![
                ("47 01 00 30 00 183×FF", |packet| control_of(packet) == 0b11 && packet[4] == 0),
                ("47 01 00 30 B7 183×FF", |packet| control_of(packet) == 0b11 && packet[4] > 182),
                ("47 01 00 20 01 183×FF", |packet| control_of(packet) == 0b10 && packet[4] != 183),
                ("47 01 00 30 02 00 00 181×FF", |packet| packet[4] == 2 && packet[5] == 0 && packet[6] != 0xff),
            ],
            &packet::READINGS,
            "packet::adaptation_field",
        ),
    ];
    calls.extend(of_fields());
    calls.extend(of_headers());
    calls.extend(of_streams());
    calls
}

// ---- The standard's tables.

/// The number of so many bits from this one on, the first being 0.
fn bits(bytes: &[u8], from: usize, width: usize) -> u64 {
    (from..from + width).fold(0, |number, at| number << 1 | u64::from(bytes[at / 8] >> (7 - at % 8) & 1))
}

/// The adaptation_field_control of a packet: a field is the first bit, a payload the second.
fn control_of(packet: &[u8]) -> u64 {
    bits(packet, 26, 2)
}

fn starts(packet: &[u8]) -> bool {
    bits(packet, 9, 1) == 1
}

/// The payload of a packet that has one.
fn payload_of(packet: &[u8]) -> &[u8] {
    match control_of(packet) {
        0b11 => &packet[5 + usize::from(packet[4])..],
        _ => &packet[4..],
    }
}

/// Whether the second counter is the one that follows a payload's.
fn follows(packets: &[Bytes]) -> bool {
    bits(&packets[1], 28, 4) == (bits(&packets[0], 28, 4) + 1) % 16
}

/// Whether the header data of a PES packet ends past these bytes of it.
fn header_goes_on(pes: &[u8]) -> bool {
    9 + usize::from(pes[8]) > pes.len()
}

// ---- Adaptation fields, without their length byte, and their extensions.

fn of_fields() -> Vec<Call> {
    vec![
        of_field("splice_countdown", vec![("04 FF", |field| field[0] == 0x04 && field[1] >= 0x80)]),
        of_field(
            "adaptation_field_extension",
            vec![
                ("01 00", |field| field[0] == 0x01 && field[1] == 0),
                ("01 01 10", |field| bits(&field[2..], 4, 4) != 0b1111),
                ("01 03 0F 02 00", |field| bits(&field[2..], 3, 1) == 0),
            ],
        ),
        of_extension(
            "piecewise_rate",
            vec![
                ("5F C0 00 01", |extension| bits(extension, 0, 2) == 0b01),
                ("DF FF FF 00 00 01", |extension| bits(extension, 0, 2) == 0b11 && bits(extension, 24, 2) != 0b11),
            ],
        ),
        of_extension("seamless_splice", vec![("3F 11 00 01 00 01", |extension| bits(extension, 8, 4) != 0)]),
    ]
}

// ---- PES headers: heads, and parsed contents, whose fields begin at bit 24.

fn of_headers() -> Vec<Call> {
    vec![
        of_head("pes_packet_length", vec![("00 00 01 C0 00 00", |head| head[4..6] == [0, 0] && head[3] >> 4 != 0xe)]),
        of_head(
            "contents",
            vec![
                ("00 00 01 00 00 00", |head| head[3] < 0xbc),
                ("00 00 01 C0 00 03 80 00 00 FF", |head| head.len() as u64 > 6 + bits(head, 32, 16)),
            ],
        ),
        of_contents("from_bytes", vec![("80 00 01", |contents| 3 + usize::from(contents[2]) > contents.len())]),
        of_contents(
            "copyright",
            vec![
                ("82 00 00", |contents| bits(contents, 6, 1) == 1),
                ("80 00 00", |contents| bits(contents, 6, 1) == 0),
            ],
        ),
        of_contents(
            "dsm_trick_mode",
            vec![
                ("80 08 01 3F", |contents| bits(contents, 24, 3) == 1 && bits(contents, 27, 5) != 1),
                ("80 08 01 9F", |contents| bits(contents, 24, 3) == 4 && bits(contents, 27, 5) != 4),
                ("80 08 01 BF", |contents| bits(contents, 24, 3) == 5 && bits(contents, 27, 5) != 5),
                ("80 08 01 18", |contents| bits(contents, 24, 3) == 0 && bits(contents, 27, 2) == 0b11),
            ],
        ),
        of_contents(
            "pts_dts",
            vec![
                ("80 40 00", |contents| bits(contents, 8, 2) == 0b01),
                ("80 80 05 01 00 01 00 01", |contents| bits(contents, 24, 4) != 0b0010),
                ("80 C0 0A 01 00 01 00 01 01 00 01 00 01", |contents| {
                    bits(contents, 24, 4) != 0b0011 && bits(contents, 64, 4) != 0b0001
                }),
            ],
        ),
        of_contents(
            "escr",
            vec![
                ("80 20 06 C0 00 00 00 00 00", |contents| {
                    [29, 45, 61, 71].iter().all(|at| bits(contents, *at, 1) == 0)
                }),
                ("80 20 06 04 00 04 00 04 01", |contents| bits(contents, 24, 2) != 0b11),
                ("80 20 06 C4 00 04 00 06 59", |contents| bits(contents, 62, 9) > 299),
            ],
        ),
        of_contents(
            "es_rate",
            vec![
                ("80 10 03 00 00 02", |contents| bits(contents, 24, 1) == 0 && bits(contents, 47, 1) == 0),
                ("80 10 03 80 00 01", |contents| bits(contents, 25, 22) == 0),
            ],
        ),
        // That the field is there is all that its bytes can show: the packet before is not among them.
        of_contents("previous_pes_packet_crc", vec![("80 02 02 00 00", |contents| bits(contents, 14, 1) == 1)]),
        of_contents("pes_extension", vec![("80 01 00", |contents| bits(contents, 15, 1) == 1 && contents[2] == 0)]),
        of_contents(
            "payload",
            vec![
                ("80 00 01 00", |contents| contents[1] == 0 && contents[3] != 0xff),
                ("80 00 21 33×FF", |contents| contents[1] == 0 && contents[2] > 32),
                ("90 00 00 FF", |contents| bits(contents, 2, 2) != 0b00),
            ],
        ),
    ]
}

// ---- Streams: the machine, the gathering store and the writer.

fn of_streams() -> Vec<Call> {
    vec![
        call_of(
            "PesPacketFilter::consume",
            PACKETS,
            vec![
                ("47 01 00 00 184×FF; 47 01 00 01 184×FF", |packets| {
                    packets.iter().all(|packet| control_of(packet) == 0)
                }),
                ("47 01 00 10 184×FF; 47 01 00 30 B7 183×FF", |packets| packets[1][4] > 182),
                ("47 41 00 30 B2 00 177×FF 00 00 01 E0 00; 47 01 00 11 00 80 00 00 180×FF", |packets| {
                    starts(&packets[0]) && payload_of(&packets[0]).len() < 6
                }),
                ("47 41 00 30 AE 00 173×FF 00 00 01 E0 00 00 80 00 01; 47 01 00 11 184×FF", |packets| {
                    starts(&packets[0]) && header_goes_on(payload_of(&packets[0]))
                }),
                ("47 01 00 10 184×FF; 47 01 00 10 184×FF", |packets| {
                    packets[0] == packets[1] && control_of(&packets[0]) == 0b01
                }),
                ("47 01 00 10 184×FF; 47 01 00 35 01 80 182×FF", |packets| {
                    !follows(packets) && control_of(&packets[1]) == 0b11 && bits(&packets[1], 40, 1) == 1
                }),
                ("47 1F FF 10 184×FF; 47 1F FF 10 184×FF", |packets| {
                    !follows(packets) && packets.iter().all(|packet| bits(packet, 11, 13) == 0x1fff)
                }),
                ("47 01 00 10 184×FF; 47 41 00 12 00 00 01 E0 180×FF", |packets| {
                    !follows(packets) && !starts(&packets[0]) && starts(&packets[1])
                }),
                ("47 41 00 20 B7 00 182×FF", |packets| starts(&packets[0]) && control_of(&packets[0]) == 0b10),
                ("47 41 00 50 00 00 01 E0 180×FF", |packets| {
                    bits(&packets[0], 24, 2) != 0b00 && control_of(&packets[0]) == 0b01
                }),
                ("47 C1 00 10 00 00 01 E0 180×FF", |packets| {
                    bits(&packets[0], 8, 1) == 1 && control_of(&packets[0]) == 0b01
                }),
            ],
            |packets| {
                let mut oracle = Oracle::new();
                listed(&packets.iter().map(|packet| oracle.consume(packet).to_vec()).collect::<Vec<_>>())
            },
            |packets| machine(packets),
        ),
        call_of(
            "gather",
            PACKETS,
            vec![("47 41 00 30 AE 00 173×FF 00 00 01 E0 00 00 80 00 01; 47 01 00 11 184×FF", |packets| {
                starts(&packets[0]) && header_goes_on(payload_of(&packets[0]))
            })],
            |packets| {
                let mut oracle = Oracle::heard_by(Gatherer::new(usize::MAX));
                packets.iter().for_each(|packet| oracle.take(packet));
                unit_of(oracle.listener().bytes.len())
            },
            |packets| gathered(packets),
        ),
        call_of(
            "write",
            UNIT,
            vec![("a unit with copyright bit 1", |unit| unit.copyright == 1)],
            written_original,
            written_here,
        ),
    ]
}

// ---- Readings of the driver's.

/// A reading of the driver's, by its name there.
fn reading(
    name: &'static str,
    kind: Kind<Bytes>,
    inputs: Vec<Shown<Bytes>>,
    readings: &'static [Reading],
    of: &str,
) -> Call {
    let reading = readings.iter().find(|reading| reading.name() == of).expect("a reading of this name");
    let here = |bytes: &Bytes| read(reading.library(), bytes);
    call_of(name, kind, inputs, |bytes| reading.oracle(bytes).to_string(), here)
}

/// Makes a function that has readings of one type: `function = its type, its kind, the driver's readings and their prefix`.
macro_rules! readings_of {
    ($($function:ident = $name:literal, $kind:ident, $readings:expr, $prefix:literal;)*) => {
        $(fn $function(method: &str, inputs: Vec<Shown<Bytes>>) -> Call {
            let name = format!(concat!($name, "::{}"), method).leak();
            reading(name, $kind, inputs, &$readings, &format!(concat!($prefix, "::{}"), method))
        })*
    };
}

readings_of! {
    of_field = "AdaptationField", FIELD, adaptation::FIELD, "adaptation_field";
    of_extension = "AdaptationFieldExtension", EVERY, adaptation::EXTENSION, "adaptation_field_extension";
    of_head = "PesHeader", EVERY, head::READINGS, "pes_header";
    of_contents = "PesParsedContents", EVERY, contents::READINGS, "pes_contents";
}

// ---- The library's store and writer.

fn unit_of(bytes: usize) -> String {
    format!("a unit of {bytes} bytes")
}

/// How many bytes the store has, once every event of the packets is taken.
fn gathered(packets: &[Bytes]) -> String {
    let lists = match steps(packets) {
        Ok(lists) => lists,
        Err(word) => return text(word, &[]),
    };
    let (mut state, mut store) = (Gathering::FIRST, vec![0; SIZE * packets.len()]);
    for (packet, events) in packets.iter().zip(lists) {
        for event in events {
            match state.gather(&mut packet.clone(), event, &mut store) {
                0 => (),
                word => return text(word, &[]),
            }
        }
    }
    unit_of(state.count)
}

/// The packet that a unit of no bytes is written to.
fn written(unit: &Unit) -> Bytes {
    let mut packet = vec![0; SIZE];
    assert!(host_writer::write(&mut { *unit }, &mut [], &mut packet, &mut [0]) == 0, "the unit is permitted");
    packet
}

fn written_original(unit: &Unit) -> String {
    let packet = written(unit);
    let payload = Packet::new(&packet).payload().expect("a payload");
    match PesHeader::from_bytes(payload).map(|header| header.contents()) {
        Some(PesContents::Parsed(Some(contents))) => format!("{}, {:?}", copyright_bit(payload), contents.copyright()),
        _ => "no contents".to_string(),
    }
}

fn written_here(unit: &Unit) -> String {
    let packet = written(unit);
    let payload = &packet[values(&host::PACKET_PAYLOAD, &packet)[0] as usize..];
    let contents = &payload[values(&host::PES_HEADER_CONTENTS, payload)[1] as usize..];
    let read = ["Protected", "Undefined"][values(&host::PES_CONTENTS_COPYRIGHT, contents)[0] as usize];
    format!("{}, {read}", copyright_bit(payload))
}

/// The bit as it stands in the header (2.4.3.6): the second last of the first byte after the head.
fn copyright_bit(payload: &[u8]) -> String {
    format!("bit {}", payload[6] >> 1 & 1)
}
