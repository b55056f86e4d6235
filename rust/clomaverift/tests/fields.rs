//! All fields by one call are those that the single methods give: in the sample stream, and in packets and headers of random bytes.

use clomaverift::{Error, Packet, PacketFields, PesFields, PesHeader, PesParsedContents, PtsDts, Timestamp};
use std::collections::BTreeSet;

const SAMPLE: &[u8] = include_bytes!(concat!(env!("CARGO_MANIFEST_DIR"), "/../../samples/sample.ts"));
const PACKETS: usize = 400;
const HEADERS: usize = 800;

/// Numbers that look random, the same for the same seed.
struct Rng(u64);

impl Rng {
    fn below(&mut self, end: usize) -> usize {
        self.0 = self.0.wrapping_mul(6_364_136_223_846_793_005).wrapping_add(1_442_695_040_888_963_407);
        (self.0 >> 33) as usize % end
    }

    fn bytes(&mut self, count: usize) -> Vec<u8> {
        (0..count).map(|_| self.below(256) as u8).collect()
    }
}

/// Holds each field to the method of its name.
macro_rules! assert_same {
    ($fields:expr, $single:expr, $($name:ident),*) => { $(assert_eq!($fields.$name, $single.$name(), stringify!($name));)* };
}

fn check_packet(packet: &Packet<'_>, fields: &PacketFields<'_>) {
    assert_same!(fields, packet, transport_error_indicator, payload_unit_start_indicator, transport_priority, pid);
    assert_same!(fields, packet, continuity_counter, transport_scrambling_control, adaptation_control);
    assert_same!(fields, packet, adaptation_field, payload);
}

fn check_contents(contents: &PesParsedContents<'_>, fields: &PesFields<'_>) {
    assert_same!(fields, contents, pes_scrambling_control, pes_priority, data_alignment_indicator, copyright);
    assert_same!(fields, contents, original_or_copy, flags, pes_header_data_len, pts_dts, escr, es_rate);
    assert_same!(fields, contents, dsm_trick_mode, raw_trick_mode, additional_copy_info, previous_pes_packet_crc);
    assert_same!(fields, contents, pes_extension, payload);
}

/// A packet's fields by one call, held to the single methods.
fn packet_fields(bytes: &[u8]) -> PacketFields<'_> {
    let packet = Packet::try_new(bytes).unwrap();
    let fields = packet.fields();
    check_packet(&packet, &fields);
    fields
}

/// A header's, where it is accepted.
fn header_fields(bytes: &[u8]) -> Option<PesFields<'_>> {
    let contents = PesHeader::from_bytes(bytes).unwrap().contents().parsed().ok()?;
    let fields = contents.fields();
    check_contents(&contents, &fields);
    Some(fields)
}

#[test]
fn the_sample() {
    let packets: Vec<_> = SAMPLE.chunks(Packet::SIZE).map(packet_fields).collect();
    let starts = packets.iter().filter(|fields| fields.payload_unit_start_indicator);
    let headers: Vec<_> = starts.map(|fields| header_fields(fields.payload.unwrap()).unwrap()).collect();
    let pts = |number: u64| Timestamp::from_u64(90_000 + 3_600 * number);
    let times = [
        PtsDts::Both { pts: pts(2), dts: pts(0) },
        PtsDts::PtsOnly(pts(1)),
        PtsDts::Both { pts: pts(3), dts: pts(2) },
        PtsDts::Both { pts: pts(5), dts: pts(3) },
        PtsDts::PtsOnly(pts(4)),
    ];
    assert_eq!(headers.iter().map(|fields| fields.pts_dts.unwrap()).collect::<Vec<_>>(), times);
}

/// A packet of random bytes, every third with the length that an adaptation field without a payload has.
fn random_packet(rng: &mut Rng) -> Vec<u8> {
    let mut bytes = rng.bytes(Packet::SIZE);
    bytes[0] = Packet::SYNC_BYTE;
    if rng.below(3) == 0 {
        bytes[4] = 183;
    }
    bytes
}

#[test]
fn random_packets() {
    let mut rng = Rng(3);
    let mut seen = BTreeSet::new();
    for _ in 0..PACKETS {
        let bytes = random_packet(&mut rng);
        let fields = packet_fields(&bytes);
        seen.insert((fields.adaptation_field.is_some(), fields.payload.is_some()));
    }
    assert_eq!(seen.len(), 4, "field and payload: {seen:?}");
}

/// A header with random flags and random bytes for its fields, half of them with the marker bits of the times.
fn random_header(rng: &mut Rng) -> Vec<u8> {
    let (data, rest) = (rng.below(60), rng.below(30));
    let mut bytes = rng.bytes(9 + data + rest);
    bytes[..6].copy_from_slice(&[0, 0, 1, 0xE0, 0, 0]);
    bytes[6] = 0x80 | bytes[6] & 0x3F;
    bytes[8] = data as u8;
    let markers = rng.below(2) as u8;
    bytes[9..].iter_mut().for_each(|byte| *byte |= markers);
    bytes
}

/// What became of each field that can be refused: its name, and the number of its refusal or 0.
fn outcomes(fields: &PesFields<'_>) -> Vec<(&'static str, u32)> {
    fn number<T>(answer: Result<T, Error>) -> u32 {
        answer.err().map_or(0, |error| error.number())
    }
    let mut outcomes = vec![
        ("times", number(fields.pts_dts)),
        ("escr", number(fields.escr)),
        ("rate", number(fields.es_rate)),
        ("trick", number(fields.dsm_trick_mode)),
        ("raw", number(fields.raw_trick_mode)),
        ("copy", number(fields.additional_copy_info)),
        ("crc", number(fields.previous_pes_packet_crc)),
        ("extension", number(fields.pes_extension)),
    ];
    match fields.pts_dts {
        Ok(PtsDts::PtsOnly(pts)) => outcomes.push(("alone", number(pts))),
        Ok(PtsDts::Both { pts, dts }) => outcomes.extend([("pts", number(pts)), ("dts", number(dts))]),
        Err(_) => (),
    }
    outcomes
}

#[test]
fn random_headers() {
    let mut rng = Rng(5);
    let mut accepted = 0;
    let mut seen = BTreeSet::new();
    for _ in 0..HEADERS {
        let bytes = random_header(&mut rng);
        if let Some(fields) = header_fields(&bytes) {
            accepted += 1;
            seen.extend(outcomes(&fields));
        }
    }
    assert!(accepted > HEADERS / 2, "only {accepted} headers");
    let there = ["times", "escr", "rate", "trick", "raw", "copy", "crc", "extension"];
    let mut all: BTreeSet<_> = there.iter().flat_map(|name| [(*name, 0), (*name, 9)]).collect();
    all.extend([("alone", 0), ("alone", 12), ("pts", 0), ("pts", 12), ("dts", 0), ("dts", 12)]);
    all.extend([("times", 10), ("copy", 12)]);
    assert_eq!(seen, all);
}
