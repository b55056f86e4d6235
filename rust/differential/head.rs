//! Heads of PES packets: `PesHeader`, `StreamId` and `PesLength` of the oracle's pes.rs.

use crate::answer::Answer;
use crate::host;
use crate::kept::{place_and_length, Keeps};
use crate::module::{Module, Plan};
use crate::reading::{self, Part, Reading, Readings, Row};
use crate::record::{self, Sample};
use crate::rng::Rng;
use crate::slice;
use crate::tally::Tally;
use crate::values;
use mpeg2ts_reader::pes::{PesContents, PesHeader, StreamId};
use std::sync::OnceLock;

pub const MODULE: Module = Module { name: "head", count: 5_000_000, compare, record };

/// The bytes of a head, and the longest slice that is tried: a packet has no longer payload.
const SIZE: usize = 6;
pub const LONGEST: usize = 184;

/// The longest slice that every id is tried with.
const SHORT: usize = 12;

type Slice = slice::Slice<LONGEST>;

fn compare(plan: &Plan) -> Vec<Tally> {
    let mut readings = Readings::new(&READINGS, LONGEST).and_row(&ROW);
    let mut rng = plan.rng(1);
    readings.compare_all(corner_heads());
    readings.compare_all(every_start_code_byte());
    for filling in [0x00, 0xff, 0x80] {
        readings.compare_all(every_id(filling));
    }
    for length in 0..=u16::MAX {
        let head = with_length(random_head(&mut rng), length);
        readings.compare(&head, rng.next() as u8);
    }
    for _ in 0..plan.share(readings.count()) {
        let head = random_slice(&mut rng);
        readings.compare(&head, rng.next() as u8);
    }
    readings.into_tallies()
}

fn record(sample: &mut Sample) {
    let mut rng = Rng::new(record::SEED);
    reading::record(sample, &READINGS, corner_heads());
    reading::record(sample, &READINGS, (0..60).map(|_| random_slice(&mut rng)));
}

pub const READINGS: [Reading; 4] = [
    Reading::new(0x40, "pes_header::from_bytes", &[0, 3, 4], host::PES_HEADER_FROM_BYTES, |bytes| {
        headed(bytes, |_| Answer::done(&[]))
    }),
    Reading::new(0x41, "pes_header::stream_id", &[0, 3, 4], host::PES_HEADER_STREAM_ID, |bytes| {
        headed(bytes, |header| stream_values(bytes[3], header.stream_id()))
    }),
    Reading::new(0x42, "pes_header::pes_packet_length", &[0, 3, 4], host::PES_HEADER_PES_PACKET_LENGTH, |bytes| {
        headed(bytes, |header| Answer::done(&values::length(header.pes_packet_length())))
    }),
    Reading::new(0x43, "pes_header::contents", &[0, 3, 4], host::PES_HEADER_CONTENTS, |bytes| {
        headed(bytes, |header| contents(bytes, header.contents()))
    }),
];

/// All of it at one call.
pub const ROW: Row = Row::new(
    "pes_header::fields",
    &[0, 3, 4],
    host::PES_HEADER_FIELDS,
    &[
        Part::Values("pes_header::stream_id"),
        Part::Values("pes_header::pes_packet_length"),
        Part::Values("pes_header::contents"),
    ],
);

/// What the oracle reads of a head. It does not say why it refuses one: the choice between 3 and 4 is the request's.
fn headed(bytes: &[u8], read: impl FnOnce(PesHeader) -> Answer) -> Answer {
    match PesHeader::from_bytes(bytes) {
        Some(header) => read(header),
        None if bytes.len() < SIZE => Answer::refused(3, &[]),
        None => Answer::refused(4, &[]),
    }
}

/// Bare payload is kind 0, parsed contents kind 1. Where the oracle refuses the contents it does not say which bytes it tried:
/// they are those after the head.
fn contents(bytes: &[u8], contents: PesContents) -> Answer {
    let (kind, part) = match contents {
        PesContents::Payload(payload) => (0, payload),
        PesContents::Parsed(Some(contents)) => (1, contents.kept()),
        PesContents::Parsed(None) => (1, &bytes[SIZE..]),
    };
    let [place, length] = place_and_length(bytes, part);
    Answer::done(&[kind, place, length])
}

// ---- Stream ids.

/// A stream id as numbers: the id itself or the first of its range, and what is kept beside it.
fn stream_values(id: u8, stream: StreamId) -> Answer {
    let (of_byte, values) = &every_stream()[usize::from(id)];
    assert!(*of_byte == stream, "the oracle has another stream id for {id:02x}");
    Answer::done(values)
}

/// For each id the oracle's stream id and its numbers, by the text that it prints: its number cannot be had.
fn every_stream() -> &'static [(StreamId, [u64; 2])] {
    static STREAMS: OnceLock<Vec<(StreamId, [u64; 2])>> = OnceLock::new();
    STREAMS.get_or_init(|| (0..=255).map(stream).collect())
}

fn stream(id: u8) -> (StreamId, [u64; 2]) {
    let bytes = [0, 0, 1, id, 0, 0];
    let stream = PesHeader::from_bytes(&bytes).expect("a head").stream_id();
    let values = numbers_of(&stream);
    (stream, values)
}

/// The ids that have a name of their own.
const NAMED: [(StreamId, u64); 20] = [
    (StreamId::PROGRAM_STREAM_MAP, 0xbc),
    (StreamId::PRIVATE_STREAM1, 0xbd),
    (StreamId::PADDING_STREAM, 0xbe),
    (StreamId::PRIVATE_STREAM2, 0xbf),
    (StreamId::ECM_STREAM, 0xf0),
    (StreamId::EMM_STREAM, 0xf1),
    (StreamId::DSM_CC, 0xf2),
    (StreamId::ISO_13522_STREAM, 0xf3),
    (StreamId::H222_1_TYPE_A, 0xf4),
    (StreamId::H222_1_TYPE_B, 0xf5),
    (StreamId::H222_1_TYPE_C, 0xf6),
    (StreamId::H222_1_TYPE_D, 0xf7),
    (StreamId::H222_1_TYPE_E, 0xf8),
    (StreamId::ANCILLARY_STREAM, 0xf9),
    (StreamId::SL_PACKETIZED_STREAM, 0xfa),
    (StreamId::FLEX_MUX_STREAM, 0xfb),
    (StreamId::METADATA_STREAM, 0xfc),
    (StreamId::EXTENDED_STREAM_ID, 0xfd),
    (StreamId::RESERVED_DATA_STREAM, 0xfe),
    (StreamId::PROGRAM_STREAM_DIRECTORY, 0xff),
];

/// The ranges, by the name that the oracle prints before the number.
const RANGES: [(&str, u64); 3] = [("Audio", 0xc0), ("Video", 0xe0), ("Unknown", 0x00)];

fn numbers_of(stream: &StreamId) -> [u64; 2] {
    if let Some((_, id)) = NAMED.iter().find(|(named, _)| named == stream) {
        return [*id, 0];
    }
    let text = format!("{stream:?}");
    let (name, number) = text.trim_end_matches(')').split_once('(').expect("a range");
    let (_, first) = RANGES.iter().find(|(range, _)| *range == name).expect("a known range");
    [*first, number.parse().expect("a number")]
}

// ---- Slices.

/// A head, and `filling` after it up to this length of the slice.
fn head(id: u8, length: u16, filling: u8, len: usize) -> Slice {
    let slice = Slice::filled(filling, LONGEST).with(|bytes| bytes[..4].copy_from_slice(&[0, 0, 1, id]));
    with_length(slice, length).resized(len)
}

fn with_length(head: Slice, length: u16) -> Slice {
    head.with(|bytes| bytes[4..SIZE].copy_from_slice(&length.to_be_bytes()))
}

/// Every id; lengths of the slice and of the packet around each bound; start codes that are nearly right.
fn corner_heads() -> impl Iterator<Item = Slice> {
    let ids = (0xb8..=255).chain([0x00, 0x01, 0x7f]).map(|id| head(id, 0x0105, 0x80, 10));
    let lens = [0xbc, 0xe0].into_iter().flat_map(|id| (0..=SHORT).map(move |len| head(id, 0, 0x00, len)));
    let lengths = [0, 1, 255, 256, 257, 0x7fff, 0x8000, 0xff00, 0xffff].map(|length| head(0xc0, length, 0xff, 9));
    let starts = [[0, 0, 0], [0, 0, 2], [0, 0, 3], [0, 1, 0], [0, 1, 1], [1, 0, 0], [1, 0, 1], [0, 0, 0x81], [0xff; 3]];
    let starts = starts.map(|start| head(0xe0, 0, 0x80, 9).with(|bytes| bytes[..3].copy_from_slice(&start)));
    ids.chain(lens).chain(lengths).chain(starts)
}

/// Every value of each byte of the start code in turn.
fn every_start_code_byte() -> impl Iterator<Item = Slice> {
    (0..3).flat_map(|at| (0..=255).map(move |byte| head(0xe0, 0, 0x80, 9).with(|bytes| bytes[at] = byte)))
}

/// Every id with every short length of the slice.
fn every_id(filling: u8) -> impl Iterator<Item = Slice> {
    (0..=255).flat_map(move |id| (0..=SHORT).map(move |len| head(id, 0x1234, filling, len)))
}

fn random_head(rng: &mut Rng) -> Slice {
    let len = SIZE + rng.below(LONGEST - SIZE + 1);
    Slice::random(rng, len).with(|bytes| bytes[..3].copy_from_slice(&[0, 0, 1]))
}

/// Of eight, one of any short length, one with a start code of small bytes; half of the others with an id above BB.
fn random_slice(rng: &mut Rng) -> Slice {
    let head = random_head(rng);
    match rng.below(8) {
        0 => head.resized(rng.below(SHORT + 1)),
        1 => head.with(|bytes| bytes[..3].iter_mut().for_each(|byte| *byte = rng.below(3) as u8)),
        2..=4 => head.with(|bytes| bytes[3] = 0xbc + rng.below(0x44) as u8),
        _ => head,
    }
}
