//! PES headers: every field of the head and of the contents, read once.

use crate::calls::{Function, Kind, ACCEPTED, MIXED, USUAL};
use crate::declarations::*;
use crate::rng::Rng;
use crate::sum::{ask, row, Given, Sum};
use crate::timestamp::set_markers;
use crate::values;
use mpeg2ts_reader::pes::{
    Copyright, DataAlignment, OriginalOrCopy, PesContents, PesError, PesHeader, PesParsedContents, StreamId,
};
use std::slice;

/// Head, contents with every field, and some payload.
const SIZE: usize = 64;
const HEAD: usize = 6;

pub const EVERY_FIELD: Function = Function {
    name: "PES header, every field",
    library,
    rust,
    count: 1_000_000,
    size: SIZE,
    make,
    rows: &[ACCEPTED, MIXED, USUAL],
};

/// The same at one call for the head and one for the contents.
pub const EVERY_FIELD_AT_ONCE: Function =
    Function { name: "header, all fields at one call", library: library_at_once, ..EVERY_FIELD };

/// What stands in the sum for contents that are refused: the Rust does not say why.
const REFUSED: u64 = 5;

/// The stream id that each is asked for: the Rust's has no number.
const PRIVATE_STREAM1: u64 = 0xbd;

// ---- The library. The pointers and lengths are those of the lent slice or of a part of it that the library gave.

#[inline(never)]
unsafe extern "C" fn library(buf: *const u8, len: usize, value: *mut u64) -> u32 {
    let (word, [kind, place, length]) = ask(|[k, p, l]| cmv_pes_header_contents(buf, len, k, p, l));
    if word != 0 {
        return word;
    }
    let mut sum = Sum::new();
    let (_, [stream, _]) = ask(|[k, l]| cmv_pes_header_stream_id(buf, len, k, l));
    sum.add((stream == PRIVATE_STREAM1).into());
    sum.take(ask(|[k, l]| cmv_pes_header_pes_packet_length(buf, len, k, l)));
    match kind {
        0 => sum.add(length),
        _ => library_contents(&mut sum, buf.add(place as usize), length as usize),
    }
    *value = sum.total();
    0
}

#[inline(always)]
unsafe fn library_contents(sum: &mut Sum, buf: *const u8, len: usize) {
    if cmv_pes_contents_from_bytes(buf, len) != 0 {
        return sum.add(REFUSED);
    }
    sum.take(ask(|[v]| cmv_pes_contents_pes_priority(buf, len, v)));
    sum.take(ask(|[v]| cmv_pes_contents_data_alignment_indicator(buf, len, v)));
    sum.take(ask(|[v]| cmv_pes_contents_copyright(buf, len, v)));
    sum.take(ask(|[v]| cmv_pes_contents_original_or_copy(buf, len, v)));
    sum.take(ask(|[k, pn, p, dn, d]| cmv_pes_contents_pts_dts(buf, len, k, pn, p, dn, d)));
    sum.take(ask(|[b, e]| cmv_pes_contents_escr(buf, len, b, e)));
    sum.take(ask(|[v]| cmv_pes_contents_es_rate(buf, len, v)));
    sum.take(ask(|[k, a, b, c]| cmv_pes_contents_dsm_trick_mode(buf, len, k, a, b, c)));
    sum.take(ask(|[v]| cmv_pes_contents_additional_copy_info(buf, len, v)));
    sum.take(ask(|[v]| cmv_pes_contents_previous_pes_packet_crc(buf, len, v)));
    let (_, [_, payload]) = ask(|[p, l]| cmv_pes_contents_payload(buf, len, p, l));
    sum.add(payload);
}

#[inline(never)]
unsafe extern "C" fn library_at_once(buf: *const u8, len: usize, value: *mut u64) -> u32 {
    let mut fields = [0; 7];
    let word = cmv_pes_header_fields(buf, len, &mut fields);
    if word != 0 {
        return word;
    }
    let [stream, _, bounded, length, kind, place, left] = fields;
    let mut sum = Sum::new();
    sum.add((stream == PRIVATE_STREAM1).into());
    sum.take((0, [bounded, length]));
    match kind {
        0 => sum.add(left),
        _ => library_contents_at_once(&mut sum, buf.add(place as usize), left as usize),
    }
    *value = sum.total();
    0
}

#[inline(always)]
unsafe fn library_contents_at_once(sum: &mut Sum, buf: *const u8, len: usize) {
    let mut fields = [0; 34];
    if cmv_pes_contents_fields(buf, len, &mut fields) != 0 {
        return sum.add(REFUSED);
    }
    let [_, priority, alignment, copyright, original, ..] = fields;
    sum.take((0, [priority, alignment, copyright, original]));
    sum.take(row::<5>(&fields, 7)); // PTS and DTS
    sum.take(row::<2>(&fields, 13)); // ESCR
    sum.take(row::<1>(&fields, 16)); // ES rate
    sum.take(row::<4>(&fields, 18)); // trick mode
    sum.take(row::<1>(&fields, 25)); // copy info
    sum.take(row::<1>(&fields, 27)); // CRC
    let [.., payload] = fields;
    sum.add(payload);
}

// ---- The Rust.

#[inline(never)]
unsafe extern "C" fn rust(buf: *const u8, len: usize, value: *mut u64) -> u32 {
    let bytes = slice::from_raw_parts(buf, len);
    let Some(header) = PesHeader::from_bytes(bytes) else { return if len < HEAD { 3 } else { 4 } };
    let mut sum = Sum::new();
    sum.add((header.stream_id() == StreamId::PRIVATE_STREAM1).into());
    sum.take((0, values::length(header.pes_packet_length())));
    match header.contents() {
        PesContents::Payload(payload) => sum.add(payload.len() as u64),
        PesContents::Parsed(None) => sum.add(REFUSED),
        PesContents::Parsed(Some(contents)) => rust_contents(&mut sum, &contents),
    }
    *value = sum.total();
    0
}

#[inline(always)]
fn rust_contents(sum: &mut Sum, contents: &PesParsedContents) {
    sum.add(contents.pes_priority().into());
    sum.add((contents.data_alignment_indicator() == DataAlignment::Aligned).into());
    sum.add((contents.copyright() == Copyright::Undefined).into());
    sum.add((contents.original_or_copy() == OriginalOrCopy::Original).into());
    sum.take(given(contents.pts_dts().map(values::times)));
    sum.take(given(contents.escr().map(values::clock)));
    sum.take(given(contents.es_rate().map(|rate| [u32::from(rate).into()])));
    sum.take(given(contents.dsm_trick_mode().map(values::trick)));
    sum.take(given(contents.additional_copy_info().map(|info| [info.into()])));
    sum.take(given(contents.previous_pes_packet_crc().map(|crc| [crc.into()])));
    sum.add(contents.payload().len() as u64);
}

#[inline(always)]
fn given<const N: usize>(result: Result<[u64; N], PesError>) -> Given<N> {
    match result {
        Ok(values) => (0, values),
        Err(PesError::FieldNotPresent) => (9, [0; N]),
        Err(PesError::PtsDtsFlagsInvalid) => (10, [0; N]),
        Err(PesError::NotEnoughData { .. }) => (11, [0; N]),
        Err(PesError::MarkerBitNotSet) => (12, [0; N]),
    }
}

// ---- Inputs.

/// A video header with every field and every marker; one with any flags, some of them with a bare id, refused contents or a wrong
/// start code; or one with a PTS, or a PTS and a DTS, and no other field.
fn make(bytes: &mut [u8], rng: &mut Rng, kind: Kind) {
    bytes[..4].copy_from_slice(&[0, 0, 1, 0xe0]);
    bytes[6] = bytes[6] & 0x3f | 0x80;
    match kind {
        Kind::Accepted => with_all(bytes),
        Kind::Any => with_any(bytes, rng),
        Kind::Usual => with_times(bytes, rng),
    }
}

fn with_all(bytes: &mut [u8]) {
    bytes[7] = 0xff;
    bytes[8] = 25;
    set_markers(&mut bytes[9..]);
    set_markers(&mut bytes[14..]);
    bytes[29] |= 0x80;
}

fn with_any(bytes: &mut [u8], rng: &mut Rng) {
    bytes[8] = 20 + rng.below(10) as u8;
    match rng.below(8) {
        0 => bytes[2] = 0,
        1 => bytes[3] = 0xbc + rng.below(68) as u8,
        2 => bytes[6] = rng.next() as u8,
        3 => bytes[8] = rng.next() as u8,
        _ => set_markers(&mut bytes[9..]),
    }
}

fn with_times(bytes: &mut [u8], rng: &mut Rng) {
    (bytes[7], bytes[8]) = if rng.below(2) == 0 { (0x80, 5) } else { (0xc0, 10) };
    set_markers(&mut bytes[9..]);
    set_markers(&mut bytes[14..]);
}
