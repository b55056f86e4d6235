//! Packets: every field of the packet and of its adaptation field, read once.

use crate::calls::{Function, Kind, ACCEPTED, MIXED};
use crate::declarations::*;
use crate::rng::Rng;
use crate::sum::{ask, row, Given, Sum};
use crate::values;
use mpeg2ts_reader::packet::{AdaptationField, AdaptationFieldError, Packet};
use std::slice;

pub const EVERY_FIELD: Function = Function {
    name: "packet, every field",
    library,
    rust,
    count: 100_000,
    size: Packet::SIZE,
    make,
    rows: &[ACCEPTED, MIXED],
};

/// The same, but for the adaptation field, at one call.
pub const EVERY_FIELD_AT_ONCE: Function =
    Function { name: "packet, all fields at one call", library: library_at_once, ..EVERY_FIELD };

// ---- The library. The pointers and lengths are those of the lent slice or of a part of it that the library gave.

#[inline(never)]
unsafe extern "C" fn library(buf: *const u8, len: usize, value: *mut u64) -> u32 {
    let word = cmv_packet_try_new(buf, len);
    if word != 0 {
        return word;
    }
    let mut sum = Sum::new();
    sum.take(ask(|[v]| cmv_packet_transport_error_indicator(buf, len, v)));
    sum.take(ask(|[v]| cmv_packet_payload_unit_start_indicator(buf, len, v)));
    sum.take(ask(|[v]| cmv_packet_transport_priority(buf, len, v)));
    sum.take(ask(|[v]| cmv_packet_pid(buf, len, v)));
    sum.take(ask(|[v]| cmv_packet_continuity_counter(buf, len, v)));
    if let (0, [place, length]) = ask(|[p, l]| cmv_packet_adaptation_field(buf, len, p, l)) {
        library_field(&mut sum, buf.add(place as usize), length as usize);
    }
    let (_, [_, payload]) = ask(|[p, l]| cmv_packet_payload(buf, len, p, l));
    sum.add(payload);
    *value = sum.total();
    0
}

#[inline(never)]
unsafe extern "C" fn library_at_once(buf: *const u8, len: usize, value: *mut u64) -> u32 {
    let mut fields = [0; 15];
    let word = cmv_packet_fields(buf, len, &mut fields);
    if word != 0 {
        return word;
    }
    let mut sum = Sum::new();
    let [error, start, priority, pid, counter, ..] = fields;
    sum.take((0, [error, start, priority, pid, counter]));
    if let (0, [place, length]) = row(&fields, 9) {
        library_field(&mut sum, buf.add(place as usize), length as usize);
    }
    let (_, [_, payload]) = row(&fields, 12);
    sum.add(payload);
    *value = sum.total();
    0
}

#[inline(always)]
unsafe fn library_field(sum: &mut Sum, buf: *const u8, len: usize) {
    sum.take(ask(|[v]| cmv_adaptation_field_discontinuity_indicator(buf, len, v)));
    sum.take(ask(|[v]| cmv_adaptation_field_random_access_indicator(buf, len, v)));
    sum.take(ask(|[v]| cmv_adaptation_field_elementary_stream_priority_indicator(buf, len, v)));
    sum.take(ask(|[b, e]| cmv_adaptation_field_pcr(buf, len, b, e)));
    sum.take(ask(|[b, e]| cmv_adaptation_field_opcr(buf, len, b, e)));
    sum.take(ask(|[v]| cmv_adaptation_field_splice_countdown(buf, len, v)));
}

// ---- The Rust.

#[inline(never)]
unsafe extern "C" fn rust(buf: *const u8, len: usize, value: *mut u64) -> u32 {
    let Some(packet) = Packet::try_new(slice::from_raw_parts(buf, len)) else { return 2 };
    let mut sum = Sum::new();
    sum.add(packet.transport_error_indicator().into());
    sum.add(packet.payload_unit_start_indicator().into());
    sum.add(packet.transport_priority().into());
    sum.add(u16::from(packet.pid()).into());
    sum.add(packet.continuity_counter().count().into());
    if let Some(field) = packet.adaptation_field() {
        rust_field(&mut sum, &field);
    }
    sum.add(packet.payload().map_or(0, |payload| payload.len() as u64));
    *value = sum.total();
    0
}

#[inline(always)]
fn rust_field(sum: &mut Sum, field: &AdaptationField) {
    sum.add(field.discontinuity_indicator().into());
    sum.add(field.random_access_indicator().into());
    sum.add(field.elementary_stream_priority_indicator().into());
    sum.take(given(field.pcr().map(values::clock)));
    sum.take(given(field.opcr().map(values::clock)));
    sum.take(given(field.splice_countdown().map(|countdown| [countdown.into()])));
}

#[inline(always)]
fn given<const N: usize>(result: Result<[u64; N], AdaptationFieldError>) -> Given<N> {
    match result {
        Ok(values) => (0, values),
        Err(AdaptationFieldError::FieldNotPresent) => (9, [0; N]),
        Err(_) => (11, [0; N]),
    }
}

// ---- Inputs.

/// A packet with an adaptation field that has every field, and with a payload; or one with any header, some of them without a sync
/// byte.
fn make(bytes: &mut [u8], rng: &mut Rng, kind: Kind) {
    bytes[0] = Packet::SYNC_BYTE;
    if kind == Kind::Accepted {
        bytes[3] |= 0x30;
        bytes[4] = 20;
        bytes[5] |= 0x1c;
    } else if rng.below(8) == 0 {
        bytes[0] = 0;
    } else {
        bytes[4] = rng.below(190) as u8;
    }
}
