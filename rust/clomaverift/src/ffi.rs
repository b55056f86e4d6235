//! Safe calls of the library's functions: the only unsafe code of this crate.

#![allow(unsafe_code)]

use crate::declarations::*;
use crate::error::Error;

/// The layout of the library that this crate was written for. An archive of another one does not have the symbol, and a program does not
/// link with it.
#[used]
// SAFETY: the symbol is a byte that nothing writes.
static LAYOUT: &u8 = unsafe { &cmv_abi };

/// The out numbers, or the refusal that the word says.
#[inline]
fn told<T>(word: u32, outs: T) -> Result<T, Error> {
    match Error::from_word(word) {
        None => Ok(outs),
        Some(error) => Err(error),
    }
}

/// Makes a safe function of each entry that reads a slice and has only out numbers beside it.
macro_rules! readers {
    ($($function:ident = $entry:ident($($out:ident),*);)*) => {
        $(#[inline]
        pub fn $function(buf: &[u8]) -> Result<[u64; <[&str]>::len(&[$(stringify!($out)),*])], Error> {
            $(let mut $out = 0;)*
            // SAFETY: the pointer and the length are those of a live slice, and the out numbers are live: all that the entry asks.
            let word = unsafe { $entry(buf.as_ptr(), buf.len() $(, &mut $out)*) };
            told(word, [$($out),*])
        })*
    };
}

/// The numbers of an entry that tells many fields at one call. They are taken in their order: a struct's fields are made as they are
/// written.
pub struct Row<const N: usize> {
    numbers: [u64; N],
    taken: usize,
}

impl<const N: usize> Row<N> {
    /// The next numbers.
    #[inline(always)] // so that every place is a constant
    pub fn numbers<const K: usize>(&mut self) -> [u64; K] {
        let place = self.taken;
        self.taken += K;
        core::array::from_fn(|at| self.numbers[place + at])
    }

    /// The next word, and the numbers after it or the refusal that it says.
    #[inline(always)]
    pub fn answer<const K: usize>(&mut self) -> Result<[u64; K], Error> {
        let [word] = self.numbers();
        let outs = self.numbers();
        told(word as u32, outs)
    }
}

/// Makes a safe function of each entry that reads a slice and fills a row of out numbers.
macro_rules! rows {
    ($($function:ident = $entry:ident[$count:literal];)*) => {
        $(#[inline]
        pub fn $function(buf: &[u8]) -> Result<Row<$count>, Error> {
            let mut numbers = [0; $count];
            // SAFETY: the pointer and the length are those of a live slice, and the row is live: all that the entry asks.
            let word = unsafe { $entry(buf.as_ptr(), buf.len(), &mut numbers) };
            told(word, Row { numbers, taken: 0 })
        })*
    };
}

/// Makes a safe function of each entry on numbers.
macro_rules! functions {
    ($($function:ident = $entry:ident($($number:ident: $kind:ty),* => $($out:ident),*);)*) => {
        $(#[inline]
        pub fn $function($($number: $kind),*) -> Result<[u64; <[&str]>::len(&[$(stringify!($out)),*])], Error> {
            $(let mut $out = 0;)*
            // SAFETY: the out numbers are live: all that the entry asks.
            let word = unsafe { $entry($($number,)* $(&mut $out),*) };
            told(word, [$($out),*])
        })*
    };
}

// ---- Timestamps.

readers! {
    timestamp_from_pts_bytes = cmv_timestamp_from_pts_bytes(value);
    timestamp_from_dts_bytes = cmv_timestamp_from_dts_bytes(value);
    timestamp_from_bytes = cmv_timestamp_from_bytes(value);
}

functions! {
    timestamp_from_u64 = cmv_timestamp_from_u64(val: u64 => value);
    timestamp_likely_wrapped_since = cmv_timestamp_likely_wrapped_since(val: u64, since: u64 => wrapped);
}

// ---- Clock references, counters, PIDs and the control bits.

readers! {
    clock_ref_from_slice = cmv_clock_ref_from_slice(base, extension);
}

functions! {
    clock_ref_from_parts = cmv_clock_ref_from_parts(b: u64, e: u16 => base, extension);
    clock_ref_into_u64 = cmv_clock_ref_into_u64(base: u64, extension: u16 => number);
    clock_ref_eq = cmv_clock_ref_eq(base: u64, extension: u16, base2: u64, extension2: u16 => same);
    continuity_counter_new = cmv_continuity_counter_new(count: u8 => value);
    continuity_counter_compare = cmv_continuity_counter_compare(count: u8, last: u8 => compared);
    continuity_counter_follows = cmv_continuity_counter_follows(count: u8, other: u8 => follows);
    pid_try_from = cmv_pid_try_from(pid: u16 => value);
    adaptation_control = cmv_adaptation_control(byte: u8 => field, payload);
    transport_scrambling_control = cmv_transport_scrambling_control(byte: u8 => scrambled, scheme);
}

// ---- Packets.

readers! {
    packet_try_new = cmv_packet_try_new();
    packet_transport_error_indicator = cmv_packet_transport_error_indicator(value);
    packet_payload_unit_start_indicator = cmv_packet_payload_unit_start_indicator(value);
    packet_transport_priority = cmv_packet_transport_priority(value);
    packet_pid = cmv_packet_pid(value);
    packet_transport_scrambling_control = cmv_packet_transport_scrambling_control(scrambled, scheme);
    packet_adaptation_control = cmv_packet_adaptation_control(field, payload);
    packet_continuity_counter = cmv_packet_continuity_counter(value);
    packet_adaptation_field = cmv_packet_adaptation_field(place, length);
    packet_payload = cmv_packet_payload(place, length);
}

functions! {
    packet_is_sync_byte = cmv_packet_is_sync_byte(b: u8 => is);
}

rows! {
    packet_fields = cmv_packet_fields[15];
}

// ---- Adaptation fields and their extensions.

readers! {
    adaptation_field_discontinuity_indicator = cmv_adaptation_field_discontinuity_indicator(value);
    adaptation_field_random_access_indicator = cmv_adaptation_field_random_access_indicator(value);
    adaptation_field_elementary_stream_priority_indicator =
        cmv_adaptation_field_elementary_stream_priority_indicator(value);
    adaptation_field_pcr = cmv_adaptation_field_pcr(base, extension);
    adaptation_field_opcr = cmv_adaptation_field_opcr(base, extension);
    adaptation_field_splice_countdown = cmv_adaptation_field_splice_countdown(value);
    adaptation_field_transport_private_data = cmv_adaptation_field_transport_private_data(place, length);
    adaptation_field_extension = cmv_adaptation_field_extension(place, length);
    adaptation_extension_ltw_offset = cmv_adaptation_extension_ltw_offset(kind, offset);
    adaptation_extension_piecewise_rate = cmv_adaptation_extension_piecewise_rate(value);
    adaptation_extension_seamless_splice = cmv_adaptation_extension_seamless_splice(splice, dts);
}

// ---- Heads of PES packets.

readers! {
    pes_header_from_bytes = cmv_pes_header_from_bytes();
    pes_header_stream_id = cmv_pes_header_stream_id(kind, low);
    pes_header_pes_packet_length = cmv_pes_header_pes_packet_length(kind, length);
    pes_header_contents = cmv_pes_header_contents(kind, place, length);
}

// ---- Parsed contents of PES packets.

readers! {
    pes_contents_from_bytes = cmv_pes_contents_from_bytes();
    pes_contents_pes_priority = cmv_pes_contents_pes_priority(value);
    pes_contents_pes_scrambling_control = cmv_pes_contents_pes_scrambling_control(value);
    pes_contents_flags = cmv_pes_contents_flags(value);
    pes_contents_pes_header_data_len = cmv_pes_contents_pes_header_data_len(value);
    pes_contents_data_alignment_indicator = cmv_pes_contents_data_alignment_indicator(value);
    pes_contents_copyright = cmv_pes_contents_copyright(value);
    pes_contents_original_or_copy = cmv_pes_contents_original_or_copy(value);
    pes_contents_pts_dts = cmv_pes_contents_pts_dts(kind, ptsnumber, pts, dtsnumber, dts);
    pes_contents_escr = cmv_pes_contents_escr(base, extension);
    pes_contents_es_rate = cmv_pes_contents_es_rate(value);
    pes_contents_dsm_trick_mode = cmv_pes_contents_dsm_trick_mode(kind, first, second, third);
    pes_contents_raw_trick_mode = cmv_pes_contents_raw_trick_mode(value);
    pes_contents_additional_copy_info = cmv_pes_contents_additional_copy_info(value);
    pes_contents_previous_pes_packet_crc = cmv_pes_contents_previous_pes_packet_crc(value);
    pes_contents_pes_extension = cmv_pes_contents_pes_extension(place, length);
    pes_contents_payload = cmv_pes_contents_payload(place, length);
}

rows! {
    pes_contents_fields = cmv_pes_contents_fields[34];
}

functions! {
    es_rate_new = cmv_es_rate_new(rate: u32 => value);
    es_rate_bytes_per_second = cmv_es_rate_bytes_per_second(rate: u32 => value);
}

// ---- The constants, the rows before the first packet and `Pid::new`, which this crate has as its own: its tests hold the two together.

#[cfg_attr(not(test), allow(dead_code))]
pub mod constants {
    use super::*;

    functions! {
        timestamp = cmv_timestamp_constants(=> max, timebase);
        control = cmv_control_constants(=> max, count);
        packet = cmv_packet_constants(=> sync, size);
        pid_new = cmv_pid_new(pid: u16 => value);
    }

    /// The row of a machine before its first packet, in place of another.
    pub fn machine_fresh(mut state: [u64; MACHINE]) -> [u64; MACHINE] {
        // SAFETY: the row is live: all that the entry asks.
        unsafe { cmv_machine_fresh(&mut state) };
        state
    }

    /// The same in the standard mode.
    pub fn machine_standard(mut state: [u64; MACHINE]) -> [u64; MACHINE] {
        // SAFETY: the row is live: all that the entry asks.
        unsafe { cmv_machine_standard(&mut state) };
        state
    }

    /// The row of a gathering store before its first event, in place of another.
    pub fn gather_fresh(mut state: [u64; 3]) -> [u64; 3] {
        // SAFETY: the row is live: all that the entry asks.
        unsafe { cmv_gather_fresh(&mut state) };
        state
    }
}

// ---- The event machine and its log.

/// The numbers of a machine's state.
pub const MACHINE: usize = 7;

#[inline]
pub fn machine_step(state: &mut [u64; MACHINE], packet: &[u8], log: &mut [u8]) -> Result<(), Error> {
    // SAFETY: the pointers and the lengths are those of a live row and live slices, and what is written shares no byte with another.
    let word = unsafe { cmv_machine_step(state, packet.as_ptr(), packet.len(), log.as_mut_ptr(), log.len()) };
    told(word, ())
}

/// How many packets were taken, and the word of the refusal of the next one.
#[inline]
pub fn machine_run(state: &mut [u64; MACHINE], bytes: &[u8], log: &mut [u8]) -> Result<[u64; 2], Error> {
    let [mut taken, mut ended] = [0; 2];
    // SAFETY: as for `machine_step`, and the out numbers are live.
    let word = unsafe {
        cmv_machine_run(state, bytes.as_ptr(), bytes.len(), log.as_mut_ptr(), log.len(), &mut taken, &mut ended)
    };
    told(word, [taken, ended])
}

/// Kind, packet index, place and length.
#[inline]
pub fn log_entry_at(log: &[u8], at: usize) -> Result<[u64; 4], Error> {
    let [mut kind, mut index, mut place, mut length] = [0; 4];
    // SAFETY: the pointer and the length are those of a live slice, and the out numbers are live.
    let word = unsafe { cmv_log_entry_at(log.as_ptr(), log.len(), at, &mut kind, &mut index, &mut place, &mut length) };
    told(word, [kind, index, place, length])
}

// ---- The gathering store.

#[inline]
pub fn gather(state: &mut [u64; 3], packet: &[u8], event: [u8; 3], store: &mut [u8]) -> Result<(), Error> {
    let [kind, place, length] = event;
    // SAFETY: the pointers and the lengths are those of a live row and live slices, and what is written shares no byte with another.
    let word = unsafe {
        cmv_gather(state, packet.as_ptr(), packet.len(), kind, place, length, store.as_mut_ptr(), store.len())
    };
    told(word, ())
}

/// The slice, 0 the packet and 1 the store, and the place and length of a part of it.
#[inline]
pub fn gather_bytes(state: &[u64; 3], packet: &[u8], store: &[u8]) -> Result<[u64; 3], Error> {
    let [mut slice, mut place, mut length] = [0; 3];
    // SAFETY: the pointers and the lengths are those of a live row and live slices, and the out numbers are live.
    let word = unsafe {
        let (packet, packet_len) = (packet.as_ptr(), packet.len());
        let (store, store_len) = (store.as_ptr(), store.len());
        cmv_gather_bytes(state, packet, packet_len, store, store_len, &mut slice, &mut place, &mut length)
    };
    told(word, [slice, place, length])
}

// ---- The writer.

/// The number of packets. The unit's fields are a row of numbers.
#[inline]
pub fn write(pid: u16, counter: u8, unit: &[u64; 20], payload: &[u8], out: &mut [u8]) -> Result<u64, Error> {
    let mut count = 0;
    // SAFETY: the pointers and the lengths are those of a live row and live slices, the out number is live, and what is written shares no
    // byte with another.
    let word = unsafe {
        let (payload, payload_len) = (payload.as_ptr(), payload.len());
        cmv_write(pid, counter, unit, payload, payload_len, out.as_mut_ptr(), out.len(), &mut count)
    };
    told(word, count)
}
