//! Safe calls of the entries that read packets, fields and headers.

use crate::declarations::*;

/// An entry that reads a slice and has only out numbers beside it.
#[derive(Clone, Copy)]
pub struct Reader {
    /// How many out numbers it has.
    pub outs: usize,
    call: fn(&mut [u8], &mut [u64]) -> u32,
}

impl Reader {
    /// The library only reads the slice. It is taken as `&mut` here, so that the compiler expects a write and the caller's check
    /// that there was none is a true one.
    pub fn call(&self, buf: &mut [u8], outs: &mut [u64]) -> u32 {
        (self.call)(buf, outs)
    }
}

/// Makes a `Reader` of each entry that reads a slice: `READER = entry(out numbers);`.
macro_rules! readers {
    ($($reader:ident = $entry:ident($($out:ident),*);)*) => {
        $(pub const $reader: Reader = Reader {
            outs: <[&str]>::len(&[$(stringify!($out)),*]),
            call: |buf, outs| {
                let [$($out),*] = outs else { panic!("{} has another count of out numbers", stringify!($entry)) };
                // The pointer and the length are those of a live slice, and the out numbers are live: all that the entry asks.
                unsafe { $entry(buf.as_mut_ptr(), buf.len() $(, $out)*) }
            },
        };)*
    };
}

/// Makes a safe function of each entry on numbers: `function = entry(numbers => out numbers);`.
macro_rules! functions {
    ($($function:ident = $entry:ident($($number:ident: $kind:ty),* => $($out:ident),*);)*) => {
        $(pub fn $function($($number: $kind,)* [$($out),*]: &mut [u64; [$(stringify!($out)),*].len()]) -> u32 {
            // The out numbers are live: all that the entry asks.
            unsafe { $entry($($number,)* $($out),*) }
        })*
    };
}

/// Makes a `Reader` of each entry that reads a slice and fills a row of out numbers: `READER = entry[how many];`.
macro_rules! rows {
    ($($reader:ident = $entry:ident[$count:literal];)*) => {
        $(pub const $reader: Reader = Reader {
            outs: $count,
            call: |buf, outs| {
                let row: &mut [u64; $count] = outs.try_into().expect("a row has another count of out numbers");
                // The pointer and the length are those of a live slice, and the row is live: all that the entry asks.
                unsafe { $entry(buf.as_mut_ptr(), buf.len(), row) }
            },
        };)*
    };
}

// ---- All that is read of a packet, of a head or of contents, at once.

rows! {
    PACKET_FIELDS = cmv_packet_fields[15];
    PES_HEADER_FIELDS = cmv_pes_header_fields[7];
    PES_CONTENTS_FIELDS = cmv_pes_contents_fields[34];
}

// ---- Timestamps.

readers! {
    TIMESTAMP_FROM_PTS_BYTES = cmv_timestamp_from_pts_bytes(value);
    TIMESTAMP_FROM_DTS_BYTES = cmv_timestamp_from_dts_bytes(value);
    TIMESTAMP_FROM_BYTES = cmv_timestamp_from_bytes(value);
}

functions! {
    timestamp_from_u64 = cmv_timestamp_from_u64(val: u64 => value);
    timestamp_likely_wrapped_since = cmv_timestamp_likely_wrapped_since(val: u64, since: u64 => wrapped);
    timestamp_constants = cmv_timestamp_constants(=> max, timebase);
}

// ---- Clock references, counters, PIDs and the control bits.

readers! {
    CLOCK_REF_FROM_SLICE = cmv_clock_ref_from_slice(base, extension);
}

functions! {
    clock_ref_from_parts = cmv_clock_ref_from_parts(base: u64, extension: u16 => base_out, extension_out);
    clock_ref_into_u64 = cmv_clock_ref_into_u64(base: u64, extension: u16 => number);
    clock_ref_eq = cmv_clock_ref_eq(base: u64, extension: u16, other_base: u64, other_extension: u16 => same);
    continuity_counter_new = cmv_continuity_counter_new(count: u8 => value);
    continuity_counter_compare = cmv_continuity_counter_compare(count: u8, last: u8 => compared);
    continuity_counter_follows = cmv_continuity_counter_follows(count: u8, other: u8 => follows);
    pid_new = cmv_pid_new(pid: u16 => value);
    pid_try_from = cmv_pid_try_from(pid: u16 => value);
    adaptation_control = cmv_adaptation_control(byte: u8 => has_adaptation_field, has_payload);
    transport_scrambling_control = cmv_transport_scrambling_control(byte: u8 => is_scrambled, scheme);
    control_constants = cmv_control_constants(=> max_value, pid_count);
}

// ---- Packets.

readers! {
    PACKET_TRY_NEW = cmv_packet_try_new();
    PACKET_TRANSPORT_ERROR_INDICATOR = cmv_packet_transport_error_indicator(value);
    PACKET_PAYLOAD_UNIT_START_INDICATOR = cmv_packet_payload_unit_start_indicator(value);
    PACKET_TRANSPORT_PRIORITY = cmv_packet_transport_priority(value);
    PACKET_PID = cmv_packet_pid(value);
    PACKET_TRANSPORT_SCRAMBLING_CONTROL = cmv_packet_transport_scrambling_control(is_scrambled, scheme);
    PACKET_ADAPTATION_CONTROL = cmv_packet_adaptation_control(has_adaptation_field, has_payload);
    PACKET_CONTINUITY_COUNTER = cmv_packet_continuity_counter(value);
    PACKET_ADAPTATION_FIELD = cmv_packet_adaptation_field(place, length);
    PACKET_PAYLOAD = cmv_packet_payload(place, length);
}

functions! {
    packet_is_sync_byte = cmv_packet_is_sync_byte(b: u8 => is);
    packet_constants = cmv_packet_constants(=> sync_byte, size);
}

// ---- Adaptation fields, of their bytes without the length byte, and their extensions, of theirs.

readers! {
    ADAPTATION_FIELD_DISCONTINUITY_INDICATOR = cmv_adaptation_field_discontinuity_indicator(value);
    ADAPTATION_FIELD_RANDOM_ACCESS_INDICATOR = cmv_adaptation_field_random_access_indicator(value);
    ADAPTATION_FIELD_ELEMENTARY_STREAM_PRIORITY_INDICATOR =
        cmv_adaptation_field_elementary_stream_priority_indicator(value);
    ADAPTATION_FIELD_PCR = cmv_adaptation_field_pcr(base, extension);
    ADAPTATION_FIELD_OPCR = cmv_adaptation_field_opcr(base, extension);
    ADAPTATION_FIELD_SPLICE_COUNTDOWN = cmv_adaptation_field_splice_countdown(value);
    ADAPTATION_FIELD_TRANSPORT_PRIVATE_DATA = cmv_adaptation_field_transport_private_data(place, length);
    ADAPTATION_FIELD_EXTENSION = cmv_adaptation_field_extension(place, length);
    ADAPTATION_EXTENSION_LTW_OFFSET = cmv_adaptation_extension_ltw_offset(kind, offset);
    ADAPTATION_EXTENSION_PIECEWISE_RATE = cmv_adaptation_extension_piecewise_rate(value);
    ADAPTATION_EXTENSION_SEAMLESS_SPLICE = cmv_adaptation_extension_seamless_splice(splice_type, dts_next_au);
}

// ---- Heads of PES packets.

readers! {
    PES_HEADER_FROM_BYTES = cmv_pes_header_from_bytes();
    PES_HEADER_STREAM_ID = cmv_pes_header_stream_id(kind, low);
    PES_HEADER_PES_PACKET_LENGTH = cmv_pes_header_pes_packet_length(kind, length);
    PES_HEADER_CONTENTS = cmv_pes_header_contents(kind, place, length);
}

// ---- Parsed contents of PES packets.

readers! {
    PES_CONTENTS_FROM_BYTES = cmv_pes_contents_from_bytes();
    PES_CONTENTS_PES_PRIORITY = cmv_pes_contents_pes_priority(value);
    PES_CONTENTS_PES_SCRAMBLING_CONTROL = cmv_pes_contents_pes_scrambling_control(value);
    PES_CONTENTS_FLAGS = cmv_pes_contents_flags(value);
    PES_CONTENTS_PES_HEADER_DATA_LEN = cmv_pes_contents_pes_header_data_len(value);
    PES_CONTENTS_DATA_ALIGNMENT_INDICATOR = cmv_pes_contents_data_alignment_indicator(value);
    PES_CONTENTS_COPYRIGHT = cmv_pes_contents_copyright(value);
    PES_CONTENTS_ORIGINAL_OR_COPY = cmv_pes_contents_original_or_copy(value);
    PES_CONTENTS_PTS_DTS = cmv_pes_contents_pts_dts(kind, pts_number, pts, dts_number, dts);
    PES_CONTENTS_ESCR = cmv_pes_contents_escr(base, extension);
    PES_CONTENTS_ES_RATE = cmv_pes_contents_es_rate(value);
    PES_CONTENTS_DSM_TRICK_MODE = cmv_pes_contents_dsm_trick_mode(kind, first, second, third);
    PES_CONTENTS_RAW_TRICK_MODE = cmv_pes_contents_raw_trick_mode(value);
    PES_CONTENTS_ADDITIONAL_COPY_INFO = cmv_pes_contents_additional_copy_info(value);
    PES_CONTENTS_PREVIOUS_PES_PACKET_CRC = cmv_pes_contents_previous_pes_packet_crc(value);
    PES_CONTENTS_PES_EXTENSION = cmv_pes_contents_pes_extension(place, length);
    PES_CONTENTS_PAYLOAD = cmv_pes_contents_payload(place, length);
}

functions! {
    es_rate_new = cmv_es_rate_new(rate: u32 => value);
    es_rate_bytes_per_second = cmv_es_rate_bytes_per_second(rate: u32 => value);
}
