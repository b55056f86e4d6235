//! The functions of the library. Made by tools/header from the sources of the crates that it is built from: not to be edited. What each
//! function does and asks, include/clomaverift.h says.
//!
//! A `&[u8]` of the sources is two arguments, pointer and length; a `&mut` number is a pointer, and so is a lent row of numbers.

// A program declares them all, and calls some.
#![allow(dead_code)]

/// The symbol of the library's layout: its signatures, rows and numbers. An archive of another layout has another one.
pub const ABI: &str = "cmv_abi_3";

#[rustfmt::skip]
extern "C" {
    #[link_name = "cmv_abi_3"]
    pub static cmv_abi: u8;
    pub fn cmv_adaptation_field_discontinuity_indicator(buf: *const u8, buf_len: usize, value: *mut u64) -> u32;
    pub fn cmv_adaptation_field_random_access_indicator(buf: *const u8, buf_len: usize, value: *mut u64) -> u32;
    pub fn cmv_adaptation_field_elementary_stream_priority_indicator(
        buf: *const u8,
        buf_len: usize,
        value: *mut u64,
    ) -> u32;
    pub fn cmv_adaptation_field_pcr(buf: *const u8, buf_len: usize, base: *mut u64, extension: *mut u64) -> u32;
    pub fn cmv_adaptation_field_opcr(buf: *const u8, buf_len: usize, base: *mut u64, extension: *mut u64) -> u32;
    pub fn cmv_adaptation_field_splice_countdown(buf: *const u8, buf_len: usize, value: *mut u64) -> u32;
    pub fn cmv_adaptation_field_transport_private_data(
        buf: *const u8,
        buf_len: usize,
        place: *mut u64,
        length: *mut u64,
    ) -> u32;
    pub fn cmv_adaptation_field_extension(buf: *const u8, buf_len: usize, place: *mut u64, length: *mut u64) -> u32;
    pub fn cmv_adaptation_extension_ltw_offset(buf: *const u8, buf_len: usize, kind: *mut u64, offset: *mut u64) -> u32;
    pub fn cmv_adaptation_extension_piecewise_rate(buf: *const u8, buf_len: usize, value: *mut u64) -> u32;
    pub fn cmv_adaptation_extension_seamless_splice(
        buf: *const u8,
        buf_len: usize,
        splice: *mut u64,
        dts: *mut u64,
    ) -> u32;
    pub fn cmv_pes_contents_from_bytes(buf: *const u8, buf_len: usize) -> u32;
    pub fn cmv_pes_contents_pes_priority(buf: *const u8, buf_len: usize, value: *mut u64) -> u32;
    pub fn cmv_pes_contents_pes_scrambling_control(buf: *const u8, buf_len: usize, value: *mut u64) -> u32;
    pub fn cmv_pes_contents_flags(buf: *const u8, buf_len: usize, value: *mut u64) -> u32;
    pub fn cmv_pes_contents_pes_header_data_len(buf: *const u8, buf_len: usize, value: *mut u64) -> u32;
    pub fn cmv_pes_contents_data_alignment_indicator(buf: *const u8, buf_len: usize, value: *mut u64) -> u32;
    pub fn cmv_pes_contents_copyright(buf: *const u8, buf_len: usize, value: *mut u64) -> u32;
    pub fn cmv_pes_contents_original_or_copy(buf: *const u8, buf_len: usize, value: *mut u64) -> u32;
    pub fn cmv_pes_contents_pts_dts(
        buf: *const u8,
        buf_len: usize,
        kind: *mut u64,
        ptsnumber: *mut u64,
        pts: *mut u64,
        dtsnumber: *mut u64,
        dts: *mut u64,
    ) -> u32;
    pub fn cmv_pes_contents_escr(buf: *const u8, buf_len: usize, base: *mut u64, extension: *mut u64) -> u32;
    pub fn cmv_pes_contents_es_rate(buf: *const u8, buf_len: usize, value: *mut u64) -> u32;
    pub fn cmv_pes_contents_dsm_trick_mode(
        buf: *const u8,
        buf_len: usize,
        kind: *mut u64,
        first: *mut u64,
        second: *mut u64,
        third: *mut u64,
    ) -> u32;
    pub fn cmv_pes_contents_raw_trick_mode(buf: *const u8, buf_len: usize, value: *mut u64) -> u32;
    pub fn cmv_pes_contents_additional_copy_info(buf: *const u8, buf_len: usize, value: *mut u64) -> u32;
    pub fn cmv_pes_contents_previous_pes_packet_crc(buf: *const u8, buf_len: usize, value: *mut u64) -> u32;
    pub fn cmv_pes_contents_pes_extension(buf: *const u8, buf_len: usize, place: *mut u64, length: *mut u64) -> u32;
    pub fn cmv_pes_contents_payload(buf: *const u8, buf_len: usize, place: *mut u64, length: *mut u64) -> u32;
    pub fn cmv_es_rate_new(rate: u32, value: *mut u64) -> u32;
    pub fn cmv_es_rate_bytes_per_second(rate: u32, value: *mut u64) -> u32;
    pub fn cmv_clock_ref_from_slice(buf: *const u8, buf_len: usize, base: *mut u64, extension: *mut u64) -> u32;
    pub fn cmv_clock_ref_from_parts(b: u64, e: u16, base: *mut u64, extension: *mut u64) -> u32;
    pub fn cmv_clock_ref_into_u64(base: u64, extension: u16, number: *mut u64) -> u32;
    pub fn cmv_clock_ref_eq(base: u64, extension: u16, base2: u64, extension2: u16, same: *mut u64) -> u32;
    pub fn cmv_continuity_counter_new(count: u8, value: *mut u64) -> u32;
    pub fn cmv_continuity_counter_compare(count: u8, last: u8, compared: *mut u64) -> u32;
    pub fn cmv_continuity_counter_follows(count: u8, other: u8, follows: *mut u64) -> u32;
    pub fn cmv_pid_new(pid: u16, value: *mut u64) -> u32;
    pub fn cmv_pid_try_from(pid: u16, value: *mut u64) -> u32;
    pub fn cmv_adaptation_control(byte: u8, field: *mut u64, payload: *mut u64) -> u32;
    pub fn cmv_transport_scrambling_control(byte: u8, scrambled: *mut u64, scheme: *mut u64) -> u32;
    pub fn cmv_control_constants(max: *mut u64, count: *mut u64) -> u32;
    pub fn cmv_packet_is_sync_byte(b: u8, is: *mut u64) -> u32;
    pub fn cmv_packet_try_new(buf: *const u8, buf_len: usize) -> u32;
    pub fn cmv_packet_transport_error_indicator(buf: *const u8, buf_len: usize, value: *mut u64) -> u32;
    pub fn cmv_packet_payload_unit_start_indicator(buf: *const u8, buf_len: usize, value: *mut u64) -> u32;
    pub fn cmv_packet_transport_priority(buf: *const u8, buf_len: usize, value: *mut u64) -> u32;
    pub fn cmv_packet_pid(buf: *const u8, buf_len: usize, value: *mut u64) -> u32;
    pub fn cmv_packet_transport_scrambling_control(
        buf: *const u8,
        buf_len: usize,
        scrambled: *mut u64,
        scheme: *mut u64,
    ) -> u32;
    pub fn cmv_packet_adaptation_control(buf: *const u8, buf_len: usize, field: *mut u64, payload: *mut u64) -> u32;
    pub fn cmv_packet_continuity_counter(buf: *const u8, buf_len: usize, value: *mut u64) -> u32;
    pub fn cmv_packet_adaptation_field(buf: *const u8, buf_len: usize, place: *mut u64, length: *mut u64) -> u32;
    pub fn cmv_packet_payload(buf: *const u8, buf_len: usize, place: *mut u64, length: *mut u64) -> u32;
    pub fn cmv_packet_constants(sync: *mut u64, size: *mut u64) -> u32;
    pub fn cmv_pes_header_from_bytes(buf: *const u8, buf_len: usize) -> u32;
    pub fn cmv_pes_header_stream_id(buf: *const u8, buf_len: usize, kind: *mut u64, low: *mut u64) -> u32;
    pub fn cmv_pes_header_pes_packet_length(buf: *const u8, buf_len: usize, kind: *mut u64, length: *mut u64) -> u32;
    pub fn cmv_pes_header_contents(
        buf: *const u8,
        buf_len: usize,
        kind: *mut u64,
        place: *mut u64,
        length: *mut u64,
    ) -> u32;
    pub fn cmv_timestamp_from_pts_bytes(buf: *const u8, buf_len: usize, value: *mut u64) -> u32;
    pub fn cmv_timestamp_from_dts_bytes(buf: *const u8, buf_len: usize, value: *mut u64) -> u32;
    pub fn cmv_timestamp_from_bytes(buf: *const u8, buf_len: usize, value: *mut u64) -> u32;
    pub fn cmv_timestamp_from_u64(val: u64, value: *mut u64) -> u32;
    pub fn cmv_timestamp_likely_wrapped_since(val: u64, since: u64, wrapped: *mut u64) -> u32;
    pub fn cmv_timestamp_constants(max: *mut u64, timebase: *mut u64) -> u32;
    pub fn cmv_gather_fresh(state: *mut [u64; 3]);
    pub fn cmv_gather(
        state: *mut [u64; 3],
        packet: *const u8,
        packet_len: usize,
        kind: u8,
        place: u8,
        length: u8,
        store: *mut u8,
        store_len: usize,
    ) -> u32;
    pub fn cmv_gather_bytes(
        state: *const [u64; 3],
        packet: *const u8,
        packet_len: usize,
        store: *const u8,
        store_len: usize,
        slice: *mut u64,
        place: *mut u64,
        length: *mut u64,
    ) -> u32;
    pub fn cmv_machine_fresh(state: *mut [u64; 7]);
    pub fn cmv_machine_standard(state: *mut [u64; 7]);
    pub fn cmv_machine_step(
        state: *mut [u64; 7],
        packet: *const u8,
        packet_len: usize,
        log: *mut u8,
        log_len: usize,
    ) -> u32;
    pub fn cmv_machine_run(
        state: *mut [u64; 7],
        bytes: *const u8,
        bytes_len: usize,
        log: *mut u8,
        log_len: usize,
        taken: *mut u64,
        ended: *mut u64,
    ) -> u32;
    pub fn cmv_log_entry_at(
        log: *const u8,
        log_len: usize,
        at: usize,
        kind: *mut u64,
        index: *mut u64,
        place: *mut u64,
        length: *mut u64,
    ) -> u32;
    pub fn cmv_write(
        pid: u16,
        counter: u8,
        unit: *const [u64; 20],
        payload: *const u8,
        payload_len: usize,
        out: *mut u8,
        out_len: usize,
        count: *mut u64,
    ) -> u32;
    pub fn cmv_pes_contents_fields(buf: *const u8, buf_len: usize, fields: *mut [u64; 34]) -> u32;
    pub fn cmv_packet_fields(packet: *const u8, packet_len: usize, fields: *mut [u64; 15]) -> u32;
    pub fn cmv_pes_header_fields(buf: *const u8, buf_len: usize, fields: *mut [u64; 7]) -> u32;
}
