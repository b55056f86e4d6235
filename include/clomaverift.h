/* Clomaverift: the header reader of a transport stream analyser, proved. The functions of libclomaverift.a, for C and C++ on x86-64. Made
   by tools/header from the sources and from tools/header.txt: not to be edited.

   A function returns 0 on success, else a word: number + 256 * first + 65536 * second, that is the number of the refusal and up to two
   numbers that go with it, 0 where there are none. CMV_NUMBER, CMV_FIRST and CMV_SECOND take it apart. The comment of a function tells
   every number that it refuses with, in the order in which it tests for them, and when; if it does not say when, the head of the group
   does. The functions that return nothing, cmv_machine_fresh, cmv_machine_standard and cmv_gather_fresh, refuse nothing.

   An out number, uint64_t *, is written on 0 and only then; one that the answer has no value for is written 0. So is a row of out numbers.
   A row that is a state is written on 0 only, by cmv_gather on 20 too. After a refusal the bytes that a function writes to, the log, the
   store and the output, are as they were before the call. A truth value is 0 or 1. place and length are a part of a slice: it begins place
   bytes after the first byte of the slice that the comment names, has length bytes, and lies within the slice.

   A slice is a pointer and a length in bytes, a row a pointer to the first of its numbers. No pointer may be null, also where the length
   is 0, and no two of the numbers and bytes lent in one call may share a byte where one of them is written. A function keeps no pointer,
   allocates nothing and has no state of its own, so that several threads may call it, each on numbers and bytes that no other one
   writes. */
#ifndef CLOMAVERIFT_H
#define CLOMAVERIFT_H

#include <stddef.h>
#include <stdint.h>

#ifdef __cplusplus
extern "C" {
#endif

#define CMV_VERSION "0.1.0"

/* The layout of the library: its signatures, rows and numbers. An archive of another layout has another symbol in place of this one, and a
   file that includes this header does not link with it. The pointer is the reference; nothing has to read it. */
extern const unsigned char cmv_abi_3;
#if defined(__has_attribute)
#if __has_attribute(retain)
__attribute__((used, retain))
#else
__attribute__((used))
#endif
#elif defined(__GNUC__)
__attribute__((used))
#endif
static const unsigned char *const cmv_abi = &cmv_abi_3;

/* The numbers of the answers. */
enum {
    CMV_DONE = 0, /* accepted */
    CMV_WRONG_LENGTH = 1, /* the length of a packet, a run, a timestamp or a clock reference is wrong, or an adaptation field is empty */
    CMV_NO_SYNC = 2, /* the first byte of a packet is not 47 hex */
    CMV_SHORT_HEADER = 3, /* a PES packet fewer than 6 bytes */
    CMV_BAD_START_CODE = 4, /* the first three bytes of a PES packet are not 00 00 01 */
    CMV_SHORT_CONTENTS = 5, /* fewer than 3 bytes after the head of a PES packet */
    CMV_BAD_CHECK_BITS = 6, /* the top two bits after the head are not 10 */
    CMV_HEADER_PAST_BUFFER = 7, /* the header data ends past the bytes */
    CMV_FIELDS_PAST_HEADER = 8, /* the fields whose flags are set end past the header data */
    CMV_FIELD_NOT_PRESENT = 9, /* the field is not there: its flag is 0, or the packet has no payload or no adaptation field */
    CMV_PTS_DTS_FLAGS_INVALID = 10, /* the PTS_DTS_flags are 01 */
    CMV_NOT_ENOUGH_DATA = 11, /* an adaptation field or its extension ends before the field does, or the extension is empty */
    CMV_MARKER_BIT_NOT_SET = 12, /* a marker bit is 0; first: the number of the bit */
    CMV_INCORRECT_PREFIX_BITS = 13, /* the four prefix bits of a timestamp are wrong; first: those expected, second: those found */
    CMV_OUT_OF_RANGE = 14, /* a number is out of range: a value, a state, an event, a place of the log or the row of a unit */
    CMV_LOG_FULL = 15, /* the events of the packet need more bytes than the log has left */
    CMV_INDEX_FULL = 16, /* 4,294,967,295 packets were taken already */
    CMV_BAD_FIELD = 17, /* the writer: a field cannot be written */
    CMV_TOO_LONG = 18, /* the writer: more bytes than a unit may have */
    CMV_NO_ROOM = 19, /* the writer: the output has no room for all packets */
    CMV_STORE_FULL = 20 /* the gathering store: the unit would exceed the store */
};

/* The number of a word, and the first and the second number that go with it. */
#define CMV_NUMBER(word) ((word) & 255)
#define CMV_FIRST(word) ((word) >> 8 & 255)
#define CMV_SECOND(word) ((word) >> 16)

/* The bytes of a packet. */
#define CMV_PACKET_SIZE 188

/* ---- Packets.
   A packet is a slice of 188 bytes that begins with 47 hex. Every place is within the packet.
   Refusals of the functions of this group:
   1: the slice is not 188 bytes long.
   2: its first byte is not 47 hex. */

/* is: whether b is 47 hex, the first byte of every packet.
   Never refused. */
uint32_t cmv_packet_is_sync_byte(uint8_t b, uint64_t *is);

/* Whether buf is a packet.
   Refused with 1, 2. */
uint32_t cmv_packet_try_new(const uint8_t *buf, size_t buf_len);

/* value: transport_error_indicator. 1 marks a packet that was damaged on its way.
   Refused with 1, 2. */
uint32_t cmv_packet_transport_error_indicator(const uint8_t *buf, size_t buf_len, uint64_t *value);

/* value: payload_unit_start_indicator. 1 says that a unit, such as a PES packet, begins with the payload.
   Refused with 1, 2. */
uint32_t cmv_packet_payload_unit_start_indicator(const uint8_t *buf, size_t buf_len, uint64_t *value);

/* value: transport_priority, 0 or 1.
   Refused with 1, 2. */
uint32_t cmv_packet_transport_priority(const uint8_t *buf, size_t buf_len, uint64_t *value);

/* value: the PID, 0 to 8191.
   Refused with 1, 2. */
uint32_t cmv_packet_pid(const uint8_t *buf, size_t buf_len, uint64_t *value);

/* scrambled: whether transport_scrambling_control is not 00. scheme: its two bits as a number, 0 if the packet is not scrambled.
   Refused with 1, 2. */
uint32_t cmv_packet_transport_scrambling_control(const uint8_t *buf, size_t buf_len, uint64_t *scrambled, uint64_t *scheme);

/* field, payload: whether the two bits of adaptation_field_control announce an adaptation field, and a payload. What they announce may
   still be refused with 9 by cmv_packet_adaptation_field or cmv_packet_payload.
   Refused with 1, 2. */
uint32_t cmv_packet_adaptation_control(const uint8_t *buf, size_t buf_len, uint64_t *field, uint64_t *payload);

/* value: continuity_counter, 0 to 15.
   Refused with 1, 2. */
uint32_t cmv_packet_continuity_counter(const uint8_t *buf, size_t buf_len, uint64_t *value);

/* place, length: the adaptation field without its length byte, within the packet. place is 5; length is 1 to 182 beside a payload, else
   183.
   Refused with 1, 2, 9.
   9: no adaptation field is announced, or its length byte says another length than these. */
uint32_t cmv_packet_adaptation_field(const uint8_t *buf, size_t buf_len, uint64_t *place, uint64_t *length);

/* place, length: the payload, within the packet. It goes to the packet's end and is never empty.
   Refused with 1, 2, 9.
   9: no payload is announced, or the adaptation field leaves no byte for it. */
uint32_t cmv_packet_payload(const uint8_t *buf, size_t buf_len, uint64_t *place, uint64_t *length);

/* sync: 47 hex. size: 188.
   Never refused. */
uint32_t cmv_packet_constants(uint64_t *sync, uint64_t *size);

/* All that the functions above report of a packet, as a row. A word within it is that of the function, 0 or 9; with 9, place and length are
   0.
   Refused with 1, 2. */
uint32_t cmv_packet_fields(const uint8_t *packet, size_t packet_len, uint64_t fields[15]);

/* The places of the row of cmv_packet_fields. */
enum {
    CMV_PACKET_FIELDS_ERROR = 0, /* transport_error_indicator */
    CMV_PACKET_FIELDS_START = 1, /* payload_unit_start_indicator */
    CMV_PACKET_FIELDS_PRIORITY = 2, /* transport_priority */
    CMV_PACKET_FIELDS_PID = 3, /* 0 to 8191 */
    CMV_PACKET_FIELDS_COUNTER = 4, /* continuity_counter */
    CMV_PACKET_FIELDS_SCRAMBLED = 5, /* whether the packet is scrambled */
    CMV_PACKET_FIELDS_SCHEME = 6, /* transport_scrambling_control */
    CMV_PACKET_FIELDS_FIELD = 7, /* whether an adaptation field is announced */
    CMV_PACKET_FIELDS_PAYLOAD = 8, /* whether a payload is announced */
    CMV_PACKET_FIELDS_FIELD_WORD = 9, /* of cmv_packet_adaptation_field */
    CMV_PACKET_FIELDS_FIELD_PLACE = 10, /* within the packet */
    CMV_PACKET_FIELDS_FIELD_LENGTH = 11, /* in bytes */
    CMV_PACKET_FIELDS_PAYLOAD_WORD = 12, /* of cmv_packet_payload */
    CMV_PACKET_FIELDS_PAYLOAD_PLACE = 13, /* within the packet */
    CMV_PACKET_FIELDS_PAYLOAD_LENGTH = 14, /* in bytes */
    CMV_PACKET_FIELDS_SIZE = 15 /* how many numbers the row has */
};

/* ---- The adaptation field.
   buf is an adaptation field without its length byte, the part that cmv_packet_adaptation_field reports. Every place is within buf.
   Refusals of the functions of this group:
   1: buf is empty. */

/* value: discontinuity_indicator, 0 or 1.
   Refused with 1. */
uint32_t cmv_adaptation_field_discontinuity_indicator(const uint8_t *buf, size_t buf_len, uint64_t *value);

/* value: random_access_indicator, 0 or 1.
   Refused with 1. */
uint32_t cmv_adaptation_field_random_access_indicator(const uint8_t *buf, size_t buf_len, uint64_t *value);

/* value: elementary_stream_priority_indicator, 0 or 1.
   Refused with 1. */
uint32_t cmv_adaptation_field_elementary_stream_priority_indicator(const uint8_t *buf, size_t buf_len, uint64_t *value);

/* base, extension: the PCR. base has 33 bits and counts ticks of 90 kHz, extension has 9 bits; cmv_clock_ref_into_u64 makes one number of
   them.
   Refused with 1, 9, 11.
   9: PCR_flag is 0.
   11: buf ends before the PCR does. */
uint32_t cmv_adaptation_field_pcr(const uint8_t *buf, size_t buf_len, uint64_t *base, uint64_t *extension);

/* base, extension: the OPCR, in the form of a PCR.
   Refused with 1, 9, 11.
   9: OPCR_flag is 0.
   11: buf ends before the OPCR does. */
uint32_t cmv_adaptation_field_opcr(const uint8_t *buf, size_t buf_len, uint64_t *base, uint64_t *extension);

/* value: the byte splice_countdown, 0 to 255. The standard takes it for a signed number.
   Refused with 1, 9, 11.
   9: splicing_point_flag is 0.
   11: buf ends before the byte. */
uint32_t cmv_adaptation_field_splice_countdown(const uint8_t *buf, size_t buf_len, uint64_t *value);

/* place, length: the private data without its length byte. It may be empty.
   Refused with 1, 9, 11.
   9: transport_private_data_flag is 0.
   11: buf ends before the length byte or before the data does. */
uint32_t cmv_adaptation_field_transport_private_data(const uint8_t *buf, size_t buf_len, uint64_t *place, uint64_t *length);

/* place, length: the adaptation field extension without its length byte. It is never empty.
   Refused with 1, 9, 11.
   9: adaptation_field_extension_flag is 0.
   11: buf ends before the length byte or before the extension does, or the length byte is 0. */
uint32_t cmv_adaptation_field_extension(const uint8_t *buf, size_t buf_len, uint64_t *place, uint64_t *length);

/* ---- The extension of the adaptation field.
   buf is an adaptation field extension without its length byte, the part that cmv_adaptation_field_extension reports. */

/* kind 1: ltw_valid_flag is 1, and offset is ltw_offset, 15 bits. kind 0: the flag is 0, and so is offset.
   Refused with 9, 11.
   9: ltw_flag is 0.
   11: buf is empty, which is tested before 9, or ends before the two bytes do. */
uint32_t cmv_adaptation_extension_ltw_offset(const uint8_t *buf, size_t buf_len, uint64_t *kind, uint64_t *offset);

/* value: piecewise_rate, 22 bits.
   Refused with 9, 11.
   9: piecewise_rate_flag is 0.
   11: buf is empty, which is tested before 9, or ends before the three bytes do. */
uint32_t cmv_adaptation_extension_piecewise_rate(const uint8_t *buf, size_t buf_len, uint64_t *value);

/* splice: Splice_type, 4 bits. dts: DTS_next_AU, 33 bits, which counts ticks of 90 kHz.
   Refused with 9, 11, 12.
   9: seamless_splice_flag is 0.
   11: buf is empty, which is tested before 9, or ends before the five bytes do.
   12: a marker bit of the five bytes is 0; first: 7, 23 or 39, where 0 is the top bit of the first of them. */
uint32_t cmv_adaptation_extension_seamless_splice(const uint8_t *buf, size_t buf_len, uint64_t *splice, uint64_t *dts);

/* ---- Heads of PES packets.
   buf begins with the head of a PES packet, six bytes: so does, on a PID that carries PES packets, the payload of a packet whose
   payload_unit_start_indicator is 1. Every place is within buf.
   Refusals of the functions of this group:
   3: buf is fewer than 6 bytes.
   4: its first three bytes are not 00 00 01. */

/* Whether buf begins with a head.
   Refused with 3, 4. */
uint32_t cmv_pes_header_from_bytes(const uint8_t *buf, size_t buf_len);

/* kind C0 hex: audio, and E0 hex: video, each with the low five bits of the id in low. kind 0: an id below BC hex, which is in low. Any
   other kind is the id itself, and low is 0; in hex: BC program stream map, BD private stream 1, BE padding, BF private stream 2, F0 ECM,
   F1 EMM, F2 DSM-CC, F3 ISO 13522, F4 to F8 H.222.1 types A to E, F9 ancillary, FA SL-packetized, FB FlexMux, FC metadata, FD extended
   stream id, FE reserved data, FF program stream directory.
   Refused with 3, 4. */
uint32_t cmv_pes_header_stream_id(const uint8_t *buf, size_t buf_len, uint64_t *kind, uint64_t *low);

/* kind 1: bounded, and length is PES_packet_length, the bytes after the head. kind 0: unbounded, PES_packet_length is 0, and so is length.
   Refused with 3, 4. */
uint32_t cmv_pes_header_pes_packet_length(const uint8_t *buf, size_t buf_len, uint64_t *kind, uint64_t *length);

/* place, length: all bytes after the head, which are not cut to PES_packet_length: place is 6. kind 1: they are parsed contents, for the
   functions below. kind 0: they are the payload; the ids with a bare payload are, in hex, BC, BE, BF, F0, F1, F2, F8 and FF.
   Refused with 3, 4. */
uint32_t cmv_pes_header_contents(const uint8_t *buf, size_t buf_len, uint64_t *kind, uint64_t *place, uint64_t *length);

/* All that the functions above report of a head, as a row.
   Refused with 3, 4. */
uint32_t cmv_pes_header_fields(const uint8_t *buf, size_t buf_len, uint64_t fields[7]);

/* The places of the row of cmv_pes_header_fields. */
enum {
    CMV_PES_HEADER_FIELDS_ID_KIND = 0, /* kind of cmv_pes_header_stream_id */
    CMV_PES_HEADER_FIELDS_ID_LOW = 1, /* low of it */
    CMV_PES_HEADER_FIELDS_LENGTH_KIND = 2, /* kind of cmv_pes_header_pes_packet_length */
    CMV_PES_HEADER_FIELDS_LENGTH = 3, /* PES_packet_length */
    CMV_PES_HEADER_FIELDS_CONTENTS_KIND = 4, /* kind of cmv_pes_header_contents */
    CMV_PES_HEADER_FIELDS_CONTENTS_PLACE = 5, /* within buf */
    CMV_PES_HEADER_FIELDS_CONTENTS_LENGTH = 6, /* in bytes */
    CMV_PES_HEADER_FIELDS_SIZE = 7 /* how many numbers the row has */
};

/* ---- Parsed contents of PES packets.
   buf is what follows the head, the part that cmv_pes_header_contents reports with kind 1: two bytes of flags, the length of the header
   data, the header data and the payload. Every place is within buf.
   Refusals of the functions of this group:
   5: buf is fewer than 3 bytes.
   6: the top two bits of its first byte are not 10.
   7: the header data, as long as the third byte says, ends past buf.
   8: the fields whose flags are set end past the header data. */

/* Whether buf is accepted by these tests.
   Refused with 5, 6, 7, 8. */
uint32_t cmv_pes_contents_from_bytes(const uint8_t *buf, size_t buf_len);

/* value: PES_priority, 0 or 1.
   Refused with 5, 6, 7, 8. */
uint32_t cmv_pes_contents_pes_priority(const uint8_t *buf, size_t buf_len, uint64_t *value);

/* value: PES_scrambling_control, 2 bits. cmv_pes_contents_payload reports the payload also if it is scrambled.
   Refused with 5, 6, 7, 8. */
uint32_t cmv_pes_contents_pes_scrambling_control(const uint8_t *buf, size_t buf_len, uint64_t *value);

/* value: the second byte, from the top bit on PTS_DTS_flags 2 bits, ESCR_flag, ES_rate_flag, DSM_trick_mode_flag,
   additional_copy_info_flag, PES_CRC_flag, PES_extension_flag.
   Refused with 5, 6, 7, 8. */
uint32_t cmv_pes_contents_flags(const uint8_t *buf, size_t buf_len, uint64_t *value);

/* value: PES_header_data_length, the third byte.
   Refused with 5, 6, 7, 8. */
uint32_t cmv_pes_contents_pes_header_data_len(const uint8_t *buf, size_t buf_len, uint64_t *value);

/* value: data_alignment_indicator, 1 if the payload is aligned.
   Refused with 5, 6, 7, 8. */
uint32_t cmv_pes_contents_data_alignment_indicator(const uint8_t *buf, size_t buf_len, uint64_t *value);

/* value: the copyright bit. In the standard 1 is protected and 0 says nothing; in the Rust crates mpeg2ts-reader and clomaverift 1 is
   Undefined and 0 is Protected.
   Refused with 5, 6, 7, 8. */
uint32_t cmv_pes_contents_copyright(const uint8_t *buf, size_t buf_len, uint64_t *value);

/* value: original_or_copy, 1 for an original and 0 for a copy.
   Refused with 5, 6, 7, 8. */
uint32_t cmv_pes_contents_original_or_copy(const uint8_t *buf, size_t buf_len, uint64_t *value);

/* kind 1: a PTS alone. kind 2: a PTS and a DTS. If ptsnumber is 0, pts is the PTS, 33 bits that count ticks of 90 kHz. If ptsnumber is 12,
   a marker bit of it is 0 and pts is the number of that bit, 7, 23 or 39, where 0 is the top bit of its five bytes. So are dtsnumber and
   dts of the DTS; with kind 1 both are 0. A marker bit that is 0 in one of the two does not refuse the other. The prefix bits of the two
   are not looked at.
   Refused with 5, 6, 7, 8, 9, 10.
   9: PTS_DTS_flags are 00.
   10: they are 01. */
uint32_t cmv_pes_contents_pts_dts(const uint8_t *buf, size_t buf_len, uint64_t *kind, uint64_t *ptsnumber, uint64_t *pts,
    uint64_t *dtsnumber, uint64_t *dts);

/* base, extension: the ESCR, 33 and 9 bits, in the form of a PCR. Its marker bits are not looked at.
   Refused with 5, 6, 7, 8, 9.
   9: ESCR_flag is 0. */
uint32_t cmv_pes_contents_escr(const uint8_t *buf, size_t buf_len, uint64_t *base, uint64_t *extension);

/* value: ES_rate, 22 bits, in units of 50 bytes a second. Its marker bits are not looked at.
   Refused with 5, 6, 7, 8, 9.
   9: ES_rate_flag is 0. */
uint32_t cmv_pes_contents_es_rate(const uint8_t *buf, size_t buf_len, uint64_t *value);

/* kind 0: fast forward, and kind 3: fast reverse; first is field_id, second intra_slice_refresh, third frequency_truncation (which
   coefficients may be non-zero: 0 DC only, 1 the first three, 2 the first six, 3 all). kind 2: freeze frame; first is field_id, second the
   reserved bits. kind 1: slow motion, kind 4: slow reverse and kind 5: a reserved mode; first is trick_mode_control, as mpeg2ts-reader
   gives it, and not the five bits after it: they are in the byte that cmv_pes_contents_raw_trick_mode gives. A number that a kind does not
   have is 0.
   Refused with 5, 6, 7, 8, 9.
   9: DSM_trick_mode_flag is 0. */
uint32_t cmv_pes_contents_dsm_trick_mode(const uint8_t *buf, size_t buf_len, uint64_t *kind, uint64_t *first, uint64_t *second,
    uint64_t *third);

/* value: the trick mode byte: trick_mode_control in its top three bits, and what the mode has in the five others.
   Refused with 5, 6, 7, 8, 9.
   9: DSM_trick_mode_flag is 0. */
uint32_t cmv_pes_contents_raw_trick_mode(const uint8_t *buf, size_t buf_len, uint64_t *value);

/* value: additional_copy_info, 7 bits.
   Refused with 5, 6, 7, 8, 9, 12.
   9: additional_copy_info_flag is 0.
   12: its marker bit is 0; first: 0, the top bit of its byte. */
uint32_t cmv_pes_contents_additional_copy_info(const uint8_t *buf, size_t buf_len, uint64_t *value);

/* value: previous_PES_packet_CRC, 16 bits. It is compared with nothing.
   Refused with 5, 6, 7, 8, 9.
   9: PES_CRC_flag is 0. */
uint32_t cmv_pes_contents_previous_pes_packet_crc(const uint8_t *buf, size_t buf_len, uint64_t *value);

/* place, length: the PES extension and the stuffing after it, up to the end of the header data. It may be empty.
   Refused with 5, 6, 7, 8, 9.
   9: PES_extension_flag is 0. */
uint32_t cmv_pes_contents_pes_extension(const uint8_t *buf, size_t buf_len, uint64_t *place, uint64_t *length);

/* place, length: the payload, all bytes after the header data. It may be empty.
   Refused with 5, 6, 7, 8. */
uint32_t cmv_pes_contents_payload(const uint8_t *buf, size_t buf_len, uint64_t *place, uint64_t *length);

/* All that the functions above report of parsed contents, as a row. A word within it is that of the function, of which 5 to 8 cannot come;
   if it is not 0, the numbers after it are 0.
   Refused with 5, 6, 7, 8. */
uint32_t cmv_pes_contents_fields(const uint8_t *buf, size_t buf_len, uint64_t fields[34]);

/* The places of the row of cmv_pes_contents_fields. */
enum {
    CMV_PES_CONTENTS_FIELDS_SCRAMBLING_CONTROL = 0, /* PES_scrambling_control */
    CMV_PES_CONTENTS_FIELDS_PRIORITY = 1, /* PES_priority */
    CMV_PES_CONTENTS_FIELDS_ALIGNMENT = 2, /* data_alignment_indicator */
    CMV_PES_CONTENTS_FIELDS_COPYRIGHT = 3, /* the copyright bit */
    CMV_PES_CONTENTS_FIELDS_ORIGINAL = 4, /* original_or_copy */
    CMV_PES_CONTENTS_FIELDS_FLAGS = 5, /* the second byte */
    CMV_PES_CONTENTS_FIELDS_HEADER_DATA_LENGTH = 6, /* PES_header_data_length */
    CMV_PES_CONTENTS_FIELDS_TIMES_WORD = 7, /* of cmv_pes_contents_pts_dts */
    CMV_PES_CONTENTS_FIELDS_TIMES_KIND = 8, /* 1 a PTS, 2 a PTS and a DTS */
    CMV_PES_CONTENTS_FIELDS_PTS_NUMBER = 9, /* 0 or 12 */
    CMV_PES_CONTENTS_FIELDS_PTS = 10, /* or the number of the bit */
    CMV_PES_CONTENTS_FIELDS_DTS_NUMBER = 11, /* 0 or 12 */
    CMV_PES_CONTENTS_FIELDS_DTS = 12, /* or the number of the bit */
    CMV_PES_CONTENTS_FIELDS_ESCR_WORD = 13, /* of cmv_pes_contents_escr */
    CMV_PES_CONTENTS_FIELDS_ESCR_BASE = 14, /* 33 bits */
    CMV_PES_CONTENTS_FIELDS_ESCR_EXTENSION = 15, /* 9 bits */
    CMV_PES_CONTENTS_FIELDS_RATE_WORD = 16, /* of cmv_pes_contents_es_rate */
    CMV_PES_CONTENTS_FIELDS_RATE = 17, /* ES_rate */
    CMV_PES_CONTENTS_FIELDS_TRICK_WORD = 18, /* of cmv_pes_contents_dsm_trick_mode */
    CMV_PES_CONTENTS_FIELDS_TRICK_KIND = 19, /* kind of it */
    CMV_PES_CONTENTS_FIELDS_TRICK_FIRST = 20, /* first of it */
    CMV_PES_CONTENTS_FIELDS_TRICK_SECOND = 21, /* second of it */
    CMV_PES_CONTENTS_FIELDS_TRICK_THIRD = 22, /* third of it */
    CMV_PES_CONTENTS_FIELDS_RAW_TRICK_WORD = 23, /* of cmv_pes_contents_raw_trick_mode */
    CMV_PES_CONTENTS_FIELDS_RAW_TRICK = 24, /* the trick mode byte */
    CMV_PES_CONTENTS_FIELDS_COPY_INFO_WORD = 25, /* of cmv_pes_contents_additional_copy_info */
    CMV_PES_CONTENTS_FIELDS_COPY_INFO = 26, /* 7 bits */
    CMV_PES_CONTENTS_FIELDS_CRC_WORD = 27, /* of cmv_pes_contents_previous_pes_packet_crc */
    CMV_PES_CONTENTS_FIELDS_CRC = 28, /* 16 bits */
    CMV_PES_CONTENTS_FIELDS_EXTENSION_WORD = 29, /* of cmv_pes_contents_pes_extension */
    CMV_PES_CONTENTS_FIELDS_EXTENSION_PLACE = 30, /* within buf */
    CMV_PES_CONTENTS_FIELDS_EXTENSION_LENGTH = 31, /* in bytes */
    CMV_PES_CONTENTS_FIELDS_PAYLOAD_PLACE = 32, /* within buf */
    CMV_PES_CONTENTS_FIELDS_PAYLOAD_LENGTH = 33, /* in bytes */
    CMV_PES_CONTENTS_FIELDS_SIZE = 34 /* how many numbers the row has */
};

/* value: rate, if it is an ES rate.
   Refused with 14.
   14: rate is 2^22 or more. */
uint32_t cmv_es_rate_new(uint32_t rate, uint64_t *value);

/* value: the bytes a second of the ES rate, 50 * rate.
   Refused with 14.
   14: rate is 2^22 or more. */
uint32_t cmv_es_rate_bytes_per_second(uint32_t rate, uint64_t *value);

/* ---- Timestamps.
   A timestamp is five bytes: 4 prefix bits, and 33 bits in three parts with a marker bit after each. value counts ticks of 90 kHz. buf
   begins with one, and may be longer.
   Refusals of the functions of this group:
   1: buf is fewer than 5 bytes.
   12: a marker bit is 0; first: 7, 23 or 39, where 0 is the top bit of the first byte. */

/* value: the timestamp, if its prefix is 0010.
   Refused with 1, 13, 12.
   13: the prefix is another; first: 2, second: the prefix that is there. */
uint32_t cmv_timestamp_from_pts_bytes(const uint8_t *buf, size_t buf_len, uint64_t *value);

/* value: the timestamp, if its prefix is 0001.
   Refused with 1, 13, 12.
   13: the prefix is another; first: 1, second: the prefix that is there. */
uint32_t cmv_timestamp_from_dts_bytes(const uint8_t *buf, size_t buf_len, uint64_t *value);

/* value: the timestamp, whatever its prefix is.
   Refused with 1, 12. */
uint32_t cmv_timestamp_from_bytes(const uint8_t *buf, size_t buf_len, uint64_t *value);

/* value: val, if it is taken for a timestamp: below 2^34, one bit more than a timestamp has, as mpeg2ts-reader takes it.
   Refused with 14.
   14: val is 2^34 or more. */
uint32_t cmv_timestamp_from_u64(uint64_t val, uint64_t *value);

/* wrapped: whether the clock probably wrapped between since and val: val is at least 2^32 below since.
   Refused with 14.
   14: val or since is 2^34 or more. */
uint32_t cmv_timestamp_likely_wrapped_since(uint64_t val, uint64_t since, uint64_t *wrapped);

/* max: 2^33 - 1, the largest timestamp. timebase: 90,000.
   Never refused. */
uint32_t cmv_timestamp_constants(uint64_t *max, uint64_t *timebase);

/* ---- Clock references, counters, PIDs and the fourth byte of a packet.
   A clock reference is a base of 33 bits, which counts ticks of 90 kHz, and an extension of 9 bits. byte is the fourth byte of a packet. */

/* base, extension: the clock reference in the first six bytes of buf, which may be longer. Its reserved bits are not looked at.
   Refused with 1.
   1: buf is fewer than 6 bytes. */
uint32_t cmv_clock_ref_from_slice(const uint8_t *buf, size_t buf_len, uint64_t *base, uint64_t *extension);

/* base, extension: b and e, if they are a clock reference.
   Refused with 14.
   14: b is 2^33 or more, or e is 512 or more. */
uint32_t cmv_clock_ref_from_parts(uint64_t b, uint16_t e, uint64_t *base, uint64_t *extension);

/* number: base * 300 + extension, which counts ticks of 27 MHz.
   Refused with 14.
   14: base is 2^33 or more, or extension is 512 or more. */
uint32_t cmv_clock_ref_into_u64(uint64_t base, uint16_t extension, uint64_t *number);

/* same: whether base is base2 and extension is extension2.
   Refused with 14.
   14: base or base2 is 2^33 or more, or extension or extension2 is 512 or more. */
uint32_t cmv_clock_ref_eq(uint64_t base, uint16_t extension, uint64_t base2, uint16_t extension2, uint64_t *same);

/* value: count, if it is a counter.
   Refused with 14.
   14: count is above 15. */
uint32_t cmv_continuity_counter_new(uint8_t count, uint64_t *value);

/* compared: 0 if count is the next counter after last (last + 1, and 0 after 15), 1 if it is the same, 2 if it is neither.
   Refused with 14.
   14: count or last is above 15. */
uint32_t cmv_continuity_counter_compare(uint8_t count, uint8_t last, uint64_t *compared);

/* follows: whether count is the next counter after other: other + 1, and 0 after 15.
   Refused with 14.
   14: count or other is above 15. */
uint32_t cmv_continuity_counter_follows(uint8_t count, uint8_t other, uint64_t *follows);

/* value: pid, if it is a PID.
   Refused with 14.
   14: pid is above 8191. */
uint32_t cmv_pid_new(uint16_t pid, uint64_t *value);

/* The same as cmv_pid_new.
   Refused with 14.
   14: pid is above 8191. */
uint32_t cmv_pid_try_from(uint16_t pid, uint64_t *value);

/* field, payload: whether byte announces an adaptation field, and a payload.
   Never refused. */
uint32_t cmv_adaptation_control(uint8_t byte, uint64_t *field, uint64_t *payload);

/* scrambled: whether the top two bits of byte are not 00. scheme: these two bits as a number.
   Never refused. */
uint32_t cmv_transport_scrambling_control(uint8_t byte, uint64_t *scrambled, uint64_t *scheme);

/* max: 8191, the largest PID. count: 8192.
   Never refused. */
uint32_t cmv_control_constants(uint64_t *max, uint64_t *count);

/* ---- The event machine and its log.
   A machine takes the packets of one PID in their order and writes events to a log: one state and one log for each PID. The caller keeps
   the state as a row of numbers and lends it.
   Refusals of the functions of this group:
   1: packet is not 188 bytes long.
   2: its first byte is not 47 hex. */

/* The places of the row of cmv_machine_fresh, cmv_machine_standard, cmv_machine_step, cmv_machine_run. */
enum {
    CMV_MACHINE_MODE = 0, /* by whose rules counters are judged: 0 those of mpeg2ts-reader, 1 those of the standard */
    CMV_MACHINE_PHASE = 1, /* 0 before the first start, 1 after a start, 2 after a break up to the next start */
    CMV_MACHINE_LAST = 2, /* the counter of the last packet, 255 if there is none */
    CMV_MACHINE_AGAIN = 3, /* whether the last packet may be repeated: 0 no, as it had no payload flag; 1 once; 2 no more, as it was dropped as a repeat */
    CMV_MACHINE_ANNOUNCED = 4, /* whether CMV_START_STREAM was given */
    CMV_MACHINE_TAKEN = 5, /* the packets taken so far, which is the index of the next one */
    CMV_MACHINE_PLACE = 6, /* the next free byte of the log, a multiple of 8 */
    CMV_MACHINE_SIZE = 7 /* how many numbers the row has */
};

/* A start is a packet whose payload_unit_start_indicator is 1. A break is one whose counter is not the expected one: the next modulo 16
   if the packet has the payload flag, else the last again. In mode 1 a packet whose adaptation field has the discontinuity_indicator is
   neither a break nor a repeat. Any other one that has the payload flag and the last counter again is a repeat and no break if AGAIN is
   1: it counts as taken and gives no event. In mode 1 a packet that is a start or a break, and no repeat, first gives CMV_START_STREAM
   if ANNOUNCED is 0. In both modes ANNOUNCED becomes 1 with that event, so that MODE may be changed between two packets. The log is a
   slice of bytes, of which an event takes 8. A packet gives at most two events, three in mode 1, so that 24 free bytes are enough for
   one packet. Once its events are read the log can be used again: set PLACE to 0. */

/* How long a log must be: with 8 * (packets + starts) free bytes 15 never comes, whatever the packets are, from every state of mode 0,
   and in mode 1 from the fresh state and once ANNOUNCED is 1. From any other state of mode 1 it can take 8 bytes more. If it is not
   known how many packets are starts, count every packet as one. */

/* The kinds of events. */
enum {
    CMV_START_STREAM = 1, /* in mode 0 the first start, unless a break came before it; in mode 1 the first start or break */
    CMV_BEGIN_PACKET = 2, /* a unit begins: the payload of a start that begins with the head of a PES packet */
    CMV_CONTINUE_PACKET = 3, /* the unit goes on: the payload of a packet that is no start */
    CMV_END_PACKET = 4, /* the unit before is over: the next start came */
    CMV_CONTINUITY_ERROR = 5 /* a break: up to the next start no payload is reported */
};

/* Writes the state before the first packet, with an empty log, in the mode of mpeg2ts-reader: {0, 0, 255, 0, 0, 0, 0}. */
void cmv_machine_fresh(uint64_t state[7]);

/* Writes the same in the standard's mode: {1, 0, 255, 0, 0, 0, 0}. */
void cmv_machine_standard(uint64_t state[7]);

/* Takes one packet. On 0 the state is the next one and the packet's events stand in the log from the old PLACE on.
   Refused with 1, 2, 14, 16, 15.
   14: the state is impossible: MODE or ANNOUNCED above 1, PHASE or AGAIN above 2, LAST above 15 and not 255, TAKEN of more than 32 bits, or
   PLACE above log_len or no multiple of 8.
   16: TAKEN is 4,294,967,295.
   15: the packet's events need more bytes than log has after PLACE. */
uint32_t cmv_machine_step(uint64_t state[7], const uint8_t *packet, size_t packet_len, uint8_t *log, size_t log_len);

/* Takes packets, which follow each other in bytes, up to the first that is refused. On 0 taken is how many it took; ended is 0 if that is
   all of them, else the number that the next one is refused with, 2, 16 or 15; and state and log are those after the packets taken. So if
   ended is 15, read the log, set PLACE to 0 and go on from bytes + 188 * taken; if it is 2, pass over the packet there.
   Refused with 1, 14.
   1: bytes_len is not a multiple of 188.
   14: the state is impossible, as of cmv_machine_step; also if there is no packet. */
uint32_t cmv_machine_run(uint64_t state[7], const uint8_t *bytes, size_t bytes_len, uint8_t *log, size_t log_len, uint64_t *taken,
    uint64_t *ended);

/* kind, index, place, length: the event at byte at of the log. index is that of its packet: TAKEN when it was taken. place and length are
   the payload within that packet; they are 0 for the kinds that have none.
   Refused with 14.
   14: at is no multiple of 8, or fewer than 8 bytes of log follow it, or no event stands there: a kind outside 1 to 5, or low 12 bits
   that are not 0. */
uint32_t cmv_log_entry_at(const uint8_t *log, size_t log_len, size_t at, uint64_t *kind, uint64_t *index, uint64_t *place,
    uint64_t *length);

/* ---- The gathering store.
   A gathering store joins the payload of a unit, without its header, from the events of one PID: one state and one store for each PID. The
   caller keeps the state as a row of numbers and lends it.
   Refusals of the functions of this group:
   1: packet is not 188 bytes long.
   2: its first byte is not 47 hex. */

/* The places of the row of cmv_gather_fresh, cmv_gather, cmv_gather_bytes. */
enum {
    CMV_GATHER_OPEN = 0, /* whether a unit is open */
    CMV_GATHER_COUNT = 1, /* the bytes of the unit so far */
    CMV_GATHER_LIES = 2, /* where they lie: a place within the packet, or 255 for the store */
    CMV_GATHER_SIZE = 3 /* how many numbers the row has */
};

/* The bytes of the unit always stand at the start of the store, COUNT of them. After a begin they also lie in the packet, and LIES is
   their place there. */

/* Writes the state before the first event: {0, 0, 255}. */
void cmv_gather_fresh(uint64_t state[3]);

/* Takes one event, by its kind, place and length as cmv_log_entry_at reports them, and the packet that it is an event of. A begin opens a
   unit with the payload of its PES packet; if the head or the contents are refused, with no bytes. A continue adds its bytes if a unit is
   open, else nothing. An end closes the unit and keeps its bytes and COUNT up to the next begin; also an end with no open unit keeps the
   COUNT of the unit before. A break drops the unit: it is closed, and COUNT is 0. CMV_START_STREAM changes nothing. On 0 the next state is
   written, and the bytes that are added to the store. On 20 the state is written too, {0, 0, 255}: the unit is dropped, and its rest adds
   nothing up to the next begin; the store is not written. On any other refusal nothing is written.
   Refused with 1, 2, 14, 20.
   14: kind is outside 1 to 5 or place + length above 188, or the state is impossible: OPEN above 1, COUNT above store_len, or LIES not 255
   and LIES + COUNT above 188.
   20: the unit would have more than store_len bytes. */
uint32_t cmv_gather(uint64_t state[3], const uint8_t *packet, size_t packet_len, uint8_t kind, uint8_t place, uint8_t length,
    uint8_t *store, size_t store_len);

/* Where the bytes of the unit lie: with slice 0 in packet, with slice 1 in store; place and length are within it. If the last event taken
   that is not CMV_START_STREAM was a begin, they lie in the packet of that begin, and packet must be that one. Else they lie in the store
   from its start on, and packet may be any packet; it is tested all the same. store is the one that was lent to cmv_gather.
   Refused with 1, 2, 14.
   14: the state is impossible, as of cmv_gather. */
uint32_t cmv_gather_bytes(const uint64_t state[3], const uint8_t *packet, size_t packet_len, const uint8_t *store, size_t store_len,
    uint64_t *slice, uint64_t *place, uint64_t *length);

/* ---- The writer.
   A unit is a PES packet. The caller lends all of it but its payload as a row of numbers. A flag is 0 for no and any other number for
   yes. The value of a field whose flag is 0 is not looked at. */

/* The places of the row of cmv_write. */
enum {
    CMV_UNIT_ID = 0, /* stream_id */
    CMV_UNIT_BOUNDED = 1, /* a flag: PES_packet_length has the length of the unit, else 0 */
    CMV_UNIT_PRIORITY = 2, /* a flag: PES_priority */
    CMV_UNIT_ALIGNMENT = 3, /* a flag: data_alignment_indicator */
    CMV_UNIT_COPYRIGHT = 4, /* a flag: the copyright bit */
    CMV_UNIT_ORIGINAL = 5, /* a flag: original_or_copy */
    CMV_UNIT_TIMES = 6, /* 0 none, 1 a PTS, 2 a PTS and a DTS */
    CMV_UNIT_PTS = 7, /* 33 bits, looked at if TIMES is 1 or 2 */
    CMV_UNIT_DTS = 8, /* 33 bits, looked at if TIMES is 2 */
    CMV_UNIT_ESCR_THERE = 9, /* a flag */
    CMV_UNIT_ESCR_BASE = 10, /* 33 bits */
    CMV_UNIT_ESCR_EXTENSION = 11, /* 0 to 299 */
    CMV_UNIT_RATE_THERE = 12, /* a flag */
    CMV_UNIT_RATE = 13, /* ES_rate, 1 to 2^22 - 1 */
    CMV_UNIT_TRICK_THERE = 14, /* a flag */
    CMV_UNIT_TRICK = 15, /* the trick mode byte */
    CMV_UNIT_COPY_INFO_THERE = 16, /* a flag */
    CMV_UNIT_COPY_INFO = 17, /* additional_copy_info, 7 bits */
    CMV_UNIT_CRC_THERE = 18, /* a flag */
    CMV_UNIT_CRC = 19, /* previous_PES_packet_CRC, 16 bits */
    CMV_UNIT_SIZE = 20 /* how many numbers the row has */
};

/* Writes a unit with this payload as packets of one PID, the fewest that can carry it. counter is the continuity counter of the first. On 0
   count is the number of packets, and they stand at the start of out; what is after them is as it was.
   Refused with 14, 17, 18, 19.
   14: the row stands for no unit: ID above 255, TIMES above 2 or, in a field that is there, ESCR_EXTENSION or CRC above 65,535, RATE above
   2^32 - 1, TRICK or COPY_INFO above 255.
   17: pid is not 16 to 8190; counter is above 15; ID is below BC hex or has a bare payload (cmv_pes_header_contents); BOUNDED is 0 and ID
   is not E0 to EF hex; PTS, DTS or ESCR_BASE is 2^33 or more; ESCR_EXTENSION is above 299; RATE is 0 or 2^22 or more; COPY_INFO is above
   127.
   18: payload_len is above 65,536; BOUNDED is not 0 and PES_packet_length would be above 65,535.
   19: out_len / 188, rounded down, is below the number of packets. */
uint32_t cmv_write(uint16_t pid, uint8_t counter, const uint64_t unit[20], const uint8_t *payload, size_t payload_len, uint8_t *out,
    size_t out_len, uint64_t *count);

#ifdef __cplusplus
}
#endif

#endif
