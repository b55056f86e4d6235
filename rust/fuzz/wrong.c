/* Entries that are wrong in a rare case, to show that the fuzzer finds it. Each stands before the library's own, by the linker's
   --wrap; -DWRONG_ and its name chooses it. */
#include "clomaverift.h"

/* Declares a wrong entry and the library's own as the header has it. */
#define WRONG(entry) __typeof__(entry) __wrap_##entry, __real_##entry

#ifdef WRONG_cmv_pes_contents_pts_dts
WRONG(cmv_pes_contents_pts_dts);

/* An answer that differs: where a PTS and a DTS both lack a marker, the bit that is told for the second. */
uint32_t __wrap_cmv_pes_contents_pts_dts(const uint8_t *buf, size_t buf_len, uint64_t *kind, uint64_t *ptsnumber, uint64_t *pts,
    uint64_t *dtsnumber, uint64_t *dts) {
    uint32_t word = __real_cmv_pes_contents_pts_dts(buf, buf_len, kind, ptsnumber, pts, dtsnumber, dts);
    if (word == 0 && *kind == 2 && *ptsnumber == 12 && *dtsnumber == 12)
        *dts += 1;
    return word;
}
#endif

#ifdef WRONG_cmv_machine_run
WRONG(cmv_machine_run);

/* A lent byte that changes and is not to: where an end and a begin, two entries, do not fit, the log's next byte. */
uint32_t __wrap_cmv_machine_run(uint64_t state[CMV_MACHINE_SIZE], const uint8_t *bytes, size_t bytes_len, uint8_t *log, size_t log_len, uint64_t *taken,
    uint64_t *ended) {
    uint32_t word = __real_cmv_machine_run(state, bytes, bytes_len, log, log_len, taken, ended);
    if (word == 0 && *ended == 15 && state[CMV_MACHINE_PHASE] == 1 && log_len - state[CMV_MACHINE_PLACE] >= 8)
        log[state[CMV_MACHINE_PLACE]] ^= 1;
    return word;
}
#endif

#ifdef WRONG_cmv_machine_step
WRONG(cmv_machine_step);

/* A state that differs: in the standard mode, where a packet comes a third time, which is a break, that it was dropped as the second one. */
uint32_t __wrap_cmv_machine_step(uint64_t state[CMV_MACHINE_SIZE], const uint8_t *packet, size_t packet_len, uint8_t *log, size_t log_len) {
    uint64_t mode = state[CMV_MACHINE_MODE], last = state[CMV_MACHINE_LAST], again = state[CMV_MACHINE_AGAIN];
    uint32_t word = __real_cmv_machine_step(state, packet, packet_len, log, log_len);
    if (word == 0 && mode == 1 && again == 2 && state[CMV_MACHINE_AGAIN] == 1 && state[CMV_MACHINE_LAST] == last)
        state[CMV_MACHINE_AGAIN] = 2;
    return word;
}
#endif

#ifdef WRONG_cmv_gather
WRONG(cmv_gather);

/* A crash: a continuation that fills the store to its last byte, behind bytes that lie in the packet. */
uint32_t __wrap_cmv_gather(uint64_t state[3], const uint8_t *packet, size_t packet_len, uint8_t kind, uint8_t place, uint8_t length,
    uint8_t *store, size_t store_len) {
    uint64_t lay = state[2];
    uint32_t word = __real_cmv_gather(state, packet, packet_len, kind, place, length, store, store_len);
    if (word == 0 && kind == 3 && lay != 255 && length > 0 && state[1] == store_len)
        *(volatile uint8_t *)1 = 0;
    return word;
}
#endif

#ifdef WRONG_cmv_write
WRONG(cmv_write);

/* A written byte that differs: of a unit with a CRC whose last packet lacks one byte, the length of the adaptation field. */
uint32_t __wrap_cmv_write(uint16_t pid, uint8_t counter, const uint64_t unit[20], const uint8_t *payload, size_t payload_len, uint8_t *out,
    size_t out_len, uint64_t *count) {
    uint32_t word = __real_cmv_write(pid, counter, unit, payload, payload_len, out, out_len, count);
    if (word == 0 && unit[18] != 0) {
        uint8_t *last = out + 188 * (*count - 1);
        if ((last[3] & 0x20) && last[4] == 0)
            last[4] = 1;
    }
    return word;
}
#endif
