/* Prints the times of the units of a transport stream, read from standard input, and where packets are missing:

       tools/library
       cc -I include include/example.c target/library/libclomaverift.a -o target/example
       target/example <samples/sample.ts
*/
#include <clomaverift.h>
#include <stdio.h>

#define PIDS 8192

/* The most that a packet's events take in a log: there are three at most, and two in the mode of cmv_machine_fresh. */
#define LOG_SIZE 24

/* The state of each PID's event machine. */
static uint64_t machines[PIDS][CMV_MACHINE_SIZE];

static void print_time(const char *name, uint64_t number, uint64_t value) {
    if (number == CMV_DONE) {
        printf(" %s %llu", name, (unsigned long long)value);
    } else {
        printf(" %s refused %llu at bit %llu", name, (unsigned long long)number, (unsigned long long)value);
    }
}

static void print_times(unsigned long index, const uint8_t *contents, size_t length) {
    uint64_t kind, pts_number, pts, dts_number, dts;
    uint32_t word = cmv_pes_contents_pts_dts(contents, length, &kind, &pts_number, &pts, &dts_number, &dts);
    if (word != CMV_DONE) {
        printf("%lu refused %u\n", index, (unsigned)CMV_NUMBER(word));
        return;
    }
    printf("%lu", index);
    print_time("pts", pts_number, pts);
    if (kind == 2) {
        print_time("dts", dts_number, dts);
    }
    printf("\n");
}

/* A unit begins with these bytes of a packet. */
static void begin(unsigned long index, const uint8_t *header, size_t length) {
    uint64_t kind, at, rest;
    if (cmv_pes_header_contents(header, length, &kind, &at, &rest) == CMV_DONE && kind == 1) {
        print_times(index, header + at, rest);
    }
}

static void print_event(unsigned long index, const uint8_t *packet, const uint8_t *log, size_t at) {
    uint64_t kind, count, place, length;
    if (cmv_log_entry_at(log, LOG_SIZE, at, &kind, &count, &place, &length) != CMV_DONE) {
        return;
    }
    if (kind == CMV_BEGIN_PACKET) {
        begin(index, packet + place, length);
    } else if (kind == CMV_CONTINUITY_ERROR) {
        printf("%lu continuity error\n", index);
    }
}

/* Has the machine of the packet's PID take it. Its count of packets and its place in the log begin anew, so nothing is refused. */
static void take(unsigned long index, const uint8_t *packet, uint64_t pid) {
    uint8_t log[LOG_SIZE];
    uint64_t *machine = machines[pid];
    size_t at;
    machine[CMV_MACHINE_TAKEN] = machine[CMV_MACHINE_PLACE] = 0;
    if (cmv_machine_step(machine, packet, CMV_PACKET_SIZE, log, LOG_SIZE) != CMV_DONE) {
        return;
    }
    for (at = 0; at < machine[CMV_MACHINE_PLACE]; at += 8) {
        print_event(index, packet, log, at);
    }
}

int main(void) {
    uint8_t packet[CMV_PACKET_SIZE];
    unsigned long index;
    uint64_t pid;
    for (pid = 0; pid < PIDS; pid++) {
        cmv_machine_fresh(machines[pid]); /* for a station that sends packets twice: cmv_machine_standard */
    }
    for (index = 0; fread(packet, 1, CMV_PACKET_SIZE, stdin) == CMV_PACKET_SIZE; index++) {
        uint32_t word = cmv_packet_pid(packet, CMV_PACKET_SIZE, &pid);
        if (word == CMV_DONE) {
            take(index, packet, pid);
        } else {
            printf("%lu refused %u\n", index, (unsigned)CMV_NUMBER(word));
        }
    }
    return 0;
}
