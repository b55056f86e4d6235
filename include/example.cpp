/* Prints the units of a transport stream of one PID, read from standard input: the packet that each begins in, its PTS and DTS, and how
   many bytes its payload has. A unit that a break cuts off is left out. A station may send packets twice: counters are judged by the
   standard, and repeats are dropped.

       tools/library
       c++ -std=c++11 -I include include/example.cpp target/library/libclomaverift.a -o target/example
       target/example <samples/sample.ts
*/
#include <clomaverift.h>

#include <array>
#include <cstdint>
#include <exception>
#include <iostream>
#include <iterator>
#include <stdexcept>
#include <string>
#include <vector>

namespace {

using Bytes = std::vector<std::uint8_t>;

void accepted(std::uint32_t word) {
    if (word != CMV_DONE) {
        throw std::runtime_error("refused with " + std::to_string(CMV_NUMBER(word)));
    }
}

struct Event {
    std::uint64_t kind, index, place, length;
};

/* The event machine of a PID, with its log. With cmv_machine_fresh a repeated packet would be a break. */
class Machine {
public:
    Machine() : log(1024) { cmv_machine_standard(state.data()); }

    /* Takes packets up to the one that the log has no room for. Gives how many it took, and their events. */
    std::uint64_t run(const std::uint8_t *packets, std::size_t size, std::vector<Event> &events) {
        std::uint64_t taken, ended;
        accepted(cmv_machine_run(state.data(), packets, size, log.data(), log.size(), &taken, &ended));
        if (ended != CMV_LOG_FULL) {
            accepted(static_cast<std::uint32_t>(ended));
        }
        for (std::size_t at = 0; at < state[CMV_MACHINE_PLACE]; at += 8) {
            Event event;
            accepted(cmv_log_entry_at(log.data(), log.size(), at, &event.kind, &event.index, &event.place, &event.length));
            events.push_back(event);
        }
        state[CMV_MACHINE_PLACE] = 0;
        return taken;
    }

private:
    std::array<std::uint64_t, CMV_MACHINE_SIZE> state;
    Bytes log;
};

/* The gathering store of a PID. */
class Gathering {
public:
    Gathering() : store(1 << 20) { cmv_gather_fresh(state.data()); }

    void take(const std::uint8_t *packet, const Event &event) {
        accepted(cmv_gather(state.data(), packet, CMV_PACKET_SIZE, static_cast<std::uint8_t>(event.kind),
            static_cast<std::uint8_t>(event.place), static_cast<std::uint8_t>(event.length), store.data(), store.size()));
    }

    bool open() const { return state[CMV_GATHER_OPEN] == 1; }
    std::uint64_t count() const { return state[CMV_GATHER_COUNT]; }

private:
    std::array<std::uint64_t, CMV_GATHER_SIZE> state;
    Bytes store;
};

/* The times of the unit that begins with these bytes, as far as it has some. */
std::string times_of(const std::uint8_t *bytes, std::size_t size) {
    std::uint64_t kind, place, length, pts_number, pts, dts_number, dts;
    if (cmv_pes_header_contents(bytes, size, &kind, &place, &length) != CMV_DONE || kind != 1) {
        return "";
    }
    if (cmv_pes_contents_pts_dts(bytes + place, length, &kind, &pts_number, &pts, &dts_number, &dts) != CMV_DONE) {
        return "";
    }
    std::string text = pts_number == CMV_DONE ? " pts " + std::to_string(pts) : " pts refused";
    if (kind == 2) {
        text += dts_number == CMV_DONE ? " dts " + std::to_string(dts) : " dts refused";
    }
    return text;
}

/* Follows the events of a stream and prints each unit when it is over. */
class Printer {
public:
    void take(const std::uint8_t *packet, const Event &event) {
        if (event.kind == CMV_END_PACKET) {
            finish();
        }
        gathering.take(packet, event);
        if (event.kind == CMV_BEGIN_PACKET) {
            unit = std::to_string(event.index) + times_of(packet + event.place, event.length);
        }
    }

    void finish() const {
        if (gathering.open()) {
            std::cout << unit << " bytes " << gathering.count() << '\n';
        }
    }

private:
    Gathering gathering;
    std::string unit;
};

void print_units(const Bytes &bytes) {
    Machine machine;
    Printer printer;
    const std::size_t packets = bytes.size() / CMV_PACKET_SIZE;
    for (std::size_t done = 0; done < packets;) {
        std::vector<Event> events;
        done += machine.run(bytes.data() + done * CMV_PACKET_SIZE, (packets - done) * CMV_PACKET_SIZE, events);
        for (const Event &event : events) {
            printer.take(bytes.data() + event.index * CMV_PACKET_SIZE, event);
        }
    }
    printer.finish();
}

} // namespace

int main() {
    try {
        print_units(Bytes(std::istreambuf_iterator<char>(std::cin), std::istreambuf_iterator<char>()));
    } catch (const std::exception &error) {
        std::cerr << error.what() << '\n';
        return 1;
    }
    return 0;
}
