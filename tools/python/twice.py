"""twice.py IN.ts OUT.ts : a copy in which each packet is directly followed by its repeat, as the standard allows (2.4.3.3).

A repeat has the bytes of its packet, but where there is a clock reference it has the time of its own place: half a packet of the first
stream later, by the clock reference that comes next on the PID. Packets with both a payload and the discontinuity indicator are sent
once, for with that indicator a packet is never a repeat. A repeat of a packet without payload is one more such packet.
"""

import sys

SIZE = 188
WRAP = 300 << 33  # of a clock reference


def packets_of(file):
    with open(file, "rb") as stream:
        return list(iter(lambda: stream.read(SIZE), b""))


def field(packet):
    """The flags of the adaptation field, 0 where there is none."""
    return packet[5] if packet[3] & 0x20 and packet[4] > 0 else 0


def times_sent(packet):
    return 1 if packet[3] & 0x10 and field(packet) & 0x80 else 2


def pid(packet):
    return (packet[1] & 0x1F) << 8 | packet[2]


def clock(packet):
    """The clock reference at 27 MHz, if there is one."""
    if not field(packet) & 0x10 or packet[4] < 7:
        return None
    number = int.from_bytes(packet[6:12], "big")
    return (number >> 15) * 300 + (number & 0x1FF)


def with_clock(packet, time):
    base, extension = divmod(time % WRAP, 300)
    return packet[:6] + (base << 15 | 0x3F << 9 | extension).to_bytes(6, "big") + packet[12:]


def repeats(packets):
    """For each packet its repeat. They are made from the last one on, as a clock reference needs the next one of its PID."""
    later = {}
    made = []
    for nth, packet in reversed(list(enumerate(packets))):
        time = clock(packet)
        if time is not None:
            then, at = later.get(pid(packet), (time, nth + 1))
            later[pid(packet)] = (time, nth)
            packet = with_clock(packet, time + (then - time) % WRAP // (2 * (at - nth)))
        made.append(packet)
    return reversed(made)


def twice(packets):
    for packet, repeat in zip(packets, repeats(packets)):
        yield packet
        if times_sent(packet) == 2:
            yield repeat


def main(source, destination):
    with open(destination, "wb") as out:
        out.writelines(twice(packets_of(source)))


if __name__ == "__main__":
    main(*sys.argv[1:])
