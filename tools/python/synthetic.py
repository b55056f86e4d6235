"""synthetic.py OUT.ts : a stream of packets with every optional field of the adaptation field and of the PES header.

Each packet is a whole unit. Every pattern of the header's flags that the standard has comes once, without the extension, beside a
pattern of the adaptation field's; the values are random, with a fixed seed, within the standard.
"""

import random
import sys

PID = 256
NO_PTS_BUT_DTS = 0b01


def joined(*fields):
    """Bits one after another: pairs of a value and its width."""
    number = width = 0
    for value, size in fields:
        number = number << size | value & (1 << size) - 1
        width += size
    return number.to_bytes(width // 8, "big")


def stamp(prefix, time):
    return joined((prefix, 4), (time >> 30, 3), (1, 1), (time >> 15, 15), (1, 1), (time, 15), (1, 1))


def clock(base, extension):
    return joined((base, 33), (0x3F, 6), (extension, 9))


def escr(base, extension):
    return joined((3, 2), (base >> 30, 3), (1, 1), (base >> 15, 15), (1, 1), (base, 15), (1, 1), (extension, 9), (1, 1))


class Maker:
    def __init__(self):
        self.rng = random.Random(1)
        self.rates = 0

    def rate(self):
        """Of every width in turn: not every reader takes large ones."""
        self.rates += 1
        return self.rng.getrandbits(22) >> self.rates % 22

    def time(self):
        return self.rng.getrandbits(33)

    def extension(self):
        flags = self.rng.getrandbits(3)
        fields = b""
        if flags & 4:
            fields += joined((self.rng.getrandbits(16), 16))
        if flags & 2:
            fields += joined((3, 2), (self.rng.getrandbits(22), 22))
        if flags & 1:
            fields += stamp(self.rng.getrandbits(4), self.time())
        return bytes([flags << 5 | 0x1F]) + fields

    def adaptation(self):
        flags = self.rng.getrandbits(8)
        fields = b""
        if flags & 0x10:
            fields += clock(self.time(), self.rng.randrange(300))
        if flags & 0x08:
            fields += clock(self.time(), self.rng.randrange(300))
        if flags & 0x04:
            fields += self.rng.randbytes(1)
        if flags & 0x02:
            fields += bytes([5]) + self.rng.randbytes(5)
        if flags & 0x01:
            extension = self.extension()
            fields += bytes([len(extension)]) + extension
        return bytes([flags]) + fields

    def header(self, flags):
        fields = b""
        if flags >> 6 == 2:
            fields += stamp(2, self.time())
        if flags >> 6 == 3:
            fields += stamp(3, self.time()) + stamp(1, self.time())
        if flags & 0x20:
            fields += escr(self.time(), self.rng.randrange(300))
        if flags & 0x10:
            fields += joined((1, 1), (self.rate(), 22), (1, 1))
        if flags & 0x08:
            fields += self.rng.randbytes(1)
        if flags & 0x04:
            fields += bytes([0x80 | self.rng.getrandbits(7)])
        if flags & 0x02:
            fields += self.rng.randbytes(2)
        return bytes([0x80 | self.rng.getrandbits(4), flags, len(fields)]) + fields

    def unit(self, flags):
        body = self.header(flags) + self.rng.randbytes(30)
        return b"\x00\x00\x01\xe0" + len(body).to_bytes(2, "big") + body


def packet(counter, field, unit):
    """A packet with the start flag, whose adaptation field is stuffed so that the unit ends with it."""
    length = 183 - len(unit)
    stuffing = b"\xff" * (length - len(field))
    return bytes([0x47, 0x40 | PID >> 8, PID & 0xFF, 0x30 | counter % 16, length]) + field + stuffing + unit


def main(destination):
    maker = Maker()
    flags = [flags for flags in range(0, 256, 2) if flags >> 6 != NO_PTS_BUT_DTS]
    with open(destination, "wb") as file:
        file.writelines(packet(nth, maker.adaptation(), maker.unit(flag)) for nth, flag in enumerate(flags * 4))


main(*sys.argv[1:])
