"""damage.py IN.ts OUT.ts : a copy with packets lost and repeated, and with bits of the first 24 bytes changed. The sync bytes stay."""

import random
import sys

SIZE = 188


def changed(packet, rng):
    """The packet with one to three bits changed."""
    packet = bytearray(packet)
    for _ in range(rng.randrange(1, 4)):
        packet[rng.randrange(1, 24)] ^= 1 << rng.randrange(8)
    return bytes(packet)


def damaged(packets, rng):
    """One packet of a hundred is lost, one comes twice, three are changed."""
    for packet in packets:
        chance = rng.random()
        if chance < 0.01:
            continue
        if chance < 0.02:
            yield packet
        yield changed(packet, rng) if chance > 0.97 else packet


def main(source, destination):
    with open(source, "rb") as file:
        stream = file.read()
    packets = [stream[at : at + SIZE] for at in range(0, len(stream) - SIZE + 1, SIZE)]
    with open(destination, "wb") as file:
        file.writelines(damaged(packets, random.Random(1)))


main(*sys.argv[1:])
