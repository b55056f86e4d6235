"""repeats.py CMV STREAM.. : holds what 'cmv --standard' tells of streams in which each packet is sent twice (twice/STREAM, made by
twice.py) against what it tells of the single streams, and prints what other programs make of the repeats. CMV is the program's name.

The events have to be the same, each at the first of its two packets, and so have the units and breaks of each PID; every packet with
payload that is sent a second time has to be counted as repeated. A row for each stream:
  events    of both, by cmv --standard; a difference is printed
  breaks    in the single stream, in that with repeats, and in that with repeats without --standard
  repeats   packets dropped by cmv --standard
  tsreport  how many repeats tsreport -buffering counts, AGREED/COMPARED over the PIDs that it tells of. It does not count one whose
            counter is 0: those are left out here.
  tshark    gaps in the counters, in the single stream and in that with repeats
  ffprobe   packets that it calls corrupt, in both, and how many times the bytes of the single stream it reads: a repeat is no repeat to it
"""

import collections
import csv
import os
import re
import subprocess
import sys
import tempfile

from third import run, write_capture
from twice import packets_of, pid, times_sent

SHOWN = 5  # how many differences are printed for a stream


def rows(cmv, *words):
    """The rows that cmv prints."""
    done = subprocess.run([cmv, *words, "--csv"], stdout=subprocess.PIPE, check=True, text=True)
    return list(csv.DictReader(done.stdout.splitlines()))


def places(packets):
    """For each packet that is sent the packet that it is, and whether it is the second of two."""
    return [(nth, second) for nth, packet in enumerate(packets) for second in range(times_sent(packet))]


def events(cmv, stream, places):
    found = rows(cmv, "events", "--standard", stream)
    return [(*places[int(row["packet"])], row["pid"], row["event"], row["offset"], row["length"]) for row in found]


def by_pid(cmv, stream, *words):
    """Of each PID its units, its breaks and its repeats."""
    found = rows(cmv, "summary", stream, *words)
    return {int(row["pid"]): [int(row[name]) for name in ("units", "breaks", "repeated") if name in row] for row in found}


def breaks(summary):
    return sum(row[1] for row in summary.values())


def repeats(packets):
    """How many packets with payload are sent a second time, by PID, and of these the ones whose counter is not 0."""
    every, without_0 = collections.Counter(), collections.Counter()
    for packet in packets:
        if pid(packet) != 0x1FFF and packet[3] & 0x10 and times_sent(packet) == 2:
            every[pid(packet)] += 1
            without_0[pid(packet)] += packet[3] & 0x0F != 0
    return every, without_0


# ---- the others


def of_tsreport(stream):
    """The duplicate packets, by PID."""
    found, last = {}, None
    for line in run("tsreport", "-buffering", "-quiet", stream):
        of_pid = re.match(r"Stream \d+: PID \w+ \((\d+)\)", line)
        last = int(of_pid[1]) if of_pid else last
        count = re.search(r"duplicate packets: (\d+)", line)
        if count:
            found[last] = int(count[1])
    return found


def of_tshark(stream):
    """How many frames it says something of gaps of."""
    with tempfile.TemporaryDirectory() as folder:
        capture = os.path.join(folder, "capture")
        write_capture(stream, capture)
        fields = ("-e", "mp2t.analysis.skips", "-e", "mp2t.analysis.drops")
        return sum(line.strip() != "" for line in run("tshark", "-r", capture, "-T", "fields", *fields))


def of_ffprobe(stream):
    """The packets that it calls corrupt, and the bytes of all packets."""
    words = ["ffprobe", "-v", "warning", "-show_entries", "packet=size", "-of", "csv=p=0", stream]
    done = subprocess.run(words, stdout=subprocess.PIPE, stderr=subprocess.PIPE, text=True, errors="replace")
    sizes = [int(line.split(",")[0]) for line in done.stdout.split() if line.split(",")[0].isdigit()]
    return done.stderr.count("Packet corrupt"), sum(sizes)


# ---- the table


def print_row(cells):
    print(f"{cells[0]:20}" + "".join(f"{cell:>18}" for cell in cells[1:]))


class Check:
    """What is the same, and what is not."""

    def __init__(self, stream):
        self.stream = stream
        self.differences = 0

    def same(self, what, single, double):
        if single != double:
            self.differences += 1
            if self.differences <= SHOWN:
                print(f"DIFFERS {self.stream}, {what}: {single}, sent twice {double}")


def check_stream(cmv, stream):
    double = os.path.join(os.path.dirname(stream), "twice", os.path.basename(stream))
    packets = packets_of(stream)
    check = Check(stream)

    told = events(cmv, stream, [(nth, 0) for nth in range(len(packets))])
    told_of_double = events(cmv, double, places(packets))
    check.same("number of events", len(told), len(told_of_double))
    for one, other in zip(told, told_of_double):
        check.same("event", one, other)

    single, standard, crate = by_pid(cmv, stream, "--standard"), by_pid(cmv, double, "--standard"), by_pid(cmv, double)
    every, without_0 = repeats(packets)
    for number, row in single.items():
        check.same(f"PID {number}: units, breaks and repeats", [*row[:2], every[number]], standard.get(number))

    duplicates = of_tsreport(double)
    for number, count in duplicates.items():
        check.same(f"PID {number}: duplicates by tsreport", without_0[number], count)
    agreed = sum(without_0[number] == count for number, count in duplicates.items())

    corrupt, size = of_ffprobe(stream)
    corrupt_in_double, size_of_double = of_ffprobe(double)
    print_row([
        os.path.splitext(os.path.basename(stream))[0],
        f"{len(told)} {len(told_of_double)}",
        f"{breaks(single)} {breaks(standard)} {breaks(crate)}",
        sum(row[2] for row in standard.values()),
        f"{agreed}/{len(duplicates)}" if duplicates else "-",
        f"{of_tshark(stream)} {of_tshark(double)}",
        f"{corrupt} {corrupt_in_double} {size_of_double / size:.2f}" if size else "-",
    ])
    return check.differences == 0


def main(cmv, *streams):
    print_row(["stream", "events", "breaks", "repeats", "tsreport", "tshark", "ffprobe"])
    sys.exit(0 if all([check_stream(cmv, stream) for stream in streams]) else 1)


if __name__ == "__main__":
    main(*sys.argv[1:])
