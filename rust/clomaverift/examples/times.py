"""times.py PROGRAM STREAM.. : holds the times that the example times.rs (a built PROGRAM) prints of transport streams against ffprobe of
ffmpeg and tsreport of tstools, and prints how many agree. Run by hand; tools/setup ffmpeg tstools installs the two.

A unit is known by PID and place in the file. ffprobe splits audio units into frames: the rows at a place that a unit begins with are
compared, the first of each. It gives a DTS to units that have none, and does not wrap times: they are compared modulo 2^33. tsreport
gives clock references.
"""
import re
import subprocess
import sys

WRAP = 2**33
SHOWN = 10  # how many differences are printed


def lines(*words):
    done = subprocess.run(words, stdout=subprocess.PIPE, stderr=subprocess.DEVNULL, text=True, errors="replace")
    return done.stdout.splitlines()


def ours(program, stream):
    """Of each unit the PTS and DTS, and the clock references, by PID and place."""
    units, clocks = {}, {}
    for words in map(str.split, lines(program, stream)):
        key = int(words[1]), int(words[2])
        if words[0] == "pcr":
            clocks[key] = int(words[3])
        else:
            units[key] = [None if word == "-" else int(word) for word in words[3:]]
    return units, clocks


def pids(stream):
    rows = lines("ffprobe", "-v", "error", "-show_entries", "stream=index,id", "-of", "csv=p=0", stream)
    return {row.split(",")[0]: int(row.split(",")[1], 16) for row in rows if "," in row}


def ffprobe(stream):
    """The first row of each place: PTS and DTS."""
    known, found = pids(stream), {}
    for row in lines("ffprobe", "-v", "error", "-show_entries", "packet=stream_index,pts,dts,pos", "-of", "csv=p=0", stream):
        index, pts, dts, place = (row.split(",") + [""] * 4)[:4]  # a row of side data has fewer words
        if index in known and place.isdigit():
            times = [int(time) % WRAP if re.fullmatch(r"-?\d+", time) else None for time in (pts, dts)]
            found.setdefault((known[index], int(place)), times)
    return found


def tsreport(stream):
    """The clock references, by PID and place."""
    key, found = None, {}
    for line in lines("tsreport", "-v", stream):
        packet = re.match(r"\s*(\d+): TS Packet\s+\d+ PID (\w+)", line)
        clock = re.match(r" \.\. PCR\s+(\d+)", line)
        if packet:
            key = int(packet[2], 16), int(packet[1])
        elif clock:
            found[key] = int(clock[1])
    return found


class Tally:
    def __init__(self):
        self.agreed, self.compared, self.shown = 0, 0, []

    def put(self, what, one, other):
        self.compared += 1
        self.agreed += one == other
        if one != other:
            self.shown.append(f"  {what}: {one}, and {other} by the other")

    def __str__(self):
        return f"{self.agreed}/{self.compared}"


def compare(program, stream):
    units, clocks = ours(program, stream)
    rows, others = ffprobe(stream), tsreport(stream)
    both = sorted(units.keys() & rows.keys())
    pts, dts, pcr = Tally(), Tally(), Tally()
    for key in both:
        for name, tally, one, other in zip(("PTS", "DTS"), (pts, dts), units[key], rows[key]):
            if one is not None:
                tally.put(f"{name} of PID {key[0]} at {key[1]}", one, other)
    for key in sorted(clocks.keys() | others.keys()):
        pcr.put(f"PCR of PID {key[0]} at {key[1]}", clocks.get(key), others.get(key))
    print(f"{stream}: {len(units)} units, {len(both)} of them by ffprobe too: PTS {pts}, DTS {dts}; by tsreport PCR {pcr}")
    shown = pts.shown + dts.shown + pcr.shown
    for line in shown[:SHOWN]:
        print(line)
    return not shown


if __name__ == "__main__":
    if len(sys.argv) < 3:
        sys.exit(__doc__.splitlines()[0])
    sys.exit(0 if all([compare(sys.argv[1], stream) for stream in sys.argv[2:]]) else 1)
