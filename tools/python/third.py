"""third.py STREAM LISTING.. : holds what the library reads of transport streams (a listing of 'differential fields' for each) against
tsreport of tstools, tshark of Wireshark, ffprobe of ffmpeg and mpegpsdemux of GStreamer, and prints how many of their values agree.

Two tables: the times for each stream, and every field over all streams. A cell is AGREED/COMPARED; a value is compared where both
give one. What the others cannot tell, or tell otherwise:
  - tshark shows a PES header at the packet that completes the unit, so the units of a PID are matched in their order, and the last one
    is often missing; its times are in nanoseconds and rounded to ticks here. Its ES rate (Wireshark 4.0) is made of the upper 14 of the
    22 bits alone, times 25, modulo 2^14: as 25 is odd those 14 bits are got back from it.
  - mpegpsdemux reads headers of a program stream, so each is put into one; it lays ES rates of 2^15 and more over one another, so the
    smaller ones are compared. With tshark's every bit of the field is seen by one of the two.
  - ffprobe splits audio units into frames and does not wrap times: rows that begin a unit are compared, modulo 2^33.
"""

import collections
import os
import re
import struct
import subprocess
import sys
import tempfile

SIZE = 188
WRAP = 2**33
FIRST_ID = 0xBC
TIMES = ("PCR", "PTS", "DTS", "ESCR")
READERS = ("tsreport", "tshark", "ffprobe", "gstreamer")
SMALL_RATE = 2**15
UPPER = 2**14
SHOWN = 20  # how many differences are printed


def run(*words):
    done = subprocess.run(words, stdout=subprocess.PIPE, stderr=subprocess.DEVNULL, text=True, errors="replace")
    return done.stdout.splitlines()


class Values:
    """For each field, its value by the place of the packet in the file."""

    def __init__(self):
        self.fields = collections.defaultdict(dict)

    def put(self, field, place, value):
        self.fields[field][place] = value


# ---- the library

# For each function of a listing, its fields: a name, and how the value is made of the function's values.
LISTED = {
    "packet::transport_error_indicator": [("error flag", lambda v: v[0])],
    "packet::payload_unit_start_indicator": [("start flag", lambda v: v[0])],
    "packet::transport_priority": [("priority flag", lambda v: v[0])],
    "packet::pid": [("PID", lambda v: v[0])],
    "packet::transport_scrambling_control": [("scrambling control", lambda v: v[1])],
    "packet::adaptation_control": [("adaptation control", lambda v: 2 * v[0] + v[1])],
    "packet::continuity_counter": [("counter", lambda v: v[0])],
    "packet::adaptation_field": [("adaptation field length", lambda v: v[1])],
    "adaptation_field::discontinuity_indicator": [("discontinuity flag", lambda v: v[0])],
    "adaptation_field::random_access_indicator": [("random access flag", lambda v: v[0])],
    "adaptation_field::elementary_stream_priority_indicator": [("stream priority flag", lambda v: v[0])],
    "adaptation_field::pcr": [("PCR", lambda v: v[0] * 300 + v[1])],
    "adaptation_field::opcr": [("OPCR", lambda v: v[0] * 300 + v[1])],
    "adaptation_field::splice_countdown": [("splice countdown", lambda v: v[0])],
    "adaptation_field::transport_private_data": [("private data length", lambda v: v[1])],
    "adaptation_field::adaptation_field_extension": [("extension length", lambda v: v[1])],
    "adaptation_field_extension::ltw_offset": [
        ("LTW valid flag", lambda v: v[0]),
        ("LTW offset", lambda v: v[1] if v[0] else None),
    ],
    "adaptation_field_extension::piecewise_rate": [("piecewise rate", lambda v: v[0])],
    "adaptation_field_extension::seamless_splice": [("splice type", lambda v: v[0]), ("DTS next AU", lambda v: v[1])],
    "pes_header::stream_id": [("stream id", lambda v: v[0] + v[1])],
    "pes_header::pes_packet_length": [("PES packet length", lambda v: v[1])],
    "pes_contents::pes_scrambling_control": [("PES scrambling control", lambda v: v[0])],
    "pes_contents::pes_priority": [("PES priority", lambda v: v[0])],
    "pes_contents::data_alignment_indicator": [("data alignment", lambda v: v[0])],
    "pes_contents::copyright": [("copyright bit", lambda v: v[0])],
    "pes_contents::original_or_copy": [("original bit", lambda v: v[0])],
    "pes_contents::flags": [("PES flags", lambda v: v[0])],
    "pes_contents::pes_header_data_len": [("header data length", lambda v: v[0])],
    "pes_contents::pts_dts": [
        ("PTS", lambda v: v[2] if v[1] == 0 else None),
        ("DTS", lambda v: v[4] if v[0] == 2 and v[3] == 0 else None),
    ],
    "pes_contents::escr": [("ESCR", lambda v: v[0] * 300 + v[1])],
    "pes_contents::es_rate": [
        ("ES rate below 2^15", lambda v: v[0] if v[0] < SMALL_RATE else None),
        ("ES rate's upper 14 bits", lambda v: v[0] >> 8),
    ],
    "pes_contents::raw_trick_mode": [("trick mode byte", lambda v: v[0])],
    "pes_contents::additional_copy_info": [("copy info", lambda v: v[0])],
    "pes_contents::previous_pes_packet_crc": [("CRC", lambda v: v[0])],
}


def of_listing(file):
    values = Values()
    with open(file, encoding="ascii") as lines:
        for line in lines:
            place, function, *numbers = line.split()
            numbers = [int(number) for number in numbers]
            for field, made in LISTED.get(function, []):
                value = made(numbers)
                if value is not None:
                    values.put(field, int(place), value)
    return values


# ---- tsreport

TSREPORT = [
    (r" \.\. PCR\s+(\d+)", "PCR", 10),
    (r"    Stream ID:\s+(\w+)", "stream id", 16),
    (r"    PES packet length:\s+(\w+)", "PES packet length", 16),
    (r"    Flags:\s+\w+ (\w+)", "PES flags", 16),
    (r"    PES header len (\d+)", "header data length", 10),
    (r"    PTS (\d+)", "PTS", 10),
    (r"    DTS (\d+)", "DTS", 10),
]


def of_tsreport(stream):
    """It also takes tables for PES packets; only what begins with a start code counts."""
    values = Values()
    place, is_pes = None, False
    for line in run("tsreport", "-v", stream):
        packet = re.match(r"\s*(\d+): TS Packet\s+\d+ PID (\w+)", line)
        if packet:
            place, is_pes = int(packet[1]), False
            values.put("PID", place, int(packet[2], 16))
            values.put("start flag", place, int("[pusi]" in line))
            continue
        field = re.match(r"  Adaptation field len\s+(\d+)", line)
        if field:
            values.put("adaptation field length", place, int(field[1]))
        is_pes = is_pes or re.match(r"    Start code:\s+00 00 01", line) is not None
        for pattern, name, base in TSREPORT:
            found = re.match(pattern, line)
            if found and (is_pes or name == "PCR"):
                values.put(name, place, int(found[1], base))
    return values


# ---- tshark

PACKET_FIELDS = {
    "mp2t.tei": "error flag",
    "mp2t.pusi": "start flag",
    "mp2t.tp": "priority flag",
    "mp2t.pid": "PID",
    "mp2t.tsc": "scrambling control",
    "mp2t.afc": "adaptation control",
    "mp2t.cc": "counter",
    "mp2t.af.length": "adaptation field length",
    "mp2t.af.di": "discontinuity flag",
    "mp2t.af.rai": "random access flag",
    "mp2t.af.espi": "stream priority flag",
    "mp2t.af.pcr": "PCR",
    "mp2t.af.opcr": "OPCR",
    "mp2t.af.sc": "splice countdown",
    "mp2t.af.tpd_length": "private data length",
    "mp2t.af.e_length": "extension length",
    "mp2t.af.e.ltwv_flag": "LTW valid flag",
    "mp2t.af.e.ltwo": "LTW offset",
    "mp2t.af.e.pr": "piecewise rate",
    "mp2t.af.e.st": "splice type",
}
SPLICE_TIME = ("mp2t.af.e.dnau_32_30", "mp2t.af.e.dnau_29_15", "mp2t.af.e.dnau_14_0")


def number(text):
    return {"True": 1, "False": 0}.get(text) if text in ("True", "False") else int(text, 0)


def ticks(rate):
    """A time in seconds with nine decimals, in ticks."""
    return lambda text: round(int(text.replace(".", "")) * rate / 10**9)


PES_FIELDS = {
    "mpeg-pes.stream": ("stream id", number),
    "mpeg-pes.length": ("PES packet length", number),
    "mpeg-pes.scrambling_control": ("PES scrambling control", number),
    "mpeg-pes.priority": ("PES priority", number),
    "mpeg-pes.data_alignment": ("data alignment", number),
    "mpeg-pes.copyright": ("copyright bit", number),
    "mpeg-pes.original": ("original bit", number),
    "mpeg-pes.header_data_length": ("header data length", number),
    "mpeg-pes.pts": ("PTS", ticks(90_000)),
    "mpeg-pes.dts": ("DTS", ticks(90_000)),
    "mpeg-pes.escr": ("ESCR", ticks(27_000_000)),
    "mpeg-pes.es-rate": ("ES rate's upper 14 bits", lambda text: number(text) * pow(25, -1, UPPER) % UPPER),
    "mpeg-pes.trick-mode": ("trick mode byte", lambda text: int(text, 16)),
    "mpeg-pes.copy-info": ("copy info", number),
    "mpeg-pes.crc": ("CRC", number),
}


def write_capture(stream, capture):
    """Each packet as a frame of link type 243, MPEG-2 transport stream, at a time that is its number."""
    with open(stream, "rb") as file, open(capture, "wb") as out:
        out.write(struct.pack("<IHHiIII", 0xA1B2C3D4, 2, 4, 0, 0, 65535, 243))
        for nth, packet in enumerate(iter(lambda: file.read(SIZE), b"")):
            out.write(struct.pack("<IIII", nth // 10**6, nth % 10**6, len(packet), len(packet)) + packet)


def frames(stream):
    """For each packet a list of texts for each field."""
    names = [*PACKET_FIELDS, *SPLICE_TIME, *PES_FIELDS]
    with tempfile.TemporaryDirectory() as folder:
        capture = os.path.join(folder, "capture")
        write_capture(stream, capture)
        words = ["tshark", "-r", capture, "-T", "fields", "-E", "separator=;"]
        for line in run(*words, *(word for name in names for word in ("-e", name))):
            texts = [text.split(",") if text else [] for text in line.split(";")]
            yield dict(zip(names, texts))


def of_tshark(stream, ours):
    values = Values()
    starts = units(ours)
    for nth, frame in enumerate(frames(stream)):
        place = nth * SIZE
        for name, field in PACKET_FIELDS.items():
            if len(frame[name]) == 1:
                values.put(field, place, number(frame[name][0]))
        splice = [frame[name] for name in SPLICE_TIME]
        if all(len(texts) == 1 for texts in splice):
            high, middle, low = (number(texts[0]) for texts in splice)
            values.put("DTS next AU", place, high << 30 | middle << 15 | low)
        put_units(values, frame, starts.get(values.fields["PID"].get(place), []))
    return values


def units(ours):
    """For each PID the places of the packets that begin its units, the first last."""
    starts = collections.defaultdict(list)
    for place in sorted(ours.fields["stream id"], reverse=True):
        starts[ours.fields["PID"][place]].append(place)
    return starts


def put_units(values, frame, starts):
    """The units that a frame completes: the next ones of its PID. Start codes within video are listed as streams too."""
    frame["mpeg-pes.stream"] = [text for text in frame["mpeg-pes.stream"] if number(text) >= FIRST_ID]
    places = [starts.pop() for _ in frame["mpeg-pes.stream"] if starts]
    for name, (field, made) in PES_FIELDS.items():
        if len(frame[name]) == len(places):
            for place, text in zip(places, frame[name]):
                values.put(field, place, made(text))


# ---- ffprobe


def of_ffprobe(stream, ours):
    """A DTS that a header has not is made up: it is compared where the header has one."""
    values = Values()
    for line in run("ffprobe", "-v", "error", "-show_entries", "packet=pts,dts,pos", "-of", "compact=p=0", stream):
        row = dict(word.split("=", 1) for word in line.split("|") if "=" in word)
        if not row.get("pos", "N/A").isdigit():
            continue
        for field in ("PTS", "DTS"):
            place = int(row["pos"])
            if row[field.lower()] != "N/A" and place in ours.fields[field]:
                values.fields[field].setdefault(place, int(row[field.lower()]) % WRAP)
    return values


# ---- mpegpsdemux

PACK = bytes.fromhex("000001BA 44 00 04 00 04 01 00 9C 43 F8")  # a pack header with a clock of 0


def of_gstreamer(stream, ours):
    """Its element prints the ES rate of each header that it reads, and nothing else of use here."""
    values = Values()
    places = sorted(ours.fields["ES rate below 2^15"])
    if not places:
        return values
    with tempfile.TemporaryDirectory() as folder:
        program_stream = os.path.join(folder, "stream.mpg")
        with open(stream, "rb") as file, open(program_stream, "wb") as out:
            for place in places:
                file.seek(place)
                packet = file.read(SIZE)
                unit = packet[5 + packet[4] :] if packet[3] & 0x20 else packet[4:]
                out.write(PACK + unit[:4] + (len(unit) - 6).to_bytes(2, "big") + unit[6:])
            out.write(bytes.fromhex("000001B9"))
        words = ["env", "GST_DEBUG=*:6", "GST_DEBUG_NO_COLOR=1", "GST_DEBUG_FILE=" + os.path.join(folder, "log")]
        run(*words, "gst-launch-1.0", "-q", "filesrc", "location=" + program_stream, "!", "mpegpsdemux", "!", "fakesink")
        with open(os.path.join(folder, "log"), encoding="ascii", errors="replace") as log:
            rates = re.findall(r"ES Rate found (\d+)", log.read())
    if len(rates) == len(places):
        values.fields["ES rate below 2^15"] = {place: int(rate) for place, rate in zip(places, rates)}
    return values


# ---- the tables


class Tally:
    """How many values agree, by stream, field and reader."""

    def __init__(self):
        self.cells = collections.defaultdict(lambda: [0, 0])
        self.differ = 0

    def take(self, stream, reader, ours, theirs):
        for field, values in theirs.fields.items():
            for place in values.keys() & ours.fields[field].keys():
                agrees = ours.fields[field][place] == values[place]
                for key in ((stream, field, reader), (None, field, reader)):
                    self.cells[key][0] += agrees
                    self.cells[key][1] += 1
                if not agrees:
                    self.report(f"{stream}, packet at {place}, {field}: {ours.fields[field][place]}, {reader} {values[place]}")

    def report(self, difference):
        self.differ += 1
        if self.differ <= SHOWN:
            print("DIFFERS", difference)

    def cell(self, stream, field, reader):
        key = (stream, field, reader)
        return "{}/{}".format(*self.cells[key]) if key in self.cells else "-"


def print_row(name, cells):
    print(f"{name:24}" + "".join(f"{cell:>16}" for cell in cells))


def print_tables(tally, streams, fields):
    columns = [(field, reader) for field in TIMES for reader in READERS if (None, field, reader) in tally.cells]
    print_row("stream", [f"{field} {reader}" for field, reader in columns])
    for stream in [*streams, None]:
        print_row(stream or "all", [tally.cell(stream, *column) for column in columns])
    print()
    print_row("field", READERS)
    for field in fields:
        print_row(field, [tally.cell(None, field, reader) for reader in READERS])


def main(words):
    tally = Tally()
    names = []
    for stream, listing in zip(words[::2], words[1::2]):
        names.append(os.path.splitext(os.path.basename(stream))[0])
        ours = of_listing(listing)
        tally.take(names[-1], "tsreport", ours, of_tsreport(stream))
        tally.take(names[-1], "tshark", ours, of_tshark(stream, ours))
        tally.take(names[-1], "ffprobe", ours, of_ffprobe(stream, ours))
        tally.take(names[-1], "gstreamer", ours, of_gstreamer(stream, ours))
    print_tables(tally, names, [field for fields in LISTED.values() for field, _ in fields])
    sys.exit(0 if tally.cells and tally.differ == 0 else 1)


if __name__ == "__main__":
    main(sys.argv[1:])
