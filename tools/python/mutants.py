"""Whether the differential catches wrong answers: a library is built from each, and the driver has to report a difference.

    mutants.py SCRATCH [WORDS..]         those of all crates, or those that the words name
    mutants.py SCRATCH --list [WORDS..]  names them, and builds nothing

A word is a crate, CRATE/NAME or NAME. Tried are the edits of all crates and the wrong answers of tools/mutants.txt that change what is
compiled into an archive: the crate is one that the archives are built from, the file is under src/, and more than promises is changed. Left
out is also one whose library is byte for byte the unchanged one, as no comparison can tell the two apart: no entry calls its function, or
none can see what it answers. A driver that fails or hangs has caught a wrong answer too.

The prover refuses such a library, so its crates are compiled with no proof (modules.py). The exported functions around a module, which only
'rt lib' makes, are made here. The unchanged crates, built in the same way, have to agree first. All of it stands in the folder SCRATCH;
of target/ only the driver is read, and nothing is written there.
"""

import functools
import itertools
import os
import re
import signal
import subprocess
import sys
from concurrent.futures import ThreadPoolExecutor
from pathlib import Path

from edits import TOP, changed_code, edit_files, function_of, read_edits, read_mutants
from header import CRATES as PARTS
from header import ENTRY, Entry
from modules import TRIPLE, Unproved, must_run
from sources import below, crates

QUICK = ["--count", "100000"]  # random answers a module: most often enough, as the corners are always compared
SHOWN = 160  # characters of a difference that are printed
LONGEST = 1200  # seconds of the driver after which it counts as hung
WORDS = {"u8": "i8", "u16": "i16", "u32": "i32", "u64": "i64", "usize": "i64"}

# The module of the driver that most likely sees a wrong answer of a function, of a crate, or of its exported functions in of_CRATE.rt. It
# looks first.
LIKELY = {
    "has_discontinuity": "standard", "is_same": "standard", "repeated": "standard", "Machine::out_of_order": "standard",
    "again_after": "standard", "Machine::standard": "standard", "of_machine::cmv_machine_standard": "standard", "opens": "machine",
    "calls": "standard", "Machine::due": "standard", "announcement": "standard", "lead_room": "standard", "put_lead": "standard",
    "Machine::past": "standard", "row::ModeTryFromU64::try_from": "standard", "row::U64FromMode::from": "standard",
    "row::RepeatTryFromU64::try_from": "standard", "row::U64FromRepeat::from": "standard",
    "timestamp": "timestamp", "control": "control", "packet": "packet", "adaptation": "adaptation", "pes": "head", "contents": "contents",
    "event_log": "machine", "machine": "machine", "writer": "writer", "pes_header": "gather", "gather": "gather",
}  # fmt: skip


# ---- the catalogue


def catalogue():
    """All wrong answers that change what is compiled into an archive."""
    archived = set().union(*(below(part) for part in PARTS))
    edits = [wrong for crate in crates() for _, path in edit_files([crate]) for wrong in read_edits(path)]
    return [wrong for wrong in edits + read_mutants() if wrong.crate in archived and changed_code(wrong)]


def chosen(words):
    wrongs = catalogue()
    for word in words:
        if not any(word in (wrong.crate, wrong.name, wrong.label) for wrong in wrongs):
            sys.exit(f"mutants: no crate of the archives, and no wrong answer that changes their code, is named {word}")
    return [wrong for wrong in wrongs if not words or {wrong.crate, wrong.name, wrong.label} & set(words)]


def show(wrongs):
    by_crate = {crate: [wrong for wrong in wrongs if wrong.crate == crate] for crate in crates()}
    for crate, some in by_crate.items():
        if some:
            print(f"{crate}: {len(some)}")
            for wrong in some:
                print(f"  {wrong.label}: {wrong.dies or function_of(wrong) or 'a constant'}")
    print(f"{len(wrongs)} wrong answers that change the library's code")


# ---- a library with no proof


class Bench(Unproved):
    """Where libraries are built: an object for each archive."""

    def __init__(self, scratch):
        super().__init__(scratch, {part: "".join(map(call, entries_of(part))) for part in PARTS})
        self.unchanged = dict(self.objects_of(PARTS, "unchanged"))
        if None in self.unchanged.values():
            sys.exit("mutants: the unchanged crates do not compile")

    def object_of(self, part, name):
        """An archive's crate and the exported functions around it, as an object."""
        module = self.unproved(part)
        if module is None:
            return None
        text, made = self.scratch / f"{part}.ll", self.scratch / f"{name}.{part}.o"
        module = module.replace("define i32 @main()", "define internal i32 @unused_main()")
        text.write_text("\n".join([module, *(around(entry, module, part) for entry in entries_of(part))]))
        clang = [self.kits[part].clang, f"--target={TRIPLE}", "-fPIC", "-O3", "-c", "-x", "ir", text]
        must_run([*clang, "-o", made])
        return made

    def objects_of(self, parts, name):
        """The objects of archives, made side by side."""
        with ThreadPoolExecutor() as pool:
            return list(zip(parts, pool.map(lambda part: self.object_of(part, name), parts)))

    def changed_objects(self, wrong):
        """The objects of the archives that a wrong answer changes; none where one does not compile."""
        texts = wrong.made({})
        parts = [part for part in PARTS if wrong.crate in below(part)]
        for part, (file, text) in itertools.product(parts, texts.items()):
            self.write(part, file, text)
        objects = self.objects_of(parts, "changed")
        for part, file in itertools.product(parts, texts):
            self.write(part, file, (TOP / file).read_text())
        return [(part, made) for part, made in objects if made is None or made.read_bytes() != self.unchanged[part].read_bytes()]

    def driver(self, objects):
        program = self.scratch / "differential"
        must_run(["bash", "-c", LINK, "mutants", program, *objects.values()], cwd=TOP)
        return program


LINK = '. tools/common.sh && link_rust differential "$@"'


@functools.cache
def entries_of(part):
    """The exported functions of a static library."""
    files = sorted((TOP / "crates" / part / "src").glob("*.rt"))
    return [Entry(*found.groups(), part, file.stem) for file in files for found in ENTRY.finditer(file.read_text())]


def call(entry):
    """Statements that call an exported function. Nothing runs them: what they call is compiled."""
    lets, words = [], []
    for nth, one in enumerate(entry.parameters):
        name = f"{entry.name}_{nth}"
        pointer = one.slice or one.written or one.count
        value = f"[0; {one.count or 1}]" if one.slice or one.count else "0"
        lets += [f"    let {'mut ' if one.written else ''}{name} = {value};\n"] if pointer else []
        words.append(f"{'&mut ' if one.written else '&'}{name}" if pointer else "0")
    return f"{''.join(lets)}    {entry.module}::{entry.name}({', '.join(words)});\n"


def around(entry, module, part):
    """An exported function around that of the module: bytes that are lent come as pointer and length in both."""
    inner = re.search(rf'@"{part}::(?:\w+::)*{entry.name}"', module)[0]
    words = []
    for nth, one in enumerate(entry.parameters):
        words.append(f"{'ptr' if one.slice or one.written or one.count else WORDS[one.number]} %a{nth}")
        words += [f"i64 %n{nth}"] if one.slice else []
    kind = WORDS[entry.answer] if entry.answer else "void"
    inside = f"call {kind} {inner}({', '.join(words)})"
    lines = [f"%r = {inside}", f"ret {kind} %r"] if entry.answer else [inside, "ret void"]
    return f"define {kind} @{entry.name}({', '.join(words)}) {{\n" + "".join(f"  {line}\n" for line in lines) + "}\n"


# ---- the comparison


def first_difference(program, words):
    """What the driver first says against a library, where it ends; none where all agrees."""
    pipe, none = subprocess.PIPE, subprocess.DEVNULL
    with subprocess.Popen([str(program), *words], cwd=TOP, stdout=pipe, stderr=none, text=True, start_new_session=True) as driver:
        signal.signal(signal.SIGALRM, lambda *_: os.killpg(driver.pid, signal.SIGKILL))
        signal.alarm(LONGEST)
        said = next((line for line in driver.stdout if line.startswith("DIFFERS")), None)
        hung = signal.alarm(0) == 0
        if said:
            os.killpg(driver.pid, signal.SIGKILL)
            return said.strip()[:SHOWN]
    if driver.returncode == 0:
        return None
    return f"the driver does not end within {LONGEST} s" if hung else f"the driver fails with status {driver.returncode}"


def look_first(wrong):
    """The words by which the driver looks first where the wrong answer most likely shows."""
    for word in (function_of(wrong), Path(wrong.changes[0].file).stem.removeprefix("of_"), wrong.crate):
        if word in LIKELY:
            return [*QUICK, "--only", LIKELY[word]]
    return QUICK


def compared(bench, wrong):
    """What the comparison says of a wrong answer: a word of SAID, and the first difference. One archive that shows it is enough; where none
    does, the driver compares as much as in tools/test."""
    objects = dict(bench.unchanged)
    for part, made in bench.changed_objects(wrong):
        if made is None:
            return "not compiled", None
        objects[part] = made
        if said := first_difference(bench.driver(objects), look_first(wrong)):
            return "caught", said
    if objects == bench.unchanged:
        return "same", None
    said = first_difference(bench.driver(objects), [])
    return ("caught" if said else "not caught"), said


SAID = {
    "caught": "caught: {}",
    "not caught": "NOT CAUGHT",
    "same": "left out: the library is byte for byte the unchanged one",
    "not compiled": "NOT COMPILED",
}


def compare(bench, wrongs):
    found = {kind: [] for kind in SAID}
    if said := first_difference(bench.driver(bench.unchanged), QUICK):
        sys.exit(f"mutants: the unchanged crates, built with no proof, do not agree: {said}")
    print("unchanged: agrees", flush=True)
    for wrong in wrongs:
        kind, said = compared(bench, wrong)
        found[kind].append(wrong.label)
        print(f"{wrong.label}: {SAID[kind].format(said)}", flush=True)
    caught, same, missed = found["caught"], found["same"], found["not caught"] + found["not compiled"]
    print(f"{len(same)} leave the library as it is: {', '.join(same) or 'none'}")
    print(f"{len(caught) + len(missed)} wrong answers: {len(caught)} caught, {len(missed)} not: {', '.join(missed) or 'none'}")
    return not missed


def main(scratch, words):
    if words[:1] == ["--list"]:
        return show(chosen(words[1:]))
    wrongs = chosen(words)
    if not compare(Bench(Path(scratch)), wrongs):
        sys.exit(1)


if __name__ == "__main__":
    main(sys.argv[1], sys.argv[2:])
