"""shifts.py SCRATCH : whether timestamps are read and made with no 64-bit shift on a 32-bit processor.

The module of each static library below is compiled for each target as the toolchain compiles it for its own, at -O3, so that the functions
named are kept, with what they call inlined. A 64-bit shift is one in the optimised module, whatever the target then makes of it; by 32 bits it
is none, since that only says which of two registers is meant. A helper is a function of the compiler's own library that the target's code
calls, with a name that begins with '__'. That copies or clears memory is no helper: on Arm alone its name is of that form.
"""

import re
import sys
from pathlib import Path

from modules import Kit, must_run
from sources import functions

TARGETS = ["thumbv6m-none-eabi", "i686-unknown-linux-gnu"]
# Of each static library the functions that are looked at: all of the crate `timestamp`, and those of other crates that read or make one.
READERS = [f"timestamp::{name}" for name in functions("timestamp")]
FUNCTIONS = {
    "host_c": [*READERS, "contents::pts_dts", "adaptation::extension::seamless_splice"],
    "host_streams_c": ["writer::stamp"],
}
LAYOUT = re.compile(r"^target (?:datalayout|triple) = .*\n", re.M)
PROCESSOR = re.compile(r' "(?:target-cpu|target-features|probe-stack|stack-probe-size)"="[^"]*"')
EXPORTED = re.compile(r"^define (?!internal )", re.M)
SHIFT = re.compile(r"= (?:shl|lshr|ashr) (?:\w+ )*(?:i64|<\d+ x i64>) (?!\S+, 32$).*$", re.M)
HELPER = re.compile(r"^\s+(?:blx?|b|calll?|jmp)\s+(__(?!aeabi_mem)\w+)", re.M)


def kept(module, functions):
    """The module with these functions for others to call, so that they and no others are kept, and with no target; and those that it lacks."""
    module = PROCESSOR.sub("", LAYOUT.sub("", EXPORTED.sub("define internal ", module)))
    lacking = []
    for name in functions:
        module, number = re.subn(rf'^define internal (.*@"{name}"\()', r"define \1", module, flags=re.M)
        lacking += [] if number == 1 else [name]
    return module, lacking


def compiled(kit, text, target, *words):
    clang = [kit.clang, f"--target={target}", "-Wno-override-module", "-O3", "-x", "ir", text]
    return must_run([*clang, *words, "-S", "-o", "-"])


def look_at(kit, part, functions):
    """Whether a library's functions need neither, for each target; says what they need."""
    text = kit.kept.with_name(f"{part}.ll")
    module, lacking = kept(kit.proved(part) or "", functions)
    text.write_text(module)
    needed = [f"{name} is not in the module of {part}" for name in lacking]
    for target in TARGETS:
        shifts = SHIFT.findall(compiled(kit, text, target, "-emit-llvm"))
        helpers = HELPER.findall(compiled(kit, text, target))
        found = len(functions) - len(lacking)
        print(f"{part} for {target}: {found} functions, {len(shifts)} 64-bit shifts, {len(helpers)} calls of helpers")
        needed += shifts + helpers
    for found in needed:
        print(f"  {found}")
    return not needed


def main(scratch):
    kit = Kit(Path(scratch) / "kit")
    return all([look_at(kit, *part) for part in FUNCTIONS.items()])


if __name__ == "__main__":
    sys.exit(0 if main(sys.argv[1]) else 1)
