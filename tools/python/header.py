"""header.py [--check] : makes of the sources of the library's crates, which tools/common.sh lists, what callers in other languages need
to be told of every exported function: include/clomaverift.h for C and C++, with the words of tools/header.txt, and
rust/clomaverift/src/declarations.rs for all Rust of the repository. With --check nothing is written: a file that differs from what would be
made is named, and so is a file that has another version than rust/clomaverift/Cargo.toml; the exit status is 1 then.

A `&[u8]` of the sources is two C arguments, pointer and length; a `&mut` number is a pointer, and so is a lent row of numbers, `&` or
`&mut`; a number is itself.
"""

import re
import sys

from answers import answers, defined_numbers, variants
from edits import TOP
from sources import exports_of, unlike

COMMON = (TOP / "tools/common.sh").read_text()
CRATES = re.search(r"^parts=\(([\w ]+)\)", COMMON, re.M)[1].split()
ABI = "cmv_abi_" + re.search(r"^abi=(\d+)", COMMON, re.M)[1]
HEADER = TOP / "include" / "clomaverift.h"
DECLARATIONS = TOP / "rust" / "clomaverift" / "src" / "declarations.rs"
WIDTH = 140  # of a line of the header
RUST_WIDTH = 120  # of a line of Rust, as rust/rustfmt.toml has it

SLICE = re.compile(r"&(mut )?\[u8\]")
ROW = re.compile(r"&(?:mut )?\[(\w+); (\d+)\]")
C_TYPES = {"u8": "uint8_t", "u16": "uint16_t", "u32": "uint32_t", "u64": "uint64_t", "usize": "size_t", None: "void"}

ENTRY = re.compile(r'#\[unsafe\(no_mangle\)\]\npub extern "C" fn (\w+)\(([^)]*)\)(?: -> (\w+))?\n')
EXPORTS = re.compile(r'#\[unsafe\(no_mangle\)\]|extern "C"')


# ---- the exported functions


class Entry:
    """An exported function: its name, its parameters and the type of its answer, if it has one; and where it stands."""

    def __init__(self, name, parameters, answer, crate=None, module=None):
        self.name = name
        pairs = (one.split(":") for one in parameters.split(",") if one.strip())
        self.parameters = [Parameter(parameter.strip(), kind.strip()) for parameter, kind in pairs]
        self.answer = answer
        self.crate, self.module = crate, module

    def rows(self):
        """How many numbers each of its rows has."""
        return [one.count for one in self.parameters if one.count]


class Parameter:
    """A parameter: its name, whether it is a slice, whether it is written, the type of its numbers, and how many a row of them has."""

    def __init__(self, name, kind):
        row = ROW.fullmatch(kind)
        self.name = name
        self.slice = bool(SLICE.fullmatch(kind))
        self.written = kind.startswith("&mut ")
        self.count = int(row[2]) if row else None
        self.number = "u8" if self.slice else row[1] if row else kind.removeprefix("&mut ")
        if self.number not in C_TYPES:
            stop(f"a parameter {name}: {kind} is not understood")


def stop(why):
    sys.exit(f"header.py: {why}")


def exported():
    """All exported functions, in the order of the sources. Each is the function of the same name of the library that its crate exports."""
    found = []
    for crate in CRATES:
        if named := unlike(crate):
            stop(f"{crate} does not export the functions of {exports_of(crate)} as they are: {', '.join(named)}")
    for path in (path for crate in CRATES for path in sorted((TOP / "crates" / crate / "src").glob("*.rt"))):
        text = path.read_text()
        some = [Entry(*match.groups(), path.parts[-3], path.stem) for match in ENTRY.finditer(text)]
        if 2 * len(some) != len(EXPORTS.findall(text)):
            stop(f"{path} exports a function that is not understood")
        found += some
    return found


def numbers():
    """Of each number: its name and itself. The definitions say it; the code's refusals, and the word of what is accepted, have to be equal."""
    found = [(name.upper(), number) for name, number in defined_numbers().items()]
    done = re.search(r"^pub const DONE: u32 = (\d+);", (TOP / "crates/host/src/told.rt").read_text(), re.M)
    code = [("DONE", int(done[1])), *((re.sub(r"\B(?=[A-Z])", "_", name).upper(), number) for name, number in variants().items())]
    if found != code:
        stop("the numbers of crates/bits/specs/Numbers.antt and crates/bits/src/refusal.rt differ")
    return found


def kinds():
    """The kinds of events: of each its name and number."""
    found = re.findall(r"\nabbrev pub (\w+) : ℕ\n\1 = (\d+)\n", (TOP / "crates/event_log/specs/Entry.antt").read_text())
    return [(name.upper(), int(number)) for name, number in found]


def packet_size():
    return re.search(r"\npub const SIZE: usize = (\d+);\n", (TOP / "crates/packet/src/lib.rt").read_text())[1]


# ---- the words of tools/header.txt


class Block:
    """A block: its first line; its words; the numbers that it tells, each with when, or with nothing where the group has told it; the
    numbers that stand within out numbers only; and the names that it tells, each with what it is."""

    def __init__(self, text):
        self.text, self.told, self.within, self.named = [], {}, [], {}
        self.first, *lines = re.sub(r"\n +", " ", text).splitlines()
        for line in lines:
            if alone := re.fullmatch(r"(within )?(\d+(?: \d+)*)", line):
                some = [int(number) for number in alone[2].split()]
                self.within += some if alone[1] else []
                self.told.update({} if alone[1] else dict.fromkeys(some))
            elif number := re.fullmatch(r"(\d+): (.+)", line):
                self.told[int(number[1])] = number[2]
            elif name := re.fullmatch(r"([A-Z_]+): (.+)", line):
                self.named[name[1]] = name[2]
            else:
                self.text.append(line)


def blocks():
    text = "\n".join(line for line in (TOP / "tools/header.txt").read_text().splitlines() if not line.startswith("#"))
    if "::" in text:
        stop("tools/header.txt has a name with '::', which a C user cannot look up")
    return [Block(one) for one in re.split(r"\n{2,}", text.strip())]


def check_entries(found, said):
    """Every exported function is told once, and nothing else is; what it refuses with is what the sources have."""
    names, told = sorted(entry.name for entry in found), sorted(block.first for block in said if block.first.startswith("cmv_"))
    if names != told:
        stop(f"tools/header.txt does not tell of each entry once: {', '.join(sorted(set(names) ^ set(told))) or 'one stands there twice'}")
    group = None
    for block in said:
        if block.first.startswith("= "):
            group = block
        elif block.first.startswith("cmv_"):
            [entry] = [one for one in found if one.name == block.first]
            check_numbers(entry, block, group)


def check_numbers(entry, block, group):
    untold = [number for number, when in block.told.items() if when is None and group.told.get(number) is None]
    if untold:
        stop(f"tools/header.txt: {entry.name}: the group does not tell when it is refused with {untold[0]}")
    ours, theirs = {*block.told, *block.within}, answers(exports_of(entry.crate), entry.module, entry.name)
    if ours != theirs:
        stop(f"tools/header.txt: {entry.name}: the refusals told are {sorted(ours)}, those of the sources {sorted(theirs)}")


def check_rows(found, said):
    """Every row of an exported function has names for all its numbers."""
    rows = {}
    for block in said:
        if row := re.fullmatch(r"row (\w+): (.+)", block.first):
            rows.update({name: len(block.named) for name in row[2].split()})
    for entry in found:
        if entry.rows() != ([rows[entry.name]] if entry.name in rows else []):
            stop(f"tools/header.txt: {entry.name}: its row has not as many names as it has numbers, {entry.rows()}")


# ---- C


def wrapped(text, start, next_start, end):
    """A comment of one or more lines."""
    lines, line = [], start
    for word in text.split():
        if len(line) + 1 + len(word) + len(end) > WIDTH:
            lines.append(line)
            line = next_start
        line += " " + word
    return "\n".join(lines + [line + end]) + "\n"


def c_comment(paragraphs, start="/*", between=""):
    """One comment, of a paragraph or more."""
    starts, ends = [start] + ["  "] * (len(paragraphs) - 1), [""] * (len(paragraphs) - 1) + [" */"]
    return between.join(wrapped(text, begun, "  ", end) for text, begun, end in zip(paragraphs, starts, ends))


def c_parameter(one):
    number = C_TYPES[one.number]
    if one.slice:
        return [f"{'' if one.written else 'const '}{number} *{one.name}", f"size_t {one.name}_len"]
    if one.count:
        return [f"{'' if one.written else 'const '}{number} {one.name}[{one.count}]"]
    return [f"{number} {'*' if one.written else ''}{one.name}"]


def laid_out(start, words, end, indent, width):
    """A declaration on one line, or as many words to a line as there is room for."""
    lines, line = [], start
    for number, word in enumerate(words):
        piece = word + (end if number + 1 == len(words) else ",")
        glue = "" if line.endswith("(") or line == indent else " "
        if len(line) + len(glue) + len(piece) > width:
            lines.append(line)
            line, glue = indent, ""
        line += glue + piece
    return "\n".join(lines + [line]) + "\n"


def refusals(block):
    """When each number is given: a paragraph each."""
    return [f"{number}: {when}." for number, when in block.told.items() if when]


def c_entry(entry, block):
    refused = f"Refused with {', '.join(map(str, block.told))}." if block.told else "Never refused."
    words = [word for parameter in entry.parameters for word in c_parameter(parameter)]
    start = f"{C_TYPES[entry.answer]} {entry.name}("
    comment = c_comment([" ".join(block.text), *([refused] if entry.answer else []), *refusals(block)])
    return comment + laid_out(start, words, ");", "    ", WIDTH)


def c_group(block):
    told = ["Refusals of the functions of this group:", *refusals(block)] if block.told else []
    return c_comment([block.first.removeprefix("= ") + ".", " ".join(block.text), *told], "/* ----")


def c_enum(rows, comment):
    """An enum of names, numbers and what each is."""
    last = len(rows) - 1
    lines = [f"    CMV_{name} = {number}{',' if at < last else ''} /* {what} */\n" for at, (name, number, what) in enumerate(rows)]
    return c_comment([comment]) + "enum {\n" + "".join(lines) + "};\n"


def c_numbers(block):
    if list(block.told) != [number for _, number in numbers()]:
        stop("tools/header.txt does not tell of each number")
    return c_enum([(name, number, block.told[number]) for name, number in numbers()], "The numbers of the answers.")


def c_kinds(block):
    if list(block.named) != [name for name, _ in kinds()]:
        stop("tools/header.txt does not tell of each kind of event")
    return c_enum([(name, number, block.named[name]) for name, number in kinds()], "The kinds of events.")


def c_row(block):
    prefix, names = re.fullmatch(r"row CMV_(\w+): (.+)", block.first).groups()
    rows = [(f"{prefix}_{name}", at, what) for at, (name, what) in enumerate(block.named.items())]
    rows.append((f"{prefix}_SIZE", len(rows), "how many numbers the row has"))
    return c_enum(rows, f"The places of the row of {', '.join(names.split())}.")


def c_block(found, block):
    if block.first.startswith("= "):
        return c_group(block)
    if block.first == "numbers":
        return c_numbers(block)
    if block.first == "kinds":
        return c_kinds(block)
    if block.first.startswith("row "):
        return c_row(block)
    if block.first.startswith("cmv_"):
        return c_entry(next(entry for entry in found if entry.name == block.first), block)
    return c_comment([" ".join([block.first, *block.text])])


OPENING = """\
#ifndef CLOMAVERIFT_H
#define CLOMAVERIFT_H

#include <stddef.h>
#include <stdint.h>

#ifdef __cplusplus
extern "C" {
#endif
"""

ABI_NAMED = f"""\
/* The layout of the library: its signatures, rows and numbers. An archive of another layout has another symbol in place of this one, and a
   file that includes this header does not link with it. The pointer is the reference; nothing has to read it. */
extern const unsigned char {ABI};
#if defined(__has_attribute)
#if __has_attribute(retain)
__attribute__((used, retain))
#else
__attribute__((used))
#endif
#elif defined(__GNUC__)
__attribute__((used))
#endif
static const unsigned char *const cmv_abi = &{ABI};
"""

WORDS = """\
/* The number of a word, and the first and the second number that go with it. */
#define CMV_NUMBER(word) ((word) & 255)
#define CMV_FIRST(word) ((word) >> 8 & 255)
#define CMV_SECOND(word) ((word) >> 16)
"""

CLOSING = """\
#ifdef __cplusplus
}
#endif

#endif
"""


def header(found):
    said = blocks()
    check_entries(found, said)
    check_rows(found, said)
    first = next(at for at, block in enumerate(said) if block.first == "numbers")
    paragraphs = [" ".join([block.first, *block.text]) for block in said[:first]]
    opening = c_comment(paragraphs, between="\n") + OPENING
    version_said = f'#define CMV_VERSION "{version()}"\n'
    size = f"/* The bytes of a packet. */\n#define CMV_PACKET_SIZE {packet_size()}\n"
    parts = [opening, version_said, ABI_NAMED, c_block(found, said[first]), WORDS, size]
    return "\n".join(parts + [c_block(found, block) for block in said[first + 1 :]] + [CLOSING])


# ---- Rust


RUST_OPENING = f"""\
//! The functions of the library. Made by tools/header from the sources of the crates that it is built from: not to be edited. What each
//! function does and asks, include/clomaverift.h says.
//!
//! A `&[u8]` of the sources is two arguments, pointer and length; a `&mut` number is a pointer, and so is a lent row of numbers.

// A program declares them all, and calls some.
#![allow(dead_code)]

/// The symbol of the library's layout: its signatures, rows and numbers. An archive of another layout has another one.
pub const ABI: &str = "{ABI}";

#[rustfmt::skip]
extern "C" {{
    #[link_name = "{ABI}"]
    pub static cmv_abi: u8;
"""


def rust_parameter(one):
    if one.slice:
        return [f"{one.name}: *{'mut' if one.written else 'const'} {one.number}", f"{one.name}_len: usize"]
    number = f"[{one.number}; {one.count}]" if one.count else one.number
    pointer = "*mut " if one.written else "*const " if one.count else ""
    return [f"{one.name}: {pointer}{number}"]


def rust_declaration(entry):
    words = [word for parameter in entry.parameters for word in rust_parameter(parameter)]
    answer = f" -> {entry.answer}" if entry.answer else ""
    line = f"    pub fn {entry.name}({', '.join(words)}){answer};\n"
    if len(line) <= RUST_WIDTH + 1:
        return line
    return f"    pub fn {entry.name}(\n" + "".join(f"        {word},\n" for word in words) + f"    ){answer};\n"


def declarations(found):
    return RUST_OPENING + "".join(map(rust_declaration, found)) + "}\n"


# ---- the version


VERSIONED = [  # the other files that have it, and where
    ("rust/clomaverift/Cargo.lock", r'name = "clomaverift"\nversion = "([^"]+)"'),
    ("rust/cmv/Cargo.toml", r'^version = "([^"]+)"'),
    ("rust/cmv/Cargo.lock", r'name = "cmv"\nversion = "([^"]+)"'),
    ("rust/cmv/Cargo.lock", r'name = "clomaverift"\nversion = "([^"]+)"'),
    ("CHANGELOG.md", r"^## (\d+\.\d+\.\d+)"),  # the newest one stands first
]


def version():
    """The version, which the manifest of the Rust crate says."""
    return re.search(r'^version = "([^"]+)"', (TOP / "rust/clomaverift/Cargo.toml").read_text(), re.M)[1]


def other_versions():
    """The files that have another one."""
    found = [(file, re.search(pattern, (TOP / file).read_text(), re.M)) for file, pattern in VERSIONED]
    return sorted({file for file, one in found if not one or one[1] != version()})


def main():
    found = exported()
    made = {HEADER: header(found), DECLARATIONS: declarations(found)}
    differing = [path for path, text in made.items() if not path.exists() or path.read_text() != text]
    if sys.argv[1:] == ["--check"]:
        for path in differing:
            print(f"header.py: {path.relative_to(TOP)} differs from what the sources say: run tools/header", file=sys.stderr)
        for file in other_versions():
            print(f"header.py: {file} has another version than rust/clomaverift/Cargo.toml, {version()}", file=sys.stderr)
        sys.exit(1 if differing or other_versions() else 0)
    if sys.argv[1:]:
        sys.exit("usage: header.py [--check]")
    for path in differing:
        path.parent.mkdir(exist_ok=True)
        path.write_text(made[path])


if __name__ == "__main__":
    main()
