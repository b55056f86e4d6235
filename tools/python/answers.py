"""Which numbers an exported function refuses with, or has within its out numbers, as the sources have it: those that its code names and the
definition of its promise names too. Each of the two alone may name more. A function of the code may serve several entries, of which one
never gives a number; a definition may be used where one of its cases cannot come.

Code names a number by its variant of `bits::Refusal`, and gives it on in results. So of the functions that an entry leads to only those count
whose results can hold a refusal, or that have none and write what is lent to them: in any other one a refusal has come to its end.
"""

import functools
import re
import sys
from pathlib import Path
from typing import NamedTuple

from edits import TOP
from items import items_of
from sources import below, crates, functions

NUMBERS = ("bits", "Numbers")  # the crate and the file that define the numbers
WORD = re.compile(r"[\w'-]+")


def defined_numbers():
    """Of each number: its name in the definitions, and itself."""
    text = (TOP / "crates/bits/specs/Numbers.antt").read_text()
    return {name: int(number) for name, number in re.findall(r"\nabbrev pub (\w+) : ℕ\n\1 = (\d+)\n", text)}


class File(NamedTuple):
    """A file of definitions: the text of each thing that it has, and where each name stands that it takes from another file."""

    texts: dict
    taken: dict


def reached(start):
    """All names that a name leads to, each with the crate and the file where it stands."""
    seen, left = set(), [start]
    while left:
        here, name = left.pop()
        file = definitions(here)
        if (here, name) in seen or file is None or name not in file.texts:
            continue
        seen.add((here, name))
        for word in set(WORD.findall(file.texts[name])):
            left.append((here, word) if word in file.texts else (file.taken.get(word), word))
    return seen


# ---- definitions


DEFINED = re.compile(r"^(?:(?:abbrev|unfoldable|pub) )+(?:record |data )?([^\s(:]+)", re.M)
IMPORTED = re.compile(r"^(?:ghost )?use Rattle\.(\w+)\.specs\.(\w+)\.\{([^}]*)\}", re.M)


def imported(text):
    """The names that a text takes from files of definitions, each with its crate and file."""
    return {name.strip(): (crate, file) for crate, file, names in IMPORTED.findall(text) for name in names.split(",")}


@functools.cache
def definitions(here):
    """A file of definitions by its crate and name, if there is one. What is defined there stands in paragraphs."""
    path = here and TOP / "crates" / here[0] / "specs" / f"{here[1]}.antt"
    if not path or not path.exists():
        return None
    text = re.sub(r"^ *--.*$", "", path.read_text(), flags=re.M)
    paragraphs = [(DEFINED.search(one), one) for one in re.split(r"\n\s*\n", text)]
    return File({found[1]: one for found, one in paragraphs if found}, imported(text))


def by_definition(promise, text):
    """The numbers that the definitions name which a promise of this file leads to."""
    names = imported(text)
    found = set().union(*(reached((names[word], word)) for word in set(WORD.findall(promise)) & set(names)))
    return {defined_numbers()[name] for here, name in found if here == NUMBERS}


# ---- code


# Where the code comes to a refusal that never comes. The five bytes of these timestamps are there, as they were looked for before: so they are
# read, or a marker is not set (`contents.stamp-marked`).
NEVER = {"contents::lib::stamp_at": {"WrongLength"}, "adaptation::extension::seamless_splice": {"WrongLength"}}

VARIANT = re.compile(r"^            Refusal::(\w+)(?: \{ \.\. \})? => (\d+),$", re.M)
NAMED = re.compile(r"\bRefusal::(\w+)\b(?!(?: \{[^}]*\})?\)*\s*(?:=>|\||if\b|=(?!=)))")  # but in a pattern
PATH = re.compile(r"(?<![\w:.])(?:\w+::)*\w+")
METHOD = re.compile(r"\.(\w+)\(")
USED = re.compile(r"^(?:pub )?use (\w+(?:::\w+)*)::(?:(\w+)|\{([^}]*)\});", re.M)
TYPE = re.compile(r"[A-Z]\w*|u\d+|usize")


@functools.cache
def variants():
    """Of each variant of `bits::Refusal` its number, as the code has it."""
    return {name: int(number) for name, number in VARIANT.findall((TOP / "crates/bits/src/refusal.rt").read_text())}


@functools.cache
def items():
    return list(items_of(TOP))


@functools.cache
def code():
    """The functions of all crates by crate, module and name; those of a type by crate, type and name, and all of one name together."""
    found = {}
    for one in (one for one in items() if one.what == "fn"):
        place = [] if "::" in one.name else [Path(one.file).stem]
        found.setdefault("::".join([one.crate, *place, one.name]), []).append(one)
    return found


@functools.cache
def taken(file):
    """Of each name that a file of code takes from elsewhere its path, from the crate on."""
    used = USED.findall((TOP / "crates" / file).read_text())
    return {name.strip(): f"{path}::{name.strip()}" for path, one, several in used for name in (one or several).split(",")}


def meant(path, one):
    """The keys of the functions that a path within a function may mean. A type is known by its name alone."""
    first, *rest = path.split("::")
    path = [*taken(one.file).get(first, first).split("::"), *rest]
    if len(path) == 1:
        return [f"{one.crate}::{Path(one.file).stem}::{path[0]}"]
    place, name = path[-2:]
    if TYPE.fullmatch(place):
        place = one.name.partition("::")[0] if place == "Self" else place
        return [f"{crate}::{place}::{name}" for crate in below(one.crate)]
    crate = path[0] if path[0] in crates() else one.crate
    return [f"{crate}::{'lib' if place in (crate, 'crate') else place}::{name}"]


def methods(name, one):
    """The keys of the methods of this name, of all types of the crates that a function's crate is built on."""
    named = [key for key in code() if key.endswith(f"::{name}") and key.partition("::")[0] in below(one.crate)]
    return [key for key in named if ("self", "") in code()[key][0].parts]


@functools.cache
def holders():
    """The types whose values can hold a refusal."""
    found, types = {"Refusal"}, [one for one in items() if one.what in ("struct", "enum")]
    while more := {one.name for one in types if found & set(WORD.findall(str(one.parts)))} - found:
        found |= more
    return found


def gives_on(one):
    """Whether a refusal can leave a function: in its result, in what is lent to it where it has none, or in the word of an entry."""
    return not one.result or one.name.startswith("cmv_") or holders() & set(WORD.findall(one.result))


def leads_to(one):
    """The keys of the functions that a function names, of those which a refusal can leave."""
    paths = [key for path in PATH.findall(one.text) for key in meant(path, one)]
    named = [key for name in METHOD.findall(one.text) for key in methods(name, one)]
    return {key for key in paths + named if any(map(gives_on, code().get(key, [])))}


@functools.cache
def refusals():
    """Of each function, by its key, the refusals that its code comes to."""
    named = {key: {name for one in some for name in NAMED.findall(one.text)} for key, some in code().items()}
    leads = {key: set().union(*map(leads_to, some)) for key, some in code().items()}
    found, last = named, None
    while found != last:
        last, come_to = found, {key: named[key].union(*(found[other] for other in leads[key])) for key in code()}
        found = {key: names - NEVER.get(key, set()) for key, names in come_to.items()}
    for key, names in NEVER.items():
        if not names <= come_to[key]:
            sys.exit(f"answers.py: {key} does not come to {', '.join(names)}")
    return found


def by_code(crate, module, name):
    """The numbers that the code names which a function leads to."""
    return {variants()[one] for one in refusals()[f"{crate}::{module}::{name}"]}


def answers(crate, module, name):
    """The numbers that an exported function refuses with or has within its out numbers."""
    text = (TOP / "crates" / crate / "src" / f"{module}.rt").read_text()
    promise = functions(crate)[f"{module}::{name}"].head.partition("ensures")[2]
    return by_code(crate, module, name) & by_definition(promise, text)
