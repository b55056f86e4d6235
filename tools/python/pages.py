"""The pages of docs/, for the tools that hold them to the sources: their sections, tables and paragraphs, and the names that they cite."""

import functools
import re

from sources import TOP, below, called, crates, definitions, functions, imported, theorems

# words in backticks that no crate declares: those of the language
LANGUAGE = {"abbrev", "ensures", "new", "now", "old", "requires", "result", "unfoldable"}
# a path of the repository; a part of it in capitals stands for any name
PLACE = re.compile(r"(?<![\w./-])(?:crates|docs|include|rust|samples|tools)/[\w./-]*\w")
SECTION = re.compile(r'(docs/\w+\.md), "([^"]+)"')


class Page:
    """A page by its lines, which may be changed, with what is found wrong in it."""

    def __init__(self, name):
        self.name = name
        self.lines = (TOP / name).read_text().splitlines()
        self.faults = []

    def fault(self, at, said):
        self.faults.append(f"{self.name}:{at + 1}: {said}")

    def text(self):
        return "\n".join(self.lines) + "\n"

    def blocks(self):
        """The tables and paragraphs: the title of the section, and the numbers of the lines from 0 on."""
        title, block = "", []
        for at, line in enumerate([*self.lines, ""]):
            if line and not line.startswith("#"):
                block.append(at)
                continue
            if block:
                yield title, block
            title, block = (line.lstrip("# ") if line else title), []

    def of_block(self, block):
        return "\n".join(self.lines[at] for at in block)

    def rows(self, block, columns):
        """The numbers of the rows of a table with these columns; none of any other block."""
        return block[2:] if self.lines[block[0]] == row(columns) else []


def cells(line):
    return [cell.strip() for cell in line.strip("|").split("|")]


def row(words):
    return "| " + " | ".join(words) + " |"


def grouped(number):
    return f"{number:,}"


# ---- names


def quoted(text):
    """What stands in backticks."""
    return re.findall(r"`([^`]+)`", text)


def plain(text):
    """The text without it."""
    return re.sub(r"`[^`]*`", " ", text)


def words_of(chunk):
    return re.findall(r"[^\s(),;∷≡\[\]]+", chunk)


def named(found, name):
    """Of some functions those that a page means: that of the whole name, else those whose names end in it."""
    return [name] if name in found else [one for one in found if one.endswith("::" + name)]


def find_functions(crate, name):
    """The functions of a crate that a page means."""
    return named(functions(crate), name)


@functools.cache
def known(crate):
    """The names that can be cited of a crate without another crate's: what it declares and imports, and what its code can call."""
    return theorems(crate).union(imported(crate), *definitions(crate).values(), *(called(one) for one in below(crate)))


def is_known(name, context):
    """NAME of a crate of the context, or CRATE::NAME, a function, or CRATE.NAME, a definition or a theorem; or a field of the result."""
    first, mark, rest = name.partition("::" if "::" in name else ".")
    if mark == "::" and first in crates():
        return bool(find_functions(first, rest))
    if mark == "::":
        return any(find_functions(one, name) for crate in context for one in below(crate))
    if first == "result":
        return True
    if mark:
        return first in crates() and rest in theorems(first).union(*definitions(first).values())
    return name in LANGUAGE or name in crates() or any(name in known(crate) for crate in context)


def unknown_names(text, context):
    """The names in backticks that are not there. Numbers, single letters, fields (`.val`), paths and lines of files (`wrong: NAME`) are
    passed over; of a name that ends in `..` the beginning has to be that of a name."""
    for chunk in quoted(text):
        if re.match(r"\w+: ", chunk):
            continue
        for word in words_of(chunk):
            if len(word) == 1 or not word[0].isalpha() or "/" in word:
                continue
            if word.endswith(".."):
                there = any(name.startswith(word[:-2]) for crate in context for name in known(crate))
            else:
                there = is_known(word, context)
            if not there:
                yield word


# ---- files


def look_for_files(page):
    """Whether the files that a page names are there, and the sections of pages that it names."""
    for at, line in enumerate(page.lines):
        for place in PLACE.findall(line):
            if not any(TOP.glob(re.sub(r"(?<=/)[A-Z]+(?=/|$)", "*", place))):
                page.fault(at, f"{place} is not there")
        for other, title in SECTION.findall(line):
            if (TOP / other).exists() and f"# {title}\n" not in (TOP / other).read_text():
                page.fault(at, f'{other} has no section "{title}"')
