"""docs/COVERAGE.md against the sources: whether what it refers to is there. Its head says which form refers to what."""

import re

from pages import Page, find_functions, plain, quoted
from sources import TOP, crates, definitions, theorems, wrong_answers


def is_there(reference):
    """CRATE::NAME, CRATE/FILE.NAME, CRATE.NAME or CRATE/NAME; anything else in backticks is none of these."""
    if form := re.fullmatch(r"(\w+)::([\w:]+)", reference):
        return form[1] in crates() and bool(find_functions(form[1], form[2]))
    if form := re.fullmatch(r"(\w+)/(\w+)\.([^\s.]+)", reference):
        return form[1] in crates() and form[3] in definitions(form[1]).get(form[2], ())
    if form := re.fullmatch(r"(\w+)\.([^\s.]+)", reference):
        return form[1] in crates() and form[2] in theorems(form[1])
    if form := re.fullmatch(r"(\w+)/(\w+)", reference):
        return form[1] in crates() and form[2] in wrong_answers(form[1])
    return True


def missing_mutants(text):
    mutants = re.findall(r"^name: (\w+)$", (TOP / "tools" / "mutants.txt").read_text(), re.M)
    named = [name for names in re.findall(r"\bmutants? ([a-z]\w+(?:, \w+)*)", text) for name in names.split(", ")]
    return [name for name in named if name not in mutants]


def missing_modules(text):
    """Of 'diff' and names with commas between them; what is more than one word says which part of a module."""
    modules = re.findall(r"(\w+)::MODULE", (TOP / "rust" / "differential" / "main.rs").read_text())
    for listed in re.findall(r"\bdiff ([a-z][^;|.:(]*)", text):
        first, *others = listed.strip().split(", ")
        yield from [name for name in [first.split()[0], *others] if " " not in name and name not in modules]


def missing_lines(text):
    """Of the program PROGRAM, its lines `..`: each has to begin a line of its stored output."""
    for program, lines in re.findall(r"`(\w+)`: lines? (`[^`]+`(?:(?:, | to )`[^`]+`)*)", text):
        stored = (TOP / "crates" / program / "stdout").read_text().splitlines()
        yield from [line for line in quoted(lines) if not any(f"{one} ".startswith(f"{line} ") for one in stored)]


def look():
    page = Page("docs/COVERAGE.md")
    for at, line in enumerate(page.lines):
        for reference in quoted(line):
            if not is_there(reference):
                page.fault(at, f"`{reference}` is not there")
        for name in missing_mutants(plain(line)):
            page.fault(at, f"tools/mutants.txt has no {name}")
        for name in missing_modules(plain(line)):
            page.fault(at, f"the differential has no module {name}")
        for name in missing_lines(line):
            page.fault(at, f"no line of the program begins with '{name}'")
    return page
