"""statements.py [--check] : holds docs/ to the sources.

It makes, in place: the edits of each public function in docs/STATEMENTS.md, the lines of each file of definitions in docs/READING.md, and
the counts of each crate in docs/PERFORMANCE.md. With --check it writes nothing and names the pages that would change. In both cases it
looks whether every name that docs/STATEMENTS.md, docs/COVERAGE.md and docs/READING.md cite is there, whether every public function and every
function of a trait with a wrong answer has one row and every wrong answer is told, and whether every file that a page names is there. The exit
status is 1 where something is wrong.
"""

import re
import sys

import counts
import coverage
from pages import Page, cells, look_for_files, named, plain, quoted, row, unknown_names
from sources import TOP, crates, derived, functions, public_functions, wrong_answers

FUNCTIONS = ["function", "promise", "one answer", "rules out", "edit"]
OF_TRAITS = ["function of a trait", *FUNCTIONS[1:]]
EQUAL = re.compile(r"`==` of `(\w+)`, derived")
RULES = ["rule", "rules out", "edit"]
WORD = re.compile(r"[^\s(),;:.∷≡{}\[\]]+")  # of a promise
NAME = re.compile(r"\b[a-z][a-z0-9]*(?:_[a-z0-9]+)+\b")  # outside backticks: a wrong answer


def listed(cell):
    return [] if cell == "none" else cell.split(", ")


def make_edits(crate, name, cell):
    """The wrong answers of a function: those of the row in their order, which is that of the words beside them, then the others."""
    wrongs = [wrong for wrong, dies in wrong_answers(crate).items() if dies == name]
    return sorted(wrongs, key=lambda wrong: listed(cell).index(wrong) if wrong in listed(cell) else len(wrongs))


def look_at_promise(page, at, crate, name, words):
    """What a row says of the promise has to stand in it, and no promise has a premise."""
    head = functions(crate)[name].head
    for word in (word for chunk in quoted(words[1]) for word in WORD.findall(chunk)):
        if word not in WORD.findall(head):
            page.fault(at, f"the promise of {crate}::{name} has no `{word}`")
    for chunk in quoted(words[2]):
        if chunk.endswith("≡") and chunk not in head:
            page.fault(at, f"the promise of {crate}::{name} has no `{chunk}`")
    if "at exit is an equation" in words[2] and ".new ≡" not in head:
        page.fault(at, f"the promise of {crate}::{name} has no equation for what is lent")
    if "requires" in head:
        page.fault(at, f"{crate}::{name} has a `requires`")


def of_traits(crate):
    """The functions of traits: those of impls, and those that derives write."""
    return {name for name, one in functions(crate).items() if one.of_trait} | derived(crate)


def function_row(page, at, crate, allowed, rows):
    """A row of a function: its edits are made, the rest is looked at. No promise of what a derive writes stands in the sources."""
    words = cells(page.lines[at])
    found = named(allowed, EQUAL.sub(r"\1PartialEq::eq", words[0]).strip("`").removeprefix(f"{crate}::"))
    if len(found) != 1 or len(words) != len(FUNCTIONS):
        page.fault(at, f"no row of a function of {crate} that can have one: {words[0]}")
        return
    rows.append(found[0])
    if found[0] in functions(crate):
        look_at_promise(page, at, crate, found[0], words)
    edits = make_edits(crate, found[0], words[4])
    page.lines[at] = row([*words[:4], ", ".join(edits) or "none"])
    if edits and words[3].count(";") + 1 != len(edits):
        page.fault(at, f"{words[0]} has {len(edits)} edits and words for {words[3].count(';') + 1}")
    for name in unknown_names(words[2] + words[3], [crate]):
        page.fault(at, f"{crate} has no `{name}`")


def section_block(page, crate, block, rows, told):
    """A block of a crate's section: a table of functions or of rules, or a paragraph, in which names of wrong answers stand outside
    backticks and all others in them."""
    public, in_traits, of_rules = (page.rows(block, columns) for columns in (FUNCTIONS, OF_TRAITS, RULES))
    if public or in_traits:
        cited = []
        for at in public or in_traits:
            function_row(page, at, crate, public_functions(crate) if public else of_traits(crate), rows)
    elif of_rules:
        cited = [(at, name) for at in of_rules for name in listed(cells(page.lines[at])[2])]
    else:
        cited = [(block[0], name) for name in NAME.findall(plain(page.of_block(block)))]
        for name in unknown_names(page.of_block(block), [crate]):
            page.fault(block[0], f"{crate} has no `{name}`")
    for at, name in cited:
        if name not in wrong_answers(crate):
            page.fault(at, f"{crate} has no wrong answer {name}")
    told.update(re.findall(r"\w+", plain(page.of_block(block))))


def look_at_crate(page, crate, rows, told):
    at = page.lines.index(f"## {crate}") if f"## {crate}" in page.lines else 0
    for name in sorted({*public_functions(crate), *(of_traits(crate) & set(wrong_answers(crate).values()))}):
        if rows.count(name) != 1:
            page.fault(at, f"{crate}::{name} has {rows.count(name)} rows")
    for name in wrong_answers(crate):
        if name not in told:
            page.fault(at, f"the wrong answer {name} of {crate} is not told")


def statements():
    page = Page("docs/STATEMENTS.md")
    rows, told = {crate: [] for crate in crates()}, {crate: set() for crate in crates()}
    for title, block in page.blocks():
        if title in crates():
            section_block(page, title, block, rows[title], told[title])
        else:
            for name in unknown_names(page.of_block(block), crates()):
                page.fault(block[0], f"no crate has `{name}`")
    for crate in crates():
        look_at_crate(page, crate, rows[crate], told[crate])
    return page


def main(words):
    if words not in ([], ["--check"]):
        sys.exit("usage: statements.py [--check]")
    pages = [statements(), coverage.look(), counts.reading(), counts.performance()]
    pages += [Page("README.md"), Page("docs/DECISIONS.md"), Page("docs/DIFFERENCES.md")]
    for page in pages:
        look_for_files(page)
        path = TOP / page.name
        if page.text() != path.read_text():
            if words:
                page.faults.append(f"{page.name} differs from what the sources say: run tools/statements")
            else:
                path.write_text(page.text())
    faults = [fault for page in pages for fault in page.faults]
    for fault in faults:
        print(fault, file=sys.stderr)
    return not faults


if __name__ == "__main__":
    sys.exit(0 if main(sys.argv[1:]) else 1)
