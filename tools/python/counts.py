"""The numbers of docs/READING.md and docs/PERFORMANCE.md that are counted off the sources."""

import re

from edits import BY_THE_GATE, edit_files, read_edits
from pages import Page, cells, grouped, quoted, row, unknown_names
from sources import PRIVATE, TOP, below, called, code, crates, declared, definitions, proofs, public_functions, specs, wrong_answers

FILES = ["file", "lines", "what to believe"]
CRATES = ["crate", "code", "definitions", "proofs", "ratio", "seconds", "wrong answers", "by the gate", "checks"]
TOTAL = re.compile(r"^(What has to be believed is in crates/NAME/specs, )[\d,]+ lines\b")


# ---- docs/READING.md


def lines_to_read(path):
    """All lines of a file of definitions, and those before what private functions alone cite."""
    text = path.read_text()
    return len(text.splitlines()), len(text.split(PRIVATE)[0].splitlines())


def lines_said(paths):
    all_lines, read = (sum(numbers) for numbers in zip(*map(lines_to_read, paths)))
    return grouped(read) if read == all_lines else f"{grouped(read)} of {grouped(all_lines)}"


def files_of(cell, named):
    """The files that a row is about: FILE.. of the section's crate, or CRATE FILE.."""
    words = cell.replace(",", "").split()
    crate = words.pop(0) if words[0] in crates() else named[0]
    return [TOP / "crates" / crate / "specs" / f"{word}.antt" for word in words]


def file_row(page, at, named):
    """A row of files: its lines are made, and its definitions have to be theirs. Gives the files."""
    words = cells(page.lines[at])
    paths = files_of(words[0], named)
    if not all(path in specs(path.parts[-3]) for path in paths):
        page.fault(at, f"no such file of definitions: {words[0]}")
        return []
    page.lines[at] = row([words[0], lines_said(paths), *words[2:]])
    own = set().union(*(definitions(path.parts[-3])[path.stem] for path in paths))
    anywhere = set().union(*(names for crate in crates() for names in definitions(crate).values()))
    code_has = set().union(*(called(crate) for crate in below(paths[0].parts[-3])))
    for name in quoted(words[2]):
        if name in anywhere - own - code_has:
            page.fault(at, f"{words[0]} does not define `{name}`")
    return paths


def private_in_public(crate):
    """Definitions under the line that says that private functions alone cite them, and public functions whose promise does."""
    for path in specs(crate):
        private = declared("".join(path.read_text().partition(PRIVATE)[2:]))
        for name, function in public_functions(crate).items():
            for word in private & set(re.findall(r"[^\s(){}]+", function.head)):
                yield word, name


def reading():
    page = Page("docs/READING.md")
    told = []
    for title, block in page.blocks():
        named = [word for word in re.findall(r"\w+", title) if word in crates()]
        for at in page.rows(block, FILES):
            told += file_row(page, at, named)
        for name in unknown_names(page.of_block(block), named or crates()):
            page.fault(block[0], f"no crate of the section has `{name}`")
    everything = [path for crate in crates() for path in specs(crate)]
    for path in everything:
        if told.count(path) != 1:
            page.fault(0, f"{path.relative_to(TOP)} has {told.count(path)} rows")
    for word, name in (pair for crate in crates() for pair in private_in_public(crate)):
        page.fault(0, f"{word} is not cited by private functions alone: {name} is public")
    if not any(map(TOTAL.match, page.lines)):
        page.fault(0, "the sentence with the number of all lines is not there")
    read = grouped(sum(lines_to_read(path)[1] for path in everything))
    page.lines = [TOTAL.sub(rf"\g<1>{read} lines", line) for line in page.lines]
    return page


# ---- docs/PERFORMANCE.md


def lines_of(paths, comment):
    """Lines that are neither blank nor begin as a comment, or as what is left out beside it."""
    lines = [line.strip() for path in paths for line in path.read_text().splitlines()]
    return sum(1 for line in lines if line and not line.startswith(comment))


def crate_row(crate, seconds):
    in_code, in_proofs = lines_of(code(crate), ("//", "#![")), lines_of(proofs(crate), "--")
    in_specs = lines_of((TOP / "crates" / crate / "specs").glob("*.antt"), "--")
    ratio = f"{in_proofs / in_code:.1f}" if in_code else "-"
    lines = [grouped(in_code), grouped(in_specs), grouped(in_proofs)]
    by_the_gate = [len(read_edits(path)) for _, path in edit_files([crate], [BY_THE_GATE])]
    wrong = [len(wrong_answers(crate)), sum(by_the_gate), len(by_the_gate)]
    return row([crate, *lines, ratio, seconds, *map(str, wrong)])


def performance():
    """The table of crates is made; its seconds stay, and those of a new crate are to be filled in."""
    page = Page("docs/PERFORMANCE.md")
    tables = [rows for rows in (page.rows(block, CRATES) for _, block in page.blocks()) if rows]
    if len(tables) != 1:
        page.fault(0, "there is not one table of crates")
        return page
    first, last = tables[0][0], tables[0][-1]
    seconds = {words[0]: words[5] for words in map(cells, page.lines[first : last + 1])}
    page.lines[first : last + 1] = [crate_row(crate, seconds.get(crate, "?")) for crate in crates()]
    return page
