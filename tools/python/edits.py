"""The wrong answers of the repository, as text: those of crates/*/must-fail, which the gate tries, those of crates/*/must-fail-by-hand, which
`tools/refused --edits` tries too, and those of tools/mutants.txt.

A file of the two folders holds several, each with the lines

    wrong: its name, one of its kind in the crate
    dies:  the function whose proof has to fail, or a file under proofs/
    file:  a file of the crate; it holds for the pairs after it
    old:   a text that stands in the file exactly once
    new:   what takes its place

and lines that begin with '#'. rt makes all changes of a file in one copy, one after another, and passes over 'wrong:' and 'dies:'. A wrong
answer of tools/mutants.txt has 'name:' for its name, no 'dies:', a file that is seen from the repository's top, and 'in:', a text that
stands in the file exactly once: the change is of the first 'old:' after it.
"""

import functools
import re
from pathlib import Path
from typing import NamedTuple

TOP = Path(__file__).resolve().parents[2]
MUTANTS = TOP / "tools" / "mutants.txt"
BRACKET = re.compile("[{}]")
BY_THE_GATE, BY_HAND = "must-fail", "must-fail-by-hand"  # folders of a crate


class Change(NamedTuple):
    file: str  # from the repository's top
    after: str  # the text after which it is made; none where 'old' stands once in the whole file
    old: str
    new: str

    def place(self, text):
        """Where in the file's text the old text stands."""
        start = self.only(text, self.after) + len(self.after) if self.after else 0
        at = text.find(self.old, start) if self.after else self.only(text, self.old)
        if at < 0:
            raise ValueError(f"{self.file} has no '{self.old}' after '{self.after}'")
        return at

    def only(self, text, part):
        if text.count(part) != 1:
            raise ValueError(f"{self.file} has '{part}' {text.count(part)} times, not once")
        return text.index(part)

    def made(self, text):
        at = self.place(text)
        return text[:at] + self.new + text[at + len(self.old) :]


class Wrong:
    def __init__(self, crate, name):
        self.crate, self.name, self.label, self.dies, self.changes = crate, name, f"{crate}/{name}", None, []

    def made(self, texts):
        """The texts of the files that it changes, from the texts that they have, or those of the repository where TEXTS has none."""
        made = dict(texts)
        for change in self.changes:
            text = made[change.file] if change.file in made else (TOP / change.file).read_text()
            made[change.file] = change.made(text)
        return made


def read_edits(path):
    """The wrong answers of a file of edits."""
    crate, wrongs, file, old = path.parts[-3], [], None, None
    for number, line in enumerate(path.read_text().splitlines(), 1):
        word, _, rest = line.partition(":")
        rest = rest.removeprefix(" ")
        if word == "wrong":
            wrongs.append(Wrong(crate, rest))
        elif word == "dies" and wrongs:
            wrongs[-1].dies = rest
        elif word == "file":
            file = f"crates/{crate}/{rest}"
        elif word == "old" and file and rest and not old:
            old = rest
        elif word == "new" and old and wrongs:
            wrongs[-1].changes.append(Change(file, "", old, rest))
            old = None
        elif line and not line.startswith("#"):
            raise ValueError(f"line {number} is out of place: {line}")
    if old:
        raise ValueError(f"nothing takes the place of '{old}'")
    return wrongs


def edit_files(names=(), folders=(BY_THE_GATE, BY_HAND)):
    """The files of edits, with their crates: of all crates, or of those named."""
    paths = sorted(path for folder in folders for path in TOP.glob(f"crates/*/{folder}/*.edit"))
    return [(path.parts[-3], path) for path in paths if not names or path.parts[-3] in names]


def read_mutants():
    """The wrong answers of tools/mutants.txt."""
    wrongs, row = [], {}
    for line in MUTANTS.read_text().splitlines():
        word, _, rest = line.partition(": ")
        row[word] = rest
        if word == "new":
            wrong = Wrong(Path(row["file"]).parts[1], row["name"])
            wrong.label = wrong.name
            wrong.changes.append(Change(row["file"], row["in"], row["old"], rest))
            wrongs.append(wrong)
    return wrongs


OWNER = re.compile(r"^impl(?:<[^>]*>)? (?:(?:\w+::)*(?P<trait>\w+)(?:<(?P<of>\w+)>)? for )?(?P<type>\w+)(?:<(?P<argument>\w+)>)?")


def owner(line):
    """The name that the prover gives an `impl`, from its first line: the type's, or 'EventKindTryFromU8' for `impl TryFrom<u8> for EventKind`
    and 'OptionU16Told2' for `impl Told<2> for Option<u16>`."""
    one = OWNER.match(line)
    if not one["trait"]:
        return one["type"]
    words = (one["type"], one["argument"] or "", one["trait"], one["of"] or "")
    return "".join(word[:1].upper() + word[1:] for word in words)


def function_of(wrong):
    """The function that a wrong answer is in; None where it is in a constant."""
    change = wrong.changes[0]
    text = (TOP / change.file).read_text()
    return function_at(Path(change.file), text, change.place(text))


def function_at(path, text, at):
    """The function in whose body a place of a source file lies, as the prover names it within its crate; None before the first and in a
    constant."""
    before = text[:at]
    heads = re.findall(r'^( *)(?:pub(?:\(\w+\))? )?(?:extern "C" )?(fn|const) (\w+)', before, re.M)
    if not heads or heads[-1][1] == "const":
        return None
    indent, _, name = heads[-1]
    impls = re.findall(r"^impl.*", before, re.M) if indent else []
    kind = owner(impls[-1]) + "::" if impls else ""
    module = "" if path.stem in ("lib", "main") else path.stem + "::"
    return module + kind + name


# ---- what is compiled of a source file


@functools.cache
def without_promises(text):
    """The words of a source file without comments, what is imported for promises, and the promises themselves."""
    text = re.sub(r"//[^\n]*|^ghost use [^;]*;", "", text, flags=re.M)
    kept, start = [], 0
    for clause in re.finditer(r"\b(?:requires|ensures)(?: \*)?(?: \w+)? \{", text):
        kept.append(text[start : clause.start()])
        start = closing(text, clause.end())
    return " ".join("".join([*kept, text[start:]]).split())


def closing(text, at):
    """The place after the bracket that closes the one before a place."""
    depth = 1
    while depth:
        bracket = BRACKET.search(text, at)
        depth += 1 if bracket[0] == "{" else -1
        at = bracket.end()
    return at


def changed_code(wrong):
    """Each file of src/ of which it changes more than promises, with what is then compiled of it."""
    made = {file: without_promises(text) for file, text in wrong.made({}).items() if file.split("/")[2] == "src"}
    return {file: code for file, code in made.items() if code != without_promises((TOP / file).read_text())}
