"""What the sources have, for the tools that hold docs/ to them: the crates, their functions, the names that their definitions and proofs
declare, and their wrong answers."""

import functools
import re
import sys
from typing import NamedTuple

from edits import TOP, edit_files, owner as owner_of, read_edits

PROGRAMS = ("lister", "examples", "recorded")  # no other crate calls them
PRIVATE = "-- ---- cited by private functions alone"  # what a reader of a file of definitions may skip, from here to its end


@functools.cache
def rows():
    """The rows of crates.txt: of each crate the words after its name, which say of what kind it is, and those that it is built on."""
    lines = [line for line in (TOP / "crates.txt").read_text().splitlines() if line and not line.startswith("#")]
    return {words.split()[0]: (words.split()[1:], rest.split()) for words, _, rest in (line.partition(":") for line in lines)}


@functools.cache
def crates():
    """The crates in the order of crates.txt, each with the crates that it is built on."""
    return {name: [one for one in built_on if one in rows()] for name, (_, built_on) in rows().items()}


def exports_of(crate):
    """The library whose functions a static library exports, of a crate that is one: NAME of NAME_c. None of any other crate."""
    return crate.removesuffix("_c") if "staticlib" in rows()[crate][0] else None


@functools.cache
def below(crate):
    """The crate itself and all that stands under it."""
    return {crate}.union(*(below(one) for one in crates()[crate]))


# ---- code


class Function(NamedTuple):
    public: bool
    of_trait: bool
    head: str  # parameters and promise; of a trait's function also what the impl says before it


HEAD = re.compile(r'^(?P<indent> *)(?:(?P<pub>pub )|pub\(\w+\) )?(?:extern "C" )?fn (?P<name>\w+)')
OF_TRAIT = re.compile(r"impl\b.* for ")
# a type, a constant or a module, or a case of an enum
NAMED = re.compile(r"^ *(?:pub(?:\(\w+\))? )?(?:struct|enum|const|mod) (\w+)|^    ([A-Z]\w*)(?:,$|\(| \{)", re.M)


def code(crate):
    return sorted((TOP / "crates" / crate / "src").glob("*.rt"))


def head_from(lines):
    """The lines of a function up to that which opens its body."""
    for number, line in enumerate(lines):
        if line.strip() == "{" or (line.endswith(" {") and "ensures" not in line and "requires" not in line):
            return "\n".join(lines[: number + 1])
    return ""


@functools.cache
def functions(crate):
    """The functions of a crate, by the names that the prover gives them."""
    found = {}
    for path in code(crate):
        module = "" if path.stem in ("lib", "main") else path.stem + "::"
        lines, owner, impl = path.read_text().splitlines(), "", 0
        for number, line in enumerate(lines):
            if line.startswith("impl"):
                owner, impl = owner_of(line) + "::", number
            elif head := HEAD.match(line):
                name = module + (owner if head["indent"] else "") + head["name"]
                of_trait = bool(head["indent"] and OF_TRAIT.match(lines[impl]))
                said = lines[impl:number] if of_trait else []
                found[name] = Function(bool(head["pub"]), of_trait, "\n".join([*said, head_from(lines[number:])]))
    return found


@functools.cache
def public_functions(crate):
    """Those that another crate can call, but for the functions of traits. Those of a static library are the same functions of another crate, for C
    (`unlike`)."""
    return {} if crate in PROGRAMS or exports_of(crate) else {name: one for name, one in functions(crate).items() if one.public}


def on_one_line(head):
    """A head without the layout that its length gives it."""
    return re.sub(r",? \)", ")", " ".join(head.split()).replace("( ", "("))


def unlike(crate):
    """The public functions of a static library that are not, by module, name, parameters and promise, those of the crate that it exports, and
    the public functions of that crate's modules `of_..` that it does not export."""
    plain = {name: on_one_line(one.head.replace('extern "C" ', "")) for name, one in functions(crate).items() if one.public}
    meant = {name: on_one_line(one.head) for name, one in public_functions(exports_of(crate)).items()}
    exported = {name for name in meant if name.startswith("of_") and name.rpartition("::")[2].startswith("cmv_")}
    return sorted({name for name in plain if plain[name] != meant.get(name)} | (exported - set(plain)))


@functools.cache
def called(crate):
    """The words that code has for functions, without modules and types, and for types, their cases, constants and modules."""
    words = {name.rpartition("::")[2] for name in functions(crate)}
    return words | {name for path in code(crate) for pair in NAMED.findall(path.read_text()) for name in pair if name}


# ---- definitions and proofs


DECLARED = re.compile(r"^ *(?:(?:abbrev|unfoldable|pub) )*(?:(?:record|data|ruleset) (\S+)|([^\s(){}:;,.]+)(?: \{[^{}\n]+\})* :)", re.M)
IMPORTED = re.compile(r"^(?:ghost )?use \S+?\.\{([^}]*)\}", re.M)


def declared(text):
    return {name for pair in DECLARED.findall(text) for name in pair if name}


def specs(crate):
    return [path for path in sorted((TOP / "crates" / crate / "specs").glob("*.antt")) if path.stem != "Lib"]


def proofs(crate):
    """All files under proofs/: those of lemmas, which stand right in it, and those of functions."""
    return sorted((TOP / "crates" / crate / "proofs").glob("**/*.antt"))


@functools.cache
def definitions(crate):
    """The names that each file of specs/ declares."""
    return {path.stem: declared(path.read_text()) for path in specs(crate)}


@functools.cache
def theorems(crate):
    """The names that the files of lemmas declare. Those in a function's files are the prover's names of its goals."""
    lemmas = [path for path in proofs(crate) if path.parent.name == "proofs"]
    return set().union(*(declared(path.read_text()) for path in lemmas))


@functools.cache
def imported(crate):
    """The names that code, definitions and proofs of a crate take from elsewhere."""
    texts = [path.read_text() for path in [*code(crate), *specs(crate), *proofs(crate)]]
    return {name.strip() for text in texts for names in IMPORTED.findall(text) for name in names.split(",")}


# ---- wrong answers


@functools.cache
def wrong_answers(crate):
    """Each wrong answer with the function, or the file under proofs/, in whose proof it is refused."""
    wrongs = [wrong for _, path in edit_files([crate]) for wrong in read_edits(path)]
    names = [wrong.name for wrong in wrongs]
    for name in names:
        if names.count(name) > 1:
            sys.exit(f"{crate}: two wrong answers are named {name}")
    return {wrong.name: wrong.dies for wrong in wrongs}


DERIVED = re.compile(r"^#\[derive\(([^)]*)\)\]\n(?:pub(?:\(\w+\))? )?(?:struct|enum) (\w+)", re.M)
METHODS = {"PartialEq": "eq", "Debug": "fmt"}


@functools.cache
def derived(crate):
    """The functions that a derive writes, by the names that the prover gives them: functions of traits, as those of impls are."""
    found = set()
    for path in code(crate):
        module = "" if path.stem in ("lib", "main") else path.stem + "::"
        for traits, owner in DERIVED.findall(path.read_text()):
            found |= {f"{module}{owner}{trait}::{METHODS[trait]}" for trait in traits.split(", ") if trait in METHODS}
    return found
