"""Respells the definitions and lemmas of crates/ once, after the toolchain's own port: words in snake case; a dash stays beside a name.

    port_names.py        respell them, and say how many
    port_names.py --list print each old name with its new one

A name is `part_of-within` where `part_of` is a definition and `within` a plain word, and `none_holds` where both are plain words. Functions
of src/, types, modules and the library's names keep theirs. Where two names would fall together, both keep their dashes, and a lemma
with the name of a definition is NAME_lem; where they fall together still, the run stops. The same names are respelled in clauses, in comments, in the edits of wrong answers, and between backticks
in pages.
"""

import re
import sys
from pathlib import Path

TOP = Path(__file__).resolve().parents[2]
NAME = r"[A-Za-zℕℤ_][A-Za-z0-9_'ℕℤ₀-₉]*(?:-[A-Za-z0-9_'ℕℤ₀-₉]+)*"
TOKEN = re.compile(rf"(?<![\w'◌.-]){NAME}(?![\w◌-])|(?<=[\w'\])}}]\.){NAME}(?![\w◌-])")
DECLARED = re.compile(r"^\s*(?:(?:pub|abbrev|unfoldable)\s+)*([a-z][A-Za-z0-9_'₀-₉-]*)(?:\s*\{[^}\n]*\})*\s*:\s", re.M)
RULESET = re.compile(r"\bruleset\s+([a-z][\w'-]*)")
LIBRARY = "length take drop get_or set sets paste map sum replicate append eqb leb ltb not cond iff fold reverse".split()


def sources():
    return sorted(TOP.glob("crates/*/specs/**/*.antt")) + sorted(TOP.glob("crates/*/proofs/**/*.antt"))


def code_of(path):
    return re.sub(r"--.*", "", path.read_text())


def declared(path):
    code = code_of(path)
    return {m[1] for pattern in (DECLARED, RULESET) for m in pattern.finditer(code)}


def snake(part):
    part = re.sub(r"([a-z0-9])([A-Z])", r"\1_\2", part)
    part = re.sub(r"([A-Z]+)([A-Z][a-z])", r"\1_\2", part)
    return part.lower()


def respelled(name, words):
    parts = [part if part[0].isupper() else snake(part) for part in name.split("-")]
    made = parts[0]
    for before, part in zip(parts, parts[1:]):
        joins = before in words or part in words or before[0].isupper() or part[0].isupper()
        made += ("-" if joins else "_") + part
    return made


def renames():
    names, words, functions = set(), set(LIBRARY), set()
    for path in sources():
        found = declared(path)
        names |= found
        if path.relative_to(TOP).parts[2] == "specs":
            words |= {snake(name) for name in found if "-" not in name}
    for path in TOP.glob("crates/*/src/**/*.rt"):
        functions |= set(re.findall(r"\bfn (\w+)", path.read_text()))
    odd = sorted(name for name in names if "-" in name or re.search("[A-Z]", name))
    kept = names - set(odd)
    made = {name: respelled(name, words) for name in odd}
    made |= {name: snake(name).replace("-", "_") for name in odd if name.endswith("-spec")}
    taken = {}
    for name, new in made.items():
        taken.setdefault(new, []).append(name)
    for new, olds in taken.items():
        if len(olds) > 1 or new in kept or (new in functions and new not in {snake(n) for n in olds}):
            for old in olds:
                made[old] = "-".join(part if part[0].isupper() else snake(part) for part in old.split("-"))
    # A definition takes its name from a lemma that the toolchain's port has just given it: the lemma is then NAME_lem.
    made |= {new: new + "_lem" for new in set(made.values()) & kept}
    final = {}
    for name, new in made.items():
        final.setdefault(new, []).append(name)
    wrong = [(new, olds) for new, olds in final.items() if len(olds) > 1 or (new in kept and new not in made)]
    return {name: new for name, new in made.items() if name != new}, wrong


def respell(text, names):
    return TOKEN.sub(lambda m: names.get(m[0], m[0]), text)


# Code has names with no dash and no capital, and its lemmas are none of ours.
def respell_code(text, names):
    return respell(text, {name: new for name, new in names.items() if not new.endswith("_lem")})


def respell_page(text, names):
    return re.sub(r"`[^`\n]+`", lambda m: respell(m[0], names), text)


def main():
    names, wrong = renames()
    if "--list" in sys.argv:
        for old, new in names.items():
            print(old, new)
        for new, olds in wrong:
            print("FALL TOGETHER:", new, olds)
        return
    if wrong:
        sys.exit(f"these names fall together: {wrong}")
    paths = [(path, respell) for path in sources()]
    paths += [(path, respell_code) for pattern in ("src/**/*.rt", "must-fail*/*.edit") for path in sorted(TOP.glob(f"crates/*/{pattern}"))]
    paths += [(TOP / "tools/mutants.txt", respell_code)]
    paths += [(path, respell_page) for pattern in ("*.md", "docs/**/*.md", "crates/*/*.md") for path in sorted(TOP.glob(pattern))]
    changed = 0
    for path, way in paths:
        text = path.read_text()
        new = way(text, names)
        if new != text:
            path.write_text(new)
            changed += 1
    print(f"{len(names)} names respelled in {changed} files")


main()
