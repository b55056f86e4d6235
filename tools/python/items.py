"""The code of a tree, TREE/crates/*/src, by its words: functions, types and constants, and in a function its matches and loops. They are found by
the layout of `rt fmt`, of any commit; nothing is known of types. What stands under #[cfg(test)] is left out."""

import itertools
import re
from typing import NamedTuple

QUOTED = r"b?\"(?:\\[\s\S]|[^\"\\])*\"|b?'(?:\\[^']+|[^'\\\n])'"
COMMENT = re.compile(rf"{QUOTED}|(//[^\n]*)")
TESTS = re.compile(r"^#\[cfg\(test\)\]\nmod \w+ \{\n(?:.*\n)*?\}$", re.M)
OWNER = re.compile(r"^(?:impl(?:<.*?>)?|(?:pub )?trait) (?P<trait>.+ for )?(?P<name>\w+)", re.M)
ITEMS = [
    re.compile(
        r'^(?P<indent> *)(?:pub(?:\(\w+\))? )?(?:const |unsafe )*(?:extern "C" )?(?P<what>fn) (?P<name>\w+)(?:<.*?>(?=\())?'
        r"(?P<head>(?:(?!.*;$).*\n)*?.*?)(?:\n(?P=indent)| )\{\n(?P<body>(?:.*\n)*?)(?P=indent)\}$",
        re.M,
    ),
    re.compile(r"^(?P<indent>)(?:pub )?(?P<what>struct|enum) (?P<name>\w+)[^{(;\n]*(?P<body>(?P<head>\{\n(?:.*\n)*?\}|\([\s\S]*?\));?)$", re.M),
    re.compile(r"^(?P<indent> *)(?:pub )?(?P<what>const|static) (?P<name>\w+): (?P<head>[^=]+) = (?P<body>[^;]*);$", re.M),
]
LOOP = re.compile(r"^( *)(?:'\w+: )?(?P<word>while|for|loop)\b[^{]*\{\n(?P<body>(?:.*\n)*?)\1\}$", re.M)
TOKEN = re.compile(rf"{QUOTED}|'?\w+|::|=>|->|[=!<>+*/%-]=|&&|\|\||\.\.=?|\S")
OPEN, SHUT = set("([{"), set(")]}")


class Item(NamedTuple):
    what: str  # fn, struct, enum, const or static
    name: str  # after that of its type, where it stands in an impl
    crate: str
    file: str  # crate/src/file.rt
    line: int
    above: str  # its comment and attributes
    of_trait: bool  # in an impl of a trait
    parts: list  # parameters, fields or variants: pairs of a name and a type, or what a variant carries
    result: str  # the type of a function's result or of a constant
    clauses: list  # the words of each requires and ensures
    text: str  # of a function's body, of a constant's value or of what a type has, without comments
    words: list  # those of the text
    first: int  # the line of the text


def until(words, at, ends):
    """The first of some words that stands in no bracket."""
    depth = 0
    while at < len(words) and (depth or words[at] not in ends):
        depth += (words[at] in OPEN) - (words[at] in SHUT)
        at += 1
    return at


def shut(words, at):
    """Where the bracket is closed that opens at a place."""
    return until(words, at + 1, SHUT)


def split(words, mark, types=False):
    """The words between marks that stand in no bracket."""
    parts, depth = [[]], 0
    for word in words:
        depth += (word in OPEN) - (word in SHUT) + types * ((word == "<") - (word == ">"))
        if word == mark and depth == 0:
            parts.append([])
        else:
            parts[-1].append(word)
    return [part for part in parts if part]


def said(words, types=False):
    """Words as one reads them."""
    text = re.sub(r" ?(::|\.) ?|(?<=[(\[&]) | (?=[)\],;:?])", r"\1", " ".join(words))
    return re.sub(r" ?([<>]) ?", r"\1", text) if types else text


def typed(words):
    """The name and the type of a parameter or a field; no name where it has none."""
    if ":" in words:
        return words[words.index(":") - 1], said(words[words.index(":") + 1 :], types=True)
    return ("self", "") if "self" in words else ("", said([word for word in words if word != "pub"], types=True))


def head_of(what, words):
    """The parts, the result and the clauses of an item, by the words of its head. A ghost field is no part."""
    if what in ("const", "static"):
        return [], said(words, types=True), []
    end, clauses = shut(words, 0), []
    parts = [part[shut(part, 1) + 1 :] if part[0] == "#" else part for part in split(words[1:end], ",", types=True)]
    if what == "enum":
        parts = [(part[0], said(part[1:], types=True) if part[1:2] != ["="] else "") for part in parts]
    else:
        parts = [typed(part) for part in parts if "ghost" not in part]
    at = until(words, end + 1, {"requires", "ensures", "where"})
    result = said(words[end + 2 : at], types=True)
    while at < len(words):
        start = until(words, at, "{")
        clauses.append(words[start + 1 : shut(words, start)])
        at = shut(words, start) + 1
    return parts, result, clauses


def items_of(tree):
    for path in sorted(tree.glob("crates/*/src/**/*.rt")):
        raw, file = path.read_text(), path.relative_to(tree / "crates").as_posix()
        text = COMMENT.sub(lambda one: " " * len(one[0]) if one[1] else one[0], raw)
        text = "\n".join(line.rstrip() for line in TESTS.sub(lambda one: "\n" * one[0].count("\n"), text).split("\n"))
        owners = list(OWNER.finditer(text))
        for one in sorted((one for kind in ITEMS for one in kind.finditer(text)), key=lambda one: one.start()):
            line, first = (text.count("\n", 0, at) + 1 for at in (one.start(), one.start("body")))
            above = itertools.takewhile(lambda text: text.strip().startswith(("//", "#[")), reversed(raw.split("\n")[: line - 1]))
            owner = [owner for owner in owners if owner.start() < one.start()][-1:] if one["indent"] else []
            name = "::".join([*(of["name"] for of in owner), one["name"]])
            parts, result, clauses = head_of(one["what"], TOKEN.findall(one["head"]))
            words, of_trait = TOKEN.findall(one["body"]), any(of["trait"] for of in owner)
            above = " ".join(text.strip(" /") for text in reversed([*above]))
            yield Item(one["what"], name, file.partition("/")[0], file, line, above, of_trait, parts, result, clauses, one["body"], words, first)


def matches(words):
    """Each match of a body: whether it is all of the body and each arm is one expression; and of each arm the words of the pattern, and of the
    result or its last statement."""
    for at in (at for at, word in enumerate(words) if word == "match"):
        start = until(words, at, "{")
        end, arms, here = shut(words, start), [], start + 1
        while here < end:
            arrow = until(words, here, {"=>"})
            block = words[arrow + 1] == "{"
            stop = shut(words, arrow + 1) if block else min(until(words, arrow + 1, ","), end)
            arms.append((words[here:arrow], split(words[arrow + 1 + block : stop], ";") or [[""]]))
            here = stop + 1 + (block and words[stop + 1] == ",")
        whole = at == 0 and end == len(words) - 1 and all(len(result) == 1 for _, result in arms)
        yield whole, [(pattern, result[-1]) for pattern, result in arms]


def loops_of(one):
    """Each loop of a function, also within another: its line, its word and the text of its body."""
    for start in re.finditer(r"^ *('\w+: )?(while|for|loop)\b", one.text, re.M):
        loop = LOOP.match(one.text, start.start())
        if loop:
            yield one.first + one.text.count("\n", 0, start.start()), loop["word"], loop["body"]
