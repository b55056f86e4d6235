"""forms.py [--counts] TREE : where the code of TREE/crates/*/src, of any commit, has forms of an older language, by eight points.

A place is a type, a function, a constant or a loop. Rules find it by the words of the text; they know no types, so they also find what is no
place. Behind each place stand the rules that found it, for a reader to judge. A place that several rules of a point find counts once, in 5a once
for each fact; the first of a group of twins does not count. In 1c and 4a the functions of an impl of a trait are left out, since From, TryFrom
and Display are what takes the place of such a form. With --counts only the counts are printed, of each point and of each of its rules.
"""

import collections
import itertools
import re
import signal
import sys
from pathlib import Path
from typing import NamedTuple

from counts import lines_of
from items import QUOTED, TOKEN, items_of, loops_of, matches, said, shut, split, until

# ---- the words that rules go by

VALUES = set("Done Is Present At Valid Found Some Ok".split())  # variants that give what was asked for
NOTHING = set("Absent Nothing None Untimed Unknown Stray NotScrambled NotValid Missing Empty".split())  # where they carry nothing
REFUSALS = set(
    "Refused Err WrongLength NoSync ShortHeader BadStartCode ShortContents BadCheckBits HeaderPastBuffer FieldsPastHeader FieldNotPresent "
    "PtsDtsFlagsInvalid NotEnoughData MarkerBitNotSet IncorrectPrefixBits OutOfRange LogFull IndexFull BadField TooLong NoRoom StoreFull".split()
)
# fields and parameters: a number for a kind or a refusal; how much of a buffer is used; a place in it; an index in place of a reference
KINDS, USED, NEXT = (set(words.split()) for words in ("kind code number word", "used held filled kept digits count", "at end place"))
LINKS = set("next prev previous parent child sibling".split())
BY_HAND = re.compile(r"eq|ne|cmp|partial_cmp|lt|le|gt|ge|clone|try_from|into_\w+|to_\w+|from_u\w+")
NO_VALUE = re.compile(r"(NO|NONE|NOTHING|SPOILT|UNKNOWN|MISSING|INVALID)(_[A-Z0-9_]+)?")  # constants for what is not there
NO_VALUE_SAID = re.compile(r"\b(0|16|255|256) (for (none|no|any|a)|where)\b")  # in a comment
NO_VALUE_USED = re.compile(r"(_ =>|return) 16 [,;}]|(=>|return) (255|256) [,;}]|([=!]=|[<>]=?) (255|256)\b|\b(255|256) ([=!]=|[<>]=?)")
INTEGER, ARRAY = re.compile(r"(&mut )?[ui](8|16|32|64|128|size)"), re.compile(r"(?:&mut |&)?\[.*; (.*)\]")
PRINTS = re.compile(r"\b(Write|Print|Output)\b")  # in the type of a parameter
LITERAL, NUMBER = re.compile(QUOTED), re.compile(r"\d\w*")
CONSTANT, CAMEL = re.compile(r"[A-Z][A-Z0-9_]+"), re.compile(r"[A-Z]\w*[a-z]\w*|[A-Z]")
PRIMITIVES = set("u8 u16 u32 u64 u128 usize i8 i16 i32 i64 i128 isize bool char str".split())
KEYWORDS = set("as break continue crate else enum false for if in let loop match move mut ref return self Self struct true while".split())


class Found(NamedTuple):
    """A place."""

    file: str
    line: int
    name: str
    rule: str
    words: str = ""  # those that the rule found
    group: str = ""  # the heading under which it is printed
    counts: bool = True


def found(item, rule, *more):
    return Found(item.file, item.line, item.name, rule, *more)


def of_kinds(items, *kinds):
    return [one for one in items if one.what in kinds]


# ---- 1: enums, flags and numbers in place of Option, Result and enums


def own_results(items):
    for one in (one for one in of_kinds(items, "enum") if (one.crate, one.name) != ("bits", "Refusal")):
        names = [name for name, _ in one.parts]
        none = [name for name, carried in one.parts if name in REFUSALS or name in NOTHING and not carried]
        listed = one._replace(name=f"{one.name}: {', '.join(names)}")
        if len(none) < len(names) and set(names) & VALUES:
            yield found(listed, "name of a value")
        if 0 < len(none) < len(names):
            yield found(listed, "name of a refusal or of nothing")


def beside(items):
    verdicts = {one.name for one in of_kinds(items, "enum") if ("Done", "") in one.parts}
    for one in of_kinds(items, "struct", "fn"):
        flags = [name for name, of in one.parts if of == "bool"]
        judged = [name for name, of in one.parts if of in verdicts or of.startswith(("Result<(),", "Option<Refusal"))]
        if one.what == "struct" and judged and len(one.parts) > 1:
            yield found(one, "verdict field", ", ".join(judged))
        if flags and any(of != "bool" and name != "self" for name, of in one.parts):
            yield found(one, "bool field" if one.what == "struct" else "bool parameter", ", ".join(flags))
        if re.search(r"[(,] ?bool[,)]", one.result):
            yield found(one, "bool in a result", one.result)


def in_rows(items):
    """Constants of one type that follow each other, three or more, whose values are numbers that go up by one."""
    plain = [one for one in of_kinds(items, "const") if INTEGER.fullmatch(one.result) and re.fullmatch(r"(0x)?[\d_]+", one.text)]
    for _, row in itertools.groupby(enumerate(plain), lambda pair: (pair[1].file, pair[1].result, int(pair[1].text, 0) - pair[0])):
        row = [one for _, one in row]
        yield from row if len(row) > 2 else []


def variants_of(items):
    named = [(one.name, variant) for one in of_kinds(items, "enum") for variant, _ in one.parts]
    return {f"{of} :: {variant}" for name, variant in named for of in (name, "Self")}


def names_one(words, variants):
    return not variants.isdisjoint(re.findall(r"\b(?=(\w+ :: \w+))", " ".join(words)))


# What an arm gives, or puts behind a reference: a number, a constant or a struct that begins with one; where the function prints, a call with a
# number. And what a `let` gives in its `else`.
GIVEN = re.compile(r"(\* \w+ = )?([A-Z]\w*[a-z]\w* \( )?(\d\w*|[A-Z][A-Z0-9_]+)(?= as | [+,)]|$)")
PRINTED = re.compile(r"[\w :]+ \( .*, \d\w* (, .*)?\)")
ELSE = re.compile(r"let (\w+ :: \w+)[^;{}]*(?:\{[^;{}]*\}[^;{}]*)?else \{ return (?:\d\w*|[A-Z][A-Z0-9_]+) ;")


def conversions(one, variants):
    """What the matches of a function turn into what, if variants into numbers or back, and whether one is all of the body and does nothing else."""
    prints = any(PRINTS.search(of) for _, of in one.parts)
    for whole, arms in matches(one.words) if one.what == "fn" and not one.of_trait else ():
        given = [bool(GIVEN.match(" ".join(result)) or prints and PRINTED.fullmatch(" ".join(result))) for _, result in arms]
        made = [NUMBER.match(pattern[0]) and re.match(r"(?:(?:Some|Ok) \( )?(\w+ :: \w+)", " ".join(result)) for pattern, result in arms]
        if any(number and names_one(pattern, variants) for number, (pattern, _) in zip(given, arms)):
            yield "variants to numbers", whole and all(given)
        if sum(bool(one and one[1] in variants) for one in made) > 1:
            yield "numbers to variants", whole
    if not one.of_trait and not variants.isdisjoint(ELSE.findall(" ".join(one.words))):
        yield "variants to numbers", False


def numbers(items):
    rows, variants = set(map(id, in_rows(items))), variants_of(items)
    nothing = {(one.crate, one.name) for one in of_kinds(items, "const") if NO_VALUE.fullmatch(one.name) and id(one) not in rows}
    for one in items:
        if id(one) in rows:
            yield found(one, "constants in a row", one.text)
        kinds = [f"{name}: {of}" for name, of in one.parts if name in KINDS and INTEGER.fullmatch(of)]
        if one.what in ("struct", "fn") and kinds:
            yield found(one, "kind field" if one.what == "struct" else "kind parameter", ", ".join(kinds))
        for what in dict.fromkeys(what for what, _ in conversions(one, variants)):
            yield found(one, what)
        used = [word for word in [one.name, *one.words] if (one.crate, word) in nothing]
        literal = NO_VALUE_USED.search(" ".join([*one.words, "}"]))
        if used or literal and one.what == "fn":
            yield found(one, "number for nothing, in code", used[0] if used else literal[0])
        if NO_VALUE_SAID.search(one.above):
            yield found(one, "number for nothing, in a comment", NO_VALUE_SAID.search(one.above)[0])


# ---- 2 and 3: twins, and loops that count


def masked(words, names=()):
    """Words with all names, numbers and texts masked but the names of variables, which go by the order in which they come."""
    seen, made, at = {name: f"v{number}" for number, name in enumerate(names)}, [], 0
    while at < len(words):
        start = at
        while words[at + 1 : at + 2] == ["::"] and at + 2 < len(words):
            at += 2
        word, after = words[at], words[at + 1 : at + 2]
        if LITERAL.fullmatch(word) or NUMBER.fullmatch(word) or CONSTANT.fullmatch(word):
            made.append("#")
        elif not re.match(r"\w", word) or word in KEYWORDS and at == start:
            made.append(word)
        elif at > start or CAMEL.fullmatch(word) or word in PRIMITIVES or made[-1:] == ["."] or after in (["("], ["!"], [":"]):
            made.append("N")
        else:
            made.append(seen.setdefault(word, f"v{len(seen)}"))
        at += 1
    return re.sub(r", (?=[)\]}])", "", " ".join(made))


def twins(items):
    groups = collections.defaultdict(list)
    for one in of_kinds(items, "fn", "struct", "enum"):
        lines = sum(bool(line.strip()) for line in one.text.splitlines())
        if one.what == "fn" and lines > 3:
            types = [masked(TOKEN.findall(of)) for of in [*(of for _, of in one.parts), one.result]]
            groups["functions", *types, masked(one.words, [name for name, _ in one.parts])].append((one, lines))
        elif one.what != "fn" and lines > 2:
            what = "enums of bare names" if one.what == "enum" and not any(carried for _, carried in one.parts) else f"{one.what}s"
            groups[what, masked([word for word in one.words if word != "pub"])].append((one, lines))
    for (what, *_), group in ((key, group) for key, group in groups.items() if len(group) > 1):
        first, lines = group[0]
        for one, _ in group:
            yield found(one, what, "", f"{len(group)} {what} of {lines} lines, from {first.file}:{first.line} on", one is not first)


def loops(items):
    for one in of_kinds(items, "fn"):
        for line, word, body in loops_of(one):
            counted = dict.fromkeys(a or b for a, b in re.findall(r"(\w+) [+-]= |\b(\w+) = \2 [+-] ", body))
            if counted and word != "for":
                yield found(one._replace(line=line), word, ", ".join(counted))


# ---- 4: what a derive or an impl of a trait could say


def by_hand(items):
    variants = variants_of(items)
    for one in (one for one in of_kinds(items, "fn") if not one.of_trait):
        name = one.name.rpartition("::")[2]
        whole = [what for what, whole in conversions(one, variants) if whole]
        texts = [word for word in one.words if re.match("b[\"']", word)]
        if BY_HAND.fullmatch(name):
            yield found(one, "name of a trait's method")
        if whole:
            yield found(one, "only a match", whole[0])
        elif name.endswith(("_number", "_of")) and names_one(one.words, variants):
            yield found(one, "name of a conversion")
        if texts and any(PRINTS.search(of) for _, of in one.parts):
            yield found(one, "writes bytes", texts[0])
        if "itoa" in one.words or re.search(r"[+-] b'[0a]'", one.text):
            yield found(one, "digits")


def underived(items):
    for one in of_kinds(items, "struct", "enum"):
        if re.search(r"\bClone, Copy\b", one.above) and "PartialEq" not in one.above and not any("&" in of for _, of in one.parts):
            yield found(one, one.what)


# ---- 5: what contracts and signatures say again and again


def conjuncts(words):
    while words[:1] == ["("] and shut(words, 0) == len(words) - 1:
        words = words[1:-1]
    parts = split(words, "×")
    if len(parts) < 2 or len(split(words, "→")) > 1:
        return [words]
    return [fact for part in parts for fact in conjuncts(part)]


def facts(items):
    """A fact that names the result is a promise; one that names several parameters is passed over."""
    told = collections.defaultdict(dict)
    for one in items:
        names = {name for name, _ in one.parts}
        for fact in (fact for clause in one.clauses for fact in conjuncts(clause)):
            at = [at for at, word in enumerate(fact) if word in names and fact[at - 1 : at] != ["."]]
            if len({fact[here] for here in at}) == 1 and "result" not in fact:
                told[one.crate, said(["_" if here in at else word for here, word in enumerate(fact)])][one.file, one.line] = one
    for (crate, fact), ones in told.items():
        for one in ones.values() if len(ones) > 2 else ():
            yield found(one, "fact", "", f"{crate}, {len(ones)} functions: {fact}")


def together(items):
    """The groups that parameters of functions have in common, the largest first; one whose functions all stand in groups before is left out."""
    for crate, ones in itertools.groupby(of_kinds(items, "fn"), lambda one: one.crate):
        ones = [(one, frozenset(part for part in one.parts if part[0] != "self")) for one in ones]
        groups, told = {a & b for (_, a), (_, b) in itertools.combinations(ones, 2)}, []
        groups = [(group, [one for one, parts in ones if group <= parts]) for group in groups if len(group) > 2]
        for group, having in sorted(groups, key=lambda pair: (-len(pair[0]) * len(pair[1]), sorted(pair[0]))):
            if len(having) > 2 and not all(one in told for one in having):
                told += having
                heading = f"{crate}, {len(having)} functions: {', '.join(f'{name}: {of}' for name, of in having[0].parts if (name, of) in group)}"
                yield from (found(one, "parameters", "", heading) for one in having)


# ---- 6 and 7: buffers, and switches


def buffers(items):
    for one in of_kinds(items, "struct", "fn"):
        sizes = [ARRAY.fullmatch(of)[1] for _, of in one.parts if ARRAY.fullmatch(of)]
        slices = any(of.startswith("&mut [") for _, of in one.parts) and not sizes
        used, place = ([name for name, of in one.parts if of == "usize" and name in names] for names in (USED, NEXT))
        if used and (sizes or slices or one.what == "struct"):
            yield found(one, f"length beside {'an array' if sizes else 'a slice' if slices else 'no buffer'}", ", ".join(used))
        if place and (sizes or slices):
            yield found(one, f"place beside {'an array' if sizes else 'a slice'}", ", ".join(place))
        if len(set(sizes)) < len(sizes):
            yield found(one, "arrays of one length", ", ".join(sizes))
        if one.what == "struct" and any(name in LINKS and INTEGER.fullmatch(of) for name, of in one.parts):
            yield found(one, "index as a link")
        if one.what == "fn" and any(re.search(r"if [^{]*\] == [^{]*\{\s+(return|break)", body) for *_, body in loops_of(one)):
            yield found(one, "search by hand")


def call(words):
    """What words give a function that they call, and its name; nothing where they are no call of one."""
    start = until(words, 0, "(")
    if shut(words, start) != len(words) - 1 or not re.fullmatch(r"(\w+ :: )*[a-z]\w*", " ".join(words[:start])):
        return None
    return said(words[start:]), said(words[:start])


def switches(items):
    for one in items:
        if re.search(r"\[ ?fn ?\(", " ".join([one.result, *(of for _, of in one.parts), *one.words])):
            yield found(one, "table of functions")
        for _, arms in matches(one.words):
            by_number = [pattern[0] for pattern, _ in arms if re.match(r"\d|b'", pattern[0])]
            calls = {call(result) for pattern, result in arms if pattern[0] in [*by_number, "_"]} - {None}
            given = collections.Counter(given for given, _ in calls)
            if by_number and len({name for _, name in calls}) > 1:
                yield found(one, f"calls with {'the same' if max(given.values()) > 1 else 'other'} arguments", f"{len(calls)} functions")


# ---- 8, and what is printed


def proofs(tree):
    texts = [re.sub(r"^ *--.*\n", "", path.read_text(), flags=re.M) for path in tree.glob("crates/*/proofs/**/Answers.antt")]
    answers = [answer for text in texts for answer in re.split(r"^pub ", text, flags=re.M)[1:]]
    searches = [one[1] for one in (re.fullmatch(r"\S+ : \S+\s+[^=]*= search (\S+)\s*", answer) for answer in answers) if one]
    counts = {"files Answers.antt": len(texts), "answers in them": len(answers), "of these 'search X' and no more": len(searches)}
    counts["of these 'search X_laws' or 'search X-laws'"] = sum(name.endswith(("_laws", "-laws")) for name in searches)
    counts["lines of proofs"] = lines_of(tree.glob("crates/*/proofs/**/*.antt"), "--")
    counts["lines of code"] = lines_of(tree.glob("crates/*/src/**/*.rt"), ("//", "#!["))
    print("8          proofs")
    for what, many in counts.items():
        print(f"{many:12}  {what}")


POINTS = [
    ("1a", "own enums of the shape of Option or Result", own_results),
    ("1b", "a flag or a verdict with a value beside it", beside),
    ("1c", "numbers for kinds, for refusals and for nothing", numbers),
    ("2", "twins: the same text but for names and numbers", twins),
    ("3", "loops that count by hand", loops),
    ("4a", "equality, order, copies, conversion and printing by hand", by_hand),
    ("4b", "types that could derive PartialEq", underived),
    ("5a", "facts of one parameter in contracts of three or more functions of a crate", facts),
    ("5b", "three or more parameters together in three or more functions of a crate", together),
    ("6", "buffers with a length beside them, lists and indices by hand", buffers),
    ("7", "switches on which function to call", switches),
]


def show(label, title, places, only_counts):
    """A point: how many places it has and each of its rules finds, and the places, those of a group under its heading."""
    merged = collections.defaultdict(list)
    for one in places:
        merged[one.group, one.file, one.line, one.name].append(one)
    told = {key[label != "5a" :]: dict.fromkeys(one.rule for one in ones) for key, ones in merged.items() if ones[0].counts}
    rules = collections.Counter(itertools.chain(*told.values())).most_common()
    print(f"{label:4}{len(told):5}  {title}")
    for rule, many in rules if len(rules) > 1 else ():
        print(f"{many:12}  {rule}")
    for heading, keys in itertools.groupby(() if only_counts else merged, lambda key: key[0]):
        if heading:
            print(f"        {heading}")
        for key in keys if heading else sorted(keys):
            because = "; ".join(one.rule + (one.words and f" ({one.words})") for one in merged[key])
            print(f"            {key[1]}:{key[2]} {key[3]}" + ("" if heading else f"  [{because}]"))


def main(words):
    if not words or words[:-1] not in ([], ["--counts"]):
        sys.exit("usage: forms.py [--counts] TREE")
    signal.signal(signal.SIGPIPE, signal.SIG_DFL)  # a reader that has enough
    items = list(items_of(Path(words[-1])))
    for label, title, finder in POINTS:
        show(label, title, finder(items), len(words) > 1)
    proofs(Path(words[-1]))


if __name__ == "__main__":
    main(sys.argv[1:])
