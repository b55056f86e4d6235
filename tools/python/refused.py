"""Whether the prover refuses each wrong answer in the proof of the function that gives it.

    refused.py                      those of crates/*/must-fail
    refused.py --check              whether their files can be tried at all, with no prover
    refused.py --edits [CRATE..]    these and those of crates/*/must-fail-by-hand, of all crates or of those named
    refused.py --mutants [CRATE..]  those of tools/mutants.txt

edits.py says what a file of edits holds. The gate puts the files of must-fail before the prover too, but it asks only that something is
refused, and of what the prover says it keeps the first line. A function is proved by the promises of those that it calls, never by their
code, so a right function stays proved whatever they answer, and a wrong one is refused for itself: that is looked for here. One file has no
function twice. What only follows from another refusal is no refusal, nor is a proof that does not fit the code's shape.

The prover names a goal after the code that it is about, as 'returns-then-count-lt16', and a function's Answers.antt answers it under that
name. So where a wrong answer is a change of such a condition, its goals have other names, and no answer is put to them. Then the file is
tried once more, and each answer whose goal is gone is given to the goal without an answer that is named most like it: the proof of the right
code, put to the wrong code. What is still refused for its shape alone has to be written with the same calls, loops and names.

The crates are proved as they stand, and each file's changes are made in a copy of the crates outside the repository, which 'rt check' begins
with what it has kept of them.
"""

import difflib
import os
import re
import shutil
import subprocess
import sys
import tempfile
from concurrent.futures import ThreadPoolExecutor
from pathlib import Path

from edits import BY_HAND, BY_THE_GATE, TOP, edit_files, function_of, changed_code, read_edits, read_mutants
from sources import derived, functions

# What the prover says of a proof that rests on another which it has refused, of one that was written for code of another shape, and where it
# ends at a limit of its own: none of these is about the answer.
FOLLOWS = re.compile(r"declarations? that depends? on .* not checked|was not admitted|cannot be checked")
SHAPE = re.compile(r"has no field|has no `|is not in scope")
LIMIT = re.compile(r"antt ran out of|outgrew the memory limit|stopped at the step limit")
# Where a sentence goes on in a second line.
SECOND_LINE = re.compile(r"(: error: .*)\n {2}(?=\S)")
MEMORY = 4 << 20  # KiB that a check may take
# A goal that has no answer, in the lines before that of its function; and an answer whose goal is gone.
ASKED = re.compile(r"^note: src/\S+ it is not proved that .* \(`([^`]+)`\)", re.M)
LOST = re.compile(r"error: `([^`]+)`: `goal\.\1`: module `\S+` has no `\1`")


# ---- what the prover said


def own_refusal(log, crate, dies, *passed_over):
    """What the prover first said against the proof of a function, or against a file under proofs/; None where nothing but what is passed
    over."""
    answers = [dies] if dies.endswith(".antt") else [f"{dies.replace('::', '/')}/{name}.antt" for name in ("Answers", "Proof")]
    places = {f"./proofs/{name}" for name in answers}
    for line in SECOND_LINE.sub(r"\1 ", log).splitlines():
        where, found, said = line.partition(": error: ")
        if found and re.sub(r":\d+:\d+$", "", where) in places and not any(pattern.search(said) for pattern in passed_over):
            return said
        # a goal that no file answers, and that the prover's own search does not prove
        if line.startswith(f"fn {crate}::{dies}: no proof: ") and "`search` did not prove `" in line:
            return line.partition(": no proof: ")[2]
    return None


def unread(log):
    """What is said of code or definitions that cannot be read, if anything is: then little or nothing was put before the prover."""
    said = re.search(r"^.*\berror\[[\w-]+\].*$|^(?:\./)?(?:src|specs)/\S+ error: .*$", log, re.M)
    return said[0] if said else None


def for_shape_alone(log, wrong):
    own = wrong.dies and not own_refusal(log, wrong.crate, wrong.dies, FOLLOWS, SHAPE, LIMIT)
    return bool(own and own_refusal(log, wrong.crate, wrong.dies, FOLLOWS, LIMIT))


def asked(log, crate, dies):
    """The goals of a function that the prover has no answer to."""
    before, found, _ = log.partition(f"\nfn {crate}::{dies}: ")
    return ASKED.findall(re.split(r"\n(?:fn|struct|enum) ", before)[-1]) if found else []


def readdressed(text, log, crate, dies):
    """The answers of a function, each one whose goal is gone under the name of the goal that is asked and named most like it."""
    blocks = re.split(r"\n{2,}", text.rstrip("\n"))
    place = f"./proofs/{dies.replace('::', '/')}/Answers.antt:"
    lost = {name for line in log.splitlines() if line.startswith(place) for name in LOST.findall(line)}
    old = {name: block for name in lost for block in blocks if re.search(rf"^(?:pub )?{re.escape(name)} :", block, re.M)}
    kept = [block for block in blocks if block not in old.values()]
    for goal in asked(log, crate, dies) if old else []:
        name = max(sorted(old), key=lambda one: difflib.SequenceMatcher(None, one, goal).ratio())
        kept.append(re.sub(rf"(?<![\w'-]){re.escape(name)}(?![\w'-])", goal, old[name]))
    return "\n\n".join(kept) + "\n"


def judge(crate, where, wrongs, logs):
    """How many of the wrong answers were refused, each in its own proof, and the lines that say so of each. LOGS: that of each wrong answer."""
    refused, lines = 0, []
    for wrong, log in zip(wrongs, logs):
        said = wrong.dies and own_refusal(log, crate, wrong.dies, FOLLOWS, SHAPE, LIMIT)
        if said:
            refused += 1
            lines.append(f"{crate}/{wrong.name}: refused in {wrong.dies}: {said[:90]}")
        elif for_shape_alone(log, wrong):
            lines.append(f"{crate}/{wrong.name}: REFUSED FOR ITS SHAPE ALONE, in {wrong.dies} ({where})")
        else:
            lines.append(f"{crate}/{wrong.name}: NOT REFUSED by the proof of {wrong.dies} ({where})")
    if refused < len(wrongs) and unread(logs[0]):
        lines.append(f"{crate}: {where} cannot be read: {unread(logs[0])[:160]}")
    return refused, lines


# ---- put before the prover


def at_a_time():
    """How many checks go side by side."""
    memory = int(re.search(r"^MemAvailable:\s+(\d+)", Path("/proc/meminfo").read_text(), re.M)[1])
    return max(1, min(len(os.sched_getaffinity(0)), memory // MEMORY))


def prove(crates):
    """Proves these crates as they stand, or all: a wrong answer of a crate that is not proved shows nothing."""
    log = TOP / "target" / "refused.log"
    log.parent.mkdir(exist_ok=True)
    runs = [(TOP / "crates" / crate, ["rt", "check"]) for crate in crates]
    for folder, words in runs or [(TOP / "crates", ["rt", "all", "check", "--jobs", str(at_a_time())])]:
        with log.open("w") as said:
            done = subprocess.run(words, cwd=folder, stdin=subprocess.DEVNULL, stdout=said, stderr=subprocess.STDOUT)
        if done.returncode:
            sys.exit(f"refused: '{' '.join(words)}' in {folder.relative_to(TOP)} failed; {log} has what it said")


def changed(wrongs):
    """The texts of the files that these wrong answers change, one after another."""
    texts = {}
    for wrong in wrongs:
        texts = wrong.made(texts)
    return texts


def check_with(crate, texts):
    """What the prover says of the crate with these texts in place of its own."""
    with tempfile.TemporaryDirectory(prefix="clomaverift-") as scratch:
        copy = Path(scratch)
        shutil.copy(TOP / "crates.txt", copy)
        shutil.copytree(TOP / "crates", copy / "crates", ignore=shutil.ignore_patterns("out", BY_THE_GATE, BY_HAND))
        for file, text in texts.items():
            (copy / file).write_text(text)
        how = {"stdin": subprocess.DEVNULL, "stdout": subprocess.PIPE, "stderr": subprocess.STDOUT, "text": True, "errors": "replace"}
        return subprocess.run(["rt", "check", "--jobs", "1"], cwd=copy / "crates" / crate, **how).stdout


def logs_of(crate, wrongs):
    """What the prover says of the crate with all these wrong answers in it, for each of them."""
    texts = changed(wrongs)
    log = check_with(crate, texts)
    answers = {}
    for wrong in wrongs:
        path = f"crates/{crate}/proofs/{(wrong.dies or '').replace('::', '/')}/Answers.antt"
        if for_shape_alone(log, wrong) and (TOP / path).is_file():
            answers[path] = readdressed(texts.get(path) or (TOP / path).read_text(), log, crate, wrong.dies)
    again = check_with(crate, {**texts, **answers}) if answers else log
    return [again if for_shape_alone(log, wrong) else log for wrong in wrongs]


def check_here(copies, telling):
    """COPIES: crate, where they stand, wrong answers that can be told apart. Says which are refused, where TELLING, and which are not."""
    tried = refused = 0
    with ThreadPoolExecutor(at_a_time()) as pool:
        logs = [pool.submit(logs_of, crate, wrongs) for crate, _, wrongs in copies]
        for (crate, where, wrongs), log in zip(copies, logs):
            found, lines = judge(crate, where, wrongs, log.result())
            tried, refused = tried + max(1, len(wrongs)), refused + found
            print("\n".join([line for line in lines if telling or ": refused in " not in line] + [f"{crate}: {where}: {found} of {len(wrongs)}"]))
            sys.stdout.flush()
    print(f"{tried} wrong answers, {refused} refused, each in the proof of its own function")
    return 0 < tried == refused


def rounds(wrongs):
    """The wrong answers in as few copies as do: none has a function twice."""
    copies = []
    for wrong in wrongs:
        free = next((copy for copy in copies if all(other.dies != wrong.dies for other in copy)), None)
        if free is None:
            free = []
            copies.append(free)
        free.append(wrong)
    return copies


def mutant_copies(names):
    """One that is in no function, a constant, is left out: the promise about it is another crate's."""
    wrongs = [wrong for wrong in read_mutants() if not names or wrong.crate in names]
    for wrong in wrongs:
        wrong.dies = function_of(wrong)
        if not wrong.dies:
            print(f"{wrong.name}: a constant, left out")
    for crate in {wrong.crate: None for wrong in wrongs}:
        for number, some in enumerate(rounds([wrong for wrong in wrongs if wrong.crate == crate and wrong.dies]), 1):
            yield crate, f"copy {number}", some


def edit_copies(names, folders):
    return [(crate, f"{path.parent.name}/{path.name}", read_edits(path)) for crate, path in edit_files(names, folders)]


# ---- whether the files can be tried


def faults_of(path):
    """What is wrong with a file of edits, whatever the prover says."""
    try:
        wrongs = read_edits(path)
    except ValueError as fault:
        return [str(fault)]
    texts, said = {}, [] if wrongs else ["it has no wrong answer"]
    for wrong in wrongs:
        said += [f"{wrong.name}: {fault}" for fault in lacks(wrong)]
        try:
            wrong.made({})
            texts = wrong.made(texts)
        except (ValueError, OSError) as fault:
            said.append(f"{wrong.name}: {fault}")
    named = {wrong.dies: [other.name for other in wrongs if other.dies == wrong.dies] for wrong in wrongs}
    return said + [f"{', '.join(several)}: one proof for several, {dies}" for dies, several in named.items() if len(several) > 1]


def lacks(wrong):
    if not wrong.changes:
        yield "it changes nothing"
    if not wrong.dies:
        yield "it does not say where it dies"
    elif wrong.dies.endswith(".antt"):
        if not (TOP / "crates" / wrong.crate / "proofs" / wrong.dies).is_file():
            yield f"{wrong.crate} has no proofs/{wrong.dies}"
    elif wrong.dies not in functions(wrong.crate) and wrong.dies not in derived(wrong.crate):
        yield f"{wrong.crate} has no function {wrong.dies}"


def mutant_faults(edits):
    """What is wrong with tools/mutants.txt beside these edits."""
    known = {str(changed_code(wrong)): wrong.label for wrong in edits}
    for wrong in read_mutants():
        try:
            label = known.setdefault(str(changed_code(wrong)), wrong.label)
        except (ValueError, OSError) as fault:
            yield f"{wrong.name}: {fault}"
        else:
            if label != wrong.label:
                yield f"{wrong.name}: {label} makes the same change"


def check_files():
    """Whether each change can be made, alone and after those before it in its file; whether each proof named is there, and once in a file;
    whether tools/mutants.txt has only what the edits lack."""
    files = [path for _, path in edit_files()]
    said = [f"{path.relative_to(TOP)}: {fault}" for path in files for fault in faults_of(path)]
    if not said:
        said = [f"tools/mutants.txt: {fault}" for fault in mutant_faults([wrong for path in files for wrong in read_edits(path)])]
    for line in said:
        print(line)
    return not said


def main(words):
    if not check_files():
        return False
    if words == ["--check"]:
        return True
    if words[:1] == ["--mutants"]:
        copies = list(mutant_copies(words[1:]))
    else:
        copies = edit_copies(words[1:], [BY_THE_GATE, BY_HAND] if words else [BY_THE_GATE])
    prove(dict.fromkeys(crate for crate, *_ in copies) if words[1:] else [])
    return check_here(copies, telling=bool(words))


if __name__ == "__main__":
    sys.exit(0 if main(sys.argv[1:]) else 1)
