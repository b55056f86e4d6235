"""The LLVM module of a crate: what the toolchain hands to its clang.

It stands in a copy of the Rattle toolchain's links, whose clang keeps the module that it is handed. There are two ways to one:

- Of a static library that is proved, as 'rt lib' builds it: every function that its exports reach, as the library has it.
- Of one that is not, by 'rt try', which compiles a program with no proof: so the crate stands in a copy of the crates as a program whose main
  calls every export. The module has tests of its own, at which what no proof allows ends the program, as a sum that wraps.
"""

import re
import shutil
import subprocess
import sys
from pathlib import Path

from edits import TOP
from sources import below, code, crates

TRIPLE = "x86_64-unknown-linux-gnu"  # what the toolchain compiles for

# The program that 'rt try' runs is the one that it compiles with an address sanitizer; it is not to be run.
CLANG = """#!/bin/sh
cp module.bc '{kept}'
case " $* " in *" -fsanitize=address "*) exit 1 ;; esac
exec '{clang}' "$@"
"""


def run(words, **options):
    return subprocess.run([str(word) for word in words], stdin=subprocess.DEVNULL, capture_output=True, text=True, **options)


def must_run(words, **options):
    """What a command writes, which must not fail."""
    done = run(words, **options)
    if done.returncode:
        sys.exit(f"{Path(sys.argv[0]).stem}: {' '.join(map(str, words))}: {done.stderr}")
    return done.stdout


def link_all_but(folder, entries, new):
    """Links to all that is in a folder but some entries."""
    new.mkdir(parents=True)
    for one in folder.iterdir():
        if one.name not in entries:
            (new / one.name).symlink_to(one)


class Kit:
    """The copy of the toolchain's links, in a new folder."""

    def __init__(self, kit):
        home = Path(must_run(["rt", "doc"]).strip()).parent
        self.clang = home / "toolchain" / "bin" / "clang"
        self.kept = kit / "module.bc"
        link_all_but(home, ["bin", "toolchain"], kit)
        # rt finds the toolchain by its own place, beyond links
        link_all_but(home / "bin", ["rt", "rtlib.py"], kit / "bin")
        for name in ("rt", "rtlib.py"):
            shutil.copy(home / "bin" / name, kit / "bin")
        link_all_but(home / "toolchain", ["bin"], kit / "toolchain")
        link_all_but(self.clang.parent, ["clang"], kit / "toolchain" / "bin")
        own = kit / "toolchain" / "bin" / "clang"
        own.write_text(CLANG.format(kept=self.kept, clang=self.clang))
        own.chmod(0o755)
        self.rt = kit / "bin" / "rt"

    def module_by(self, verb, folder):
        """The module that rt hands to clang last, as text and not optimised; none where it does not come so far."""
        self.kept.unlink(missing_ok=True)
        said = run([self.rt, verb], cwd=folder)
        if not self.kept.exists():
            print(said.stdout + said.stderr, file=sys.stderr)
            return None
        clang = [self.clang, f"--target={TRIPLE}", "-x", "ir", self.kept]
        return must_run([*clang, "-S", "-emit-llvm", "-Xclang", "-disable-llvm-passes", "-O0", "-o", "-"])

    def proved(self, part):
        """The module of a static library of the repository, which is proved and built there."""
        return self.module_by("lib", TOP / "crates" / part)


class Unproved:
    """Makes modules with no proof, with a copy of the crates and of the kit for each static library. CALLS: of each the statements that call its
    exports."""

    def __init__(self, scratch, calls):
        self.scratch, self.calls = scratch, calls
        self.kits = {part: Kit(scratch / f"{part}.kit") for part in calls}
        for part in calls:
            self.copy_crates(part)

    def copy_crates(self, part):
        """A build file can say that a crate needs nothing of the library std but what is in core, as crates.txt cannot: so it compiles in half the
        time."""
        copy = self.scratch / part
        for crate in below(part):
            (copy / "crates" / crate / "src").mkdir(parents=True)
            for path in code(crate):
                self.write(part, f"crates/{crate}/src/{path.name}", path.read_text())
            deps = ", ".join(f'"//crates/{one}"' for one in crates()[crate])
            build = f'rattle_crate(name = "{crate}", no_std = True, deps = [{deps}])\n'
            (copy / "crates" / crate / "BUILD.bazel").write_text(build)
        (copy / "MODULE.bazel").touch()

    def write(self, part, file, text):
        """A source file of a crate's copy. The root of the library is that of a program, with a main."""
        path = self.scratch / part / file
        if file == f"crates/{part}/src/lib.rt":
            path, text = path.with_name("main.rt"), f"{text}\nfn main() {{\n{self.calls[part]}}}\n"
        path.write_text(re.sub(r"\bstd::", "core::", text))

    def unproved(self, part):
        return self.kits[part].module_by("try", self.scratch / part / "crates" / part)
