#!/usr/bin/env python3
"""The crates of crates.txt, and the words with which the kit's `rattle` is asked about one of them, as `rt` asks.

usage: tools/crates.py build CRATE..    has these libraries and those below them built: they stand as `rt ci` left them, or else `rt lib` makes them
       tools/crates.py below CRATE      prints the libraries that a crate uses, and those below these, lowest first
       tools/crates.py words CRATE      prints `rattle`'s words for a crate, one a line; they are for the crate's folder or a copy of it
"""
import os
import re
import shutil
import subprocess
import sys

ROOT = os.path.dirname(os.path.dirname(os.path.realpath(__file__)))
KIT = os.path.dirname(os.path.dirname(os.path.realpath(shutil.which("rt") or sys.exit("crates: no rt is installed here"))))
RATTLE = f"{KIT}/bin/rattle"
PARTS = ("src", "specs", "proofs")


def folder(name):
    return f"{ROOT}/crates/{name}"


def listed():
    """What crates.txt says: of each crate whether it is a static library, and what it names."""
    found = {}
    with open(f"{ROOT}/crates.txt", encoding="utf-8") as it:
        for line in it:
            said, _, deps = line.split("#")[0].partition(":")
            if said.strip():
                name, *kind = said.split()
                found[name] = ("staticlib" in kind, deps.split())
    return found


CRATES = listed()


def below(name):
    """The repository's libraries below a crate, each after those that it uses."""
    found = []
    for dep in CRATES[name][1]:
        if dep in CRATES:
            found += [it for it in [*below(dep), dep] if it not in found]
    return found


def library(name):
    return f"{folder(name)}/out/rlib/{name}.rlib"


def is_of_ci(name):
    """Whether a library stands as `rt ci` left it, which writes no stamp beside it, and no file that it was made from was changed since."""
    made = library(name)
    if not os.path.isdir(made) or os.path.exists(f"{os.path.dirname(made)}/stamp"):
        return False
    files = [f"{ROOT}/crates.txt"]
    for part in PARTS:
        for at, _, names in os.walk(f"{folder(name)}/{part}"):
            files += [at, *[f"{at}/{it}" for it in names]]
    return all(os.stat(it).st_mtime_ns < os.stat(made).st_mtime_ns for it in files if os.path.exists(it))


def build(names):
    """Has libraries built, and says whether that could be done."""
    wanted = {it for name in names for it in [*below(name), name]}
    if all(is_of_ci(it) for it in wanted):
        return True
    for name in sorted(wanted - {it for name in wanted for it in below(name)}):
        ran = subprocess.run(["rt", "lib"], cwd=folder(name), stdout=subprocess.PIPE, stderr=subprocess.STDOUT, text=True, errors="replace")
        if ran.returncode:
            print(ran.stdout, end="", file=sys.stderr)
            return False
    return True


def words(name):
    is_static, deps = CRATES[name]
    root = "src/main.rt" if os.path.isfile(f"{folder(name)}/src/main.rt") else "src/lib.rt"
    found = ["--crate-name", name, root, "--extern", f"std={KIT}/rlibs/std.rlib", "-L", f"dependency={KIT}/rlibs"]
    for dep in deps:
        found += ["--extern", f"{dep}={library(dep) if dep in CRATES else f'{KIT}/rlibs/{dep}.rlib'}"]
    for dep in below(name):
        found += ["-L", f"dependency={os.path.dirname(library(dep))}"]
    found += ["--antt-project", f"{KIT}/rattle/logic/antt-project.json", "--logic-built", f"{KIT}/logic_built", "--links", f"{name}="]
    return found + ["--crate-type", "staticlib"] * is_static


def main(verb=None, *names):
    lost = [it for it in names if it not in CRATES]
    if verb not in ("build", "below", "words") or not names or lost:
        sys.exit(f"crates: {lost[0]} is no crate of crates.txt" if lost else __doc__)
    if verb == "build":
        sys.exit(0 if build(names) else 1)
    for it in {"below": below, "words": words}[verb](names[0]):
        print(it)


if __name__ == "__main__":
    main(*sys.argv[1:])
