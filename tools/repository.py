"""The repository's crates, and where they and the kit are."""
import os
import shutil
import sys

ROOT = os.path.dirname(os.path.dirname(os.path.realpath(__file__)))
PROGRAM = "sqlkeep"
LIBRARY = "sqlkeep_c"
# the structs that the library for C answers with are in these crates below it
ANSWERS = ("iv_shown", "iv_connection")


def say(line):
    print(line, file=sys.stderr, flush=True)


def folder(crate):
    return os.path.join(ROOT, "crates", crate)


def crates():
    """Each crate of crates.txt with those of this repository that it names."""
    named = {}
    with open(os.path.join(ROOT, "crates.txt"), encoding="utf-8") as lines:
        for line in lines:
            line = line.split("#")[0].strip()
            if line:
                head, _, tail = line.partition(":")
                named[head.split()[0]] = tail.split()
    return {crate: [low for low in lows if low in named] for crate, lows in named.items()}


def below(wanted, named):
    """These crates and all that they depend on."""
    found = set()
    left = list(wanted)
    while left:
        crate = left.pop()
        if crate not in found:
            found.add(crate)
            left += named[crate]
    return found


def above(wanted, named):
    """These crates and all that depend on them."""
    return {crate for crate in named if below([crate], named) & set(wanted)}


def listed(crate):
    """All that the line of a crate in crates.txt names, of this repository and of the kit."""
    with open(os.path.join(ROOT, "crates.txt"), encoding="utf-8") as lines:
        return next(line.partition(":")[2].split() for line in lines if line.split(":")[0].split()[:1] == [crate])


def kit(*names):
    """A path in the kit."""
    return os.path.join(os.path.dirname(os.path.dirname(os.path.realpath(shutil.which("rt")))), *names)
