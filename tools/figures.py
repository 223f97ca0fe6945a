#!/usr/bin/env python3
"""Measures what each crate costs to prove, one crate at a time, and prints a table for docs/proving.

  tools/figures.py [CRATE..]

It works on a copy of the repository without any kept work, lowest crates first. For each crate it measures the
processor time of its proof from nothing, of the same with its tests, of its must-fail edits and of those of
tests/edits. Crates that the named ones depend on are proved without being measured. The processor time is that of all
processes of a step; other work on the machine lengthens it a little, so let nothing else run. Progress goes to
standard error. A step that fails ends the work with status 1.
"""
import glob
import os
import re
import shutil
import sys
import tempfile

import repository
import sandboxes

ROOT = repository.ROOT


class Failed(Exception):
    """A step that did not succeed, with its output."""


def copied(sandbox):
    """A copy of the repository without its history and without kept work."""
    copy = os.path.join(sandbox, "repository")
    shutil.copytree(ROOT, copy, ignore=shutil.ignore_patterns(".git", "out", "__pycache__"))
    return copy


def measured(folder, *words):
    """The processor seconds of a command."""
    status, output, used = sandboxes.timed(words, folder)
    if status != 0:
        raise Failed(f"{' '.join(words)} in {folder}:\n{output}")
    return used


def lines(folder, pattern):
    """How many lines the files of a crate have."""
    count = 0
    for path in glob.glob(os.path.join(folder, pattern), recursive=True):
        with open(path, encoding="utf-8") as file:
            count += sum(1 for _ in file)
    return count


def has_tests(folder):
    for path in glob.glob(os.path.join(folder, "src", "**", "*.rt"), recursive=True):
        with open(path, encoding="utf-8") as file:
            if re.search(r"^ *#\[test\]", file.read(), re.M):
                return True
    return False


def forget(folder):
    """Takes away the kept work of a crate."""
    shutil.rmtree(os.path.join(folder, "out"), ignore_errors=True)


def measure(copy, crate):
    """The row of a crate: its lines, and the processor seconds of each step that it has."""
    folder = os.path.join(copy, "crates", crate)
    tests = None
    if has_tests(folder):
        tests = measured(folder, "rt", "check", "--test", "--jobs", "1")
        forget(folder)
    proof = measured(folder, "rt", "check", "--jobs", "1")
    must_fail = glob.glob(os.path.join(folder, "must-fail", "*.edit"))
    further = glob.glob(os.path.join(copy, "tests", "edits", crate, "*.edit"))
    edits = 0.0
    if must_fail:
        edits += measured(copy, "rt", "must-fail", crate)
    if further:
        edits += measured(copy, sys.executable, "tests/edits.py", crate, "--all", "--jobs", "1")
    code, definitions, proofs = (lines(folder, part) for part in ("src/**/*.rt", "specs/**/*.antt", "proofs/**/*.antt"))
    return crate, code, definitions, proofs, proof, tests, len(must_fail) + len(further), edits


def minutes(seconds):
    return "" if seconds is None else f"{seconds / 60:.1f}"


def row(crate, code, definitions, proofs, proof, tests, count, edits):
    cells = [crate, code, definitions, proofs, minutes(proof), minutes(tests), count or "", minutes(edits) if count else ""]
    return "| " + " | ".join(str(cell) for cell in cells) + " |"


def total(rows):
    sums = [sum(one[place] or 0 for one in rows) for place in range(1, 8)]
    return ("all", *sums)


def main(words):
    named = repository.crates()
    unknown = [word for word in words if word not in named]
    if unknown:
        repository.say(f"not known: {' '.join(unknown)}\n{__doc__}")
        return 2
    wanted = words or list(named)
    needed = repository.below(wanted, named)
    rows = []
    with tempfile.TemporaryDirectory(prefix="figures-") as sandbox:
        copy = copied(sandbox)
        try:
            for crate in (crate for crate in named if crate in needed):
                if crate in wanted:
                    rows.append(measure(copy, crate))
                    repository.say(row(*rows[-1]))
                else:
                    measured(os.path.join(copy, "crates", crate), "rt", "check", "--jobs", "1")
        except Failed as failed:
            repository.say(str(failed))
            return 1
    print("| crate | lines of code | of definitions | of proofs | proof, minutes | proof with tests | edits | edits, minutes |")
    print("|---|---|---|---|---|---|---|---|")
    for one in [*rows, total(rows)] if len(rows) > 1 else rows:
        print(row(*one))
    return 0


if __name__ == "__main__":
    sys.exit(main(sys.argv[1:]))
