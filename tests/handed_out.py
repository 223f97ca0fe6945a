#!/usr/bin/env python3
"""Looks whether the program in dist/ is the one that was built now, and which program ./sqlkeep runs.

  tests/handed_out.py --program PATH

PATH is the program as it was linked, crates/sqlkeep/out/sqlkeep. If dist/ was made of these sources by this kit, the two are compared byte for byte
once the linked one is stripped and has its version; if the kit is another one, all scripts run over the program in dist/. If dist/ is of
other sources, that part is skipped. The last line is `N passed, N failed, N skipped`."""
import argparse
import concurrent.futures
import hashlib
import os
import shutil
import subprocess
import sys
import tempfile
from pathlib import Path

HERE = Path(__file__).resolve().parent
ROOT = HERE.parent
sys.path.insert(0, str(ROOT / "tools"))
import builds

PASSED, FAILED, SKIPPED = "passed", "failed", "skipped"


def same_program(program):
    """Whether dist/ has the program that was built."""
    if not builds.is_of_these_sources():
        return SKIPPED, "dist/ was made of other sources; ./build --dist renews it"
    if hashlib.sha256((builds.DIST / "sqlkeep").read_bytes()).hexdigest() != builds.built()["program"]:
        return FAILED, "dist/sqlkeep isn't the program that dist/BUILT names"
    if builds.built()["kit"] != builds.identity():
        done = subprocess.run([sys.executable, HERE / "run.py", "--program", builds.DIST / "sqlkeep"], stdout=subprocess.PIPE, text=True, check=False)
        return (PASSED if done.returncode == 0 else FAILED), done.stdout.splitlines()[-1]
    with tempfile.TemporaryDirectory() as room:
        builds.ready(program, Path(room, "sqlkeep"))
        same = Path(room, "sqlkeep").read_bytes() == (builds.DIST / "sqlkeep").read_bytes()
    return (PASSED, "") if same else (FAILED, "the program that was built differs from dist/sqlkeep")


class Clone:
    """A copy of the repository in which each program only says which one it is."""

    def __init__(self, folder):
        self.root = Path(folder, "clone")
        shutil.copytree(ROOT, self.root, ignore=shutil.ignore_patterns("out", ".git", "docs", "tests", "dist", "examples"))
        self.put("dist/sqlkeep", "handed out")
        self.now = 1_000_000_000
        built = {**builds.built(), "sources": builds.sources(builds.repository.PROGRAM), "crates": " ".join(builds.names(builds.repository.PROGRAM))}
        (self.root / "dist/BUILT").write_text("".join(f"{word} {text}\n" for word, text in built.items()))
        for path in self.root.rglob("*"):
            os.utime(path, (self.now, self.now))

    def put(self, path, says):
        """A program at this path, newer than all that is there."""
        place = self.root / path
        place.parent.mkdir(parents=True, exist_ok=True)
        place.write_text(f"#!/bin/sh\necho '{says}'\n")
        place.chmod(0o755)

    def change(self, path):
        with open(self.root / path, "a", encoding="utf-8") as file:
            file.write("// changed\n")

    def says(self):
        """What ./sqlkeep writes where no kit is installed, and on standard error."""
        done = subprocess.run([self.root / "sqlkeep"], capture_output=True, text=True, check=False, env={"PATH": "/usr/bin:/bin"})
        return done.stdout.strip(), done.stderr.strip()


def chosen(folder):
    """Which program runs, as the sources and the programs come and change; what isn't as it should be."""
    wrong = []

    def expect(what, out, err=""):
        got = clone.says()
        if (got[0], err in got[1] if err else got[1] == "") != (out, True):
            wrong.append(f"{what}: {got}")

    clone = Clone(folder)
    expect("a fresh clone", "handed out")
    expect("a second run", "handed out")
    clone.put("out/sqlkeep", "proved")
    expect("after a build", "proved")
    clone.change("crates/iv_value/src/value.rt")
    expect("a changed source", "", "the kit isn't here")
    clone.put("out/unproved/sqlkeep", "unproved")
    expect("an unproved program", "unproved", "this run is not proved")
    clone.change("crates/iv_value/proofs/Lib.antt" if (clone.root / "crates/iv_value/proofs/Lib.antt").exists() else "crates/iv_key/specs/Keys.antt")
    expect("a changed definition", "unproved", "this run is not proved")
    clone.put("out/sqlkeep", "proved again")
    expect("after another build", "proved again")
    return (FAILED, "; ".join(wrong)) if wrong else (PASSED, "")


def begun_together(folder):
    """Twelve first runs side by side, three times, and a run after a disk that was full: all run the program of dist/, and none compiles."""
    clone, checked = Clone(folder), Path(folder, "clone/out/dist.checked")
    with concurrent.futures.ThreadPoolExecutor(12) as pool:
        found = set()
        for _ in range(3):
            checked.unlink(missing_ok=True)
            found |= set(pool.map(lambda _: clone.says(), range(12)))
    for left in ("", "cur"):
        checked.write_text(left)
        found.add(clone.says())
    left = [path.name for path in checked.parent.iterdir() if path != checked]
    return (PASSED, "") if found == {("handed out", "")} and not left else (FAILED, f"{found}, {left}")


def main():
    parser = argparse.ArgumentParser()
    parser.add_argument("--program", required=True)
    words = parser.parse_args()
    counts = {PASSED: 0, FAILED: 0, SKIPPED: 0}
    with tempfile.TemporaryDirectory(prefix="handed-out-") as folder:
        tests = (
            ("the program in dist", same_program(words.program)),
            ("the program that ./sqlkeep runs", chosen(Path(folder, "chosen"))),
            ("first runs of ./sqlkeep side by side", begun_together(Path(folder, "together"))),
        )
        for name, (ended, why) in tests:
            counts[ended] += 1
            if ended != PASSED:
                print(f"{'FAILED ' if ended == FAILED else ''}{name}: {ended}: {why}")
    print(f"{counts[PASSED]} passed, {counts[FAILED]} failed, {counts[SKIPPED]} skipped")
    return int(counts[FAILED] > 0)


if __name__ == "__main__":
    sys.exit(main())
