#!/usr/bin/env python3
"""Compares this engine with a PostgreSQL of its own, and tries what the way there does with hostile texts.

    postgresql.py [--library FOLDER] [--only WORD] [--tell] [--save FILE] [--seed N] [--count N]

It makes a server in a folder of its own, on a socket there, and stops it again.
- Each script of the tests, the examples and the page is translated and run in both. It passes if all its statements answer the same and
  leave the same rows, or if each one that doesn't has a note that said so. So has each of --count random scripts from --seed on.
- The scripts of docs/library/postgresql.md have to give both answers that stand below them there.
- Each script of postgresql/foretold.py has to answer the same, or to differ with the note that it names.
- Hostile texts stand in each place that takes one; psql runs what becomes of them.
With --tell each difference is printed; with --save the table is written. The last line is `N passed, N failed`, or says which packages are
missing."""
import argparse
import collections
import glob
import os
import shutil
import sys
import tempfile
from pathlib import Path

from postgresql import compared, foretold, hostile
from postgresql.server import SYSTEM, Server, missing

ROOT = Path(__file__).resolve().parent.parent


def table(found):
    """The results as a table of Markdown."""
    kinds = collections.Counter(each["kind"] for each in found)
    judged = sum(kinds[kind] for kind in ("same", "foretold", "not foretold"))
    lines = ["| scripts | number |", "|---|---|", f"| compared | {judged} |", f"| all statements the same | {kinds['same']} |", f"| another answer, told before | {kinds['foretold']} |", f"| another answer, not told | {kinds['not foretold']} |"]
    noted, true = (sum(each["notes"][at] for each in found) for at in (0, 1))
    lines += ["", f"{sum(each['same'] for each in found)} of {sum(each['total'] for each in found)} statements answer the same; {noted} have a note, and {true} of these differ."]
    reasons = collections.Counter(reason for each in found for reason in each["reasons"])
    lines += ["", "| what was told of a difference | statements |", "|---|---|", *(f"| {reason} | {count} |" for reason, count in reasons.most_common())]
    return "\n".join(lines) + "\n"


def judged(found, words):
    """How many scripts differ without a note, or otherwise than the page says."""
    failed = 0
    for each in found:
        if each["kind"] == "not foretold" or (words.tell and each["kind"] == "foretold"):
            print(f"{each['name']}: {each['kind']}, {each['same']} of {each['total']} statements the same\n{each['told']}")
        failed += each["kind"] == "not foretold"
    print(table(found), end="")
    if words.save:
        Path(words.save).write_text(table(found))
    answers = {name: answers for name, (_, answers) in compared.page().items()}
    for each in found:
        if any(line + "\n" not in each["told"] for line in answers.get(each["name"], "").splitlines()):
            print(f"{each['name']}: the page says\n{answers[each['name']]}and this came\n{each['told']}")
            failed += 1
    return failed


def tried(server, folder, words):
    """How many things passed and failed."""
    scripts = {name: (script, *compared.limits_of(name)) for name, script in compared.stored().items()}
    scripts.update(compared.made(words.seed, words.count))
    found = compared.results(server.dsn, {name: script for name, script in scripts.items() if not words.only or words.only in name})
    failed = judged(found, words)
    others = {}
    if not words.only or words.only in "foretold":
        others.update(foretold.results(server.dsn, Path(folder, "package")))
    if not words.only or words.only in "hostile":
        others.update(hostile.results(server, Path(folder, "psql"), Path(folder, "package")))
    for name, wrong in others.items():
        print("".join(f"{name}: {each[:2_000]}\n" for each in wrong[:3]), end="")
    failed += sum(map(bool, others.values()))
    return len(found) + len(others) - failed, failed


def main():
    parser = argparse.ArgumentParser()
    parser.add_argument("--library", default=str(ROOT / "out"))
    parser.add_argument("--only")
    parser.add_argument("--tell", action="store_true")
    parser.add_argument("--save")
    parser.add_argument("--seed", type=int, default=10_001)
    parser.add_argument("--count", type=int, default=40)
    words = parser.parse_args()
    wanted = missing()
    wheels = glob.glob(os.path.join(words.library, "sqlkeep-*.whl"))
    if wanted or not wheels:
        print(f"PostgreSQL: skipped; {wanted or 'the wheel is not there: ./build --library'}")
        print("0 passed, 0 failed, 1 skipped")
        return 0
    if not os.path.samefile(sys.executable, SYSTEM):
        os.execv(SYSTEM, [SYSTEM, *sys.argv])
    with tempfile.TemporaryDirectory(prefix="pg-") as folder:
        os.chmod(folder, 0o755)
        package, socket = Path(folder, "package"), Path(folder, "server")
        socket.mkdir()
        shutil.unpack_archive(wheels[0], package, "zip")
        sys.path.insert(0, str(package))
        with Server(str(socket)) as server:
            passed, failed = tried(server, folder, words)
    print(f"{passed} passed, {failed} failed")
    return int(failed > 0)


if __name__ == "__main__":
    sys.exit(main())
