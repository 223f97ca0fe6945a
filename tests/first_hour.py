#!/usr/bin/env python3
"""Times what somebody meets who clones the repository: the first answer, the second, the library, and how fast the program is that was
compiled without proof. It is no part of ./test, since it wants a quiet machine with four processors.

  tests/first_hour.py [--optimise]

It works in a clone of its own and takes five minutes. It prints a table of seconds, each beside the most that it is to be; the status is 1 if
one takes longer."""
import argparse
import os
import statistics
import subprocess
import sys
import tempfile
import time
from pathlib import Path

ROOT = Path(__file__).resolve().parent.parent
SCRIPT = "examples/authors.sql"
# A load whose time is that of the statements and not of the start.
ROWS = 20_000
LOAD = "CREATE TABLE p (k INT PRIMARY KEY); CREATE TABLE c (k INT PRIMARY KEY, p INT REFERENCES p ON DELETE CASCADE);\n" + "".join(
    f"INSERT INTO p VALUES ({row}); INSERT INTO c VALUES ({row}, {row});\n" for row in range(ROWS // 2)
) + "COMMIT; DELETE FROM p; COMMIT;\n"


def seconds(words, folder, given=None):
    """How long a command takes, and that it ends well."""
    began = time.monotonic()
    done = subprocess.run(words, cwd=folder, input=given, stdout=subprocess.PIPE, stderr=subprocess.PIPE, check=False)
    took = time.monotonic() - began
    if done.returncode not in (0, 1):
        raise SystemExit(f"{words}: status {done.returncode}: {done.stderr.decode()}")
    return took, done


def usual(words, folder, given=None):
    """The middle of five runs."""
    return statistics.median(seconds(words, folder, given)[0] for _ in range(5))


class Table:
    """What was measured, and whether all of it is within its bound."""

    def __init__(self):
        self.is_good = True
        print(f"{'what':54} {'seconds':>9} {'at most':>9}")

    def row(self, what, took, most, unit=""):
        self.is_good &= most is None or took <= most
        print(f"{what:54} {took:9.2f} {most if most is not None else '-':>9} {unit}{'' if most is None or took <= most else 'TOO LONG'}", flush=True)


def handed_out(clone, table):
    """The times of the program in dist/, if it is of these sources."""
    took, done = seconds(["./sqlkeep", SCRIPT], clone)
    if done.stderr:
        return False
    table.row("dist/: the first answer of a clone", took, 0.2)
    table.row("dist/: each answer after it", usual(["./sqlkeep", SCRIPT], clone), 0.1)
    return True


def measure(clone, table, optimise):
    if not handed_out(clone, table):
        print("dist/ was made of other sources")
    subprocess.run(["rm", "-rf", "dist", "out"], cwd=clone, check=True)
    table.row("without proof: the first answer", seconds(["./sqlkeep", SCRIPT], clone)[0], 65)
    table.row("without proof: each answer after it", usual(["./sqlkeep", SCRIPT], clone), 0.1)
    quick = usual(["out/unproved/sqlkeep"], clone, LOAD.encode())
    table.row(f"without proof: {ROWS} rows in and out again", quick, None)
    proved = next((path for path in (ROOT / "out/sqlkeep", ROOT / "dist/sqlkeep") if path.exists()), None)
    if proved:
        built = usual([str(proved)], clone, LOAD.encode())
        table.row(f"proved: {ROWS} rows in and out again", built, None)
        table.row("without proof: times as long", quick / built, 2.5)
    table.row("without proof: the library for C", seconds(["./build", "--library", "--unproved"], clone)[0], 65)
    if optimise:
        table.row("without proof, optimised: the program", seconds(["./build", "--unproved", "--optimise"], clone)[0], 120)
        if proved:
            table.row("without proof, optimised: times as long", usual(["out/unproved/sqlkeep"], clone, LOAD.encode()) / built, 1.5)


def main():
    parser = argparse.ArgumentParser()
    parser.add_argument("--optimise", action="store_true")
    words, table = parser.parse_args(), Table()
    with tempfile.TemporaryDirectory(prefix="first-hour-") as folder:
        clone = Path(folder, "clone")
        subprocess.run(["git", "clone", "--quiet", str(ROOT), str(clone)], check=True)
        measure(clone, table, words.optimise)
    print(f"load of the machine: {os.getloadavg()[0]:.1f} on {os.cpu_count()} processors")
    return int(not table.is_good)


if __name__ == "__main__":
    sys.exit(main())
