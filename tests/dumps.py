#!/usr/bin/env python3
"""Dumps the database that each script leaves, runs the dump in a new session, and dumps again.

  tests/dumps.py --program PATH [--only WORD] [--deep COUNT]

The dump has to be accepted throughout, the second dump has to be the first, which compares tables, constraints and triggers with their
names, modes and order, and the rows of each table are compared: those after the script with those after its dump. Status and standard
error have to agree with the transcript of the script. A script with a fault has no dump; what comes before its fault is dumped in its
place. A dump that is longer than a script is not run. The same is tried of COUNT random databases that are hard to write again
(`made/deep.py`), 2,000 of them unless it is said otherwise. Then each script is laid out by --format: what is written has to have the same
transcript, and to be laid out as itself. The last line is `N passed, N failed`; the status is 1 if something failed."""
import argparse
import itertools
import os
import re
import subprocess
import sys
from concurrent.futures import ThreadPoolExecutor

sys.dont_write_bytecode = True
sys.path.insert(0, os.path.dirname(os.path.abspath(__file__)))
import run
from made import deep

# A script of the program may have no more bytes; what is asked after it needs some.
LONGEST = 1_048_576 - 10_000


def large(count, step):
    """A script with so many rows in a table, whose foreign key refers from each row to the one before it, or to the one after it."""
    table = (
        "CREATE TABLE node (id INT PRIMARY KEY, next INT, word VARCHAR(40) NOT NULL,"
        " FOREIGN KEY (next) REFERENCES node INITIALLY DEFERRED, UNIQUE (next));"
    )
    rows = [f"({n}, {n + step if 0 <= n + step < count else 'NULL'}, '')" for n in range(count)]
    parts = [f"INSERT INTO node VALUES {', '.join(rows[at:at + 5000])};" for at in range(0, count, 5000)]
    return "\n".join([table, *parts, "COMMIT;"]).encode()


RING = b"""
CREATE TABLE a (x INT PRIMARY KEY);
CREATE TABLE b (y INT PRIMARY KEY REFERENCES a INITIALLY DEFERRED);
ALTER TABLE a ADD CONSTRAINT ring FOREIGN KEY (x) REFERENCES b INITIALLY DEFERRED;
INSERT INTO a VALUES (1), (2);
INSERT INTO b VALUES (2), (1);
COMMIT;
ALTER TABLE b ADD CHECK (y > 0 AND NOT (y = 7 OR y IS NULL));
CREATE TABLE c (z INT DEFAULT -9223372036854775807, t VARCHAR(9) DEFAULT 'it''s');
INSERT INTO c VALUES (-9223372036854775807 - 1, ''''), (DEFAULT, DEFAULT), (-1, NULL);
COMMIT;
"""


def made():
    """Scripts that are made here: name and bytes."""
    yield "many rows, each refers to the one before", large(12_000, -1)
    yield "many rows, each refers to the one after", large(12_000, 1)
    yield "few rows, each refers to the one after", large(100, 1)
    yield "a ring, and the least integer", RING


def is_text(script):
    """Whether the script runs: one that isn't UTF-8 leaves no database."""
    try:
        script.decode("utf-8")
        return True
    except UnicodeDecodeError:
        return False


def stored():
    """The scripts of tests/scripts and examples: name and bytes."""
    for directory in ("scripts", "../examples"):
        for name in sorted({file.split(".")[0] for file in run.files(directory) if ".sql" in file}):
            script = run.stored(directory, name + ".sql")
            if is_text(script):
                yield name, script


def started(program, script, *words):
    return subprocess.run([program, *words], input=script, capture_output=True, timeout=300, check=False)


def without_numbers(line):
    return re.sub(r"^\d+ ", "", line)


def rows_after(program, script, tables):
    """The lines of a SELECT of each table after a script, or None if the script has a fault."""
    asked = "".join(f"\nSELECT * FROM {table};" for table in tables)
    lines = started(program, script + b"\nROLLBACK;" + asked.encode()).stdout.decode("utf-8", "replace").splitlines()
    if any(re.match(r"\d+ fault ", line) for line in lines):
        return None
    found, answers = [], 0
    for line in reversed(lines):
        if answers == len(tables):
            break
        found.append(without_numbers(line))
        answers += not line.startswith("| ")
    return found[::-1]


def compared(program, script, dump):
    """What the program finds wrong with a dump: a statement that is refused, or other rows."""
    if len(script) > LONGEST:
        return []
    done = started(program, dump)
    if done.returncode != 0:
        return [line for line in done.stdout.decode("utf-8", "replace").splitlines() if " refused " in line or " fault " in line][:3] or ["no transcript"]
    tables = re.findall(r"^CREATE TABLE (\w+) \($", dump.decode(), re.M)
    before, after = rows_after(program, script, tables), rows_after(program, dump, tables)
    return ["the rows differ"] if before is not None and before != after else []


def told(transcript):
    """What standard error is told of the dump of a script with this transcript, which has no fault, and the status."""
    refused = len(re.findall(rb"^\d+ refused ", transcript, re.M))
    lines = [b"sqlkeep: refused statements: %d\n" % refused] if refused else []
    lines += [b"sqlkeep: the open transaction was rolled back\n"] if transcript.endswith(b"end rolled back\n") else []
    return b"".join(lines), int(refused > 0)


def dumped(program, script):
    """Why the dump of a script isn't as it should be."""
    transcript, done = started(program, script), started(program, script, "--dump")
    if transcript.returncode == 2 or done.returncode == 2:
        return [] if (done.stdout, done.stderr) == (b"", transcript.stderr) or b"longer than" in done.stderr else [f"standard error: {done.stderr!r}"]
    fault = re.search(rb"^(\d+) fault (\d+)$", transcript.stdout, re.M)
    if fault:
        line = b"sqlkeep: statement %s can't be read: line " % fault[1]
        why = [] if done.stdout == b"" and done.returncode == 1 and done.stderr.startswith(line) else [f"a fault: {done.stderr[-300:]!r}"]
        return why + dumped(program, script[:int(fault[2])])
    if (done.stderr, done.returncode) != told(transcript.stdout):
        return [f"status {done.returncode}, standard error {done.stderr[-300:]!r}"]
    if len(done.stdout) > LONGEST:
        return []
    again = started(program, done.stdout, "--dump")
    why = ["the dump of the dump differs"] if (again.stdout, again.stderr, again.returncode) != (done.stdout, b"", 0) else []
    return why or compared(program, script, done.stdout)


def laid_out(program, script):
    """Why the layout of a script isn't as it should be."""
    transcript, done = started(program, script), started(program, script, "--format")
    if transcript.returncode == 2:
        return [] if (done.stdout, done.stderr) == (b"", transcript.stderr) else [f"standard error: {done.stderr!r}"]
    fault = re.search(rb"^(\d+) fault (\d+)$", transcript.stdout, re.M)
    if fault:
        line = b"sqlkeep: statement %s can't be read: line " % fault[1]
        why = [] if done.stdout == b"" and done.returncode == 1 and done.stderr.startswith(line) else [f"a fault: {done.stderr[-300:]!r}"]
        return why + laid_out(program, script[:int(fault[2])])
    if (done.stderr, done.returncode) != (b"", 0):
        return [f"status {done.returncode}, standard error {done.stderr[-300:]!r}"]
    if len(done.stdout) > LONGEST:
        return []
    why = [] if started(program, done.stdout).stdout == transcript.stdout else ["the transcript of the layout differs"]
    return why + ([] if started(program, done.stdout, "--format").stdout == done.stdout else ["the layout of the layout differs"])


def deeply(program, seed):
    """Why the dump of the random database of this seed isn't as it should be."""
    script = deep.script(seed).encode()
    done = started(program, script, "--dump")
    if done.returncode > 1 or b"can't be read" in done.stderr:
        return [f"status {done.returncode}, standard error {done.stderr[-300:]!r}"]
    again = started(program, done.stdout, "--dump")
    return [] if (again.stdout, again.stderr, again.returncode) == (done.stdout, b"", 0) else ["the dump of the dump differs"]


def in_other_places(length, count):
    """A script whose dump gives its constraints other places: a NOT NULL comes after a foreign key to the table itself, and so many
    rows need more than one INSERT. The name of the table has so many characters, and those of the constraints are generated."""
    name = "n" * length
    rows = ", ".join(f"({n}, {n + 1 if n + 1 < count else 'NULL'}, 0)" for n in range(count))
    return f"CREATE TABLE {name} (id INT PRIMARY KEY, next INT REFERENCES {name} INITIALLY DEFERRED, word INT NOT NULL); INSERT INTO {name} VALUES {rows}; COMMIT;".encode()


def refused(program):
    """Why a database whose dump would have other names isn't refused: generated ones that can't be written change with their places. With
    a shorter name they are written, and with fewer rows each keeps its place."""
    line = b"sqlkeep: the dump doesn't make the same database again\n"
    done = started(program, in_other_places(128, 12_000), "--dump")
    why = [] if (done.stdout, done.stderr, done.returncode) == (b"", line, 2) else [f"status {done.returncode}, standard error {done.stderr!r}"]
    for length, count in ((120, 12_000), (128, 100)):
        done = started(program, in_other_places(length, count), "--dump")
        why += [] if (done.stderr, done.returncode) == (b"", 0) and done.stdout else [f"{length}, {count}: status {done.returncode}, {done.stderr!r}"]
    return why


def main():
    parser = argparse.ArgumentParser(description=__doc__, formatter_class=argparse.RawDescriptionHelpFormatter)
    parser.add_argument("--program", required=True)
    parser.add_argument("--only", default="")
    parser.add_argument("--deep", type=int, default=2000)
    words = parser.parse_args()
    program = os.path.abspath(words.program)
    passed = failed = 0
    for (name, script), (what, judge) in itertools.product([*stored(), *made()], (("dump", dumped), ("layout", laid_out))):
        if words.only not in name:
            continue
        why = judge(program, script)
        passed, failed = passed + (not why), failed + bool(why)
        for line in why:
            print(f"FAILED {what} of {name}: {line}")
    with ThreadPoolExecutor(os.cpu_count()) as pool:
        seeds = range(0 if words.only else words.deep)
        for seed, why in zip(seeds, pool.map(lambda seed: deeply(program, seed), seeds)):
            passed, failed = passed + (not why), failed + bool(why)
            for line in why:
                print(f"FAILED dump of the random database {seed}: {line}")
    why = refused(program)
    passed, failed = passed + (not why), failed + bool(why)
    for line in why:
        print(f"FAILED dump with names in other places: {line}")
    print(f"{passed} passed, {failed} failed")
    return int(failed > 0)


if __name__ == "__main__":
    sys.exit(main())
