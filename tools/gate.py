#!/usr/bin/env python3
"""Runs `rt ci` from nothing, and prints the minutes that each crate took in it, as a table for docs/proving and tools/minutes.txt.

  tools/gate.py [--table FILE] [COMMAND WORD..]

Another command may be named in place of `rt ci`, or `rt ci --anew` where the kit keeps what earlier runs proved. Twice a second it looks
at the command's processes that name a crate, and adds their processor time by crate and by what they did: the proof with the library or
program that it makes, the same of its tests, and its must-fail edits. It also takes how long each crate's proof took by the clock, where a
proof may have had several processors, and prints the longest path: a chain of crates of which each depends on the one before it. Other work
on the machine lengthens all of these, so let nothing else run. The table goes to standard output and the output of the command to standard
error; with --table the table goes to the file and the output of the command to standard output. The status is the command's.
"""
import contextlib
import os
import subprocess
import sys
import time

import repository

TICKS = os.sysconf("SC_CLK_TCK")
STEPS = ["proof", "tests", "edits"]


def step_of(words, place):
    """What a process does for its crate: one of STEPS."""
    if "--test" in words:
        return "tests"
    return "edits" if os.sep + "crates" + os.sep not in place else "proof"


def seconds(process):
    """The session of a process, when it began, and the processor seconds that it took itself."""
    with open(f"/proc/{process}/stat", encoding="utf-8", errors="replace") as file:
        fields = file.read().rpartition(")")[2].split()
    return int(fields[3]), fields[19], (int(fields[11]) + int(fields[12])) / TICKS


def look(session, seen, clock):
    """Notes the time of each process of a session that names a crate, under its number and beginning, and when a crate's step was first
    and last seen."""
    for process in filter(str.isdigit, os.listdir("/proc")):
        try:
            its_session, began, took = seconds(process)
            if its_session != session:
                continue
            key = process, began
            if key not in seen:
                with open(f"/proc/{process}/cmdline", encoding="utf-8", errors="replace") as file:
                    words = file.read().split("\0")
                if "--crate-name" in words:
                    crate = words[words.index("--crate-name") + 1]
                    seen[key] = (crate, step_of(words, os.readlink(f"/proc/{process}/cwd"))), took
                else:
                    seen[key] = None, 0.0
            what = seen[key][0]
            seen[key] = what, took
            if what:
                now = time.monotonic()
                clock[what] = clock.get(what, (now, now))[0], now
        except (OSError, ValueError, IndexError):
            # It has ended.
            continue


def table(seen):
    """The lines of the table, the dearest crate first."""
    sums = {}
    for what, took in seen.values():
        if what:
            crate, step = what
            sums.setdefault(crate, dict.fromkeys(STEPS, 0.0))[step] += took / 60
    rows = sorted(sums.items(), key=lambda row: -sum(row[1].values()))
    total = {step: sum(steps[step] for _, steps in rows) for step in STEPS}
    yield "| Crate | " + " | ".join(step.capitalize() for step in STEPS) + " | In all |"
    yield "|---" * (len(STEPS) + 2) + "|"
    for crate, steps in [*rows, ("all", total)]:
        yield f"| `{crate}` | " + " | ".join(f"{steps[step]:.1f}" for step in STEPS) + f" | {sum(steps.values()):.1f} |"


def longest_path(clock):
    """The chain of crates whose proofs took longest by the clock, one after the other, with the minutes of each; the last one's tests
    may take the place of its proof."""
    named = repository.crates()
    took = {what: (last - first) / 60 for what, (first, last) in clock.items()}
    best = {}

    def chain(crate):
        if crate not in best:
            under = max(map(chain, named[crate]), key=minutes, default=[])
            best[crate] = [*under, (crate, took.get((crate, "proof"), 0.0))]
        return best[crate]

    def minutes(links):
        return sum(link for _, link in links)

    ends = [[*chain(crate)[:-1], (crate, max(took.get((crate, step), 0.0) for step in ("proof", "tests")))] for crate in named]
    return max(ends, key=minutes)


def whole_gate():
    """The command that runs the gate from nothing with this kit."""
    says = subprocess.run(["rt", "help"], stdout=subprocess.PIPE, stderr=subprocess.STDOUT, text=True, check=False).stdout
    return ["rt", "ci", "--anew"] if "--anew" in says else ["rt", "ci"]


def told(seen, clock, began):
    """The lines of the table, of the longest path, and of the whole."""
    yield from table(seen)
    path = longest_path(clock)
    yield "Longest path by the clock: " + ", ".join(f"{crate} {took:.1f}" for crate, took in path) + f"; {sum(took for _, took in path):.1f} minutes"
    used = os.times()
    yield f"{(used.children_user + used.children_system) / 60:.1f} processor minutes and {(time.monotonic() - began) / 60:.1f} minutes by the clock"


def main():
    words, file = sys.argv[1:], None
    if words[:1] == ["--table"] and len(words) > 1:
        file, words = words[1], words[2:]
    words = words or whole_gate()
    began = time.monotonic()
    seen, clock = {}, {}
    with subprocess.Popen(words, stdin=subprocess.DEVNULL, stdout=sys.stdout if file else sys.stderr, start_new_session=True) as command:
        while command.poll() is None:
            look(command.pid, seen, clock)
            time.sleep(0.5)
    with open(file, "w", encoding="utf-8") if file else contextlib.nullcontext(sys.stdout) as to:
        for line in told(seen, clock, began):
            print(line, file=to)
    return command.returncode


if __name__ == "__main__":
    sys.exit(main())
