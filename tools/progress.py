"""Says how far a proof of many crates is: in one line that is written over on a terminal, and in a line for each crate elsewhere.

The minutes that are left are reckoned from what each crate took when it was proved last. That is kept in out/minutes; for a crate that was
never proved here it is taken from tools/minutes.txt, and is a third of a minute for one that isn't in it.
"""
import math
import os
import re
import sys
import time
from pathlib import Path

from repository import ROOT

KEPT = Path(ROOT, "out", "minutes")
MEASURED = Path(ROOT, "tools", "minutes.txt")
USUAL = 1 / 3


def minutes():
    """The processor minutes of each crate's last proof."""
    return {crate: float(taken) for file in (MEASURED, KEPT) if file.exists() for crate, taken in re.findall(r"^(\w+) ([0-9.]+)$", file.read_text("utf-8"), re.M)}


class Progress:
    """How far the proof of some crates is, with so many processors."""

    def __init__(self, wanted, named, jobs):
        self.began, self.jobs, self.named = time.monotonic(), jobs, named
        self.all, self.done, self.running = len(wanted), set(), set()
        known = minutes()
        self.minutes = {crate: known.get(crate, USUAL) for crate in wanted}
        self.is_shown = sys.stderr.isatty()

    def proved_before(self, crates):
        self.done |= crates
        if crates:
            self.say(f"{len(crates)} of {self.all} crates are proved over these sources already")

    def begun(self, crate):
        self.running.add(crate)

    def ended(self, crate, seconds, used):
        """Notes what the crate's proof took; on a terminal the line at the foot is all that is written."""
        self.running.discard(crate)
        self.done.add(crate)
        self.minutes[crate] = used / 60
        self.keep()
        if not self.is_shown:
            self.say(f"{crate}: proved, {seconds:.0f} s, {used / 60:.1f} processor minutes; {self.far()}")

    def keep(self):
        KEPT.parent.mkdir(exist_ok=True)
        known = {**minutes(), **{crate: self.minutes[crate] for crate in self.done}}
        KEPT.write_text("".join(f"{crate} {taken:.2f}\n" for crate, taken in sorted(known.items())), "utf-8")

    def left(self):
        """About how many minutes are left: no fewer than those of the heaviest chain of crates."""
        chains = {}

        def chain(crate):
            if crate not in chains:
                above = [other for other in self.minutes if crate in self.named[other]]
                own = 0 if crate in self.done else self.minutes[crate]
                chains[crate] = own + max(map(chain, above), default=0)
            return chains[crate]

        whole = sum(taken for crate, taken in self.minutes.items() if crate not in self.done) / self.jobs
        return max([whole, *map(chain, self.minutes)])

    def far(self):
        gone = (time.monotonic() - self.began) / 60
        return f"{len(self.done)} of {self.all} crates proved, {gone:.0f} min gone, about {math.ceil(self.left())} left"

    def show(self):
        """Writes the line at the foot over the last one."""
        if self.is_shown:
            line = f"{self.far()}: {', '.join(sorted(self.running))}"
            width = os.get_terminal_size(sys.stderr.fileno()).columns - 1
            sys.stderr.write("\r" + line[:width].ljust(width))
            sys.stderr.flush()

    def say(self, line):
        """Writes a line that stays."""
        self.clear()
        print(line, file=sys.stderr, flush=True)

    def clear(self):
        """Takes the line at the foot away."""
        if self.is_shown:
            width = os.get_terminal_size(sys.stderr.fileno()).columns - 1
            sys.stderr.write("\r" + " " * width + "\r")
            sys.stderr.flush()
