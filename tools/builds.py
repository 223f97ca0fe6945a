"""What a build is called: its version, whether it is proved, and the sources and the kit that it was made of.

A program can't know these, so the build writes them into it. The constant SIGNED of crates/iv_program/src/version.rt is a line with room
behind it; here it is found in the program and replaced by a line of the same length. Nothing else of the program changes.
"""
import hashlib
import os
import re
import subprocess
import sys
from pathlib import Path

sys.path.insert(0, os.path.dirname(os.path.realpath(__file__)))
import old_glibc
import repository

DIST = Path(repository.ROOT, "dist")
KINDS = (".rt", ".antt")
PARTS = ("src", "specs", "proofs")


def version():
    """The version that stands in the file VERSION."""
    return Path(repository.ROOT, "VERSION").read_text("utf-8").strip()


def identity():
    """The kit's name and that of its logic."""
    return Path(repository.kit("KIT-ID")).read_text("utf-8").strip()


def names(crate):
    """The crate and those below it, in order."""
    return sorted(repository.below([crate], repository.crates()))


def sources(crate):
    """The sum of all files that a proof of the crate reads in this repository, one behind the other in the order of their paths."""
    found = [
        os.path.relpath(os.path.join(place, file), repository.ROOT)
        for each in names(crate)
        for part in PARTS
        for place, _, files in os.walk(os.path.join(repository.folder(each), part))
        for file in files
        if file.endswith(KINDS)
    ]
    total = hashlib.sha256()
    for path in sorted(found, key=os.fsencode):
        total.update(Path(repository.ROOT, path).read_bytes())
    return total.hexdigest()


def commit():
    """The commit of a checkout whose crates are as they were committed; none elsewhere."""
    def told(*words):
        done = subprocess.run(["git", "-C", repository.ROOT, *words], stdout=subprocess.PIPE, stderr=subprocess.DEVNULL, text=True, check=False)
        return done.stdout.strip() if done.returncode == 0 else None

    try:
        return told("rev-parse", "--short=12", "HEAD") if told("status", "--porcelain", "--", "crates", "crates.txt") == "" else None
    except FileNotFoundError:
        return None


def line(proved, crate, its_commit=None):
    """What `--version` tells after the program's name."""
    origin = f"commit {its_commit}" if its_commit else f"sources {sources(crate)[:12]}"
    return f"{version()} ({proved}; {origin}; {identity()})"


def place_for_line():
    """The text that a build replaces: the constant of the sources."""
    text = Path(repository.folder("iv_program"), "src", "version.rt").read_text("utf-8")
    return re.search(r'"([^"]*)"', text)[1].encode()


def sign(program, text):
    """Writes the line into the program at this path."""
    place, code = place_for_line(), Path(program).read_bytes()
    if code.count(place) != 1 or len(text.encode()) > len(place):
        raise SystemExit(f"{program}: the place for its version is there {code.count(place)} times, with room for {len(place)} bytes")
    Path(program).write_bytes(code.replace(place, text.encode().ljust(len(place))))


def built():
    """What dist/BUILT says, by its words; empty if it isn't there."""
    if not (DIST / "BUILT").exists():
        return {}
    return dict(entry.split(" ", 1) for entry in (DIST / "BUILT").read_text("utf-8").splitlines() if " " in entry)


def is_of_these_sources():
    """Whether the program in dist was made of the sources that are here."""
    return built().get("sources") == sources(repository.PROGRAM)


def stripped(program, to):
    """Copies a program without the names of its functions."""
    subprocess.run(["strip", "--strip-all", "-o", str(to), str(program)], check=True)


def ready(program, to, its_commit=None):
    """Makes of the program that `rt` built the one that users get: stripped, for old systems too, and signed."""
    stripped(program, to)
    old_glibc.bind(to)
    sign(to, line("proved", repository.PROGRAM, its_commit))
    os.chmod(to, 0o755)


def hand_out(program):
    """Puts the program into dist, with what it was made of."""
    DIST.mkdir(exist_ok=True)
    ready(program, DIST / "sqlkeep")
    entries = {
        "version": version(),
        "kit": identity(),
        "sources": sources(repository.PROGRAM),
        "program": hashlib.sha256((DIST / "sqlkeep").read_bytes()).hexdigest(),
        "crates": " ".join(names(repository.PROGRAM)),
    }
    (DIST / "BUILT").write_text("".join(f"{word} {text}\n" for word, text in entries.items()), "utf-8")
