"""The crates of this repository, and how they are proved together.

    crates.py build                          proves the program and all below it, and builds it into out/
    crates.py build --dist                   does so, and puts it into dist/ with what it was made of
    crates.py build --library                proves the library for C and all below it, and puts it into out/ with its header
    crates.py build --unproved [--library] [--optimise]
                                             compiles the program or the library without proof, into out/unproved
    crates.py build --page [--unproved]      makes sqlkeep.html, sqlkeep.wasm and sqlkeep.mjs of the library, for browsers and for node
    crates.py library                        makes out/ over what `rt ci` left: the program that it built, and the library for C in the time of its own proof
    crates.py check CRATE.. [--above] [--edits] [--jobs N]
                                             proves these crates, and with --above those that depend on them

Progress goes to standard error. A step that fails ends the work with status 1.
"""
import os
import subprocess
import sys
import time

sys.path.insert(0, os.path.dirname(os.path.realpath(__file__)))
import builds
import programs
import wheel
from libraries import library_over_gate, put_together
from repository import LIBRARY, PROGRAM, ROOT, above, below, crates, folder, say
from sandboxes import prove


def run(crate, words):
    """Runs rt in a crate's folder, and returns its status, its output and the seconds that it took."""
    began = time.monotonic()
    ran = subprocess.run(["rt", *words], cwd=folder(crate), stdin=subprocess.DEVNULL, stdout=subprocess.PIPE, stderr=subprocess.STDOUT, text=True, errors="replace", check=False)
    return ran.returncode, ran.stdout, time.monotonic() - began


def put_program():
    """Puts the program that `rt` built into out/; whether it is there."""
    if not programs.LINKED.exists():
        say(f"{PROGRAM}: not built")
        return False
    os.makedirs(os.path.join(ROOT, "out"), exist_ok=True)
    builds.ready(programs.LINKED, os.path.join(ROOT, "out", PROGRAM), builds.commit())
    return True


def build(words):
    """Proves the program and builds it into out/; with --dist into dist/ too."""
    began = time.monotonic()
    named = crates()
    if not prove(below([PROGRAM], named), named, os.cpu_count() or 1):
        return 1
    say(f"{PROGRAM}: proved; compiling it")
    if not programs.make() or not put_program():
        return 1
    if "--dist" in words:
        builds.hand_out(programs.LINKED)
    say(f"{PROGRAM}: proved and built in {time.monotonic() - began:.0f} s")
    return 0


def build_library():
    began = time.monotonic()
    named = crates()
    if not prove(below([LIBRARY], named), named, os.cpu_count() or 1):
        return 1
    archive = os.path.join(folder(LIBRARY), "out", f"lib{LIBRARY}.a")
    status, output, _ = run(LIBRARY, ["lib"])
    if status or not os.path.exists(archive):
        say(output)
        say(f"{LIBRARY}: not built")
        return status or 1
    to = os.path.join(ROOT, "out")
    os.makedirs(to, exist_ok=True)
    put_together(archive, to)
    say(f"libsqlkeep.a, libsqlkeep.so and sqlkeep.h are in {to}: proved and built in {time.monotonic() - began:.0f} s")
    return wheel.main([to])


def build_page(words):
    """Makes the engine for browsers and node, of the proved library or of the sources."""
    named = crates()
    if "--unproved" not in words and not prove(below([LIBRARY], named), named, os.cpu_count() or 1):
        return 1
    return subprocess.run([sys.executable, os.path.join(ROOT, "tools", "page.py"), *words], check=False).returncode


def build_unproved(words):
    """Compiles the program or the library without proof, into out/unproved."""
    status = subprocess.run([sys.executable, os.path.join(ROOT, "tools", "unproved.py"), *words], check=False).returncode
    return status if status or "--library" not in words else wheel.main([os.path.join(ROOT, "out", "unproved")])


def lay_out(crate):
    """Lays out the crate's files; whether they could be read."""
    status, output, _ = run(crate, ["fmt"])
    if output.strip() or status != 0:
        say(output.rstrip())
    return status == 0


def are_refused(crate):
    """Whether the crate's edits are refused: those of must-fail one by one, those of tests/edits many in one check."""
    commands = []
    if os.path.isdir(os.path.join(folder(crate), "must-fail")):
        commands.append(["rt", "must-fail", crate])
    if os.path.isdir(os.path.join(ROOT, "tests", "edits", crate)):
        commands.append([sys.executable, os.path.join(ROOT, "tests", "edits.py"), crate])
    return all(subprocess.run(command, cwd=ROOT, stdin=subprocess.DEVNULL, stdout=sys.stderr, check=False).returncode == 0 for command in commands)


def check(words):
    named = crates()
    jobs = os.cpu_count() or 1
    if "--jobs" in words:
        at = words.index("--jobs")
        jobs = int(words[at + 1])
        del words[at : at + 2]
    wanted = [word for word in words if not word.startswith("--")]
    unknown = [word for word in words if word.startswith("--") and word not in ("--above", "--edits")]
    unknown += [crate for crate in wanted if crate not in named]
    if unknown or not wanted:
        say(f"usage: ./check CRATE.. [--above] [--edits] [--jobs N]; not known: {' '.join(unknown)}")
        return 2
    chosen = above(wanted, named) if "--above" in words else set(wanted)
    for crate in sorted(chosen):
        if not lay_out(crate):
            return 1
    if not prove(below(chosen, named), named, jobs):
        return 1
    if "--edits" in words:
        for crate in wanted:
            if not are_refused(crate):
                return 1
    return 0


def main(words):
    if words[:2] == ["build", "--page"]:
        return build_page(words[2:])
    known = {"--library", "--dist", "--unproved", "--optimise"}
    if words[:1] == ["build"] and set(words[1:]) <= known:
        options = [word for word in words[1:] if word != "--unproved"]
        if "--unproved" in words:
            return build_unproved(options)
        return build_library() if "--library" in words else build(options)
    if words == ["library"]:
        return int(not put_program()) or library_over_gate() or wheel.main([os.path.join(ROOT, "out")])
    if words[:1] == ["check"]:
        return check(words[1:])
    say(__doc__)
    return 2


if __name__ == "__main__":
    try:
        sys.exit(main(sys.argv[1:]))
    except KeyboardInterrupt:
        say("interrupted; what was proved is kept")
        sys.exit(130)
