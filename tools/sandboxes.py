"""Proves crates side by side, each in a sandbox of its own.

A check locks the folders of its crate and of all below it, so two checks in one checkout wait for each other. A sandbox
is a folder with a copy of a crate and of those below it. The work kept for those below is shared by hard links; that of
the crate itself moves into the sandbox, and back when the check has ended. The libraries of the crates below that the
check had to build go to the checkout too, so that each is built once. A crate that was proved here is proved again only
where its sources, those of a crate below it or the kit have changed."""
import contextlib
import fcntl
import functools
import hashlib
import os
import shutil
import signal
import subprocess
import tempfile
import threading
import time
from concurrent.futures import FIRST_COMPLETED, ThreadPoolExecutor, wait

import progress
from repository import ROOT, below, folder

# What a check makes anew for its own crate alone, so that sandboxes share that of the crates below: compiled modules, and
# the files of libraries.
MODULE, LIBRARY = ".oantt", os.path.join("out", "rlib")

# Holds the mark of what a crate was proved over, in the folder of its kept work.
PROVED = os.path.join("out", "proved")

HANDING_OVER = threading.Lock()


def place():
    """The folder that sandboxes are made in: on the file system of the checkout, and no part of it."""
    os.makedirs(os.path.join(ROOT, "out"), exist_ok=True)
    return os.path.join(ROOT, "out")


def copy_or_link(source, target):
    """Links a compiled module or a library, and copies any other file."""
    if source.endswith(MODULE) or os.sep + LIBRARY + os.sep in source:
        os.link(source, target)
        return target
    return shutil.copy2(source, target)


def furnish(sandbox, crate, names):
    """Lays out a sandbox for a crate and the crates below it, and gives the crate's folder there, which has no kept work."""
    os.makedirs(os.path.join(sandbox, "crates"))
    with open(os.path.join(ROOT, "crates.txt"), encoding="utf-8") as lines:
        # A static library has the word staticlib after its name.
        kept = [line for line in lines if line.split(":")[0].removesuffix(" staticlib") in names]
    with open(os.path.join(sandbox, "crates.txt"), "w", encoding="utf-8") as file:
        file.writelines(kept)
    shutil.copy2(os.path.join(ROOT, "HANDLES"), sandbox)
    for name in names:
        leave = shutil.ignore_patterns("out") if name == crate else None
        shutil.copytree(folder(name), os.path.join(sandbox, "crates", name), ignore=leave, copy_function=copy_or_link)
    return os.path.join(sandbox, "crates", crate)


def stamp(crate):
    """What the library in a crate's folder was built from; none where there is no library."""
    path = os.path.join(crate, LIBRARY, "stamp")
    if not os.path.exists(path):
        return None
    with open(path, encoding="utf-8") as file:
        return file.read()


def hand_over(sandbox, names):
    """Moves the libraries that were built in a sandbox to the checkout, where it has none of the same sources."""
    with HANDING_OVER:
        for name in names:
            there, here = os.path.join(sandbox, "crates", name), folder(name)
            if stamp(there) not in (None, stamp(here)):
                shutil.rmtree(os.path.join(here, LIBRARY), ignore_errors=True)
                shutil.move(os.path.join(there, LIBRARY), os.path.join(here, LIBRARY))


@functools.lru_cache(maxsize=None)
def kit():
    """The kit's version."""
    return subprocess.run(["rt", "version"], capture_output=True, check=True).stdout


def mark(names, named):
    """A digest of the sources of these crates, and of the kit."""
    digest = hashlib.sha256(kit())
    for name in sorted(names):
        digest.update(f"{name}: {named[name]}\n".encode())
        for place, folders, files in os.walk(folder(name)):
            folders[:] = sorted(part for part in folders if part in ("src", "specs", "proofs") or place != folder(name))
            for file in sorted(file for file in files if file.endswith((".rt", ".antt"))):
                with open(os.path.join(place, file), "rb") as source:
                    digest.update(os.path.join(place, file)[len(ROOT) :].encode() + b"\0" + source.read() + b"\0")
    return digest.hexdigest()


def was_proved(crate, its_mark):
    """Whether a check proved the crate over these sources and its work is kept."""
    try:
        with open(os.path.join(folder(crate), PROVED), encoding="utf-8") as file:
            return file.read() == its_mark
    except FileNotFoundError:
        return False


def weights(wanted, named):
    """For each crate the bytes of its files and of those of the heaviest chain of crates above it."""

    def size(crate):
        return sum(os.path.getsize(os.path.join(place, file)) for part in ("src", "specs", "proofs") for place, _, files in os.walk(os.path.join(folder(crate), part)) for file in files)

    found = {}

    def weight(crate):
        if crate not in found:
            above = [other for other in wanted if crate in named[other]]
            found[crate] = size(crate) + max(map(weight, above), default=0)
        return found[crate]

    return {crate: weight(crate) for crate in wanted}


def stop(child):
    """Ends a command and all processes that it started."""
    with contextlib.suppress(ProcessLookupError):
        os.killpg(child.pid, signal.SIGKILL)


def timed(words, place, until=None):
    """Runs a command, and gives its status, its output, and the processor seconds of all its processes. Where it hasn't ended at a
    time of the monotonic clock it is stopped."""
    with tempfile.TemporaryFile() as output:
        child = subprocess.Popen(words, cwd=place, stdin=subprocess.DEVNULL, stdout=output, stderr=subprocess.STDOUT, start_new_session=until is not None)
        stopper = threading.Timer(max(0.0, until - time.monotonic()), stop, [child]) if until is not None else None
        if stopper:
            stopper.start()
        _, status, used = os.wait4(child.pid, 0)
        if stopper:
            stopper.cancel()
        child.returncode = os.waitstatus_to_exitcode(status)
        output.seek(0)
        return child.returncode, output.read().decode("utf-8", "replace"), used.ru_utime + used.ru_stime


def check(sandbox, crate, names, jobs):
    """Checks a crate in a sandbox of its own, and gives the status, the output, and the seconds and processor seconds that it took."""
    began = time.monotonic()
    with HANDING_OVER:
        there = furnish(sandbox, crate, names)
    here, kept = os.path.join(folder(crate), "out"), os.path.join(there, "out")
    if os.path.exists(here):
        shutil.move(here, kept)
    try:
        status, output, used = timed(["rt", "check", "--jobs", str(jobs)], there)
    finally:
        if os.path.exists(kept):
            shutil.move(kept, here)
        hand_over(sandbox, names - {crate})
        shutil.rmtree(sandbox, ignore_errors=True)
    return status, output, time.monotonic() - began, used


def abandoned():
    """Takes away the sandboxes of a run that was killed: those that no run holds."""
    for name in os.listdir(place()):
        path = os.path.join(place(), name)
        if name.startswith("sandboxes-"):
            # A folder that has no lock is being made.
            with contextlib.suppress(FileNotFoundError, BlockingIOError), open(os.path.join(path, "lock"), encoding="utf-8") as file:
                fcntl.flock(file, fcntl.LOCK_EX | fcntl.LOCK_NB)
                shutil.rmtree(path, ignore_errors=True)


@contextlib.contextmanager
def held():
    """A folder for sandboxes that is taken away at the end."""
    abandoned()
    with tempfile.TemporaryDirectory(prefix="sandboxes-", dir=place()) as folder, open(os.path.join(folder, "lock"), "w", encoding="utf-8") as file:
        fcntl.flock(file, fcntl.LOCK_EX)
        yield folder


def note_ended(crate, ended, its_mark, shown):
    """Notes how a crate's check ended; whether it is proved."""
    status, output, seconds, used = ended.result()
    if status != 0:
        shown.say(output)
        shown.say(f"{crate}: not proved")
        return False
    # A new file: a clone whose kept work is linked to this one keeps its own mark.
    marked = os.path.join(folder(crate), PROVED)
    with open(marked + ".new", "w", encoding="utf-8") as file:
        file.write(its_mark)
    os.replace(marked + ".new", marked)
    shown.ended(crate, seconds, used)
    return True


def prove(wanted, named, jobs):
    """Proves the crates, so many at a time, each after those below it and the heaviest chain first; whether all are proved."""
    heavy, marks = weights(wanted, named), {crate: mark(below([crate], named), named) for crate in wanted}
    done, running = {crate for crate in wanted if was_proved(crate, marks[crate])}, {}
    left, proved, shown = set(wanted) - done, True, progress.Progress(wanted, named, jobs)
    shown.proved_before(done)
    with held() as sandboxes, ThreadPoolExecutor(jobs) as pool:
        while left or running:
            ready = [crate for crate in left if set(named[crate]) & set(wanted) <= done] if proved else []
            ready.sort(key=lambda crate: -heavy[crate])
            # Two jobs at least: a crate's own modules wait for one another.
            each = max(2, jobs // max(1, len(ready) + len(running)))
            for crate in ready[: jobs - len(running)]:
                left.discard(crate)
                shown.begun(crate)
                running[pool.submit(check, os.path.join(sandboxes, crate), crate, below([crate], named), each)] = crate
            if not running:
                break
            shown.show()
            for ended in wait(running, timeout=1, return_when=FIRST_COMPLETED).done:
                crate = running.pop(ended)
                if note_ended(crate, ended, marks[crate], shown):
                    done.add(crate)
                else:
                    proved = False
    shown.clear()
    return proved and not left
