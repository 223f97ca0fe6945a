#!/usr/bin/env python3
"""Runs suites of the Python package over an extension that is compiled with AddressSanitizer and UndefinedBehaviorSanitizer: with this Python,
and with Debian's debug build of Python, which counts references and tests its own invariants.

  tests/python_sanitizers.py --library FOLDER

FOLDER is out or out/unproved, with libsqlkeep.a. The last line is `N passed, N failed, N skipped`."""
import argparse
import os
import re
import shutil
import subprocess
import sys
import tempfile
from pathlib import Path

sys.dont_write_bytecode = True
ROOT = Path(__file__).resolve().parent.parent
sys.path.insert(0, str(ROOT / "tools"))
import wheel

SUITES = ["test_extension", "test_reentered", "test_results"]
FLAGS = ["-std=c11", "-g", "-O1", "-fPIC", "-shared", "-fno-omit-frame-pointer", "-fsanitize=address,undefined", "-fno-sanitize-recover=all", "-Wall", "-Wextra", "-Werror"]
DEBUG = "/usr/bin/python3-dbg"
# Python itself keeps some memory at its end.
ENVIRONMENT = {"ASAN_OPTIONS": "detect_leaks=0:allocator_may_return_null=1", "PYTHONMALLOC": "malloc", "PYTHONDONTWRITEBYTECODE": "1"}


class Skipped(Exception):
    """What can't be tried here; the text names the package that it wants."""


def sanitizer(cc):
    """The path of AddressSanitizer's library."""
    path = subprocess.run([cc, "-print-file-name=libasan.so"], capture_output=True, text=True, check=True).stdout.strip() if shutil.which(cc) else ""
    if not os.path.isabs(path):
        raise Skipped("apt-get install gcc")
    return os.path.realpath(path)


def headers_of(python):
    """The folder of a Python's headers."""
    told = subprocess.run([python, "-c", "import sysconfig; print(sysconfig.get_paths()['include'])"], capture_output=True, text=True, check=True).stdout.strip()
    if not Path(told, "Python.h").exists():
        raise Skipped("apt-get install python3-dbg" if python == DEBUG else "apt-get install python3-dev")
    return told


def lay_out(library, cc, python, folder):
    """Lays out the package with a sanitized extension for a Python: its debug build counts references by other headers."""
    sources = [*map(str, sorted((wheel.PACKAGE / "extension").glob("*.c"))), str(Path(library, "libsqlkeep.a"))]
    words = [cc, *FLAGS, "-I", headers_of(python), "-I", str(ROOT / "include"), *sources, "-o", str(folder / "sqlkeep" / "_engine.abi3.so")]
    shutil.copytree(wheel.PACKAGE / "src" / "sqlkeep", folder / "sqlkeep")
    (folder / "sqlkeep" / "_build.py").write_text('VERSION = "sanitized"\nPROVED = False\n', "utf-8")
    done = subprocess.run(words, capture_output=True, text=True, check=False)
    assert done.returncode == 0, done.stderr


def suite(python, name, folder, preloaded):
    """Runs a suite: how many tests passed, failed and were skipped."""
    env = {"PATH": os.environ["PATH"], "LANG": "C.UTF-8", "SQLKEEP_ROOT": str(ROOT), "PYTHONPATH": str(folder), "LD_PRELOAD": preloaded, **ENVIRONMENT}
    done = subprocess.run([python, "-m", "unittest", name], cwd=wheel.PACKAGE / "tests", env=env, capture_output=True, text=True, timeout=600, check=False)
    ran = re.search(r"^Ran (\d+) tests?", done.stderr, re.M)
    failed, skipped = (sum(map(int, re.findall(rf"(?:{words})=(\d+)", done.stderr))) for words in ("failures|errors", "skipped"))
    if done.returncode or ran is None:
        print(f"FAILED {name} with {python}:\n{done.stderr[-6000:]}")
        return 0, max(failed, 1), skipped
    return int(ran[1]) - skipped, 0, skipped


def suites(library, python):
    """Runs the suites with a Python: how many tests passed, failed and were skipped."""
    cc, counts = os.environ.get("CC", "cc"), [0, 0, 0]
    if not os.path.exists(python):
        raise Skipped("apt-get install python3-dbg")
    preloaded = sanitizer(cc)
    with tempfile.TemporaryDirectory(prefix="python-sanitizers-") as folder:
        lay_out(library, cc, python, Path(folder))
        for name in SUITES:
            counts = [sum(pair) for pair in zip(counts, suite(python, name, folder, preloaded))]
    return counts


def main():
    parser = argparse.ArgumentParser()
    parser.add_argument("--library", required=True)
    given = parser.parse_args()
    counts = [0, 0, 0]
    for python in (sys.executable, DEBUG):
        try:
            if not Path(given.library, "libsqlkeep.a").exists():
                raise Skipped("./build --library makes it")
            found = suites(given.library, python)
        except Skipped as wanted:
            print(f"the sanitized extension with {python}: skipped; {wanted}")
            found = [0, 0, 1]
        except (AssertionError, OSError, subprocess.SubprocessError) as why:
            print(f"FAILED the sanitized extension with {python}: {why}")
            found = [0, 1, 0]
        counts = [sum(pair) for pair in zip(counts, found)]
    print(f"{counts[0]} passed, {counts[1]} failed, {counts[2]} skipped")
    return int(counts[1] > 0)


if __name__ == "__main__":
    sys.exit(main())
