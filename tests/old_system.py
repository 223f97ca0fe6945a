#!/usr/bin/env python3
"""Runs the scripts over a program in an old Debian, to see that it needs nothing newer there.

  tests/old_system.py [--program dist/sqlkeep] [--suite bullseye] [--keep FOLDER]

It lays the system out by debootstrap, which takes two minutes and has to be root, so it is no part of ./test. --suite is the oldest that the
package archive has; its C library is told. With --keep the folder stays for the next run. The last line is `N passed, N failed, N skipped`."""
import argparse
import os
import shutil
import subprocess
import sys
import tempfile
from pathlib import Path

HERE = Path(__file__).resolve().parent


def lay_out(suite, folder):
    """The system in this folder; whether it is there."""
    if (folder / "bin/sh").exists():
        return True
    return subprocess.run(["debootstrap", "--variant=minbase", suite, str(folder)], stdout=subprocess.DEVNULL, check=False).returncode == 0


def tried(program, folder):
    """Copies the program into the system, and runs the scripts over it there."""
    shutil.copy2(program, folder / "tmp" / "sqlkeep")
    library = subprocess.run(["chroot", str(folder), "/lib/x86_64-linux-gnu/libc.so.6"], stdout=subprocess.PIPE, text=True, check=False).stdout
    print(library.splitlines()[0])
    starter = folder / "tmp" / "start"
    starter.write_text(f'#!/bin/sh\nexec chroot {folder} /tmp/sqlkeep "$@"\n')
    starter.chmod(0o755)
    done = subprocess.run([sys.executable, HERE / "run.py", "--only", "statements", "--program", starter], stdout=subprocess.PIPE, text=True, check=False)
    return done.stdout.splitlines()[-1], done.returncode


def main():
    parser = argparse.ArgumentParser()
    parser.add_argument("--program", type=Path, default=HERE.parent / "dist" / "sqlkeep")
    parser.add_argument("--suite", default="bullseye")
    parser.add_argument("--keep", type=Path)
    words = parser.parse_args()
    if shutil.which("debootstrap") is None or os.geteuid() != 0:
        print("skipped; apt-get install debootstrap, and run it as root\n0 passed, 0 failed, 1 skipped")
        return 0
    with tempfile.TemporaryDirectory(prefix="old-system-") as room:
        folder = words.keep or Path(room, "root")
        if not lay_out(words.suite, folder):
            print(f"skipped; the archive has no {words.suite}\n0 passed, 0 failed, 1 skipped")
            return 0
        line, status = tried(words.program, folder.resolve())
    print(line)
    return status


if __name__ == "__main__":
    sys.exit(main())
