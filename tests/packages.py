#!/usr/bin/env python3
"""Installs the library below a folder of its own, and builds and runs the programs of the pages for C, C++ and Rust there, by the commands
of the pages, with an empty home folder.

  tests/packages.py [--unproved]

It installs what ./build and ./build --library left in out/, or with --unproved what they left in out/unproved. The last line is
`N passed, N failed, N skipped`; what needs a program that isn't here is skipped, and the line says which package has it."""
import argparse
import functools
import os
import re
import shutil
import subprocess
import sys
import tempfile
from pathlib import Path

import hostile_texts

ROOT = Path(__file__).resolve().parent.parent
WARNINGS = ["-Wall", "-Wextra", "-Wpedantic", "-Wshadow", "-Wconversion", "-Werror"]

# What the examples of parameters print, in each language.
PARAMETERS = """AUTHOR: ID INTEGER NAME VARCHAR(40)
BOOK: TITLE VARCHAR(40) AUTHOR INTEGER
title: x'); DELETE FROM author; --
"""


# So many statements with hostile texts, of which more than 2,000 are refused.
HOSTILE = 2600


class Skipped(Exception):
    """A test that can't be made here; the text names the package that it wants."""


def need(program, package):
    if shutil.which(program) is None:
        raise Skipped(f"apt-get install {package}")


class Place:
    """An empty home folder with an installation, and a folder for each program."""

    def __init__(self, folder, words):
        self.home, self.prefix = folder / "home", folder / "installed"
        self.home.mkdir()
        self.settings = {
            "PATH": os.environ["PATH"], "HOME": str(self.home), "LANG": "C.UTF-8", "PKG_CONFIG_PATH": str(self.prefix / "lib/pkgconfig"),
            "CARGO_HOME": str(self.home / "cargo"), "CMAKE_PREFIX_PATH": str(self.prefix),
        }
        # rustup looks for its toolchains below the home folder.
        rustup = os.environ.get("RUSTUP_HOME", os.path.expanduser("~/.rustup"))
        if os.path.isdir(rustup):
            self.settings["RUSTUP_HOME"] = rustup
        self.run(ROOT, "./install", "--prefix", self.prefix, *words)

    def run(self, folder, *words):
        """Runs a command that has to end well, and gives what it printed."""
        return self.answer(folder, *words).decode()

    def answer(self, folder, *words, given=b""):
        done = subprocess.run([str(word) for word in words], cwd=folder, input=given, capture_output=True, env=self.settings, check=False)
        assert done.returncode == 0, f"{' '.join(map(str, words))}: {(done.stdout + done.stderr).decode(errors='replace')[-2000:]}"
        return done.stdout

    @functools.cached_property
    def hostile(self):
        """Statements with texts that look like lines of an account, and the reasons of each by the program's JSON."""
        texts = hostile_texts.statements(1, HOSTILE)
        wanted = list(hostile_texts.reasons(self.prefix / "bin/sqlkeep", texts))
        assert sum(each is not None for each in wanted) >= 2000, "most of the statements are to be refused"
        return texts, wanted

    def folder(self, name):
        made = self.home / name
        made.mkdir()
        return made


def blocks(page, language):
    """The blocks of a page in a language."""
    text = (ROOT / "docs/library" / page).read_text("utf-8")
    return re.findall(rf"^```{language}\n(.*?)^```$", text, re.M | re.S)


def flags(place):
    return place.run(ROOT, "pkg-config", "--cflags", "--libs", "sqlkeep").split()


def c_by_pkg_config(place):
    need("pkg-config", "pkg-config")
    folder = place.folder("c")
    shutil.copy(ROOT / "examples/c/first.c", folder)
    place.run(folder, "cc", "-std=c11", "first.c", *flags(place), f"-Wl,-rpath,{place.prefix}/lib", "-o", "first")
    assert "WRITTEN_BY" in place.run(folder, "./first")


def c_parameters(place):
    need("pkg-config", "pkg-config")
    folder = place.folder("parameters")
    shutil.copy(ROOT / "examples/c/parameters.c", folder)
    place.run(folder, "cc", "-std=c11", *WARNINGS, "parameters.c", *flags(place), f"-Wl,-rpath,{place.prefix}/lib", "-o", "parameters")
    assert place.run(folder, "./parameters") == PARAMETERS


def c_words_of_statuses(place):
    """The header has each status of the library, each has words of its own, and no other number has any."""
    folder = place.folder("statuses")
    header = (ROOT / "include/sqlkeep.h").read_text("utf-8")
    statuses = dict(re.findall(r"^    SQLKEEP_(\w+) = (\d+),?$", re.search(r"enum sqlkeep_status \{(.*?)\n\};", header, re.S)[1], re.M))
    library = dict(re.findall(r"^pub const (\w+): u32 = (\d+);$", (ROOT / "crates/iv_shown/src/status.rt").read_text("utf-8"), re.M))
    assert {**library, "NO_HANDLE": "8"} == statuses and sorted(map(int, statuses.values())) == list(range(len(statuses))), (library, statuses)
    (folder / "statuses.c").write_text(f"""#include <sqlkeep.h>
#include <stdio.h>
int main(void) {{
    for (uint32_t status = 0; status <= {len(statuses)}; status++) puts(sqlkeep_status_text(status));
}}
""")
    place.run(folder, "cc", "-std=c11", *WARNINGS, "-I", place.prefix / "include", "statuses.c", place.prefix / "lib/libsqlkeep.a", "-o", "statuses")
    *words, none = place.run(folder, "./statuses").splitlines()
    assert none == "unknown status" and none not in words and len(set(words)) == len(statuses), words


def unlike(place, answer):
    """Raises where a program answers other reasons than the program's JSON has."""
    texts, wanted = place.hostile
    found = [each.split(b"\xfe") for each in answer.removesuffix(b"\xff").split(b"\xff")]
    for text, want, got in zip(texts, wanted, found):
        expected = [b"accepted"] if want is None else [b"refused", *(reason.encode() for reason in want)]
        assert got == expected, f"{text!r}: {got}, and not {expected}"
    assert len(found) == len(texts)


def hostile_input(place):
    return b"".join(text.encode() + b"\xff" for text in place.hostile[0])


def cpp_reasons(place):
    """The reasons of more than 2,000 refusals, whatever texts are in them."""
    folder = place.folder("cpp_reasons")
    place.run(folder, "c++", "-std=c++17", *WARNINGS, "-I", place.prefix / "include", ROOT / "tests/cpp_reasons.cpp", place.prefix / "lib/libsqlkeep.a", "-o", "reasons")
    unlike(place, place.answer(folder, "./reasons", given=hostile_input(place)))


def cpp_of_the_page(place):
    need("pkg-config", "pkg-config")
    folder = place.folder("cpp")
    (folder / "first.cpp").write_text(blocks("cpp.md", "cpp")[0])
    for standard in ("c++17", "c++20"):
        place.run(folder, "c++", f"-std={standard}", *WARNINGS, "first.cpp", *flags(place), f"-Wl,-rpath,{place.prefix}/lib", "-o", "first")
        assert place.run(folder, "./first") == blocks("cpp.md", "text")[0]


def cpp_by_cmake(place):
    need("cmake", "cmake")
    folder = place.folder("cmake")
    (folder / "first.cpp").write_text(blocks("cpp.md", "cpp")[0])
    for number, target in enumerate(("sqlkeep::static", "sqlkeep::sqlkeep")):
        (folder / "CMakeLists.txt").write_text(blocks("cpp.md", "cmake")[0].replace("sqlkeep::static", target))
        place.run(folder, "cmake", "-S", ".", "-B", f"build{number}")
        place.run(folder, "cmake", "--build", f"build{number}")
        assert place.run(folder, f"build{number}/first") == blocks("cpp.md", "text")[0]


def cpp_sessions(place):
    folder = place.folder("sessions")
    for standard in ("c++17", "c++20"):
        place.run(folder, "c++", f"-std={standard}", *WARNINGS, "-I", place.prefix / "include", ROOT / "tests/cpp_sessions.cpp", place.prefix / "lib/libsqlkeep.a", "-o", "sessions")
        place.run(folder, "./sessions")
    if shutil.which("valgrind"):
        place.run(folder, "valgrind", "-q", "--leak-check=full", "--error-exitcode=99", "./sessions")


def crate(place):
    """A copy of the crate, so that nothing is written to the repository."""
    need("cargo", "cargo")
    copy = place.home / "bindings"
    if not copy.exists():
        shutil.copytree(ROOT / "bindings/rust", copy, ignore=shutil.ignore_patterns("target", "Cargo.lock"))
    return copy


def rust_of_the_page(place):
    there = crate(place)
    place.run(place.home, "cargo", "new", "--vcs", "none", "first")
    place.run(place.home / "first", "cargo", "add", "--offline", "sqlkeep", "--path", there)
    (place.home / "first/src/main.rs").write_text(blocks("rust.md", "rust")[0])
    assert place.run(place.home / "first", "cargo", "run", "--offline", "--quiet") == blocks("rust.md", "text")[0]


def rust_tests(place):
    place.run(crate(place), "cargo", "test", "--offline", "--quiet")


def rust_reasons(place):
    """The same through the crate."""
    there = crate(place)
    (there / "examples").mkdir(exist_ok=True)
    shutil.copy(ROOT / "tests/rust_reasons.rs", there / "examples/reasons.rs")
    unlike(place, place.answer(there, "cargo", "run", "--offline", "--quiet", "--example", "reasons", given=hostile_input(place)))


def rust_parameters(place):
    assert place.run(crate(place), "cargo", "run", "--offline", "--quiet", "--example", "parameters") == PARAMETERS


def rust_is_clean(place):
    there = crate(place)
    place.settings["RUSTDOCFLAGS"] = "-D warnings"
    place.run(there, "cargo", "doc", "--offline", "--no-deps")
    need("cargo-clippy", "rust-clippy")
    place.run(there, "cargo", "clippy", "--offline", "--all-targets", "--", "-D", "warnings")


TESTS = (
    c_by_pkg_config, c_parameters, c_words_of_statuses, cpp_of_the_page, cpp_by_cmake, cpp_sessions, cpp_reasons, rust_of_the_page, rust_parameters, rust_tests, rust_reasons, rust_is_clean,
)


def main():
    parser = argparse.ArgumentParser()
    parser.add_argument("--unproved", action="store_true")
    words = ["--unproved"] if parser.parse_args().unproved else []
    passed = failed = skipped = 0
    with tempfile.TemporaryDirectory(prefix="packages-") as folder:
        place = Place(Path(folder), words)
        for test in TESTS:
            name = test.__name__.replace("_", " ")
            try:
                test(place)
                passed += 1
            except Skipped as why:
                skipped += 1
                print(f"skipped {name}: {why}", flush=True)
            except AssertionError as why:
                failed += 1
                print(f"FAILED {name}: {why}", flush=True)
    print(f"{passed} passed, {failed} failed, {skipped} skipped")
    return 1 if failed else 0


if __name__ == "__main__":
    sys.exit(main())
