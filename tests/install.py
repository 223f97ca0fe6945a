#!/usr/bin/env python3
"""Tries ./install in a folder of its own: what it puts there, a C program that finds the library by pkg-config, the pages, the
completions, that a removal takes exactly that away, and that one that fails leaves everything as it was.

  tests/install.py [--unproved]

It installs what ./build and ./build --library left in out/, or with --unproved what they left in out/unproved. The last line is
`N passed, N failed, N skipped`; what needs a program that isn't here is skipped, and the line says which package has it."""
import argparse
import os
import re
import shlex
import shutil
import subprocess
import sys
import tempfile
from pathlib import Path

from handed_out import Clone

ROOT = Path(__file__).resolve().parent.parent
FILES = {
    "bin/sqlkeep", "lib/libsqlkeep.a", "lib/libsqlkeep.so", "lib/libsqlkeep.so.0", "include/sqlkeep.h", "include/sqlkeep.hpp",
    "lib/pkgconfig/sqlkeep.pc", "lib/cmake/sqlkeep/sqlkeepConfig.cmake", "lib/cmake/sqlkeep/sqlkeepConfigVersion.cmake",
    "share/man/man1/sqlkeep.1", "share/man/man3/sqlkeep.3", "share/bash-completion/completions/sqlkeep", "share/zsh/site-functions/_sqlkeep",
    "share/doc/sqlkeep/examples/authors.sql", "share/doc/sqlkeep/examples/c/first.c", "share/sqlkeep/installed",
}
LIST = "share/sqlkeep/installed"
SCRIPT = b"CREATE TABLE t (a INT CHECK (a > 0)); INSERT INTO t VALUES (0);"
WANTED = b"1 ok\n2 refused 13 Violation T_C1 row 1\n"
# The example of the page on the library refuses the second statement for cause 13, Violation.
EXAMPLE = "statement 2 is refused: cause 13\n"


class Skipped(Exception):
    """A test that can't be made here; the text names the package that it wants."""


def run(*words, env=None, folder=ROOT, given=b""):
    return subprocess.run([str(word) for word in words], cwd=folder, input=given, capture_output=True, env={**os.environ, **(env or {})}, check=False)


def need(program, package):
    if shutil.which(program) is None:
        raise Skipped(f"apt-get install {package}")


def below(folder):
    return {str(path.relative_to(folder)) for path in Path(folder).rglob("*") if not path.is_dir() or path.is_symlink()}


def installed(prefix, words):
    """Installs, and looks at what is there."""
    done = run("./install", "--prefix", prefix, *words)
    assert done.returncode == 0, done.stderr.decode()
    missing = FILES - below(prefix)
    assert not missing, f"not installed: {missing}"
    version = (ROOT / "VERSION").read_text().strip()
    assert (prefix / "lib/libsqlkeep.so").resolve().name == f"libsqlkeep.so.{version}"
    listed = (prefix / LIST).read_text().splitlines()
    assert {line for line in listed if not line.endswith("/")} == below(prefix)


def program_runs(prefix, words):
    done = run(prefix / "bin/sqlkeep", given=SCRIPT)
    assert (done.stdout, done.returncode, done.stderr) == (WANTED, 1, b""), done
    told = run(prefix / "bin/sqlkeep", "--version").stdout.decode()
    proved = "not proved" if words else "proved"
    version = re.escape((ROOT / "VERSION").read_text().strip())
    assert re.fullmatch(rf"sqlkeep {version} \({proved}; (commit|sources) [0-9a-f]{{12}}; \S+ logic [0-9a-f]+\)\n", told), told


def found_by_pkg_config(prefix, _):
    need("pkg-config", "pkg-config")
    there = {"PKG_CONFIG_PATH": str(prefix / "lib/pkgconfig")}
    flags = run("pkg-config", "--cflags", "--libs", "sqlkeep", env=there).stdout.decode().split()
    assert run("pkg-config", "--modversion", "sqlkeep", env=there).stdout.decode() == (ROOT / "VERSION").read_text()
    source = prefix / "first.c"
    shutil.copy(prefix / "share/doc/sqlkeep/examples/c/first.c", source)
    built = run(os.environ.get("CC", "cc"), source, *flags, "-o", prefix / "first", folder=prefix)
    assert built.returncode == 0, built.stderr.decode()
    done = run(prefix / "first", env={"LD_LIBRARY_PATH": str(prefix / "lib")})
    source.unlink()
    (prefix / "first").unlink()
    assert done.returncode == 0 and b"constraint WRITTEN_BY, row 6" in done.stdout, done


def pages_open(prefix, _):
    need("man", "man-db")
    for section, word in (("1", "--explain"), ("3", "sqlkeep_execute")):
        shown = run("man", "-P", "cat", section, "sqlkeep", env={"MANPATH": str(prefix / "share/man"), "MANWIDTH": "80"})
        assert shown.returncode == 0 and word in shown.stdout.decode(), shown
        checked = run("man", "--warnings", "-E", "UTF-8", "-l", "-Tutf8", "-Z", prefix / f"share/man/man{section}/sqlkeep.{section}")
        assert checked.stderr == b"", checked.stderr.decode()


def example_of_the_page_runs(prefix, _):
    need("man", "man-db")
    page = (prefix / "share/man/man3/sqlkeep.3").read_text()
    code = re.search(r"\.SH EXAMPLES\n\.nf\n(.*?)\.fi\n", page, re.S)[1].replace("\\en", "\\n").replace("\\-", "-")
    source = prefix / "page.c"
    source.write_text(code)
    built = run(os.environ.get("CC", "cc"), "-Wall", "-Werror", "-I", prefix / "include", source, prefix / "lib/libsqlkeep.a", "-o", prefix / "page")
    assert built.returncode == 0, built.stderr.decode()
    done = run(prefix / "page")
    source.unlink()
    (prefix / "page").unlink()
    assert done.stdout.decode() == EXAMPLE, done


def bash_completes(prefix, _):
    need("bash", "bash")
    code = f"""source {prefix}/share/bash-completion/completions/sqlkeep
COMP_WORDS=(sqlkeep --ex) COMP_CWORD=1; _sqlkeep 2> /dev/null; printf '%s\\n' "${{COMPREPLY[@]}}"
COMP_WORDS=(sqlkeep --depth 6) COMP_CWORD=2; _sqlkeep 2> /dev/null; printf '%s\\n' "${{COMPREPLY[@]}}"
cd {prefix}/share/doc/sqlkeep/examples; COMP_WORDS=(sqlkeep auth) COMP_CWORD=1; _sqlkeep 2> /dev/null; printf '%s\\n' "${{COMPREPLY[@]}}" """
    assert run("bash", "-c", code).stdout.decode().split() == ["--explain", "64", "authors.sql"]


def zsh_reads_its_completion(prefix, _):
    need("zsh", "zsh")
    done = run("zsh", "-n", prefix / "share/zsh/site-functions/_sqlkeep")
    assert done.returncode == 0, done.stderr.decode()


def installed_again(prefix, words):
    installed(prefix, words)


def removed(prefix, _):
    """A file of somebody else's stays, and so does its folder."""
    (prefix / "bin/other").write_text("")
    done = run("./install", "--remove", "--prefix", prefix)
    assert done.returncode == 0, done.stderr.decode()
    assert below(prefix) == {"bin/other"} and {path.name for path in prefix.iterdir()} == {"bin"}
    again = run("./install", "--remove", "--prefix", prefix)
    assert again.returncode == 1 and b"nothing is known to be installed" in again.stderr


def staged(prefix, words):
    """With DESTDIR the files go below it, and the paths in them are those without it."""
    done = run("./install", "--prefix", "/usr", *words, env={"DESTDIR": str(prefix)})
    assert done.returncode == 0, done.stderr.decode()
    assert "prefix=/usr\n" in (prefix / "usr/lib/pkgconfig/sqlkeep.pc").read_text()
    assert run("./install", "--remove", "--prefix", "/usr", env={"DESTDIR": str(prefix)}).returncode == 0
    assert below(prefix) == {"bin/other"}


def refused_where_nothing_is_built(prefix, words):
    """In a copy without out/ the answer names what is to be built."""
    copy = prefix / "copy"
    shutil.copytree(ROOT, copy, ignore=shutil.ignore_patterns("out", ".git", "dist", "docs"))
    done = run("./install", "--prefix", prefix / "empty", *words, folder=copy)
    assert done.returncode == 1 and b"isn't there; ./build" in done.stderr, done
    assert below(prefix / "empty") == set()


def lists(prefix, *lines):
    """Writes further lines into the list of what is installed."""
    with open(prefix / LIST, "a", encoding="utf-8") as file:
        file.write("".join(f"{line}\n" for line in lines))


def fresh(folder, name, words):
    """An installation in a folder of its own."""
    prefix = folder / name
    done = run("./install", "--prefix", prefix, *words)
    assert done.returncode == 0, done.stderr.decode()
    return prefix


def removal(prefix):
    done = run("./install", "--remove", "--prefix", prefix)
    assert b"Traceback" not in done.stderr, done.stderr.decode()
    return done.returncode, done.stdout.decode(), done.stderr.decode()


def nothing_outside_is_removed(folder, words):
    """Paths that lead out of the prefix, by two dots, from the root or through a link, stay, and so do folders there."""
    prefix = fresh(folder, "inside", words)
    victims = [folder / name for name in ("victim", "absolute", "linked")]
    for victim in victims:
        victim.mkdir()
        (victim / "file").write_text("kept")
    (folder / "empty").mkdir()
    (prefix / "link").symlink_to(victims[2])
    lists(prefix, "../victim/file", f"{victims[1]}/file", "link/file", "bin/../../victim/file", "", ".", "..", "../empty/", f"{folder}/empty/", "link/", "\0")
    status, out, err = removal(prefix)
    assert status == 1 and err.count("leads out of") == 7 and "Traceback" not in err, err
    assert all((victim / "file").read_text() == "kept" for victim in victims) and (folder / "empty").is_dir()
    assert below(prefix) == {"link"}, below(prefix)


def what_is_no_file_is_passed_over(folder, words):
    """A folder in the place of a file, and a file in the place of a folder, end no removal. What is counted was there."""
    prefix = fresh(folder, "passed", words)
    count = len(below(prefix))
    (prefix / "bin/sqlkeep").unlink()
    (prefix / "bin/sqlkeep").mkdir()
    (prefix / "bin/sqlkeep/own").write_text("kept")
    shutil.rmtree(prefix / "include")
    (prefix / "include").write_text("kept")
    (prefix / "share/man/man1/sqlkeep.1").unlink()
    status, out, err = removal(prefix)
    assert (status, out) == (1, f"{count - 4} files were taken away from {prefix}\n") and err == "install: 'bin/sqlkeep' is a folder, and stays\n", (out, err)
    assert below(prefix) == {"bin/sqlkeep/own", "include"}, below(prefix)


def folders_that_were_there_stay(folder, words):
    prefix = folder / "folders"
    for name in ("bin", "include", "lib/cmake", "share/man/man1"):
        (prefix / name).mkdir(parents=True)
    before = set(prefix.rglob("*"))
    fresh(folder, "folders", words)
    fresh(folder, "folders", words)
    assert removal(prefix)[0] == 0
    assert set(prefix.rglob("*")) == before


def one_that_fails_is_undone(folder, words):
    """A folder stands in the way of the last files, a file in that of all, or no file may have more than a megabyte, as on a full disk: what was
    there before is as it was."""
    prefix = folder / "failed"
    (prefix / LIST).parent.mkdir(parents=True)
    (prefix / "share/zsh/site-functions/_sqlkeep").mkdir(parents=True)
    (prefix / "bin").mkdir()
    (prefix / "bin/sqlkeep").write_text("another program")
    before = set(prefix.rglob("*"))
    done = run("./install", "--prefix", prefix, *words)
    assert done.returncode == 1 and done.stderr.decode() == f"install: {prefix}/share/zsh/site-functions/_sqlkeep is a folder\n", done
    assert set(prefix.rglob("*")) == before and (prefix / "bin/sqlkeep").read_text() == "another program"
    (prefix / "new").write_text("")
    done = run("./install", "--prefix", prefix / "new/deeper", *words)
    assert done.returncode == 1 and b"Traceback" not in done.stderr and set(prefix.rglob("*")) == {*before, prefix / "new"}, done
    done = run("bash", "-c", 'ulimit -f 1000; exec ./install --prefix "$@"', "bash", folder / "full", *words)
    assert done.returncode == 1 and done.stderr.endswith(b": File too large\n") and not (folder / "full").exists(), done


def an_older_one_is_replaced(folder, words):
    """Files that only the older installation had go, with the folders that it made."""
    prefix = fresh(folder, "older", words)
    (prefix / "share/old").mkdir()
    (prefix / "share/old/file").write_text("")
    (prefix / "lib/libsqlkeep.so.0.0.9").write_text("")
    lists(prefix, "share/old/file", "share/old/", "lib/libsqlkeep.so.0.0.9")
    done = run("./install", "--prefix", prefix, *words)
    assert done.returncode == 0 and b"\n2 files of an older installation were taken away\n" in done.stdout, done
    assert not (prefix / "share/old").exists() and "share/old" not in (prefix / LIST).read_text()
    assert removal(prefix)[0] == 0 and below(prefix) == set() and not list(prefix.iterdir())


def a_prefix_with_a_blank(folder, words):
    need("pkg-config", "pkg-config")
    prefix = fresh(folder, "with a blank", words)
    there = {"PKG_CONFIG_PATH": str(prefix / "lib/pkgconfig")}
    flags = shlex.split(run("pkg-config", "--cflags", "--libs", "sqlkeep", env=there).stdout.decode())
    assert flags == [f"-I{prefix}/include", f"-L{prefix}/lib", "-lsqlkeep"], flags
    done = run("./install", "--prefix", folder / 'a"quote', *words)
    assert done.returncode == 1 and b"has a character that no file of pkg-config can have" in done.stderr and not (folder / 'a"quote').exists(), done


def a_link_is_replaced(folder, words):
    prefix = folder / "links"
    (prefix / "lib/pkgconfig").mkdir(parents=True)
    (folder / "other.pc").write_text("kept")
    (prefix / "lib/pkgconfig/sqlkeep.pc").symlink_to(folder / "other.pc")
    fresh(folder, "links", words)
    assert (folder / "other.pc").read_text() == "kept" and not (prefix / "lib/pkgconfig/sqlkeep.pc").is_symlink()
    (folder / "elsewhere").mkdir()
    (prefix / "lead").mkdir()
    (prefix / "lead/bin").symlink_to(folder / "elsewhere")
    done = run("./install", "--prefix", prefix / "lead", *words)
    assert done.returncode == 1 and b"leads out of" in done.stderr and below(prefix / "lead") == {"bin"} and not list((folder / "elsewhere").iterdir()), done


def a_list_that_is_no_text(folder, words):
    prefix = fresh(folder, "list", words)
    (prefix / LIST).write_bytes(b"bin/sqlkeep\n\xff\n")
    status, _, err = removal(prefix)
    assert status == 1 and err == f"install: {prefix / LIST} isn't UTF-8, so it is no list of an installation\n", err
    assert (prefix / "bin/sqlkeep").exists()


def from_a_fresh_clone(folder, _):
    """Where there is only the program of dist/, it is installed with all except the library, and the answer says how that is made."""
    clone = Clone(folder / "fresh")
    shutil.copytree(ROOT / "examples", clone.root / "examples")
    done = run("./install", "--prefix", folder / "program", folder=clone.root)
    assert (done.returncode, done.stderr) == (0, b"install: not installed: the library for C isn't there; ./build --library makes it, with the kit\n"), done
    of_the_library = {"lib/libsqlkeep.a", "include/sqlkeep.h", "include/sqlkeep.hpp"} | {path for path in FILES if path.startswith("lib/")}
    found = below(folder / "program")
    assert not found & of_the_library and FILES - of_the_library <= found, found
    assert run(folder / "program/bin/sqlkeep").stdout == b"handed out\n"
    assert removal(folder / "program") == (0, f"{len(found)} files were taken away from {folder / 'program'}\n", "")


TESTS = [
    installed, program_runs, found_by_pkg_config, pages_open, example_of_the_page_runs, bash_completes, zsh_reads_its_completion, installed_again,
    removed, staged, refused_where_nothing_is_built, nothing_outside_is_removed, what_is_no_file_is_passed_over, folders_that_were_there_stay,
    one_that_fails_is_undone, an_older_one_is_replaced, a_prefix_with_a_blank, a_link_is_replaced, a_list_that_is_no_text, from_a_fresh_clone,
]


def main():
    parser = argparse.ArgumentParser()
    parser.add_argument("--unproved", action="store_true")
    words = ["--unproved"] if parser.parse_args().unproved else []
    counts = {"passed": 0, "failed": 0, "skipped": 0}
    with tempfile.TemporaryDirectory(prefix="install-") as folder:
        for test in TESTS:
            try:
                test(Path(folder), words)
                counts["passed"] += 1
            except Skipped as wanted:
                counts["skipped"] += 1
                print(f"install: {test.__name__}: skipped; {wanted}")
            except AssertionError as why:
                counts["failed"] += 1
                print(f"FAILED install: {test.__name__}: {why}")
    print(f"{counts['passed']} passed, {counts['failed']} failed, {counts['skipped']} skipped")
    return int(counts["failed"] > 0)


if __name__ == "__main__":
    sys.exit(main())
