#!/usr/bin/env python3
"""Tries the Python package: its wheel, the installation by the command of docs/library/python.md into an empty environment, the programs of
that page and of docs/library/testing.md, PEP 249 and the same calls with sqlite3, the plugin for pytest, the shell on a terminal, and types.

  tests/python_package.py --library FOLDER [--only WORD] [--all]

FOLDER is out or out/unproved, where ./build --library or ./build --unproved --library has left the wheel. The suites also run with the oldest
and the newest other Python from 3.9 on that is here, with --all with each. What needs a package that isn't
here is skipped, and the line says which. The last line is `N passed, N failed, N skipped`."""
import argparse
import base64
import glob
import hashlib
import os
import re
import shutil
import signal
import subprocess
import sys
import tempfile
import zipfile
from pathlib import Path

sys.dont_write_bytecode = True
ROOT = Path(__file__).resolve().parent.parent
sys.path[:0] = [str(ROOT / "tests" / "shell"), str(ROOT / "tools")]
import dialogues
import packages
import wheel as made_by

PACKAGE = ROOT / "bindings" / "python"
PAGES = ROOT / "docs" / "library"
SUITES = ["test_pep249", "test_sqlite3", "test_errors", "test_transactions", "test_parameters", "test_groups", "test_accounts", "test_session", "test_results", "test_hints", "test_shell", "test_memory", "test_reentered"]
LARGEST = 2_000_000
BLOCK = re.compile(r"^```(\w+)\n(.*?)^```$", re.M | re.S)
# Runs the blocks of a page's section one after the other, and writes what each has printed.
RUNNER = """
import contextlib, io, json, sys
room, answers = {"__name__": "__main__"}, []
for block in json.load(sys.stdin):
    printed = io.StringIO()
    with contextlib.redirect_stdout(printed):
        exec(compile(block, "the page", "exec"), room)
    answers.append(printed.getvalue())
json.dump(answers, sys.stdout)
"""

# Prints the public names that have no text for help().
WITHOUT_HELP = """
import inspect, sqlkeep
def parts(thing):
    named = vars(thing).items() if inspect.isclass(thing) else ()
    return [thing, *(part for key, part in named if not key.startswith("_") and (callable(part) or isinstance(part, property)))]
for name in sqlkeep.__all__:
    thing = getattr(sqlkeep, name)
    if inspect.isclass(thing) or inspect.isfunction(thing):
        print(*(f"{name}: {part}" for part in parts(thing) if not inspect.getdoc(part)), sep="", end="")
"""


class Skipped(Exception):
    """A test that can't be made here; the text names the package that it wants."""


class Counts:
    """How many tests passed, failed and were skipped."""

    def __init__(self, only):
        self.passed = self.failed = self.skipped = 0
        self.only = only

    def test(self, name, call, *words):
        """Makes a test; it may return how many passed, failed and were skipped, and otherwise is one."""
        if self.only and self.only not in name:
            return
        try:
            passed, failed, skipped = call(*words) or (1, 0, 0)
            self.passed, self.failed, self.skipped = self.passed + passed, self.failed + failed, self.skipped + skipped
        except Skipped as wanted:
            self.skipped += 1
            print(f"the Python package: {name}: skipped; {wanted}")
        except (AssertionError, OSError, subprocess.SubprocessError) as why:
            self.failed += 1
            print(f"FAILED the Python package: {name}: {why}")


class Room:
    """A folder with a home of its own, and environments in which the package is installed."""

    def __init__(self, folder, wheel):
        self.folder, self.wheel = Path(folder), Path(wheel)
        self.home = self.folder / "home"
        self.home.mkdir()
        (self.folder / "out").mkdir()
        shutil.copy(wheel, self.folder / "out")

    def run(self, *words, given=None, folder=None, env=None):
        """Runs a program, without what the environment here would tell it."""
        clean = {"HOME": str(self.home), "PATH": os.environ["PATH"], "LANG": "C.UTF-8", "SQLKEEP_ROOT": str(ROOT)}
        clean.update({"PIP_NO_INDEX": "1", "PIP_DISABLE_PIP_VERSION_CHECK": "1", "PYTHONDONTWRITEBYTECODE": "1"})
        words = [str(word) for word in words]
        return subprocess.run(words, input=given, cwd=folder or self.folder, env={**clean, **(env or {})}, capture_output=True, text=True, timeout=600, check=False)

    def environment(self, name, python, *words):
        """The Python of a new environment of this Python, with the package installed."""
        at = self.folder / name
        done = self.run(python, "-m", "venv", *words, at)
        if done.returncode and "ensurepip" in done.stdout + done.stderr:
            raise Skipped("apt-get install python3-venv")
        assert done.returncode == 0, done.stdout + done.stderr
        done = self.run("sh", "-c", command_of_page(), env={"PATH": f"{at / 'bin'}:{os.environ['PATH']}"})
        assert done.returncode == 0, done.stdout + done.stderr
        return at / "bin" / "python3"


def command_of_page():
    """The line by which the page installs the wheel."""
    return re.search(r"^    (python3 -m pip install out/sqlkeep-\*\.whl)$", (PAGES / "python.md").read_text("utf-8"), re.M)[1]


# ---- the wheel


def wheel_is_small(wheel):
    assert wheel.stat().st_size < LARGEST, f"{wheel.stat().st_size} bytes"
    assert re.fullmatch(r"sqlkeep-[\d.]+-cp39-abi3-\w+\.whl", wheel.name), wheel.name


def wheel_is_as_it_says(wheel):
    """RECORD has the sum and the size of each file, and of no other."""
    with zipfile.ZipFile(wheel) as archive:
        assert archive.testzip() is None
        names = archive.namelist()
        record = next(name for name in names if name.endswith(".dist-info/RECORD"))
        lines = dict(line.split(",", 1) for line in archive.read(record).decode().splitlines())
        assert sorted(lines) == sorted(names) and len(set(names)) == len(names)
        for name in set(names) - {record}:
            total = base64.urlsafe_b64encode(hashlib.sha256(archive.read(name)).digest()).rstrip(b"=").decode()
            assert lines[name] == f"sha256={total},{archive.getinfo(name).file_size}", name
        assert all(entry.date_time == (1980, 1, 1, 0, 0, 0) for entry in archive.infolist())


def wheel_is_the_same_again(wheel, library, folder):
    try:
        again = made_by.make(library, folder)
    except made_by.NotMade as why:
        raise Skipped(str(why)) from None
    assert again.read_bytes() == wheel.read_bytes(), "it was made of other sources, or differs from one time to the next"


def extension_shows_one_name(wheel, folder):
    if shutil.which("nm") is None:
        raise Skipped("apt-get install binutils")
    with zipfile.ZipFile(wheel) as archive:
        extension = archive.extract("sqlkeep/_engine.abi3.so", folder)
    shown = subprocess.run(["nm", "-D", "--defined-only", extension], capture_output=True, text=True, check=True).stdout.split("\n")
    assert [line.split()[-1] for line in shown if line] == ["PyInit__engine"], shown


# ---- the installed package


def installed(room, python):
    done = room.run(python, "-c", "import sqlkeep; print(sqlkeep.__version__, sqlkeep.is_proved, sqlkeep.__file__)")
    version, is_proved, path = done.stdout.split()
    assert version == (ROOT / "VERSION").read_text().strip() and path.startswith(str(room.folder)), done
    assert is_proved in ("True", "False")
    told = room.run(python, "-m", "sqlkeep", "--version").stdout
    assert told == f"sqlkeep {version} ({'proved' if is_proved == 'True' else 'not proved'})\n", told


def suite(room, python, name):
    """Runs a suite of bindings/python/tests: its counts."""
    done = room.run(python, "-m", "unittest", name, folder=PACKAGE / "tests")
    ran = re.search(r"^Ran (\d+) tests?", done.stderr, re.M)
    assert ran, done.stderr[-3000:]
    failed = sum(int(count) for count in re.findall(r"(?:failures|errors)=(\d+)", done.stderr))
    skipped = sum(int(count) for count in re.findall(r"skipped=(\d+)", done.stderr))
    if failed or done.returncode:
        print(done.stderr[-6000:])
    return int(ran[1]) - failed - skipped, max(failed, int(done.returncode != 0)), skipped


def programs(part):
    """The programs of a part of a page, each with what it prints."""
    blocks = [*BLOCK.findall(part), ("", "")]
    return [(code, after[1] if after[0] == "text" else "") for (kind, code), after in zip(blocks, blocks[1:]) if kind == "python"]


def sections(page):
    """The sections of a page that have programs: each its title and the programs."""
    parts = re.split(r"^## ", (PAGES / page).read_text("utf-8"), flags=re.M)[1:]
    return [(part.split("\n", 1)[0], programs(part)) for part in parts if programs(part)]


def section_runs(room, python, pairs):
    """Runs the programs of a section."""
    import json

    done = room.run(python, "-c", RUNNER, given=json.dumps([code for code, _ in pairs]))
    assert done.returncode == 0, done.stderr[-3000:]
    wrong = [(printed, wanted) for printed, (_, wanted) in zip(json.loads(done.stdout), pairs) if printed != wanted]
    assert not wrong, f"prints\n{wrong[0][0]}---- and not\n{wrong[0][1]}"
    return len(pairs), 0, 0


def readme_runs(room, python):
    """The program of the package's README raises what stands below it."""
    text = (PACKAGE / "README.md").read_text("utf-8")
    code = BLOCK.search(text)[2]
    wanted = re.search(r"^    (sqlkeep\.\w+Error: .*)$", text, re.M)[1]
    done = room.run(python, "-c", code)
    assert done.stderr.rstrip("\n").split("\n")[-1] == wanted, done.stderr


def example_runs(room, python):
    """The example of parameters prints what those in C and Rust do."""
    done = room.run(python, PACKAGE / "examples" / "parameters.py")
    assert (done.stdout, done.stderr) == (packages.PARAMETERS, ""), done.stdout + done.stderr


def shell_of_page(room, python):
    """The dialogue of the page, played on a terminal."""
    text = (PAGES / "python.md").read_text("utf-8")
    screen = "\n".join(line[4:] for line in re.search(r"^    sqlkeep> .*?(?=^\S)", text, re.M | re.S)[0].rstrip().split("\n"))
    greeting = (ROOT / "tests" / "shell" / "first_rows.txt").read_text("utf-8").split("\n")[0]
    path = room.folder / "page.txt"
    path.write_text(f"{greeting}\n{screen}\nsqlkeep>\n", "utf-8")
    wrong = dialogues.faults(str(python), path)
    assert not wrong, wrong[0]


def classes_of_page(room, python):
    """The page's table of classes has each cause, with its class."""
    text = (PAGES / "python.md").read_text("utf-8")
    found = {int(number): (name, row[0]) for row in re.findall(r"^\| `(\w+Error)` \| (.*) \|$", text, re.M) for number, name in re.findall(r"(\d+) ([A-Z]\w+)", row[1])}
    done = room.run(python, "-c", "from sqlkeep.causes import CAUSES; print({number: cause[:2] for number, cause in CAUSES.items()})")
    told = eval(done.stdout)  # pylint: disable=eval-used
    assert found == told, f"{set(found.items()) ^ set(told.items())}"
    named = dict(re.findall(r"^\| (\d+) \| \[(\w+)\]", (ROOT / "docs" / "language" / "refusals.md").read_text("utf-8"), re.M))
    assert {str(number): name for number, (name, _) in told.items()} == named


def testing_page(room, python):
    """The files of the page, and pytest over them: what is said to fail does, as it is shown."""
    blocks = BLOCK.findall((PAGES / "testing.md").read_text("utf-8"))
    folder = room.folder / "testing"
    folder.mkdir()
    for kind, code in blocks:
        named = re.match(r"(?:#|--) (\S+)\n", code)
        if named and kind != "text":
            Path(folder, named[1]).write_text(code, "utf-8")
    done = room.run(python, "-m", "pytest", "-p", "no:cacheprovider", "test_books.py", "marked.py", folder=folder, env={"COLUMNS": "120"})
    wanted = next(code for kind, code in blocks if kind == "text")
    assert "1 failed, 4 passed" in done.stdout and wanted in done.stdout, done.stdout + done.stderr


def speaks_types(room, python):
    """mypy --strict over the package, and over a program that uses it."""
    mypy = shutil.which("mypy")
    if mypy is None:
        raise Skipped("apt-get install mypy")
    done = room.run(mypy, "--strict", "-p", "sqlkeep", "--python-executable", python)
    assert done.returncode == 0, done.stdout + done.stderr
    program = room.folder / "program.py"
    program.write_text(
        "import sqlkeep\n\nconnection: sqlkeep.Connection = sqlkeep.connect()\nrow = connection.execute('SELECT a FROM t', (1, 'x', None)).fetchone()\n"
        "reveal_type(row)\nreveal_type(sqlkeep.Session().catalogue.tables['T'].columns[0].name)\nreveal_type(sqlkeep.IntegrityError().violations)\n", "utf-8")
    done = room.run(mypy, "--strict", "--python-executable", python, program)
    told = re.findall(r'Revealed type is "(.*)"', done.stdout)
    plain = [each.replace("builtins.", "").replace("Tuple", "tuple") for each in told]
    assert plain[1:] == ["str", "list[sqlkeep.account.Violation]"] and "tuple[Union[int, str, None], ...]" in plain[0] and "error:" not in done.stdout, done.stdout


def help_is_there(room, python):
    """Each public name has a text for help()."""
    done = room.run(python, "-c", WITHOUT_HELP)
    assert (done.stdout, done.stderr) == ("", ""), done.stdout + done.stderr


# ---- Pythons


def with_pytest():
    """A Python that has pytest."""
    for python in (sys.executable, "/usr/bin/python3"):
        if os.path.exists(python) and subprocess.run([python, "-c", "import pytest"], capture_output=True, check=False).returncode == 0:
            return python
    raise Skipped("apt-get install python3-pytest")


def others():
    """Other Pythons from 3.9 on that are here, by their version."""
    found = {}
    for python in [*glob.glob("/usr/bin/python3.*"), *glob.glob("/usr/local/bin/python3.*"), *glob.glob(os.path.expanduser("~/.pyenv/versions/3.*/bin/python3"))]:
        if re.fullmatch(r"python3(\.\d+)?", os.path.basename(python)):
            told = subprocess.run([python, "-c", "import sys, sysconfig; print(*sys.version_info[:2], sysconfig.get_config_var('Py_GIL_DISABLED') or 0)"], capture_output=True, text=True, check=False).stdout.split()
            if len(told) == 3 and int(told[1]) >= 9 and told[2] == "0" and tuple(map(int, told[:2])) != sys.version_info[:2]:
                found.setdefault(f"{told[0]}.{told[1]}", python)
    return found


def main():
    parser = argparse.ArgumentParser()
    parser.add_argument("--library", required=True)
    parser.add_argument("--only", default="", help="the tests whose names have this word")
    parser.add_argument("--all", action="store_true")
    given = parser.parse_args()
    wheels = sorted(Path(given.library).resolve().glob("sqlkeep-*-cp39-abi3-*.whl"))
    if not wheels:
        print("the Python package: skipped; apt-get install python3-dev, then ./build --library\n0 passed, 0 failed, 1 skipped")
        return 0
    counts = Counts(given.only)
    with tempfile.TemporaryDirectory(prefix="python-package-") as folder:
        room = Room(folder, wheels[0])
        try_all(counts, room, wheels[0], Path(given.library))
        try_others(counts, room, given.all)
    print(f"{counts.passed} passed, {counts.failed} failed, {counts.skipped} skipped")
    return int(counts.failed > 0)


def try_all(counts, room, wheel, library):
    counts.test("wheel: size", wheel_is_small, wheel)
    counts.test("wheel: record", wheel_is_as_it_says, wheel)
    counts.test("wheel: reproducible", wheel_is_the_same_again, wheel, library, room.folder)
    counts.test("wheel: names", extension_shows_one_name, wheel, room.folder)
    try:
        python = room.environment("env", sys.executable)
    except Skipped as wanted:
        counts.skipped += 1
        print(f"the Python package: skipped; {wanted}")
        return
    counts.test("installed", installed, room, python)
    for name in SUITES:
        counts.test(f"suite {name}", suite, room, python, name)
    for title, pairs in sections("python.md"):
        counts.test(f"page: {title}", section_runs, room, python, pairs)
    counts.test("page: the README", readme_runs, room, python)
    counts.test("example", example_runs, room, python)
    counts.test("page: the shell", shell_of_page, room, python)
    counts.test("page: classes", classes_of_page, room, python)
    counts.test("help", help_is_there, room, python)
    for path in sorted((ROOT / "tests" / "shell").glob("*.txt")):
        counts.test(f"shell: {path.stem}", dialogue, python, path)
    counts.test("shell: signals", dialogue_without_signals, python, ROOT / "tests" / "shell" / "ctrl_c_drops_the_line.txt")
    try_pytest(counts, room)


def try_others(counts, room, wants_all):
    """The suites with other Pythons."""
    found = sorted(others().items(), key=lambda each: int(each[0].split(".")[1]))
    for version, python in found if wants_all else {**dict(found[:1]), **dict(found[-1:])}.items():
        counts.test(f"Python {version}", of_other, room, version, python)


def dialogue(python, path):
    wrong = dialogues.faults(str(python), path)
    assert not wrong, wrong[0]


def dialogue_without_signals(python, path):
    """As behind `&` or nohup, where the runner ignores Ctrl-C."""
    before = signal.signal(signal.SIGINT, signal.SIG_IGN)
    try:
        dialogue(python, path)
    finally:
        signal.signal(signal.SIGINT, before)


def try_pytest(counts, room):
    """The plugin and the types, in an environment that sees the packages of its Python."""
    try:
        python = room.environment("pytest", with_pytest(), "--system-site-packages")
    except Skipped as wanted:
        counts.skipped += 1
        print(f"the Python package: the plugin for pytest: skipped; {wanted}")
        return
    counts.test("plugin: suite", suite, room, python, "test_plugin")
    counts.test("page: testing", testing_page, room, python)
    counts.test("types", speaks_types, room, python)


def of_other(room, version, python):
    """The suites with another Python: one test each."""
    environment = room.environment(f"env-{version}", python)
    results = [suite(room, environment, name) for name in SUITES]
    return sum(not failed for _, failed, _ in results), sum(bool(failed) for _, failed, _ in results), 0


if __name__ == "__main__":
    sys.exit(main())
