"""Scripts that run in both, statement by statement."""
import os
import re
import sys
import textwrap
from concurrent import futures
from pathlib import Path

ROOT = Path(__file__).resolve().parent.parent.parent
PROCESSES = 3


def page():
    """The scripts of the page, each with the answers that stand below it."""
    text = (ROOT / "docs" / "library" / "postgresql.md").read_text()
    blocks = re.findall(r"```sql\n(.*?)```\n\n((?:    [^\n]*\n)+)", text, re.S)
    return {f"page/{number}": (script.encode(), textwrap.dedent(answers)) for number, (script, answers) in enumerate(blocks, 1)}


def stored():
    """Each script by its name: those of tests/scripts, the examples, the shop, and those of the page."""
    found = {f"scripts/{path.stem}": path.read_bytes() for path in sorted((ROOT / "tests" / "scripts").glob("*.sql"))}
    found.update({f"examples/{path.stem}": path.read_bytes() for path in sorted((ROOT / "examples").glob("*.sql"))})
    found.update({name: script for name, (script, _) in page().items()})
    found["shop"] = (ROOT / "bindings" / "python" / "example_shop" / "schema.sql").read_bytes()
    return found


def made(first, count):
    """Random scripts by their seeds."""
    sys.path.insert(0, str(ROOT / "tests"))
    from made.scripts import Script  # pylint: disable=import-outside-toplevel
    found = {}
    for seed in range(first, first + count):
        script = Script(seed)
        found[f"random/{seed}"] = (script.text().encode(), *limits(script.words))
    return found


def number_behind(given, word, usual, most):
    """The number behind a word of the command line; the usual one if it isn't given, or isn't one that may be given."""
    text = given[given.index(word) + 1] if word in given[:-1] else ""
    return int(text) if text.isascii() and text.isdigit() and 1 <= int(text) <= most else usual


def limits(given):
    """The depth and the budget that words of a command line give."""
    return number_behind(given, "--depth", 16, 64), number_behind(given, "--changes", 65_536, 65_536)


def limits_of(name):
    """The depth and the budget that a stored script is run with."""
    found = ROOT / "tests" / (name + ".args")
    return limits(found.read_text().split() if found.exists() else [])


def counted(found):
    """How many statements have a note, and how many of these differ."""
    differ = {id(each.translation) for each in found.differences}
    noted = [each for each in found.translations if each.differs]
    return len(noted), sum(id(each) in differ for each in noted)


def result(job):
    """What a script came to: its name, a kind, how many statements answer the same of how many, the notes of the differences, how many
    notes stand at statements and at how many that differ, and what `compare` writes."""
    import psycopg2  # pylint: disable=import-outside-toplevel,import-error
    from sqlkeep.errors import ProgrammingError  # pylint: disable=import-outside-toplevel,import-error
    from sqlkeep.postgresql import commands, compared  # pylint: disable=import-outside-toplevel,import-error
    name, script, depth, changes, dsn = job
    try:
        found = compared(script.decode(), lambda: psycopg2.connect(dsn), (psycopg2.Error,), depth, changes, f"compare_{os.getpid()}")
    except (ProgrammingError, UnicodeDecodeError) as error:
        return {"name": name, "kind": "no script", "same": 0, "total": 0, "reasons": [], "notes": (0, 0), "told": str(error)}
    except Exception as error:  # pylint: disable=broad-except
        return {"name": name, "kind": "not foretold", "same": 0, "total": 0, "reasons": [], "notes": (0, 0), "told": f"{type(error).__name__}: {error}"}
    kind = "same" if found.is_same else "foretold" if found.is_foretold else "not foretold"
    reasons = [reason for each in found.differences for reason in each.reasons]
    return {"name": name, "kind": kind, "same": found.same, "total": found.total, "reasons": reasons, "notes": counted(found), "told": commands.told(found)}


def results(dsn, scripts):
    """What each script came to. A script is its bytes, its depth and its budget."""
    jobs = [(name, *script, dsn) for name, script in scripts.items()]
    with futures.ProcessPoolExecutor(PROCESSES) as processes:
        return list(processes.map(result, jobs, chunksize=4))
