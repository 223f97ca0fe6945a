"""The commands `to-postgresql` and `compare` of `python -m sqlkeep`."""
from __future__ import annotations

import argparse
import importlib
import sys
from pathlib import Path
from typing import Any, Sequence

from ..errors import ProgrammingError
from ..shell.show import visible
from .compare import SCHEMA, Comparison, Difference, SchemaInUse, ServerGone, compared
from .translate import psql_script, translated

__all__ = ["COMMANDS", "main"]

COMMANDS = ("to-postgresql", "compare")


def parser() -> argparse.ArgumentParser:
    made = argparse.ArgumentParser(prog="python -m sqlkeep", description="Takes a script to PostgreSQL.")
    commands = made.add_subparsers(dest="command", required=True)
    to = commands.add_parser("to-postgresql", help="writes a script for psql")
    both = commands.add_parser("compare", help="runs a script here and in PostgreSQL, and tells the differences")
    both.add_argument("--postgresql", metavar="DSN", required=True, help="the server, as psql takes it: 'host=/tmp dbname=test'")
    both.add_argument("--schema", default=SCHEMA, help=f"a schema that isn't there, made and removed again; {SCHEMA} if it isn't given")
    for each in (to, both):
        each.add_argument("file", help="the script; - for standard input")
        each.add_argument("--depth", type=int, default=16)
        each.add_argument("--changes", type=int, default=65_536)
    return made


def script_of(file: str) -> str:
    """The script of a file, with each of its line ends as it is."""
    return (sys.stdin.buffer.read() if file == "-" else Path(file).read_bytes()).decode()


def write(text: str) -> None:
    """Writes a text as UTF-8, whatever the locale is."""
    sys.stdout.flush()
    sys.stdout.buffer.write(text.encode())
    sys.stdout.buffer.flush()


def told(found: Comparison) -> str:
    """A comparison in words."""
    head = f"{found.same} of {found.total} statements answer the same.\n"
    left = found.total - len(found.translations)
    end = f"\n{left} statements behind it were not compared, since what it left differs.\n" if left else ""
    return head + "".join(map(told_of, found.differences)) + end


def told_of(difference: Difference) -> str:
    """A difference in words."""
    lines = ["", difference.translation.text, "", f"here: {difference.here}", *difference.translation.outcome.lines.rstrip("\n").split("\n"), f"PostgreSQL: {difference.there}"]
    for table, (here, there) in difference.tables.items():
        lines += [f"{table} here: {here}", f"{table} in PostgreSQL: {there}"]
    lines += ["", *([f"foretold: {reason}" for reason in difference.reasons] or ["not foretold"])]
    return "\n".join(lines) + "\n"


def client() -> Any:
    """The module that speaks to PostgreSQL."""
    try:
        return importlib.import_module("psycopg2")
    except ImportError:
        raise SystemExit("sqlkeep: compare needs psycopg2: apt-get install python3-psycopg2, or pip install psycopg2") from None


def compare(given: argparse.Namespace, script: str) -> int:
    """The status is 0 if both answer the same, 1 if they differ, and 2 if the server can't be asked."""
    module = client()
    try:
        found = compared(script, lambda: module.connect(given.postgresql), (module.Error,), given.depth, given.changes, given.schema)
    except (SchemaInUse, ServerGone, module.Error) as error:
        print(f"sqlkeep: {str(error).strip()}", file=sys.stderr)
        return 2
    write("\n".join(map(visible, told(found).split("\n"))))
    return 0 if found.is_same else 1


def main(words: Sequence[str]) -> int:
    """Runs a command with these words."""
    given = parser().parse_args(words)
    try:
        script = script_of(given.file)
        if given.command == "compare":
            return compare(given, script)
        write(psql_script(translated(script, given.depth, given.changes)))
    except (OSError, UnicodeDecodeError) as error:
        print(f"sqlkeep: cannot read the script: {error}", file=sys.stderr)
        return 2
    except ProgrammingError as error:
        print(f"sqlkeep: {error}", file=sys.stderr)
        return 2
    return 0
