"""The commands `from-sqlite` and `from-postgresql` of `python -m sqlkeep`."""
from __future__ import annotations

import argparse
import os
import sys
from collections import Counter
from typing import TYPE_CHECKING, Any, Callable, Iterator, Sequence

from ..shell.show import visible
from .schema import CHANGED, LEFT_OUT, NOT_NEEDED, Column, Table
from .script import Script
from .words import CannotSay

if TYPE_CHECKING:
    import sqlite3

__all__ = ["COMMANDS", "main"]

COMMANDS = ("from-sqlite", "from-postgresql")


def parser() -> argparse.ArgumentParser:
    made = argparse.ArgumentParser(prog="python -m sqlkeep", description="Writes a script that makes a schema of another system here. The status is 1 if something was left out.")
    commands = made.add_subparsers(dest="command", required=True)
    sqlite = commands.add_parser("from-sqlite", help="reads a file of SQLite")
    sqlite.add_argument("file", help="the file, which is only read")
    sqlite.add_argument("--data", action="store_true", help="brings the rows along")
    postgresql = commands.add_parser("from-postgresql", help="reads a database of PostgreSQL through psql")
    postgresql.add_argument("dsn", help="the database, as psql takes it: 'host=/tmp dbname=test'")
    return made


def row_reader(connection: sqlite3.Connection, rows_of: Callable[[sqlite3.Connection, Table], Iterator[Any]], value_here: Callable[[Any, Column], Any]) -> Callable[[Table], Iterator[list[Any]]]:
    """What gives the rows of a table as the script takes them."""

    def value(given: Any, column: Column) -> Any:
        try:
            return value_here(given, column)
        except CannotSay as fault:
            return fault

    return lambda table: ([value(given, column) for given, column in zip(row, table.columns)] for row in rows_of(connection, table))


def from_sqlite(file: str, with_rows: bool) -> Script:
    """The script of a file of SQLite."""
    from . import sqlite  # pylint: disable=import-outside-toplevel

    connection = sqlite.opened(file)
    try:
        return Script(sqlite.schema_of(connection), row_reader(connection, sqlite.rows_of, sqlite.value_here) if with_rows else None)
    finally:
        connection.close()


def script_of(given: argparse.Namespace) -> Script:
    """The script that a command asks for."""
    if given.command == "from-postgresql":
        from . import postgresql  # pylint: disable=import-outside-toplevel

        try:
            return Script(postgresql.schema_of(given.dsn))
        except postgresql.Unreachable as error:
            raise OSError(f"the database: {error}") from None
    try:
        import sqlite3  # pylint: disable=import-outside-toplevel
    except ImportError:
        raise SystemExit("sqlkeep: from-sqlite needs Python's module sqlite3") from None
    try:
        return from_sqlite(given.file, given.data)
    except (OSError, ValueError, sqlite3.Error) as error:
        raise OSError(f"{given.file}: {error}") from None


def main(words: Sequence[str]) -> int:
    """The status is 0 if everything came along, 1 if something was left out, and 2 if nothing can be read."""
    given = parser().parse_args(words)
    try:
        script = script_of(given)
    except OSError as error:
        print(f"sqlkeep: cannot read {visible(str(error))}", file=sys.stderr)
        return 2
    try:
        sys.stdout.buffer.write(script.text.encode())
        sys.stdout.buffer.flush()
    except BrokenPipeError:
        os.dup2(os.open(os.devnull, os.O_WRONLY), sys.stdout.fileno())
        return 2
    counts = Counter(note.kind for note in script.notes)
    for note in script.notes:
        if note.kind == LEFT_OUT:
            print(f"sqlkeep: {visible(f'{note.table}: {note}' if note.table else str(note))}", file=sys.stderr)
    print(f"sqlkeep: {', '.join(f'{counts[kind]} {kind}' for kind in (CHANGED, NOT_NEEDED, LEFT_OUT))}", file=sys.stderr)
    return int(counts[LEFT_OUT] > 0)
