"""The shell: `python -m sqlkeep`."""
from __future__ import annotations

import argparse
import os
import sys
from typing import TextIO

from . import __version__, is_proved
from .errors import ProgrammingError
from .session import Session
from .shell.commands import reason_of
from .shell.loop import Shell

__all__ = ["main"]


def main(words: list[str] | None = None) -> int:
    """Runs the shell, or a command, with these words, or those of the command line. The status is 0; without a terminal it is 1 where something was
    refused or is no statement; and 2 where the file can't be read, or a standard stream is closed or fails."""
    words = sys.argv[1:] if words is None else words
    if words and words[0] in ("to-postgresql", "compare"):
        from .postgresql import commands  # pylint: disable=import-outside-toplevel

        return commands.main(words)
    if words and words[0] in ("from-sqlite", "from-postgresql"):
        from .incoming import commands as incoming  # pylint: disable=import-outside-toplevel

        return incoming.main(words)
    parser = argparse.ArgumentParser(prog="python -m sqlkeep", description="A shell for an in-memory SQL engine for integrity constraints.", epilog="Type .help in the shell. `python -m sqlkeep to-postgresql --help` and `compare --help` tell of the way to PostgreSQL, `from-sqlite --help` and `from-postgresql --help` of the way in.")
    parser.add_argument("file", nargs="?", help="statements that are executed first")
    parser.add_argument("--depth", type=int, default=16, help="how deep triggers may nest, 1 to 64; 16 if it isn't given")
    parser.add_argument("--changes", type=int, default=65_536, help="how many row changes a statement may make, 1 to 65536")
    parser.add_argument("--version", action="version", version=f"sqlkeep {__version__} ({'proved' if is_proved else 'not proved'})")
    given = parser.parse_args(words)
    try:
        session = Session(given.depth, given.changes)
    except ProgrammingError as error:
        parser.error(str(error))
    return on_streams(session, given.file)


def on_streams(session: Session, file: str | None) -> int:
    """Runs the shell on the standard streams, and ends with 2 where one of them is closed or fails."""
    closed = [name for name in ("stdin", "stdout", "stderr") if getattr(sys, name) is None]
    if closed:
        say(f"{closed[0]} is closed")
        return 2
    for stream, errors in ((sys.stdin, "surrogateescape"), (sys.stdout, "backslashreplace")):
        # Bytes that are no UTF-8 are refused with the statement that has them, and what the other side can't show is written as in Python.
        if hasattr(stream, "reconfigure"):
            stream.reconfigure(errors=errors)
    try:
        return Shell(session, sys.stdin, sys.stdout, sys.stderr).run(file)
    except OSError as why:
        give_up(sys.stdout)
        if not isinstance(why, BrokenPipeError):
            say(reason_of(why))
        return 2


def say(text: str) -> None:
    """Says on standard error, if that can be, why the shell ends."""
    if sys.stderr is not None:
        try:
            print(f"python -m sqlkeep: {text}", file=sys.stderr, flush=True)
        except OSError:
            give_up(sys.stderr)


def give_up(stream: TextIO) -> None:
    """Drops what is left in a stream's buffer: Python would complain of it once more at its end."""
    os.dup2(os.open(os.devnull, os.O_WRONLY), stream.fileno())


if __name__ == "__main__":
    sys.exit(main())
