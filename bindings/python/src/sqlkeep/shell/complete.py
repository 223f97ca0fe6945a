"""Completion of words: keywords, tables, columns, and the commands of the shell."""
from __future__ import annotations

import glob
import os
from typing import TYPE_CHECKING

from ..text import KEYWORDS

if TYPE_CHECKING:
    from ..session import Session

__all__ = ["candidates"]

BEFORE_TABLES = ("FROM", "INTO", "UPDATE", "TABLE", "REFERENCES", "ON")
ARGUMENTS = {".explain": ("on", "off"), ".timer": ("on", "off"), ".mode": ("table", "csv", "json", "transcript")}


def candidates(session: Session, commands: list[str], line: str, word: str) -> list[str]:
    """What the last word of a line may become. Where it is one thing alone, a blank follows, but not behind a folder. A
    text between quotes is never completed."""
    if line.count("'") % 2:
        return []
    first = line.split(maxsplit=1)[0] if line.split() else ""
    if first.startswith("."):
        found = of_command(session, commands, first, line, word)
    else:
        before = line[: len(line) - len(word)].upper().split()
        found = [in_case(name, word) for name in of_statement(session, before, word) if name.startswith(word.upper())]
    return [found[0] + " "] if len(found) == 1 and not found[0].endswith("/") else found


def of_command(session: Session, commands: list[str], first: str, line: str, word: str) -> list[str]:
    """The commands, or what may follow one."""
    if line.strip() == first and not line.endswith(" "):
        return [command for command in commands if command.startswith(word)]
    if first == ".schema":
        return [name for name in session.catalogue.tables if name.startswith(word.upper())]
    if first in (".read", ".save"):
        return [path + ("/" if os.path.isdir(path) else "") for path in sorted(glob.glob(glob.escape(word) + "*"))]
    return [argument for argument in ARGUMENTS.get(first, ()) if argument.startswith(word)]


def of_statement(session: Session, before: list[str], word: str) -> list[str]:
    """The names and keywords that may stand behind these words."""
    catalogue = session.catalogue
    last = before[-1] if before else ""
    if last in BEFORE_TABLES:
        return sorted(catalogue.tables)
    if before[-2:] == ["DROP", "TRIGGER"]:
        return sorted(catalogue.triggers)
    if before[:2] == ["SET", "CONSTRAINTS"]:
        return sorted(["ALL", "DEFERRED", "IMMEDIATE", *catalogue.constraints])
    if not word:
        return []
    names = {column.name for table in catalogue.tables.values() for column in table.columns}
    return sorted(KEYWORDS | names | set(catalogue.tables))


def in_case(name: str, word: str) -> str:
    """A name in small letters where its beginning was typed so."""
    return name.lower() if word and word == word.lower() else name
