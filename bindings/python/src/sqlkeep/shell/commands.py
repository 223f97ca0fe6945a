"""The commands of the shell: `.help` and the others."""
from __future__ import annotations

import difflib
import os
from typing import TYPE_CHECKING, Callable

from ..text import folded
from .show import counted

if TYPE_CHECKING:
    from .loop import Shell

__all__ = ["COMMANDS", "Failed", "run_command"]


class Failed(Exception):
    """A command that didn't do what it is for; the text says why."""


def switch(word: str, command: str) -> bool:
    """on or off."""
    if word not in ("on", "off"):
        raise Failed(f"{command} is on or off: {command} on")
    return word == "on"


def explain(shell: Shell, word: str) -> None:
    shell.session.explain = switch(word, ".explain")


def timer(shell: Shell, word: str) -> None:
    shell.timer = switch(word, ".timer")


def mode(shell: Shell, word: str) -> None:
    if word not in ("table", "csv", "json", "transcript"):
        raise Failed(".mode is table, csv, json or transcript")
    shell.mode = word


def tables(shell: Shell, _: str) -> None:
    names = sorted(shell.session.catalogue.tables)
    shell.write("".join(f"{name}\n" for name in names) if names else "there are no tables\n")


def schema(shell: Shell, word: str) -> None:
    name = folded(word)
    if name and name not in shell.session.catalogue.tables:
        near = difflib.get_close_matches(name, shell.session.catalogue.tables, 1)
        raise Failed(f"table {name} isn't there{f'; did you mean {near[0]}?' if near else ''}")
    texts = [text for table, text in shell.kept.schema if name in ("", table)]
    shell.write("".join(f"{text}\n" for text in texts) if texts else "there are no tables\n")


def pending(shell: Shell, _: str) -> None:
    found, constraints = shell.session.pending(), shell.session.catalogue.constraints
    lines = [f"{each.constraint}: {constraints[each.constraint].table} row {each.row}\n" for each in found]
    shell.write("".join(lines) if lines else "no violation is pending\n")


def work(shell: Shell, _: str) -> None:
    done = shell.session.work()
    shell.write(f"{counted(done.changes, 'row change')}, {done.undone} undone, {counted(done.lookups, 'key')} looked up\n")


def read(shell: Shell, word: str) -> None:
    if not word:
        raise Failed(".read FILE")
    try:
        with open(os.path.expanduser(word), encoding="utf-8", newline="") as file:
            text = file.read()
    except (OSError, ValueError) as why:
        raise Failed(f"{word} can't be read: {reason_of(why)}") from None
    shell.execute_text(text, word)


def save(shell: Shell, word: str) -> None:
    if not word:
        raise Failed(".save FILE")
    path = os.path.realpath(os.path.expanduser(word))
    if os.path.exists(path) and path not in shell.kept.saved:
        raise Failed(f"{word} is there already; nothing was written")
    try:
        with open(path, "w", encoding="utf-8", newline="") as file:
            file.write("".join(f"{text}\n" for text in shell.kept.statements))
    except OSError as why:
        raise Failed(f"{word} can't be written: {reason_of(why)}") from None
    shell.kept.saved.add(path)
    shell.write(f"{counted(len(shell.kept.statements), 'statement')} in {word}\n")


def reason_of(why: Exception) -> str:
    """Why a file can't be read or written."""
    if isinstance(why, OSError):
        return str(why.strerror).lower()
    return "it isn't UTF-8" if isinstance(why, UnicodeError) else str(why)


def help_all(shell: Shell, _: str) -> None:
    width = max(len(usage) for usage, _, _ in COMMANDS.values())
    shell.write("".join(f"{usage:{width}}  {does}\n" for usage, does, _ in COMMANDS.values()))
    shell.write("Anything else is SQL, up to a semicolon. Ctrl-C drops what was typed, Ctrl-D ends.\n")


def leave(shell: Shell, _: str) -> None:
    shell.is_over = True


COMMANDS: dict[str, tuple[str, str, Callable[[Shell, str], None]]] = {
    ".explain": (".explain on|off", "tells what happens in each statement", explain),
    ".help": (".help", "lists the commands", help_all),
    ".mode": (".mode MODE", "shows rows as a table, csv, json or transcript", mode),
    ".pending": (".pending", "lists what COMMIT would find violated", pending),
    ".quit": (".quit", "ends the shell", leave),
    ".read": (".read FILE", "executes the statements of a file", read),
    ".save": (".save FILE", "writes the statements that were accepted", save),
    ".schema": (".schema [TABLE]", "shows the statements that made the tables and triggers", schema),
    ".tables": (".tables", "lists the tables", tables),
    ".timer": (".timer on|off", "tells how long each statement takes", timer),
    ".work": (".work", "tells the work of the last statement", work),
}


def run_command(shell: Shell, line: str) -> None:
    """Runs a command of the shell; Failed says why it can't."""
    name, _, argument = line.strip().partition(" ")
    found = COMMANDS.get(".quit" if name == ".exit" else name)
    if found is None:
        near = difflib.get_close_matches(name, COMMANDS, 1)
        raise Failed(f"there is no command {name}{f'; did you mean {near[0]}?' if near else '; .help lists them'}")
    if argument.strip() and " " not in found[0]:
        raise Failed(f"{name} stands alone")
    found[2](shell, argument.strip())
