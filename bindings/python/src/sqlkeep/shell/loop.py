"""The shell's loop: it reads lines, executes each statement once, and shows what it answers."""
from __future__ import annotations

import difflib
import os
import time
from typing import Any, NamedTuple, TextIO

from ..errors import DatabaseError, Error
from ..plans import first_word
from ..session import Outcome, Session
from ..text import spans
from ..transcript import Answer, Refusal
from .commands import COMMANDS, Failed, read, run_command
from .complete import candidates
from .interrupts import Interrupts
from .kept import Kept
from .screen import Screen
from .show import as_account, as_csv, as_json, as_table, caret, counted, visible
from .typed import Typed

__all__ = ["Shell"]

PROMPT, MORE = "sqlkeep> ", "   ...> "
DONE = {"INSERT": "inserted", "UPDATE": "updated", "DELETE": "deleted"}
# What people type who want a command.
WORDS = {"help": ".help", "quit": ".quit", "exit": ".quit", "\\q": ".quit", "?": ".help"}
# As many violations are listed; the others are counted.
MOST_LISTED = 20


class Shell:
    """A shell over a session."""

    def __init__(self, session: Session, stdin: TextIO, stdout: TextIO, stderr: TextIO) -> None:
        self.session = session
        self.stdin, self.stdout, self.stderr = stdin, Screen(stdout), Screen(stderr)
        self.kept = Kept()
        self.typed = Typed()
        self.mode = "table"
        self.timer = False
        self.is_over = False
        self.has_readline = False
        self.number = 0
        self.is_at_terminal = stdin.isatty() and self.stdout.is_terminal
        # 1 where something was refused or is no statement.
        self.status = 0

    # ---- reading

    def run(self, file: str | None) -> int:
        """Executes the file, if there is one, and then what is typed, to the end."""
        if file is not None:
            try:
                read(self, file)
            except Failed as why:
                self.complain(str(why))
                return 2
        if self.is_at_terminal:
            self.greet()
        self.read_all()
        if self.session.in_transaction and self.is_at_terminal:
            self.write("the open transaction is rolled back\n")
        return 0 if self.is_at_terminal else self.status

    def greet(self) -> None:
        self.prepare_terminal()
        self.write("sqlkeep: .help lists the commands, and Ctrl-D ends. The database is in memory alone.\n")

    def prepare_terminal(self) -> None:
        """Editing, history and completion, where Python has readline."""
        try:
            import readline  # pylint: disable=import-outside-toplevel
        except ImportError:
            return
        self.has_readline = True
        readline.set_completer_delims(" \t\n(),;=<>+-*'")
        readline.parse_and_bind("tab: complete")
        found: list[str] = []

        def complete(word: str, state: int) -> str | None:
            if state == 0:
                line = readline.get_line_buffer()[: readline.get_endidx()]
                found[:] = candidates(self.session, list(COMMANDS), line, word)
            return found[state] if state < len(found) else None

        readline.set_completer(complete)
        self.keep_history(readline)

    def keep_history(self, readline: Any) -> None:
        """Reads the history of earlier shells, and writes it at the end."""
        import atexit  # pylint: disable=import-outside-toplevel

        path = os.environ.get("SQLKEEP_HISTORY", os.path.expanduser("~/.sqlkeep_history"))
        try:
            readline.read_history_file(path)
        except OSError:
            pass
        readline.set_history_length(1000)

        def write() -> None:
            try:
                os.close(os.open(path, os.O_WRONLY | os.O_CREAT, 0o600))
                readline.write_history_file(path)
            except OSError:
                pass

        atexit.register(write)

    def read_all(self) -> None:
        """Reads lines up to the end, and executes what is whole."""
        while not self.is_over:
            try:
                line = self.read_line(MORE if self.typed.lines else PROMPT)
            except KeyboardInterrupt:
                if not self.is_at_terminal:
                    self.status = 130
                    return
                # A terminal shows Ctrl-C itself, unless readline reads from it.
                self.write("^C\n" if self.has_readline else "\n")
                self.typed = Typed()
                continue
            if line is None:
                self.end()
                return
            self.take(line)

    def read_line(self, prompt: str) -> str | None:
        """The next line; None at the end."""
        if not self.is_at_terminal:
            line = self.stdin.readline()
            return line.rstrip("\n") if line else None
        try:
            return input(prompt)
        except EOFError:
            self.write("\n")
            return None

    def take(self, line: str) -> None:
        """Takes a line behind those that were typed before, and executes them if they are whole now."""
        word = line.strip().rstrip(";").lower()
        if not self.typed.lines and (word.startswith(".") or word in WORDS):
            self.command(WORDS.get(word, line))
        elif self.typed.is_open and not self.typed.in_text and (word in WORDS or word in COMMANDS):
            self.complain("a statement is open: end it with a semicolon, or drop it with Ctrl-C")
        elif self.typed.add(line):
            text, self.typed = self.typed.text, Typed()
            self.execute_text(text)

    def end(self) -> None:
        """Ends with what came last, which isn't whole. At a terminal it is dropped; the last statement of a file needs no semicolon."""
        if self.typed.is_open and not self.is_at_terminal:
            self.execute_text(self.typed.text)
        elif self.typed.is_open:
            self.complain("the last statement isn't whole, and wasn't executed: it lacks its semicolon")

    def command(self, line: str) -> None:
        try:
            run_command(self, line)
        except Failed as why:
            self.complain(str(why))
        except Error as error:
            self.complain(str(error))

    # ---- executing

    def execute_text(self, text: str, name: str | None = None) -> None:
        """Executes each statement of a text once. A refusal stops none of those after it."""
        at = line = start_of_line = 0
        with Interrupts() as interrupts:
            for start, end in spans(text):
                line += text.count("\n", at, start)
                start_of_line, at = max(start_of_line, text.rfind("\n", at, start) + 1), start
                self.execute(text, start, end, Where(name, line + 1, start - start_of_line + 1))
                if interrupts.came:
                    self.complain("interrupted; the statements after this one weren't executed")
                    return

    def execute(self, text: str, start: int, end: int, where: Where) -> None:
        """Executes the statement between two places of a text."""
        part = text[start:end]
        began = time.perf_counter()
        try:
            outcome = self.session.execute(part)
        except DatabaseError as error:
            if error.line is None:
                self.complain(visible(str(error)))
            else:
                self.complain(f"No statement at {where.of_fault(error)}", caret(text, start + error._at))
            return
        took = time.perf_counter() - began
        self.number += 1
        self.keep(part, outcome)
        self.show(part, outcome, where)
        if self.timer:
            self.stdout.line(f"{took:.3f} s", "dim")
            self.stdout.flush()

    def keep(self, part: str, outcome: Outcome) -> None:
        if outcome.error is None:
            self.kept.accept(part)
        elif outcome.error.cause == 19:
            self.kept.refuse_commit()

    # ---- showing

    def write(self, text: str) -> None:
        self.stdout.write(text)
        self.stdout.flush()

    def complain(self, text: str, more: str = "") -> None:
        """Says what is wrong, and more about it, on standard error."""
        self.status = 1
        self.stdout.flush()
        self.stderr.line(text, "refused")
        self.stderr.write(more)
        self.stderr.flush()

    def show(self, part: str, outcome: Outcome, where: Where) -> None:
        """Shows what a statement answered, and its account where it is asked for."""
        if self.mode == "transcript":
            self.write(str(self.answer(outcome)))
            self.status = 1 if outcome.error is not None else self.status
            return
        if outcome.error is not None:
            self.show_refusal(outcome.error, where)
        elif outcome.rows is not None:
            self.show_rows(outcome)
        elif self.mode == "table":
            self.stdout.line(done(part, outcome), "ok")
        if self.session.explain:
            self.stdout.write(as_account(outcome.account))
        self.stdout.flush()

    def show_rows(self, outcome: Outcome) -> None:
        rows = outcome.rows or []
        if self.mode == "table":
            head, *lines, count = as_table(outcome.columns, rows)
            self.stdout.line(head, "head")
            self.stdout.write("".join(f"{line}\n" for line in lines))
            self.stdout.line(count, "dim")
        else:
            self.stdout.write((as_csv if self.mode == "csv" else as_json)(outcome.columns, rows))

    def answer(self, outcome: Outcome) -> Answer:
        """The outcome as the program writes it."""
        refusal = outcome.error.refusal or Refusal(outcome.error.cause or 0, outcome.error.cause_name or "") if outcome.error is not None else None
        rows = None if outcome.rows is None else tuple(outcome.rows)
        told = Answer(self.number, outcome.count, rows, refusal)
        return Answer(self.number, outcome.count, rows, refusal, outcome.account) if self.session.explain else told

    def show_refusal(self, error: DatabaseError, where: Where) -> None:
        """Says why a statement was refused, with all violations of a COMMIT."""
        violations = error.violations if len(error.violations) > 1 and not self.session.explain else []
        left = len(violations) - MOST_LISTED
        more = "".join(f"  {visible(str(violation))}\n" for violation in violations[:MOST_LISTED]) + (f"  and {left} more\n" if left > 0 else "")
        self.complain(f"Refused{where.of_refusal()}: {visible(str(error))}{self.hint(error)}", more)

    def hint(self, error: DatabaseError) -> str:
        """A name that is like the one that isn't there."""
        if error.cause != 1 or error.name is None:
            return ""
        catalogue = self.session.catalogue
        names = [*catalogue.tables, *catalogue.triggers, *catalogue.constraints, *(column.name for table in catalogue.tables.values() for column in table.columns)]
        near = difflib.get_close_matches(error.name.rpartition(".")[2], names, 1)
        return f"; did you mean {near[0]}?" if near else ""


class Where(NamedTuple):
    """Where a statement begins: the file that it is of, if it is of one, its line and its column."""

    name: str | None
    line: int
    column: int

    def of_refusal(self) -> str:
        """The place behind `Refused`: that of a statement of a file."""
        return f" at {visible(self.name)}, line {self.line}" if self.name is not None else ""

    def of_fault(self, error: DatabaseError) -> str:
        """The place of a fault in the statement, and what is probably the matter."""
        line = error.line or 1
        column = (error.column or 1) + (self.column - 1 if line == 1 else 0)
        name = f"{visible(self.name)}, " if self.name is not None else ""
        return f"{name}line {self.line + line - 1}, column {column}{': ' + error._hint if error._hint else ''}"


def done(part: str, outcome: Outcome) -> str:
    """What a statement did: `ok`, and how many rows."""
    return "ok" if outcome.count is None else f"ok, {counted(outcome.count, 'row')} {DONE.get(first_word(part), 'changed')}"
