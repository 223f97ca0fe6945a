"""Writes a schema as a script of this language.

A session runs each statement as it is written; one that the engine refuses is left out, with its reason. First the tables come, with
their keys and CHECKs, then the rows, then the foreign keys, so that tables and rows need no order.
"""
from __future__ import annotations

from typing import Callable, Iterable, Iterator, Sequence

from ..errors import DatabaseError
from ..session import Session
from ..shell.show import visible
from ..values import Value, write_value
from .conditions import Name, written
from .names import Names
from .schema import CHANGED, LEFT_OUT, Check, Column, ForeignKey, Key, Note, Schema, Table
from .words import CannotSay, text_of

__all__ = ["Script"]

LEAST = -2**63
# How many rows a transaction has.
TOGETHER = 10_000
SHOWN = 200

RowsOf = Callable[[Table], Iterable[Sequence[Value]]]


def refusal(session: Session, statement: str) -> str | None:
    """Why the engine refuses a statement; None if it doesn't."""
    try:
        error = session.execute(statement).error
    except DatabaseError as fault:
        error = fault
    return None if error is None else str(error)


def literal(value: Value) -> str:
    """A value of a row. The least integer has no literal."""
    return f"{LEAST + 1} - 1" if value == LEAST else write_value(value)


def listed(names: Iterable[str]) -> str:
    return f"({', '.join(names)})"


class TableNames:
    """What a table and its columns are called here."""

    def __init__(self, table: Table, tables: Names) -> None:
        names = Names()
        self.name = tables.of(table.name)
        self.columns = {column.name.lower(): names.of(column.name) for column in table.columns}
        for there, here in [(table.name, self.name), *((column.name, self.columns[column.name.lower()]) for column in table.columns)]:
            if there.lower() != here.lower():
                table.note(CHANGED, f"{there} is called {here}")

    def list_of(self, columns: Iterable[str]) -> str:
        return listed(self.columns[column.lower()] for column in columns)


class Script:
    """A script that is being written: its lines, and all notes in them."""

    def __init__(self, schema: Schema, rows_of: RowsOf | None = None) -> None:
        self.lines: list[str] = []
        self.notes: list[Note] = []
        self._schema, self._session, self._trial = schema, Session(), Session()
        self._constraints = Names()
        tables = Names()
        self._names = {table.name.lower(): TableNames(table, tables) for table in schema.tables}
        same_lengths(schema)
        made = [table for table in schema.tables if self.table(table)]
        if rows_of is not None:
            for table in made:
                self.rows(table, rows_of(table))
        for table in made:
            self.foreign_keys(table)
        self.space()
        self.tell(schema.notes)

    @property
    def text(self) -> str:
        return "\n".join(self.lines).rstrip("\n") + "\n" if self.lines else ""

    def tell(self, notes: Iterable[Note]) -> None:
        """Writes notes as comments."""
        for note in notes:
            self.notes.append(note)
            self.lines.append(f"-- {visible(str(note))}")

    def space(self) -> None:
        """Writes an empty line, unless there is one."""
        if self.lines and self.lines[-1]:
            self.lines.append("")

    def left_out(self, table: Table, about: str) -> None:
        self.tell([Note(LEFT_OUT, about, table.name)])

    def run(self, statement: str, table: Table, about: str) -> bool:
        """Writes a statement if the engine doesn't refuse it, and a note otherwise."""
        fault = refusal(self._session, statement)
        if fault is None:
            self.lines.append(statement)
        else:
            self.left_out(table, f"{about}: {fault}")
        return fault is None

    def table(self, table: Table) -> bool:
        """Writes a table with what is only about its own rows, and says whether there is one."""
        names = self._names[table.name.lower()]
        columns = [self.column(table, column) for column in table.columns]
        self.space()
        fault = refusal(self._trial, f"CREATE TABLE {names.name} {listed(columns)};")
        if fault is not None:
            self.left_out(table, ", ".join([f"table {table.name}", *(f"index {index}" for index in table.indexes)]) + f": {fault}")
            return False
        constraints = [*self.accepted(table, [(self.key(table, key), f"{kind_of(key)} of {', '.join(key.columns)}") for key in table.keys]), *self.checks(table)]
        self.tell(table.notes)
        return self.run(f"CREATE TABLE {names.name} (\n    " + ",\n    ".join([*columns, *constraints]) + "\n);", table, f"table {table.name}")

    def accepted(self, table: Table, constraints: list[tuple[str, str]]) -> Iterator[str]:
        """Those of a table's constraints that the engine takes; of the others there is a note."""
        for constraint, about in constraints:
            fault = refusal(self._trial, f"ALTER TABLE {self._names[table.name.lower()].name} ADD {constraint};")
            if fault is None:
                yield constraint
            else:
                table.note(LEFT_OUT, f"{about}: {fault}")

    def named(self, name: str | None, table: Table) -> str:
        """The words for the name of a constraint."""
        if name is None:
            return ""
        here = self._constraints.of(name, True)
        if here.lower() != name.lower():
            table.note(CHANGED, f"constraint {name} is called {here}")
        return f"CONSTRAINT {here} "

    def column(self, table: Table, column: Column) -> str:
        kind = "INT" if column.length is None else f"VARCHAR({column.length})"
        default = f" DEFAULT {write_value(column.default)}" if column.default is not None else ""
        not_null = f" {self.named(column.not_null_name, table)}NOT NULL" if column.not_null else ""
        return f"{self._names[table.name.lower()].columns[column.name.lower()]} {kind}{default}{not_null}"

    def key(self, table: Table, key: Key) -> str:
        nulls = " NULLS NOT DISTINCT" if key.nulls_not_distinct else ""
        time = f" {key.time}" if key.time else ""
        return f"{self.named(key.name, table)}{kind_of(key)}{nulls} {self._names[table.name.lower()].list_of(key.columns)}{time}"

    def checks(self, table: Table) -> list[str]:
        found = []
        for check in table.checks:
            about = f"{f'CHECK {check.name}' if check.name else 'CHECK'} ({text_of(check.condition)})"
            try:
                condition = self.condition(table, check)
            except CannotSay as fault:
                table.note(LEFT_OUT, f"{about}: {fault}")
            else:
                found.append((f"{self.named(check.name, table)}CHECK ({condition})", about))
        return list(self.accepted(table, found))

    def condition(self, table: Table, check: Check) -> str:
        columns = self._names[table.name.lower()].columns

        def name_of(word: str) -> Name | None:
            column = table.column(word)
            return None if column is None else Name(columns[column.name.lower()], column.comparable, column.length is not None)

        text = written(check.condition, name_of)
        return text[1:-1] if text.startswith("(") and closes_at_end(text) else text

    def rows(self, table: Table, rows: Iterable[Sequence[Value]]) -> None:
        """Writes the rows of a table, which come with an error in place of a value that can't be said."""
        name = self._names[table.name.lower()].name
        self.space()
        for count, row in enumerate(rows, 1):
            faults = [str(value) for value in row if isinstance(value, CannotSay)]
            if faults:
                self.left_out(table, f"row {count}: {shortened(faults[0])}")
            else:
                values = listed(map(literal, row))
                self.run(f"INSERT INTO {name} VALUES {values};", table, f"row {count} {shortened(values)}")
            if count % TOGETHER == 0:
                self.run("COMMIT;", table, "rows")
        if self._session.in_transaction:
            self.run("COMMIT;", table, "rows")

    def foreign_keys(self, table: Table) -> None:
        """Writes the foreign keys of a table."""
        names = self._names[table.name.lower()]
        for key in table.foreign_keys:
            about = f"foreign key {listed(key.columns)} of {table.name} to {key.table} {listed(key.referenced)}"
            to = self._schema.table(key.table)
            self.space()
            if to is None or not all(map(to.column, key.referenced)) or not key.referenced:
                self.left_out(table, f"{about}: there is no such key")
                continue
            notes = len(table.notes)
            constraint = f"{self.named(key.name, table)}FOREIGN KEY {names.list_of(key.columns)} {self.reference(key)}"
            self.tell(table.notes[notes:])
            self.run(f"ALTER TABLE {names.name} ADD {constraint};", table, about)

    def reference(self, key: ForeignKey) -> str:
        to = self._names[key.table.lower()]
        actions = [f"ON {event} {action}" for event, action in (("DELETE", key.on_delete), ("UPDATE", key.on_update)) if action != "NO ACTION"]
        return " ".join([f"REFERENCES {to.name} {to.list_of(key.referenced)}", *([key.match] if key.match else []), *actions, *([key.time] if key.time else [])])


def shortened(text: str) -> str:
    return f"{text[:SHOWN]}.." if len(text) > SHOWN else text


def kind_of(key: Key) -> str:
    return "PRIMARY KEY" if key.is_primary else "UNIQUE"


def closes_at_end(text: str) -> bool:
    """Whether the parenthesis that a condition begins with closes at its end."""
    depth, in_text = 0, False
    for at, character in enumerate(text):
        in_text ^= character == "'"
        depth += 0 if in_text else (character == "(") - (character == ")")
        if depth == 0:
            return at == len(text) - 1
    return False


def same_lengths(schema: Schema) -> None:
    """Gives the columns of a foreign key the length of those that they refer to, as this language asks for: the greater of the two."""
    pairs = [(table, table.column(here), to.column(there)) for table in schema.tables for key in table.foreign_keys for to in [schema.table(key.table)] if to is not None for here, there in zip(key.columns, key.referenced)]
    is_changed = True
    while is_changed:
        is_changed = False
        for table, here, there in pairs:
            if here is None or there is None or here.length is None or there.length is None or here.length == there.length:
                continue
            is_changed = True
            shorter = min(here, there, key=lambda column: column.length or 0)
            shorter.length = max(here.length, there.length)
            owner = next(each for each in schema.tables if any(column is shorter for column in each.columns))
            owner.note(CHANGED, f"{shorter.name} is VARCHAR({shorter.length}), as the foreign key of {table.name} asks")
