"""What tables, constraints and triggers of a script say, read from their words.

The engine has accepted these statements, or is asked about them besides; here only their parts are found.
"""
from __future__ import annotations

from dataclasses import dataclass, field
from typing import Sequence

from ..text import Token, tokens

__all__ = ["Column", "Constraint", "Cursor", "Reference", "Table", "Trigger", "added_constraint", "table", "trigger"]


@dataclass
class Reference:
    """What REFERENCES says."""

    table: str
    columns: list[str] = field(default_factory=list)
    is_full: bool = False
    on_delete: str | None = None
    on_update: str | None = None


@dataclass
class Constraint:
    """A constraint: `kind` is NOT NULL, UNIQUE, PRIMARY KEY, CHECK or FOREIGN KEY. One that isn't named in the text may get the name
    that the engine gave it. `there` is its name in PostgreSQL if it isn't the same."""

    kind: str
    name: str | None = None
    there: str | None = None
    is_named: bool = False
    columns: list[str] = field(default_factory=list)
    condition: list[Token] = field(default_factory=list)
    reference: Reference | None = None
    is_deferrable: bool = False
    is_deferred: bool = False
    nulls_are_equal: bool = False


@dataclass
class Column:
    """A column: its type is INTEGER if it has no length, else a VARCHAR."""

    name: str
    length: str | None = None
    default: list[Token] = field(default_factory=list)


@dataclass
class Table:
    """A table, with its constraints in the order in which they are written."""

    name: str
    columns: list[Column] = field(default_factory=list)
    constraints: list[Constraint] = field(default_factory=list)


@dataclass
class Trigger:
    """A trigger. `rows` has OLD or NEW for each row variable, and `tables` OLD or NEW for each transition table, by their names."""

    name: str
    time: str
    event: str
    table: str
    columns: list[str] = field(default_factory=list)
    rows: dict[str, str] = field(default_factory=dict)
    tables: dict[str, str] = field(default_factory=dict)
    for_each_row: bool = False
    when: list[Token] = field(default_factory=list)
    acts: list[list[Token]] = field(default_factory=list)


class Cursor:
    """Words of a statement, read one after another."""

    def __init__(self, words: Sequence[Token]) -> None:
        self._words, self._at = words, 0

    def peek(self, ahead: int = 0) -> str:
        """A word, in upper case; empty behind the last."""
        return self._words[self._at + ahead].word if self._at + ahead < len(self._words) else ""

    def next(self) -> Token:
        """The next word."""
        self._at += 1
        return self._words[self._at - 1]

    def take(self, *words: str) -> bool:
        """Whether these words come next, which are then behind."""
        found = [self.peek(ahead) for ahead in range(len(words))] == list(words)
        self._at += len(words) if found else 0
        return found

    def name(self) -> str:
        """The next word, as a name."""
        return self.next().word

    def names(self) -> list[str]:
        """A list of names in parentheses."""
        return [token.word for token in self.inside() if token.word != ","]

    def inside(self) -> list[Token]:
        """The words between an opening parenthesis, which comes next, and its closing one."""
        found: list[Token] = []
        depth = 0
        while True:
            token = self.next()
            depth += (token.word == "(") - (token.word == ")")
            if depth == 0:
                return found[1:]
            found.append(token)

    def until(self, *ends: str) -> list[Token]:
        """The words up to one of these outside of parentheses, or up to the end."""
        found: list[Token] = []
        depth = 0
        while self.peek() and not (depth == 0 and self.peek() in ends):
            token = self.next()
            depth += (token.word == "(") - (token.word == ")")
            found.append(token)
        return found


def cursor_of(text: str) -> Cursor:
    words = tokens(text)
    return Cursor(words[:-1] if words and words[-1].word == ";" else words)


def action(cursor: Cursor) -> str:
    for words in (("NO", "ACTION"), ("SET", "NULL"), ("SET", "DEFAULT")):
        if cursor.take(*words):
            return " ".join(words)
    return cursor.name()


def reference(cursor: Cursor) -> Reference:
    found = Reference(cursor.name())
    if cursor.peek() == "(":
        found.columns = cursor.names()
    if cursor.take("MATCH"):
        found.is_full = cursor.name() == "FULL"
    while cursor.take("ON"):
        if cursor.name() == "DELETE":
            found.on_delete = action(cursor)
        else:
            found.on_update = action(cursor)
    return found


def timed(cursor: Cursor, constraint: Constraint) -> Constraint:
    """The constraint with its DEFERRABLE and INITIALLY."""
    constraint.is_named = constraint.name is not None
    while True:
        if cursor.take("NOT", "DEFERRABLE"):
            constraint.is_deferrable = False
        elif cursor.take("DEFERRABLE"):
            constraint.is_deferrable = True
        elif cursor.take("INITIALLY", "DEFERRED"):
            constraint.is_deferrable = constraint.is_deferred = True
        elif not cursor.take("INITIALLY", "IMMEDIATE"):
            return constraint


def constraint_of(cursor: Cursor, column: str | None) -> Constraint | None:
    """The constraint that comes next, of a column or of a table; None if none comes."""
    name = cursor.name() if cursor.take("CONSTRAINT") else None
    own = [] if column is None else [column]
    if column is not None and cursor.take("NOT", "NULL"):
        return timed(cursor, Constraint("NOT NULL", name, columns=own))
    if cursor.take("UNIQUE"):
        equal = cursor.take("NULLS", "NOT", "DISTINCT")
        return timed(cursor, Constraint("UNIQUE", name, columns=own or cursor.names(), nulls_are_equal=equal))
    if cursor.take("PRIMARY", "KEY"):
        return timed(cursor, Constraint("PRIMARY KEY", name, columns=own or cursor.names()))
    if cursor.take("CHECK"):
        return timed(cursor, Constraint("CHECK", name, condition=cursor.inside()))
    columns = cursor.names() if column is None and cursor.take("FOREIGN", "KEY") else own
    if cursor.take("REFERENCES"):
        return timed(cursor, Constraint("FOREIGN KEY", name, columns=columns, reference=reference(cursor)))
    return None


def column_of(cursor: Cursor) -> Column:
    found = Column(cursor.name())
    cursor.next()
    cursor.take("VARYING")
    if cursor.peek() == "(":
        found.length = cursor.inside()[0].word
    if cursor.take("DEFAULT"):
        if cursor.peek() in ("+", "-"):
            found.default.append(cursor.next())
        found.default.append(cursor.next())
    return found


def table(text: str) -> Table:
    """What a CREATE TABLE says."""
    cursor = cursor_of(text)
    cursor.take("CREATE", "TABLE")
    found = Table(cursor.name())
    inside = Cursor(cursor.inside())
    while inside.peek():
        constraint = constraint_of(inside, None)
        if constraint is not None:
            found.constraints.append(constraint)
        else:
            column = column_of(inside)
            found.columns.append(column)
            while (constraint := constraint_of(inside, column.name)) is not None:
                found.constraints.append(constraint)
        inside.take(",")
    return found


def added_constraint(text: str) -> tuple[str, Constraint]:
    """The table of an ALTER TABLE, and the constraint that it adds."""
    cursor = cursor_of(text)
    cursor.take("ALTER", "TABLE")
    name = cursor.name()
    cursor.take("ADD")
    constraint = constraint_of(cursor, None)
    assert constraint is not None
    return name, constraint


def items(cursor: Cursor, found: Trigger) -> None:
    """The items of REFERENCING."""
    while cursor.peek() in ("OLD", "NEW"):
        side = cursor.name()
        is_table = cursor.take("TABLE")
        if not is_table:
            cursor.take("ROW")
        cursor.take("AS")
        (found.tables if is_table else found.rows)[cursor.name()] = side


def trigger(text: str) -> Trigger:
    """What a CREATE TRIGGER says."""
    cursor = cursor_of(text)
    cursor.take("CREATE", "TRIGGER")
    found = Trigger(cursor.name(), cursor.name(), cursor.name(), "")
    if cursor.take("OF"):
        found.columns = [token.word for token in cursor.until("ON") if token.word != ","]
    cursor.take("ON")
    found.table = cursor.name()
    if cursor.take("REFERENCING"):
        items(cursor, found)
    if cursor.take("FOR", "EACH"):
        found.for_each_row = cursor.name() == "ROW"
    if cursor.take("WHEN"):
        found.when = cursor.inside()
    if not cursor.take("BEGIN", "ATOMIC"):
        found.acts = [cursor.until()]
        return found
    while cursor.peek() and not cursor.take("END"):
        found.acts.append(cursor.until(";"))
        cursor.take(";")
    return found
