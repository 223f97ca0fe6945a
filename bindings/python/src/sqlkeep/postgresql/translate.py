"""A script as statements of PostgreSQL, statement by statement.

The script is run in this engine on the way, since what a statement becomes depends on the tables that are there and on whether a
transaction is open.
"""
from __future__ import annotations

from dataclasses import dataclass, field
from typing import Iterator

from ..catalogue import Catalogue
from ..errors import ProgrammingError
from ..session import Outcome, Session
from ..text import Token, place_of, spans, tokens
from . import differences, reading, tables, triggers
from .expressions import expression
from .levels import EVENTS, Statement
from .quoting import Sql, comment, identifier, joined, keywords, plain_name, sql
from .savepoints import Savepoints
from .tables import KeyColumns

__all__ = ["Translation", "Translator", "psql_script", "translated"]

# PostgreSQL cuts names behind 63 characters; `_holds` stands behind that of a constraint.
LONGEST_CONSTRAINT = 57


@dataclass
class Translation:
    """A statement of a script: its text, what it answers here, the catalogue before it, its statements for PostgreSQL without
    semicolons, why PostgreSQL may answer otherwise, and which of its names are others there."""

    text: str
    outcome: Outcome
    catalogue: Catalogue
    statements: list[Sql] = field(default_factory=list)
    differs: list[str] = field(default_factory=list)
    renamed: list[str] = field(default_factory=list)
    event: str = ""


@dataclass
class Whole:
    """What is known of a script when it has run: the keys that foreign keys refer to, the tables, and the constraints, by their names there."""

    referenced: set[KeyColumns]
    tables: set[str]
    constraints: set[str]


def whole_of(parts: list[str], depth: int, changes: int) -> Whole:
    with Session(depth, changes) as session:
        for part in parts:
            session.execute(part)
        made = session.catalogue
    referenced = {(each.referenced, frozenset(each.referenced_columns)) for each in made.constraints.values() if each.referenced is not None}
    return Whole(referenced, set(map(plain_name, made.tables)), set(map(plain_name, made.constraints)))


class Translator:
    """A script on its way, with what is known of it so far."""

    def __init__(self, script: str, depth: int, changes: int) -> None:
        self.session = Session(depth, changes, explain=True)
        refuse_nul(script)
        self.parts = self.session.parts(script)
        self._whole = whole_of(self.parts, depth, changes)
        #: The name here of each constraint there.
        self.constraints: dict[str, str] = {}
        #: The columns of a table that PostgreSQL has as NOT NULL, with the constraint here that says so.
        self.filled: list[tuple[tuple[str, str], str]] = []
        self._there: dict[str, str] = {}
        self._numbers: dict[str, int] = {}
        self._made = 0
        self._triggers: dict[str, reading.Trigger] = {}
        self._savepoints = Savepoints()

    def steps(self) -> Iterator[Translation]:
        """Runs the statements here, and translates each."""
        return map(self._take, self.parts)

    def _take(self, text: str) -> Translation:
        catalogue, was_open = self.session.catalogue, self.session.in_transaction
        outcome = self.session.execute(text)
        words = tokens(text)
        words = words[:-1] if words[-1].word == ";" else words
        found = Translation(text, outcome, catalogue, event=words[0].word)
        self._write(found, words, was_open)
        found.differs = differences.of_statement(Statement(words, outcome, catalogue, self.session, self._triggers, self._whole.referenced, {name for _, name in self.filled}))
        return found

    def _write(self, found: Translation, words: list[Token], was_open: bool) -> None:
        first = words[0].word
        if first in EVENTS:
            self._change(found, words, was_open)
        elif first == "CREATE" and words[1].word == "TABLE":
            made = reading.table(found.text)
            self._name(made.name, made.constraints, found)
            found.renamed = differences.of_own_names([made.name, *(column.name for column in made.columns)]) + found.renamed
            found.statements = tables.created(made, self._whole.referenced)
        elif first == "ALTER":
            table, constraint = reading.added_constraint(found.text)
            self._name(table, [constraint], found)
            found.statements = tables.added(table, constraint, self._whole.referenced)
        elif first in ("CREATE", "DROP"):
            self._trigger(found, words)
        else:
            self._transaction(found, words)

    def _name(self, table: str, constraints: list[reading.Constraint], found: Translation) -> None:
        """Gives the names of the catalogue to new constraints that have none, and another name to an index that would have that of a table."""
        if found.outcome.error is not None:
            return
        last = self.session.catalogue.constraints_of(table)[-len(constraints) :] if constraints else []
        for constraint, made in zip(constraints, last):
            constraint.name, constraint.there = made.name, plain_name(made.name)
            if tables.is_of_column(constraint) or constraint.kind == "PRIMARY KEY":
                self.filled += [((table, column), made.name) for column in constraint.columns]
            if tables.is_key(constraint) and constraint.there in self._whole.tables:
                constraint.there = self._free_name(constraint.there + "_key")
                found.renamed.append(f"{made.name} is {constraint.there} there: an index of PostgreSQL can't have the name of a table")
            if len(constraint.there) > LONGEST_CONSTRAINT:
                constraint.there = self._free_name(constraint.there)
                found.renamed.append(f"{made.name} is {constraint.there} there: PostgreSQL cuts longer names")
            self.constraints[constraint.there], self._there[made.name] = made.name, constraint.there

    def _free_name(self, wanted: str) -> str:
        """A name that no table and no constraint has, of at most as many characters as PostgreSQL keeps with what stands behind it."""
        name, number = wanted[:LONGEST_CONSTRAINT], 1
        while name in self._whole.tables | self._whole.constraints or name in self.constraints:
            number += 1
            name = f"{wanted[: LONGEST_CONSTRAINT - 5]}_{number}"
        return name

    def _change(self, found: Translation, words: list[Token], was_open: bool) -> None:
        found.statements = ([] if was_open else [sql("BEGIN")]) + [expression(words)]
        if not was_open and not self.session.in_transaction:
            found.statements.append(sql("ROLLBACK"))

    def _trigger(self, found: Translation, words: list[Token]) -> None:
        name = words[2].word
        if words[0].word == "DROP":
            made = self._triggers.get(name)
            found.statements = triggers.dropped(name, self._numbers.get(name, 0), made.table if made else None)
            if found.outcome.error is None:
                del self._triggers[name]
            return
        trigger = reading.trigger(found.text)
        self._made += 1
        number = self._numbers[name] if name in self._triggers else self._made
        if found.outcome.error is None:
            self._numbers[name], self._triggers[name] = number, trigger
        found.statements = triggers.created(trigger, number)

    def _transaction(self, found: Translation, words: list[Token]) -> None:
        first, last = words[0].word, words[-1].word
        if first == "SET":
            self._modes(found, words)
        elif first == "START":
            found.statements = [sql("BEGIN")]
        elif first == "SAVEPOINT":
            found.statements = [sql("SAVEPOINT {}", self._savepoints.made(last))]
        elif len(words) > 2 and words[-2].word == "SAVEPOINT":
            head = sql("RELEASE SAVEPOINT") if first == "RELEASE" else sql("ROLLBACK TO SAVEPOINT")
            found.statements = [sql("{} {}", head, self._savepoints.found(last, found.outcome.error is None)), *self._restored(found.catalogue)]
        else:
            found.statements = [expression(words)]
        if not self.session.in_transaction:
            self._savepoints = Savepoints()

    def _restored(self, before: Catalogue) -> list[Sql]:
        """Sets the modes that came back. PostgreSQL keeps what SET CONSTRAINTS did in a savepoint of psql."""
        back = [each for each in self.session.catalogue.constraints.values() if each.deferred != before.constraints[each.name].deferred]
        sorted_by_mode = [[each.name for each in back if each.deferred is mode] for mode in (True, False)]
        return [self._set(listed, mode) for listed, mode in zip(sorted_by_mode, ("DEFERRED", "IMMEDIATE")) if listed]

    def _set(self, listed: list[str], mode: str) -> Sql:
        there = (identifier(self._there.get(each, plain_name(each))) for each in listed)
        return sql("SET CONSTRAINTS {} {}", joined(", ", there), keywords(mode))

    def _modes(self, found: Translation, words: list[Token]) -> None:
        """SET CONSTRAINTS ALL names the constraints that are deferrable here, since PostgreSQL has more of them."""
        listed = [word.word for word in words[2:-1] if word.word != ","]
        if listed == ["ALL"]:
            listed = [each.name for each in self.session.catalogue.constraints.values() if each.deferrable]
        found.statements = [self._set(listed, words[-1].word) if listed else sql("SELECT WHERE false")]


def refuse_nul(script: str) -> None:
    """PostgreSQL has no text with U+0000, and psql reads no further in a line that has one."""
    at = next((each.start + each.word.index("\0") for each in tokens(script) if each.kind == "text" and "\0" in each.word), None)
    if at is not None:
        place = place_of(script, at)
        error = ProgrammingError(f"line {place.line}, column {place.column}: PostgreSQL has no text with the character U+0000")
        error.line, error.column = place.line, place.column
        error.statement = sum(end <= at for _, end in spans(script)) + 1
        raise error


def translated(script: str, depth: int = 16, changes: int = 65_536) -> list[Translation]:
    """The statements of a script for PostgreSQL. ProgrammingError if something of the script is no statement, or has U+0000 in a text."""
    translator = Translator(script, depth, changes)
    with translator.session:
        return list(translator.steps())


# The settings say how psql and PostgreSQL read the rest of the file, so no text stands before them.
HEADER = sql("""-- Made by sqlkeep for psql. A refused statement leaves the transaction as it was.
\\set AUTOCOMMIT on
\\set ON_ERROR_ROLLBACK on
\\set ON_ERROR_STOP off
SET standard_conforming_strings = on;
SET client_encoding = 'UTF8';
""")


def with_comments(translation: Translation) -> Sql:
    """The statements of a translation, below comments of what is otherwise in PostgreSQL."""
    notes = [comment(f"renamed: {reason}") for reason in translation.renamed] + [comment(f"differs: {reason}") for reason in translation.differs]
    return joined("", [*notes, *(sql("{};\n", statement) for statement in translation.statements)])


def psql_script(translations: list[Translation]) -> str:
    """The statements as a script for psql, with a comment above each that PostgreSQL may answer otherwise."""
    return str(joined("\n", [HEADER, *map(with_comments, translations)]))
