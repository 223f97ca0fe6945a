"""What happened in each data statement of a statement, its own and those of triggers, from its account."""
from __future__ import annotations

from dataclasses import dataclass
from functools import cached_property
from typing import Iterable, Iterator, Mapping, Sequence, Union

from ..account import Account, Action, Change, Event, Skipped, Violation
from ..account import Trigger as Ran
from ..catalogue import Catalogue, Constraint
from ..session import Outcome, Session
from ..text import Token
from ..values import Value
from .reading import Trigger
from .tables import KeyColumns

__all__ = ["EVENTS", "Asked", "Level", "Statement", "levels", "values_at"]

# The place of the table's name in a data statement.
EVENTS = {"INSERT": 2, "DELETE": 2, "UPDATE": 1}
Asked = Union[Ran, Skipped]


@dataclass
class Statement:
    """A statement that was executed: its words, what it answered, the catalogue before it, the triggers by their names in creation order,
    the keys that foreign keys refer to, and the constraints that are NOT NULL of a column there."""

    words: Sequence[Token]
    outcome: Outcome
    catalogue: Catalogue
    session: Session
    triggers: Mapping[str, Trigger]
    referenced: set[KeyColumns]
    filled: set[str]

    @cached_property
    def account(self) -> Account:
        """What happened in it."""
        return self.outcome.account

    @property
    def cause(self) -> int | None:
        """The number of the cause that refused it."""
        return self.outcome.error.cause if self.outcome.error is not None else None

    @property
    def violation(self) -> Violation | None:
        """The first violation of which the refusal speaks."""
        error = self.outcome.error
        return error.violations[0] if error is not None and error.violations else None

    def is_at_once(self, name: str, changes: Iterable[Change] = ()) -> bool:
        """Whether PostgreSQL tests a constraint as soon as a row is stored, also the nulls of a PRIMARY KEY that can wait."""
        constraint = self.catalogue.constraints[name]
        if constraint.kind == "PRIMARY KEY" and self.nulls(constraint, changes):
            return True
        is_late_key = constraint.kind in ("UNIQUE", "PRIMARY KEY") and (constraint.table, frozenset(constraint.columns)) not in self.referenced
        return not constraint.deferrable and constraint.kind != "FOREIGN KEY" and not is_late_key

    def nulls(self, constraint: Constraint, changes: Iterable[Change]) -> list[int]:
        """The places of a constraint's columns in which a changed row has NULL."""
        rows = [each.after for each in changes if each.table == constraint.table and each.after is not None]
        return sorted(at for at in self.places(constraint.table, constraint.columns) if any(row[at] is None for row in rows))

    def running(self, time: str, event: str, table: str, for_each_row: bool) -> list[Trigger]:
        """The triggers of a table for this, in creation order."""
        return [each for each in self.triggers.values() if (each.time, each.event, each.table, each.for_each_row) == (time, event, table, for_each_row)]

    def keys(self, table: str) -> list[Constraint]:
        """The foreign keys that refer to a table."""
        return [each for each in self.catalogue.constraints.values() if each.referenced == table]

    def places(self, table: str, columns: Iterable[str]) -> list[int]:
        """The places of columns in the rows of their table."""
        there = [each.name for each in self.catalogue.tables[table].columns]
        return [there.index(each) for each in columns]

    def lost(self, key: Constraint, changes: Iterable[Change]) -> list[Change]:
        """The changes that take away a key to which a foreign key may refer."""
        places = self.places(key.referenced, key.referenced_columns) if key.referenced is not None else []
        return [each for each in changes if each.table == key.referenced and each.before is not None and is_lost(each.before, each.after, places)]


def is_lost(before: Sequence[Value], after: Sequence[Value] | None, places: Sequence[int]) -> bool:
    """Whether a row had a key, and is gone or has another one."""
    key = values_at(before, places)
    return None not in key and (after is None or values_at(after, places) != key)


def values_at(row: Sequence[Value], places: Sequence[int]) -> tuple[Value, ...]:
    """The values of a row at places."""
    return tuple(row[at] for at in places)


@dataclass
class Level:
    """A data statement: its words, and what its account tells of itself. `is_cut` if the refusal came in it or in a trigger that it ran."""

    words: Sequence[Token]
    events: Sequence[Event]
    is_cut: bool

    @property
    def event(self) -> str:
        """INSERT, UPDATE or DELETE."""
        return self.words[0].word

    @property
    def table(self) -> str:
        """The table that it names."""
        return self.words[EVENTS[self.event]].word

    @property
    def named(self) -> set[str]:
        """The columns that an UPDATE sets."""
        ahead = [word.word for word in self.words]
        end = ahead.index("WHERE") if "WHERE" in ahead else len(ahead)
        return {word for word, behind in zip(ahead[:end], ahead[1:]) if behind == "="} if self.event == "UPDATE" else set()

    @property
    def changes(self) -> list[Change]:
        """The rows that it and its actions changed."""
        return [each for each in self.events if isinstance(each, Change)]

    @property
    def actions(self) -> list[Action]:
        """What foreign keys did."""
        return [each for each in self.events if isinstance(each, Action)]

    @property
    def asked(self) -> list[Asked]:
        """The triggers that ran or were skipped, row by row, in their order."""
        return [each for each in self.events if isinstance(each, (Ran, Skipped))]

    def rows(self, table: str, event: str) -> list[Change]:
        """The rows of a table that were changed so."""
        return [each for each in self.changes if each.table == table and each.kind == event.lower()]


def levels(words: Sequence[Token], events: Sequence[Event], triggers: Mapping[str, Trigger], is_cut: bool) -> Iterator[Level]:
    """A data statement and those of the triggers that it ran, the outer ones first."""
    yield Level(words, events, is_cut)
    for event in events:
        for nested in event.statements if isinstance(event, Ran) else ():
            acts = triggers[event.name].acts if isinstance(event, Ran) else []
            is_last = event is events[-1] and isinstance(event, Ran) and nested is event.statements[-1]
            yield from levels(acts[nested.place - 1], nested.events, triggers, is_cut and is_last)
