"""A schema as it was found, with the notes on it."""
from __future__ import annotations

from dataclasses import dataclass, field
from typing import NamedTuple

from ..values import Value
from .words import Word

__all__ = ["CHANGED", "Check", "Column", "ForeignKey", "Key", "LEFT_OUT", "NOT_NEEDED", "Note", "Schema", "Table"]

CHANGED, LEFT_OUT, NOT_NEEDED = "changed", "left out", "not needed"
LONGEST_TEXT = 4096


class Note(NamedTuple):
    """What became of an object: its kind is one of the three above. `table` is the one that it belongs to, if it does."""

    kind: str
    about: str
    table: str = ""

    def __str__(self) -> str:
        return f"{self.kind}: {self.about}"


@dataclass
class Column:
    """A column: `length` is that of a VARCHAR, None for an INTEGER. It is `comparable` if its values compare here as they do there."""

    name: str
    length: int | None
    comparable: bool = True
    not_null: bool = False
    not_null_name: str | None = None
    default: Value = None


@dataclass
class Key:
    """A UNIQUE or PRIMARY KEY."""

    columns: list[str]
    is_primary: bool = False
    name: str | None = None
    nulls_not_distinct: bool = False
    time: str = ""


@dataclass
class Check:
    """A CHECK with the words of its condition."""

    condition: list[Word]
    name: str | None = None


@dataclass
class ForeignKey:
    """A foreign key. `time` has the words behind it, as `INITIALLY DEFERRED`."""

    columns: list[str]
    table: str
    referenced: list[str]
    on_delete: str
    on_update: str
    time: str = ""
    name: str | None = None
    match: str = ""


@dataclass
class Table:
    """A table with what belongs to it."""

    name: str
    columns: list[Column] = field(default_factory=list)
    keys: list[Key] = field(default_factory=list)
    checks: list[Check] = field(default_factory=list)
    foreign_keys: list[ForeignKey] = field(default_factory=list)
    indexes: list[str] = field(default_factory=list)
    notes: list[Note] = field(default_factory=list)

    def note(self, kind: str, about: str) -> None:
        self.notes.append(Note(kind, about, self.name))

    def column(self, name: str) -> Column | None:
        """The column of this name, whose case doesn't count."""
        return next((each for each in self.columns if each.name.lower() == name.lower()), None)


@dataclass
class Schema:
    """Tables, and the notes on what belongs to none."""

    tables: list[Table] = field(default_factory=list)
    notes: list[Note] = field(default_factory=list)

    def table(self, name: str) -> Table | None:
        """The table of this name, whose case doesn't count."""
        return next((each for each in self.tables if each.name.lower() == name.lower()), None)
