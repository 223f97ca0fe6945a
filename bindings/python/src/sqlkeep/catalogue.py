"""The catalogue of a session: its tables, columns, constraints and triggers."""
from __future__ import annotations

from dataclasses import dataclass
from typing import TYPE_CHECKING

from .values import Value, write_value

if TYPE_CHECKING:
    from ._engine import Engine

__all__ = ["Catalogue", "Column", "Constraint", "Table", "TriggerDefinition", "catalogue_of"]

KINDS = ("NOT NULL", "CHECK", "UNIQUE", "PRIMARY KEY", "FOREIGN KEY")
ACTIONS = ("NO ACTION", "RESTRICT", "CASCADE", "SET NULL", "SET DEFAULT")
TIMES = ("BEFORE", "AFTER")
EVENTS = ("INSERT", "UPDATE", "DELETE")


@dataclass(frozen=True)
class Column:
    """A column: its name, its type, the length of a VARCHAR, and its default."""

    name: str
    type: str
    length: int | None = None
    default: Value = None

    def __str__(self) -> str:
        length = f"({self.length})" if self.length is not None else ""
        return f"{self.name} {self.type}{length}" + (f" DEFAULT {write_value(self.default)}" if self.default is not None else "")


@dataclass(frozen=True)
class Table:
    """A table with its columns in their order."""

    name: str
    columns: tuple[Column, ...]


@dataclass(frozen=True)
class Constraint:
    """A constraint: its kind, as `PRIMARY KEY`, its table, and the columns that it is of, none for a CHECK. A foreign key has the
    table and the columns that it refers to, and its actions. `deferred` is its mode when the catalogue was read, and `condition` that of a
    CHECK as SQL text."""

    name: str
    kind: str
    table: str
    columns: tuple[str, ...] = ()
    deferrable: bool = False
    initially_deferred: bool = False
    nulls_not_distinct: bool = False
    referenced: str | None = None
    referenced_columns: tuple[str, ...] = ()
    match_full: bool = False
    on_delete: str | None = None
    on_update: str | None = None
    deferred: bool = False
    condition: str | None = None


@dataclass(frozen=True)
class TriggerDefinition:
    """A trigger: when it runs, on which event of which table, whether for each row, the columns of UPDATE OF, and how many
    statements its body has."""

    name: str
    table: str
    time: str
    event: str
    for_each_row: bool
    columns: tuple[str, ...]
    statements: int


@dataclass(frozen=True)
class Catalogue:
    """Tables, constraints and triggers by their names, in the order in which they were made."""

    tables: dict[str, Table]
    constraints: dict[str, Constraint]
    triggers: dict[str, TriggerDefinition]

    def constraints_of(self, table: str) -> list[Constraint]:
        """The constraints of a table."""
        return [each for each in self.constraints.values() if each.table == table]

    def triggers_of(self, table: str) -> list[TriggerDefinition]:
        """The triggers of a table."""
        return [each for each in self.triggers.values() if each.table == table]


def catalogue_of(engine: Engine) -> Catalogue:
    """The catalogue that there is now."""
    found, constraints, triggers = engine.catalogue()
    tables = [Table(name, tuple(Column(each, "INTEGER" if kind == 1 else "VARCHAR", None if kind == 1 else longest, default) for each, kind, longest, default in columns)) for name, columns in found]
    made = [constraint_of(tables, *each) for each in constraints]
    running = [trigger_of(tables, *each) for each in triggers]
    return Catalogue({each.name: each for each in tables}, {each.name: each for each in made}, {each.name: each for each in running})


def names_of(table: Table, columns: list[int]) -> tuple[str, ...]:
    return tuple(table.columns[at].name for at in columns)


def constraint_of(
    tables: list[Table], name: str, kind: int, table: int, columns: list[int], deferrable: int, deferred: int, not_distinct: int,
    referenced: int, referenced_columns: list[int], match_full: int, on_delete: int, on_update: int, mode: int,
    condition: str | None,
) -> Constraint:
    is_reference = KINDS[kind] == "FOREIGN KEY"
    return Constraint(
        name, KINDS[kind], tables[table].name, names_of(tables[table], columns), bool(deferrable), bool(deferred), bool(not_distinct),
        tables[referenced].name if is_reference else None, names_of(tables[referenced], referenced_columns) if is_reference else (), bool(match_full),
        ACTIONS[on_delete] if is_reference else None, ACTIONS[on_update] if is_reference else None, bool(mode), condition,
    )


def trigger_of(tables: list[Table], name: str, table: int, time: int, event: int, granularity: int, columns: list[int], statements: int) -> TriggerDefinition:
    return TriggerDefinition(name, tables[table].name, TIMES[time], EVENTS[event], granularity == 0, names_of(tables[table], columns), statements)
