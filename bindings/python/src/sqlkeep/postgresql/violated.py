"""Which constraints a state of the tables violates, as the engine says of a database that is made for it."""
from __future__ import annotations

from collections import Counter
from typing import Iterable, Sequence

from ..account import Change
from ..catalogue import Catalogue, Constraint, Table
from ..session import Session
from ..values import Value

__all__ = ["violated"]

Rows = Counter[tuple[Value, ...]]
# Beyond so many rows nothing is asked.
MOST_ROWS = 2_000
AT_ONCE = 200
ADD_REFUSED = 20


def table_text(table: Table) -> str:
    parts = [f"{each.name} {each.type}" + (f"({each.length})" if each.length is not None else "") for each in table.columns]
    return f"CREATE TABLE {table.name} ({', '.join(parts)})"


def constraint_text(constraint: Constraint) -> str:
    listed = f"({', '.join(constraint.columns)})"
    if constraint.kind == "CHECK":
        return f"CHECK ({constraint.condition})"
    if constraint.kind == "NOT NULL":
        return f"CHECK ({constraint.columns[0]} IS NOT NULL)"
    if constraint.kind == "FOREIGN KEY":
        return f"FOREIGN KEY {listed} REFERENCES {constraint.referenced} ({', '.join(constraint.referenced_columns)})" + (" MATCH FULL" if constraint.match_full else "")
    return f"{constraint.kind}{' NULLS NOT DISTINCT' if constraint.nulls_not_distinct else ''} {listed}"


def changed(session: Session, tables: Iterable[str], changes: Iterable[Change]) -> dict[str, Rows] | None:
    """The rows of tables once these changes are made; None if there are too many."""
    session.explain = False
    counts = [row[0] for name in tables for row in session.execute(f"SELECT COUNT(*) FROM {name}").rows or []]
    count = sum(each for each in counts if isinstance(each, int))
    found = {name: session.execute(f"SELECT * FROM {name}").rows or [] for name in tables} if count <= MOST_ROWS else None
    session.explain = True
    if found is None:
        return None
    rows: dict[str, Rows] = {name: Counter(each) for name, each in found.items()}
    for change in changes:
        if change.before is not None:
            rows[change.table][change.before] -= 1
        if change.after is not None:
            rows[change.table][change.after] += 1
    return rows


def fill(session: Session, table: str, rows: Rows) -> None:
    found = list(rows.elements())
    for at in range(0, len(found), AT_ONCE):
        some = found[at : at + AT_ONCE]
        places = ", ".join(f"({', '.join('?' * len(row))})" for row in some)
        session.execute(f"INSERT INTO {table} VALUES {places}", [value for row in some for value in row]).check()
    session.execute("COMMIT")


def violated(session: Session, catalogue: Catalogue, changes: Sequence[Change]) -> set[str] | None:
    """The constraints of the changed tables, and those that refer to them, that the rows would violate once these changes are made; None if
    there are too many rows to ask."""
    of = {each.table for each in changes}
    asked = [each for each in catalogue.constraints.values() if each.table in of or each.referenced in of]
    concerned = of | {each.table for each in asked} | {each.referenced for each in asked if each.referenced is not None}
    rows = changed(session, concerned, changes)
    if rows is None:
        return None
    keys = [each for each in catalogue.constraints.values() if each.kind in ("UNIQUE", "PRIMARY KEY") and each.table in concerned and each not in asked]
    with Session() as other:
        for name in concerned:
            other.execute(table_text(catalogue.tables[name]))
            fill(other, name, rows[name])
        in_order = sorted([*keys, *asked], key=lambda each: each.kind == "FOREIGN KEY")
        return {each.name for each in in_order if is_refused(other, each)}


def is_refused(session: Session, constraint: Constraint) -> bool:
    """Whether the rows violate a constraint, which is added otherwise."""
    error = session.execute(f"ALTER TABLE {constraint.table} ADD {constraint_text(constraint)}").error
    return error is not None and error.cause == ADD_REFUSED
