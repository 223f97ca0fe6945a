"""Assertions about a schema, for any test framework.

Each takes a connection, executes one statement once, and raises AssertionError where the statement does something else than is said. The
message shows the account: what happened, row by row.
"""
from __future__ import annotations

import difflib
from typing import Iterable, Mapping, Sequence

from .account import Account
from .causes import CAUSES
from .connection import Connection
from .cursor import values_of
from .errors import DatabaseError, DataError, IntegrityError
from .plans import first_word
from .session import Outcome
from .text import folded
from .values import Value

__all__ = ["assert_accepted", "assert_refused", "assert_touches"]


def assert_accepted(db: Connection, sql: str, parameters: Sequence[Value] = ()) -> Account:
    """Executes a statement that is to be accepted, and gives its account."""
    __tracebackhide__ = True
    outcome = explained(db, sql, parameters)
    if outcome.error is not None:
        raise AssertionError(f"the statement is refused\n  {sql}\n{outcome.error}\n{told(outcome)}")
    return outcome.account


def assert_refused(
    db: Connection,
    sql: str,
    parameters: Sequence[Value] = (),
    *,
    by: str | None = None,
    row: int | None = None,
    table: str | None = None,
    trigger: str | None = None,
    signal: str | None = None,
    cause: str | int | None = None,
) -> DatabaseError:
    """Executes a statement that is to be refused for what it would do to the data, and gives its error.

    `by` is the name of the constraint, or of the trigger that runs SIGNAL; `row` and `table` are those of the first violation, `trigger` the
    trigger that was running, `signal` its text. A refused COMMIT has several violations: then `by`, `row` and `table` may be those of any of
    them. `cause` is the name or the number of the cause, as `Violation` or 13. Without it only an IntegrityError and a DataError count: a
    misspelled table is no refusal by the schema. ValueError where a name is none of the schema, or none of a cause.
    """
    __tracebackhide__ = True
    number = cause_of(cause)
    names_are_known(db, sql, by=by, table=table, trigger=trigger)
    outcome = explained(db, sql, parameters)
    if outcome.error is None:
        raise AssertionError(f"the statement is accepted\n  {sql}\n{told(outcome)}")
    error = outcome.error
    if number is None and not isinstance(error, (IntegrityError, DataError)):
        raise AssertionError(f"the statement is refused, and not by the schema; cause={error.cause_name!r} is that of this refusal\n  {sql}\n{error}")
    wanted = {"by": by, "row": row, "table": table, "trigger": trigger, "signal": signal, "cause": None if number is None else CAUSES[number][0]}
    if not any(matches(wanted, found) for found in found_in(error)):
        said = ", ".join(f"{key}={value!r}" for key, value in wanted.items() if value is not None)
        raise AssertionError(f"the statement is refused, and not with {said}\n  {sql}\n{error}\n{told(outcome)}")
    return error


def assert_touches(db: Connection, sql: str, changes: Mapping[str, Mapping[str, int]], parameters: Sequence[Value] = ()) -> Account:
    """Executes a statement that is to be accepted and to change exactly so many rows, those of foreign keys and triggers too, and gives
    its account: `{"BOOK": {"delete": 2}, "LOG": {"insert": 2}}`."""
    __tracebackhide__ = True
    outcome = explained(db, sql, parameters)
    if outcome.error is not None:
        raise AssertionError(f"the statement is refused\n  {sql}\n{outcome.error}\n{told(outcome)}")
    found = outcome.account.touched()
    wanted = {table.upper(): dict(kinds) for table, kinds in changes.items()}
    if found != wanted:
        raise AssertionError(f"the statement touches {found}, and not {wanted}\n  {sql}\n{told(outcome)}")
    return outcome.account


def cause_of(cause: str | int | None) -> int | None:
    """The number of a cause that was given by its name or number; ValueError where there is none."""
    if cause is None or cause in CAUSES:
        return None if cause is None else int(cause)
    names = {name: number for number, (name, _, _) in CAUSES.items()}
    if cause not in names:
        raise ValueError(f"there is no cause {cause!r}{near(str(cause), names)}")
    return names[str(cause)]


def names_are_known(db: Connection, sql: str, **given: str | None) -> None:
    """ValueError where a constraint, a trigger or a table isn't one of the schema, unless the statement itself may define it."""
    catalogue = db._native().catalogue
    known: dict[str, list[str]] = {"by": [*catalogue.constraints, *catalogue.triggers], "table": list(catalogue.tables), "trigger": list(catalogue.triggers)}
    for key, name in given.items():
        if name is not None and folded(name) not in known[key] and first_word(sql) not in ("ALTER", "CREATE"):
            kind = "constraint or trigger" if key == "by" else key
            raise ValueError(f"{key}={name!r}: the schema has no such {kind}{near(folded(name), known[key])}")


def near(name: str, names: Iterable[str]) -> str:
    """A name that is like one that isn't there."""
    found = difflib.get_close_matches(name, list(names), 1)
    return f"; did you mean {found[0]}?" if found else ""


def explained(db: Connection, sql: str, parameters: Sequence[Value]) -> Outcome:
    """The outcome of a statement, executed once by the connection's rules with its account asked for."""
    session = db._native()
    before, session.explain = session.explain, True
    try:
        return db._outcome(sql, values_of(parameters))
    finally:
        session.explain = before


def told(outcome: Outcome) -> str:
    """The account of an outcome for a message."""
    return f"account:\n{outcome.account}" if outcome.account else "account: nothing happened"


def found_in(error: DatabaseError) -> list[dict[str, object]]:
    """What a refusal is about: each of its violations."""
    of_all = {"trigger": error.trigger, "signal": error.signal, "cause": error.cause_name}
    first: dict[str, object] = {**of_all, "by": error.constraint or error.trigger, "row": error.row, "table": error.table}
    return [first, *({**of_all, "by": each.constraint, "row": each.row, "table": each.table} for each in error.violations)]


def matches(wanted: Mapping[str, object], found: Mapping[str, object]) -> bool:
    """Whether a violation is what is wanted. Names are compared as the engine folds them."""
    names = ("by", "table", "trigger")
    return all(value is None or found[key] == (folded(str(value)) if key in names else value) for key, value in wanted.items())
