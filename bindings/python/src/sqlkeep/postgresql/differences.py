"""What PostgreSQL answers otherwise, told at the statement where it does.

A note stands at a statement only if what the statement did here can come out otherwise there.
"""
from __future__ import annotations

import re
from typing import Callable, Iterable, Iterator, Sequence

from ..account import Change, Skipped, Violation
from ..catalogue import Constraint
from ..errors import DatabaseError
from ..text import tokens
from .levels import EVENTS, Statement, levels, values_at
from .orders import of_level
from .quoting import plain_name
from .violated import violated

__all__ = ["of_own_names", "of_statement"]

# Names are cut behind so many bytes there.
LONGEST = 63
# No entry of an index is longer.
LONGEST_KEY = 2_704
HEAD_OF_KEY = 16
# Of so many inserted rows it is asked which one PostgreSQL refuses.
MOST_STEPS = 12
ALWAYS = {
    3: "SchemaFault here: PostgreSQL allows more definitions",
    6: "ActiveTransaction here: PostgreSQL only warns",
    14: "ActionConflict here: in PostgreSQL the action that comes last wins",
    16: "DepthLimit here: PostgreSQL stops when its stack is full",
    17: "TooManyChanges here: PostgreSQL has no budget of changes",
    18: "TransactionTooLarge here: PostgreSQL has no such limit",
    21: "Limit here: PostgreSQL has other limits",
}
SEVERAL = "several constraints are violated; here the first that was made is named, and PostgreSQL names the one that it tests first"
# A text that PostgreSQL reads as a number.
NUMBER = re.compile(r"'\s*[+-]?[0-9][0-9_xobA-Fa-f]*\s*'")
REFUSED_ROW, VIOLATION = (12, 13), 13
ARITHMETIC = ("+", "-", "*")


def of_statement(statement: Statement) -> list[str]:
    """Why PostgreSQL may answer a statement otherwise, each reason once."""
    found = [*by_cause(statement), *of_names(sorted({word.word for word in statement.words if word.kind == "word"}))]
    if statement.words[0].word in EVENTS and (statement.cause is not None or is_concerned(statement)):
        if statement.account:
            for level in levels(statement.words, statement.account.events, statement.triggers, statement.outcome.error is not None):
                found += of_level(statement, level)
        found += of_long_keys(statement)
    if statement.cause is None and statement.words[0].word in (*EVENTS, "SELECT"):
        found += of_constants(statement)
    return list(dict.fromkeys(found))


def is_concerned(statement: Statement) -> bool:
    """Whether the table of a data statement has a constraint, a trigger or a foreign key that refers to it."""
    table = statement.words[EVENTS[statement.words[0].word]].word
    of_constraints = {name for each in statement.catalogue.constraints.values() for name in (each.table, each.referenced)}
    return table in of_constraints or any(each.table == table for each in statement.triggers.values())


def by_cause(statement: Statement) -> Iterator[str]:
    """What a refusal here says of PostgreSQL."""
    error = statement.outcome.error
    if error is None or error.cause is None:
        return
    if error.cause in ALWAYS:
        yield ALWAYS[error.cause]
    if error.cause in TOLD:
        yield from TOLD[error.cause](statement, error)


def of_unknown(statement: Statement, error: DatabaseError) -> Iterator[str]:
    fault = error.account.name if error.account is not None else None
    if [word.word for word in statement.words[:2]] == ["CREATE", "TRIGGER"] and (fault is None or fault.kind != "trigger"):
        yield "Unknown here: PostgreSQL looks for the names of a body when the trigger runs"


def of_duplicate(statement: Statement, error: DatabaseError) -> Iterator[str]:
    fault = error.account.name if error.account is not None else None
    if fault is not None and fault.kind == "REFERENCING name":
        yield "Duplicate here: row variables have no name in PostgreSQL"
    elif fault is None or fault.kind == "constraint":
        yield "Duplicate here: PostgreSQL keeps the names of constraints table by table"


def of_no_transaction(statement: Statement, _: DatabaseError) -> Iterator[str]:
    if statement.words[0].word == "SET":
        yield "NoTransaction here: PostgreSQL only warns"


def of_not_deferrable(statement: Statement, _: DatabaseError) -> Iterator[str]:
    """PostgreSQL refuses DEFERRED of what isn't deferrable there, and each mode of a NOT NULL, which has no name there."""
    named = [statement.catalogue.constraints[word.word] for word in statement.words[2:-1] if word.word in statement.catalogue.constraints]
    late = [each for each in named if not each.deferrable]
    if statement.words[-1].word == "IMMEDIATE":
        yield "NotDeferrable here: PostgreSQL lets IMMEDIATE be said of any constraint"
    elif all(is_late_there(statement, each) for each in late):
        yield "NotDeferrable here: PostgreSQL has a key that is tested when a statement ends as a deferrable one"


def is_late_there(statement: Statement, constraint: Constraint) -> bool:
    """Whether a constraint that isn't deferrable here is deferrable there."""
    return constraint.kind in ("UNIQUE", "PRIMARY KEY") and (constraint.table, frozenset(constraint.columns)) not in statement.referenced


def reason_of(error: DatabaseError) -> str:
    reason = error.account.reason if error.account is not None else None
    return reason.text if reason is not None else ""


def of_shape(statement: Statement, error: DatabaseError) -> Iterator[str]:
    """PostgreSQL makes a text of an integer and an integer of a text that looks like one, and fills columns. It reads a body late."""
    if statement.words[1].word == "TRIGGER":
        yield "WrongShape here: PostgreSQL looks at a body when the trigger runs"
        return
    reason = reason_of(error)
    counts = re.search(r" (\d+) values? for (\d+) columns?", reason)
    if (counts is not None and int(counts[1]) < int(counts[2])) or (counts is None and (NUMBER.search(reason) or "is an integer" in reason or not reason)):
        yield "WrongShape here: PostgreSQL converts between numbers and texts, and fills columns that have no value"


def of_range(statement: Statement, error: DatabaseError) -> Iterator[str]:
    """PostgreSQL evaluates each value, but not each part of a condition."""
    is_part = error.trigger is not None or any(word.word in ("AND", "OR", "EXISTS") for word in statement.words)
    if is_part and re.match(r"WHE(RE|N) ", reason_of(error)):
        yield "NumberOutOfRange here: PostgreSQL need not look at both sides of AND and OR, nor into every row of an EXISTS"


def of_length(statement: Statement, error: DatabaseError) -> Iterator[str]:
    words = [word.word for word in statement.words]
    if error.trigger is not None or "SELECT" in words or words[0] == "UPDATE" or any(word.endswith(" '") for word in words):
        yield "TextTooLong here: PostgreSQL cuts blanks at the end"


def of_open(statement: Statement, _: DatabaseError) -> Iterator[str]:
    """What PostgreSQL makes in a transaction: what isn't there yet. It drops and alters what is there."""
    words = statement.words
    is_there = words[2].word in statement.catalogue.triggers if words[1].word == "TRIGGER" else words[2].word in statement.catalogue.tables
    if is_there == (words[0].word != "CREATE"):
        yield "InTransaction here: PostgreSQL makes tables and triggers in a transaction too"


def of_violations(statement: Statement, error: DatabaseError) -> Iterator[str]:
    """PostgreSQL names another constraint if several are violated, and none if a CHECK is out of range."""
    if any(is_out_of_range(each) for each in error.violations):
        yield "a CHECK that is out of range is violated here; in PostgreSQL it is an error"
    names = {each.constraint for each in error.violations}
    if error.cause in REFUSED_ROW and statement.words[0].word in EVENTS:
        asked = violated(statement.session, statement.catalogue, statement.account.changes())
        names |= names if asked is None else {each for each in asked if not statement.catalogue.constraints[each].deferred}
        if asked is None:
            yield SEVERAL
            return
    if len(names) > 1 and first_there(statement, names) != error.constraint:
        yield SEVERAL


def first_there(statement: Statement, names: set[str]) -> str | None:
    """The constraint that PostgreSQL names if these are violated; None if that can't be told."""
    events, changes = statement.account.events, statement.account.changes()
    if statement.words[0].word not in EVENTS or statement.cause != VIOLATION or not all(isinstance(each, (Change, Skipped, Violation)) for each in events):
        return None
    stored = {each for each in names if statement.is_at_once(each, changes)}
    if stored and len(changes) > 1 and [word.word for word in statement.words if word.word in ("INSERT", "SELECT")] == ["INSERT"]:
        return first_stored(statement, changes)
    candidates = sorted(stored or names, key=lambda each: order_there(statement, each, changes))
    return candidates[0] if len(changes) == 1 or len(candidates) == 1 else None


def first_stored(statement: Statement, changes: Sequence[Change]) -> str | None:
    """The constraint that PostgreSQL names when it stores inserted rows one after another; None if there are too many to ask for each."""
    for at in range(1, len(changes) + 1) if len(changes) <= MOST_STEPS else ():
        row = changes[at - 1 : at]
        found = [each for each in violated(statement.session, statement.catalogue, changes[:at]) or () if statement.is_at_once(each, row)]
        if found:
            return min(found, key=lambda each: order_there(statement, each, row))  # pylint: disable=cell-var-from-loop
    return None


def order_there(statement: Statement, name: str, changes: Sequence[Change]) -> tuple[int, str]:
    """Where PostgreSQL tests a constraint of a row: nulls by column, CHECK by name, keys that can't wait; then by the names of its triggers a
    PRIMARY KEY, foreign keys whose key is gone, other foreign keys, UNIQUE and what can wait. Of one kind a PRIMARY KEY comes first, and
    then the one that was made first."""
    made = statement.catalogue.constraints[name]
    place = f"{list(statement.catalogue.constraints).index(name):09}"
    nulls = statement.nulls(made, changes)
    if nulls and (made.kind == "PRIMARY KEY" or name in statement.filled):
        return 0, f"{nulls[0]:09}"
    if made.kind in ("CHECK", "NOT NULL"):
        return (7 if made.deferrable else 1), plain_name(name)
    if made.kind == "FOREIGN KEY":
        return (4 if statement.lost(made, changes) else 5), place
    return (2 if statement.is_at_once(name) else 3 if made.kind == "PRIMARY KEY" else 6), "" if made.kind == "PRIMARY KEY" else place


def is_out_of_range(violation: Violation) -> bool:
    """Whether the condition of a CHECK may have left 64 bits: it reckons, with a number of ten digits or more."""
    return any(word.word in ARITHMETIC for word in tokens(violation.condition or "")) and re.search(r"\d{10}", violation.with_values or "") is not None


def of_constants(statement: Statement) -> Iterator[str]:
    """PostgreSQL reckons with numbers when it plans a query, even if no row is looked at."""
    words = statement.words
    triples = [each for each in zip(words, words[1:], words[2:]) if each[0].kind == each[2].kind == "number" and each[1].word in ARITHMETIC]
    is_query = any(word.word in ("WHERE", "SELECT") for word in words)
    if is_query and any(is_beyond(int(first.word), sign.word, int(second.word)) for first, sign, second in triples):
        yield "PostgreSQL reckons with numbers even if no row is looked at"


def is_beyond(first: int, sign: str, second: int) -> bool:
    """Whether an operation of two numbers, the first perhaps with a sign, leaves 64 bits."""
    return {"+": first + second, "-": first + second - 1, "*": first * second}[sign] >= 2**63


def of_long_keys(statement: Statement) -> Iterator[str]:
    changes = statement.account.changes()
    for key in statement.catalogue.constraints.values():
        if key.kind not in ("UNIQUE", "PRIMARY KEY") or not any(change.table == key.table for change in changes):
            continue
        places = statement.places(key.table, key.columns)
        rows = [values_at(change.after, places) for change in changes if change.table == key.table and change.after is not None]
        if any(sum(len(value.encode()) + 4 if isinstance(value, str) else 8 for value in row) + HEAD_OF_KEY > LONGEST_KEY for row in rows):
            yield f"PostgreSQL refuses a key of more than {LONGEST_KEY:,} bytes"
            return


def of_names(names: Iterable[str]) -> list[str]:
    """Names that PostgreSQL cuts."""
    return [f"PostgreSQL cuts {name[:20]}.. behind {LONGEST} characters" for name in names if len(name) > LONGEST]


def of_own_names(names: Iterable[str]) -> list[str]:
    """Names that are PostgreSQL's own, and are written in capitals."""
    own = [name for name in names if plain_name(name) == name and name != name.lower()]
    return [f"{name} is in capitals there, since PostgreSQL has a {name.lower()} of its own" for name in own]


TOLD: dict[int, Callable[[Statement, DatabaseError], Iterator[str]]] = {
    1: of_unknown, 2: of_duplicate, 4: of_open, 5: of_no_transaction, 8: of_not_deferrable, 9: of_shape, 10: of_range, 11: of_length,
    12: of_violations, 13: of_violations, 19: of_violations,
}
