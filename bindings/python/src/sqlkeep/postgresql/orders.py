"""Where PostgreSQL takes rows, triggers and foreign keys in another order, by what happened in a data statement."""
from __future__ import annotations

from typing import Iterator

from ..account import Action, Change, Skipped
from ..account import Trigger as Ran
from ..catalogue import Constraint
from .levels import EVENTS, Asked, Level, Statement, values_at
from .reading import Trigger
from .violated import violated

__all__ = ["of_level"]

ACTING = ("CASCADE", "SET NULL", "SET DEFAULT")
RESTRICT, VIOLATION, SIGNAL = 12, 13, 15
ONE_ROW = "several foreign keys act on one row: PostgreSQL takes them one after another; here in waves, in which a deletion wins"


def of_level(statement: Statement, level: Level) -> Iterator[str]:
    """What comes otherwise in PostgreSQL."""
    for told in TOLD:
        yield from told(statement, level)


def defined(statement: Statement, level: Level, time: str) -> list[tuple[Trigger, list[Asked]]]:
    """The triggers of this time that were asked, with what the account tells of each, in creation order."""
    asked: dict[str, list[Asked]] = {}
    for each in level.asked:
        asked.setdefault(each.name, []).append(each)
    return [(trigger, asked[name]) for name, trigger in statement.triggers.items() if trigger.time == time and name in asked]


def is_acted(asked: list[Asked]) -> bool:
    """Whether a body ran."""
    return any(isinstance(each, Ran) for each in asked)


def keys_row_by_row(statement: Statement, level: Level) -> Iterator[str]:
    """A key that one row gets and another row had before."""
    for key in statement.catalogue.constraints.values():
        if key.kind not in ("UNIQUE", "PRIMARY KEY") or (key.table, frozenset(key.columns)) not in statement.referenced:
            continue
        places = statement.places(key.table, key.columns)
        rows = [each for each in level.changes if each.table == key.table and each.before is not None]
        moved = [(values_at(each.before or (), places), None if each.after is None else values_at(each.after, places)) for each in rows]
        gone = {old for old, new in moved if old != new}
        if any(new in gone and new != old and (None not in new or key.nulls_not_distinct) for old, new in moved if new is not None):
            yield "PostgreSQL tests a key that foreign keys refer to row by row; here when the statement ends"
            return


def row_triggers(statement: Statement, level: Level) -> Iterator[str]:
    """Row triggers of one time, if one of them runs for several rows."""
    names = {each.name for each in level.asked}
    for time in ("BEFORE", "AFTER"):
        found = [(trigger, asked) for trigger, asked in defined(statement, level, time) if trigger.for_each_row]
        for trigger, asked in found:
            others = [other for other in statement.running(time, trigger.event, trigger.table, True) if other is not trigger]
            do_meet = time == "AFTER" and any(other.name in names and meet(statement, trigger, other) for other in others)
            if len(asked) > 1 and others and (level.is_cut or do_meet) and any(is_acted(each) for _, each in found):
                yield "several row triggers run at one time: here one after another over all rows, and in PostgreSQL all of them row by row"
                return


def statement_triggers(statement: Statement, level: Level) -> Iterator[str]:
    """A statement trigger that was made before a row trigger."""
    order = list(statement.triggers)
    found = defined(statement, level, "AFTER")
    for trigger, asked in found:
        rows = statement.running("AFTER", trigger.event, trigger.table, True)
        later = [other for other in rows if order.index(other.name) > order.index(trigger.name)]
        is_any = is_acted(asked) or any(is_acted(each) for other, each in found if other in later)
        do_meet = (level.is_cut and later) or any(meet(statement, trigger, other) for other in later)
        if not trigger.for_each_row and is_any and do_meet and level.rows(trigger.table, trigger.event):
            yield "PostgreSQL runs the row triggers of a table before its statement triggers; here in creation order"
            return


def written_by(trigger: Trigger) -> set[str]:
    """The tables that the body of a trigger changes."""
    return {act[EVENTS[act[0].word]].word for act in trigger.acts if act[0].word in EVENTS}


def read_by(trigger: Trigger) -> set[str]:
    """The tables that a trigger looks at, in its condition and in its body."""
    words = [token.word for act in [trigger.when, *trigger.acts] for token in act]
    return {behind for word, behind in zip(words, words[1:]) if word in ("FROM", "UPDATE")}


def meet(statement: Statement, first: Trigger, other: Trigger) -> bool:
    """Whether it matters which of two triggers runs first: one changes what the other looks at, or triggers run for what both change."""
    running = {each.table for each in statement.triggers.values()}
    return bool(written_by(first) & read_by(other) or written_by(other) & read_by(first) or (written_by(first) | written_by(other)) & running)


def tables_asked(trigger: Trigger) -> set[str]:
    """The tables that the condition of a trigger looks at."""
    words = [token.word for token in trigger.when]
    return {behind for word, behind in zip(words, words[1:]) if word == "FROM"}


def changed_rows_seen(statement: Statement, level: Level) -> Iterator[str]:
    changed = {each.table for each in level.changes} | {level.table}
    for trigger, asked in defined(statement, level, "BEFORE"):
        if trigger.for_each_row and tables_asked(trigger) & changed and (len(asked) > 1 or level.actions):
            yield "a BEFORE row trigger sees the rows that the statement has changed so far; here it sees the tables as before"
            return


def followed(statement: Statement, level: Level) -> Iterator[str]:
    """Foreign keys that act, beside triggers: one row with one trigger that looks at nothing else can't come out otherwise."""
    acted = [trigger for trigger, asked in defined(statement, level, "AFTER") if is_acted(asked)]
    changed = {each.table for each in level.changes}
    waiting = [each for each in statement.triggers.values() if level.is_cut and each.time == "AFTER" and each not in acted and level.rows(each.table, each.event)]
    is_alone = len(acted) == 1 and not waiting and len(level.rows(level.table, level.event)) < 2 and not (read_by(acted[0]) | written_by(acted[0])) & changed
    if level.actions and acted and not is_alone:
        yield "PostgreSQL follows foreign keys row by row, and runs the triggers of what follows at once; here AFTER triggers run when all has followed"


def action_of(key: Constraint, change: Change) -> str | None:
    """What a foreign key does when a change takes its key away."""
    return key.on_delete if change.kind == "delete" else key.on_update


def followed_in_vain(statement: Statement, level: Level) -> Iterator[str]:
    """A statement trigger of a table that a foreign key follows: BEFORE, or AFTER if no row is found."""
    for key in statement.catalogue.constraints.values():
        for change in statement.lost(key, level.changes):
            there = "DELETE" if (change.kind, key.on_delete) == ("delete", "CASCADE") else "UPDATE"
            in_vain = [each for each in statement.running("AFTER", there, key.table, False) if not each.tables and not level.rows(key.table, there)]
            if action_of(key, change) in ACTING and (in_vain or statement.running("BEFORE", there, key.table, False)):
                yield "PostgreSQL runs a statement trigger for what a foreign key does, even if it finds no row; here an AFTER trigger if rows change"
                return


def followed_late(statement: Statement, level: Level) -> Iterator[str]:
    """A row that comes to refer to a key in the statement that takes the key away."""
    for key in statement.catalogue.constraints.values():
        lost = [each for each in statement.lost(key, level.changes) if action_of(key, each) != "NO ACTION"]
        if not lost or key.referenced is None:
            continue
        refers, to = statement.places(key.table, key.columns), statement.places(key.referenced, key.referenced_columns)
        gone = {values_at(each.before, to) for each in lost if each.before is not None}
        rows = [(each.before, each.after) for each in level.changes if each.table == key.table and each.after is not None]
        come = [values_at(after, refers) for before, after in rows if after is not None and (before is None or values_at(before, refers) != values_at(after, refers))]
        if gone & set(come):
            yield f"PostgreSQL also follows {key.name} to rows that come to refer to the key in the same statement; here to those that referred to it before"
            return


def restricted(statement: Statement, level: Level) -> Iterator[str]:
    """A row that RESTRICT protects, if it changes in the statement too, or if another foreign key comes first."""
    violation = statement.violation
    if statement.cause != RESTRICT or not level.is_cut or violation is None:
        return
    key = statement.catalogue.constraints[violation.constraint]
    others = [each for each in statement.keys(key.referenced or "") if each is not key and (each.on_delete != "NO ACTION" or each.on_update != "NO ACTION")]
    if others or any((each.table, each.row) == (key.table, violation.row) for each in level.changes):
        yield "RESTRICT looks at the rows as before the statement here; PostgreSQL looks when the rows have changed"


def one_row_twice(statement: Statement, level: Level) -> Iterator[str]:
    """Foreign keys that act on one row, if they set one column, a trigger runs for the table, or a row violates a constraint after one of them."""
    by_row: dict[tuple[str, int], dict[str, Action]] = {}
    for action in level.actions:
        by_row.setdefault((action.table, action.row), {})[action.constraint] = action
    changes: dict[tuple[str, int], list[Change]] = {}
    for change in level.changes:
        changes.setdefault((change.table, change.row), []).append(change)
    between: list[list[Change]] = []
    for row, actions in by_row.items():
        found = changes.get(row, [])
        setting = [each for each in actions.values() if not (found and found[-1].after is None and each.action == "CASCADE")]
        columns = [column for name in actions for column in statement.catalogue.constraints[name].columns]
        if len(actions) < 2 or not setting:
            continue
        if not found or len(columns) != len(set(columns)) or any(each.table == row[0] for each in statement.triggers.values()):
            yield ONE_ROW
            return
        between += [[] for _ in range(len(setting) - len(between))]
        for at, action in enumerate(setting):
            between[at].append(between_of(statement, found, action))
    if any(is_violated(statement, each) for each in between):
        yield ONE_ROW


def is_violated(statement: Statement, between: list[Change]) -> bool:
    """Whether rows as they are for a while violate what PostgreSQL tests at once. The changes are of the rows as they are at last."""
    done = [] if statement.cause is None else statement.account.changes()
    found = violated(statement.session, statement.catalogue, [*done, *between])
    return found is None or any(statement.is_at_once(name, between) for name in found)


def between_of(statement: Statement, changes: list[Change], action: Action) -> Change:
    """What makes of a row as it is at last the one that it is after one of the actions."""
    first, last = changes[0], changes[-1]
    table = statement.catalogue.tables[action.table]
    row = list(first.before or ())
    for at in statement.places(action.table, statement.catalogue.constraints[action.constraint].columns):
        kept = last.after[at] if last.after is not None else row[at]
        row[at] = {"SET NULL": None, "SET DEFAULT": table.columns[at].default}.get(action.action, kept)
    return Change("update", action.table, action.row, last.after, tuple(row))


def changed_further(statement: Statement, level: Level) -> Iterator[str]:
    """A row that violates a constraint until foreign keys have changed it further."""
    last = {(each.table, each.row): each for each in level.changes}
    earlier = {(each.table, each.row): each for each in reversed(level.changes) if last[each.table, each.row] is not each and each.after is not None}
    between = [Change("update", each.table, each.row, last[row].after, each.after) for row, each in earlier.items()]
    if between and is_violated(statement, between):
        yield "PostgreSQL tests a row as soon as it is stored; here when foreign keys have changed it further"


def no_action(statement: Statement, level: Level) -> Iterator[str]:
    """A foreign key without an action, beside one that acts and mends what it would refuse."""
    acted = {each.table for each in level.actions}
    for key in statement.catalogue.constraints.values():
        if key.table in acted and not key.deferred and any(action_of(key, each) == "NO ACTION" for each in statement.lost(key, level.changes)):
            yield f"PostgreSQL tests {key.name} row by row, beside what other foreign keys do; here when all has followed"
            return


def default_lost(statement: Statement, level: Level) -> Iterator[str]:
    """SET DEFAULT whose default is the key that goes."""
    for action in level.actions:
        key = statement.catalogue.constraints[action.constraint]
        places = statement.places(key.table, key.columns)
        rows = [each for each in level.rows(key.table, "UPDATE") if each.row == action.row]
        is_kept = any(values_at(each.before or (), places) == values_at(each.after or (), places) for each in rows)
        if action.action == "SET DEFAULT" and key.deferred and is_kept:
            yield f"PostgreSQL tests {key.name} at once if its default is the key that goes, also if it is deferred"
            return


def null_in_late_key(statement: Statement, level: Level) -> Iterator[str]:
    """A null in a PRIMARY KEY that is deferred."""
    late = [each for each in statement.catalogue.constraints.values() if each.kind == "PRIMARY KEY" and each.deferred]
    if any(statement.nulls(each, level.changes) for each in late):
        yield "PostgreSQL tests the nulls of a PRIMARY KEY at once, also if the key is deferred"


def tested_after_trigger(statement: Statement, level: Level) -> Iterator[str]:
    """A constraint that PostgreSQL tests row by row when the statement ends, with the AFTER triggers of each row in between, and all of them
    before the rows that foreign keys changed."""
    violation = statement.violation
    if not level.is_cut or statement.cause != VIOLATION or violation is None or statement.is_at_once(violation.constraint, level.changes):
        return
    running = {(each.table, each.event.lower()) for each in statement.triggers.values() if each.time == "AFTER" and (each.for_each_row or level.actions)}
    found = [at for at, each in enumerate(level.changes) if each.row in (violation.row, violation.other_row)]
    is_first = found[-1:] == [0] and not level.actions
    if len(level.changes) > 1 and not is_first and any((each.table, each.kind) in running for each in level.changes):
        yield "PostgreSQL runs the AFTER triggers of a row before it tests the next row"


def signal_first(statement: Statement, level: Level) -> Iterator[str]:
    """A BEFORE row trigger that refuses a later row than one that violates a constraint."""
    last = level.asked[-1] if level.asked else None
    if not level.is_cut or statement.cause != SIGNAL or last is None or last.name not in statement.triggers:
        return
    trigger = statement.triggers[last.name]
    earlier = [each for each in level.asked[:-1] if each.name == last.name and each.new is not None]
    if trigger.time != "BEFORE" or not trigger.for_each_row or not earlier:
        return
    rows = [Change("insert" if each.old is None else "update", trigger.table, 0, each.old, each.new) for each in earlier]
    found = violated(statement.session, statement.catalogue, rows)
    if found is None or any(statement.is_at_once(name, rows) for name in found):
        yield "PostgreSQL stores and tests each row before the BEFORE triggers of the next; here these triggers come first"


def column_lists(statement: Statement, level: Level) -> Iterator[str]:
    for trigger in statement.triggers.values():
        rows = level.rows(trigger.table, "UPDATE") or (level.event == "UPDATE" and level.table == trigger.table)
        if trigger.tables and trigger.columns and rows and not any(each.name == trigger.name for each in level.asked):
            yield "PostgreSQL allows no column list beside transition tables: the trigger runs for each UPDATE"
            return


def hidden_table(statement: Statement, level: Level) -> Iterator[str]:
    ran = [statement.triggers[each.name] for each in level.asked if not isinstance(each, Skipped) and each.name in statement.triggers]
    if any(written_by(trigger) & set(trigger.tables) for trigger in ran):
        yield "a transition table has the name of a table, which PostgreSQL lets no statement of the body change"


TOLD = (
    keys_row_by_row, row_triggers, statement_triggers, changed_rows_seen, followed, followed_in_vain, followed_late, restricted, one_row_twice,
    changed_further, no_action, default_lost, null_in_late_key, tested_after_trigger, signal_first, column_lists, hidden_table,
)
