"""Tables and constraints as PostgreSQL makes them.

A deferrable CHECK or NOT NULL becomes a constraint trigger, since PostgreSQL defers neither. A UNIQUE or PRIMARY KEY that no foreign
key refers to becomes DEFERRABLE INITIALLY IMMEDIATE, which PostgreSQL tests when a statement ends, as this engine does; one that a
foreign key refers to can't be deferrable there, and is tested row by row.
"""
from __future__ import annotations

from typing import Iterable

from .expressions import columns, expression
from .quoting import EMPTY, Sql, body, identifier, joined, keywords, literal, name, number, of_token, plain_name, sql
from .reading import Column, Constraint, Table
from .triggers import function, lines_of

__all__ = ["KeyColumns", "added", "created", "is_by_trigger", "is_key", "is_of_column"]

# The table and the columns of a key that some foreign key refers to.
KeyColumns = tuple[str, frozenset[str]]


def is_by_trigger(constraint: Constraint) -> bool:
    """Whether a constraint trigger stands for the constraint."""
    return constraint.is_deferrable and constraint.kind in ("CHECK", "NOT NULL")


def is_of_column(constraint: Constraint) -> bool:
    """Whether the constraint is written as NOT NULL of its column. PostgreSQL gives that no name, so one with a name is a CHECK."""
    return constraint.kind == "NOT NULL" and not constraint.is_named and not constraint.is_deferrable


def is_key(constraint: Constraint) -> bool:
    """Whether an index of its name stands for the constraint."""
    return constraint.kind in ("UNIQUE", "PRIMARY KEY")


def mode(constraint: Constraint) -> Sql:
    """DEFERRABLE and INITIALLY of a constraint, with a blank before."""
    if not constraint.is_deferrable:
        return EMPTY
    return sql(" DEFERRABLE INITIALLY DEFERRED") if constraint.is_deferred else sql(" DEFERRABLE INITIALLY IMMEDIATE")


def key_mode(table: str, constraint: Constraint, referenced: Iterable[KeyColumns]) -> Sql:
    if constraint.is_deferrable or (table, frozenset(constraint.columns)) in referenced:
        return mode(constraint)
    return sql(" DEFERRABLE INITIALLY IMMEDIATE")


def reference(constraint: Constraint) -> Sql:
    to = constraint.reference
    assert to is not None
    parts = [sql("FOREIGN KEY {} REFERENCES {}", columns(constraint.columns), name(to.table))]
    parts += [columns(to.columns)] if to.columns else []
    parts += [sql("MATCH FULL")] if to.is_full else []
    parts += [sql("ON DELETE {}", keywords(to.on_delete))] if to.on_delete else []
    parts += [sql("ON UPDATE {}", keywords(to.on_update))] if to.on_update else []
    return sql("{}{}", joined(" ", parts), mode(constraint))


def called(table: str, constraint: Constraint) -> str:
    """The name of a constraint in PostgreSQL; one that was refused and has none gets some name."""
    return constraint.there or plain_name(constraint.name or f"{table}_check")


def constraint_text(table: str, constraint: Constraint, referenced: Iterable[KeyColumns]) -> Sql:
    """A constraint as an element of a table."""
    head = sql("CONSTRAINT {} ", identifier(called(table, constraint))) if constraint.name else EMPTY
    if constraint.kind == "FOREIGN KEY":
        return sql("{}{}", head, reference(constraint))
    if constraint.kind == "CHECK":
        return sql("{}CHECK ({})", head, expression(constraint.condition))
    if constraint.kind == "NOT NULL":
        return sql("{}CHECK ({} IS NOT NULL)", head, name(constraint.columns[0]))
    equal = sql(" NULLS NOT DISTINCT") if constraint.nulls_are_equal else EMPTY
    return sql("{}{}{} {}{}", head, keywords(constraint.kind), equal, columns(constraint.columns), key_mode(table, constraint, referenced))


def column_text(column: Column, is_filled: bool) -> Sql:
    kind = sql("bigint") if column.length is None else sql('varchar({}) COLLATE "C"', number(column.length))
    default = sql(" DEFAULT {}", joined("", map(of_token, column.default))) if column.default else EMPTY
    return sql("{} {}{}{}", name(column.name), kind, default, sql(" NOT NULL") if is_filled else EMPTY)


def broken_by(table: str, constraint: Constraint) -> Sql:
    """What raises the constraint if a row of the table breaks it."""
    there = called(table, constraint)
    is_broken = sql("({}) IS FALSE", expression(constraint.condition)) if constraint.kind == "CHECK" else sql("{} IS NULL", name(constraint.columns[0]))
    return sql(
        "    IF EXISTS (SELECT FROM {} WHERE {}) THEN\n"
        "        RAISE EXCEPTION USING ERRCODE = 'check_violation', MESSAGE = {}, CONSTRAINT = {};\n"
        "    END IF;\n",
        name(table), is_broken, literal(there + " is violated"), literal(there),
    )


def trigger_of(table: str, constraint: Constraint) -> list[Sql]:
    """The function and the constraint trigger that stand for a deferrable CHECK or NOT NULL. Each time it looks at the whole table."""
    there = called(table, constraint)
    holds = identifier(there + "_holds")
    return [
        function(holds, sql("{}    RETURN NULL;\n", broken_by(table, constraint))),
        sql("CREATE CONSTRAINT TRIGGER {} AFTER INSERT OR UPDATE ON {}{}\n    FOR EACH ROW EXECUTE FUNCTION {}()", identifier(there), name(table), mode(constraint), holds),
    ]


def doubles(table: Table, referenced: Iterable[KeyColumns]) -> list[Constraint]:
    """The keys that are as another one of their table except for their names. PostgreSQL makes one of two in one statement."""
    in_order = sorted(filter(is_key, table.constraints), key=lambda each: each.kind != "PRIMARY KEY")
    alike = [(each.columns, each.nulls_are_equal, key_mode(table.name, each, referenced)) for each in in_order]
    return [each for at, each in enumerate(in_order) if alike[at] in alike[:at]]


def created(table: Table, referenced: Iterable[KeyColumns]) -> list[Sql]:
    """The statements that make a table, one element a line."""
    filled = {each.columns[0] for each in table.constraints if is_of_column(each)}
    later = doubles(table, referenced)
    parts = [column_text(column, column.name in filled) for column in table.columns]
    parts += [constraint_text(table.name, each, referenced) for each in table.constraints if not is_by_trigger(each) and not is_of_column(each) and not any(each is key for key in later)]
    more = [text for each in table.constraints if is_by_trigger(each) for text in trigger_of(table.name, each)]
    more += [text for each in later for text in added(table.name, each, referenced)]
    return [sql("CREATE TABLE {} (\n{}\n)", name(table.name), joined(",\n", (sql("    {}", part) for part in parts))), *more]


def added(table: str, constraint: Constraint, referenced: Iterable[KeyColumns]) -> list[Sql]:
    """The statements that add a constraint to a table."""
    if is_by_trigger(constraint):
        return [sql("DO {}", body(lines_of(broken_by(table, constraint)))), *trigger_of(table, constraint)]
    return [sql("ALTER TABLE {} ADD {}", name(table), constraint_text(table, constraint, referenced))]
