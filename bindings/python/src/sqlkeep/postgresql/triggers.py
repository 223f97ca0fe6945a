"""Triggers as functions in PL/pgSQL.

PostgreSQL runs triggers by name, and its own for foreign keys are called RI_..; a number behind ZZ keeps the order of creation, and
has them run after its own. WHEN stands inside of the function, since EXISTS can't stand in PostgreSQL's WHEN.
"""
from __future__ import annotations

from ..text import KEYWORDS, Token
from .expressions import expression, names
from .quoting import EMPTY, Sql, body, identifier, joined, keywords, literal, name, of_token, sql
from .reading import Trigger

__all__ = ["created", "dropped", "function", "lines_of"]


def function(called: Sql, lines: Sql) -> Sql:
    """A function of PL/pgSQL for a trigger. A word that is a column and a variable of PL/pgSQL, as FOUND, is the column."""
    return sql("CREATE FUNCTION {}() RETURNS trigger LANGUAGE plpgsql AS {}", called, body(lines_of(lines)))


def lines_of(lines: Sql) -> Sql:
    """Lines of PL/pgSQL as a whole block."""
    return sql("#variable_conflict use_column\nBEGIN\n{}END", lines)


def name_of(trigger: str, number: int) -> Sql:
    """The name of a trigger there, by its number from 1 in the order of creation."""
    return identifier(f"zz{number:04d}_{trigger.lower()}")


def text_of(words: list[Token], trigger: Trigger) -> Sql:
    """Words of a body, in which a row variable is OLD or NEW. A range of the same name hides it."""
    hidden = set(ranges(words))
    return expression(words, {row: side for row, side in trigger.rows.items() if row not in hidden})


def ranges(words: list[Token]) -> list[str]:
    """The names that a FROM gives to its table beside the table's own."""
    found = []
    for at, word in enumerate(words):
        behind = [each.word for each in words[at + 2 : at + 4]] if word.word == "FROM" else []
        called = behind[1:] if behind[:1] == ["AS"] else behind[:1]
        found += [each for each in called if each.isidentifier() and each not in KEYWORDS]
    return found


def act(words: list[Token], trigger: Trigger) -> Sql:
    """A statement of the body."""
    if words[0].word == "SIGNAL":
        return sql("RAISE EXCEPTION USING ERRCODE = '45000', MESSAGE = {}, DETAIL = {};", of_token(words[1]), literal("trigger " + trigger.name))
    if words[0].word == "SET":
        return sql("NEW.{} := {};", name(words[3].word), text_of(words[5:], trigger))
    return sql("{};", text_of(words, trigger))


def acts(trigger: Trigger) -> Sql:
    """What the function does, under the condition of the trigger."""
    lines = [act(words, trigger) for words in trigger.acts]
    if not trigger.when:
        return joined("", (sql("    {}\n", line) for line in lines))
    return sql("    IF {} THEN\n{}    END IF;\n", text_of(trigger.when, trigger), joined("", (sql("        {}\n", line) for line in lines)))


def result(trigger: Trigger) -> Sql:
    """What the function returns: the row of a BEFORE row trigger."""
    if trigger.time == "BEFORE" and trigger.for_each_row:
        return sql("OLD") if trigger.event == "DELETE" else sql("NEW")
    return sql("NULL")


def created(trigger: Trigger, number: int) -> list[Sql]:
    """The function and the trigger."""
    called = name_of(trigger.name, number)
    listed = sql(" OF {}", names(trigger.columns)) if trigger.columns and not trigger.tables else EMPTY
    referencing = joined("", (sql(" {} TABLE AS {}", keywords(side), name(table)) for table, side in trigger.tables.items()))
    head = sql("CREATE TRIGGER {} {} {}{} ON {}", called, keywords(trigger.time), keywords(trigger.event), listed, name(trigger.table))
    each = sql("ROW") if trigger.for_each_row else sql("STATEMENT")
    return [
        function(called, sql("{}    RETURN {};\n", acts(trigger), result(trigger))),
        sql("{}{}\n    FOR EACH {} EXECUTE FUNCTION {}()", head, sql("\n    REFERENCING{}", referencing) if referencing else EMPTY, each, called),
    ]


def dropped(trigger: str, number: int, table: str | None) -> list[Sql]:
    """The statements that remove a trigger and its function."""
    called = name_of(trigger, number)
    return [sql("DROP TRIGGER {} ON {}", called, name(table) if table else sql("nothing")), sql("DROP FUNCTION {}()", called)]
