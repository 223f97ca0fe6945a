"""What is often the matter with a text that is no statement.

The engine tells where a faulty statement begins. Here its words are looked at for what people often write: a word of another
system, a comma too many, a name that is a keyword. A hint is a guess, and is given only of a text that the engine has refused.
"""
from __future__ import annotations

import difflib
from typing import Callable, NamedTuple, Sequence

from .text import KEYWORDS, Token

__all__ = ["Hint", "hint_of"]

STARTS = ("CREATE", "ALTER", "DROP", "INSERT", "UPDATE", "DELETE", "SELECT", "START", "COMMIT", "ROLLBACK", "SAVEPOINT", "RELEASE", "SET")
# Words that other systems have, which are names here.
ELSEWHERE = {
    "ORDER": "there is no ORDER BY", "GROUP": "there is no GROUP BY", "HAVING": "there is no HAVING", "LIMIT": "there is no LIMIT", "JOIN": "there is no JOIN; EXISTS asks another table",
    "INNER": "there is no JOIN; EXISTS asks another table", "LEFT": "there is no JOIN; EXISTS asks another table", "BETWEEN": "there is no BETWEEN; write a >= 1 AND a <= 9",
    "LIKE": "there is no LIKE", "IN": "there is no IN; write a = 1 OR a = 2", "CASE": "there is no CASE", "UNION": "there is no UNION", "RETURNING": "there is no RETURNING",
    "AUTOINCREMENT": "there is no AUTOINCREMENT; a key is given with the row", "AUTO_INCREMENT": "there is no AUTO_INCREMENT; a key is given with the row",
    "SERIAL": "there is no SERIAL; a key is given with the row",
    "CONFLICT": "there is no ON CONFLICT", "CURRENT_TIMESTAMP": "there are no times; write one as a text",
}
TYPES = {
    "TEXT": "VARCHAR(100)", "STRING": "VARCHAR(100)", "BIGINT": "INT", "SMALLINT": "INT", "TINYINT": "INT", "BOOLEAN": "INT", "BOOL": "INT", "DATE": "VARCHAR(10)", "TIMESTAMP": "VARCHAR(19)",
    "DATETIME": "VARCHAR(19)", "DECIMAL": "INT", "NUMERIC": "INT", "REAL": "INT", "FLOAT": "INT", "DOUBLE": "INT", "NVARCHAR": "VARCHAR", "BLOB": "VARCHAR(4096)", "UUID": "VARCHAR(36)",
}
HEADS = ("CONSTRAINT", "UNIQUE", "PRIMARY", "CHECK", "FOREIGN")


class Hint(NamedTuple):
    """What is probably the matter, and the word that shows it."""

    reason: str
    token: Token


def of_start(words: Sequence[Token]) -> Hint | None:
    if words[0].word in STARTS:
        return None
    near = difflib.get_close_matches(words[0].word, STARTS, 1)
    if words[0].word == "BEGIN":
        return Hint("a transaction begins with START TRANSACTION", words[0])
    if words[0].word == ";":
        return Hint("there is no statement before the semicolon", words[0])
    return Hint(f"did you mean {near[0]}?" if near else "no statement begins so", words[0])


def of_comma(words: Sequence[Token]) -> Hint | None:
    for first, second in zip(words, words[1:]):
        if first.word == "," and second.word in (")", ",", ";", "FROM", "WHERE"):
            return Hint("there is a comma too many", first)
        if first.word == "(" and second.word == ",":
            return Hint("there is a comma too many", second)
    return None


def of_type(words: Sequence[Token]) -> Hint | None:
    if [word.word for word in words[:2]] != ["CREATE", "TABLE"]:
        return None
    for at, (before, word) in enumerate(zip(words[3:], words[4:]), 4):
        starts = words[at - 2].word in ("(", ",") and before.kind == "word"
        if starts and word.word in TYPES:
            return Hint(f"there is no type {word.word}; write {TYPES[word.word]}", word)
        if word.word == "VARCHAR" and (at + 1 == len(words) or words[at + 1].word != "("):
            return Hint("a VARCHAR has a length: VARCHAR(100)", word)
    return None


def of_column_name(words: Sequence[Token]) -> Hint | None:
    if [word.word for word in words[:2]] != ["CREATE", "TABLE"]:
        return None
    if len(words) > 2 and words[2].word in KEYWORDS:
        return Hint(f"{words[2].word} is a keyword, and no name", words[2])
    depth = 0
    for before, word in zip(words, words[1:]):
        depth += (before.word == "(") - (before.word == ")")
        if depth == 1 and before.word in ("(", ",") and word.word in KEYWORDS and word.word not in HEADS:
            return Hint(f"{word.word} is a keyword, and no name", word)
    return None


def of_default(words: Sequence[Token]) -> Hint | None:
    if words[0].word != "CREATE":
        return None
    for at, word in enumerate(words):
        before = [each.word for each in words[max(at - 2, 0) : at]]
        if word.word == "DEFAULT" and (before in (["NOT", "NULL"], ["PRIMARY", "KEY"]) or before[-1:] == ["UNIQUE"]):
            return Hint("DEFAULT comes before the constraints", word)
    return None


def of_elsewhere(words: Sequence[Token]) -> Hint | None:
    return next((Hint(ELSEWHERE[word.word], word) for word in words if word.kind == "word" and word.word in ELSEWHERE), None)


def of_select(words: Sequence[Token]) -> Hint | None:
    if words[0].word == "SELECT" and all(word.word != "FROM" for word in words):
        return Hint("a SELECT has a FROM", words[0])
    if words[0].word == "SELECT" and any(word.word == "DISTINCT" for word in words):
        return Hint("there is no SELECT DISTINCT", next(word for word in words if word.word == "DISTINCT"))
    return None


def of_insert(words: Sequence[Token]) -> Hint | None:
    if words[0].word != "INSERT":
        return None
    if len(words) > 1 and words[1].word != "INTO":
        return Hint("INSERT is followed by INTO", words[1])
    for before, word in zip(words, words[1:]):
        if before.word == "VALUES" and word.word != "(":
            return Hint("each row of values is in parentheses", word)
    return None


def of_delete(words: Sequence[Token]) -> Hint | None:
    if words[0].word == "DELETE" and len(words) > 1 and words[1].word != "FROM":
        return Hint("DELETE is followed by FROM", words[1])
    return None


def of_drop(words: Sequence[Token]) -> Hint | None:
    if words[0].word == "DROP" and len(words) > 1 and words[1].word != "TRIGGER":
        return Hint("only triggers are dropped", words[1])
    if words[0].word == "CREATE" and len(words) > 1 and words[1].word not in ("TABLE", "TRIGGER"):
        return Hint("tables and triggers alone are made", words[1])
    return None


def of_parentheses(words: Sequence[Token]) -> Hint | None:
    open_ones: list[Token] = []
    for word in words:
        if word.word == "(":
            open_ones.append(word)
        elif word.word == ")" and not open_ones:
            return Hint("this parenthesis was never opened", word)
        elif word.word == ")":
            open_ones.pop()
    return Hint("this parenthesis isn't closed", open_ones[-1]) if open_ones else None


RULES: tuple[Callable[[Sequence[Token]], "Hint | None"], ...] = (
    of_start, of_parentheses, of_comma, of_column_name, of_type, of_default, of_drop, of_insert, of_delete, of_elsewhere, of_select,
)


def hint_of(words: Sequence[Token]) -> Hint | None:
    """What is probably the matter with the words of a faulty statement; None where nothing comes to mind."""
    found = (rule(words) for rule in RULES) if words else iter(())
    return next((hint for hint in found if hint is not None), None)
