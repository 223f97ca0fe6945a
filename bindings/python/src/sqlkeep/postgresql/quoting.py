"""The one writer of SQL for PostgreSQL.

A piece of SQL is an `Sql`. The functions here make one of a word, a number, a text, a name or a body, and put pieces into a template; a
plain string is refused everywhere else. A text, a name or a body means the same to PostgreSQL and to psql, whatever the settings are.
"""
from __future__ import annotations

import re
from itertools import count
from typing import Iterable

from ..text import KEYWORDS, Token

__all__ = ["EMPTY", "Sql", "body", "comment", "identifier", "joined", "keywords", "literal", "name", "number", "of_token", "plain_name", "sql"]

# What every row of PostgreSQL has, and no table may.
SYSTEM_COLUMNS = frozenset("CMAX CMIN CTID TABLEOID XMAX XMIN".split())
SIGNS = frozenset("( ) , ; . = <> < <= > >= + - *".split())


class Sql:
    """A piece of SQL. Only this module makes one."""

    __slots__ = ("_text",)

    def __init__(self, text: str) -> None:
        self._text = text

    def __str__(self) -> str:
        return self._text

    def __repr__(self) -> str:
        return f"<Sql {self._text!r}>"

    def __eq__(self, other: object) -> bool:
        return isinstance(other, Sql) and self._text == other._text

    def __hash__(self) -> int:
        return hash(self._text)

    def __bool__(self) -> bool:
        return bool(self._text)


EMPTY = Sql("")


def text_of(piece: Sql) -> str:
    if not isinstance(piece, Sql):
        raise TypeError(f"no piece of SQL: {piece!r}")
    return str(piece)


def sql(template: str, *pieces: Sql) -> Sql:
    """A template, which is a constant of the program, with a piece in place of each `{}`."""
    parts = template.split("{}")
    if len(parts) != len(pieces) + 1:
        raise TypeError(f"{len(pieces)} pieces for {len(parts) - 1} places")
    return Sql("".join(part + text for part, text in zip(parts, (*map(text_of, pieces), ""))))


def joined(separator: str, pieces: Iterable[Sql]) -> Sql:
    """Pieces with a constant of the program between them."""
    return Sql(separator.join(map(text_of, pieces)))


def without_nul(text: str) -> str:
    if "\0" in text:
        raise ValueError("PostgreSQL has no text with the character U+0000")
    return text


def literal(text: str) -> Sql:
    """A text. One with a backslash is written as E'..', which doesn't depend on standard_conforming_strings."""
    quoted = "'" + without_nul(text).replace("'", "''") + "'"
    return Sql("E" + quoted.replace("\\", "\\\\") if "\\" in text else quoted)


def identifier(text: str) -> Sql:
    """A name of PostgreSQL, exactly as it is given."""
    return Sql('"' + without_nul(text).replace('"', '""') + '"')


def plain_name(word: str) -> str:
    """The name in PostgreSQL of a name of the script: in small letters, except that of a system column or one that begins as those of
    the system catalogue do. PostgreSQL tells capitals from small letters between quotes, so these are other names than its own."""
    return word if word in SYSTEM_COLUMNS or word.startswith("PG_") else word.lower()


def name(word: str) -> Sql:
    """A name of the script."""
    return identifier(plain_name(word))


def keywords(words: str) -> Sql:
    """Keywords of the script, with a space between them."""
    if not KEYWORDS.issuperset(words.split(" ")):
        raise ValueError(f"no keywords: {words!r}")
    return Sql(words)


def number(digits: str) -> Sql:
    """A number without a sign."""
    if not re.fullmatch("[0-9]+", digits):
        raise ValueError(f"no number: {digits!r}")
    return Sql(digits)


def sign(word: str) -> Sql:
    if word not in SIGNS:
        raise ValueError(f"no sign: {word!r}")
    return Sql(word)


def of_token(token: Token) -> Sql:
    """A word of the script: a keyword, a name, a number, a text or a sign."""
    if token.kind == "text":
        return literal(token.word[1:-1].replace("''", "'"))
    if token.kind == "word":
        return keywords(token.word) if token.word in KEYWORDS else name(token.word)
    return number(token.word) if token.kind == "number" else sign(token.word)


def body(text: Sql) -> Sql:
    """The text of a function or of a DO, between dollar quotes whose tag it doesn't have."""
    tag = next(tag for tag in (f"body{at or ''}" for at in count()) if tag not in text_of(text))
    return Sql(f"${tag}$\n{text}\n${tag}$")


def comment(text: str) -> Sql:
    """A comment of one line."""
    return Sql("-- " + "".join(character if character.isprintable() else " " for character in text) + "\n")
