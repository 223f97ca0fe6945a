"""The condition of a CHECK, read in SQLite's or PostgreSQL's language and written in this one.

Each rule reads a part and gives what is written for it. What has no equivalent raises CannotSay with the word.
"""
from __future__ import annotations

import re
from typing import Callable, NamedTuple

from ..values import write_value
from .words import CannotSay, Word

__all__ = ["Name", "written"]

GREATEST = 2**63 - 1
DEEPEST = 64


class Name(NamedTuple):
    """What a column is called here, whether its values compare here as they do there, and whether they are texts."""

    name: str
    comparable: bool
    is_text: bool


class Piece(NamedTuple):
    """A part as it is written here. A part that isn't comparable can only be asked for null; `about` says why."""

    text: str
    is_condition: bool = False
    about: str = ""
    is_text: bool = False


def condition(piece: Piece) -> str:
    """A part as a condition; a number is true unless it is 0."""
    return piece.text if piece.is_condition else f"{operand(piece)} <> 0"


def operand(piece: Piece) -> str:
    """A part as an operand."""
    if piece.is_condition:
        raise CannotSay("a comparison is no value here")
    if piece.about:
        raise CannotSay(piece.about)
    return piece.text


class Reader:
    """Reads the words of one condition. Its methods are the rules, from the loosest to the tightest."""

    def __init__(self, words: list[Word], name_of: Callable[[str], Name | None]) -> None:
        self._words = words
        self._name_of = name_of
        self._at = 0
        self._depth = 0

    def says(self, *words: str) -> bool:
        return self._at < len(self._words) and self._words[self._at].says(*words)

    def take(self, *words: str) -> str | None:
        """The next word, if it is one of these."""
        if not self.says(*words):
            return None
        self._at += 1
        return self._words[self._at - 1].text.upper()

    def expect(self, word: str) -> None:
        if self.take(word) is None:
            raise self.fault()

    def fault(self) -> CannotSay:
        return CannotSay(f"{self._words[self._at]} can't be said here" if self._at < len(self._words) else "the condition is cut off")

    def whole(self) -> str:
        found = condition(self.any_of())
        if self._at < len(self._words):
            raise self.fault()
        return found

    def any_of(self) -> Piece:
        return self.chain("OR", self.all_of)

    def all_of(self) -> Piece:
        return self.chain("AND", self.negation)

    def chain(self, word: str, part: Callable[[], Piece]) -> Piece:
        parts = [part()]
        while self.take(word):
            parts.append(part())
        return parts[0] if len(parts) == 1 else Piece(f"({f' {word} '.join(map(condition, parts))})", True)

    def negation(self) -> Piece:
        return Piece(f"(NOT {condition(self.negation())})", True) if self.take("NOT") else self.test()

    def test(self) -> Piece:
        left = self.comparison()
        while True:
            sign = self.take("=", "==", "<>", "!=")
            if sign and self.take("ANY", "ALL"):
                left = self.array(left, sign)
            elif sign:
                left = Piece(f"({operand(left)} {'=' if sign in ('=', '==') else '<>'} {operand(self.comparison())})", True)
            elif self.take("ISNULL"):
                left = asked_for_null(left, "")
            elif self.take("NOTNULL"):
                left = asked_for_null(left, "NOT ")
            elif self.take("IS"):
                left = asked_for_null(left, "NOT " if self.take("NOT") else "")
                self.expect("NULL")
            elif self.says("NOT", "IN", "BETWEEN"):
                left = self.negated(left)
            else:
                return left

    def negated(self, left: Piece) -> Piece:
        """What may stand behind NOT in the middle of a test, with or without it."""
        is_negated = self.take("NOT") is not None
        if is_negated and self.take("NULL"):
            return asked_for_null(left, "NOT ")
        found = self.member(left) if self.take("IN") else self.between(left) if self.take("BETWEEN") else None
        if found is None:
            raise self.fault()
        return Piece(f"(NOT {found})", True) if is_negated else Piece(found, True)

    def member(self, left: Piece) -> str:
        self.expect("(")
        parts = [f"{operand(left)} = {operand(self.sum())}"]
        while self.take(","):
            parts.append(f"{operand(left)} = {operand(self.sum())}")
        self.expect(")")
        return f"({' OR '.join(parts)})"

    def between(self, left: Piece) -> str:
        least = operand(self.comparison())
        self.expect("AND")
        return f"({operand(left)} >= {least} AND {operand(left)} <= {operand(self.comparison())})"

    def comparison(self) -> Piece:
        left = self.sum()
        sign = self.take("<", "<=", ">", ">=")
        while sign:
            left = Piece(f"({operand(left)} {sign} {operand(self.sum())})", True)
            sign = self.take("<", "<=", ">", ">=")
        return left

    def sum(self) -> Piece:
        return self.operation(("+", "-"), self.product)

    def product(self) -> Piece:
        return self.operation(("*",), self.factor)

    def operation(self, signs: tuple[str, ...], part: Callable[[], Piece]) -> Piece:
        left = part()
        sign = self.take(*signs)
        while sign:
            left = Piece(f"({operand(left)} {sign} {operand(part())})")
            sign = self.take(*signs)
        return left

    def factor(self) -> Piece:
        sign = self.take("+", "-")
        if sign:
            # SQLite's + before a text does nothing; here both signs stand before numbers only, which the engine tests.
            return Piece(f"({sign}{operand(self.factor())})")
        found = self.primary()
        while self.take("::"):
            found = self.cast(found)
        return found

    def cast(self, piece: Piece) -> Piece:
        """A cast of PostgreSQL that changes nothing, or that of a text of digits to a number."""
        words = []
        while self._at < len(self._words) and self._words[self._at].kind == "word" and not self.says("AND", "OR", "IS", "IN", "NOT"):
            words.append(str(self.take(self._words[self._at].text.upper())))
        name = " ".join(words)
        is_array = self.take("[") is not None
        if is_array:
            self.expect("]")
        if name in ("TEXT", "CHARACTER VARYING") and piece.is_text:
            return piece
        digits = re.fullmatch("'(-?[0-9]{1,18})'", piece.text)
        if name in ("SMALLINT", "INTEGER", "BIGINT") and (digits or not piece.is_text) and not piece.is_condition:
            return Piece(f"({digits[1]})") if digits else piece
        raise CannotSay(f"::{name.lower()} can't be said here")

    def array(self, left: Piece, sign: str) -> Piece:
        """What stands behind = ANY and <> ALL: the values of an ARRAY."""
        word = self._words[self._at - 1].text.upper()
        if (sign, word) not in (("=", "ANY"), ("<>", "ALL")):
            raise CannotSay(f"{sign} {word} can't be said here")
        self.expect("(")
        is_cast = self.take("(") is not None
        self.expect("ARRAY")
        self.expect("[")
        parts = [self.sum()]
        while self.take(","):
            parts.append(self.sum())
        self.expect("]")
        if is_cast:
            self.expect(")")
            self.expect("::")
            parts = self.all_cast(parts)
        self.expect(")")
        return Piece("(" + (" OR " if sign == "=" else " AND ").join(f"{operand(left)} {sign} {operand(part)}" for part in parts) + ")", True)

    def all_cast(self, parts: list[Piece]) -> list[Piece]:
        """The values of an array with the cast behind it."""
        start, found = self._at, []
        for part in parts:
            self._at = start
            found.append(self.cast(part))
        return found

    def primary(self) -> Piece:
        if self._at == len(self._words):
            raise self.fault()
        if self.take("("):
            return self.group()
        word = self._words[self._at]
        if word.kind == "number" and word.text.isdecimal() and int(word.text) <= GREATEST:
            self._at += 1
            return Piece(str(int(word.text)))
        if word.kind == "text":
            self._at += 1
            return Piece(write_value(word.text), is_text=True)
        return self.named(word)

    def group(self) -> Piece:
        """What stands in parentheses, which may be as deep as here."""
        self._depth += 1
        if self._depth > DEEPEST:
            raise CannotSay("it is too deep")
        found = self.any_of()
        self.expect(")")
        self._depth -= 1
        return found

    def named(self, word: Word) -> Piece:
        """A column, TRUE, FALSE or NULL."""
        if word.kind not in ("word", "quoted"):
            raise self.fault()
        self._at += 1
        if self.says("("):
            raise CannotSay(f"{word.text}() can't be said here")
        if self.take("."):
            self._at += 1
            word = self._words[self._at - 1] if self._at <= len(self._words) else word
        found = None if word.says("NULL") else self._name_of(word.text)
        if found is not None:
            return Piece(found.name, about="" if found.comparable else f"{found.name} is a text here", is_text=found.is_text)
        if not word.says("NULL", "TRUE", "FALSE"):
            raise CannotSay(f"{word} can't be said here")
        return Piece({"NULL": "NULL", "TRUE": "1", "FALSE": "0"}[word.text.upper()])


def asked_for_null(piece: Piece, negation: str) -> Piece:
    if piece.is_condition:
        raise CannotSay("a comparison is no value here")
    return Piece(f"({piece.text} IS {negation}NULL)", True)


def written(words: list[Word], name_of: Callable[[str], Name | None]) -> str:
    """A condition as it is written here. `name_of` tells the columns."""
    try:
        return Reader(words, name_of).whole()
    except RecursionError:
        raise CannotSay("it is too deep") from None
