"""The words of SQL as SQLite and PostgreSQL write it, as far as a CREATE TABLE and a condition need them."""
from __future__ import annotations

import re
from typing import NamedTuple

__all__ = ["CannotSay", "Word", "text_of", "words_of"]

BLANK = re.compile(r"(?:[ \t\r\n\f]|--[^\n]*|/\*.*?(?:\*/|\Z))+", re.DOTALL)
PIECE = re.compile(
    r"""(?P<blob>[xX]'[^']*')|(?P<text>'(?:[^']|'')*')|(?P<quoted>"(?:[^"]|"")*"|`(?:[^`]|``)*`|\[[^\]]*\])"""
    r"""|(?P<number>0[xX][0-9a-fA-F]+|(?:[0-9]+\.?[0-9]*|\.[0-9]+)(?:[eE][+-]?[0-9]+)?)|(?P<word>[A-Za-z_\u0080-\U0010ffff][\w$]*)"""
    r"""|(?P<sign>::|\|\||<<|>>|<=|>=|<>|!=|==|->>|->|[-+*/%&|~<>=(),.;?:@$])"""
)
BRACKET = re.compile(r"(?P<sign>[\[\]])")


class CannotSay(Exception):
    """What this language has no words for."""


class Word(NamedTuple):
    """A word of a kind, with its text: of a `text` and a `quoted` name what stands between the quotes, of others as it was written."""

    kind: str
    text: str

    def says(self, *words: str) -> bool:
        """Whether it is one of these keywords or signs."""
        return self.kind in ("word", "sign") and self.text.upper() in words

    def __str__(self) -> str:
        quote = {"text": "'", "quoted": '"'}.get(self.kind, "")
        return quote + (self.text.replace(quote, 2 * quote) if quote else self.text) + quote


def unquoted(piece: str) -> str:
    quote = piece[-1]
    return piece[1:-1] if quote == "]" else piece[1:-1].replace(2 * quote, quote)


def words_of(text: str, has_brackets: bool = True) -> list[Word]:
    """The words of a text. Names may stand between brackets in SQLite; in PostgreSQL brackets are signs. CannotSay where no word begins."""
    found: list[Word] = []
    at = 0
    while True:
        blank = BLANK.match(text, at)
        at = blank.end() if blank is not None else at
        if at == len(text):
            return found
        piece = PIECE.match(text, at) if has_brackets or text[at] not in "[]" else BRACKET.match(text, at)
        if piece is None or piece.lastgroup is None:
            raise CannotSay(f"no word begins at {text[at:at + 20]!r}")
        found.append(Word(piece.lastgroup, unquoted(piece[0]) if piece.lastgroup in ("text", "quoted") else piece[0]))
        at = piece.end()


def text_of(words: list[Word]) -> str:
    """Words as a text, for a note."""
    return " ".join(map(str, words))
