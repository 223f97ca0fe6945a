"""Lines that are typed, up to the end of a statement."""
from __future__ import annotations

import re

from ..text import Ends, tokens

__all__ = ["Typed"]

REST_OF_TEXT = re.compile(r"[^']*(?:''[^']*)*'(?!')")


class Typed:
    """The lines of what isn't whole yet. Each is looked through once, when it comes."""

    def __init__(self) -> None:
        self.lines: list[str] = []
        # Whether what comes next is inside a text between quotes.
        self.in_text = False
        # Whether there is a place where no token can begin.
        self.is_faulty = False
        self.ends = Ends()

    @property
    def text(self) -> str:
        """All that was typed."""
        return "\n".join(self.lines)

    @property
    def is_open(self) -> bool:
        """Whether a statement has begun that isn't whole."""
        return self.in_text or self.ends.first != ""

    def add(self, line: str) -> bool:
        """Adds a line. Whether all is whole now, or no statement: then it has a fault, and this line a semicolon or nothing before it."""
        self.lines.append(line)
        if not self.is_faulty:
            self.look_through(line)
        return (";" in line or len(self.lines) == 1) if self.is_faulty else not self.is_open

    def look_through(self, line: str) -> None:
        """Follows the tokens of a line."""
        at = 0
        if self.in_text:
            rest = REST_OF_TEXT.match(line)
            if rest is None:
                return
            at, self.in_text = rest.end(), False
        for token in tokens(line[at:]):
            if token.kind == "fault":
                self.in_text = token.word == "'"
                self.is_faulty = not self.in_text
                self.ends.first = self.ends.first or token.word
            else:
                self.ends.take(token)
