"""What the shell writes, to a terminal or to a file in its place."""
from __future__ import annotations

import os
from typing import TextIO

from .show import visible

__all__ = ["Screen"]

CODES = {"refused": "31", "ok": "32", "dim": "2", "head": "1"}


class Screen:
    """A stream that the shell writes to. On a terminal nothing of a text moves the cursor but its line feeds and tabs, and texts are coloured
    where the terminal has colours and NO_COLOR isn't set."""

    def __init__(self, stream: TextIO) -> None:
        self.stream = stream
        self.is_terminal = stream.isatty()
        self.has_colours = self.is_terminal and not os.environ.get("NO_COLOR") and os.environ.get("TERM", "dumb") != "dumb"

    def write(self, text: str) -> None:
        """Writes a text."""
        self.stream.write(visible(text, "\n\t") if self.is_terminal else text)

    def line(self, text: str, kind: str) -> None:
        """Writes a line in the colour of this kind."""
        self.stream.write(f"\x1b[{CODES[kind]}m" if self.has_colours else "")
        self.write(text)
        self.stream.write("\x1b[0m\n" if self.has_colours else "\n")

    def flush(self) -> None:
        """Hands over what was written."""
        self.stream.flush()
