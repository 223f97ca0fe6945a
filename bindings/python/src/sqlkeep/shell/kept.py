"""What the shell keeps of the statements that were accepted."""
from __future__ import annotations

from ..plans import first_word
from ..text import tokens

__all__ = ["Kept"]


class Kept:
    """The statements that were accepted, for `.save`, and those that made tables, constraints and triggers, for `.schema`.

    A COMMIT that was refused is kept as ROLLBACK, since that is what it did; so the statements lead to the same tables.
    """

    def __init__(self) -> None:
        self.statements: list[str] = []
        # Each with the name of its table.
        self.schema: list[tuple[str, str]] = []
        # The files that were written: they may be written again.
        self.saved: set[str] = set()
        self.triggers: dict[str, tuple[str, str]] = {}

    def accept(self, text: str) -> None:
        """Keeps a statement that was accepted, with its semicolon."""
        # Nothing follows the last token; so a semicolon at the end is one.
        text += "" if text.endswith(";") else "\n;"
        self.statements.append(text)
        words = [token.word for token in tokens(text)] if first_word(text) in ("CREATE", "ALTER", "DROP") else []
        if words[:1] == ["CREATE"] and words[1] == "TABLE":
            self.schema.append((words[2], text))
        elif words[:1] == ["ALTER"]:
            self.schema.append((words[2], text))
        elif words[:1] == ["CREATE"]:
            self.triggers[words[2]] = (words[words.index("ON") + 1], text)
            self.schema.append(self.triggers[words[2]])
        elif words[:1] == ["DROP"]:
            self.schema.remove(self.triggers.pop(words[2]))

    def refuse_commit(self) -> None:
        """Keeps what a refused COMMIT did."""
        self.statements.append("ROLLBACK; -- COMMIT was refused")
