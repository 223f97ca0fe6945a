"""What SQLite's pragmas don't tell of a table: its CHECKs, the names and modes of its constraints, and collations. The text of the
CREATE TABLE, which SQLite has read already, has them."""
from __future__ import annotations

from dataclasses import dataclass, field

from .schema import Check
from .words import Word, words_of

__all__ = ["Definition", "definition_of"]

TABLE_CONSTRAINTS = ("CONSTRAINT", "PRIMARY", "UNIQUE", "CHECK", "FOREIGN")


@dataclass
class Reference:
    """What stands behind a REFERENCES: its constraint's name, its mode and its MATCH."""

    name: str | None
    table: str
    is_deferrable: bool = False
    is_deferred: bool = False
    match: str | None = None

    @property
    def time(self) -> str:
        return "" if not self.is_deferrable else "INITIALLY DEFERRED" if self.is_deferred else "DEFERRABLE"


@dataclass
class Definition:
    """What a CREATE TABLE says: its parts in the order of the text. A key has its name and its columns in small letters; a collation
    its column, a name of NOT NULL too; a conflict the word behind ON CONFLICT."""

    checks: list[Check] = field(default_factory=list)
    references: list[Reference] = field(default_factory=list)
    keys: list[tuple[str | None, list[str]]] = field(default_factory=list)
    not_nulls: dict[str, str | None] = field(default_factory=dict)
    collations: dict[str, str] = field(default_factory=dict)
    conflicts: list[str] = field(default_factory=list)


def group(words: list[Word], at: int) -> int:
    """Where the group that begins at an opening parenthesis ends: the place of the closing one."""
    depth = 0
    for place in range(at, len(words)):
        depth += words[place].says("(") - words[place].says(")")
        if depth == 0:
            return place
    return len(words)


def elements(words: list[Word]) -> list[list[Word]]:
    """The elements of a CREATE TABLE: what stands between the commas in its parentheses."""
    start = next((at for at, word in enumerate(words) if word.says("(")), len(words))
    end = group(words, start)
    found: list[list[Word]] = [[]]
    at = start + 1
    while at < end:
        behind = group(words, at) + 1 if words[at].says("(") else at + 1
        if words[at].says(","):
            found.append([])
        else:
            found[-1].extend(words[at:behind])
        at = behind
    return [element for element in found if element]


def names_in(words: list[Word]) -> list[str]:
    """The columns of a list, in small letters, without what says how they are sorted."""
    return [element[0].text.lower() for element in elements(words)]


class ElementReader:
    """Reads the words of an element, and notes in a definition what it finds."""

    def __init__(self, words: list[Word], found: Definition) -> None:
        self._words, self._found = words, found
        self._column = None if words[0].says(*TABLE_CONSTRAINTS) else words[0].text.lower()
        self._name: str | None = None

    def read(self) -> None:
        at = 0 if self._column is None else 1
        while at < len(self._words):
            at = group(self._words, at) + 1 if self._words[at].says("(") else self.clause(at)

    def text(self, at: int) -> str:
        return self._words[at].text if at < len(self._words) else ""

    def clause(self, at: int) -> int:
        """Notes what begins here, and says where to go on."""
        word = self._words[at]
        if word.says("CONSTRAINT"):
            self._name = self.text(at + 1)
            return at + 2
        if word.says("DEFAULT", "COLLATE", "CONFLICT", "MATCH", "INITIALLY"):
            return self.pair(word.text.upper(), at)
        if word.says("CHECK"):
            end = group(self._words, at + 1)
            self._found.checks.append(Check(self._words[at + 2:end], self.given_name()))
            return end + 1
        if word.says("PRIMARY", "UNIQUE"):
            self.key(at)
        elif word.says("REFERENCES"):
            self._found.references.append(Reference(self.given_name(), self.text(at + 1)))
            return at + 2
        elif word.says("NULL") and self._words[at - 1].says("NOT") and self._column is not None:
            self._found.not_nulls[self._column] = self.given_name()
        elif word.says("DEFERRABLE") and self._found.references:
            self._found.references[-1].is_deferrable = not self._words[at - 1].says("NOT")
        return at + 1

    def given_name(self) -> str | None:
        """The name behind the last CONSTRAINT, which names one constraint only."""
        name, self._name = self._name, None
        return name

    def key(self, at: int) -> None:
        start = next((place for place in range(at, len(self._words)) if self._words[place].says("(")), len(self._words))
        columns = [self._column] if self._column is not None else names_in(self._words[start:group(self._words, start) + 1])
        self._found.keys.append((self.given_name(), columns))

    def pair(self, word: str, at: int) -> int:
        """A word with what stands behind it."""
        if word == "COLLATE" and self._column is not None:
            self._found.collations[self._column] = self.text(at + 1)
        elif word == "CONFLICT":
            self._found.conflicts.append(self.text(at + 1).upper())
        elif word == "MATCH" and self._found.references:
            self._found.references[-1].match = self.text(at + 1).upper()
        elif word == "INITIALLY" and self._found.references:
            self._found.references[-1].is_deferred = self.text(at + 1).upper() == "DEFERRED"
        return at + 1 if word == "DEFAULT" and self.text(at + 1) == "(" else at + 2


def definition_of(text: str) -> Definition:
    """What the text of a CREATE TABLE says."""
    found = Definition()
    for element in elements(words_of(text)):
        ElementReader(element, found).read()
    return found
