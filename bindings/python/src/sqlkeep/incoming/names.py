"""Names that can be written here."""
from __future__ import annotations

import re

from ..text import LONGEST_NAME, is_name

__all__ = ["Names"]

GENERATED = re.compile(r"_C[0-9]+\Z", re.IGNORECASE)


class Names:
    """One space of names. Each name that is given out is a name of this language, and given out once."""

    def __init__(self) -> None:
        self._given: set[str] = set()

    def of(self, name: str, is_constraint: bool = False) -> str:
        """The name here: the same if it can be, otherwise one that is like it. One that the engine may generate isn't given to a constraint."""
        plain = re.sub("[^A-Za-z0-9_]", "_", name)[:LONGEST_NAME - 8]
        plain = name if is_name(name) else plain if is_name(plain) else f"{plain}_" if is_name(f"{plain}_") else f"_{plain}"
        plain = f"{plain}_" if is_constraint and GENERATED.search(plain) else plain
        found, count = plain, 1
        while found.upper() in self._given:
            count += 1
            found = f"{plain[:LONGEST_NAME - 8]}_{count}"
        self._given.add(found.upper())
        return found
