"""The names of savepoints in PostgreSQL, which keeps an older savepoint of the same name."""
from __future__ import annotations

from .quoting import Sql, identifier, plain_name

__all__ = ["Savepoints"]


class Savepoints:
    """The savepoints of a transaction: each gets a name that none of the transaction had, so that one that is gone here is never met there."""

    def __init__(self) -> None:
        self._there: dict[str, str] = {}
        self._used: set[str] = set()

    def _unused(self, name: str) -> str:
        there, number = plain_name(name), 1
        while there in self._used:
            number += 1
            there = f"{plain_name(name)}_{number}"
        return there

    def made(self, name: str) -> Sql:
        """The name of a new savepoint."""
        there = self._unused(name)
        self._there[name] = there
        self._used.add(there)
        return identifier(there)

    def found(self, name: str, is_there: bool) -> Sql:
        """The name of the savepoint that a statement speaks of; one that nothing has if it isn't there here."""
        return identifier(self._there[name] if is_there else self._unused(name))
