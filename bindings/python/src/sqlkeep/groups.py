"""Whether the rows of several INSERTs may be inserted by one.

`executemany` executes an INSERT of one row again and again. Where nothing can tell the difference, it inserts some rows by one statement,
which takes half the time. These are the conditions:

- The statement is INSERT INTO with one row of VALUES. Such a row reads no table.
- No trigger of the table runs on INSERT. So nothing happens between the rows.
- No foreign key of the table refers to the table itself. Then no row needs a later one: a CHECK and NOT NULL ask for the row alone, a key for
  those that are there, and a foreign key for a row of another table, which doesn't change. So if all rows together violate nothing, those of the
  first statements violate nothing either, and each statement by itself would be accepted.

The rows get the same numbers, since they are inserted in their order, and as many row changes are counted. Where the one statement is refused,
for whatever cause, nothing was changed, and the statements are executed one by one; so a refusal is always that of a statement of the caller's. The
last set is always executed by itself, so that `work()` tells what it did.
"""
from __future__ import annotations

TYPE_CHECKING = False
if TYPE_CHECKING:
    from ._engine import Engine

__all__ = ["row_of_values"]

INSERT, FOREIGN_KEY = 0, 4


def row_of_values(text: str, engine: Engine) -> tuple[int, int]:
    """The bytes where the row of values of an INSERT begins and ends, if several rows may be inserted by one; otherwise (0, 0)."""
    from .text import tokens  # pylint: disable=import-outside-toplevel

    found = tokens(text)
    words = [token.word for token in found]
    if words[:2] != ["INSERT", "INTO"] or "VALUES" not in words or words[-1:] not in ([")"], [";"]):
        return 0, 0
    at, end = words.index("VALUES") + 1, len(words) - (words[-1] == ";")
    if end_of_row(words, at) != end or not stands_alone(words[2], engine):
        return 0, 0
    return len(text[: found[at].start].encode()), len(text[: found[end - 1].end].encode())


def end_of_row(words: list[str], at: int) -> int:
    """The place behind the parenthesis that closes the one at this place; 0 where none does."""
    depth = 0
    for place in range(at, len(words)):
        depth += (words[place] == "(") - (words[place] == ")")
        if depth == 0:
            return place + 1
    return 0


def stands_alone(name: str, engine: Engine) -> bool:
    """Whether no trigger runs on an INSERT into this table, and none of its foreign keys refers to itself."""
    tables, constraints, triggers = engine.catalogue()
    names = [table[0] for table in tables]
    if name not in names:
        return False
    table = names.index(name)
    refers = any(each[1] == FOREIGN_KEY and each[2] == table and each[7] == table for each in constraints)
    return not refers and not any(each[1] == table and each[3] == INSERT for each in triggers)
