"""Rows whose values have names."""
from __future__ import annotations

from .text import folded

TYPE_CHECKING = False
if TYPE_CHECKING:
    from typing import Any

    from .cursor import Cursor, Values
    from .values import Value

__all__ = ["Row"]


class Row(tuple["Value", ...]):
    """A row whose values are also found by the names of their columns, in whatever case: `connection.row_factory = sqlkeep.Row`. It is pickled as
    a tuple."""

    _names: tuple[str, ...]

    def __new__(cls, cursor: Cursor, values: Values) -> Row:
        """A row of a cursor's last query."""
        row: Row = tuple.__new__(cls, values)
        row._names = cursor._column_names()
        return row

    def __getitem__(self, at: Any) -> Any:
        """The value at a place, or of the first column of this name."""
        if not isinstance(at, str):
            return super().__getitem__(at)
        wanted = folded(at)
        for place, name in enumerate(self._names):
            if name == wanted or folded(name) == wanted:
                return super().__getitem__(place)
        raise IndexError(f"no column is called {at}")

    def __reduce__(self) -> Any:
        return tuple, (tuple(self),)

    def keys(self) -> list[str]:
        """The names of the columns."""
        return list(self._names)
