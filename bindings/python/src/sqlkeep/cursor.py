"""Cursors of the DB-API."""
from __future__ import annotations

from .answers import CHANGED, DONE, EMPTY, ROWS, columns_of, error_of
from .errors import ProgrammingError
from .plans import DATA, plan_of, plans

TYPE_CHECKING = False
if TYPE_CHECKING:
    from typing import Any, Callable, Iterable, Iterator, Sequence, Tuple

    from .connection import Connection
    from .values import Value

    Values = Tuple[Value, ...]
    RowFactory = Callable[["Cursor", Values], Any]

__all__ = ["Cursor"]


class Cursor:
    """A cursor: it executes statements, and holds the rows of the last query. Cursors of a connection share its transaction."""

    #: How many rows `fetchmany` gives.
    arraysize = 1
    #: How many rows the last statement changed, or a query gave; -1 where it did neither.
    rowcount = -1
    _closed = False
    _rows: Iterator[Values] | None = None
    _called: tuple[str, ...] | None = None
    _text = ""
    _names: list[str] = []
    _columns: list[tuple[str, str | None]] | None = None

    def __init__(self, connection: Connection) -> None:
        #: What makes the rows that are given, of the cursor and a tuple; None for the tuples.
        self.row_factory: RowFactory | None = connection.row_factory
        self._connection = connection
        self._engine = connection._engine

    def __reduce__(self) -> Any:
        raise TypeError("a cursor can't be copied or pickled")

    def __enter__(self) -> Cursor:
        return self

    def __exit__(self, *_: object) -> None:
        self.close()

    @property
    def connection(self) -> Connection:
        """The connection that the cursor belongs to."""
        return self._connection

    @property
    def lastrowid(self) -> None:
        """None: a row has no number that a statement could name. What identifies it is its key."""
        return None

    @property
    def description(self) -> tuple[tuple[str, str | None, None, None, None, None, None], ...] | None:
        """For a query one tuple of seven for each column: its name, its type, and five times None. None where the last statement
        was no query."""
        if self._rows is None:
            return None
        return tuple((name, kind, None, None, None, None, None) for name, kind in self._described())

    def close(self) -> None:
        """Closes the cursor, and drops its rows."""
        self._closed, self._rows = True, None

    def execute(self, operation: str, parameters: Sequence[Value] = ()) -> Cursor:
        """Executes one statement, with a value for each `?`, and gives the cursor itself. The semicolon may be left out."""
        if self._closed:
            raise ProgrammingError("the cursor is closed")
        if self._rows is not None or self.rowcount >= 0:
            self._rows, self.rowcount = None, -1
        if not isinstance(operation, str):
            raise ProgrammingError(f"a statement is a str, and not of type {type(operation).__name__}")
        values = parameters if type(parameters) is tuple else values_of(parameters)
        plan = plans.get(operation)
        if plan is None:
            plan = plan_of(operation)
        if plan <= DATA and self._connection._autocommit is not True:
            answer = self._engine.execute(operation, values, False)
        else:
            answer = self._connection._answer(operation, values, plan)
        return self._take(operation, values, answer)

    def _take(self, text: str, values: tuple[Value, ...], answer: tuple[Any, ...]) -> Cursor:
        """Takes what the engine has answered to a statement, and gives the cursor itself."""
        kind = answer[0]
        if kind == CHANGED:
            self.rowcount = answer[1]
        elif kind == ROWS:
            self.rowcount, self._rows, self._text, self._names, self._columns, self._called = len(answer[1]), iter(answer[1]), text, answer[2], None, None
        elif kind not in (DONE, EMPTY):
            raise error_of(answer, text, len(values), self._engine)
        return self

    def executemany(self, operation: str, parameters: Iterable[Sequence[Value]]) -> Cursor:
        """Executes an INSERT, UPDATE or DELETE once for each set of values. Where one is refused, those before it stay in the
        transaction, and the error's `statement` says which it was."""
        if self._closed:
            raise ProgrammingError("the cursor is closed")
        self._rows, self.rowcount = None, -1
        if not isinstance(operation, str) or plan_of(operation) != DATA:
            raise ProgrammingError("executemany takes an INSERT, UPDATE or DELETE")
        self.rowcount = self._connection._answer_many(operation, parameters)
        return self

    def executescript(self, script: str) -> Cursor:
        """Executes the statements of a text one after the other, as `Connection.executescript` does."""
        if self._closed:
            raise ProgrammingError("the cursor is closed")
        self._rows, self.rowcount = None, -1
        self._connection.executescript(script)
        return self

    def fetchone(self) -> Values | None:
        """The next row of the query; None where there is none left."""
        return next(self._result(), None)

    def fetchmany(self, size: int | None = None) -> list[Values]:
        """The next rows of the query: `size` of them, or `arraysize`, or fewer where fewer are left."""
        rows, count = self._result(), self.arraysize if size is None else size
        if count < 0:
            raise ProgrammingError("the number of rows is negative")
        return [row for _, row in zip(range(count), rows)]

    def fetchall(self) -> list[Values]:
        """All rows of the query that are left."""
        return list(self._result())

    def __iter__(self) -> Cursor:
        return self

    def __next__(self) -> Values:
        return next(self._result())

    def setinputsizes(self, sizes: object) -> None:
        """Does nothing, as PEP 249 allows."""

    def setoutputsize(self, size: int, column: int | None = None) -> None:
        """Does nothing, as PEP 249 allows."""

    def _result(self) -> Iterator[Values]:
        if self._closed:
            raise ProgrammingError("the cursor is closed")
        self._engine.check()
        if self._rows is None:
            raise ProgrammingError("there are no rows: the last statement was no query")
        factory = self.row_factory
        return self._rows if factory is None else (factory(self, row) for row in self._rows)

    def _described(self) -> list[tuple[str, str | None]]:
        """The names and the types of the columns of the last query."""
        if self._columns is None:
            self._columns = columns_of(self._text, self._names, self._engine)
        return self._columns

    def _column_names(self) -> tuple[str, ...]:
        """The names of the columns."""
        if self._called is None:
            self._called = tuple(name for name, _ in self._described())
        return self._called


def values_of(parameters: Any) -> tuple[Value, ...]:
    """A set of parameters as a tuple."""
    if isinstance(parameters, (str, bytes, bytearray, dict, set, frozenset)) or not hasattr(parameters, "__iter__"):
        raise ProgrammingError(f"the parameters are a sequence with a value for each placeholder, and not of type {type(parameters).__name__}")
    return tuple(parameters)
