"""Connections of the DB-API."""
from __future__ import annotations

from itertools import count

from . import errors
from ._engine import Engine
from .answers import CHANGED, DONE, error_of
from .cursor import Cursor, values_of
from .groups import row_of_values
from .plans import COMMIT, DATA, WANTS_TRANSACTION, plan_of, plans

TYPE_CHECKING = False
if TYPE_CHECKING:
    from types import TracebackType
    from typing import Any, Iterable, Iterator, Literal, Sequence

    from .cursor import RowFactory
    from .session import Outcome, Pending, Session
    from .values import Value

__all__ = ["Connection", "LEGACY_TRANSACTION_CONTROL", "connect"]

#: The default of `autocommit`, as in `sqlite3`: a transaction begins with the first INSERT, UPDATE or DELETE.
LEGACY_TRANSACTION_CONTROL = -1

# From so many sets on `executemany` looks whether their rows may be inserted by one statement.
FEWEST_GROUPED = 8
# What `executemany` may take at once: no code of the caller runs between two statements.
PLAIN = (list, tuple)
# Of savepoints without a name.
NUMBERS = count(1)


class Connection:
    """A connection: a database in memory of its own, used by the thread that opened it.

    As a context manager it commits where its block ends, and rolls back where the block raises; it stays open.
    """

    Warning = errors.Warning
    Error = errors.Error
    InterfaceError = errors.InterfaceError
    DatabaseError = errors.DatabaseError
    DataError = errors.DataError
    OperationalError = errors.OperationalError
    IntegrityError = errors.IntegrityError
    InternalError = errors.InternalError
    ProgrammingError = errors.ProgrammingError
    NotSupportedError = errors.NotSupportedError

    __slots__ = ("__weakref__", "_autocommit", "_engine", "_session", "row_factory")

    #: What makes the rows that a new cursor gives, of the cursor and a tuple, as `Row`; None for the tuples.
    row_factory: RowFactory | None

    def __init__(self, engine: Engine, autocommit: bool | int = LEGACY_TRANSACTION_CONTROL) -> None:
        self.row_factory = None
        self._engine = engine
        self._session: Session | None = None
        self._autocommit: bool | int = LEGACY_TRANSACTION_CONTROL
        self.autocommit = autocommit

    def __reduce__(self) -> Any:
        raise TypeError("a connection can't be copied or pickled; iterdump has the statements that make its database again")

    def __enter__(self) -> Connection:
        return self

    def __exit__(self, kind: type[BaseException] | None, error: BaseException | None, trace: TracebackType | None) -> Literal[False]:
        if kind is None:
            self.commit()
        elif self._engine.is_open():
            self.rollback()
        return False

    @property
    def session(self) -> Session:
        """The same database by the native interface."""
        return self._native()

    def _native(self) -> Session:
        if self._session is None:
            from .session import Session  # pylint: disable=import-outside-toplevel

            self._session = Session(engine=self._engine)
        return self._session

    @property
    def autocommit(self) -> bool | int:
        """How transactions end, as in `sqlite3` of Python 3.12. LEGACY_TRANSACTION_CONTROL, the default, and False: by `commit` or
        `rollback`. True: each statement is committed at once, unless START TRANSACTION has begun a transaction."""
        return self._autocommit

    @autocommit.setter
    def autocommit(self, mode: bool | int) -> None:
        self._set_autocommit(mode)

    def _set_autocommit(self, mode: bool | int) -> None:
        """Sets `autocommit`."""
        if mode not in (True, False, LEGACY_TRANSACTION_CONTROL):
            raise errors.ProgrammingError("autocommit is True, False or LEGACY_TRANSACTION_CONTROL")
        if mode == 1 and self.in_transaction:
            self.commit()
        self._autocommit = mode if mode == LEGACY_TRANSACTION_CONTROL else bool(mode)

    @property
    def in_transaction(self) -> bool:
        """Whether a transaction is open."""
        return self._engine.in_transaction()

    def cursor(self) -> Cursor:
        """A new cursor."""
        self._engine.check()
        return Cursor(self)

    def close(self) -> None:
        """Closes the connection. Its database is gone with it, as it is in memory alone. Nothing happens where it is closed."""
        self._engine.close()

    def execute(self, operation: str, parameters: Sequence[Value] = ()) -> Cursor:
        """Executes one statement with a new cursor, and gives that."""
        if type(operation) is str and type(parameters) is tuple and self._autocommit is not True and plans.get(operation, COMMIT) <= DATA:
            # The short way of a statement that was seen before.
            answer = self._engine.execute(operation, parameters, False)
            return Cursor(self)._take(operation, parameters, answer)
        return Cursor(self).execute(operation, parameters)

    def executemany(self, operation: str, parameters: Iterable[Sequence[Value]]) -> Cursor:
        """Executes a statement once for each set of values, with a new cursor, and gives that."""
        return Cursor(self).executemany(operation, parameters)

    def executescript(self, script: str) -> Cursor:
        """Executes the statements of a text one after the other. By default a transaction that is open is committed first. Where
        something of the text is no statement, nothing is executed. Where a statement is refused, those before it stay, those
        after it aren't executed, and the error's `statement` says which it was."""
        self._engine.check()
        parts = self._native().parts(script)
        if self._autocommit == LEGACY_TRANSACTION_CONTROL and self.in_transaction:
            self.commit()
        for number, part in enumerate(parts, 1):
            try:
                self._answer_in_mode(part, (), plan_of(part))
            except errors.DatabaseError as error:
                error.statement = number
                raise
        return Cursor(self)

    def commit(self) -> None:
        """Ends the transaction. IntegrityError where a constraint is violated: the transaction is then rolled back. Nothing
        happens where none is open, or where `autocommit` is True."""
        self._engine.check()
        if self._autocommit is not True:
            self._engine.commit()

    def rollback(self) -> None:
        """Takes the transaction back. Nothing happens where none is open, or where `autocommit` is True."""
        self._engine.check()
        if self._autocommit is not True:
            self._engine.rollback()

    def savepoint(self, name: str | None = None) -> Savepoint:
        """A savepoint for a block: `with connection.savepoint():`. It is released where the block ends, and gone back to
        where the block raises."""
        from .text import is_name  # pylint: disable=import-outside-toplevel

        if name is None:
            name = f"savepoint_{next(NUMBERS)}"
        elif not is_name(name):
            raise errors.ProgrammingError(f"a savepoint can't be called {name!r}")
        return Savepoint(self, name)

    def pending(self) -> list[Pending]:
        """What COMMIT would find: the violations of deferred constraints, each as a constraint's name and a row."""
        return self._native().pending()

    def iterdump(self) -> Iterator[str]:
        """The statements that make the database again, each with its semicolon, as sqlite3 has them. ProgrammingError where a transaction
        is open."""
        session = self._native()
        return iter([part for script in session.dump() for part in session.parts(script)])

    # ---- for cursors

    def _answer(self, text: str, values: tuple[Value, ...], plan: int) -> tuple[Any, ...]:
        """What the engine answers to one statement, by the rules of transactions."""
        if plan == WANTS_TRANSACTION and self._autocommit is not True and not self._engine.in_transaction():
            return self._answer_in_new(text, values)
        return self._answer_in_mode(text, values, plan)

    def _outcome(self, text: str, values: tuple[Value, ...]) -> Outcome:
        """What one statement answers, by the rules of transactions. A refusal is an outcome and raises nothing."""
        from .session import outcome_of, refused  # pylint: disable=import-outside-toplevel

        try:
            return outcome_of(self._native(), self._answer(text, values, plan_of(text)), text, len(values))
        except errors.DatabaseError as error:
            return refused(error)

    def _answer_many(self, text: str, parameters: Iterable[Sequence[Value]]) -> int:
        """Executes the text once for each set of values: how many rows were changed."""
        if self._autocommit is not True and isinstance(parameters, PLAIN) and all(isinstance(each, PLAIN) for each in parameters):
            return self._answer_list(text, list(parameters), 0)
        changed = 0
        for number, each in enumerate(parameters):
            was_open = self._engine.in_transaction()
            changed += self._answer_list(text, [values_of(each)], number)
            if self._autocommit is True and not was_open:
                self._engine.commit()
        return changed

    def _answer_list(self, text: str, values: list[Any], before: int) -> int:
        try:
            row = row_of_values(text, self._engine) if len(values) >= FEWEST_GROUPED else (0, 0)
            done, changed, answer = self._engine.execute_many(text, values, *row)
        except errors.Error as error:
            if self._engine.is_open():
                error.statement = before + self._engine.progress() + 1
            raise
        if answer is not None:
            raise error_of(answer, text, len(values[done]), self._engine, before + done + 1)
        return changed

    def _answer_in_mode(self, text: str, values: tuple[Value, ...], plan: int) -> tuple[Any, ...]:
        was_open = self._autocommit is not True or self._engine.in_transaction()
        answer = self._engine.execute(text, values, plan == COMMIT)
        if answer[0] == CHANGED and not was_open:
            self._engine.commit()
        return answer

    def _answer_in_new(self, text: str, values: tuple[Value, ...]) -> tuple[Any, ...]:
        """Begins a transaction for a SAVEPOINT or a SET CONSTRAINTS. Where that isn't accepted, none was begun."""
        self._engine.execute("START TRANSACTION", (), False)
        answer: tuple[Any, ...] = (None,)
        try:
            answer = self._engine.execute(text, values, False)
        finally:
            if answer[0] != DONE:
                self._engine.rollback()
        return answer


class Savepoint:
    """A savepoint for a block, as `Connection.savepoint` gives it."""

    def __init__(self, connection: Connection, name: str) -> None:
        self.connection = connection
        self.name = name

    def __enter__(self) -> Savepoint:
        self.connection.execute(f"SAVEPOINT {self.name}")
        return self

    def __exit__(self, kind: type[BaseException] | None, error: BaseException | None, trace: TracebackType | None) -> Literal[False]:
        engine = self.connection._engine
        if kind is None:
            self.connection.execute(f"RELEASE SAVEPOINT {self.name}")
        elif engine.is_open() and engine.in_transaction():
            try:
                engine.execute(f"ROLLBACK TO SAVEPOINT {self.name}", (), False)
                engine.execute(f"RELEASE SAVEPOINT {self.name}", (), False)
            except errors.ProgrammingError:
                # The transaction of the savepoint has ended, and another is open.
                pass
        return False


def connect(
    database: str = ":memory:",
    *,
    autocommit: bool | int = LEGACY_TRANSACTION_CONTROL,
    depth: int = 16,
    changes: int = 65_536,
    accounts: bool = True,
) -> Connection:
    """Opens a connection to a new database without tables.

    `database` may be ":memory:" alone. `depth` is how deep triggers may nest, 1 to 64, and `changes` how many row changes a statement
    may make, 1 to 65,536. With `accounts=False` a statement that is refused isn't executed once more for its account: the errors
    then have the constraint and the row, and no more.
    """
    if database not in (":memory:", ""):
        raise errors.NotSupportedError("a database is in memory alone; leave the name out, or say ':memory:'")
    engine = Engine(depth, changes)
    engine.account(accounts)
    return Connection(engine, autocommit)
