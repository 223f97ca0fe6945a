"""The exceptions of the package, as PEP 249 has them.

A refused statement is one of them, by the table of `causes`: IntegrityError, ProgrammingError, DataError or OperationalError. It
says why in `str()`, and has the parts of it as attributes. They are read of the engine's lines when they are asked for.
"""
from __future__ import annotations

from .causes import CAUSES

TYPE_CHECKING = False
if TYPE_CHECKING:
    from typing import Any

    from ._engine import Engine
    from .account import Account, Violation
    from .text import Place
    from .transcript import Refusal

__all__ = [
    "Warning", "Error", "InterfaceError", "DatabaseError", "DataError", "OperationalError", "IntegrityError", "InternalError",
    "ProgrammingError", "NotSupportedError",
]


# What an exception was made of, where `args` says more.
MADE_OF: Any = BaseException.__dict__["args"]


class Warning(Exception):  # pylint: disable=redefined-builtin
    """What PEP 249 calls a warning. Nothing raises it."""


class Error(Exception):
    """The base of all errors of the package. What an error isn't about is None, and `violations` is empty."""

    #: The number of the cause of a refusal, 1 to 22.
    cause: int | None = None
    #: Which statement of a script, or which set of parameters of `executemany`, counted from 1.
    statement: int | None = None
    #: The line and the column of a fault of the text, from 1.
    line: int | None = None
    column: int | None = None
    #: The first word of the text that can't stand where it does; empty where the text ends there, or no word begins.
    word: str | None = None
    # Where the fault is in the text, and what is probably the matter.
    _at = 0
    _hint = ""
    _row = 0
    _lines = b""
    # The session that is to tell the lines; None where they were told.
    _engine: Engine | None = None
    _parsed: tuple[Refusal, Account] | None = None

    def __str__(self) -> str:
        place = f"statement {self.statement}: " if self.statement is not None else ""
        return place + (super().__str__() if self.cause is None else reason_of(self))

    def __repr__(self) -> str:
        return f"{type(self).__name__}({', '.join(map(repr, self.args))})"

    @property
    def args(self) -> tuple[Any, ...]:
        """What the error was made of; of a refusal its reason."""
        made_of: tuple[Any, ...] = MADE_OF.__get__(self)
        return made_of if self.cause is None and self.statement is None else (str(self),)

    @args.setter
    def args(self, made_of: tuple[Any, ...]) -> None:
        MADE_OF.__set__(self, made_of)

    def __reduce__(self) -> Any:
        self._tell()
        kept = {key: value for key, value in self.__dict__.items() if key not in ("_parsed", "_engine")}
        return rebuilt, (type(self), MADE_OF.__get__(self), kept)

    @property
    def cause_name(self) -> str | None:
        """The name of the cause, as `Violation`."""
        return None if self.cause is None else CAUSES[self.cause][0]

    @property
    def constraint(self) -> str | None:
        """The name of the constraint that refused the statement."""
        return self.refusal.constraint if self.refusal is not None else None

    @property
    def row(self) -> int | None:
        """The number of the row that the refusal speaks of."""
        return self._row or None

    @property
    def table(self) -> str | None:
        """The table of that row."""
        return self.violations[0].table if self.violations else None

    @property
    def trigger(self) -> str | None:
        """The trigger that the cause speaks of, or else the innermost one that was running."""
        return (self.refusal.trigger or self.refusal.inside) if self.refusal is not None else None

    @property
    def signal(self) -> str | None:
        """The text of a trigger's SIGNAL."""
        return self.refusal.signal if self.refusal is not None else None

    @property
    def name(self) -> str | None:
        """The name that a refusal for Unknown or Duplicate is about."""
        fault = self.account.name if self.account is not None else None
        return fault.name if fault is not None else None

    @property
    def reason(self) -> str | None:
        """Why the statement was refused, for causes 3, 7 to 11, 16 to 18 and 21; what is probably the matter with a text that is no statement."""
        told = self.account.reason if self.account is not None else None
        return told.text if told is not None else self._hint or None

    @property
    def violations(self) -> list[Violation]:
        """The constraints and rows that the refusal is about: one of a statement, all that are pending of a COMMIT."""
        return self.account.violations if self.account is not None else []

    @property
    def account(self) -> Account | None:
        """What happened in the refused statement, up to the refusal."""
        return self._parse()[1] if self._tell() else None

    @property
    def refusal(self) -> Refusal | None:
        """The parts of the line that the engine writes of the refusal."""
        return self._parse()[0] if self._tell() else None

    @property
    def lines(self) -> str:
        """The lines of the refusal and of its account, as the program writes them; empty where nothing was refused."""
        return self._tell().decode()

    def _tell(self) -> bytes:
        """The lines, which the session tells where it hasn't yet. Another thread than its own can't ask it."""
        if self._engine is not None:
            try:
                self._engine.check()
            except ProgrammingError:
                pass
        return self._lines

    def _parse(self) -> tuple[Refusal, Account]:
        if self._parsed is None:
            from .account import Account  # pylint: disable=import-outside-toplevel
            from .transcript import Refusal, parse_refusal  # pylint: disable=import-outside-toplevel

            try:
                self._parsed = parse_refusal(self._lines.decode())
            except ValueError:
                # An engine that writes other lines than this package knows: `lines` has them.
                self._parsed = Refusal(self.cause or 0, self.cause_name or "", row=self.row), Account()
        return self._parsed


class InterfaceError(Error):
    """What PEP 249 calls an error of the interface. Nothing raises it."""


class DatabaseError(Error):
    """The base of all errors that come from the database."""


class DataError(DatabaseError):
    """A number has more than 64 bits, or a text is longer than its column."""


class OperationalError(DatabaseError):
    """Memory was refused, or a limit of the engine was reached."""


class IntegrityError(DatabaseError):
    """A constraint, a foreign key's action or a trigger's SIGNAL refused the statement."""


class InternalError(DatabaseError):
    """What PEP 249 calls an internal error. Nothing raises it."""


class ProgrammingError(DatabaseError):
    """The text is no statement, a name names nothing, values don't fit, or a call comes at a wrong time."""


class NotSupportedError(DatabaseError):
    """The database has no such thing."""


CLASSES: dict[str, type[DatabaseError]] = {each.__name__: each for each in (DataError, OperationalError, IntegrityError, ProgrammingError)}
# By the number of the cause; none has number 0.
BY_CAUSE: tuple[type[DatabaseError], ...] = (DatabaseError, *(CLASSES[CAUSES[number][1]] for number in sorted(CAUSES)))


def rebuilt(kind: type[Error], words: tuple[object, ...], kept: dict[str, Any]) -> Error:
    """The error that was pickled."""
    error = kind(*words)
    error.__dict__.update(kept)
    return error


def faulted(at: int, reason: str, place: Place, statement: int | None) -> ProgrammingError:
    """The error of a text that is no statement, from a place of it on; the reason may be empty."""
    error = ProgrammingError(f"no statement at line {place.line}, column {place.column}{': ' + place.words if place.words else ''}{f' ({reason})' if reason else ''}")
    error.line, error.column, error.statement, error._at, error._hint = place.line, place.column, statement, at, reason
    return error


# People name them without their module.
for each in __all__:
    globals()[each].__module__ = "sqlkeep"


# ---- what a refusal says


def reason_of(error: Error) -> str:
    """The whole reason of a refusal."""
    name, _, sentence = CAUSES[error.cause or 22]
    refusal = error.refusal
    if refusal is None:
        return f"{name}: {f'row {error.row}: ' if error.row is not None else ''}{sentence}"
    inside = f", in trigger {refusal.inside}" if refusal.inside is not None else ""
    of = error.violations[0].described if error.violations else refusal.constraint or refusal.trigger
    return f"{name}{f' of {of}' if of is not None else ''}: {matter_of(error, refusal, sentence)}{inside}"


def matter_of(error: Error, refusal: Refusal, sentence: str) -> str:
    """What is the matter, as precisely as is known."""
    if refusal.signal is not None:
        return refusal.signal
    if error.violations:
        more = len(error.violations) - 1
        others = f", and {more} more violation{'s' if more > 1 else ''}" if more > 0 else ""
        return error.violations[0].reason + others + ("; the transaction is rolled back" if refusal.cause == 19 else "")
    account = error.account
    told = (account.name or account.reason) if account is not None else None
    if told is not None and refusal.cause not in (17, 18):
        return str(told)
    return f"row {refusal.row}: {sentence}" if refusal.row is not None else sentence
