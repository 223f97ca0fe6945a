"""An in-memory SQL engine for integrity constraints, by the DB-API 2.0 (PEP 249).

    import sqlkeep

    connection = sqlkeep.connect()
    connection.execute("CREATE TABLE book (title VARCHAR(30) PRIMARY KEY)")
    connection.execute("INSERT INTO book VALUES (?)", ("Emma",))
    connection.commit()

A statement that is refused raises an error that says why, with the constraint and the row: `IntegrityError.constraint`, `row`,
`table`, `violations`, `account`. `Session` is the same database without the rules of the DB-API. `python -m sqlkeep` is a shell.
"""
from __future__ import annotations

import _thread
import sys

from ._build import PROVED, VERSION
from ._engine import set_errors
from .connection import LEGACY_TRANSACTION_CONTROL, Connection, connect
from .cursor import Cursor
from .errors import (
    BY_CAUSE, DatabaseError, DataError, Error, IntegrityError, InterfaceError, InternalError, NotSupportedError, OperationalError, ProgrammingError, Warning,
)

TYPE_CHECKING = False
if TYPE_CHECKING:
    from .account import Account, Action, Change, NameFault, Nested, Reason, Savepoints, Skipped, Trigger, Violation, parse_account
    from .catalogue import Catalogue, Column, Constraint, Table, TriggerDefinition
    from .row import Row
    from .session import Outcome, Pending, Run, Session, StoredRow, Work
    from .transcript import Answer, Fault, Refusal, Settled, Transcript, parse_transcript
    from .type_objects import (
        BINARY, DATETIME, NUMBER, ROWID, STRING, Binary, Date, DateFromTicks, Time, TimeFromTicks, Timestamp, TimestampFromTicks,
    )


def main_thread() -> int:
    """The main thread. Where nothing has imported `threading`, there is no other."""
    threading = sys.modules.get("threading")
    ident: int | None = threading.main_thread().ident if threading is not None else None
    return _thread.get_ident() if ident is None else ident


set_errors(ProgrammingError, DataError, OperationalError, BY_CAUSE, main_thread())

#: The version of the DB-API.
apilevel = "2.0"
#: Threads may share the module, but not connections.
threadsafety = 1
#: A placeholder is a question mark.
paramstyle = "qmark"
#: The version of the package.
__version__ = VERSION
#: Whether the engine in this package was proved; False for one that was compiled without proof.
is_proved = PROVED

# What is imported when it is first asked for, so that `import sqlkeep` is quick.
LATER = {
    "account": ("Account", "Action", "Change", "NameFault", "Nested", "Reason", "Savepoints", "Skipped", "Trigger", "Violation", "parse_account"),
    "catalogue": ("Catalogue", "Column", "Constraint", "Table", "TriggerDefinition"),
    "row": ("Row",),
    "session": ("Outcome", "Pending", "Run", "Session", "StoredRow", "Work"),
    "transcript": ("Answer", "Fault", "Refusal", "Settled", "Transcript", "parse_transcript"),
    "type_objects": ("BINARY", "DATETIME", "NUMBER", "ROWID", "STRING", "Binary", "Date", "DateFromTicks", "Time", "TimeFromTicks", "Timestamp", "TimestampFromTicks"),
}

__all__ = [
    "Account", "Action", "Answer", "BINARY", "Binary", "Catalogue", "Change", "Column", "Connection", "Constraint", "Cursor", "DATETIME", "DataError",
    "DatabaseError", "Date", "DateFromTicks", "Error", "Fault", "IntegrityError", "InterfaceError", "InternalError", "LEGACY_TRANSACTION_CONTROL",
    "NUMBER", "NameFault", "Nested", "NotSupportedError", "OperationalError", "Outcome", "Pending", "ProgrammingError", "ROWID", "Reason", "Refusal", "Row", "Run",
    "STRING", "Savepoints", "Session", "Settled", "Skipped", "StoredRow", "Table", "Time", "TimeFromTicks", "Timestamp", "TimestampFromTicks", "Transcript", "Trigger", "TriggerDefinition", "Violation",
    "Warning", "Work", "apilevel", "connect", "is_proved", "paramstyle", "parse_account", "parse_transcript", "threadsafety",
]


def __getattr__(name: str) -> object:
    """Imports what is asked for."""
    for module, names in LATER.items():
        if name in names:
            from importlib import import_module  # pylint: disable=import-outside-toplevel

            return getattr(import_module(f"{__name__}.{module}"), name)
    raise AttributeError(f"module {__name__!r} has no attribute {name!r}")


def __dir__() -> list[str]:
    return sorted({*globals(), *__all__})
