"""The type objects and constructors of PEP 249.

The engine has integers and texts. A date or a time is a text, as ISO 8601 writes it, so that texts are ordered as the dates are."""
import datetime
import time
from typing import FrozenSet, Optional

from .errors import NotSupportedError

__all__ = ["BINARY", "Binary", "DATETIME", "Date", "DateFromTicks", "NUMBER", "ROWID", "STRING", "Time", "TimeFromTicks", "Timestamp", "TimestampFromTicks"]


class TypeObject:
    """A kind of columns, equal to each type code of `Cursor.description` that it covers."""

    def __init__(self, name: str, *codes: str) -> None:
        self.name = name
        self.codes: FrozenSet[str] = frozenset(codes)

    def __eq__(self, other: object) -> bool:
        return other in self.codes if isinstance(other, str) else self is other

    def __hash__(self) -> int:
        return hash(self.name)

    def __repr__(self) -> str:
        return f"sqlkeep.{self.name}"


STRING = TypeObject("STRING", "VARCHAR")
NUMBER = TypeObject("NUMBER", "INTEGER")
BINARY = TypeObject("BINARY")
DATETIME = TypeObject("DATETIME")
ROWID = TypeObject("ROWID")


def Date(year: int, month: int, day: int) -> str:  # pylint: disable=invalid-name
    """A date as a text: 2026-01-31."""
    return datetime.date(year, month, day).isoformat()


def Time(hour: int, minute: int, second: int) -> str:  # pylint: disable=invalid-name
    """A time as a text: 09:30:00."""
    return datetime.time(hour, minute, second).isoformat()


def Timestamp(year: int, month: int, day: int, hour: int, minute: int, second: int) -> str:  # pylint: disable=invalid-name
    """A date with its time as a text: 2026-01-31 09:30:00."""
    return datetime.datetime(year, month, day, hour, minute, second).isoformat(" ")


def DateFromTicks(ticks: float) -> str:  # pylint: disable=invalid-name
    """The date of so many seconds since the epoch, here."""
    return Date(*time.localtime(ticks)[:3])


def TimeFromTicks(ticks: float) -> str:  # pylint: disable=invalid-name
    """The time of so many seconds since the epoch, here."""
    return Time(*time.localtime(ticks)[3:6])


def TimestampFromTicks(ticks: float) -> str:  # pylint: disable=invalid-name
    """The date and time of so many seconds since the epoch, here."""
    return Timestamp(*time.localtime(ticks)[:6])


def Binary(string: Optional[bytes]) -> bytes:  # pylint: disable=invalid-name
    """NotSupportedError: there are no columns of bytes."""
    raise NotSupportedError("there are no columns of bytes; write them as a text")
