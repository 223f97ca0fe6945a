"""Values as the engine writes them: NULL, integers, and texts between single quotes with each quote inside twice."""
import re
from typing import Iterable, Optional, Tuple, Union

__all__ = ["Value", "parse_values", "write_value", "write_values"]

Value = Union[int, str, None]

ONE = re.compile(r"NULL|(-?\d+)|'((?:[^']|'')*)'")


def parse_values(text: str) -> Tuple[Value, ...]:
    """The values of a list, without its parentheses: `1, 'it''s', NULL`."""
    values = []
    at = 0
    while at < len(text):
        found = ONE.match(text, at)
        if found is None or (found.end() < len(text) and not text.startswith(", ", found.end())):
            raise ValueError(f"no list of values: {text!r}")
        values.append(value_of(found.group(1), found.group(2)))
        at = found.end() + 2
    return tuple(values)


def value_of(digits: Optional[str], characters: Optional[str]) -> Value:
    if digits is not None:
        return int(digits)
    return None if characters is None else characters.replace("''", "'")


def write_value(value: Value) -> str:
    """A value as the engine writes it."""
    if value is None:
        return "NULL"
    return str(value) if isinstance(value, int) else "'" + value.replace("'", "''") + "'"


def write_values(values: Iterable[Value]) -> str:
    """A row in parentheses."""
    return f"({', '.join(write_value(value) for value in values)})"
