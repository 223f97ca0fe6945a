"""Rows as a table, as CSV and as JSON, and what is wrong with a text."""
from __future__ import annotations

import csv
import io
import json
import unicodedata
from typing import Sequence

from ..account import Account
from ..values import Value

__all__ = ["as_account", "as_csv", "as_json", "as_table", "caret", "counted", "visible", "width_of"]

Row = Sequence[Value]
# As many characters of a line are shown on each side of a caret.
MOST_SHOWN = 80


def counted(count: int, what: str) -> str:
    """A number of things: `1 row`, `2 rows`."""
    return f"{count} {what}{'' if count == 1 else 's'}"


def visible(text: str, kept: str = "") -> str:
    """A text in which each character that would move the cursor is written as in Python, except these."""
    return "".join(character if character.isprintable() or character in kept else character.encode("unicode_escape").decode() for character in text)


def width_of(text: str) -> int:
    """How many places of a terminal a text takes."""
    return sum(0 if unicodedata.combining(each) else 2 if unicodedata.east_asian_width(each) in "WF" else 1 for each in text)


def padded(text: str, width: int, is_number: bool) -> str:
    blanks = " " * (width - width_of(text))
    return blanks + text if is_number else text + blanks


def cell(value: Value) -> str:
    return "NULL" if value is None else visible(str(value))


def as_table(columns: Sequence[str], rows: Sequence[Row]) -> list[str]:
    """The lines of a table with a head, integers to the right, and the number of rows below."""
    texts = [[cell(value) for value in row] for row in rows]
    heads = [visible(name) for name in columns]
    widths = [max(map(width_of, column)) for column in zip(heads, *texts)]
    numbers = [bool(rows) and all(isinstance(row[at], int) or row[at] is None for row in rows) and any(row[at] is not None for row in rows) for at in range(len(heads))]
    lines = [" | ".join(map(padded, row, widths, numbers)).rstrip() for row in (heads, *texts)]
    return [lines[0], "-+-".join("-" * width for width in widths), *lines[1:], f"({counted(len(rows), 'row')})"]


def as_csv(columns: Sequence[str], rows: Sequence[Row]) -> str:
    """Rows as CSV with a head. A null is empty, and an empty text is written as two quotes."""
    to = io.StringIO()
    writer = csv.writer(to, lineterminator="\n")
    writer.writerow(columns)
    for row in rows:
        line = io.StringIO()
        csv.writer(line, lineterminator="\n", quoting=csv.QUOTE_MINIMAL).writerow(["" if value is None else value for value in row])
        to.write(line.getvalue() if "" not in row else quoted_line(row))
    return to.getvalue()


def quoted_line(row: Row) -> str:
    """A line of CSV that has an empty text, which differs from a null by its quotes."""
    cells = ["" if value is None else str(value) if isinstance(value, int) else '"' + value.replace('"', '""') + '"' for value in row]
    return ",".join(cells) + "\n"


def as_json(columns: Sequence[str], rows: Sequence[Row]) -> str:
    """Rows as an array of objects. Where several columns have one name, the later ones are numbered: `A`, `A:1`."""
    names = [name if name not in columns[:at] else f"{name}:{list(columns[:at]).count(name)}" for at, name in enumerate(columns)]
    lines = [escaped(json.dumps(dict(zip(names, row)), ensure_ascii=False)) for row in rows]
    return "[" + ",\n ".join(lines) + "]\n"


def escaped(text: str) -> str:
    """JSON in which each character that would move the cursor is an escape, which leaves its meaning."""
    return "".join(character if character.isprintable() else json.dumps(character)[1:-1] for character in text)


def caret(text: str, at: int) -> str:
    """The line of a text around a place, with a caret below it. A tab stays a tab, so that the caret stands where it belongs."""
    start = max(text.rfind("\n", max(at - MOST_SHOWN, 0), at) + 1, at - MOST_SHOWN, 0)
    found = text.find("\n", at, at + MOST_SHOWN)
    end = found if found >= 0 else min(at + MOST_SHOWN, len(text))
    head = "..." if start > 0 and text[start - 1] != "\n" else ""
    tail = "..." if end < len(text) and found < 0 else ""
    before, behind = (part.rstrip("\r").split("\t") for part in (text[start:at], text[at:end]))
    shown = head + "\t".join(map(visible, before))
    blanks = "".join("\t" if character == "\t" else " " * width_of(character) for character in shown)
    return "  " + shown + "\t".join(map(visible, behind)) + tail + f"\n  {blanks}^\n"


def as_account(account: Account) -> str:
    """The lines of an account, each of them one line of the terminal, whatever the values hold."""
    return "".join(visible(line) + "\n" for line in account.lines())
