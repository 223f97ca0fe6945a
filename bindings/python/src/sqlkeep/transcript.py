"""Transcripts: what a script answered, parsed from the lines that the engine writes.

`parse_transcript` reads them, with accounts where they are there, and `str()` of what it gives writes them again, byte for byte.
"""
import re
from dataclasses import dataclass, replace
from typing import List, Optional, Tuple

from .account import RULE, Account, Reader, Violation
from .values import Value, parse_values, write_value

__all__ = ["Answer", "Fault", "Refusal", "Settled", "Transcript", "parse_refusal", "parse_transcript"]


@dataclass(frozen=True)
class Refusal:
    """Why a statement was refused: the number and the name of its cause, and the constraint, the row, the trigger and the text
    of SIGNAL where the cause has them. `inside` is the trigger that was running."""

    cause: int
    name: str
    constraint: Optional[str] = None
    row: Optional[int] = None
    trigger: Optional[str] = None
    signal: Optional[str] = None
    inside: Optional[str] = None

    def __str__(self) -> str:
        parts = [f"refused {self.cause} {self.name}"]
        parts += [part for part in (self.constraint, self.trigger) if part is not None]
        parts += [] if self.row is None else [f"row {self.row}"]
        parts += [] if self.signal is None else [write_value(self.signal)]
        parts += [] if self.inside is None else [f"in {self.inside}"]
        return " ".join(parts)


@dataclass(frozen=True)
class Settled:
    """A violation of a deferred constraint that isn't pending any more: the constraint, its table, and the row's number. `rule` is what
    a constraint with a generated name asks."""

    constraint: str
    table: str
    row: int
    rule: Optional[str] = None

    def __str__(self) -> str:
        rule = "" if self.rule is None else f" ({self.rule})"
        return f"{self.constraint}{rule}: {self.table} row {self.row}"


@dataclass(frozen=True)
class Answer:
    """What a statement answered: its number; `count` for one that changed rows; `rows` for a query; `refusal` for one that was
    refused. With accounts: its account; `columns`, what a query gives; and which violations of deferred constraints `came` and `went`."""

    number: int
    count: Optional[int] = None
    rows: Optional[Tuple[Tuple[Value, ...], ...]] = None
    refusal: Optional[Refusal] = None
    account: Account = Account()
    columns: Tuple[str, ...] = ()
    came: Tuple[Violation, ...] = ()
    went: Tuple[Settled, ...] = ()

    def __str__(self) -> str:
        return f"{self.number} {self._outcome()}\n{self._columns()}{self._rows()}{self.account}{self._pending()}"

    def _outcome(self) -> str:
        if self.refusal is not None:
            return str(self.refusal)
        if self.rows is not None:
            return f"rows {len(self.rows)}"
        return "ok" if self.count is None else f"ok {self.count}"

    def _columns(self) -> str:
        return f"  columns {', '.join(self.columns)}\n" if self.columns else ""

    def _pending(self) -> str:
        return "".join(f"{NOW}{violation}\n" for violation in self.came) + "".join(f"{NO_LONGER}{settled}\n" for settled in self.went)

    def _rows(self) -> str:
        return "".join(f"| {', '.join(write_value(value) for value in row)}\n" for row in self.rows or ())


@dataclass(frozen=True)
class Fault:
    """Where a script has no whole statement: the statement's number, the byte, and with accounts the line and the column of the wrong
    word, what is said of it, and the lines that show it: its own and that of the caret."""

    number: int
    place: int
    line: Optional[int] = None
    column: Optional[int] = None
    words: Optional[str] = None
    shown: str = ""

    def __str__(self) -> str:
        told = "" if self.line is None else f"  line {self.line}, column {self.column}{'' if self.words is None else ': ' + self.words}\n"
        return f"{self.number} fault {self.place}\n{told}{self.shown}"


@dataclass(frozen=True)
class Transcript:
    """What a script answered: one answer for each statement, the fault where there is one, and whether a transaction was
    rolled back at the end."""

    answers: Tuple[Answer, ...] = ()
    fault: Optional[Fault] = None
    rolled_back: bool = False

    def __str__(self) -> str:
        end = "end rolled back\n" if self.rolled_back else ""
        return f"{''.join(map(str, self.answers))}{self.fault or ''}{end}"


VALUE = r"(?:NULL|-?\d+|'(?:[^']|'')*')"
ACCEPTED = re.compile(r"(\d+) ok(?: (\d+))?\n")
ROWS = re.compile(r"(\d+) rows (\d+)\n")
ROW = re.compile(rf"\| ({VALUE}(?:, {VALUE})*)\n")
# A column by its name, or an expression, where a text may hold anything between its quotes.
COLUMN = r"(?:[^,'\n]|'[^']*')+"
COLUMNS = re.compile(rf"  columns ({COLUMN}(?:, {COLUMN})*)\n")
NOW, NO_LONGER = "  now pending ", "  no longer pending "
SETTLED = re.compile(rf"(\w+)(?: \(({RULE})\))?: (\w+) row (\d+)\n")
REFUSED = re.compile(r"(\d+) refused (\d+) (\w+)(?: (?!row \d|in \w)(\w+))?(?: row (\d+))?(?: ('(?:[^']|'')*'))?(?: in (\w+))?\n")
FAULT = re.compile(r"(\d+) fault (\d+)\n(?:  line (\d+), column (\d+)(?:: ([^\n]*))?\n((?:    [^\n]*\n     *\^\n)?))?")
END = re.compile(r"end rolled back\n")
# The causes whose first name is that of a trigger, and not of a constraint.
OF_TRIGGERS = (15, 16)


def rows_of(reader: Reader, count: int) -> Tuple[Tuple[Value, ...], ...]:
    rows: List[Tuple[Value, ...]] = []
    while len(rows) < count:
        found = reader.take(ROW)
        if found is None:
            raise ValueError(f"{count} rows are wanted, and {len(rows)} are there")
        rows.append(parse_values(found[1]))
    return tuple(rows)


def refusal_of(found: "re.Match[str]") -> Refusal:
    cause, of_trigger = int(found[2]), int(found[2]) in OF_TRIGGERS
    signal = None if found[6] is None else str(parse_values(found[6])[0])
    return Refusal(cause, found[3], None if of_trigger else found[4], None if found[5] is None else int(found[5]), found[4] if of_trigger else None, signal, found[7])


def columns_of(reader: Reader) -> Tuple[str, ...]:
    """The columns in the line that the reader has come to; none where there is no such line."""
    found = reader.take(COLUMNS)
    return () if found is None else tuple(column.strip() for column in re.findall(COLUMN, found[1]))


def outcome_at(reader: Reader) -> Optional[Answer]:
    """The outcome that the reader has come to, without what is told of it; None where there is none."""
    found = reader.take(ACCEPTED)
    if found is not None:
        return Answer(int(found[1]), None if found[2] is None else int(found[2]))
    found = reader.take(ROWS)
    if found is not None:
        return Answer(int(found[1]), columns=columns_of(reader), rows=rows_of(reader, int(found[2])))
    found = reader.take(REFUSED)
    return None if found is None else Answer(int(found[1]), refusal=refusal_of(found))


def answer_at(reader: Reader) -> Optional[Answer]:
    """The answer that the reader has come to; None where there is none."""
    outcome = outcome_at(reader)
    if outcome is None:
        return None
    account = reader.account()
    came = tuple(iter(lambda: reader.violation(NOW), None))
    settled = iter(lambda: reader.take(SETTLED, NO_LONGER), None)
    return replace(outcome, account=account, came=came, went=tuple(Settled(found[1], found[3], int(found[4]), found[2]) for found in settled))


def parse_refusal(lines: str) -> Tuple[Refusal, Account]:
    """The refusal and the account of the lines of one statement; a ValueError where they are none."""
    reader = Reader(lines, 0)
    answer = answer_at(reader)
    if answer is None or answer.refusal is None or reader.at != len(lines):
        raise ValueError(f"no lines of a refusal: {lines[reader.at:reader.at + 80]!r}")
    return answer.refusal, answer.account


def fault_at(reader: Reader) -> Optional[Fault]:
    found = reader.take(FAULT)
    if found is None:
        return None
    line, column = (None if part is None else int(part) for part in (found[3], found[4]))
    return Fault(int(found[1]), int(found[2]), line, column, found[5], found[6] or "")


def parse_transcript(text: str) -> Transcript:
    """The transcript of these lines; a ValueError where they are none."""
    reader, answers = Reader(text, 0), []
    answer = answer_at(reader)
    while answer is not None:
        answers.append(answer)
        answer = answer_at(reader)
    fault = fault_at(reader)
    rolled_back = reader.take(END) is not None
    if reader.at != len(text):
        raise ValueError(f"no line of a transcript: {text[reader.at:reader.at + 80]!r}")
    return Transcript(tuple(answers), fault, rolled_back)
