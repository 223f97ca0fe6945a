"""Accounts: what happened in a statement, parsed from the lines that the engine writes.

`parse_account` reads the lines below a statement, and `str()` of what it gives writes them again, byte for byte.
"""
import re
from dataclasses import dataclass, field
from typing import Dict, Iterator, List, Optional, Tuple, Union

from .values import Value, parse_values, write_value, write_values

__all__ = ["Account", "Action", "Change", "Event", "NameFault", "Nested", "Reason", "Savepoints", "Skipped", "Trigger", "Violation", "parse_account"]

Row = Tuple[Value, ...]


@dataclass(frozen=True)
class Change:
    """A row that was inserted, updated or deleted: its table, its number, its values before and after."""

    kind: str
    table: str
    row: int
    before: Optional[Row]
    after: Optional[Row]

    def __str__(self) -> str:
        rows = [write_values(row) for row in (self.before, self.after) if row is not None]
        return f"{self.kind} {self.table} row {self.row} {' to '.join(rows)}"


@dataclass(frozen=True)
class Action:
    """A foreign key that acts on a row: `action` is CASCADE, SET NULL or SET DEFAULT."""

    constraint: str
    action: str
    table: str
    row: int

    def __str__(self) -> str:
        return f"{self.constraint} {self.action} on {self.table} row {self.row}"


@dataclass(frozen=True)
class Violation:
    """A constraint and a row that a refusal is about, and why. Of AddRefused it is the constraint that isn't added, which no table has.

    `why` is one of `condition`, `null`, `same key`, `null in key`, `missing`, `some nulls`, `restrict` and `conflict`. `rule` is what a
    constraint with a generated name asks, as `PRIMARY KEY (ID)`. `condition` is that of a CHECK, as `PRICE > 0`, and `with_values` has
    the values of the row in it, as `-1 > 0`. `column` is that of NOT NULL; `other_row` and `other_values` are the row with the same key; `refers_to` and `key` are the table and the key
    that a foreign key refers to. Of a `conflict` the foreign key sets `column` to `value`, and `other`, an earlier one, to `other_value`.
    """

    constraint: str
    table: str
    row: int
    values: Row
    why: str
    column: Optional[str] = None
    other_row: Optional[int] = None
    other_values: Optional[Row] = None
    refers_to: Optional[str] = None
    key: Optional[Row] = None
    other: Optional[str] = None
    other_value: Value = None
    value: Value = None
    rule: Optional[str] = None
    condition: Optional[str] = None
    with_values: Optional[str] = None

    @property
    def described(self) -> str:
        """The constraint by its name, with its rule where the name was generated."""
        return self.constraint if self.rule is None else f"{self.constraint} ({self.rule})"

    @property
    def reason(self) -> str:
        """The row and what is the matter with it."""
        return f"{self.table} row {self.row} {write_values(self.values)} {self._matter()}"

    def _matter(self) -> str:
        if self.key is not None:
            return f"refers to {self.refers_to} {write_values(self.key)}, {BY_REFERENCE.get(self.why) or self._conflict()}"
        if self.other_values is not None:
            return f"has the key of row {self.other_row} {write_values(self.other_values)}"
        if self.why == "condition":
            return f"makes {self.condition} false ({self.with_values})"
        return f"has NULL in {self.column}" if self.why == "null" else BY_NULLS[self.why]

    def _conflict(self) -> str:
        if self.other is None:
            return "and another foreign key sets a column otherwise"
        set_to = [write_value(value) for value in (self.other_value, self.value)]
        return f"and {self.other} sets {self.column} to {set_to[0]}, where {self.constraint} sets it to {set_to[1]}"

    def __str__(self) -> str:
        return f"{self.described}: {self.reason}"


@dataclass(frozen=True)
class NameFault:
    """The name that a refusal is about: its kind, the name, and what is the matter with it."""

    kind: str
    name: str
    problem: str

    def __str__(self) -> str:
        return f"{self.kind} {self.name} {self.problem}"


@dataclass(frozen=True)
class Savepoints:
    """The savepoints that stand where RELEASE or ROLLBACK TO names one that isn't there, the earliest first."""

    standing: Tuple[str, ...]

    def __str__(self) -> str:
        return f"savepoints that stand: {', '.join(self.standing)}" if self.standing else "no savepoint stands"


@dataclass(frozen=True)
class Reason:
    """Why a statement is refused, in words."""

    text: str

    def __str__(self) -> str:
        return self.text


@dataclass(frozen=True)
class Nested:
    """The statement at this place of a trigger's body, with what happened in it. Of one that changed nothing nothing is told, as of one that
    was refused at once: `changes_nothing` tells them apart."""

    place: int
    events: "Tuple[Event, ...]"
    changes_nothing: bool = False

    def __str__(self) -> str:
        return f"statement {self.place}{' changes nothing' if self.changes_nothing else ''}"


@dataclass(frozen=True)
class Trigger:
    """A trigger whose body ran: the row before and after for one FOR EACH ROW, the rows that one for the whole statement saw,
    and the statements of its body."""

    name: str
    old: Optional[Row] = None
    new: Optional[Row] = None
    saw: Tuple[Change, ...] = ()
    statements: Tuple[Nested, ...] = ()

    def __str__(self) -> str:
        rows = [f" {word} {write_values(row)}" for word, row in (("OLD", self.old), ("NEW", self.new)) if row is not None]
        return f"trigger {self.name}{''.join(rows)}"


@dataclass(frozen=True)
class Skipped:
    """A trigger whose body didn't run, since its WHEN was `false` or `unknown`: the row before and after for one FOR EACH ROW."""

    name: str
    when: str
    old: Optional[Row] = None
    new: Optional[Row] = None

    def __str__(self) -> str:
        return f"{Trigger(self.name, self.old, self.new)} skipped: WHEN is {self.when}"


Event = Union[Change, Action, Trigger, Skipped, Violation, Savepoints, NameFault, Reason]

BY_REFERENCE = {"missing": "which isn't there", "restrict": "which RESTRICT protects"}
BY_NULLS = {"null in key": "has a null in its key", "some nulls": "has some nulls in its key"}


@dataclass(frozen=True)
class Account:
    """What happened in a statement, in its order. An account is false where nothing is told."""

    events: Tuple[Event, ...] = field(default=())

    def __bool__(self) -> bool:
        return bool(self.events)

    def __str__(self) -> str:
        return "".join(line + "\n" for line in self.lines())

    def lines(self) -> Iterator[str]:
        """The lines of the account. A value may hold line feeds, so a line may go over several."""
        return written(self.events, "  ")

    @property
    def violations(self) -> List[Violation]:
        """The constraints and rows that a refusal is about, at whichever depth."""
        return [event for event in self.walk() if isinstance(event, Violation)]

    @property
    def savepoints(self) -> Optional[Tuple[str, ...]]:
        """The names of the savepoints that stand, the earliest first; None where the refusal is about no savepoint."""
        return next((event.standing for event in self.events if isinstance(event, Savepoints)), None)

    @property
    def name(self) -> Optional[NameFault]:
        """The name that a refusal is about."""
        return next((event for event in self.events if isinstance(event, NameFault)), None)

    @property
    def reason(self) -> Optional[Reason]:
        """Why the statement is refused, where its text and the catalogue tell it."""
        return next((event for event in self.walk() if isinstance(event, Reason)), None)

    def walk(self) -> Iterator[Event]:
        """All events in their order, also those in triggers."""
        return walked(self.events)

    def changes(self) -> List[Change]:
        """All row changes in their order, also those of triggers."""
        return [event for event in self.walk() if isinstance(event, Change)]

    def triggers(self) -> List[str]:
        """The names of the triggers that ran, in their order."""
        return [event.name for event in self.walk() if isinstance(event, Trigger)]

    def touched(self) -> Dict[str, Dict[str, int]]:
        """How many rows of each table were inserted, updated and deleted: `{"BOOK": {"delete": 2}}`."""
        counts: Dict[str, Dict[str, int]] = {}
        for change in self.changes():
            of_table = counts.setdefault(change.table, {})
            of_table[change.kind] = of_table.get(change.kind, 0) + 1
        return counts


def walked(events: Tuple[Event, ...]) -> Iterator[Event]:
    for event in events:
        yield event
        if isinstance(event, Trigger):
            yield from walked(tuple(inner for statement in event.statements for inner in statement.events))


def written(events: Tuple[Event, ...], indent: str) -> Iterator[str]:
    for event in events:
        yield f"{indent}{event}"
        if isinstance(event, Trigger):
            yield from written_trigger(event, indent)


def written_trigger(trigger: Trigger, indent: str) -> Iterator[str]:
    yield from (f"{indent}  saw {change}" for change in trigger.saw)
    for statement in trigger.statements:
        yield f"{indent}{statement}"
        yield from written(statement.events, indent + "  ")


# ---- reading

# The values of a row may hold anything between their quotes, a line feed too.
ROW = r"\(((?:[^()']|'[^']*')*)\)"
CHANGE = re.compile(rf"(insert|delete) (\w+) row (\d+) {ROW}\n")
UPDATE = re.compile(rf"update (\w+) row (\d+) {ROW} to {ROW}\n")
TRIGGER = re.compile(rf"trigger (\w+)(?: OLD {ROW})?(?: NEW {ROW})?( skipped: WHEN is (false|unknown))?\n")
ACTION = re.compile(r"(\w+) (CASCADE|SET NULL|SET DEFAULT) on (\w+) row (\d+)\n")
RULE = r"(?:NOT NULL|CHECK|UNIQUE|PRIMARY KEY|FOREIGN KEY)[\w ,()]*"
VIOLATION = re.compile(rf"(\w+)(?: \(({RULE})\))?: (\w+) row (\d+) {ROW} ")
NAME = re.compile(r"(table|column|row variable|trigger|constraint|REFERENCING name) (\w+(?:\.\w+)?) (isn't there|is there already|comes twice)\n")
SAVEPOINTS = re.compile(r"(?:no savepoint stands|savepoints that stand: (\w+(?:, \w+)*))\n")
STATEMENT = re.compile(r"statement (\d+)( changes nothing)?\n")
VALUE = r"NULL|-?\d+|'(?:[^']|'')*'"
# A text in an expression may hold anything between its quotes.
WRITTEN = r"(?:[^'\n]|'[^']*')+"
TYPE = r"(?:an INTEGER|a VARCHAR\(\d+\))"
REASONS = [
    r"(?:tuple \d+ has|the query gives) \d+ values? for \d+ columns? of \w+",
    rf"{WRITTEN} is (?:a text|an integer), and (?:column \w+ of \w+|\w+\.\w+) is {TYPE}",
    rf"{WRITTEN} is (?:compared with {WRITTEN}, and only one of them is a text|a text, and arithmetic takes integers)",
    rf"column \w+(?: of \w+)? is {TYPE}, and (?:column \w+ of \w+ is {TYPE}|\d+ is the (?:most|least)|its DEFAULT is {WRITTEN})",
    r"(?:table|trigger) \w+ (?:has no column|would have [^\n]*)",
    r"constraint \w+(?: (?:is|has|refers to|would have) |: column )[^\n]*",
    r"REFERENCING (?:names the|name \w+ is for) [^\n]*",
    r"statement \d+ (?:is|sets) [^\n]*",
    r"(?:there would be \d+|it would be trigger \d+) [^\n]*",
    r"savepoint \w+ isn't there",
    rf"(?:item \d+|\w+)(?: (?:of|OLD|NEW) {WRITTEN})?(?:: -?\d+ [-+*] -?\d+ is out of range| is VARCHAR\(\d+\), and the text has \d+ characters)",
    r"depth \d+, and \d+ is the most[^\n]*",
    r"counted so far \d+, \d+ is the most, and this or the next row changes are too many[^\n]*",
    r"a transaction has at most \d+ row changes[^\n]*",
    r"no text is this statement",
]
REASON = re.compile(rf"({'|'.join(REASONS)})\n")
MATTERS = [
    ("condition", re.compile(rf"makes (?P<condition>{WRITTEN}) false \((?P<with_values>{WRITTEN})\)\n")),
    ("null", re.compile(r"has NULL in (?P<column>\w+)\n")),
    ("same key", re.compile(rf"has the key of row (?P<other_row>\d+) {ROW}\n")),
    ("null in key", re.compile(r"has a null in its key\n")),
    ("some nulls", re.compile(r"has some nulls in its key\n")),
    ("missing", re.compile(rf"refers to (?P<refers_to>\w+) {ROW}, which isn't there\n")),
    ("restrict", re.compile(rf"refers to (?P<refers_to>\w+) {ROW}, which RESTRICT protects\n")),
    ("conflict", re.compile(rf"refers to (?P<refers_to>\w+) {ROW}, and another foreign key sets a column otherwise\n")),
    ("conflict", re.compile(
        rf"refers to (?P<refers_to>\w+) {ROW}, and (?P<other>\w+) sets (?P<column>\w+) to (?P<other_value>{VALUE}), where \w+ sets it to (?P<value>{VALUE})\n")),
]


def parse_account(text: str) -> Account:
    """The account of these lines; a ValueError where they are none."""
    reader = Reader(text, 0)
    account = reader.account()
    if reader.at != len(text):
        raise ValueError(f"no line of an account: {text[reader.at:reader.at + 80]!r}")
    return account


def row_of(values: Optional[str]) -> Optional[Row]:
    return None if values is None else parse_values(values)


class Reader:
    """Reads the lines of a text one after the other. `at` is the place that it has come to."""

    def __init__(self, text: str, at: int) -> None:
        self.text = text
        self.at = at

    def take(self, pattern: "re.Pattern[str]", indent: str = "") -> "Optional[re.Match[str]]":
        """What the pattern matches behind the indentation; it is then read."""
        found = pattern.match(self.text, self.at + len(indent)) if self.text.startswith(indent, self.at) else None
        if found is not None:
            self.at = found.end()
        return found

    def account(self) -> Account:
        """The lines from here on that are indented."""
        return Account(self.events("  "))

    def events(self, indent: str) -> Tuple[Event, ...]:
        found: List[Event] = []
        event = self.event(indent)
        while event is not None:
            found.append(event)
            event = self.event(indent)
        return tuple(found)

    def event(self, indent: str) -> Optional[Event]:
        """The event at this indentation; None where there is none."""
        if not self.text.startswith(indent, self.at) or self.text.startswith(" ", self.at + len(indent)):
            return None
        readers = (self.change, self.action, self.trigger, self.violation, self.savepoints, self.name, self.reason)
        return next(filter(None, (read(indent) for read in readers)), None)

    def change(self, indent: str) -> Optional[Change]:
        found = self.take(CHANGE, indent)
        if found is not None:
            values = parse_values(found[4])
            is_insert = found[1] == "insert"
            return Change(found[1], found[2], int(found[3]), None if is_insert else values, values if is_insert else None)
        found = self.take(UPDATE, indent)
        return None if found is None else Change("update", found[1], int(found[2]), parse_values(found[3]), parse_values(found[4]))

    def action(self, indent: str) -> Optional[Action]:
        found = self.take(ACTION, indent)
        return None if found is None else Action(found[1], found[2], found[3], int(found[4]))

    def trigger(self, indent: str) -> Union[Trigger, Skipped, None]:
        found = self.take(TRIGGER, indent)
        if found is None:
            return None
        if found[4] is not None:
            return Skipped(found[1], found[5], row_of(found[2]), row_of(found[3]))
        saw = tuple(self.saw(indent + "  saw "))
        return Trigger(found[1], row_of(found[2]), row_of(found[3]), saw, tuple(self.statements(indent)))

    def saw(self, indent: str) -> Iterator[Change]:
        change = self.change(indent)
        while change is not None:
            yield change
            change = self.change(indent)

    def statements(self, indent: str) -> Iterator[Nested]:
        found = self.take(STATEMENT, indent)
        while found is not None:
            yield Nested(int(found[1]), self.events(indent + "  "), found[2] is not None)
            found = self.take(STATEMENT, indent)

    def violation(self, indent: str) -> Optional[Violation]:
        began = self.at
        head = self.take(VIOLATION, indent)
        for why, pattern in MATTERS if head is not None else []:
            found = self.take(pattern)
            if head is not None and found is not None:
                return violation_of(head, why, found)
        self.at = began
        return None

    def savepoints(self, indent: str) -> Optional[Savepoints]:
        found = self.take(SAVEPOINTS, indent)
        return None if found is None else Savepoints(tuple(found[1].split(", ")) if found[1] else ())

    def name(self, indent: str) -> Optional[NameFault]:
        found = self.take(NAME, indent)
        return None if found is None else NameFault(found[1], found[2], found[3])

    def reason(self, indent: str) -> Optional[Reason]:
        found = self.take(REASON, indent)
        return None if found is None else Reason(found[1])


def violation_of(head: "re.Match[str]", why: str, found: "re.Match[str]") -> Violation:
    told = found.groupdict()
    values = parse_values(found[2]) if why in ("same key", "missing", "restrict", "conflict") else None
    other_value, value = (parse_values(told[name])[0] if name in told else None for name in ("other_value", "value"))
    return Violation(
        constraint=head[1], rule=head[2], table=head[3], row=int(head[4]), values=parse_values(head[5]), why=why, column=told.get("column"),
        other_row=int(told["other_row"]) if "other_row" in told else None, other_values=values if why == "same key" else None,
        refers_to=told.get("refers_to"), key=values if why != "same key" else None,
        other=told.get("other"), other_value=other_value, value=value, condition=told.get("condition"), with_values=told.get("with_values"),
    )
