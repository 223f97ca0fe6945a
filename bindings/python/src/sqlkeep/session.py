"""The native interface: a database in memory with its transaction, without the rules of the DB-API."""
from __future__ import annotations

from dataclasses import dataclass
from typing import TYPE_CHECKING, Any, NamedTuple, Sequence

from ._engine import Engine
from .account import Account
from .answers import CHANGED, DONE, EMPTY, ROWS, columns_of, encoded, error_of, fault_in
from .catalogue import Catalogue, catalogue_of
from .cursor import values_of
from .errors import DatabaseError
from .plans import COMMIT, plan_of
from .text import folded
from .transcript import Transcript, parse_transcript
from .values import Value

if TYPE_CHECKING:
    from typing import Tuple

    Row = Tuple[Value, ...]

__all__ = ["Outcome", "Pending", "Run", "Session", "Work"]


class Work(NamedTuple):
    """How many row changes the last statement made and how many it undid, those of triggers and actions too, and how many keys
    it looked up."""

    changes: int
    undone: int
    lookups: int


class Pending(NamedTuple):
    """A violation that COMMIT would find: the constraint and the row."""

    constraint: str
    row: int


class StoredRow(NamedTuple):
    """A row of the database: its number, its table, and its values."""

    number: int
    table: str
    values: tuple[Value, ...]


@dataclass(frozen=True)
class Run:
    """What a script did: its transcript, how many statements were accepted and refused, how many of the refused had no memory,
    the byte where something is left that is no statement, and how many refused COMMITs have an empty account for lack of memory."""

    transcript: str
    accepted: int
    refused: int
    memory_refused: int
    fault: int | None
    untold: int

    def parsed(self) -> Transcript:
        """The transcript as dataclasses."""
        return parse_transcript(self.transcript)


class Outcome:
    """What a statement answered.

    `count` is the number of rows that it changed, `rows` those of a query, with the names of their `columns`, and `error` the
    exception of one that was refused.
    """

    def __init__(self, count: int | None = None, rows: list[Row] | None = None, columns: Sequence[str] = (), error: DatabaseError | None = None, lines: str = "") -> None:
        self.count = count
        self.rows = rows
        self.columns = tuple(columns)
        self.error = error
        self._lines = lines

    def __repr__(self) -> str:
        return f"<Outcome {self.error or (f'{len(self.rows)} rows' if self.rows is not None else 'ok' if self.count is None else f'ok {self.count}')}>"

    @property
    def lines(self) -> str:
        """The lines that the program writes: of a refusal always, otherwise where accounts are asked for."""
        return self._lines if self.error is None else self.error.lines

    @property
    def account(self) -> Account:
        """What happened in the statement: of a refusal for a row always, otherwise where accounts are asked for."""
        if self.error is not None:
            return self.error.account or Account()
        return parse_transcript(self._lines).answers[0].account if self._lines else Account()

    def check(self) -> Outcome:
        """The outcome itself; where the statement was refused, its error is raised."""
        if self.error is not None:
            raise self.error
        return self


class Session:
    """A database in memory, used by the thread that opened it.

    `depth` is how deep triggers may nest, 1 to 64, and `changes` how many row changes a statement may make, 1 to 65,536. With
    `explain` each outcome has its account.
    """

    def __init__(self, depth: int = 16, changes: int = 65_536, explain: bool = False, *, engine: Engine | None = None) -> None:
        self._engine = Engine(depth, changes) if engine is None else engine
        self._explain = False
        self.explain = explain

    def __reduce__(self) -> Any:
        raise TypeError("a session can't be copied or pickled; dump has the scripts that make its database again")

    def __enter__(self) -> Session:
        return self

    def __exit__(self, *_: object) -> None:
        self.close()

    def close(self) -> None:
        """Closes the session; its database is gone. Nothing happens where it is closed already."""
        self._engine.close()

    @property
    def explain(self) -> bool:
        """Whether an account of each statement is asked for. It takes time and memory in proportion to what it tells."""
        return self._explain

    @explain.setter
    def explain(self, asked: bool) -> None:
        self._engine.explain(asked)
        self._explain = bool(asked)

    @property
    def in_transaction(self) -> bool:
        """Whether a transaction is open."""
        return self._engine.in_transaction()

    @property
    def catalogue(self) -> Catalogue:
        """The tables, constraints and triggers that there are now."""
        return catalogue_of(self._engine)

    def run(self, script: str | bytes) -> Run:
        """Runs a whole script in a database of its own, as the program does, and gives its transcript. The database of this
        session is neither read nor changed."""
        lines, accepted, refusals, memory_refused, fault, untold = self._engine.run(script if isinstance(script, bytes) else encoded(script))
        return Run(lines.decode(), accepted, refusals, memory_refused, fault, untold)

    def execute(self, text: str, parameters: Sequence[Value] = ()) -> Outcome:
        """Executes one statement, with a value for each `?` in it. A refusal is an outcome and raises nothing; a text that is no
        statement raises ProgrammingError."""
        values = values_of(parameters)
        try:
            answer = self._engine.execute(text, values, plan_of(text) == COMMIT)
        except DatabaseError as error:
            return refused(error)
        return outcome_of(self, answer, text, len(values))

    def script(self, text: str) -> list[Outcome]:
        """Executes the statements of a text until one is refused, and gives their outcomes. Where something of the text is no
        statement nothing is executed, and ProgrammingError is raised."""
        outcomes: list[Outcome] = []
        for part in self.parts(text):
            outcomes.append(self.execute(part))
            if outcomes[-1].error is not None:
                outcomes[-1].error.statement = len(outcomes)
                break
        return outcomes

    def parts(self, text: str) -> list[str]:
        """The statements of a text, each with its semicolon; the last may lack it. ProgrammingError where something is left that
        is no statement. Nothing is executed."""
        data = encoded(text)
        places, has_fault = self._engine.read(data)
        if has_fault:
            whole, data = len(places), data + b"\n;"
            places, has_fault = self._engine.read(data)
            if has_fault:
                raise fault_in(text, whole, self._engine, whole + 1)
        return [data[start:end].decode() for start, end in places]

    def commit(self) -> Outcome:
        """COMMIT. Where it is refused, the transaction is rolled back."""
        try:
            return outcome_of(self, self._engine.commit(), "COMMIT", 0)
        except DatabaseError as error:
            return refused(error)

    def rollback(self) -> None:
        """ROLLBACK."""
        self._engine.rollback()

    def rollback_to(self, name: str) -> Outcome:
        """ROLLBACK TO SAVEPOINT."""
        try:
            return outcome_of(self, self._engine.rollback_to(encoded(folded(name))), "ROLLBACK", 0)
        except DatabaseError as error:
            return refused(error)

    def pending(self) -> list[Pending]:
        """What COMMIT would find: the violations of deferred constraints, by the constraint's creation, then by row."""
        return [Pending(*found) for found in self._engine.pending()]

    def row(self, number: int) -> StoredRow | None:
        """The row of this number as it is now, or None if there is none. Refusals, violations and accounts tell rows by their numbers."""
        if not 0 <= number < 2**64:
            return None
        found = self._engine.row(number)
        return None if found is None else StoredRow(number, found[0], tuple(found[1]))

    def dump(self) -> list[str]:
        """The database as scripts that make it again, to be executed one after another in a new session: each table with its constraints and
        its rows, in creation order, then the triggers. Rows get new numbers. ProgrammingError where a transaction is open, OperationalError
        where a row would need a script that is too long, the scripts don't make the same database, or memory was refused."""
        return self._engine.dump()

    def work(self) -> Work:
        """What the last statement did."""
        return Work(*self._engine.work())


def outcome_of(session: Session, answer: tuple[Any, ...], text: str, given: int) -> Outcome:
    """The outcome of a statement that the engine has answered."""
    kind, engine = answer[0], session._engine
    if kind not in (DONE, CHANGED, ROWS, EMPTY):
        raise error_of(answer, text, given, engine)
    lines = engine.lines(1).decode() if session.explain and kind != EMPTY else ""
    if kind == ROWS:
        return Outcome(rows=list(answer[1]), columns=[name for name, _ in columns_of(text, answer[2], engine)], lines=lines)
    return Outcome(count=answer[1] if kind == CHANGED else None, lines=lines)


def refused(error: DatabaseError) -> Outcome:
    """The outcome of a refusal; an error that is about something else is raised again."""
    if error.cause is None:
        raise error
    return Outcome(error=error.with_traceback(None))
