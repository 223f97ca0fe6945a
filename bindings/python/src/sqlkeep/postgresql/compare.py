"""A script in this engine and in PostgreSQL, statement by statement, with the rows of all tables.

Everything happens in a schema that is made for it and removed again. Nothing else on the server is touched.
"""
from __future__ import annotations

from dataclasses import dataclass, field
from typing import Any, Callable

from ..session import Session
from ..values import Value, write_values
from .quoting import Sql, identifier, name, sql
from .translate import Translation, Translator

__all__ = ["SCHEMA", "Answer", "Comparison", "Difference", "SchemaInUse", "ServerGone", "compared"]

SCHEMA = "sqlkeep_compare"
GUARD = "sqlkeep_guard"
# Statements that no savepoint can stand around, since they begin or end a transaction or make a savepoint themselves.
BARE = ("BEGIN", "COMMIT", "ROLLBACK", "SAVEPOINT")
SETTINGS = ("SET standard_conforming_strings = on", "SET client_min_messages TO error")
# Statements that may change rows, and those whose effect is in the rows and the transaction alone.
CHANGING = ("INSERT", "UPDATE", "DELETE", "COMMIT", "ROLLBACK")
ENDED = (*CHANGING[:4], "SELECT")
# The rows of a table that is compared whole after each statement.
LARGE = 1_000
NOT_NULL, RAISED = "23502", "45000"
# The causes of refusals that PostgreSQL names a constraint or a trigger for.
OF_ROWS, SIGNAL = (12, 13, 14, 19, 20), 15


class SchemaInUse(Exception):
    """The schema of the comparison is there already. Nothing in it was touched."""


@dataclass
class Answer:
    """What a statement answered: how many rows it changed, the rows of a query, or what refused it, by the name of a constraint or a
    trigger where it has one."""

    count: int | None = None
    rows: list[tuple[Value, ...]] | None = None
    refused: str | None = None
    by: str | None = None

    def __str__(self) -> str:
        if self.refused is not None:
            return f"refused: {self.refused}"
        if self.rows is not None:
            return f"{len(self.rows)} rows" + "".join(f"\n    {write_values(row)}" for row in self.rows[:20])
        return "ok" if self.count is None else f"ok {self.count}"


@dataclass
class Difference:
    """A statement that answers otherwise in PostgreSQL or leaves other rows: both answers, the tables whose rows differ with these, and
    why the statement was said to differ."""

    translation: Translation
    here: Answer
    there: Answer
    tables: dict[str, tuple[Answer, Answer]]
    reasons: list[str]

    @property
    def is_foretold(self) -> bool:
        """Whether a note at the statement said that PostgreSQL may answer otherwise."""
        return bool(self.reasons)


@dataclass
class Comparison:
    """What was compared: how many statements there are, how many answered the same, the differences, and the statements that were
    compared. It ends at a difference that isn't foretold, or that leaves another database or transaction."""

    total: int = 0
    same: int = 0
    differences: list[Difference] = field(default_factory=list)
    translations: list[Translation] = field(default_factory=list)

    @property
    def is_same(self) -> bool:
        """Whether all statements answered the same."""
        return not self.differences

    @property
    def is_foretold(self) -> bool:
        """Whether a note said of each difference that PostgreSQL may answer otherwise."""
        return all(each.is_foretold for each in self.differences)


def here_of(translation: Translation) -> Answer:
    """What this engine answered."""
    outcome = translation.outcome
    error = outcome.error
    if error is None:
        return Answer(outcome.count, outcome.rows)
    return Answer(refused=str(error), by=error.trigger if error.cause == SIGNAL else error.constraint if error.cause in OF_ROWS else None)


def constraint_named(error: Any, translator: Translator) -> str | None:
    """What refused a statement there: a constraint, or the trigger that raised."""
    diagnostics = error.diag
    if diagnostics.sqlstate == RAISED:
        return (diagnostics.message_detail or "").removeprefix("trigger ") or None
    if diagnostics.sqlstate == NOT_NULL:
        column = (diagnostics.table_name or "").upper(), (diagnostics.column_name or "").upper()
        return next((name for each, name in translator.filled if each == column), None)
    return translator.constraints.get(diagnostics.constraint_name or "")


class ServerGone(Exception):
    """The connection to the server ended while a script ran."""


class Server:
    """A connection to PostgreSQL, in a schema of its own."""

    def __init__(self, connect: Callable[[], Any], schema: str = SCHEMA) -> None:
        self._connection, self._schema = connect(), schema
        self._connection.autocommit = True
        self._connection.set_client_encoding("UTF8")
        self._cursor = self._connection.cursor()
        self._cursor.execute("SELECT count(*) FROM pg_namespace WHERE nspname = %s", (schema,))
        if self._cursor.fetchone()[0]:
            self._connection.close()
            raise SchemaInUse(f"the schema {schema} is there already; drop it, or name another one")
        for statement in SETTINGS:
            self._cursor.execute(statement)
        self._execute(sql("CREATE SCHEMA {}", identifier(schema)))
        self._execute(sql("SET search_path TO {}", identifier(schema)))

    def _execute(self, statement: Sql) -> None:
        self._cursor.execute(str(statement))

    def close(self) -> None:
        """Removes the schema."""
        if not self._connection.closed:
            self._cursor.execute("ROLLBACK")
            self._execute(sql("DROP SCHEMA {} CASCADE", identifier(self._schema)))
            self._connection.close()

    def is_open(self) -> bool:
        """Whether a transaction is open."""
        return bool(self._connection.info.transaction_status)

    def run(self, statement: Sql) -> Answer:
        """A statement, which leaves the transaction as it was if it is refused."""
        first = str(statement).split(None, 1)[0]
        is_guarded = self.is_open() and (first not in BARE or str(statement).startswith("ROLLBACK TO SAVEPOINT"))
        if is_guarded:
            self._cursor.execute(f"SAVEPOINT {GUARD}")
        self._execute(statement)
        rows = self._cursor.fetchall() if self._cursor.description else None
        count = self._cursor.rowcount if first in ("INSERT", "UPDATE", "DELETE") else None
        if is_guarded and first not in ("RELEASE", "ROLLBACK"):
            self._cursor.execute(f"RELEASE SAVEPOINT {GUARD}")
        return Answer(count, rows)

    def rows(self, table: str) -> Answer:
        """The rows of a table."""
        self._execute(sql("SELECT * FROM {}", name(table)))
        return Answer(rows=self._cursor.fetchall())

    def count(self, table: str) -> Answer:
        """The number of rows of a table."""
        self._execute(sql("SELECT count(*) FROM {}", name(table)))
        return Answer(self._cursor.fetchone()[0])

    def undo(self) -> None:
        """Goes back behind a refused statement."""
        if self._connection.closed:
            raise ServerGone("the server closed the connection")
        if self._connection.info.transaction_status == 3:
            self._cursor.execute(f"ROLLBACK TO SAVEPOINT {GUARD}")
            self._cursor.execute(f"RELEASE SAVEPOINT {GUARD}")


def there_of(server: Server, translation: Translation, translator: Translator, errors: tuple[type[Exception], ...]) -> Answer:
    """What PostgreSQL answers: that of the last of the statements that isn't made for the transaction alone."""
    answer = Answer()
    for statement in translation.statements:
        try:
            found = server.run(statement)
        except errors as error:
            server.undo()
            answer = Answer(refused=str(error).split("\n", 1)[0], by=constraint_named(error, translator))
            if str(translation.statements[-1]) == "ROLLBACK" and server.is_open():
                server.run(translation.statements[-1])
            break
        if found.count is not None or found.rows is not None:
            answer = found
    if answer.rows is not None and translation.outcome.rows is None and translation.outcome.error is None:
        answer.rows = None
    return answer


def sorted_rows(rows: list[tuple[Value, ...]]) -> list[str]:
    return sorted(map(write_values, rows))


def are_same(here: Answer, there: Answer) -> bool:
    """Whether both answers say the same; rows may come in another order, and a refusal without a name may have any words."""
    if (here.refused is None) != (there.refused is None):
        return False
    if here.refused is not None:
        return here.by == there.by or here.by is None
    if here.rows is not None and there.rows is not None:
        return sorted_rows(here.rows) == sorted_rows(there.rows)
    return here.rows is None and there.rows is None and here.count == there.count


def other_rows(session: Session, server: Server, is_end: bool) -> dict[str, tuple[Answer, Answer]]:
    """The tables whose rows differ, with those here and there. Of a large table only the number of rows is compared, except at the end of a
    transaction."""
    found = {}
    session.explain = False
    for table in session.catalogue.tables:
        here = Answer(rows=session.execute(f"SELECT * FROM {table}").rows or [])
        there = server.rows(table) if is_end or len(here.rows or []) <= LARGE else server.count(table)
        here = here if there.rows is not None else Answer(len(here.rows or []))
        if not are_same(here, there):
            found[table] = here, there
    session.explain = True
    return found


def step(translation: Translation, translator: Translator, server: Server, errors: tuple[type[Exception], ...], found: Comparison) -> bool:
    """Compares a statement, and answers whether the next one can be compared too."""
    here, there = here_of(translation), there_of(server, translation, translator, errors)
    found.translations.append(translation)
    tables = other_rows(translator.session, server, translation.event in ("COMMIT", "ROLLBACK")) if translation.event in CHANGING else {}
    is_left_same = not tables and translator.session.in_transaction == server.is_open()
    if are_same(here, there) and is_left_same:
        found.same += 1
        return True
    found.differences.append(Difference(translation, here, there, tables, translation.differs))
    return is_left_same and bool(translation.differs) and translation.event in ENDED


def compared(script: str, connect: Callable[[], Any], errors: tuple[type[Exception], ...], depth: int = 16, changes: int = 65_536, schema: str = SCHEMA) -> Comparison:
    """Runs a script in both. `connect` makes a connection, as `lambda: psycopg2.connect(dsn)` does, and `errors` are the exceptions of a
    refused statement, as `psycopg2.Error`."""
    translator = Translator(script, depth, changes)
    found = Comparison(total=len(translator.parts))
    with translator.session:
        server = Server(connect, schema)
        try:
            for each in translator.steps():
                if not step(each, translator, server, errors, found):
                    break
        finally:
            server.close()
    return found
