"""A plugin for pytest: the fixture `sqlkeep_db`, a database made of the files of a schema, as it was made for each test.

The files are those of the marker `sqlkeep_schema`, from the test's folder; or else those of `--sqlkeep-schema`, from where pytest was started; or
else those of the ini option, from the folder of the ini file.
"""
from __future__ import annotations

from pathlib import Path
from typing import TYPE_CHECKING, Any, Iterator

import pytest

from ._engine import Engine
from .connection import Connection
from .cursor import Cursor
from .errors import Error
from .plans import COMMIT
from .text import spans

if TYPE_CHECKING:
    from typing import Tuple

    from .session import Session
    from .values import Value

    Paths = Tuple[Path, ...]

__all__ = ["Database", "sqlkeep_db"]


class Database(Connection):
    """A connection that notes whether a rollback will take everything back."""

    __slots__ = ("is_committed",)

    def __init__(self, engine: Engine) -> None:
        self.is_committed = False
        super().__init__(engine)

    @property
    def session(self) -> Session:
        """The same database by the native interface. What is done by it isn't followed, so the database is then made anew."""
        self.is_committed = True
        return super().session

    @property
    def autocommit(self) -> bool | int:
        """How transactions end."""
        return self._autocommit

    @autocommit.setter
    def autocommit(self, mode: bool | int) -> None:
        self.is_committed = self.is_committed or mode == 1
        self._set_autocommit(mode)

    def commit(self) -> None:
        """Ends the transaction."""
        self.is_committed = True
        super().commit()

    def executescript(self, script: str) -> Cursor:
        """Executes the statements of a text; a COMMIT may be among them."""
        self.is_committed = True
        return super().executescript(script)

    def _answer(self, text: str, values: tuple[Value, ...], plan: int) -> tuple[Any, ...]:
        """What the engine answers to one statement."""
        self.is_committed = self.is_committed or plan == COMMIT
        return super()._answer(text, values, plan)


def pytest_addoption(parser: pytest.Parser) -> None:
    """The options that name the schema."""
    parser.getgroup("sqlkeep").addoption("--sqlkeep-schema", action="append", default=[], metavar="FILE", help="a file of the schema that sqlkeep_db is made of; several in their order")
    parser.addini("sqlkeep_schema", "the files of the schema that sqlkeep_db is made of, one a line, from the folder of the ini file", type="linelist", default=[])


def pytest_configure(config: pytest.Config) -> None:
    """The marker `sqlkeep_schema`."""
    config.addinivalue_line("markers", "sqlkeep_schema(path, ..): the files of the schema that sqlkeep_db is made of, from the test's folder")


def paths_of(request: pytest.FixtureRequest) -> Paths:
    """The files of the schema that a test wants, in their order."""
    marker, config = request.node.get_closest_marker("sqlkeep_schema"), request.config
    if marker is not None:
        if not marker.args or marker.kwargs:
            pytest.fail("the marker sqlkeep_schema names the files of the schema: @pytest.mark.sqlkeep_schema('schema.sql')", pytrace=False)
        folder, names = request.path.parent, marker.args
    elif config.getoption("sqlkeep_schema"):
        folder, names = config.invocation_params.dir, config.getoption("sqlkeep_schema")
    else:
        folder, names = config.inipath.parent if config.inipath is not None else config.rootpath, config.getini("sqlkeep_schema")
    if not names:
        pytest.fail("sqlkeep_db wants a schema: the marker sqlkeep_schema(path), --sqlkeep-schema, or sqlkeep_schema in the ini file", pytrace=False)
    return tuple((folder / str(name)).resolve() for name in names)


def made(paths: Paths) -> Database:
    """A database of the schema in some files."""
    database = Database(Engine(16, 65_536))
    for path in paths:
        wrong = executed(database, path)
        if wrong:
            pytest.fail(f"sqlkeep_db can't be made of {path}{wrong}", pytrace=False)
    database.is_committed = False
    return database


def executed(database: Database, path: Path) -> str:
    """Executes a file of the schema. What is wrong with it; nothing where it is accepted."""
    text = ""
    try:
        text = path.read_text("utf-8")
        database.executescript(text)
        database.commit()
    except (OSError, UnicodeError, Error) as why:
        return f"{line_of(text, why)}\n{why}"
    return ""


def line_of(text: str, why: Exception) -> str:
    """The line of the statement that was refused, and its beginning; a fault tells its own."""
    number = why.statement if isinstance(why, Error) else None
    if not isinstance(why, Error) or number is None or why.line is not None:
        return ""
    start, end = spans(text)[number - 1]
    first, *more = text[start:end].split("\n")
    return f", line {text.count(chr(10), 0, start) + 1}:\n  {first}{' ..' if more else ''}"


@pytest.fixture(scope="session")
def sqlkeep_databases() -> dict[Paths, Database]:
    """The databases that the next test may use, by the files of their schemas."""
    return {}


@pytest.fixture
def sqlkeep_db(request: pytest.FixtureRequest, sqlkeep_databases: dict[Paths, Database]) -> Iterator[Database]:
    """A connection to a database made of the files of the schema. What a test does is rolled back after it; where it has committed something, or
    made a table or a trigger, the next test has a database that is made anew."""
    paths = paths_of(request)
    database = sqlkeep_databases.pop(paths, None) or made(paths)
    schema = database._engine.catalogue()
    yield database
    if database._engine.is_open() and not database.is_committed:
        database.rollback()
        database.row_factory = None
        if database._engine.catalogue() == schema:
            sqlkeep_databases[paths] = database


def pytest_exception_interact(call: pytest.CallInfo[Any], report: pytest.TestReport) -> None:
    """Shows the account of a refusal that a test didn't catch."""
    error = call.excinfo.value if call.excinfo is not None else None
    if isinstance(error, Error) and error.lines:
        report.sections.append(("the refused statement", error.lines))
