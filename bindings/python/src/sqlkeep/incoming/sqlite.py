"""The schema and the rows of a file of SQLite."""
from __future__ import annotations

import re
from pathlib import Path
from typing import TYPE_CHECKING, Any, Iterator

from ..values import Value
from .definition import Definition, Reference, definition_of
from .schema import CHANGED, LEFT_OUT, LONGEST_TEXT, NOT_NEEDED, Column, ForeignKey, Key, Note, Schema, Table
from .words import CannotSay, Word, words_of

if TYPE_CHECKING:
    import sqlite3

__all__ = ["opened", "rows_of", "schema_of", "value_here"]


def opened(file: str) -> sqlite3.Connection:
    """A file of SQLite, which is only read."""
    import sqlite3  # pylint: disable=import-outside-toplevel

    connection = sqlite3.connect(f"{Path(file).resolve().as_uri()}?mode=ro", uri=True, isolation_level=None)
    connection.execute("PRAGMA trusted_schema = OFF")
    connection.execute("BEGIN")
    connection.execute("SELECT count(*) FROM sqlite_master")
    return connection


def column_of(declared: str) -> tuple[Column, str]:
    """A column without a name that takes the values of a declared type, and what was changed, if anything was. SQLite goes by parts of
    the type's name."""
    word = declared.upper()
    length = re.fullmatch(r"(?:VARCHAR|CHARACTER VARYING|CHAR VARYING) *\( *([0-9]{1,4}) *\)", word)
    if "INT" in word:
        return Column("", None), "" if word in ("INT", "INTEGER") else f"{declared} is INT"
    if length is not None and 1 <= int(length[1]) <= LONGEST_TEXT:
        return Column("", int(length[1])), f"{declared} holds no longer texts here"
    if any(part in word for part in ("CHAR", "CLOB", "TEXT")):
        given = re.search(r"\( *([0-9]{1,4}) *\)", word)
        longest = int(given[1]) if given is not None and 1 <= int(given[1]) <= LONGEST_TEXT else LONGEST_TEXT
        return Column("", longest), f"{declared} is VARCHAR({longest})"
    if "BOOL" in word:
        return Column("", None), f"{declared} is INT"
    return Column("", LONGEST_TEXT, comparable=False), f"{declared or 'no type'} is VARCHAR({LONGEST_TEXT}), so numbers are texts"


def value_here(value: Any, column: Column) -> Value:
    """A value of SQLite as the column takes it. CannotSay for one that it can't."""
    if value is None or (isinstance(value, int) and column.length is None) or (isinstance(value, str) and column.length is not None):
        return value
    if isinstance(value, (int, float)) and column.length is not None:
        return str(value)
    kind = {float: "the number", str: "the text"}.get(type(value), "the blob")
    raise CannotSay(f"{kind} {value!r} in {column.name}")


def default_of(text: str, column: Column) -> Value:
    """A default. CannotSay for one that is no literal, or none of the column's type."""
    words = words_of(text)
    sign = words.pop(0).text if len(words) == 2 and words[0].says("+", "-") else ""
    word = words[0] if len(words) == 1 else Word("sign", "")
    constants = {"NULL": None, "TRUE": 1, "FALSE": 0}
    if word.kind == "number" and re.fullmatch("[0-9]+", word.text) and int(word.text) < 2**63:
        return value_here(int(sign + word.text), column)
    if not sign and word.kind in ("text", "quoted"):
        is_number = column.length is None and re.fullmatch("[+-]?[0-9]{1,18}", word.text)
        return value_here(int(word.text) if is_number else word.text, column)
    if not sign and word.kind == "word" and word.text.upper() in constants:
        return value_here(constants[word.text.upper()], column)
    raise CannotSay("it is no literal")


class TableReader:
    """Reads one table."""

    def __init__(self, connection: sqlite3.Connection, name: str, text: str) -> None:
        self._connection = connection
        self._table = Table(name)
        try:
            self._said = definition_of(text)
        except CannotSay as fault:
            self._said = Definition()
            self._table.note(LEFT_OUT, f"the CHECKs and names of constraints of {name}: {fault}")

    def read(self) -> Table:
        self.columns()
        self.indexes()
        self.foreign_keys()
        self._table.checks = self._said.checks
        for word in self._said.conflicts:
            if word != "ABORT":
                self._table.note(LEFT_OUT, f"ON CONFLICT {word} of {self._table.name}")
        for column, collation in self._said.collations.items():
            self.collation(column, collation)
        return self._table

    def collation(self, name: str, collation: str) -> None:
        column = self._table.column(name)
        if column is not None and collation.upper() != "BINARY":
            column.comparable = False
            self._table.note(LEFT_OUT, f"COLLATE {collation} of {column.name}: texts are compared character by character")

    def columns(self) -> None:
        found = self._connection.execute("SELECT name, type, \"notnull\", dflt_value, pk, hidden FROM pragma_table_xinfo(?) ORDER BY cid", (self._table.name,)).fetchall()
        for name, declared, not_null, default, _, hidden in found:
            column, change = column_of(declared)
            column.name, column.not_null, column.not_null_name = name, bool(not_null), self._said.not_nulls.get(name.lower())
            self._table.columns.append(column)
            if change:
                self._table.note(CHANGED, f"{name}: {change}")
            if hidden:
                self._table.note(LEFT_OUT, f"the expression of the generated column {name}, which is a plain one")
            if default is not None:
                self.default(column, default)
        key = [name for _, name in sorted((place, name) for name, _, _, _, place, _ in found if place)]
        if key:
            self.primary_key(key, found)

    def default(self, column: Column, text: str) -> None:
        try:
            column.default = default_of(text, column)
        except CannotSay as fault:
            self._table.note(LEFT_OUT, f"DEFAULT {text} of {column.name}: {fault}")

    def primary_key(self, columns: list[str], found: list[Any]) -> None:
        self._table.keys.append(Key(columns, True, self.name_of(columns)))
        declared = {name: (declared.upper(), not_null) for name, declared, not_null, *_ in found}
        if len(columns) == 1 and declared[columns[0]][0] == "INTEGER":
            self._table.note(CHANGED, f"{columns[0]}: SQLite numbers a row without one, and here it is refused")
        else:
            nullable = [name for name in columns if not declared[name][1]]
            for name in nullable:
                self._table.note(CHANGED, f"{name}: SQLite lets nulls into such a PRIMARY KEY, and here none may be")

    def name_of(self, columns: list[str]) -> str | None:
        """The name that the text gives to the key of these columns."""
        wanted = [name.lower() for name in columns]
        return next((name for name, key in self._said.keys if key == wanted), None)

    def indexes(self) -> None:
        for name, unique, origin, partial in self._connection.execute("SELECT name, \"unique\", origin, partial FROM pragma_index_list(?) ORDER BY seq DESC", (self._table.name,)).fetchall():
            columns = [column for (column,) in self._connection.execute("SELECT name FROM pragma_index_xinfo(?) WHERE key ORDER BY seqno", (name,))]
            if origin == "pk":
                continue
            self._table.indexes += [name] if origin == "c" else []
            if not unique:
                self._table.note(NOT_NEEDED, f"index {name}")
            elif partial or None in columns:
                self._table.note(LEFT_OUT, f"unique index {name}: it has {'a WHERE' if partial else 'an expression'}")
            else:
                self._table.keys.append(Key(columns, False, name if origin == "c" else self.name_of(columns)))
                if origin == "c":
                    self._table.note(CHANGED, f"unique index {name} is a UNIQUE")
                self.collated(name, columns)

    def collated(self, index: str, columns: list[str]) -> None:
        """Notes the collations that a CREATE UNIQUE INDEX gives to columns that have another one."""
        for column, collation in self._connection.execute("SELECT name, coll FROM pragma_index_xinfo(?) WHERE key ORDER BY seqno", (index,)):
            if collation.upper() != self._said.collations.get(column.lower(), "BINARY").upper():
                self._table.note(LEFT_OUT, f"COLLATE {collation} of {column} in index {index}: texts are compared character by character")

    def foreign_keys(self) -> None:
        """SQLite gives them from the last to the first of the text."""
        found: dict[int, list[Any]] = {}
        for number, *rest in self._connection.execute("SELECT id, \"table\", \"from\", \"to\", on_update, on_delete FROM pragma_foreign_key_list(?) ORDER BY id DESC, seq", (self._table.name,)):
            found.setdefault(number, []).append(rest)
        tables = [parts[0][0] for parts in found.values()]
        said = self._said.references
        if [reference.table.lower() for reference in said] != [table.lower() for table in tables]:
            said = [Reference(None, table) for table in tables]
            self._table.note(LEFT_OUT, f"names and modes of the foreign keys of {self._table.name}")
        for parts, reference in zip(found.values(), said):
            table, _, _, on_update, on_delete = parts[0]
            referenced = [to for _, _, to, _, _ in parts if to is not None] or self.key_of(table)
            self._table.foreign_keys.append(ForeignKey([column for _, column, *_ in parts], table, referenced, on_delete, on_update, reference.time, reference.name))
            if reference.match not in (None, "SIMPLE"):
                self._table.note(CHANGED, f"MATCH {reference.match} is MATCH SIMPLE, as SQLite takes it")

    def key_of(self, table: str) -> list[str]:
        """The columns of a table's PRIMARY KEY."""
        return [name for (name,) in self._connection.execute("SELECT name FROM pragma_table_xinfo(?) WHERE pk ORDER BY pk", (table,))]


def schema_of(connection: sqlite3.Connection) -> Schema:
    """The schema of a file."""
    schema = Schema()
    for kind, name, text in connection.execute("SELECT type, name, sql FROM sqlite_master WHERE name NOT LIKE 'sqlite\\_%' ESCAPE '\\' ORDER BY rowid").fetchall():
        if kind == "table" and words_start(text, "CREATE", "VIRTUAL"):
            schema.notes.append(Note(LEFT_OUT, f"virtual table {name}"))
        elif kind == "table":
            schema.tables.append(TableReader(connection, name, text).read())
        elif kind in ("view", "trigger"):
            schema.notes.append(Note(LEFT_OUT, f"{kind} {name}"))
    return schema


def words_start(text: str, *words: str) -> bool:
    """Whether a text begins with these words."""
    return re.match(r"\s*" + r"\s+".join(words) + r"\b", text, re.IGNORECASE) is not None


def quoted(name: str) -> str:
    """A name of SQLite."""
    return '"' + name.replace('"', '""') + '"'


def rows_of(connection: sqlite3.Connection, table: Table) -> Iterator[tuple[Any, ...]]:
    """The rows of a table. A text that is no UTF-8 comes as its bytes."""
    connection.text_factory = text_or_bytes
    yield from connection.execute(f"SELECT {', '.join(quoted(column.name) for column in table.columns)} FROM {quoted(table.name)}")


def text_or_bytes(given: bytes) -> str | bytes:
    try:
        return given.decode()
    except UnicodeDecodeError:
        return given
