"""The schema of a database of PostgreSQL, whose catalogues psql reads."""
from __future__ import annotations

import json
import os
import re
import subprocess
from typing import Any

from ..values import Value
from .schema import CHANGED, LEFT_OUT, LONGEST_TEXT, NOT_NEEDED, Check, Column, ForeignKey, Key, Note, Schema, Table
from .words import CannotSay, Word, words_of

__all__ = ["Unreachable", "schema_of"]

ACTIONS = {"a": "NO ACTION", "r": "RESTRICT", "c": "CASCADE", "n": "SET NULL", "d": "SET DEFAULT"}
KINDS = {"f": "foreign table", "v": "view", "m": "materialized view", "S": "sequence"}
INTEGERS = ("smallint", "integer", "bigint")
# What is in no schema of the system and belongs to no extension.
OURS = """n.nspname !~ '^pg_' AND n.nspname <> 'information_schema'
    AND NOT EXISTS (SELECT FROM pg_depend d WHERE d.classid = '{0}'::regclass AND d.objid = {1}.oid AND d.deptype = 'e')"""
NAMES = "(SELECT json_agg(a.attname ORDER BY k.at) FROM unnest({0}) WITH ORDINALITY k (number, at) JOIN pg_attribute a ON a.attrelid = {1} AND a.attnum = k.number)"
QUERIES = {
    "tables": f"""SELECT c.oid::int8 AS oid, n.nspname AS schema, c.relname AS name, c.relkind AS kind, c.relispartition AS is_partition, c.relrowsecurity AS has_policies,
        EXISTS (SELECT FROM pg_inherits i WHERE i.inhrelid = c.oid) AS inherits,
        EXISTS (SELECT FROM pg_depend d WHERE d.classid = 'pg_class'::regclass AND d.objid = c.oid AND d.deptype IN ('a', 'i')) AS is_owned
        FROM pg_class c JOIN pg_namespace n ON n.oid = c.relnamespace WHERE c.relkind IN ('r', 'p', 'f', 'v', 'm', 'S') AND {OURS.format("pg_class", "c")} ORDER BY c.oid""",
    "columns": f"""SELECT a.attrelid::int8 AS oid, a.attname AS name, t.typtype AS kind, format_type(a.atttypid, a.atttypmod) AS type, a.attnotnull AS not_null,
        pg_get_expr(e.adbin, e.adrelid) AS default, a.attidentity <> '' AS is_identity, a.attgenerated <> '' AS is_generated,
        (SELECT l.collname FROM pg_collation l WHERE l.oid = a.attcollation AND l.collname <> 'default') AS collation
        FROM pg_attribute a JOIN pg_class c ON c.oid = a.attrelid JOIN pg_namespace n ON n.oid = c.relnamespace JOIN pg_type t ON t.oid = a.atttypid
        LEFT JOIN pg_attrdef e ON e.adrelid = a.attrelid AND e.adnum = a.attnum
        WHERE a.attnum > 0 AND NOT a.attisdropped AND c.relkind IN ('r', 'p') AND {OURS.format("pg_class", "c")} ORDER BY a.attrelid, a.attnum""",
    "constraints": f"""SELECT c.conrelid::int8 AS oid, c.confrelid::int8 AS referenced, c.contype AS kind, c.conname AS name, pg_get_expr(c.conbin, c.conrelid) AS condition,
        {NAMES.format("c.conkey", "c.conrelid")} AS columns, {NAMES.format("c.confkey", "c.confrelid")} AS referenced_columns,
        c.condeferrable AS is_deferrable, c.condeferred AS is_deferred, c.confdeltype AS on_delete, c.confupdtype AS on_update, c.confmatchtype = 'f' AS is_full,
        to_jsonb(c) ->> 'confdelsetcols' IS NOT NULL AS sets_some, pg_get_constraintdef(c.oid) AS text
        FROM pg_constraint c JOIN pg_namespace n ON n.oid = c.connamespace WHERE c.conrelid <> 0 AND c.contype IN ('c', 'p', 'u', 'f', 'x') AND {OURS.format("pg_constraint", "c")} ORDER BY c.oid""",
    "indexes": f"""SELECT i.indrelid::int8 AS oid, c.relname AS name, i.indisunique AS is_unique, i.indpred IS NOT NULL AS is_partial, i.indexprs IS NOT NULL AS is_expression,
        {NAMES.format("(i.indkey::int2[])[0:i.indnkeyatts - 1]", "i.indrelid")} AS columns, coalesce((to_jsonb(i) ->> 'indnullsnotdistinct')::bool, false) AS not_distinct
        FROM pg_index i JOIN pg_class c ON c.oid = i.indexrelid JOIN pg_namespace n ON n.oid = c.relnamespace
        WHERE NOT EXISTS (SELECT FROM pg_constraint k WHERE k.conindid = c.oid AND k.contype IN ('p', 'u', 'x')) AND {OURS.format("pg_class", "c")} ORDER BY c.oid""",
    "others": f"""SELECT 'trigger' AS kind, g.tgname AS name, g.tgrelid::int8 AS oid FROM pg_trigger g WHERE NOT g.tgisinternal
        UNION ALL SELECT 'rule', r.rulename, r.ev_class::int8 FROM pg_rewrite r JOIN pg_class c ON c.oid = r.ev_class WHERE c.relkind IN ('r', 'p')
        UNION ALL SELECT 'function', p.proname, 0 FROM pg_proc p JOIN pg_namespace n ON n.oid = p.pronamespace WHERE {OURS.format("pg_proc", "p")}
        UNION ALL SELECT 'type', t.typname, 0 FROM pg_type t JOIN pg_namespace n ON n.oid = t.typnamespace LEFT JOIN pg_class c ON c.oid = t.typrelid
            WHERE (t.typtype IN ('d', 'e', 'r') OR c.relkind = 'c') AND {OURS.format("pg_type", "t")}
        UNION ALL SELECT 'extension', x.extname, 0 FROM pg_extension x WHERE x.extname <> 'plpgsql'
        UNION ALL SELECT 'event trigger', v.evtname, 0 FROM pg_event_trigger v""",
    "collation": "SELECT datcollate AS name FROM pg_database WHERE datname = current_database()",
}


class Unreachable(Exception):
    """psql isn't there, or the server doesn't answer."""


def catalogues(dsn: str) -> dict[str, list[dict[str, Any]]]:
    """What the queries answer, all in one snapshot."""
    parts = ", ".join(f"'{name}', (SELECT coalesce(json_agg(found), '[]') FROM ({query}) found)" for name, query in QUERIES.items())
    command = ["psql", "-X", "-q", "-A", "-t", "-w", "-v", "ON_ERROR_STOP=1", f"--dbname={dsn}", "-c", f"SELECT json_build_object({parts})"]
    options = "-c search_path= -c default_transaction_read_only=on -c quote_all_identifiers=off -c standard_conforming_strings=on"
    try:
        done = subprocess.run(command, capture_output=True, check=False, env={**os.environ, "PGOPTIONS": options, "PGCLIENTENCODING": "UTF8"})
    except FileNotFoundError:
        raise Unreachable("psql isn't there: apt-get install postgresql-client") from None
    if done.returncode:
        raise Unreachable(done.stderr.decode(errors="replace").strip())
    found: dict[str, list[dict[str, Any]]] = json.loads(done.stdout)
    return found


def column_of(name: str, kind: str, declared: str) -> tuple[Column, str]:
    """A column that takes the values of a type, and what was changed, if anything was."""
    length = re.fullmatch(r"character varying\(([0-9]+)\)", declared)
    if declared in INTEGERS:
        return Column(name, None), "" if declared == "bigint" else f"{declared} is INT, of 64 bits"
    if declared == "boolean":
        return Column(name, None), "boolean is INT, 0 or 1"
    if length is not None and int(length[1]) <= LONGEST_TEXT:
        return Column(name, int(length[1])), ""
    is_text = declared == "text" or declared.startswith("character varying")
    return Column(name, LONGEST_TEXT, is_text), f"{declared}{' (a domain)' * (kind == 'd')} is VARCHAR({LONGEST_TEXT})" + ("" if is_text else ", with texts only")


def default_of(text: str, declared: str) -> Value:
    """A default. CannotSay for one that is no literal of a type that is the same here."""
    found = re.fullmatch(r"(\(?-?[0-9]+\)?|'(?:[^']|'')*'|true|false|NULL)(?:::[a-z ]+(?:\([0-9]+\))?)?", text)
    if found is None:
        raise CannotSay("it is no literal")
    literal = found[1]
    if literal == "NULL":
        return None
    if declared == "boolean" and literal in ("true", "false"):
        return int(literal == "true")
    plain = literal[1:-1].replace("''", "'") if literal.startswith("'") else literal.strip("()")
    if declared in INTEGERS and re.fullmatch("-?[0-9]{1,18}", plain):
        return int(plain)
    if literal.startswith("'") and (declared == "text" or declared.startswith("character varying")):
        return plain
    raise CannotSay(f"it is no literal of {declared}")


def constant(word: Word) -> Word:
    """TRUE and FALSE as numbers, since a column may have such a name between quotes."""
    return Word("number", str(int(word.says("TRUE")))) if word.says("TRUE", "FALSE") else word


class SchemaReader:
    """Makes a schema of what the catalogues have."""

    def __init__(self, found: dict[str, list[dict[str, Any]]]) -> None:
        self._found = found
        self._schema = Schema()
        self._tables: dict[int, Table] = {}

    def read(self) -> Schema:
        collation = self._found["collation"][0]["name"]
        if collation not in ("C", "POSIX", "C.UTF-8"):
            self._schema.notes.append(Note(CHANGED, f"texts are ordered by their characters, and not by {collation}"))
        for part, read in (("tables", self.table), ("columns", self.column), ("constraints", self.constraint), ("indexes", self.index), ("others", self.other)):
            for each in self._found[part]:
                if part in ("tables", "others") or each["oid"] in self._tables:
                    read(each)
        self.same_names()
        return self._schema

    def same_names(self) -> None:
        """Leaves out tables that differ from an earlier one, or whose columns differ, by small and capital letters only."""
        for table in self._schema.tables[:]:
            columns = [column.name.lower() for column in table.columns]
            if self._schema.table(table.name) is not table or len(set(columns)) < len(columns):
                self._schema.tables.remove(table)
                self._schema.notes.append(Note(LEFT_OUT, f"table {table.name}: a name is there in small and in capital letters"))
                self.without(table)

    def without(self, gone: Table) -> None:
        """Leaves out the foreign keys to a table that was left out."""
        for table in self._schema.tables:
            for key in table.foreign_keys[:]:
                if key.table == gone.name:
                    table.foreign_keys.remove(key)
                    table.note(LEFT_OUT, f"foreign key {key.name} to {gone.name}, which is left out")

    def table(self, each: dict[str, Any]) -> None:
        name = each["name"] if each["schema"] == "public" else f"{each['schema']}.{each['name']}"
        if each["kind"] in KINDS or each["is_partition"]:
            kind = NOT_NEEDED if each["kind"] == "S" and each["is_owned"] else LEFT_OUT
            self._schema.notes.append(Note(kind, f"{KINDS.get(each['kind'], 'partition')} {name}"))
            return
        table = self._tables[each["oid"]] = Table(name)
        self._schema.tables.append(table)
        for is_there, what in ((each["inherits"], "INHERITS"), (each["has_policies"], "ROW LEVEL SECURITY"), (each["kind"] == "p", "PARTITION BY")):
            if is_there:
                table.note(LEFT_OUT, f"{what} of {name}")

    def column(self, each: dict[str, Any]) -> None:
        table = self._tables[each["oid"]]
        column, change = column_of(each["name"], each["kind"], each["type"])
        column.not_null = each["not_null"]
        table.columns.append(column)
        if change:
            table.note(CHANGED, f"{column.name}: {change}")
        if each["kind"] == "d":
            table.note(LEFT_OUT, f"the rules of the domain of {column.name}")
        if each["type"] == "boolean":
            words = [Word("quoted", column.name), Word("word", "IN"), *words_of("(0, 1)")]
            table.checks.append(Check(words))
        if each["collation"] not in (None, "C", "POSIX"):
            column.comparable = False
            table.note(LEFT_OUT, f"COLLATE {each['collation']} of {column.name}: texts are compared character by character")
        if each["is_generated"]:
            table.note(LEFT_OUT, f"the expression of the generated column {column.name}, which is a plain one")
        elif each["is_identity"] or (each["default"] or "").startswith("nextval("):
            table.note(CHANGED, f"{column.name}: PostgreSQL numbers a row without one, and here it has none")
        elif each["default"] is not None:
            self.default(table, column, each)

    def default(self, table: Table, column: Column, each: dict[str, Any]) -> None:
        try:
            column.default = default_of(each["default"], each["type"])
        except CannotSay as fault:
            table.note(LEFT_OUT, f"DEFAULT {each['default']} of {column.name}: {fault}")

    def constraint(self, each: dict[str, Any]) -> None:
        table, name = self._tables[each["oid"]], each["name"]
        time = "" if not each["is_deferrable"] else "INITIALLY DEFERRED" if each["is_deferred"] else "DEFERRABLE"
        if each["kind"] == "c":
            try:
                table.checks.append(Check(list(map(constant, words_of(each["condition"], has_brackets=False))), name))
            except CannotSay as fault:
                table.note(LEFT_OUT, f"CHECK {name} ({each['condition']}): {fault}")
        elif each["kind"] in "pu":
            table.keys.append(Key(each["columns"], each["kind"] == "p", name, "NULLS NOT DISTINCT" in each["text"], time))
        elif each["kind"] == "x":
            table.note(LEFT_OUT, f"{each['text']} of {table.name}")
        else:
            self.foreign_key(table, each, time)

    def foreign_key(self, table: Table, each: dict[str, Any], time: str) -> None:
        to = self._tables.get(each["referenced"])
        if to is None or each["sets_some"]:
            table.note(LEFT_OUT, f"{each['text']} of {table.name}")
            return
        match = "MATCH FULL" if each["is_full"] else ""
        table.foreign_keys.append(ForeignKey(each["columns"], to.name, each["referenced_columns"], ACTIONS[each["on_delete"]], ACTIONS[each["on_update"]], time, each["name"], match))

    def index(self, each: dict[str, Any]) -> None:
        table = self._tables[each["oid"]]
        table.indexes.append(each["name"])
        if not each["is_unique"]:
            table.note(NOT_NEEDED, f"index {each['name']}")
        elif each["is_partial"] or each["is_expression"]:
            table.note(LEFT_OUT, f"unique index {each['name']}: it has {'a WHERE' if each['is_partial'] else 'an expression'}")
        else:
            table.keys.append(Key(each["columns"], False, each["name"], each["not_distinct"]))
            table.note(CHANGED, f"unique index {each['name']} is a UNIQUE")

    def other(self, each: dict[str, Any]) -> None:
        table = self._tables.get(each["oid"])
        self._schema.notes.append(Note(LEFT_OUT, f"{each['kind']} {each['name']}" + (f" of {table.name}" if table is not None else "")))


def schema_of(dsn: str) -> Schema:
    """The schema of a database."""
    return SchemaReader(catalogues(dsn)).read()
