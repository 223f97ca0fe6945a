"""Hints about texts that are no statements: each is given for such a text alone, and points at a word."""
import os
import unittest
from pathlib import Path

import sqlkeep
from sqlkeep.hints import hint_of
from sqlkeep.shell.typed import Typed
from sqlkeep.text import tokens

ROOT = Path(os.environ.get("SQLKEEP_ROOT", Path(__file__).resolve().parents[3]))
# A faulty text, the reason, and the word that it is about.
HINTS = [
    ("SELECT a FROM t GROUP BY a", "there is no GROUP BY", "GROUP"),
    ("SELECT a FROM t LIMIT 5", "there is no LIMIT", "LIMIT"),
    ("SELECT t.a FROM t JOIN u ON t.a = u.a", "there is no JOIN; EXISTS asks another table", "JOIN"),
    ("SELECT a FROM t LEFT JOIN u", "there is no JOIN; EXISTS asks another table", "LEFT"),
    ("SELECT a FROM t WHERE a IN (1, 2)", "there is no IN; write a = 1 OR a = 2", "IN"),
    ("SELECT a FROM t WHERE a BETWEEN 1 AND 2", "there is no BETWEEN; write a >= 1 AND a <= 9", "BETWEEN"),
    ("SELECT a FROM t WHERE a LIKE 'x'", "there is no LIKE", "LIKE"),
    ("SELECT DISTINCT a FROM t", "there is no SELECT DISTINCT", "DISTINCT"),
    ("CREATE TABLE t (a INT,)", "there is a comma too many", ","),
    ("INSERT INTO t VALUES (1,,2)", "there is a comma too many", ","),
    ("CREATE TABLE t (a INT PRIMARY KEY AUTOINCREMENT)", "there is no AUTOINCREMENT; a key is given with the row", "AUTOINCREMENT"),
    ("CREATE TABLE t (id SERIAL)", "there is no SERIAL; a key is given with the row", "SERIAL"),
    ("CREATE TABLE t (a BOOLEAN)", "there is no type BOOLEAN; write INT", "BOOLEAN"),
    ("CREATE TABLE t (a INT, b DATE)", "there is no type DATE; write VARCHAR(10)", "DATE"),
    ("CREATE TABLE order_ (a INT, action INT)", "ACTION is a keyword, and no name", "ACTION"),
    ("CREATE TABLE table (a INT)", "TABLE is a keyword, and no name", "TABLE"),
    ("CREATE TABLE t (a INT UNIQUE DEFAULT 5)", "DEFAULT comes before the constraints", "DEFAULT"),
    ("CREATE INDEX i ON t (a)", "tables and triggers alone are made", "INDEX"),
    ("CREATE VIEW v AS SELECT a FROM t", "tables and triggers alone are made", "VIEW"),
    ("DROP TABLE t", "only triggers are dropped", "TABLE"),
    ("UPDAT t SET a = 1", "did you mean UPDATE?", "UPDAT"),
    ("TRUNCATE t", "no statement begins so", "TRUNCATE"),
    ("SELECT a FROM t WHERE a = 1)", "this parenthesis was never opened", ")"),
    ("INSERT INTO t VALUES (1, 2", "this parenthesis isn't closed", "("),
    ("INSERT INTO t VALUES (1) RETURNING a", "there is no RETURNING", "RETURNING"),
]


class Hints(unittest.TestCase):
    def test_each(self):
        session = sqlkeep.Session()
        for text, reason, word in HINTS:
            with self.subTest(text):
                hint = hint_of(tokens(text))
                self.assertEqual((hint.reason, hint.token.word), (reason, word))
                with self.assertRaises(sqlkeep.ProgrammingError) as caught:
                    session.execute(text)
                self.assertTrue(str(caught.exception).endswith(f"({reason})"), str(caught.exception))

    def test_none(self):
        for text in ("SELECT a b c FROM t", "UPDATE t SET", "DELETE FROM t WHERE", "CREATE TABLE t", "SET CONSTRAINTS", "COMMIT NOW", ""):
            self.assertIsNone(hint_of(tokens(text)), text)

    def test_words_of_other_systems_are_names_here(self):
        """A hint is a guess about a faulty text: these are statements, and are executed."""
        session = sqlkeep.Session()
        for text in ("CREATE TABLE order_by (limit INT, group INT, like VARCHAR(9))", "INSERT INTO order_by VALUES (1, 2, 'in')", "SELECT limit, group FROM order_by WHERE like = 'in'"):
            session.execute(text).check()


def is_whole(text):
    """Whether a text is whole when its last line was typed."""
    typed = Typed()
    return [typed.add(line) for line in text.split("\n")][-1]


class Whole(unittest.TestCase):
    def test_each(self):
        for text, wanted in [
            ("", True), ("  -- nothing", True), ("COMMIT;", True), ("COMMIT", False), ("COMMIT; SELECT", False), ("COMMIT; -- done", True), ("SELECT ';", False), ("SELECT 'a;b' FROM t;", True),
            ("SELECT 'it''s' FROM t;", True), ("SELECT 'it''s FROM t;", False), ("SELECT a -- ;", False), ("SELECT a -- ;\n;", True), ("SELECT \"a\"", True), ("@", True),
            ("CREATE TRIGGER r AFTER INSERT ON t BEGIN ATOMIC DELETE FROM u;", False), ("CREATE TRIGGER r AFTER INSERT ON t BEGIN ATOMIC DELETE FROM u; END", False),
            ("CREATE TRIGGER r AFTER INSERT ON t BEGIN ATOMIC DELETE FROM u; END;", True), ("BEGIN;", True), ("END;", True), ("SELECT 99999999999999999999;", True),
            ("SELECT 9223372036854775808", True), ("SELECT 00009223372036854775807", False), ("SELECT 'a''", False), ("SELECT 'a''\n;", False), ("SELECT 'a''\nb';", True), ("SELECT 'a\n''\n;", False),
            ("SELECT 'a\n'';\n';", True), ("CREATE TRIGGER r\nAFTER INSERT ON t BEGIN ATOMIC\nDELETE FROM u;", False), ("CREATE TRIGGER r\nBEGIN ATOMIC\nDELETE FROM u;\nEND;", True), ("SELECT\n@", False),
            ("SELECT\n@\n;", True), ("\n", True), ("'\n;", False),
        ]:
            with self.subTest(text):
                self.assertEqual(is_whole(text), wanted)

    def test_each_beginning_of_the_examples(self):
        """Line by line, as they are typed: the text is whole exactly where the engine reads nothing but whole statements."""
        for path in sorted((ROOT / "examples").glob("*.sql")):
            session, typed, text = sqlkeep.Session(), Typed(), ""
            for line in path.read_text("utf-8").splitlines():
                text += line + "\n"
                self.assertEqual(typed.add(line), not session._engine.read(text.encode())[1], text)


if __name__ == "__main__":
    unittest.main()
