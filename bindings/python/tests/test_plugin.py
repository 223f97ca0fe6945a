"""The plugin for pytest: the shop's tests and its bugs, isolation of tests, and what a failed assertion shows. It wants pytest."""
import importlib.util
import os
import re
import subprocess
import sys
import tempfile
import unittest
import xml.etree.ElementTree as xml
from pathlib import Path

ROOT = Path(os.environ.get("SQLKEEP_ROOT", Path(__file__).resolve().parents[3]))
SHOP = ROOT / "bindings" / "python" / "example_shop"
HAS_PYTEST = importlib.util.find_spec("pytest") is not None
PAIR = "CREATE TABLE p (k INT PRIMARY KEY);\nCREATE TABLE c (x INT CONSTRAINT f REFERENCES p ON DELETE CASCADE);\nINSERT INTO p VALUES (1), (2);\nINSERT INTO c VALUES (1), (1);\nCOMMIT;\n"


def ran(folder, *words):
    """Runs pytest in a folder: its output, and the outcome of each test by its name."""
    with tempfile.NamedTemporaryFile(suffix=".xml") as report:
        words = [sys.executable, "-m", "pytest", "-p", "no:cacheprovider", "-p", "no:randomly", f"--junitxml={report.name}", *words]
        env = {**os.environ, "PYTHONDONTWRITEBYTECODE": "1", "COLUMNS": "160"}
        done = subprocess.run(words, cwd=folder, env=env, capture_output=True, text=True, check=False)
        text = Path(report.name).read_text("utf-8")
    cases = xml.fromstring(text).iter("testcase") if text else []
    return done.stdout + done.stderr, {case.get("name"): next((each.tag for each in case if each.tag in ("failure", "error")), "passed") for case in cases}


def in_folder(test, schema=PAIR, ini="[pytest]\nsqlkeep_schema = schema.sql\n", words=(), more=None):
    """Runs pytest over one file of tests with a schema."""
    with tempfile.TemporaryDirectory() as folder:
        for name, text in (("test_it.py", test), ("schema.sql", schema), ("pytest.ini", ini), ("more.sql", more)):
            if text is not None:
                Path(folder, name).write_text(text, "utf-8")
        return ran(folder, *words)


@unittest.skipUnless(HAS_PYTEST, "apt-get install python3-pytest")
class Shop(unittest.TestCase):
    def test_all_pass(self):
        output, outcomes = ran(SHOP)
        self.assertEqual((set(outcomes.values()), len(outcomes)), ({"passed"}, 44), output)

    def test_each_bug_is_found(self):
        spec = importlib.util.spec_from_file_location("bugs", SHOP / "bugs.py")
        bugs = importlib.util.module_from_spec(spec)
        sys.dont_write_bytecode = True
        spec.loader.exec_module(bugs)
        schema = (SHOP / "schema.sql").read_text("utf-8")
        for name, old, new, wanted in bugs.BUGS:
            with self.subTest(name), tempfile.TemporaryDirectory() as folder:
                self.assertEqual(schema.count(old), 1)
                Path(folder, "schema.sql").write_text(schema.replace(old, new), "utf-8")
                for file in ("test_shop.py", "pytest.ini"):
                    Path(folder, file).write_bytes((SHOP / file).read_bytes())
                output, outcomes = ran(folder)
                self.assertEqual({test for test, outcome in outcomes.items() if outcome != "passed"}, wanted, output)
                self.assertEqual(len(outcomes), 44)


@unittest.skipUnless(HAS_PYTEST, "apt-get install python3-pytest")
class Isolation(unittest.TestCase):
    CHANGES = [
        "db.execute('DELETE FROM c')", "db.execute('DELETE FROM c'); db.commit()", "db.execute('DELETE FROM c'); db.execute('COMMIT')", "db.executescript('DELETE FROM c; COMMIT')",
        "db.execute('CREATE TABLE t (a INT)')", "db.autocommit = True; db.executemany('DELETE FROM c WHERE x = ?', [(1,)])", "db.session.execute('DELETE FROM c'); db.session.commit()",
        "db.execute('DELETE FROM c'); db.close()", "db.session.execute('CREATE TRIGGER r AFTER INSERT ON p DELETE FROM p')", "db.cursor().execute('DELETE FROM c').execute('COMMIT')",
        "db.__enter__().execute('DELETE FROM c'); db.__exit__(None, None, None)", "db.session.explain = True", "db.execute('SAVEPOINT s')",
    ]

    def test_each_test_has_the_database_as_it_was_made(self):
        body = "\n".join(f"def test_{at}(sqlkeep_db):\n    db = sqlkeep_db\n    check(db)\n    {change}\n" for at, change in enumerate(self.CHANGES))
        check = (
            "def check(db):\n    assert db.execute('SELECT * FROM c').fetchall() == [(1,), (1,)]\n    assert not db.in_transaction and db.autocommit == -1\n"
            "    catalogue = db._engine.catalogue()\n    assert [table[0] for table in catalogue[0]] == ['P', 'C'] and catalogue[2] == []\n"
        )
        output, outcomes = in_folder(check + body + "\ndef test_last(sqlkeep_db):\n    check(sqlkeep_db)\n    assert sqlkeep_db._native().explain is False\n")
        self.assertEqual((set(outcomes.values()), len(outcomes)), ({"passed"}, len(self.CHANGES) + 1), output)

    def test_a_database_is_used_again_after_a_rollback(self):
        output, outcomes = in_folder("seen = []\ndef test_a(sqlkeep_db):\n    seen.append(sqlkeep_db); sqlkeep_db.execute('DELETE FROM c')\ndef test_b(sqlkeep_db):\n    assert sqlkeep_db is seen[0]\n")
        self.assertEqual(outcomes, {"test_a": "passed", "test_b": "passed"}, output)


@unittest.skipUnless(HAS_PYTEST, "apt-get install python3-pytest")
class Schemas(unittest.TestCase):
    def test_a_marker(self):
        test = "import pytest\n@pytest.mark.sqlkeep_schema('schema.sql')\ndef test_it(sqlkeep_db):\n    assert sqlkeep_db.execute('SELECT k FROM p').fetchall() == [(1,), (2,)]\n"
        output, outcomes = in_folder(test, ini="[pytest]\n")
        self.assertEqual(outcomes, {"test_it": "passed"}, output)
        self.assertNotIn("PytestUnknownMarkWarning", output)

    def test_no_schema(self):
        output, outcomes = in_folder("def test_it(sqlkeep_db): pass\n", ini="[pytest]\n")
        self.assertEqual(outcomes, {"test_it": "error"})
        self.assertIn("sqlkeep_db wants a schema: the marker sqlkeep_schema(path), --sqlkeep-schema, or sqlkeep_schema in the ini file", output)

    def test_several_files(self):
        more = "INSERT INTO p VALUES (7);\nCOMMIT;\n"
        mark = "import pytest\n@pytest.mark.sqlkeep_schema('schema.sql', 'more.sql')\n"
        test = "def test_it(sqlkeep_db):\n    assert sqlkeep_db.execute('SELECT k FROM p').fetchall() == [(1,), (2,), (7,)]\n"
        for test, ini, words in [
            (mark + test, "[pytest]\n", ()), (test, "[pytest]\nsqlkeep_schema =\n    schema.sql\n    more.sql\n", ()),
            (test, "[pytest]\nsqlkeep_schema = nothing.sql\n", ("--sqlkeep-schema", "schema.sql", "--sqlkeep-schema=more.sql")),
        ]:
            output, outcomes = in_folder(test, ini=ini, words=words, more=more)
            self.assertEqual(outcomes, {"test_it": "passed"}, output)

    def test_a_marker_without_a_file(self):
        for given in ("", "()", "(path='schema.sql')"):
            output, outcomes = in_folder(f"import pytest\n@pytest.mark.sqlkeep_schema{given}\ndef test_it(sqlkeep_db): pass\n")
            self.assertEqual(outcomes, {"test_it": "error"})
            self.assertIn("the marker sqlkeep_schema names the files of the schema: @pytest.mark.sqlkeep_schema('schema.sql')", output)

    def test_a_wrong_schema_is_told_in_three_lines(self):
        output, outcomes = in_folder("def test_it(sqlkeep_db): pass\n", schema="CREATE TABLE t (a INT);\n\nINSERT INTO u\n  VALUES (1);\n")
        head, tail = "sqlkeep_db can't be made of ", "schema.sql, line 3:\n  INSERT INTO u ..\nstatement 2: Unknown: table U isn't there\n"
        self.assertRegex(output, f"(?m)^_+ ERROR at setup of test_it _+\n{head}/.*/{re.escape(tail)}[=-]")
        self.assertEqual(outcomes, {"test_it": "error"})

    def test_a_schema_that_is_wrong(self):
        output, _ = in_folder("def test_it(sqlkeep_db): pass\n", schema="CREATE TABLE t (a INT);\nINSERT INTO u VALUES (1);\n")
        self.assertIn("statement 2: Unknown: table U isn't there", output)
        output, _ = in_folder("def test_it(sqlkeep_db): pass\n", schema="CREATE TABLE t (a INT);\nINSERT u VALUES (1);\n")
        self.assertIn("statement 2: no statement at line 2, column 8: u VALUES (1); (INSERT is followed by INTO)", output)
        output, _ = in_folder("def test_it(sqlkeep_db): pass\n", schema="CREATE TABLE t (a INT CHECK (a > 0) INITIALLY DEFERRED); INSERT INTO t VALUES (0);")
        self.assertIn("CommitRefused of T_C1", output)
        output, _ = in_folder("def test_it(sqlkeep_db): pass\n", ini="[pytest]\nsqlkeep_schema = nothing.sql\n")
        self.assertIn("nothing.sql", output)


@unittest.skipUnless(HAS_PYTEST, "apt-get install python3-pytest")
class Messages(unittest.TestCase):
    HEAD = "from sqlkeep.testing import assert_accepted, assert_refused, assert_touches\ndef test_it(sqlkeep_db):\n    db = sqlkeep_db\n    "
    # A call that fails, and what is shown.
    FAILURES = [
        ("assert_refused(db, 'DELETE FROM p WHERE k = 1', by='F')", "the statement is accepted\n  DELETE FROM p WHERE k = 1\naccount:\n  delete P row 1 (1)\n  F CASCADE on C row 3\n"
         "  F CASCADE on C row 4\n  delete C row 3 (1)\n  delete C row 4 (1)"),
        ("assert_refused(db, 'INSERT INTO c VALUES (9)', by='P_C1', row=5)", "the statement is refused, and not with by='P_C1', row=5\n  INSERT INTO c VALUES (9)\n"
         "Violation of F: C row 5 (9) refers to P (9), which isn't there\naccount:\n  insert C row 5 (9)\n  F: C row 5 (9) refers to P (9), which isn't there"),
        ("assert_refused(db, 'INSERT INTO c VALUES (9)', by='F', row=6)", "and not with by='F', row=6"),
        ("assert_touches(db, 'DELETE FROM p WHERE k = 1', {'P': {'delete': 1}})", "the statement touches {'P': {'delete': 1}, 'C': {'delete': 2}}, and not {'P': {'delete': 1}}\n"
         "  DELETE FROM p WHERE k = 1\naccount:\n  delete P row 1 (1)"),
        ("assert_touches(db, 'DELETE FROM p WHERE k = 7', {'P': {'delete': 1}})", "the statement touches {}, and not {'P': {'delete': 1}}\n  DELETE FROM p WHERE k = 7\naccount: nothing happened"),
        ("assert_touches(db, 'INSERT INTO p VALUES (1)', {})", "the statement is refused\n  INSERT INTO p VALUES (1)\nViolation of P_C1 (PRIMARY KEY (K)): P row 1 (1) has the key of row 5 (1)"),
        ("assert_accepted(db, 'INSERT INTO p VALUES (?)', (1,))", "the statement is refused\n  INSERT INTO p VALUES (?)\nViolation of P_C1"),
        ("db.execute('INSERT INTO p VALUES (1)')", "- the refused statement -"),
        ("assert_refused(db, 'INSERT INTO pp VALUES (1)')", "the statement is refused, and not by the schema; cause='Unknown' is that of this refusal\n  INSERT INTO pp VALUES (1)\nUnknown: table PP isn't there"),
        ("assert_refused(db, 'INSERT INTO p VALUES (1, 2)')", "and not by the schema; cause='WrongShape' is that of this refusal"),
        ("assert_refused(db, 'INSERT INTO c VALUES (9)', by='P_C2')", "ValueError: by='P_C2': the schema has no such constraint or trigger; did you mean P_C1?"),
        ("assert_refused(db, 'INSERT INTO c VALUES (9)', table='cc')", "ValueError: table='cc': the schema has no such table"),
        ("assert_refused(db, 'INSERT INTO c VALUES (9)', trigger='F')", "ValueError: trigger='F': the schema has no such trigger"),
        ("assert_refused(db, 'INSERT INTO c VALUES (9)', cause='Violaton')", "ValueError: there is no cause 'Violaton'; did you mean Violation?"),
        ("assert_refused(db, 'INSERT INTO c VALUES (9)', cause=23)", "ValueError: there is no cause 23"),
        ("assert_refused(db, 'INSERT INTO c VALUES (9)', cause=12)", "the statement is refused, and not with cause='Restrict'"),
        ("assert_refused(db, 'INSERT INTO c VALUES (')", "sqlkeep.ProgrammingError: no statement at line 1"),
        ("db.row_factory2 = 1", "AttributeError: 'Database' object has no attribute 'row_factory2'"),
    ]

    def test_each_shows_the_account(self):
        head, _, body = self.HEAD.partition("\n")
        output, outcomes = in_folder(head + "".join("\n" + body.replace("test_it", f"test_{at}") + call for at, (call, _) in enumerate(self.FAILURES)) + "\n")
        self.assertEqual(outcomes, {f"test_{at}": "failure" for at in range(len(self.FAILURES))}, output)
        shown = "\n".join(line[8:] if line.startswith("E ") else line for line in output.splitlines())
        parts = re.split(r"^_+ test_\d+ _+$", shown, flags=re.M)[1:]
        for (call, wanted), part in zip(self.FAILURES, parts):
            self.assertIn(wanted, part, call)

    def test_what_passes(self):
        calls = [
            "assert_refused(db, 'INSERT INTO c VALUES (9)')", "assert_refused(db, 'INSERT INTO c VALUES (9)', by='f', table='c', cause='Violation')",
            "assert_refused(db, 'SELECT * FROM nothing', cause='Unknown')", "assert_refused(db, 'SELECT * FROM nothing', cause=1)", "assert_refused(db, 'INSERT INTO c VALUES (9)', cause=13)",
            "assert_refused(db, 'ALTER TABLE c ADD CONSTRAINT g CHECK (x > 1)', by='g')", "assert_touches(db, 'DELETE FROM p WHERE k = ?', {'p': {'delete': 1}, 'c': {'delete': 2}}, (1,))",
            "assert assert_accepted(db, 'INSERT INTO p VALUES (3)').touched() == {'P': {'insert': 1}}", "assert_refused(db, 'SET CONSTRAINTS g DEFERRED', cause='Unknown')",
        ]
        output, outcomes = in_folder(self.HEAD + "\n    ".join(calls) + "\n")
        self.assertEqual(outcomes, {"test_it": "passed"}, output)

    def test_any_violation_of_a_commit(self):
        schema = "CREATE TABLE t (a INT CONSTRAINT c CHECK (a > 0) INITIALLY DEFERRED, b INT CONSTRAINT d CHECK (b > 0) INITIALLY DEFERRED);"
        test = self.HEAD + "db.execute('INSERT INTO t VALUES (0, 1), (1, 0)')\n    assert_refused(db, 'COMMIT', by='D', row=2, cause='CommitRefused')\n"
        output, outcomes = in_folder(test, schema=schema)
        self.assertEqual(outcomes, {"test_it": "passed"}, output)
        output, outcomes = in_folder(test.replace("row=2", "row=1"), schema=schema)
        self.assertEqual(outcomes, {"test_it": "failure"}, output)

    def test_the_helpers_are_hidden(self):
        output, _ = in_folder(self.HEAD + "assert_accepted(db, 'INSERT INTO p VALUES (1)')\n")
        self.assertNotIn("outcome = explained", output)


if __name__ == "__main__":
    unittest.main()
