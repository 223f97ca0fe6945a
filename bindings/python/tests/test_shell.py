"""The shell without a terminal: what goes to standard output and to standard error, and the status."""
import io
import json
import os
import re
import subprocess
import sys
import tempfile
import time
import unittest
from pathlib import Path

from sqlkeep.shell.complete import candidates
from sqlkeep.shell.loop import Shell
from sqlkeep.shell.show import as_csv, as_json, as_table, caret, visible, width_of
from sqlkeep import Session


def ran(given, *words, folder=None):
    env = {"PATH": os.environ["PATH"], "HOME": "/nonexistent", "LANG": "C.UTF-8", "PYTHONUTF8": "1"}
    done = subprocess.run([sys.executable, "-m", "sqlkeep", *words], input=given, capture_output=True, text=True, cwd=folder, env=env, timeout=60, check=False)
    return done.stdout, done.stderr, done.returncode


class WithoutTerminal(unittest.TestCase):
    def test_all_accepted(self):
        self.assertEqual(ran("CREATE TABLE t (a INT);\nINSERT INTO t VALUES (1);\n"), ("ok\nok, 1 row inserted\n", "", 0))

    def test_the_last_semicolon_may_be_missing(self):
        self.assertEqual(ran("CREATE TABLE t (a INT);\nSELECT a\nFROM t"), ("ok\nA\n-\n(0 rows)\n", "", 0))

    def test_a_refusal(self):
        self.assertEqual(ran("SELECT * FROM t;\nCOMMIT;\n"), ("ok\n", "Refused: Unknown: table T isn't there\n", 1))

    def test_a_fault(self):
        self.assertEqual(ran("SELEKT;\nCOMMIT;\n"), ("ok\n", "No statement at line 1, column 1: did you mean SELECT?\n  SELEKT;\n  ^\n", 1))

    def test_nothing(self):
        self.assertEqual(ran(""), ("", "", 0))
        self.assertEqual(ran("\n-- a comment\n"), ("", "", 0))

    def test_commands(self):
        self.assertEqual(ran(".mode csv\nCREATE TABLE t (a INT);\nINSERT INTO t VALUES (5);\nSELECT a FROM t;\n.quit\nSELECT a FROM t;\n"), ("A\n5\n", "", 0))
        self.assertEqual(ran(".xyzzy\n"), ("", "there is no command .xyzzy; .help lists them\n", 1))

    def test_timer(self):
        output, errors, status = ran(".timer on\nCOMMIT;\n")
        self.assertRegex(output, r"^ok\n\d\.\d\d\d s\n$")
        self.assertEqual((errors, status), ("", 0))

    def test_a_file(self):
        with tempfile.TemporaryDirectory() as folder:
            Path(folder, "a.sql").write_text("CREATE TABLE t (a INT);\n")
            self.assertEqual(ran("SELECT a FROM t;\n", "a.sql", folder=folder), ("ok\nA\n-\n(0 rows)\n", "", 0))
            self.assertEqual(ran("", "b.sql", folder=folder), ("", "b.sql can't be read: no such file or directory\n", 2))
            Path(folder, "d.sql").write_text("COMMIT;\n  SELECT b\n  FROM u; SELECT *\nFRM t;\n")
            self.assertEqual(ran("", "d.sql", folder=folder), ("ok\n", "Refused at d.sql, line 2: Unknown: table U isn't there\nNo statement at d.sql, line 3, column 11: a SELECT has a FROM\n    FROM u; SELECT *\n            ^\n", 1))
            Path(folder, "c.sql").write_bytes(b"COMMIT; \xff")
            self.assertEqual(ran("", "c.sql", folder=folder), ("", "c.sql can't be read: it isn't UTF-8\n", 2))

    def test_a_statement_of_many_lines(self):
        rows = ",\n".join(f"({number})" for number in range(30_000))
        self.assertEqual(ran(f"CREATE TABLE t (a INT);\nINSERT INTO t VALUES\n{rows};\nSELECT COUNT(*) FROM t;\n")[0], "ok\nok, 30000 rows inserted\nCOUNT\n-----\n30000\n(1 row)\n")

    def test_words(self):
        self.assertEqual(ran("", "--depth", "0")[2], 2)
        self.assertIn("depth is 1 to 64, and changes 1 to 65536", ran("", "--depth", "0")[1])
        self.assertEqual(ran("CREATE TABLE t (a INT);\nINSERT INTO t VALUES (1), (2);\n", "--changes", "2"),
                         ("ok\n", "Refused: TooManyChanges: the statement, with all that follows from it, changes too many rows\n", 1))

    def test_bytes_that_are_no_text(self):
        done = subprocess.run([sys.executable, "-m", "sqlkeep"], input=b"SELECT '\xff';\nCOMMIT;\n", capture_output=True, env={"PATH": os.environ["PATH"], "LANG": "C.UTF-8"}, timeout=60, check=False)
        self.assertEqual((done.stdout, done.stderr, done.returncode), (b"ok\n", b"the text has a surrogate, which UTF-8 can't hold\n", 1))

    def test_nobody_reads(self):
        command = f"yes 'COMMIT;' | head -n 20000 | {sys.executable} -m sqlkeep | head -n 1"
        done = subprocess.run(["sh", "-c", command], capture_output=True, text=True, timeout=60, check=False)
        self.assertEqual((done.stdout, done.stderr), ("ok\n", ""))

    def test_the_stored_example(self):
        """In transcript mode with accounts the shell writes what the program does, except the columns of queries, and what came and went of what is
        pending: .pending shows that."""
        root = Path(os.environ.get("SQLKEEP_ROOT", Path(__file__).resolve().parents[3]))
        for path in sorted((root / "examples").glob("*.account")):
            lines = path.read_text("utf-8").replace("end rolled back\n", "").splitlines(True)
            wanted = "".join(line for line in lines if not line.startswith(("  columns ", "  now pending ", "  no longer pending ")))
            output, _, _ = ran(".mode transcript\n.explain on\n" + path.with_suffix(".sql").read_text("utf-8"))
            self.assertEqual(output, wanted, path.name)


class Saved(unittest.TestCase):
    def test_what_is_saved_leads_to_the_same(self):
        root = Path(os.environ.get("SQLKEEP_ROOT", Path(__file__).resolve().parents[3]))
        for path in sorted((root / "examples").glob("*.sql")):
            with self.subTest(path.name), tempfile.TemporaryDirectory() as folder:
                ran(path.read_text("utf-8") + "\n.save kept.sql\n", folder=folder)
                kept = Path(folder, "kept.sql").read_text("utf-8")
                with Session() as first, Session() as second:
                    for part in first.parts(path.read_text("utf-8")):
                        first.execute(part)
                    for outcome in second.script(kept):
                        outcome.check()
                    tables = list(first.catalogue.tables)
                    self.assertEqual([first.execute(f"SELECT * FROM {table}").rows for table in tables], [second.execute(f"SELECT * FROM {table}").rows for table in tables])
                    self.assertEqual((first.catalogue, first.in_transaction, first.pending()), (second.catalogue, second.in_transaction, second.pending()))


class Showing(unittest.TestCase):
    def test_tables(self):
        self.assertEqual(as_table(["A", "LONG"], [(1, "x"), (None, None)]), ["   A | LONG", "-----+-----", "   1 | x", "NULL | NULL", "(2 rows)"])
        self.assertEqual(as_table(["A"], []), ["A", "-", "(0 rows)"])
        self.assertEqual(as_table(["A"], [(None,)]), ["A", "----", "NULL", "(1 row)"])

    def test_nothing_moves_the_cursor(self):
        self.assertEqual(visible("a\x1b[2Jb\r\n\t\x00\u202e"), "a\\x1b[2Jb\\r\\n\\t\\x00\\u202e")

    def test_nothing_in_a_refusal_moves_it(self):
        given = ".explain on\nCREATE TABLE t (a VARCHAR(20) CHECK (a = 'x'));\nINSERT INTO t VALUES ('\x1b[2Ja\rb');\nSELECT '\x1b' FRM\tt;\n"
        output, errors, _ = ran(given)
        self.assertEqual(output, "ok\n  insert T row 1 ('\\x1b[2Ja\\rb')\n  T_C1 (CHECK): T row 1 ('\\x1b[2Ja\\rb') makes A = 'x' false ('\\x1b[2Ja\\rb' = 'x')\n")
        self.assertEqual(errors, "Refused: Violation of T_C1 (CHECK): T row 1 ('\\x1b[2Ja\\rb') makes A = 'x' false ('\\x1b[2Ja\\rb' = 'x')\nNo statement at line 1, column 1: a SELECT has a FROM\n  SELECT '\\x1b' FRM\tt;\n  ^\n")

    def test_widths(self):
        self.assertEqual([width_of(text) for text in ("abc", "日本", "é", "e\u0301")], [3, 4, 1, 1])

    def test_csv(self):
        self.assertEqual(as_csv(["A", "B"], [(1, 'x,"y"'), (None, ""), (2, "a\nb")]), 'A,B\n1,"x,""y"""\n,""\n2,"a\nb"\n')

    def test_json(self):
        self.assertEqual(as_json(["A", "A"], [(1, "é\n"), (None, "")]), '[{"A": 1, "A:1": "é\\n"},\n {"A": null, "A:1": ""}]\n')
        self.assertEqual(as_json(["A"], []), "[]\n")

    def test_caret(self):
        self.assertEqual(caret("x\n\tab c\n", 5), "  \tab c\n  \t  ^\n")
        self.assertEqual(caret("日本 x", 3), "  日本 x\n       ^\n")
        self.assertEqual(caret("\x1b x", 2), "  \\x1b x\n       ^\n")
        self.assertEqual(caret("x\r\nyz\r\n", 4), "  yz\n   ^\n")
        self.assertEqual(caret("x\ny", 3), "  y\n   ^\n")

    def test_caret_in_a_long_line(self):
        self.assertEqual(caret("a" * 500 + "b" + "c" * 500 + "\n", 500), "  ..." + "a" * 80 + "b" + "c" * 79 + "...\n" + " " * 85 + "^\n")
        self.assertEqual(caret("\n" + "a" * 80 + "b", 81), "  " + "a" * 80 + "b\n" + " " * 82 + "^\n")


class Terminal(io.StringIO):
    """A stream that says it is a terminal."""

    def isatty(self):
        return True


def typed(given, stream=Terminal):
    """What a shell writes to its output and to standard error, and its status."""
    output, errors = stream(), stream()
    status = Shell(Session(), io.StringIO(given), output, errors).run(None)
    return output.getvalue(), errors.getvalue(), status


class OnTerminal(unittest.TestCase):
    HOSTILE = "\x1b[2J\x9b31m\u202e\x7f\r"

    def setUp(self):
        before = dict(os.environ)
        self.addCleanup(lambda: (os.environ.clear(), os.environ.update(before)))
        os.environ.update({"TERM": "xterm", "NO_COLOR": "1"})
        self.given = f"CREATE TABLE t (a VARCHAR(90));\nINSERT INTO t VALUES ('{self.HOSTILE}');\n"

    def test_no_row_moves_the_cursor(self):
        for mode in ("table", "csv", "json", "transcript"):
            output, errors, _ = typed(f".mode {mode}\n{self.given}SELECT a FROM t;\n")
            self.assertEqual(([each for each in output if not each.isprintable() and each != "\n"], errors), ([], ""), mode)
            self.assertIn("\\u202e", output)

    def test_no_complaint_moves_it(self):
        for line in (f".{self.HOSTILE}", f".read {self.HOSTILE}", f".save /nowhere/{self.HOSTILE}", f".schema {self.HOSTILE}", f".mode {self.HOSTILE}", f"SELECT '{self.HOSTILE}' FRM;", "\udcff"):
            _, errors, status = typed(line.replace("\r", "") + "\n")
            self.assertEqual(([each for each in errors if not each.isprintable() and each != "\n"], status), ([], 1), line)

    def test_a_file_gets_what_there_is(self):
        for mode in ("csv", "transcript"):
            self.assertIn(self.HOSTILE, typed(f".mode {mode}\n{self.given}SELECT a FROM t;\n", io.StringIO)[0])
        self.assertEqual(json.loads(typed(f".mode json\n{self.given}SELECT a FROM t;\n", io.StringIO)[0]), [{"A": self.HOSTILE}])

    def test_colours(self):
        os.environ["NO_COLOR"] = ""
        output, errors, _ = typed(self.given + "SELECT a FROM t;\nSELECT b FROM t;\n")
        self.assertEqual(re.findall("\x1b[^m]*m", output), ["\x1b[32m", "\x1b[0m"] * 2 + ["\x1b[1m", "\x1b[0m", "\x1b[2m", "\x1b[0m"])
        self.assertEqual(errors, "\x1b[31mRefused: Unknown: column B isn't there\x1b[0m\n")


class Streams(unittest.TestCase):
    """Standard streams that are closed, full, or of another encoding."""

    def test_each(self):
        for redirected, wanted in [
            ("<&-", ("", "python -m sqlkeep: stdin is closed\n", 2)), (">&-", ("", "python -m sqlkeep: stdout is closed\n", 2)), ("2>&-", ("", "", 2)),
            (">/dev/full", ("", "python -m sqlkeep: no space left on device\n", 2)), (">/dev/full 2>/dev/full", ("", "", 2)),
        ]:
            done = subprocess.run(["sh", "-c", f"exec {sys.executable} -m sqlkeep {redirected}"], input="COMMIT;\n", capture_output=True, text=True, timeout=60, check=False)
            self.assertEqual((done.stdout, done.stderr, done.returncode), wanted, redirected)

    def test_a_character_that_the_other_side_has_not(self):
        env = {"PATH": os.environ["PATH"], "PYTHONIOENCODING": "latin-1", "PYTHONPATH": os.environ.get("PYTHONPATH", "")}
        given = "CREATE TABLE t (a VARCHAR(9));\nINSERT INTO t VALUES ('\xe9');\n.read \u65e5.sql\nSELECT a, '\xe9\u65e5' FROM t;\n"
        done = subprocess.run([sys.executable, "-c", "import sys; from sqlkeep.__main__ import main; sys.stdin.reconfigure(encoding='utf-8'); sys.exit(main([]))"], input=given.encode(), env=env, capture_output=True, timeout=60, check=False)
        self.assertIn("\n\xe9 | \xe9\\u65e5\n(1 row)\n", done.stdout.decode("latin-1"))
        self.assertEqual(done.returncode, 1)


class Long(unittest.TestCase):
    def test_numbers_of_any_length(self):
        """A number that is too long is a fault, and the shell goes on."""
        digits = "9" * 5000
        output, errors, _ = typed(f"SELECT {digits};\nCOMMIT;\n", io.StringIO)
        self.assertEqual((output, errors.split("\n", 1)[0]), ("ok\n", "No statement at line 1, column 8: a name or a number is too long"))

    def test_times(self):
        """Four times as much takes at most six times as long."""
        texts = {
            "a text over lines": lambda count: "CREATE TABLE t (a INT);\nINSERT INTO t VALUES ('\n" + "a;\n" * count + "');\n",
            "a trigger over lines": lambda count: "CREATE TABLE t (a INT);\nCREATE TRIGGER r AFTER INSERT ON t BEGIN ATOMIC\n" + "DELETE FROM t;\n" * count + "END;\n",
            "faults in a line": lambda count: "SELEKT;" * count + "\n",
            "faults in a text": lambda count: "COMMIT; " + "SELEKT\n;" * count + "\n",
            "statements in a line": lambda count: "COMMIT;" * count + "\n",
            "faults in lines": lambda count: "SELEKT;\n" * count,
        }
        for name, text in texts.items():
            times = []
            for given in (text(500), text(2000)):
                began = time.process_time()
                typed(given, io.StringIO)
                times.append(time.process_time() - began)
            self.assertLess(times[1], 6 * max(times[0], 0.02), name)


class Completing(unittest.TestCase):
    def setUp(self):
        self.session = Session()
        self.session.script("CREATE TABLE book (title VARCHAR(9), shelf INT); CREATE TABLE box (a INT CONSTRAINT c_1 CHECK (a > 0) DEFERRABLE); CREATE TRIGGER r AFTER INSERT ON box DELETE FROM book;")

    def test_each(self):
        for line, word, wanted in [
            ("SEL", "SEL", ["SELECT "]), ("sel", "sel", ["select "]), ("SELECT * FROM b", "b", ["book", "box"]), ("SELECT * FROM boo", "boo", ["book "]), ("INSERT INTO BOX", "BOX", ["BOX "]),
            ("SELECT ti", "ti", ["title "]), ("DROP TRIGGER ", "", ["R "]), ("SET CONSTRAINTS c", "c", ["c_1 "]), ("SELECT 'sel", "sel", []), ("SELECT ", "", []),
            (".ta", ".ta", [".tables "]), (".s", ".s", [".save", ".schema"]), (".mode c", "c", ["csv "]), (".explain o", "o", ["on", "off"]), (".schema bo", "bo", ["BOOK", "BOX"]),
            ("SELECT zzz", "zzz", []),
        ]:
            with self.subTest(line):
                self.assertEqual(candidates(self.session, [".save", ".schema", ".tables"], line, word), wanted)


if __name__ == "__main__":
    unittest.main()
