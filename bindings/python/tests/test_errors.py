"""Refusals as exceptions: each of the 22 causes with its class, its text and its attributes, all by hand."""
import copy
import gc
import pickle
import subprocess
import sys
import threading
import unittest

import sqlkeep

# A setting, then the statement that is refused; the class, the number, the name and the whole text.
CAUSES = [
    ("", "SELECT * FROM uu", sqlkeep.ProgrammingError, 1, "Unknown", "Unknown: table UU isn't there"),
    ("CREATE TABLE t (a INT);", "SELECT b.c FROM t AS b", sqlkeep.ProgrammingError, 1, "Unknown", "Unknown: column B.C isn't there"),
    ("CREATE TABLE t (a INT);", "CREATE TABLE t (b INT)", sqlkeep.ProgrammingError, 2, "Duplicate", "Duplicate: table T is there already"),
    ("", "CREATE TABLE t (a INT, b INT, a INT)", sqlkeep.ProgrammingError, 2, "Duplicate", "Duplicate: column A comes twice"),
    ("", "CREATE TABLE t (a INT REFERENCES t)", sqlkeep.ProgrammingError, 3, "SchemaFault", "SchemaFault: constraint T_C1 refers to T, which has no PRIMARY KEY"),
    ("CREATE TABLE t (a INT); INSERT INTO t VALUES (1);", "CREATE TABLE u (a INT)", sqlkeep.ProgrammingError, 4, "InTransaction",
     "InTransaction: tables, constraints and triggers are made and dropped outside a transaction; COMMIT or ROLLBACK first"),
    ("", "RELEASE SAVEPOINT s", sqlkeep.ProgrammingError, 5, "NoTransaction", "NoTransaction: no transaction is open; START TRANSACTION first"),
    ("START TRANSACTION;", "START TRANSACTION", sqlkeep.ProgrammingError, 6, "ActiveTransaction", "ActiveTransaction: a transaction is open already"),
    ("START TRANSACTION;", "RELEASE SAVEPOINT s", sqlkeep.ProgrammingError, 7, "UnknownSavepoint", "UnknownSavepoint: savepoint S isn't there"),
    ("CREATE TABLE t (a INT CONSTRAINT c NOT NULL);", "SET CONSTRAINTS c DEFERRED", sqlkeep.ProgrammingError, 8, "NotDeferrable", "NotDeferrable of C: constraint C is NOT DEFERRABLE"),
    ("CREATE TABLE t (a INT);", "INSERT INTO t VALUES (1, 2)", sqlkeep.ProgrammingError, 9, "WrongShape",
     "WrongShape: tuple 1 has 2 values for 1 column of T"),
    ("CREATE TABLE t (a INT);", "INSERT INTO t VALUES (9223372036854775807 + 1)", sqlkeep.DataError, 10, "NumberOutOfRange", "NumberOutOfRange: A of T: 9223372036854775807 + 1 is out of range"),
    ("CREATE TABLE t (a VARCHAR(3));", "INSERT INTO t VALUES ('four')", sqlkeep.DataError, 11, "TextTooLong", "TextTooLong: A of T is VARCHAR(3), and the text has 4 characters"),
    ("CREATE TABLE p (k INT PRIMARY KEY); CREATE TABLE c (x INT CONSTRAINT f REFERENCES p ON DELETE RESTRICT); INSERT INTO p VALUES (1); INSERT INTO c VALUES (1);",
     "DELETE FROM p", sqlkeep.IntegrityError, 12, "Restrict", "Restrict of F: C row 2 (1) refers to P (1), which RESTRICT protects"),
    ("CREATE TABLE t (a INT CONSTRAINT positive CHECK (a > 0));", "INSERT INTO t VALUES (0)", sqlkeep.IntegrityError, 13, "Violation",
     "Violation of POSITIVE: T row 1 (0) makes A > 0 false (0 > 0)"),
    ("CREATE TABLE t (a INT, b VARCHAR(9) NOT NULL);", "INSERT INTO t VALUES (7, NULL)", sqlkeep.IntegrityError, 13, "Violation", "Violation of T_C1 (NOT NULL B): T row 1 (7, NULL) has NULL in B"),
    ("CREATE TABLE t (a INT UNIQUE); INSERT INTO t VALUES (7);", "INSERT INTO t VALUES (7)", sqlkeep.IntegrityError, 13, "Violation",
     "Violation of T_C1 (UNIQUE (A)): T row 1 (7) has the key of row 2 (7)"),
    ("CREATE TABLE t (a INT PRIMARY KEY);", "INSERT INTO t VALUES (NULL)", sqlkeep.IntegrityError, 13, "Violation", "Violation of T_C1 (PRIMARY KEY (A)): T row 1 (NULL) has a null in its key"),
    ("CREATE TABLE t (a INT CHECK (a > 0)); CREATE TABLE u (a INT); CREATE TRIGGER r AFTER INSERT ON u INSERT INTO t VALUES (0);",
     "INSERT INTO u VALUES (5)", sqlkeep.IntegrityError, 13, "Violation", "Violation of T_C1 (CHECK): T row 2 (0) makes A > 0 false (0 > 0), in trigger R"),
    ("CREATE TABLE p (k INT UNIQUE, l INT UNIQUE); CREATE TABLE c (x INT, CONSTRAINT f FOREIGN KEY (x) REFERENCES p (k) ON UPDATE SET NULL,"
     " CONSTRAINT g FOREIGN KEY (x) REFERENCES p (l) ON UPDATE CASCADE); INSERT INTO p VALUES (5, 5); INSERT INTO c VALUES (5);",
     "UPDATE p SET k = 6, l = 7", sqlkeep.IntegrityError, 14, "ActionConflict", "ActionConflict of G: C row 2 (5) refers to P (5), and F sets X to NULL, where G sets it to 7"),
    ("CREATE TABLE t (a INT); CREATE TRIGGER guard BEFORE DELETE ON t SIGNAL 'it''s kept';", "DELETE FROM t", sqlkeep.IntegrityError, 15, "Signal", "Signal of GUARD: it's kept"),
    ("CREATE TABLE t (a INT); CREATE TRIGGER again AFTER INSERT ON t INSERT INTO t VALUES (1);", "INSERT INTO t VALUES (0)", sqlkeep.OperationalError, 16, "DepthLimit",
     "DepthLimit of AGAIN: depth 17, and 16 is the most: AGAIN statement 1, AGAIN statement 1, AGAIN statement 1, .., AGAIN statement 1"),
    ("CREATE TABLE t (a INT CONSTRAINT positive CHECK (a > 0) INITIALLY DEFERRED); INSERT INTO t VALUES (0);", "COMMIT", sqlkeep.IntegrityError, 19, "CommitRefused",
     "CommitRefused of POSITIVE: T row 1 (0) makes A > 0 false (0 > 0); the transaction is rolled back"),
    ("CREATE TABLE t (a INT); INSERT INTO t VALUES (0); COMMIT;", "ALTER TABLE t ADD CHECK (a > 0)", sqlkeep.IntegrityError, 20, "AddRefused",
     "AddRefused of T_C1 (CHECK): T row 1 (0) makes A > 0 false (0 > 0)"),
    ("", "CREATE TABLE t (a VARCHAR(4097))", sqlkeep.OperationalError, 21, "Limit", "Limit: column A is a VARCHAR(4097), and 4096 is the most"),
]

BOOKS = """
CREATE TABLE author (name VARCHAR(20) PRIMARY KEY);
CREATE TABLE book (title VARCHAR(30) PRIMARY KEY, author VARCHAR(20) CONSTRAINT written_by REFERENCES author INITIALLY DEFERRED);
"""


def refusal(call, *words):
    """The error that a call raises."""
    try:
        call(*words)
    except sqlkeep.Error as error:
        return error
    raise AssertionError("nothing is raised")


class Causes(unittest.TestCase):
    def test_each(self):
        for setting, text, kind, number, name, wanted in CAUSES:
            with self.subTest(name, text=text):
                connection = sqlkeep.connect()
                connection.executescript(setting)
                error = refusal(connection.execute, text)
                self.assertEqual((type(error), error.cause, error.cause_name, str(error)), (kind, number, name, wanted))

    def test_too_many_changes(self):
        connection = sqlkeep.connect(changes=4)
        connection.execute("CREATE TABLE t (a INT)")
        error = refusal(connection.execute, "INSERT INTO t VALUES (1), (2), (3), (4)")
        self.assertEqual((type(error), str(error)), (sqlkeep.OperationalError, "TooManyChanges: the statement, with all that follows from it, changes too many rows"))

    def test_transaction_too_large(self):
        connection = sqlkeep.connect()
        connection.execute("CREATE TABLE t (a INT)")
        connection.execute("INSERT INTO t VALUES (1)")
        for _ in range(15):
            connection.execute("INSERT INTO t SELECT * FROM t")
        for _ in range(31):
            connection.execute("UPDATE t SET a = a")
        error = refusal(connection.execute, "INSERT INTO t VALUES (2)")
        self.assertEqual((type(error), str(error)), (sqlkeep.OperationalError, "TransactionTooLarge: the transaction has too many row changes; COMMIT in between"))

    def test_all_but_memory_are_here(self):
        self.assertEqual({each[3] for each in CAUSES} | {17, 18}, set(range(1, 22)))


class Attributes(unittest.TestCase):
    def setUp(self):
        self.connection = sqlkeep.connect()
        self.connection.executescript(BOOKS)

    def test_a_refused_commit_has_all_violations(self):
        self.connection.execute("INSERT INTO book VALUES ('Dracula', 'Stoker'), ('Emma', 'Austen')")
        error = refusal(self.connection.commit)
        self.assertEqual(str(error), "CommitRefused of WRITTEN_BY: BOOK row 1 ('Dracula', 'Stoker') refers to AUTHOR ('Stoker'), which isn't there, and 1 more violation;"
                         " the transaction is rolled back")
        self.assertEqual((error.constraint, error.table, error.row, error.trigger, error.signal), ("WRITTEN_BY", "BOOK", 1, None, None))
        self.assertEqual([(each.constraint, each.row, each.values, each.key) for each in error.violations],
                         [("WRITTEN_BY", 1, ("Dracula", "Stoker"), ("Stoker",)), ("WRITTEN_BY", 2, ("Emma", "Austen"), ("Austen",))])
        self.assertFalse(self.connection.in_transaction)

    def test_commit_as_a_statement_too(self):
        for text in ("COMMIT", "commit work;", "-- now\n COMMIT"):
            self.connection.execute("INSERT INTO book VALUES ('Dracula', 'Stoker')")
            self.assertEqual(len(refusal(self.connection.execute, text).violations), 1)

    def test_a_name(self):
        error = refusal(self.connection.execute, "SELECT titel FROM book")
        self.assertEqual((error.name, error.constraint, error.row, error.table, error.violations), ("TITEL", None, None, None, []))

    def test_a_trigger(self):
        self.connection.executescript("CREATE TABLE kept (a INT); CREATE TRIGGER guard BEFORE DELETE ON kept FOR EACH ROW SIGNAL 'rows stay'; INSERT INTO kept VALUES (4);")
        error = refusal(self.connection.execute, "DELETE FROM kept")
        self.assertEqual((error.trigger, error.signal, error.constraint), ("GUARD", "rows stay", None))
        self.assertEqual(str(error.account), "  trigger GUARD OLD (4)\n")

    def test_a_signal_over_two_lines(self):
        self.connection.executescript("CREATE TRIGGER guard BEFORE INSERT ON author SIGNAL 'it''s\n13 refused\n  here';")
        error = refusal(self.connection.execute, "INSERT INTO author VALUES ('x')")
        self.assertEqual((error.signal, str(error)), ("it's\n13 refused\n  here", "Signal of GUARD: it's\n13 refused\n  here"))

    def test_a_place_in_a_script(self):
        error = refusal(self.connection.executescript, "INSERT INTO author VALUES ('a');\nINSERT INTO author VALUES ('b'); INSERT INTO author VALUES ('a')")
        self.assertEqual((error.statement, str(error)), (3, "statement 3: Violation of AUTHOR_C1 (PRIMARY KEY (NAME)): AUTHOR row 1 ('a') has the key of row 3 ('a')"))

    def test_a_place_in_executemany(self):
        error = refusal(self.connection.executemany, "INSERT INTO author VALUES (?)", [(str(number),) for number in range(200)] + [("7",)])
        self.assertEqual((error.statement, str(error)), (201, "statement 201: Violation of AUTHOR_C1 (PRIMARY KEY (NAME)): AUTHOR row 8 ('7') has the key of row 201 ('7')"))

    def test_a_place_in_executemany_of_a_generator(self):
        error = refusal(self.connection.executemany, "INSERT INTO author VALUES (?)", ((name,) for name in "abca"))
        self.assertEqual(error.statement, 4)

    def test_a_parameter_in_executemany(self):
        error = refusal(self.connection.executemany, "INSERT INTO author VALUES (?)", [(str(number),) for number in range(99)] + [(1.5,)])
        self.assertEqual(str(error), "statement 100: parameter 1 is of type float; a value is an int, a str or None")
        self.assertEqual(self.connection.execute("SELECT COUNT(*) FROM author").fetchone(), (99,))

    def test_lines_are_those_of_the_program(self):
        self.connection.execute("INSERT INTO author VALUES ('a')")
        error = refusal(self.connection.execute, "INSERT INTO author VALUES ('a')")
        self.assertEqual(error.lines, "1 refused 13 Violation AUTHOR_C1 row 1\n  insert AUTHOR row 2 ('a')\n  AUTHOR_C1 (PRIMARY KEY (NAME)): AUTHOR row 1 ('a') has the key of row 2 ('a')\n")

    def test_other_errors_have_none_of_it(self):
        error = refusal(self.connection.execute, "SELECT * FROM author WHERE name = ?", (1.5,))
        self.assertEqual((error.cause, error.cause_name, error.constraint, error.row, error.table, error.violations, error.account, error.lines), (None, None, None, None, None, [], None, ""))


class Faults(unittest.TestCase):
    def test_each(self):
        connection = sqlkeep.connect()
        connection.execute("CREATE TABLE t (a INT)")
        for text, line, column, wanted in [
            ("SELEKT * FROM t", 1, 1, "SELEKT * FROM t (did you mean SELECT?)"),
            ("\n\n  SELECT a b c FROM t", 3, 12, "b c FROM t"),
            ("SELECT * FROM t WHERE a = \"x\"", 1, 27, "\"x\" (a text is written between single quotes)"),
            ("SELECT * FROM t\nWHERE a = 'x", 2, 11, "'x (a text doesn't end)"),
            ("SELECT a / 2 FROM t", 1, 10, "/ 2 FROM t (no word begins so)"),
            ("INSERT INTO t VALUES (9223372036854775808)", 1, 23, "9223372036854775808) (a name or a number is too long)"),
            (";;", 1, 1, ";; (there is no statement before the semicolon)"),
            ("SELECT * FROM t; SELEKT", 1, 18, "SELEKT (did you mean SELECT?)"),
            ("SELECT 1", 1, 1, "SELECT 1 (a SELECT has a FROM)"),
            ("SELECT a FROM t ORDER BY a", 1, 17, "ORDER BY a (there is no ORDER BY)"),
            ("SELECT a, FROM t", 1, 9, ", FROM t (there is a comma too many)"),
            ("SELECT (a FROM t", 1, 8, "(a FROM t (this parenthesis isn't closed)"),
            ("INSERT INTO t VALUES 1", 1, 22, "1 (each row of values is in parentheses)"),
            ("INSERT t VALUES (1)", 1, 8, "t VALUES (1) (INSERT is followed by INTO)"),
            ("CREATE TABLE u (key INT)", 1, 17, "key INT) (KEY is a keyword, and no name)"),
            ("CREATE TABLE u (a TEXT)", 1, 19, "TEXT) (there is no type TEXT; write VARCHAR(100))"),
            ("CREATE TABLE u (a VARCHAR)", 1, 19, "VARCHAR) (a VARCHAR has a length: VARCHAR(100))"),
            ("CREATE TABLE u (a INT NOT NULL DEFAULT 1)", 1, 32, "DEFAULT 1) (DEFAULT comes before the constraints)"),
            ("DROP TABLE t", 1, 6, "TABLE t (only triggers are dropped)"),
            ("DELETE t", 1, 8, "t (DELETE is followed by FROM)"),
            ("BEGIN", 1, 1, "BEGIN (a transaction begins with START TRANSACTION)"),
            ("PRAGMA foreign_keys = ON", 1, 1, "PRAGMA foreign_keys = ON (no statement begins so)"),
        ]:
            with self.subTest(text):
                error = refusal(connection.execute, text)
                self.assertEqual((type(error), error.line, error.column, str(error)), (sqlkeep.ProgrammingError, line, column, f"no statement at line {line}, column {column}: {wanted}"))

    def test_with_parameters(self):
        connection = sqlkeep.connect()
        error = refusal(connection.execute, "SELECT * FROM t WHERE a = ? ANT b = ?", ("a long, long text", 5))
        self.assertEqual((error.line, error.column, error.word), (1, 29, "ANT"))
        error = refusal(connection.execute, "DELETE FROM t WHERE a = ?;\n DELET FROM t WHERE a = ?", ("a long, long text", 5))
        self.assertEqual((error.line, error.column), (2, 2))

    def test_the_wrong_word(self):
        connection = sqlkeep.connect()
        for text, column, word in [("SELECT a b c FROM t", 10, "b"), ("SELECT a FORM t", 1, "FORM"), ("SELECT a FROM t WHERE", 22, ""), ("DELETE FROM t WHERE a = 'x' b", 29, "b")]:
            with self.subTest(text):
                error = refusal(connection.execute, text)
                self.assertEqual((error.line, error.column, error.word), (1, column, word))
        self.assertIsNone(refusal(connection.execute, "SELECT a FROM t").word)

    def test_in_a_script_nothing_is_executed(self):
        connection = sqlkeep.connect()
        error = refusal(connection.executescript, "CREATE TABLE t (a INT);\nINSERT INTO t VALUES 1;\nCOMMIT;")
        self.assertEqual((error.statement, error.line, error.column, str(error)), (2, 2, 22, "statement 2: no statement at line 2, column 22: 1; (each row of values is in parentheses)"))
        self.assertEqual(refusal(connection.execute, "SELECT * FROM t").name, "T")

    def test_a_column_is_a_character(self):
        error = refusal(sqlkeep.connect().execute, "SELECT 'häßlich' FROM t WHERE ß = 1")
        self.assertEqual((error.line, error.column), (1, 31))


class Telling(unittest.TestCase):
    """An error asks its session for the account when it is read, or the session tells it before its next call."""

    def setUp(self):
        self.connection = sqlkeep.connect()
        self.connection.executescript("CREATE TABLE t (a INT PRIMARY KEY, b INT CHECK (b > 0)); INSERT INTO t VALUES (1, 1); COMMIT;")
        self.wanted = "Violation of T_C1 (PRIMARY KEY (A)): T row 1 (1, 1) has the key of row 2 (1, 5)"

    def refused(self):
        return refusal(self.connection.execute, "INSERT INTO t VALUES (?, ?)", (1, 5))

    def test_read_at_once(self):
        self.assertEqual(str(self.refused()), self.wanted)

    def test_read_after_other_calls(self):
        for call in (
            lambda c: c.execute("DELETE FROM t"), lambda c: c.execute("SELECT * FROM t"), lambda c: c.executescript("COMMIT; CREATE TABLE u (a INT)"),
            lambda c: c.executemany("INSERT INTO t VALUES (?, 1)", [(2,), (3,)]), lambda c: c.commit(), lambda c: c.rollback(), lambda c: c.close(),
            lambda c: c.pending(), lambda c: c.session.run("COMMIT;"), lambda c: c.session.catalogue, lambda c: refusal(c.execute, "INSERT INTO t VALUES (1, 9)"),
            lambda c: refusal(c.execute, "SELEKT"), lambda c: c.session.execute("COMMIT"), lambda c: setattr(c.session, "explain", True),
        ):
            self.setUp()
            error = self.refused()
            call(self.connection)
            self.assertEqual(str(error), self.wanted)

    def test_read_when_the_connection_is_gone(self):
        error = self.refused()
        self.connection = None
        gc.collect()
        self.assertEqual(str(error), self.wanted)

    def test_several_errors_are_kept(self):
        kept = [self.refused(), refusal(self.connection.execute, "INSERT INTO t VALUES (2, 0)"), refusal(self.connection.execute, "SELECT * FROM uu")]
        self.assertEqual([str(error) for error in kept], [self.wanted, "Violation of T_C2 (CHECK): T row 2 (2, 0) makes B > 0 false (0 > 0)", "Unknown: table UU isn't there"])

    def test_work_is_that_of_the_statement(self):
        session = sqlkeep.Session()
        session.script("CREATE TABLE t (a INT PRIMARY KEY); INSERT INTO t VALUES (1);").pop().check()
        outcome = session.execute("INSERT INTO t VALUES (2), (1)")
        before = session.work()
        self.assertIn("T_C1", str(outcome.error))
        self.assertEqual((session.work(), before[:2]), (before, (2, 2)))

    def test_nothing_is_changed_by_telling(self):
        error = self.refused()
        str(error)
        self.connection.execute("INSERT INTO t VALUES (2, 2)")
        self.assertEqual(self.connection.execute("SELECT * FROM t").fetchall(), [(1, 1), (2, 2)])
        again = refusal(self.connection.execute, "INSERT INTO t VALUES (2, 3)")
        self.assertEqual(str(again), "Violation of T_C1 (PRIMARY KEY (A)): T row 2 (2, 2) has the key of row 3 (2, 3)")

    def test_a_commit_is_never_executed_again(self):
        """The engine knows by the cause that COMMIT has rolled back, also where nobody has said that the statement is one."""
        connection = sqlkeep.connect()
        connection.execute("CREATE TABLE t (a INT CONSTRAINT c CHECK (a > 0) INITIALLY DEFERRED)")
        connection.execute("INSERT INTO t VALUES (0)")
        error = refusal(connection._engine.execute, "COMMIT", (), False)
        connection.execute("INSERT INTO t VALUES (1)")
        self.assertEqual((error.cause, error.constraint, error.row, error.violations, connection.in_transaction), (19, "C", 1, [], True))

    def test_pickle_and_copy(self):
        for make in (lambda error: pickle.loads(pickle.dumps(error)), copy.copy, copy.deepcopy):
            error = make(self.refused())
            self.assertEqual((type(error), str(error), error.constraint, error.row, error.table, error.violations[0].other_row), (sqlkeep.IntegrityError, self.wanted, "T_C1", 1, "T", 2))

    def test_pickle_of_others(self):
        for text in ("SELEKT", "SELECT * FROM uu", "DELETE FROM t; DELETE FROM t"):
            error = refusal(self.connection.execute, text)
            again = pickle.loads(pickle.dumps(error))
            self.assertEqual((type(again), str(again), again.line, again.column), (type(error), str(error), error.line, error.column))

    def test_on_a_thread_it_is_told_at_once(self):
        kept = []

        def work():
            connection = sqlkeep.connect()
            connection.execute("CREATE TABLE t (a INT CHECK (a > 0))")
            kept.append(refusal(connection.execute, "INSERT INTO t VALUES (0)"))

        thread = threading.Thread(target=work)
        thread.start()
        thread.join()
        self.assertEqual(str(kept[0]), "Violation of T_C1 (CHECK): T row 1 (0) makes A > 0 false (0 > 0)")

    def test_another_thread_cannot_ask(self):
        error, texts = self.refused(), []
        thread = threading.Thread(target=lambda: texts.append(str(error)))
        thread.start()
        thread.join()
        self.assertEqual(texts, ["Violation: row 1: a constraint is violated"])
        self.assertEqual(str(error), self.wanted)

    def test_without_accounts(self):
        connection = sqlkeep.connect(accounts=False)
        connection.execute("CREATE TABLE t (a INT CHECK (a > 0))")
        error = refusal(connection.execute, "INSERT INTO t VALUES (0)")
        self.assertEqual((error.constraint, error.row, error.table, str(error)), ("T_C1", 1, None, "Violation of T_C1: row 1: a constraint is violated"))


class Shown(unittest.TestCase):
    """repr() and args say what str() does."""

    def test_a_refusal(self):
        connection = sqlkeep.connect()
        connection.execute("CREATE TABLE t (a INT CHECK (a > 0))")
        for error in (refusal(connection.execute, "INSERT INTO t VALUES (0)"), pickle.loads(pickle.dumps(refusal(connection.execute, "INSERT INTO t VALUES (0)")))):
            wanted = "Violation of T_C1 (CHECK): T row 1 (0) makes A > 0 false (0 > 0)"
            self.assertEqual((repr(error), error.args, "%r" % error), (f"IntegrityError('{wanted}')", (wanted,), f"IntegrityError('{wanted}')"))

    def test_others(self):
        connection = sqlkeep.connect()
        error = refusal(connection.executescript, "COMMIT; SELEKT;")
        wanted = "statement 2: no statement at line 1, column 9: SELEKT; (did you mean SELECT?)"
        self.assertEqual((str(error), error.args, error.reason), (wanted, (wanted,), "did you mean SELECT?"))
        again = pickle.loads(pickle.dumps(error))
        self.assertEqual((str(again), again.args, again.reason, again.line, again.column), (wanted, (wanted,), "did you mean SELECT?", 1, 9))
        connection.close()
        self.assertEqual(repr(refusal(connection.commit)), "ProgrammingError('the connection is closed')")

    def test_what_somebody_else_made(self):
        error = sqlkeep.IntegrityError("x", 5)
        self.assertEqual((repr(error), error.args, str(error)), ("IntegrityError('x', 5)", ("x", 5), "('x', 5)"))
        error.args = (7,)
        self.assertEqual((repr(error), error.args, str(error)), ("IntegrityError(7)", (7,), "7"))

    def test_a_long_number_is_a_fault(self):
        session, text = sqlkeep.Session(), f"SELECT {'9' * 5000} FROM t"
        connection = sqlkeep.connect()
        for call in (session.execute, session.script, session.parts, connection.execute, connection.executescript):
            error = refusal(call, text)
            self.assertIsInstance(error, sqlkeep.ProgrammingError)
            self.assertEqual((error.line, error.column, error.reason), (1, 8, "a name or a number is too long"))


class Names(unittest.TestCase):
    def test_in_a_traceback(self):
        done = subprocess.run([sys.executable, "-c", "import sqlkeep; sqlkeep.connect().execute('SELECT * FROM t')"], capture_output=True, text=True, timeout=60, check=False)
        self.assertEqual(done.stderr.splitlines()[-1], "sqlkeep.ProgrammingError: Unknown: table T isn't there")

    def test_lines_that_are_not_known(self):
        """An error always has a text, also where the lines of its account can't be read."""
        error = sqlkeep.IntegrityError()
        error.cause, error._row, error._lines = 13, 5, b"1 refused 13 Violation C row 5\n  something new\n"
        self.assertEqual((str(error), error.row, error.violations, error.lines), ("Violation: row 5: a constraint is violated", 5, [], error._lines.decode()))


class Imported(unittest.TestCase):
    def test_on_another_thread(self):
        """Which thread is the main one doesn't depend on who imports the package."""
        code = (
            "import threading, importlib\nthread = threading.Thread(target=lambda: importlib.import_module('sqlkeep'))\nthread.start(); thread.join()\n"
            "import sqlkeep\nkept = []\ndef work():\n    c = sqlkeep.connect()\n    try: c.execute('SELECT * FROM t')\n    except sqlkeep.Error as error: kept.append(error)\n"
            "thread = threading.Thread(target=work)\nthread.start(); thread.join()\nprint(kept[0])\n"
        )
        done = subprocess.run([sys.executable, "-c", code], capture_output=True, text=True, timeout=60, check=False)
        self.assertEqual((done.stdout, done.stderr), ("Unknown: table T isn't there\n", ""))


class Threads(unittest.TestCase):
    def test_another_thread_is_refused(self):
        connection = sqlkeep.connect()
        cursor, texts = connection.cursor(), []

        def work():
            for call in (lambda: connection.execute("COMMIT"), lambda: cursor.execute("COMMIT"), connection.commit, connection.rollback, connection.cursor, connection.close,
                         lambda: connection.in_transaction, connection.pending, lambda: connection.executescript("COMMIT;")):
                texts.append(str(refusal(call))[:37])

        thread = threading.Thread(target=work)
        thread.start()
        thread.join()
        self.assertEqual(texts, ["the connection was opened on another "] * 9)
        connection.execute("COMMIT")

    def test_each_thread_has_its_own(self):
        counts = []

        def work(rows):
            connection = sqlkeep.connect()
            connection.execute("CREATE TABLE t (a INT PRIMARY KEY)")
            connection.executemany("INSERT INTO t VALUES (?)", [(number,) for number in range(rows)])
            counts.append(connection.execute("SELECT COUNT(*) FROM t").fetchone()[0])

        threads = [threading.Thread(target=work, args=(1000 * number,)) for number in range(1, 9)]
        for thread in threads:
            thread.start()
        for thread in threads:
            thread.join()
        self.assertEqual(sorted(counts), [1000 * number for number in range(1, 9)])

    def test_one_that_ends_elsewhere_is_closed_by_its_thread(self):
        kept = [sqlkeep.connect() for _ in range(50)]
        thread = threading.Thread(target=kept.clear)
        thread.start()
        thread.join()
        self.assertEqual(sqlkeep.connect().execute("COMMIT").rowcount, -1)


if __name__ == "__main__":
    unittest.main()
