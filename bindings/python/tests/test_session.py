"""The native interface: transcripts of every stored script, outcomes, pending violations, work and the catalogue."""
import os
import shlex
import unittest
from pathlib import Path

import sqlkeep
from sqlkeep import Column, Constraint, StoredRow, TriggerDefinition
from sqlkeep.text import spans

ROOT = Path(os.environ.get("SQLKEEP_ROOT", Path(__file__).resolve().parents[3]))
SCRIPTS = sorted(path for folder in ("examples", "tests/scripts") for path in (ROOT / folder).glob("*.sql"))


def words_of(path):
    """The limits of a script's words; None where it has other words."""
    args = path.with_suffix(".args")
    found = shlex.split(args.read_text()) if args.exists() else []
    pairs = dict(zip(found[::2], found[1::2]))
    are_limits = set(pairs) <= {"--depth", "--changes"} and len(found) % 2 == 0 and all(value.isdigit() for value in pairs.values())
    return {key[2:]: int(value) for key, value in pairs.items()} if are_limits else None


class Scripts(unittest.TestCase):
    def test_run_gives_the_stored_transcripts(self):
        count = 0
        for path in SCRIPTS:
            words, out, account = words_of(path), path.with_suffix(".out"), path.with_suffix(".account")
            if words is None or not out.exists() or not out.read_bytes():
                continue
            for explain, stored in ((False, out), (True, account)):
                if stored.exists():
                    count += 1
                    with self.subTest(path.name, explain=explain):
                        with sqlkeep.Session(**words, explain=explain) as session:
                            self.assertEqual(session.run(path.read_bytes()).transcript.encode(), stored.read_bytes())
        self.assertGreater(count, 200)

    def test_statements_one_by_one_give_the_stored_transcripts(self):
        """The session executes the parts of a script as the program does the whole: so the parts are cut where the engine cuts."""
        count = 0
        for path in SCRIPTS:
            account = path.with_suffix(".account")
            if words_of(path) is None or not account.exists():
                continue
            wanted, text = sqlkeep.parse_transcript(account.read_bytes().decode()), path.read_bytes().decode()
            with self.subTest(path.name), sqlkeep.Session(**words_of(path), explain=True) as session:
                parts = [text[start:end] for start, end in spans(text)][: len(wanted.answers)]
                outcomes = [session.execute(part) for part in parts]
                self.assertEqual([str(outcome.account) for outcome in outcomes], [str(answer.account) for answer in wanted.answers])
                self.assertEqual([outcome.rows for outcome in outcomes], [None if answer.rows is None else list(answer.rows) for answer in wanted.answers])
                self.assertEqual([outcome.count for outcome in outcomes], [answer.count for answer in wanted.answers])
                self.assertEqual([outcome.error and outcome.error.refusal for outcome in outcomes], [answer.refusal for answer in wanted.answers])
                count += 1
        self.assertGreater(count, 20)

    def test_statements_are_cut_where_the_engine_cuts(self):
        for path in SCRIPTS:
            try:
                text = path.read_bytes().decode()
            except UnicodeDecodeError:
                continue
            with self.subTest(path.name), sqlkeep.Session() as session:
                run = session.run(text) if len(text.encode()) <= 1_048_576 else None
                if run is not None and run.fault is None:
                    self.assertEqual(len(spans(text)), run.accepted + run.refused)
                    self.assertEqual(session.parts(text), [text[start:end] for start, end in spans(text)])
                elif run is not None:
                    ends = [end for _, end in spans(text) if len(text[:end].encode()) <= run.fault]
                    self.assertEqual(len(ends), run.accepted + run.refused)

    def test_parameters_are_a_sequence(self):
        session = sqlkeep.Session()
        session.execute("CREATE TABLE t (a INT, b INT)").check()
        self.assertEqual(session.execute("INSERT INTO t VALUES (?, ?)", (number for number in (1, 2))).count, 1)
        for given in ("12", b"12", {1: 2, 3: 4}, 12, None):
            with self.assertRaisesRegex(sqlkeep.ProgrammingError, "the parameters are a sequence"):
                session.execute("INSERT INTO t VALUES (?, ?)", given)

    def test_run_counts(self):
        run = sqlkeep.Session().run("CREATE TABLE t (a INT CHECK (a > 0)); INSERT INTO t VALUES (0); INSERT INTO t VALUES (1); SELEKT")
        self.assertEqual((run.accepted, run.refused, run.memory_refused, run.fault, run.untold), (2, 1, 0, 90, 0))
        self.assertEqual(run.transcript, "1 ok\n2 refused 13 Violation T_C1 row 1\n3 ok 1\n4 fault 90\nend rolled back\n")
        self.assertEqual(run.parsed().answers[1].refusal.constraint, "T_C1")

    def test_run_leaves_the_session(self):
        session = sqlkeep.Session()
        session.execute("CREATE TABLE t (a INT)").check()
        session.run("CREATE TABLE u (a INT);")
        self.assertEqual(list(session.catalogue.tables), ["T"])

    def test_what_cannot_be_run(self):
        session = sqlkeep.Session()
        for script, kind, why in ((b"\xff", sqlkeep.ProgrammingError, "the text isn't UTF-8"), (" " * 1_048_577, sqlkeep.OperationalError, "the script is longer than 1048576 bytes")):
            with self.assertRaises(kind) as caught:
                session.run(script)
            self.assertEqual(str(caught.exception), why)


class Outcomes(unittest.TestCase):
    def setUp(self):
        self.session = sqlkeep.Session()
        self.session.script("CREATE TABLE p (k INT PRIMARY KEY); CREATE TABLE c (x INT CONSTRAINT f REFERENCES p ON DELETE CASCADE INITIALLY DEFERRED);")

    def test_each_kind(self):
        done, changed, rows = (self.session.execute(text) for text in ("COMMIT", "INSERT INTO p VALUES (1), (2)", "SELECT k, k + 1 FROM p"))
        self.assertEqual((done.count, done.rows, done.error), (None, None, None))
        self.assertEqual((changed.count, changed.rows, changed.error), (2, None, None))
        self.assertEqual((rows.count, rows.rows, rows.columns, rows.error), (None, [(1, 2), (2, 3)], ("K", "k + 1"), None))
        self.assertIs(rows.check(), rows)

    def test_a_refusal_is_an_outcome(self):
        outcome = self.session.execute("INSERT INTO p VALUES (NULL)")
        self.assertEqual(str(outcome.error), "Violation of P_C1 (PRIMARY KEY (K)): P row 1 (NULL) has a null in its key")
        self.assertEqual(str(outcome.account), "  insert P row 1 (NULL)\n  P_C1 (PRIMARY KEY (K)): P row 1 (NULL) has a null in its key\n")
        with self.assertRaises(sqlkeep.IntegrityError):
            outcome.check()

    def test_accounts_where_they_are_asked_for(self):
        self.assertFalse(self.session.execute("INSERT INTO p VALUES (1)").account)
        self.session.explain = True
        self.assertEqual(str(self.session.execute("INSERT INTO p VALUES (2)").account), "  insert P row 2 (2)\n")
        self.session.execute("INSERT INTO c VALUES (2), (2)")
        self.assertEqual(self.session.execute("DELETE FROM p WHERE k = 2").account.touched(), {"P": {"delete": 1}, "C": {"delete": 2}})
        self.session.explain = False
        self.assertFalse(self.session.execute("INSERT INTO p VALUES (3)").account)

    def test_script_stops_at_a_refusal(self):
        outcomes = self.session.script("INSERT INTO p VALUES (1); INSERT INTO p VALUES (1); INSERT INTO p VALUES (2);")
        self.assertEqual([(outcome.count, outcome.error and outcome.error.statement) for outcome in outcomes], [(1, None), (None, 2)])

    def test_transactions(self):
        self.session.execute("INSERT INTO p VALUES (1)")
        self.session.execute("SAVEPOINT s")
        self.session.execute("INSERT INTO p VALUES (2)")
        self.assertIsNone(self.session.rollback_to("s").error)
        self.assertEqual(self.session.rollback_to("r").error.cause, 7)
        self.assertEqual((self.session.execute("SELECT k FROM p").rows, self.session.in_transaction), ([(1,)], True))
        self.session.rollback()
        self.assertFalse(self.session.in_transaction)

    def test_pending_and_commit(self):
        self.session.execute("INSERT INTO c VALUES (7), (8)")
        self.assertEqual(self.session.pending(), [sqlkeep.Pending("F", 1), sqlkeep.Pending("F", 2)])
        outcome = self.session.commit()
        self.assertEqual((outcome.error.cause, len(outcome.account.violations), self.session.in_transaction), (19, 2, False))
        self.assertIsNone(self.session.commit().error)

    def test_work(self):
        self.session.execute("INSERT INTO p VALUES (1), (2), (3)")
        self.assertEqual(self.session.work()[:2], (3, 0))
        self.session.execute("INSERT INTO p VALUES (4), (1)")
        self.assertEqual(self.session.work()[:2], (2, 2))
        self.assertGreater(self.session.work().lookups, 0)

    def test_limits(self):
        for words in ({"depth": 0}, {"depth": 65}, {"depth": 257}, {"depth": -1}, {"changes": 0}, {"changes": 65_537}, {"changes": 2**32 + 1}, {"changes": -5}):
            with self.assertRaisesRegex(sqlkeep.ProgrammingError, "^depth is 1 to 64, and changes 1 to 65536$"):
                sqlkeep.Session(**words)

    def test_close(self):
        with sqlkeep.Session() as session:
            pass
        session.close()
        for call in (session.commit, session.rollback, session.pending, session.work, session.dump, lambda: session.execute("COMMIT"), lambda: session.run(""), lambda: session.catalogue):
            with self.assertRaisesRegex(sqlkeep.ProgrammingError, "^the connection is closed$"):
                call()


class StoredRows(unittest.TestCase):
    def test_rows_by_their_numbers(self):
        session, long = sqlkeep.Session(), "é" * 300
        session.execute("CREATE TABLE t (a INT, b VARCHAR(400))").check()
        session.execute("INSERT INTO t VALUES (1, 'x'), (NULL, ?)", (long,)).check()
        self.assertEqual(session.row(2), StoredRow(2, "T", (None, long)))
        session.execute("UPDATE t SET a = -5 WHERE a = 1").check()
        self.assertEqual(session.row(1), StoredRow(1, "T", (-5, "x")))
        session.execute("DELETE FROM t WHERE a = -5").check()
        for number in (1, 3, 0, -1, 2**64, 2**64 + 2):
            self.assertIsNone(session.row(number), number)
        session.execute("ROLLBACK").check()
        self.assertIsNone(session.row(2))


class Dumps(unittest.TestCase):
    def filled(self):
        connection = sqlkeep.connect()
        connection.executescript("""
            CREATE TABLE shelf (number INT PRIMARY KEY);
            CREATE TABLE book (title VARCHAR(20) CHECK (title <> ';'), number INT, FOREIGN KEY (number) REFERENCES shelf);
            INSERT INTO shelf VALUES (1), (2);
            INSERT INTO book VALUES ('it''s; one', 2), ('é', NULL);
            COMMIT;
            CREATE TRIGGER gone AFTER DELETE ON shelf BEGIN ATOMIC DELETE FROM book WHERE number IS NULL; SIGNAL 'no'; END;""")
        return connection

    def test_a_database_that_no_dump_makes_again(self):
        """Its rows need two INSERTs, so the foreign key comes after NOT NULL, and both have generated names that are too long to be written."""
        session, name = sqlkeep.Session(), "n" * 127
        session.execute(f"CREATE TABLE {name} (a INT PRIMARY KEY, b INT REFERENCES {name}, c VARCHAR(4000) NOT NULL)").check()
        session._engine.execute_many(f"INSERT INTO {name} VALUES (?, NULL, ?)", [(number, "x" * 4000) for number in range(400)], 0, 0)
        session.commit()
        with self.assertRaisesRegex(sqlkeep.OperationalError, "^what was written doesn't make the same again$"):
            session.dump()

    def test_a_dump_makes_the_database_again(self):
        first, second = self.filled().session, sqlkeep.Session()
        scripts = first.dump()
        for script in scripts:
            for outcome in second.script(script):
                outcome.check()
        self.assertEqual((second.dump(), second.catalogue), (scripts, first.catalogue))
        for table in first.catalogue.tables:
            self.assertEqual(second.execute(f"SELECT * FROM {table}").rows, first.execute(f"SELECT * FROM {table}").rows)

    def test_statement_by_statement(self):
        first, second = self.filled(), sqlkeep.connect()
        found = list(first.iterdump())
        self.assertTrue(all(each.endswith(";") and not each[0].isspace() for each in found))
        self.assertTrue(found[-1].startswith("CREATE TRIGGER GONE AFTER DELETE ON SHELF"))
        for each in found:
            second.execute(each)
        second.commit()
        self.assertEqual(list(second.iterdump()), found)

    def test_an_empty_database(self):
        self.assertEqual((sqlkeep.Session().dump(), list(sqlkeep.connect().iterdump())), ([""], []))

    def test_inside_a_transaction(self):
        connection = self.filled()
        connection.execute("DELETE FROM book")
        for call in (connection.iterdump, connection.session.dump):
            with self.assertRaisesRegex(sqlkeep.ProgrammingError, "^a transaction is open: commit it or roll it back$"):
                call()
        connection.rollback()
        self.assertEqual(sqlkeep.connect().executescript("".join(connection.iterdump())).connection.execute("SELECT number FROM book").fetchall(), [(2,), (None,)])


class OfTheCatalogue(unittest.TestCase):
    def setUp(self):
        self.session = sqlkeep.Session()
        for outcome in self.session.script("""
            CREATE TABLE shelf (number INT, room VARCHAR(9) DEFAULT 'hall' NOT NULL, PRIMARY KEY (number, room));
            CREATE TABLE book (title CHAR VARYING(20) CONSTRAINT one_title UNIQUE NULLS NOT DISTINCT, number INT DEFAULT -7, room VARCHAR(9), CHECK (number < 9) INITIALLY DEFERRED,
                CONSTRAINT stands FOREIGN KEY (number, room) REFERENCES shelf MATCH FULL ON DELETE CASCADE ON UPDATE SET NULL DEFERRABLE);
            CREATE TRIGGER moved AFTER UPDATE OF room, number ON book REFERENCING OLD AS o FOR EACH ROW BEGIN ATOMIC DELETE FROM shelf WHERE number = 1; DELETE FROM shelf; END;
            CREATE TRIGGER gone BEFORE DELETE ON shelf SIGNAL 'no';"""):
            outcome.check()

    def test_tables(self):
        tables = self.session.catalogue.tables
        self.assertEqual({name: table.columns for name, table in tables.items()}, {
            "SHELF": (Column("NUMBER", "INTEGER"), Column("ROOM", "VARCHAR", 9, "hall")),
            "BOOK": (Column("TITLE", "VARCHAR", 20), Column("NUMBER", "INTEGER", None, -7), Column("ROOM", "VARCHAR", 9)),
        })
        self.assertEqual([str(column) for column in tables["BOOK"].columns], ["TITLE VARCHAR(20)", "NUMBER INTEGER DEFAULT -7", "ROOM VARCHAR(9)"])

    def test_constraints(self):
        self.assertEqual(list(self.session.catalogue.constraints.values()), [
            Constraint("SHELF_C1", "NOT NULL", "SHELF", ("ROOM",)),
            Constraint("SHELF_C2", "PRIMARY KEY", "SHELF", ("NUMBER", "ROOM")),
            Constraint("ONE_TITLE", "UNIQUE", "BOOK", ("TITLE",), nulls_not_distinct=True),
            Constraint("BOOK_C2", "CHECK", "BOOK", deferrable=True, initially_deferred=True, deferred=True, condition="NUMBER < 9"),
            Constraint("STANDS", "FOREIGN KEY", "BOOK", ("NUMBER", "ROOM"), deferrable=True, referenced="SHELF", referenced_columns=("NUMBER", "ROOM"), match_full=True,
                       on_delete="CASCADE", on_update="SET NULL"),
        ])

    def modes(self):
        return {name: each.deferred for name, each in self.session.catalogue.constraints.items() if each.deferrable}

    def test_modes_of_now(self):
        self.assertEqual(self.modes(), {"BOOK_C2": True, "STANDS": False})
        for statement in ("START TRANSACTION", "SET CONSTRAINTS stands DEFERRED", "SET CONSTRAINTS book_c2 IMMEDIATE"):
            self.session.execute(statement).check()
        self.assertEqual(self.modes(), {"BOOK_C2": False, "STANDS": True})
        self.session.execute("COMMIT").check()
        self.assertEqual(self.modes(), {"BOOK_C2": True, "STANDS": False})

    def test_triggers(self):
        moved = TriggerDefinition("MOVED", "BOOK", "AFTER", "UPDATE", True, ("NUMBER", "ROOM"), 2)
        found = self.session.catalogue.triggers
        self.assertEqual((found["MOVED"].name, found["MOVED"].table, found["MOVED"].time, found["MOVED"].event, found["MOVED"].for_each_row, found["MOVED"].statements),
                         (moved.name, moved.table, moved.time, moved.event, moved.for_each_row, moved.statements))
        self.assertEqual(sorted(found["MOVED"].columns), ["NUMBER", "ROOM"])
        self.assertEqual(found["GONE"], TriggerDefinition("GONE", "SHELF", "BEFORE", "DELETE", False, (), 1))
        self.session.execute("DROP TRIGGER moved").check()
        self.assertEqual(list(self.session.catalogue.triggers), ["GONE"])

    def test_of_a_table(self):
        catalogue = self.session.catalogue
        self.assertEqual([each.name for each in catalogue.constraints_of("SHELF")], ["SHELF_C1", "SHELF_C2"])
        self.assertEqual([each.name for each in catalogue.triggers_of("BOOK")], ["MOVED"])


if __name__ == "__main__":
    unittest.main()
