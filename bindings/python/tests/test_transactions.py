"""Transactions: when they begin and end, savepoints, and the modes of `autocommit`."""
import unittest

import sqlkeep

SCHEMA = "CREATE TABLE p (k INT PRIMARY KEY); CREATE TABLE c (x INT CONSTRAINT parent REFERENCES p DEFERRABLE INITIALLY DEFERRED, y INT CONSTRAINT small CHECK (y < 9) DEFERRABLE);"


def opened(**words):
    connection = sqlkeep.connect(**words)
    connection.executescript(SCHEMA)
    return connection


def keys(connection):
    return [key for key, in connection.execute("SELECT k FROM p")]


class Default(unittest.TestCase):
    def setUp(self):
        self.connection = opened()

    def test_a_block_that_is_refused_rolls_back(self):
        with self.assertRaisesRegex(sqlkeep.IntegrityError, "^CommitRefused of PARENT"):
            with self.connection:
                self.connection.execute("INSERT INTO p VALUES (1)")
                self.connection.execute("INSERT INTO c VALUES (2, 0)")
        self.assertEqual((keys(self.connection), self.connection.in_transaction), ([], False))

    def test_a_block_raises_what_was_raised(self):
        with self.assertRaises(KeyError):
            with self.connection:
                self.connection.execute("INSERT INTO p VALUES (1)")
                raise KeyError
        self.assertEqual(keys(self.connection), [])

    def test_a_block_in_which_the_connection_is_closed(self):
        with self.assertRaises(KeyError):
            with self.connection:
                self.connection.close()
                raise KeyError

    def test_schema_in_a_transaction(self):
        self.connection.execute("INSERT INTO p VALUES (1)")
        for text in ("CREATE TABLE t (a INT)", "ALTER TABLE p ADD CHECK (k > 0)", "DROP TRIGGER r"):
            with self.assertRaisesRegex(sqlkeep.ProgrammingError, "^InTransaction: .* COMMIT or ROLLBACK first$"):
                self.connection.execute(text)
        self.connection.rollback()
        self.connection.execute("CREATE TABLE t (a INT)")
        self.assertEqual((self.connection.in_transaction, keys(self.connection)), (False, []))

    def test_set_constraints_begins_a_transaction(self):
        self.connection.execute("SET CONSTRAINTS ALL DEFERRED")
        self.assertTrue(self.connection.in_transaction)
        self.connection.execute("INSERT INTO c VALUES (NULL, 10)")
        self.assertEqual(self.connection.pending(), [("SMALL", 1)])

    def test_set_constraints_that_is_refused_begins_none(self):
        with self.assertRaises(sqlkeep.ProgrammingError):
            self.connection.execute("SET CONSTRAINTS nothing DEFERRED")
        self.assertFalse(self.connection.in_transaction)
        with self.assertRaises(sqlkeep.ProgrammingError):
            self.connection.execute("SET CONSTRAINTS nothing DEFERED")
        self.assertFalse(self.connection.in_transaction)

    def test_set_constraints_tells_all(self):
        self.connection.execute("INSERT INTO c VALUES (1, 0), (2, 0)")
        with self.assertRaises(sqlkeep.IntegrityError) as caught:
            self.connection.execute("SET CONSTRAINTS ALL IMMEDIATE")
        self.assertEqual([(each.row, each.key) for each in caught.exception.violations], [(1, (1,)), (2, (2,))])
        self.assertEqual(self.connection.pending(), [("PARENT", 1), ("PARENT", 2)])

    def test_executescript_commits_first(self):
        self.connection.execute("INSERT INTO p VALUES (1)")
        self.connection.executescript("CREATE TABLE t (a INT)")
        self.connection.rollback()
        self.assertEqual(keys(self.connection), [1])

    def test_executescript_that_is_no_script_commits_nothing(self):
        self.connection.execute("INSERT INTO p VALUES (1)")
        with self.assertRaises(sqlkeep.ProgrammingError):
            self.connection.executescript("CREATE TABEL t (a INT)")
        self.connection.rollback()
        self.assertEqual(keys(self.connection), [])

    def test_executescript_after_a_refused_commit_runs_nothing(self):
        self.connection.execute("INSERT INTO c VALUES (1, 0)")
        with self.assertRaisesRegex(sqlkeep.IntegrityError, "^CommitRefused"):
            self.connection.executescript("CREATE TABLE t (a INT)")
        with self.assertRaisesRegex(sqlkeep.ProgrammingError, "T isn't there"):
            self.connection.execute("SELECT * FROM t")

    def test_executescript_keeps_what_came_before_a_refusal(self):
        with self.assertRaises(sqlkeep.IntegrityError):
            self.connection.executescript("INSERT INTO p VALUES (1); INSERT INTO p VALUES (1); INSERT INTO p VALUES (2);")
        self.assertEqual((keys(self.connection), self.connection.in_transaction), ([1], True))

    def test_start_transaction_as_a_statement(self):
        self.connection.execute("START TRANSACTION")
        self.assertTrue(self.connection.in_transaction)
        self.connection.execute("INSERT INTO p VALUES (1)")
        self.connection.execute("ROLLBACK")
        self.assertEqual(keys(self.connection), [])


class Savepoints(unittest.TestCase):
    def setUp(self):
        self.connection = opened()

    def test_one_that_ends_well(self):
        with self.connection.savepoint("s"):
            self.connection.execute("INSERT INTO p VALUES (1)")
        self.assertEqual((keys(self.connection), self.connection.in_transaction), ([1], True))
        with self.assertRaisesRegex(sqlkeep.ProgrammingError, "UnknownSavepoint"):
            self.connection.execute("RELEASE SAVEPOINT s")

    def test_one_that_raises(self):
        self.connection.execute("INSERT INTO p VALUES (1)")
        with self.assertRaises(KeyError):
            with self.connection.savepoint("s"):
                self.connection.execute("INSERT INTO p VALUES (2)")
                raise KeyError
        self.assertEqual((keys(self.connection), self.connection.in_transaction), ([1], True))

    def test_blocks_without_names(self):
        with self.connection.savepoint():
            self.connection.execute("INSERT INTO p VALUES (1)")
            with self.assertRaises(KeyError), self.connection.savepoint():
                self.connection.execute("INSERT INTO p VALUES (2)")
                raise KeyError
            with self.connection.savepoint():
                self.connection.execute("INSERT INTO p VALUES (3)")
        self.assertEqual(keys(self.connection), [1, 3])

    def test_names_are_folded_as_the_engine_does(self):
        """Only the letters from a to z have a capital."""
        session = self.connection.session
        for text in ("START TRANSACTION", "SAVEPOINT ss", "INSERT INTO p VALUES (1)"):
            session.execute(text).check()
        for name in ("\xdf", "\u017f\u017f"):
            self.assertEqual(session.rollback_to(name).error.cause, 7)
        self.assertEqual(keys(self.connection), [1])
        session.rollback_to("sS").check()
        self.assertEqual(keys(self.connection), [])

    def test_one_in_another(self):
        with self.connection.savepoint("outer_one"):
            self.connection.execute("INSERT INTO p VALUES (1)")
            with self.assertRaises(sqlkeep.IntegrityError):
                with self.connection.savepoint("inner_one"):
                    self.connection.execute("INSERT INTO p VALUES (2)")
                    self.connection.execute("INSERT INTO p VALUES (2)")
            self.connection.execute("INSERT INTO p VALUES (3)")
        self.connection.commit()
        self.assertEqual(keys(self.connection), [1, 3])

    def test_one_whose_transaction_is_gone(self):
        with self.assertRaises(sqlkeep.IntegrityError):
            with self.connection.savepoint("s"):
                self.connection.execute("INSERT INTO c VALUES (1, 0)")
                self.connection.commit()
        self.assertFalse(self.connection.in_transaction)

    def test_one_whose_transaction_is_another(self):
        with self.assertRaises(KeyError):
            with self.connection.savepoint("s"):
                self.connection.rollback()
                self.connection.execute("INSERT INTO p VALUES (1)")
                raise KeyError
        self.assertEqual(keys(self.connection), [1])

    def test_names(self):
        for name in ("", "1", "a b", "s; DROP", "SELECT", "é", "a" * 129):
            with self.assertRaisesRegex(sqlkeep.ProgrammingError, "can't be called"):
                self.connection.savepoint(name)


class Autocommit(unittest.TestCase):
    def test_what_it_may_be(self):
        self.assertEqual((opened().autocommit, opened(autocommit=True).autocommit, opened(autocommit=False).autocommit), (sqlkeep.LEGACY_TRANSACTION_CONTROL, True, False))
        for mode in (2, "yes", None):
            with self.assertRaises(sqlkeep.ProgrammingError):
                sqlkeep.connect(autocommit=mode)

    def test_each_statement_is_committed(self):
        connection = opened(autocommit=True)
        connection.execute("INSERT INTO p VALUES (1)")
        self.assertFalse(connection.in_transaction)
        connection.rollback()
        self.assertEqual(keys(connection), [1])

    def test_a_statement_whose_commit_is_refused_leaves_nothing(self):
        connection = opened(autocommit=True)
        with self.assertRaisesRegex(sqlkeep.IntegrityError, "^CommitRefused of PARENT: C row 1 "):
            connection.execute("INSERT INTO c VALUES (1, 0)")
        self.assertEqual((connection.execute("SELECT * FROM c").fetchall(), connection.in_transaction), ([], False))

    def test_each_set_of_executemany_is_committed(self):
        connection = opened(autocommit=True)
        with self.assertRaises(sqlkeep.IntegrityError) as caught:
            connection.executemany("INSERT INTO p VALUES (?)", [(1,), (2,), (1,), (3,)])
        self.assertEqual((keys(connection), connection.in_transaction, caught.exception.statement), ([1, 2], False, 3))

    def test_a_transaction_that_was_begun(self):
        connection = opened(autocommit=True)
        connection.execute("START TRANSACTION")
        connection.execute("INSERT INTO c VALUES (1, 0)")
        connection.execute("INSERT INTO p VALUES (1)")
        self.assertTrue(connection.in_transaction)
        connection.commit()
        self.assertTrue(connection.in_transaction)
        connection.execute("COMMIT")
        self.assertEqual((keys(connection), connection.in_transaction), ([1], False))

    def test_a_savepoint_wants_a_transaction(self):
        connection = opened(autocommit=True)
        with self.assertRaisesRegex(sqlkeep.ProgrammingError, "^NoTransaction"):
            connection.execute("SAVEPOINT s")

    def test_setting_it_commits(self):
        connection = opened()
        connection.execute("INSERT INTO p VALUES (1)")
        connection.autocommit = True
        self.assertFalse(connection.in_transaction)
        connection.autocommit = False
        connection.execute("INSERT INTO p VALUES (2)")
        connection.rollback()
        self.assertEqual(keys(connection), [1])

    def test_setting_it_where_commit_is_refused(self):
        connection = opened()
        connection.execute("INSERT INTO c VALUES (1, 0)")
        with self.assertRaises(sqlkeep.IntegrityError):
            connection.autocommit = True
        self.assertEqual(connection.autocommit, sqlkeep.LEGACY_TRANSACTION_CONTROL)

    def test_false_keeps_the_transaction_before_a_script(self):
        connection = opened(autocommit=False)
        connection.execute("INSERT INTO p VALUES (1)")
        connection.executescript("INSERT INTO p VALUES (2)")
        connection.rollback()
        self.assertEqual(keys(connection), [])


if __name__ == "__main__":
    unittest.main()
