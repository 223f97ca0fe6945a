"""Rows of a query that are copied as they are asked for."""
import gc
import threading
import unittest

import sqlkeep

MANY = 5000


def filled():
    connection = sqlkeep.connect()
    connection.execute("CREATE TABLE t (a INT, b VARCHAR(40))")
    connection.cursor().executemany("INSERT INTO t VALUES (?, ?)", [(at, "row " * (at % 9)) for at in range(MANY)])
    return connection


def wanted(at):
    return (at, "row " * (at % 9))


class Results(unittest.TestCase):
    def test_rows_stay_when_other_statements_follow(self):
        connection = filled()
        first = connection.execute("SELECT * FROM t")
        self.assertEqual((first.rowcount, first.fetchone(), first.fetchmany(2)), (MANY, wanted(0), [wanted(1), wanted(2)]))
        second = connection.execute("SELECT a FROM t")
        connection.execute("DELETE FROM t")
        connection.commit()
        self.assertEqual(connection.execute("SELECT COUNT(*) FROM t").fetchall(), [(0,)])
        self.assertEqual(first.fetchall(), [wanted(at) for at in range(3, MANY)])
        self.assertEqual([row[0] for row in second], list(range(MANY)))
        self.assertEqual((first.fetchone(), second.fetchone(), first.description[1][0]), (None, None, "B"))

    def test_long_texts(self):
        connection = sqlkeep.connect()
        connection.execute("CREATE TABLE t (" + ", ".join(f"c{at} VARCHAR(1000)" for at in range(20)) + ")")
        rows = [("é" * 1000 if at == 1200 else str(at),) * 20 for at in range(1500)]
        connection.cursor().executemany("INSERT INTO t VALUES (" + ", ".join("?" * 20) + ")", rows)
        self.assertEqual(connection.execute("SELECT * FROM t").fetchall(), rows)

    def test_rows_are_freed_on_other_threads_too(self):
        connection = filled()
        held = [connection.execute("SELECT * FROM t")]
        held[0].fetchone()
        thread = threading.Thread(target=lambda: (held.clear(), gc.collect()))
        thread.start()
        thread.join()
        # The next session of the thread frees what other threads left to it.
        sqlkeep.connect().close()
        self.assertEqual(connection.execute("SELECT COUNT(*) FROM t").fetchall(), [(MANY,)])

    def test_rows_are_those_of_their_thread(self):
        connection = filled()
        cursor, seen = connection.execute("SELECT * FROM t"), []

        def use():
            try:
                cursor.fetchall()
            except sqlkeep.ProgrammingError as error:
                seen.append(str(error))

        thread = threading.Thread(target=use)
        thread.start()
        thread.join()
        self.assertEqual(len(seen), 1)
        self.assertEqual(len(cursor.fetchall()), MANY)

    def test_a_session_gives_lists(self):
        with sqlkeep.Session() as session:
            session.execute("CREATE TABLE t (a INT)")
            session.execute("INSERT INTO t VALUES " + ", ".join(f"({at})" for at in range(MANY)))
            self.assertEqual(session.execute("SELECT a FROM t").rows, [(at,) for at in range(MANY)])


if __name__ == "__main__":
    unittest.main()
