"""PEP 249, point by point, in the order of its text."""
import unittest

import sqlkeep

SCHEMA = "CREATE TABLE author (name VARCHAR(20) PRIMARY KEY, born INT); CREATE TABLE book (title VARCHAR(30), author VARCHAR(20) REFERENCES author);"
AUTHORS = [("Austen", 1775), ("Woolf", 1882), ("Lem", None)]


def filled():
    connection = sqlkeep.connect()
    connection.executescript(SCHEMA)
    connection.executemany("INSERT INTO author VALUES (?, ?)", AUTHORS)
    connection.commit()
    return connection


class Module(unittest.TestCase):
    def test_globals(self):
        self.assertEqual((sqlkeep.apilevel, sqlkeep.threadsafety, sqlkeep.paramstyle), ("2.0", 1, "qmark"))

    def test_connect_gives_a_connection(self):
        self.assertIsInstance(sqlkeep.connect(), sqlkeep.Connection)

    def test_tree_of_exceptions(self):
        wanted = {
            "Warning": Exception, "Error": Exception, "InterfaceError": sqlkeep.Error, "DatabaseError": sqlkeep.Error, "DataError": sqlkeep.DatabaseError,
            "OperationalError": sqlkeep.DatabaseError, "IntegrityError": sqlkeep.DatabaseError, "InternalError": sqlkeep.DatabaseError,
            "ProgrammingError": sqlkeep.DatabaseError, "NotSupportedError": sqlkeep.DatabaseError,
        }
        self.assertEqual({name: getattr(sqlkeep, name).__bases__ for name in wanted}, {name: (base,) for name, base in wanted.items()})

    def test_exceptions_are_attributes_of_connections(self):
        for name in ("Warning", "Error", "InterfaceError", "DatabaseError", "DataError", "OperationalError", "IntegrityError", "InternalError", "ProgrammingError", "NotSupportedError"):
            self.assertIs(getattr(sqlkeep.connect(), name), getattr(sqlkeep, name))


class Connections(unittest.TestCase):
    def test_close_makes_it_unusable(self):
        connection = filled()
        cursor = connection.execute("SELECT name FROM author")
        connection.close()
        for call in (
            connection.cursor, connection.commit, connection.rollback, cursor.fetchone, cursor.fetchall, lambda: cursor.execute("SELECT name FROM author"), lambda: connection.execute("COMMIT"),
        ):
            with self.assertRaisesRegex(sqlkeep.ProgrammingError, "^the connection is closed$"):
                call()

    def test_close_twice(self):
        connection = sqlkeep.connect()
        connection.close()
        connection.close()

    def test_commit_keeps(self):
        connection = filled()
        connection.execute("INSERT INTO author VALUES ('Eco', 1932)")
        connection.commit()
        connection.rollback()
        self.assertEqual(connection.execute("SELECT COUNT(*) FROM author").fetchone(), (4,))

    def test_rollback_takes_back(self):
        connection = filled()
        connection.execute("DELETE FROM author")
        connection.rollback()
        self.assertEqual(connection.execute("SELECT COUNT(*) FROM author").fetchone(), (3,))

    def test_cursor(self):
        self.assertIsInstance(sqlkeep.connect().cursor(), sqlkeep.Cursor)


class Cursors(unittest.TestCase):
    def setUp(self):
        self.connection = filled()
        self.cursor = self.connection.cursor()

    def test_description_before(self):
        self.assertIsNone(self.cursor.description)

    def test_description_of_a_query(self):
        self.cursor.execute("SELECT name, born + 1 FROM author")
        self.assertEqual(self.cursor.description, (("NAME", "VARCHAR", None, None, None, None, None), ("born + 1", "INTEGER", None, None, None, None, None)))

    def test_description_of_all_columns_without_rows(self):
        self.cursor.execute("SELECT * FROM book")
        self.assertEqual([column[:2] for column in self.cursor.description], [("TITLE", "VARCHAR"), ("AUTHOR", "VARCHAR")])

    def test_description_of_a_count(self):
        self.cursor.execute("SELECT COUNT(*) FROM book")
        self.assertEqual([column[:2] for column in self.cursor.description], [("COUNT", "INTEGER")])

    def test_description_of_a_table_with_another_name(self):
        self.cursor.execute("SELECT a.name, 'x', NULL FROM author AS a")
        self.assertEqual([column[:2] for column in self.cursor.description], [("NAME", "VARCHAR"), ("'x'", None), ("NULL", None)])

    def test_description_of_no_query(self):
        self.cursor.execute("SELECT name FROM author")
        self.cursor.execute("DELETE FROM book")
        self.assertIsNone(self.cursor.description)

    def test_type_codes(self):
        self.cursor.execute("SELECT name, born FROM author")
        codes = [column[1] for column in self.cursor.description]
        self.assertEqual([code == kind for code in codes for kind in (sqlkeep.STRING, sqlkeep.NUMBER)], [True, False, False, True])
        self.assertNotEqual(codes[0], sqlkeep.BINARY)

    def test_rowcount(self):
        self.assertEqual(self.cursor.rowcount, -1)
        counts = [self.cursor.execute(text).rowcount for text in (
            "INSERT INTO book VALUES ('Emma', 'Austen'), ('Solaris', 'Lem')", "UPDATE book SET title = 'x' WHERE author = 'Lem'", "SELECT * FROM book",
            "DELETE FROM book", "DELETE FROM book", "COMMIT",
        )]
        self.assertEqual(counts, [2, 1, 2, 2, 0, -1])

    def test_rowcount_of_executemany(self):
        self.cursor.executemany("INSERT INTO book VALUES (?, 'Lem')", [("a",), ("b",), ("c",)])
        self.assertEqual(self.cursor.rowcount, 3)
        self.cursor.executemany("DELETE FROM book WHERE title = ?", [("a",), ("z",)])
        self.assertEqual(self.cursor.rowcount, 1)

    def test_close_makes_it_unusable(self):
        self.cursor.execute("SELECT name FROM author")
        self.cursor.close()
        for call in (self.cursor.fetchone, self.cursor.fetchall, self.cursor.fetchmany, lambda: self.cursor.execute("COMMIT"), lambda: self.cursor.executemany("DELETE FROM book", [])):
            with self.assertRaisesRegex(sqlkeep.ProgrammingError, "^the cursor is closed$"):
                call()

    def test_a_closed_cursor_leaves_others(self):
        other = self.connection.execute("SELECT name FROM author")
        self.cursor.close()
        self.assertEqual(len(other.fetchall()), 3)

    def test_execute_with_parameters(self):
        self.cursor.execute("SELECT born FROM author WHERE name = ? AND born < ?", ("Woolf", 1900))
        self.assertEqual(self.cursor.fetchall(), [(1882,)])

    def test_execute_takes_a_list(self):
        self.assertEqual(self.cursor.execute("SELECT born FROM author WHERE name = ?", ["Woolf"]).fetchall(), [(1882,)])

    def test_executemany_of_nothing(self):
        self.assertEqual(self.cursor.executemany("INSERT INTO book VALUES (?, ?)", []).rowcount, 0)

    def test_executemany_takes_an_iterator(self):
        self.cursor.executemany("INSERT INTO book VALUES (?, 'Lem')", ([str(number)] for number in range(300)))
        self.assertEqual(self.cursor.rowcount, 300)

    def test_executemany_of_a_query(self):
        with self.assertRaises(sqlkeep.ProgrammingError):
            self.cursor.executemany("SELECT * FROM book WHERE title = ?", [("x",)])

    def test_fetchone(self):
        self.cursor.execute("SELECT name FROM author")
        self.assertEqual([self.cursor.fetchone() for _ in range(4)], [("Austen",), ("Woolf",), ("Lem",), None])

    def test_fetchmany(self):
        self.cursor.execute("SELECT name FROM author")
        self.assertEqual([self.cursor.fetchmany(2), self.cursor.fetchmany(2), self.cursor.fetchmany(2)], [[("Austen",), ("Woolf",)], [("Lem",)], []])

    def test_fetchmany_by_arraysize(self):
        self.cursor.execute("SELECT name FROM author")
        self.assertEqual((self.cursor.arraysize, self.cursor.fetchmany()), (1, [("Austen",)]))
        self.cursor.arraysize = 5
        self.assertEqual(self.cursor.fetchmany(), [("Woolf",), ("Lem",)])

    def test_fetchmany_loses_no_row(self):
        self.cursor.execute("SELECT name FROM author")
        self.assertEqual((self.cursor.fetchmany(0), self.cursor.fetchmany(1), self.cursor.fetchone()), ([], [("Austen",)], ("Woolf",)))

    def test_fetchall_gives_the_rest(self):
        self.cursor.execute("SELECT name, born FROM author")
        self.cursor.fetchone()
        self.assertEqual((self.cursor.fetchall(), self.cursor.fetchall()), ([("Woolf", 1882), ("Lem", None)], []))

    def test_fetch_without_a_query(self):
        for text in (None, "DELETE FROM book"):
            if text is not None:
                self.cursor.execute(text)
            for call in (self.cursor.fetchone, self.cursor.fetchmany, self.cursor.fetchall, lambda: list(self.cursor)):
                with self.assertRaisesRegex(sqlkeep.ProgrammingError, "the last statement was no query"):
                    call()

    def test_iteration(self):
        self.assertIs(iter(self.cursor), self.cursor)
        self.cursor.execute("SELECT name FROM author")
        self.assertEqual([name for name, in self.cursor], ["Austen", "Woolf", "Lem"])

    def test_connection_and_lastrowid(self):
        self.assertIs(self.cursor.connection, self.connection)
        self.cursor.execute("INSERT INTO author VALUES ('Eco', 1932)")
        self.assertIsNone(self.cursor.lastrowid)

    def test_sizes_do_nothing(self):
        self.cursor.setinputsizes([10, None])
        self.cursor.setoutputsize(100)
        self.cursor.setoutputsize(100, 0)

    def test_cursors_share_the_transaction(self):
        other = self.connection.cursor()
        self.cursor.execute("INSERT INTO author VALUES ('Eco', 1932)")
        self.assertEqual(other.execute("SELECT COUNT(*) FROM author").fetchone(), (4,))

    def test_rows_stay_when_others_execute(self):
        self.cursor.execute("SELECT name FROM author")
        self.connection.execute("DELETE FROM author")
        self.assertEqual(len(self.cursor.fetchall()), 3)


class Constructors(unittest.TestCase):
    def test_dates_are_texts(self):
        made = (sqlkeep.Date(2026, 1, 31), sqlkeep.Time(9, 30, 0), sqlkeep.Timestamp(2026, 1, 31, 9, 30, 0))
        self.assertEqual(made, ("2026-01-31", "09:30:00", "2026-01-31 09:30:00"))

    def test_ticks_are_those_here(self):
        import time

        here = time.localtime(86_400 * 365)
        self.assertEqual(sqlkeep.TimestampFromTicks(86_400 * 365), f"{sqlkeep.DateFromTicks(86_400 * 365)} {sqlkeep.TimeFromTicks(86_400 * 365)}")
        self.assertEqual(sqlkeep.DateFromTicks(86_400 * 365), f"{here.tm_year:04}-{here.tm_mon:02}-{here.tm_mday:02}")

    def test_there_are_no_bytes(self):
        with self.assertRaises(sqlkeep.NotSupportedError):
            sqlkeep.Binary(b"x")

    def test_null_is_none(self):
        connection = sqlkeep.connect()
        connection.execute("CREATE TABLE t (a INT, b VARCHAR(3))")
        connection.execute("INSERT INTO t VALUES (?, ?)", (None, None))
        self.assertEqual(connection.execute("SELECT * FROM t").fetchall(), [(None, None)])


if __name__ == "__main__":
    unittest.main()
