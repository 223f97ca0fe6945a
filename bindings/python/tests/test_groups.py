"""executemany inserts rows by one statement where nobody can tell: the same values, one by one, lead to the same."""
import random
import unittest

import sqlkeep
from sqlkeep.groups import row_of_values

# Each a schema with a table T of two columns, and whether the rows of an INSERT into it may be inserted by one statement.
SCHEMAS = [
    ("CREATE TABLE t (a INT, b VARCHAR(5))", True),
    ("CREATE TABLE t (a INT PRIMARY KEY, b VARCHAR(5))", True),
    ("CREATE TABLE t (a INT UNIQUE NULLS NOT DISTINCT, b VARCHAR(5) NOT NULL)", True),
    ("CREATE TABLE t (a INT CHECK (a < 60), b VARCHAR(5) UNIQUE)", True),
    ("CREATE TABLE t (a INT CHECK (a < 60) INITIALLY DEFERRED, b VARCHAR(5) UNIQUE INITIALLY DEFERRED)", True),
    ("CREATE TABLE p (k INT PRIMARY KEY); INSERT INTO p VALUES (1), (2), (3), (5), (8), (13), (21); COMMIT; CREATE TABLE t (a INT REFERENCES p, b VARCHAR(5))", True),
    ("CREATE TABLE p (k INT PRIMARY KEY); INSERT INTO p VALUES (1), (2), (3), (5), (8), (13), (21); COMMIT; CREATE TABLE t (a INT REFERENCES p INITIALLY DEFERRED, b VARCHAR(5))", True),
    ("CREATE TABLE t (a INT PRIMARY KEY, b VARCHAR(5)); CREATE TABLE c (x INT REFERENCES t INITIALLY DEFERRED); INSERT INTO t VALUES (99, 'x'); INSERT INTO c VALUES (99); COMMIT", True),
    ("CREATE TABLE t (a INT PRIMARY KEY, b VARCHAR(5)); CREATE TABLE l (x INT); CREATE TRIGGER r AFTER UPDATE ON t INSERT INTO l VALUES (1)", True),
    ("CREATE TABLE t (a INT UNIQUE, b VARCHAR(5), c INT DEFAULT 5 REFERENCES t (a))", False),
    ("CREATE TABLE t (a INT UNIQUE, b VARCHAR(5)); ALTER TABLE t ADD FOREIGN KEY (a) REFERENCES t (a) INITIALLY DEFERRED", False),
    ("CREATE TABLE t (a INT, b VARCHAR(5)); CREATE TABLE l (x INT); CREATE TRIGGER r AFTER INSERT ON t INSERT INTO l VALUES (1)", False),
    ("CREATE TABLE t (a INT, b VARCHAR(5)); CREATE TABLE l (x INT); CREATE TRIGGER r AFTER INSERT ON t REFERENCING NEW AS n FOR EACH ROW INSERT INTO l VALUES (n.a)", False),
    ("CREATE TABLE t (a INT, b VARCHAR(5)); CREATE TRIGGER r BEFORE INSERT ON t REFERENCING NEW AS n FOR EACH ROW WHEN (EXISTS (SELECT * FROM t WHERE t.a = n.a)) SIGNAL 'again'", False),
    ("CREATE TABLE t (a INT, b VARCHAR(5)); CREATE TABLE l (x INT); CREATE TRIGGER r AFTER INSERT ON t REFERENCING NEW TABLE AS n INSERT INTO l SELECT a FROM n", False),
]
TEXTS = ["INSERT INTO t (a, b) VALUES (?, ?)", "insert into T (b, a) values ( -- ;)\n ?, 1 + (? - 1));", "INSERT INTO t (a, b) VALUES (?, ?) -- )", "INSERT INTO t (b, a) VALUES (?, ?);"]


def opened(schema, **words):
    connection = sqlkeep.connect(**words)
    connection.executescript(schema)
    return connection


def values_for(text, rows):
    return [row if "(a, b)" in text else row[::-1] for row in rows]


def one_by_one(connection, text, rows):
    """Executes a statement for each set; the place of the one that is refused, and why."""
    for place, row in enumerate(rows, 1):
        try:
            connection.execute(text, row)
        except sqlkeep.Error as error:
            return f"statement {place}: {error}", error.account and str(error.account)
    return None


def at_once(connection, text, rows):
    try:
        connection.executemany(text, rows)
    except sqlkeep.Error as error:
        return str(error), error.account and str(error.account)
    return None


def state_of(connection):
    """All that can be told of a database: what is pending, the work of the last statement, and the rows with their numbers."""
    session = connection.session
    work, pending = session.work(), session.pending()
    session.explain = True
    rows = [str(session.execute(f"UPDATE {table} SET {columns.columns[0].name} = {columns.columns[0].name}").account) for table, columns in session.catalogue.tables.items()]
    session.explain = False
    return work, pending, rows


def rows_of(chance, count):
    """Rows of which most violate nothing."""
    rows = [(number if chance.random() < 0.97 else chance.choice([None, 61, 5, 99]), f"{number}" if chance.random() < 0.97 else chance.choice([None, "1", "123456", 7])) for number in range(count)]
    if chance.random() < 0.5:
        rows = [(chance.choice([1, 2, 3, 5, 8, None]), text) for _, text in rows]
    return rows


class Same(unittest.TestCase):
    def test_which(self):
        for schema, wanted in SCHEMAS:
            engine = opened(schema)._engine
            for text in TEXTS:
                with self.subTest(schema, text=text):
                    self.assertEqual(row_of_values(text, engine) != (0, 0), wanted)

    def test_rows_are_found(self):
        engine = opened("CREATE TABLE t (a INT, b VARCHAR(5)); CREATE TABLE u (a INT)")._engine
        for text, row in [
            ("INSERT INTO t VALUES (?, ?)", "(?, ?)"), ("INSERT INTO t VALUES (?, 'é)') ;  -- )", "(?, 'é)')"), ("-- é (\nINSERT INTO t (a) VALUES ((?) + (1));", "((?) + (1))"),
            ("INSERT INTO t VALUES (?, ?), (?, ?)", None), ("INSERT INTO t SELECT ?, b FROM t", None), ("INSERT INTO t DEFAULT VALUES", None), ("INSERT INTO nothing VALUES (?)", None),
            ("INSERT INTO t VALUES (?, ?", None), ("INSERT INTO t VALUES (?, ?) x", None), ("INSERT INTO t VALUES (?); COMMIT", None), ("DELETE FROM t WHERE a = ?", None), ("", None),
            ("INSERT INTO t VALUES", None), ("INSERT INTO t VALUES ?", None), ("INSERT INTO u VALUES (?, '\"')", "(?, '\"')"),
        ]:
            with self.subTest(text):
                start, end = row_of_values(text, engine)
                self.assertEqual(text.encode()[start:end].decode() or None, row)

    def test_all_leads_to_the_same(self):
        chance = random.Random(1)
        for schema, _ in SCHEMAS:
            for text in TEXTS:
                for count in (8, 9, 64, 65, 66, 67, 70, 131):
                    rows = values_for(text, rows_of(chance, count))
                    first, second = opened(schema), opened(schema)
                    with self.subTest(schema, text=text, rows=rows):
                        self.assertEqual(at_once(second, text, rows), one_by_one(first, text, rows))
                        self.assertEqual(state_of(second), state_of(first))

    def test_limits(self):
        for changes in (1, 2, 3, 10, 64, 65, 66):
            rows = [(number, "x") for number in range(100)]
            first, second = (opened(SCHEMAS[0][0], changes=changes) for _ in range(2))
            self.assertEqual(at_once(second, TEXTS[0], rows), one_by_one(first, TEXTS[0], rows))
            self.assertEqual(second.execute("SELECT COUNT(*) FROM t").fetchone(), (0 if changes == 1 else 100,))

    def test_the_limit_of_a_transaction(self):
        """1,048,576 row changes: 2 to the power of 15 rows, updated 30 times, leave room for 32,768 more."""
        connection = opened("CREATE TABLE t (a INT, b VARCHAR(5)); CREATE TABLE u (a INT)")
        connection.execute("INSERT INTO u VALUES (1)")
        for _ in range(15):
            connection.execute("INSERT INTO u SELECT * FROM u")
        for _ in range(30):
            connection.execute("UPDATE u SET a = a")
        told, _ = at_once(connection, TEXTS[0], [(number, "x") for number in range(32_770)])
        self.assertEqual(told, "statement 32769: TransactionTooLarge: the transaction has too many row changes; COMMIT in between")
        self.assertEqual(connection.execute("SELECT COUNT(*) FROM t").fetchone(), (32_768,))


if __name__ == "__main__":
    unittest.main()
