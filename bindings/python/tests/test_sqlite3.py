"""The same calls with sqlkeep and with Python's sqlite3, side by side: what each answers, or the class of what it raises.

`ALIKE` answers the same. `OTHERWISE` has what differs, with both answers."""
import copy
import sqlite3
import unittest

import sqlkeep

SCHEMA = "CREATE TABLE author (name VARCHAR(20) PRIMARY KEY, born INT CHECK (born > 0)); CREATE TABLE book (title VARCHAR(30) NOT NULL, author VARCHAR(20) REFERENCES author)"


def opened(module):
    connection = module.connect(":memory:")
    if module is sqlite3:
        connection.execute("PRAGMA foreign_keys = ON")
    connection.executescript(SCHEMA)
    connection.executemany("INSERT INTO author VALUES (?, ?)", [("Austen", 1775), ("Woolf", 1882)])
    connection.commit()
    return connection


def in_block(c):
    try:
        with c:
            c.execute("DELETE FROM author")
            raise KeyError("x")
    except KeyError:
        return c.execute("SELECT COUNT(*) FROM author").fetchone()


def steps(c, *texts):
    for text in texts:
        c.execute(text)
    return c


def count(c):
    return c.execute("SELECT COUNT(*) FROM author").fetchone()[0]


def generator_with_fault(c):
    def values():
        yield "a", 1
        yield "b", 2
        raise KeyError("x")

    try:
        c.executemany("INSERT INTO author VALUES (?, ?)", values())
    except KeyError:
        return count(c)


def refused_in_the_middle(c, module):
    try:
        c.executemany("INSERT INTO author VALUES (?, ?)", [("a", 1), ("b", 2), ("a", 3), ("d", 4)])
    except module.IntegrityError:
        return count(c), c.in_transaction


def looking_generator(c):
    seen = []

    def values():
        for name in "abc":
            seen.append(count(c))
            yield name, 1

    c.executemany("INSERT INTO author VALUES (?, ?)", values())
    return seen


def made_by(c, factory, of_cursor=False):
    """A connection, or a cursor of it, with a row factory."""
    c = c.cursor() if of_cursor else c
    c.row_factory = factory
    return c


def raised(call):
    try:
        call()
    except Exception as error:  # pylint: disable=broad-except
        return type(error).__name__


ALIKE = {
    "rows by name": lambda c, m: [(row["name"], row["BORN"], row[0], row[-1], row[0:1], tuple(row), len(row), list(row)) for row in made_by(c, m.Row).execute("SELECT name, born FROM author")],
    "a name that comes twice": lambda c, m: made_by(c, m.Row).execute("SELECT born, name, born FROM author").fetchone()["born"],
    "a name that isn't there": lambda c, m: (raised(lambda: made_by(c, m.Row).execute("SELECT * FROM author").fetchone()["x"]), raised(lambda: made_by(c, m.Row).execute("SELECT * FROM author").fetchone()[9])),
    "names of a row": lambda c, m: [name.lower() for name in made_by(c, m.Row).execute("SELECT name, born FROM author").fetchone().keys()],
    "equal rows": lambda c, m: (lambda one, two: (one == two, hash(one) == hash(two)))(*[made_by(c, m.Row).execute("SELECT name FROM author").fetchone() for _ in range(2)]),
    "rows by a callable": lambda c, m: made_by(c, lambda cursor, row: (len(cursor.description), *row)).execute("SELECT name, born FROM author").fetchall(),
    "a factory of a cursor": lambda c, m: (made_by(c, lambda cursor, row: row[0], True).execute("SELECT born FROM author").fetchmany(2), c.row_factory, c.execute("SELECT born FROM author").fetchone()),
    "a cursor keeps the factory of its beginning": lambda c, m: (lambda cursor: (made_by(c, lambda cursor, row: "x") and None, cursor.execute("SELECT born FROM author").fetchone()))(c.cursor()),
    "a factory that is set between rows": lambda c, m: (lambda k: (k.fetchone(), made_by(k, m.Row, False) and k.fetchone()["name"], k.fetchone()))(c.cursor().execute("SELECT name FROM author")),
    "a factory that raises": lambda c, m: raised(lambda: made_by(c, lambda cursor, row: 1 // 0).execute("SELECT * FROM author").fetchone()),
    "an attribute that there isn't": lambda c, m: raised(lambda: setattr(c, "nonsense", 1)),
    "a copy": lambda c, m: (raised(lambda: copy.copy(c)), raised(lambda: copy.deepcopy(c)), raised(lambda: copy.copy(c.cursor()))),
    "a semicolon alone": lambda c, m: [c.execute(text).fetchall for text in (";", " ; ")] and None,
    "execute gives a cursor": lambda c, m: isinstance(c.execute("SELECT * FROM author"), m.Cursor),
    "rows are tuples": lambda c, m: c.execute("SELECT name, born FROM author").fetchall(),
    "a query without rows": lambda c, m: c.execute("SELECT name FROM author WHERE born = 1").fetchall(),
    "fetchone at the end": lambda c, m: c.execute("SELECT name FROM author WHERE born = 1").fetchone(),
    "fetchmany": lambda c, m: c.execute("SELECT name FROM author").fetchmany(1),
    "fetchmany of more than there are": lambda c, m: c.execute("SELECT name FROM author").fetchmany(9),
    "iteration": lambda c, m: [row for row in c.execute("SELECT name FROM author")],
    "iteration, then the rest": lambda c, m: [next(cursor := c.execute("SELECT name FROM author")), cursor.fetchall()],
    "a parameter": lambda c, m: c.execute("SELECT born FROM author WHERE name = ?", ("Woolf",)).fetchone(),
    "a parameter that is None": lambda c, m: c.execute("INSERT INTO author VALUES (?, ?)", ("x", None)).rowcount,
    "a parameter that is a bool": lambda c, m: [c.execute("INSERT INTO author VALUES (?, ?)", ("x", True)).rowcount, c.execute("SELECT born FROM author WHERE name = 'x'").fetchone()],
    "a question mark in a text": lambda c, m: c.execute("SELECT name FROM author WHERE name = 'who?' OR name = ?", ("Woolf",)).fetchall(),
    "a question mark in a comment": lambda c, m: c.execute("SELECT name FROM author -- who?\nWHERE name = ?", ("Woolf",)).fetchall(),
    "quotes in a parameter": lambda c, m: [c.execute("INSERT INTO author VALUES (?, ?)", ("O'Hara'); --", 1)).rowcount, c.execute("SELECT name FROM author WHERE born = 1").fetchone()],
    "the greatest integer": lambda c, m: [c.execute("INSERT INTO author VALUES ('x', ?)", (2**63 - 1,)).rowcount, c.execute("SELECT born FROM author WHERE name = 'x'").fetchone()],
    "too few parameters": lambda c, m: c.execute("INSERT INTO author VALUES (?, ?)", ("x",)),
    "too many parameters": lambda c, m: c.execute("DELETE FROM author WHERE name = ?", ("x", "y")),
    "no parameters": lambda c, m: c.execute("DELETE FROM author WHERE name = ?"),
    "a list of parameters": lambda c, m: c.execute("DELETE FROM author WHERE name = ?", ["Woolf"]).rowcount,
    "rowcount of an UPDATE": lambda c, m: c.execute("UPDATE author SET born = born + 1").rowcount,
    "rowcount of a DELETE of nothing": lambda c, m: c.execute("DELETE FROM author WHERE born = 1").rowcount,
    "rowcount of CREATE TABLE": lambda c, m: c.execute("CREATE TABLE t (a INT)").rowcount,
    "rowcount of executemany": lambda c, m: c.executemany("INSERT INTO author VALUES (?, 1)", [("a",), ("b",)]).rowcount,
    "executemany of a SELECT": lambda c, m: c.executemany("SELECT name FROM author WHERE name = ?", [("a",)]),
    "executemany of a generator": lambda c, m: c.executemany("INSERT INTO author VALUES (?, ?)", ((str(n), n) for n in range(1, 9))).rowcount,
    "a generator that raises": lambda c, m: generator_with_fault(c),
    "a generator that looks": lambda c, m: looking_generator(c),
    "a refusal in the middle of executemany": refused_in_the_middle,
    "description": lambda c, m: [column[0].upper() for column in c.execute("SELECT name, born FROM author").description],
    "description of no query": lambda c, m: c.execute("DELETE FROM book").description,
    "seven parts of a description": lambda c, m: len(c.execute("SELECT name FROM author").description[0]),
    "arraysize": lambda c, m: c.cursor().arraysize,
    "a key twice": lambda c, m: c.execute("INSERT INTO author VALUES ('Woolf', 1)"),
    "a CHECK": lambda c, m: c.execute("INSERT INTO author VALUES ('x', 0)"),
    "NOT NULL": lambda c, m: c.execute("INSERT INTO book VALUES (NULL, 'Woolf')"),
    "a foreign key": lambda c, m: c.execute("INSERT INTO book VALUES ('x', 'nobody')"),
    "a parent with children": lambda c, m: steps(c, "INSERT INTO book VALUES ('x', 'Woolf')", "DELETE FROM author"),
    "a refusal leaves the transaction": lambda c, m: [refused_in_the_middle(c, m), c.rollback(), count(c)],
    "no transaction at first": lambda c, m: c.in_transaction,
    "a SELECT begins none": lambda c, m: steps(c, "SELECT * FROM author").in_transaction,
    "an INSERT begins one": lambda c, m: steps(c, "INSERT INTO author VALUES ('x', 1)").in_transaction,
    "CREATE TABLE begins none": lambda c, m: steps(c, "CREATE TABLE t (a INT)").in_transaction,
    "a SAVEPOINT begins one": lambda c, m: steps(c, "SAVEPOINT s").in_transaction,
    "commit ends it": lambda c, m: [steps(c, "DELETE FROM book").commit(), c.in_transaction],
    "commit of nothing": lambda c, m: c.commit(),
    "rollback takes back": lambda c, m: [steps(c, "DELETE FROM author").rollback(), count(c)],
    "rollback of nothing": lambda c, m: c.rollback(),
    "COMMIT as a statement": lambda c, m: steps(c, "DELETE FROM author", "COMMIT").in_transaction,
    "ROLLBACK TO SAVEPOINT": lambda c, m: count(steps(c, "SAVEPOINT s", "DELETE FROM author", "ROLLBACK TO SAVEPOINT s")),
    "a block commits": lambda c, m: [c.__enter__() is c, c.execute("DELETE FROM book").rowcount, bool(c.__exit__(None, None, None)), c.in_transaction],
    "a block that raises rolls back": lambda c, m: in_block(c),
    "executescript commits first": lambda c, m: [steps(c, "INSERT INTO author VALUES ('x', 1)").executescript("CREATE TABLE t (a INT);") is not None, c.in_transaction],
    "executescript without the last semicolon": lambda c, m: [c.executescript("CREATE TABLE t (a INT); CREATE TABLE u (a INT)") is not None, c.execute("SELECT * FROM u").fetchall()],
    "executescript of nothing": lambda c, m: c.executescript("") is not None,
    "two statements in execute": lambda c, m: c.execute("DELETE FROM book; DELETE FROM author"),
    "an empty statement": lambda c, m: c.execute("").rowcount,
    "a comment behind the semicolon": lambda c, m: c.execute("SELECT COUNT(*) FROM author; -- all of them").fetchone(),
    "a statement that is no str": lambda c, m: c.execute(5),
    "a closed connection": lambda c, m: [c.close(), c.execute("SELECT * FROM author")],
    "a cursor of a closed connection": lambda c, m: [cursor := c.cursor(), c.close(), cursor.execute("SELECT * FROM author")],
    "a closed cursor": lambda c, m: [cursor := c.cursor(), cursor.close(), cursor.execute("SELECT * FROM author")],
    "lastrowid of a new cursor": lambda c, m: c.cursor().lastrowid,
    "a cursor's connection": lambda c, m: c.cursor().connection is c,
    "rows of a cursor outlive a commit": lambda c, m: [cursor := c.execute("SELECT name FROM author"), c.commit(), cursor.fetchone()][2],
}

# Each with what sqlkeep answers and what sqlite3 does.
OTHERWISE = {
    "rowcount of a SELECT": (lambda c, m: c.execute("SELECT * FROM author").rowcount, 2, -1),
    "lastrowid": (lambda c, m: c.execute("INSERT INTO author VALUES ('x', 1)").lastrowid, None, 3),
    "fetchone without a query": (lambda c, m: c.execute("DELETE FROM book").fetchone(), "ProgrammingError", None),
    "a text that is too long": (lambda c, m: c.execute("INSERT INTO author VALUES (?, 1)", ("x" * 21,)).rowcount, "DataError", 1),
    "a text for an INT": (lambda c, m: c.execute("INSERT INTO author VALUES ('x', 'y')").rowcount, "ProgrammingError", 1),
    "an integer of 65 bits": (lambda c, m: c.execute("INSERT INTO author VALUES ('x', ?)", (2**63,)), "DataError", "OverflowError"),
    "a float": (lambda c, m: c.execute("INSERT INTO author VALUES ('x', ?)", (1.5,)).rowcount, "ProgrammingError", 1),
    "named parameters": (lambda c, m: c.execute("DELETE FROM author WHERE name = :name", {"name": "Woolf"}).rowcount, "ProgrammingError", 1),
    "a table that isn't there": (lambda c, m: c.execute("SELECT * FROM nothing"), "ProgrammingError", "OperationalError"),
    "a text that is no statement": (lambda c, m: c.execute("SELEKT"), "ProgrammingError", "OperationalError"),
    "CREATE TABLE in a transaction": (lambda c, m: steps(c, "DELETE FROM book", "CREATE TABLE t (a INT)").in_transaction, "ProgrammingError", True),
    "SELECT without FROM": (lambda c, m: c.execute("SELECT 1").fetchone(), "ProgrammingError", (1,)),
    "a file": (lambda c, m: m.connect("/nonexistent/file.db"), "NotSupportedError", "OperationalError"),
}


def answer(module, call):
    """What the call answers with this module, or the name of the class of what it raises."""
    connection = opened(module)
    try:
        return call(connection, module)
    except Exception as error:  # pylint: disable=broad-except
        return type(error).__name__
    finally:
        connection.close()


def plain(value):
    """A value without cursors, which are of different classes."""
    if isinstance(value, list):
        return [plain(each) for each in value]
    return "a cursor" if isinstance(value, (sqlite3.Cursor, sqlkeep.Cursor)) else value


# What the sqlite3 of an earlier Python answers otherwise, and what sqlkeep always does.
BEFORE = {
    "two statements in execute": ("Warning", "ProgrammingError"), "a statement that is no str": ("TypeError", "ProgrammingError"),
    "executemany of a SELECT": ("a cursor", "ProgrammingError"), "an empty statement": (0, -1),
}


class SideBySide(unittest.TestCase):
    def test_alike(self):
        for name, call in ALIKE.items():
            with self.subTest(name):
                ours, theirs = plain(answer(sqlkeep, call)), plain(answer(sqlite3, call))
                self.assertTrue(ours == theirs or BEFORE.get(name) == (theirs, ours), f"sqlkeep: {ours!r}, sqlite3: {theirs!r}")

    def test_otherwise(self):
        for name, (call, ours, theirs) in OTHERWISE.items():
            with self.subTest(name):
                self.assertEqual((answer(sqlkeep, call), answer(sqlite3, call)), (ours, theirs))

    def test_so_many(self):
        self.assertGreaterEqual(len(ALIKE) + len(OTHERWISE), 70)


if __name__ == "__main__":
    unittest.main()
