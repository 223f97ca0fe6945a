"""Code of the caller that runs within a call of the extension, as the end of an object does, and Python's own refusals of memory there."""
import gc
import importlib.util
import subprocess
import sys
import threading
import unittest

import sqlkeep
import sqlkeep.plans

MANY = 5000
# In an interpreter of its own, since a fault of the extension would end it.
ROWS = """
import gc, sys, sqlkeep
cursor, told = sqlkeep.connect().cursor(), []
sys.unraisablehook = lambda given: told.append(given.exc_value)
cursor.execute("CREATE TABLE t (a INT PRIMARY KEY)")
cursor.executemany("INSERT INTO t VALUES (?)", [(number,) for number in range(5000)])
cursor.execute("SELECT a FROM t")
class Ring:
    def __init__(self): self.me = self
    def __del__(self): cursor.fetchall()
gc.collect()
Ring()
rows = cursor.fetchall()
gc.collect()
print(len(rows), rows == [(number,) for number in range(5000)], {str(each) for each in told} <= {"the rows are being copied"})
"""
# What a call is refused, one request for memory after the other, may only be told as such.
WITHOUT_MEMORY = """
import _testcapi, sqlkeep
engine = sqlkeep.Session()._engine
engine.execute("CREATE TABLE t (a VARCHAR(300))", (), False)
texts = ["INSERT INTO t VALUES ('" + "\\xe9" * 200 + str(number) + "')" for number in range(40)]
told = set()
for call in (lambda number: engine.execute(texts[number], (), False), lambda number: engine.execute("INSERT INTO t VALUES (?)", (texts[number],), False)):
    for number in range(40):
        _testcapi.set_nomemory(number, number + 1)
        try:
            call(number)
        except BaseException as error:
            kind = type(error)
        else:
            kind = None
        _testcapi.remove_mem_hooks()
        told.add(kind.__name__ if kind is not None else "")
print(sorted(told))
"""


def ran(code):
    return subprocess.run([sys.executable, "-c", code], capture_output=True, text=True, timeout=60, check=False)


def filled():
    session = sqlkeep.Session()
    session.script("CREATE TABLE t (a INT PRIMARY KEY); INSERT INTO t VALUES (1), (2), (3); COMMIT;")
    return session


class Reentered(unittest.TestCase):
    def setUp(self):
        self.before, self.told = sys.unraisablehook, []
        sys.unraisablehook = lambda given: self.told.append(str(given.exc_value))

    def tearDown(self):
        sys.unraisablehook = self.before

    def test_rows_that_are_being_copied(self):
        done = ran(ROWS)
        self.assertEqual((done.stdout, done.stderr, done.returncode), ("5000 True True\n", "", 0))

    def test_a_text_that_is_held_ends_while_another_is_read(self):
        for call in (lambda session: session.parts("DELETE FROM t; COMMIT;"), lambda session: session._engine.word(b"DELETE FROM t;"), lambda session: session.execute("DELETE FROM t WHERE a = 9")):
            session = filled()

            class Text(str):
                def __del__(self):
                    session.execute("INSERT INTO t VALUES (1)")

            session.execute(Text("UPDATE t SET a = a WHERE a = 1"))
            sqlkeep.plans.plans.clear()
            self.told.clear()
            call(session)
            self.assertEqual(self.told, ["the connection is executing a statement"])
            self.assertEqual(session.execute("SELECT COUNT(*) FROM t").rows, [(3,)])

    def test_a_session_is_closed_while_its_text_ends(self):
        session = filled()

        class Text(str):
            def __del__(self):
                session.close()

        session.execute(Text("UPDATE t SET a = a WHERE a = 1"))
        sqlkeep.plans.plans.clear()
        session.close()
        with self.assertRaisesRegex(sqlkeep.ProgrammingError, "the connection is closed"):
            session.pending()

    def test_the_name_of_a_type_is_no_text(self):
        class Odd(type):
            @property
            def __name__(cls):
                return 5

        with self.assertRaisesRegex(sqlkeep.ProgrammingError, "parameter 1 is of type 5; a value is an int, a str or None"):
            filled().execute("INSERT INTO t VALUES (?)", (Odd("Value", (), {})(),))

    @unittest.skipUnless(importlib.util.find_spec("_testcapi"), "this Python has no _testcapi; apt-get install libpython3-testsuite")
    def test_no_memory_for_a_text(self):
        done = ran(WITHOUT_MEMORY)
        self.assertEqual((done.stdout, done.stderr), ("['', 'MemoryError']\n", ""))


class Interpreters(unittest.TestCase):
    """Each interpreter of a process has the package with error classes of its own."""

    CODE = """
try:
    import _interpreters as interpreters
    other = interpreters.create("legacy")
except ImportError:
    import _xxsubinterpreters as interpreters
    other = interpreters.create(isolated=False)
import sqlkeep
TRY = '''
import sqlkeep
connection = sqlkeep.connect()
try:
    connection.execute("SELECT * FROM nope")
except sqlkeep.Error as error:
    assert str(error) == "Unknown: table NOPE isn't there"
'''
failed = interpreters.run_string(other, TRY)
exec(TRY)
print(failed, "connection" in globals())
interpreters.destroy(other)
exec(TRY)
try:
    connection.execute("INSERT INTO nope VALUES (?)", (2**70,))
except sqlkeep.DataError as error:
    print(error)
"""

    def test_each_has_its_own_errors(self):
        done = ran(self.CODE)
        if "No module named '_xxsubinterpreters'" in done.stderr:
            self.skipTest("this Python has no other interpreters")
        self.assertEqual((done.stdout, done.stderr), ("None True\nparameter 1 is an integer of more than 64 bits\n", ""))


class Threads(unittest.TestCase):
    def test_a_thread_that_gets_the_number_of_an_ended_one(self):
        kept, told = [], []

        def opens():
            kept.extend((sqlkeep.connect(), threading.get_ident()))
            kept[0].execute("CREATE TABLE t (a INT)")
            kept[0].executemany("INSERT INTO t VALUES (?)", [(number,) for number in range(MANY)])
            kept.append(kept[0].execute("SELECT a FROM t"))

        def uses():
            if threading.get_ident() == kept[1] and not told:
                for call in (lambda: kept[0].execute("SELECT * FROM t"), kept[2].fetchall, lambda: next(kept[2]._rows)):
                    with self.assertRaises(sqlkeep.ProgrammingError) as raised:
                        call()
                    told.append(str(raised.exception))

        for target in (opens, *[uses] * 20):
            thread = threading.Thread(target=target)
            thread.start()
            thread.join()
        if not told:
            self.skipTest("no thread got the number")
        another = "the connection was opened on another thread; each thread opens its own"
        self.assertEqual(told, [another, another, "the rows are used on another thread than that of their connection"])

    def test_a_thread_that_has_ended_has_closed_what_it_opened(self):
        kept = []
        thread = threading.Thread(target=lambda: kept.append(sqlkeep.connect()))
        thread.start()
        thread.join()
        kept[0].close()
        self.assertFalse(kept[0]._engine.is_open())

    def test_the_end_of_the_interpreter(self):
        """What is open then is closed, and what comes later is told as ever."""
        code = (
            "import sqlkeep\nconnection = sqlkeep.connect()\nconnection.execute('CREATE TABLE t (a INT)')\nconnection.executemany('INSERT INTO t VALUES (?)', [(1,)] * 3000)\n"
            "rows = connection.execute('SELECT a FROM t')\nrows.fetchone()\nclass Late:\n    def __init__(self, connection): self.connection = connection; self.me = self\n"
            "    def __del__(self):\n        try: self.connection.execute('SELECT * FROM u')\n        except sqlkeep.ProgrammingError as error: print(error.cause)\nlate = Late(connection)\n"
        )
        done = ran(code)
        self.assertEqual((done.stdout, done.stderr, done.returncode), ("1\n", "", 0))


if __name__ == "__main__":
    unittest.main()
