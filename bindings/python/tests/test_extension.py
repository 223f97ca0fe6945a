"""Each call of the extension: the references that it leaves, what it does when Python is refused memory, and handlers of signals that run within.
tests/python_sanitizers.py runs this under AddressSanitizer and with a debug build of Python."""
import contextlib
import gc
import importlib.util
import signal
import sys
import unittest

import sqlkeep
from sqlkeep._engine import Engine

ROWS = 1500
INSERT = "INSERT INTO p VALUES (?, ?)"
# Each leaves the database as it is when it is rolled back.
CALLS = {
    "accepted": lambda engine: engine.execute(INSERT, (5000, "y"), False),
    "refused": lambda engine: engine.execute(INSERT, (1, "y"), False),
    "refused and told": lambda engine: engine.execute(INSERT, (1, "y"), True),
    "some rows": lambda engine: engine.execute("SELECT a, b FROM p WHERE a < 20", (), False),
    "many rows": lambda engine: list(engine.execute("SELECT a, b FROM p", (), False)[1]),
    "a part of many rows": lambda engine: next(engine.execute("SELECT a, b FROM p", (), False)[1]),
    "many statements": lambda engine: engine.execute_many(INSERT, [(6000 + number, "z") for number in range(150)], 0, 0),
    "many rows at once": lambda engine: engine.execute_many(INSERT, [(7000 + number, "z") for number in range(150)], INSERT.index("("), len(INSERT)),
    "one of many is refused": lambda engine: engine.execute_many(INSERT, [(8000, "a"), (8001, "b"), (1, "c"), (8002, "d")], 0, 0),
    "one of many is no set": lambda engine: engine.execute_many(INSERT, [(8000, "a"), 5], 0, 0),
    "catalogue": lambda engine: engine.catalogue(),
    "dump": lambda engine: (engine.rollback(), engine.dump()),
    "row": lambda engine: (engine.row(3), engine.row(10**6)),
    "row of too large a number": lambda engine: engine.row(2**64),
    "pending": lambda engine: (engine.execute("INSERT INTO c VALUES (77777)", (), False), engine.pending()),
    "refused commit": lambda engine: (engine.execute("INSERT INTO c VALUES (77777)", (), False), engine.commit()),
    "run": lambda engine: engine.run(b"CREATE TABLE t (a INT); INSERT INTO t VALUES (1); SELECT a FROM t;"),
    "lines": lambda engine: engine.lines(1),
    "read": lambda engine: engine.read(b"COMMIT; COMMIT; SELEKT"),
    "bytes that are no text": lambda engine: engine.read(b"\xff"),
    "word": lambda engine: (engine.word(b"SELECT a FRM p;"), engine.word(b"COMMIT;")),
    "fault": lambda engine: engine.execute("SELEKT 1", (), False),
    "nothing": lambda engine: engine.execute(" ;", (), False),
    "several": lambda engine: engine.execute("COMMIT; COMMIT", (), False),
    "wrong count": lambda engine: engine.execute(INSERT, (1,), False),
    "wrong type": lambda engine: engine.execute(INSERT, (1.5, "a"), False),
    "long number": lambda engine: engine.execute(INSERT, (2**70, "a"), False),
    "surrogate": lambda engine: engine.execute(INSERT, (9000, "\ud800"), False),
    "surrogate in the text": lambda engine: engine.execute("\ud800", (), False),
    "no text": lambda engine: engine.execute(5, (), False),
    "unknown savepoint": lambda engine: engine.rollback_to(b"NOWHERE"),
    "small ones": lambda engine: (engine.in_transaction(), engine.work(), engine.progress(), engine.check(), engine.is_open(), engine.explain(False), engine.account(True)),
    "new": lambda engine: Engine(16, 65_536).close(),
    "wrong limits": lambda engine: Engine(0, 0),
}


def filled():
    session = sqlkeep.Session()
    session.script(
        "CREATE TABLE p (a INT PRIMARY KEY, b VARCHAR(300) CHECK (b <> 'no')); CREATE TABLE c (x INT CONSTRAINT f REFERENCES p ON DELETE CASCADE INITIALLY DEFERRED);"
        "CREATE TRIGGER r AFTER DELETE ON c DELETE FROM p WHERE a = 0;"
    )
    session._engine.execute_many(INSERT, [(number, "x" * 200 + str(number)) for number in range(ROWS)], 0, 0)
    session.commit()
    return session


def made(call, engine):
    """Makes a call, and reads the error of a refusal."""
    try:
        call(engine)
    except sqlkeep.Error as error:
        return str(error)
    except (OverflowError, TypeError):
        pass
    return ""


class References(unittest.TestCase):
    def test_each_leaves_as_many(self):
        engine = filled()._engine

        def rounds(call, count):
            for _ in range(count):
                made(call, engine)
                engine.rollback()
            gc.collect()
            return sys.gettotalrefcount()

        for name, call in CALLS.items():
            before = rounds(call, 3)
            self.assertLess(abs(rounds(call, 12) - before), 10, name)


if not hasattr(sys, "gettotalrefcount"):
    # Only a debug build of Python counts them.
    del References


@unittest.skipUnless(importlib.util.find_spec("_testcapi"), "this Python has no _testcapi; apt-get install libpython3-testsuite")
class WithoutMemory(unittest.TestCase):
    def refuse(self, call, number):
        """Makes a call in which one request for memory is refused: whether there was such a request."""
        import _testcapi  # pylint: disable=import-outside-toplevel

        told = None
        # CPython 3.11 loses an exception where it has no memory for the object of this frame; so that is made here.
        sys._getframe()
        _testcapi.set_nomemory(number, number + 1)
        try:
            call(self.engine)
        except BaseException as error:  # pylint: disable=broad-except
            told = error
        _testcapi.remove_mem_hooks()
        self.assertIsInstance(told, (type(None), MemoryError, sqlkeep.Error, OverflowError, TypeError))
        return isinstance(told, MemoryError)

    def test_each(self):
        """Whatever is refused: the session is as it was when the call is rolled back."""
        self.engine = filled()._engine
        for name, call in CALLS.items():
            number = since = 0
            while since < 12:
                since = 0 if self.refuse(call, number) else since + 1
                number += 1 + number // 12
                self.engine.rollback()
                self.assertEqual(list(self.engine.execute("SELECT COUNT(*) FROM p", (), False)[1]), [(ROWS,)], (name, number))


@unittest.skipUnless(hasattr(signal, "setitimer"), "this system has no timers")
class Signals(unittest.TestCase):
    """Handlers that run between two statements of many."""

    def rounds(self, handler, row_from=0, row_to=0):
        session, came = sqlkeep.Session(), []
        session.script("CREATE TABLE p (a INT PRIMARY KEY, b VARCHAR(9)); CREATE TABLE u (a INT);")
        values = [[number, "x"] for number in range(20_000)]

        def note(*_):
            came.append(True)
            if len(came) < 20:
                handler(session, values)

        before = signal.signal(signal.SIGALRM, note)
        signal.setitimer(signal.ITIMER_REAL, 0.001, 0.001)
        try:
            with contextlib.suppress(sqlkeep.Error, ZeroDivisionError, IndexError):
                session._engine.execute_many(INSERT, values, row_from, row_to)
        finally:
            signal.setitimer(signal.ITIMER_REAL, 0)
            signal.signal(signal.SIGALRM, before)
        return session

    def test_each(self):
        errors = []
        handlers = {
            "executes": lambda session, values: session.execute("INSERT INTO u VALUES (1)"),
            "is refused": lambda session, values: errors.append(session.execute("INSERT INTO p VALUES (0, 'a'), (0, 'b')").error),
            "executes many": lambda session, values: session._engine.execute_many("INSERT INTO u VALUES (?)", [(1,)] * 200, 0, 0),
            "drops the values": lambda session, values: values.clear(),
            "drops what is in them": lambda session, values: [each.clear() for each in values],
            "rolls back": lambda session, values: session.rollback(),
            "raises": lambda session, values: 1 // 0,
            "closes": lambda session, values: session.close(),
        }
        for name, handler in handlers.items():
            for places in ((0, 0), (INSERT.index("("), len(INSERT))):
                session = self.rounds(handler, *places)
                if name == "closes":
                    self.assertFalse(session._engine.is_open())
                else:
                    self.assertEqual(len(session.execute("SELECT COUNT(*) FROM p").rows), 1, name)
        self.assertEqual({error.cause for error in errors} - {13}, set())


if __name__ == "__main__":
    unittest.main()
