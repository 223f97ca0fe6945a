"""Memory: nothing is leaked by many calls, and a statement for which there is no memory is refused and changes nothing."""
import gc
import resource
import subprocess
import sys
import threading
import unittest

import sqlkeep

REFUSED = """
import resource, sqlkeep
connection = sqlkeep.connect()
connection.execute("CREATE TABLE t (a INT, b VARCHAR(4000))")
connection.executemany("INSERT INTO t VALUES (?, ?)", [(number, "x" * 4000) for number in range(16)])
connection.commit()
pages = int(open("/proc/self/statm").read().split()[0])
resource.setrlimit(resource.RLIMIT_AS, (pages * resource.getpagesize() + 3_000_000, resource.RLIM_INFINITY))
count = 16
try:
    while True:
        connection.execute("INSERT INTO t SELECT * FROM t")
        count *= 2
except sqlkeep.OperationalError as error:
    told = error
resource.setrlimit(resource.RLIMIT_AS, (resource.RLIM_INFINITY, resource.RLIM_INFINITY))
print(told.cause, told, connection.execute("SELECT COUNT(*) FROM t").fetchone()[0] == count > 16)
connection.rollback()
print(connection.execute("SELECT COUNT(*) FROM t").fetchone())
"""


def used():
    """The memory of this process, in bytes."""
    gc.collect()
    with open("/proc/self/statm", encoding="ascii") as file:
        return int(file.read().split()[1]) * resource.getpagesize()


def refused(call, *words):
    try:
        call(*words)
    except sqlkeep.Error as error:
        return error
    raise AssertionError("nothing is raised")


@unittest.skipUnless(sys.platform == "linux", "it reads /proc")
class Memory(unittest.TestCase):
    def test_a_statement_without_memory_changes_nothing(self):
        done = subprocess.run([sys.executable, "-c", REFUSED], capture_output=True, text=True, timeout=120, check=False)
        self.assertEqual((done.stdout, done.stderr), ("22 OutOfMemory: memory was refused; nothing was changed True\n(16,)\n", ""))

    def test_nothing_is_leaked(self):
        connection = sqlkeep.connect()
        connection.executescript("CREATE TABLE p (k INT PRIMARY KEY, t VARCHAR(300)); CREATE TABLE c (x INT CONSTRAINT f REFERENCES p INITIALLY DEFERRED);")
        connection.executemany("INSERT INTO p VALUES (?, ?)", [(number, "é" * 300) for number in range(20)])
        connection.commit()
        other = sqlkeep.connect()

        def threads():
            kept = [sqlkeep.connect()]
            thread = threading.Thread(target=kept.clear)
            thread.start()
            thread.join()

        calls = {
            "query": lambda: connection.execute("SELECT * FROM p WHERE k < ?", (9,)).fetchall(),
            "description": lambda: connection.execute("SELECT k, t FROM p").description,
            "refusal": lambda: refused(connection.execute, "INSERT INTO p VALUES (?, ?)", (1, "x")),
            "refusal that is read": lambda: str(refused(connection.execute, "INSERT INTO p VALUES (?, ?)", (1, "x"))),
            "name": lambda: str(refused(connection.execute, "SELECT * FROM q")),
            "fault": lambda: refused(connection.execute, "SELEKT ?", (1,)),
            "count": lambda: refused(connection.execute, "SELECT * FROM p WHERE k = ?", (1, 2)),
            "value": lambda: refused(connection.execute, "SELECT * FROM p WHERE k = ?", (1.5,)),
            "value in many": lambda: (refused(connection.executemany, "UPDATE p SET t = ? WHERE k = 1", [("a",), (1.5,)]), connection.rollback()),
            "many": lambda: (connection.executemany("INSERT INTO p VALUES (?, ?)", [(100, "a"), (101, None), (102, "b")]), connection.rollback()),
            "refused commit": lambda: (connection.execute("INSERT INTO c VALUES (999)"), connection.pending(), str(refused(connection.commit))),
            "script": lambda: connection.session.run("CREATE TABLE t (a INT); INSERT INTO t VALUES (1); SELECT * FROM t;"),
            "catalogue": lambda: connection.session.catalogue,
            "dump": lambda: list(connection.iterdump()),
            "account": lambda: (
                setattr(connection.session, "explain", True), connection.session.execute("DELETE FROM p").account, setattr(connection.session, "explain", False), connection.rollback(),
            ),
            "connection": lambda: sqlkeep.connect().execute("CREATE TABLE t (a INT)"),
            "connection of another thread": threads,
            "bytes that are no text": lambda: refused(other.session.run, b"\xff"),
        }
        for name, call in calls.items():
            with self.subTest(name):
                times = 300 if "thread" in name else 2000
                for _ in range(times):
                    call()
                before = used()
                for _ in range(times):
                    call()
                self.assertLess(used() - before, times * 100)


if __name__ == "__main__":
    unittest.main()
