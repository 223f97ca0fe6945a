"""The library for C from Python, by ctypes: sessions as context managers, rows as tuples, refusals as exceptions.

    with sqlkeep.open() as session:
        session.execute("CREATE TABLE t (a INT PRIMARY KEY, b VARCHAR(20));")
        session.execute("INSERT INTO t VALUES (?, ?);", [1, "it's"])
        for row in session.query("SELECT * FROM t;"):
            print(row)
        session.commit()

The shared library is looked for at the path in SQLKEEP_LIBRARY, and else in out/ of this repository. A session is used by the thread
that opened it alone."""
import ctypes
import os
from ctypes import POINTER, Structure, byref, c_bool, c_char, c_int64, c_size_t, c_uint8, c_uint32, c_uint64, c_void_p

OK, CLOSED, OPEN, LIMITS, NOT_UTF8, TOO_LONG, NO_MEMORY, NOTHING = range(8)
WRONG_COUNT, NO_TEMPLATE = 9, 10
DONE, CHANGED, ROWS, REFUSED = range(4)
OUT = os.path.join(os.path.dirname(os.path.abspath(__file__)), "..", "..", "out")


class Handle(Structure):
    _fields_ = [("is_open", c_bool), ("inside", c_void_p)]


class Summary(Structure):
    _fields_ = [("accepted", c_uint64), ("refused", c_uint64), ("memory_refused", c_uint64), ("has_fault", c_uint64), ("fault_at", c_uint64), ("untold", c_uint64)]


class Script(Structure):
    _fields_ = [("statements", c_uint64), ("has_fault", c_uint64), ("fault_at", c_uint64)]


class Outcome(Structure):
    _fields_ = [("kind", c_uint32), ("cause", c_uint32), ("count", c_uint64), ("row", c_uint64)]


class Cell(Structure):
    _fields_ = [("kind", c_uint64), ("integer", c_int64), ("length", c_uint64)]


class Done(Structure):
    _fields_ = [("changes", c_uint64), ("undone", c_uint64), ("lookups", c_uint64)]


class Failed(Exception):
    """A call that didn't do what it is for, with its status."""

    WORDS = {CLOSED: "the session is closed", LIMITS: "the limits are out of range", NOT_UTF8: "the script is not UTF-8", TOO_LONG: "the script is longer than 1048576 bytes", NO_MEMORY: "out of memory", NOTHING: "there is nothing at this place", WRONG_COUNT: "there are more or fewer values than question marks", NO_TEMPLATE: "something in the text is no token"}

    def __init__(self, status):
        super().__init__(self.WORDS.get(status, "status %d" % status))
        self.status = status


class NoStatement(Exception):
    """A text of which something is left that is no statement, from this byte on. Nothing of the text was executed."""

    def __init__(self, at):
        super().__init__("no statement at byte %d" % at)
        self.at = at


class Refused(Exception):
    """A statement that was refused: the number and the name of its cause, the constraint, the trigger and the text of the
    SIGNAL, or None; and the row, or None."""

    def __init__(self, number, name, constraint, trigger, signal, row):
        parts = [name] + [constraint] * bool(constraint) + ["row %d" % row] * bool(row) + ["trigger " + trigger if trigger else ""] * bool(trigger) + [repr(signal)] * bool(signal)
        super().__init__(" ".join(parts))
        self.number, self.name = number, name
        self.constraint, self.trigger, self.signal = constraint or None, trigger or None, signal or None
        self.row = row or None


HANDLE, SIZE = POINTER(Handle), POINTER(c_size_t)
PARAMETERS = {
    "open": [HANDLE, c_uint8, c_uint32],
    "close": [HANDLE],
    "run": [HANDLE, c_void_p, c_size_t, POINTER(Summary)],
    "transcript": [HANDLE, c_size_t, c_void_p, c_size_t, SIZE],
    "explain": [HANDLE, c_uint32],
    "read": [HANDLE, c_void_p, c_size_t, POINTER(Script)],
    "unbind": [HANDLE],
    "bind_null": [HANDLE],
    "bind_integer": [HANDLE, c_int64],
    "bind_text": [HANDLE, c_void_p, c_size_t],
    "read_bound": [HANDLE, c_void_p, c_size_t, POINTER(Script)],
    "execute": [HANDLE, c_size_t, POINTER(Outcome)],
    "lines": [HANDLE, c_uint64],
    "columns": [HANDLE, c_size_t, SIZE],
    "value": [HANDLE, c_size_t, c_size_t, POINTER(Cell)],
    "value_text": [HANDLE, c_size_t, c_size_t, c_size_t, c_void_p, c_size_t, SIZE],
    "cause": [HANDLE, c_size_t, c_void_p, c_size_t, SIZE],
    "constraint": [HANDLE, c_size_t, c_void_p, c_size_t, SIZE],
    "trigger": [HANDLE, c_size_t, c_void_p, c_size_t, SIZE],
    "signal": [HANDLE, c_size_t, c_void_p, c_size_t, SIZE],
    "commit": [HANDLE, POINTER(Outcome)],
    "rollback": [HANDLE],
    "rollback_to": [HANDLE, c_void_p, c_size_t, POINTER(Outcome)],
    "in_transaction": [HANDLE, POINTER(c_bool)],
    "work": [HANDLE, POINTER(Done)],
    "pending": [HANDLE, SIZE],
    "violation": [HANDLE, c_size_t, POINTER(c_uint64), c_void_p, c_size_t, SIZE],
}


def load(path=None):
    """The shared library, with the parameters of its functions."""
    library = ctypes.CDLL(path or os.environ.get("SQLKEEP_LIBRARY") or os.path.join(OUT, "libsqlkeep.so"))
    for name, types in PARAMETERS.items():
        function = getattr(library, "sqlkeep_" + name)
        function.argtypes, function.restype = types, c_uint32
    return library


class Session:
    """A database in memory with its transaction."""

    def __init__(self, depth=16, changes=65536, library=None):
        self.library, self.handle = library or load(), Handle(False, None)
        if not (0 <= depth < 2**8 and 0 <= changes < 2**32):
            raise Failed(LIMITS)
        self.call("open", depth, changes)

    def __enter__(self):
        return self

    def __exit__(self, *_):
        self.close()

    def __del__(self):
        if getattr(self, "handle", None) is not None and self.handle.is_open:
            self.close()

    def call(self, name, *values):
        """Calls a function of the library; a status that isn't OK is an exception."""
        status = getattr(self.library, "sqlkeep_" + name)(byref(self.handle), *values)
        if status != OK:
            raise Failed(status)

    def close(self):
        """Closes the session; nothing where it is closed already."""
        self.library.sqlkeep_close(byref(self.handle))

    def copied(self, name, *places):
        """A whole text, copied piece by piece."""
        piece, count, whole = (c_char * 4096)(), c_size_t(), b""
        while True:
            self.call(name, *places, len(whole), piece, len(piece), byref(count))
            if count.value == 0:
                return whole.decode()
            whole += piece.raw[: count.value]

    def run(self, text):
        """Runs a script in a database of its own: its transcript, and what it did."""
        script, summary = bytes_of(text), Summary()
        self.call("run", script, len(script), byref(summary))
        return self.copied("transcript"), summary

    def explain(self, asked=True):
        """From now on the lines of a statement have its account, or don't."""
        self.call("explain", int(asked))

    def read(self, text):
        """Reads the statements of a text: how many they are, and the byte where no further one begins, or None."""
        script, found = bytes_of(text), Script()
        self.call("read", script, len(script), byref(found))
        return found.statements, found.fault_at if found.has_fault else None

    def bind(self, value):
        """Binds the value of the next question mark: None, an integer of 64 bits, or a text."""
        if value is None:
            self.call("bind_null")
        elif isinstance(value, int):
            if not -(2**63) <= value < 2**63:
                raise OverflowError("an integer has 64 bits")
            self.call("bind_integer", value)
        else:
            text = bytes_of(value)
            self.call("bind_text", text, len(text))

    def fill(self, template, values):
        """Reads the statements of a template with these values in place of its question marks, as `read` does."""
        text, found = bytes_of(template), Script()
        self.call("unbind")
        for value in values:
            self.bind(value)
        self.call("read_bound", text, len(text), byref(found))
        return found.statements, found.fault_at if found.has_fault else None

    def execute_at(self, place):
        """Executes one of the statements that were read."""
        # ctypes would take a larger number without its upper bits.
        if not 0 <= place < 2**64:
            raise Failed(NOTHING)
        outcome = Outcome()
        self.call("execute", place, byref(outcome))
        return outcome

    def answer(self, outcome):
        """None, the number of rows that were changed, or a list of rows; an exception where the statement was refused."""
        if outcome.kind == REFUSED:
            raise Refused(outcome.cause, self.copied("cause").split(" ", 1)[1], self.copied("constraint"), self.copied("trigger"), self.copied("signal"), outcome.row)
        if outcome.kind == ROWS:
            return [self.row(place) for place in range(outcome.count)]
        return outcome.count if outcome.kind == CHANGED else None

    def execute(self, text, values=()):
        """Executes the statements of a text until one is refused: the answer of each. Values stand in place of its question marks."""
        count, fault = self.fill(text, values) if values else self.read(text)
        if fault is not None:
            raise NoStatement(fault)
        return [self.answer(self.execute_at(place)) for place in range(count)]

    def query(self, text, values=()):
        """The rows of the last statement of a text, as tuples."""
        return self.execute(text, values)[-1]

    def row(self, place):
        count = c_size_t()
        self.call("columns", place, byref(count))
        return tuple(self.value(place, column) for column in range(count.value))

    def value(self, row, column):
        cell = Cell()
        self.call("value", row, column, byref(cell))
        return (None, cell.integer)[cell.kind] if cell.kind < 2 else self.copied("value_text", row, column)

    def commit(self):
        """COMMIT; an exception where it is refused, and then the transaction is rolled back."""
        outcome = Outcome()
        self.call("commit", byref(outcome))
        self.answer(outcome)

    def rollback(self):
        self.call("rollback")

    def rollback_to(self, name):
        """ROLLBACK TO SAVEPOINT; the name as it is folded, in upper case."""
        outcome, name = Outcome(), bytes_of(name)
        self.call("rollback_to", name, len(name), byref(outcome))
        self.answer(outcome)

    def pending(self):
        """What COMMIT would find: each violation as a constraint's name and a row."""
        count, row, name, length = c_size_t(), c_uint64(), (c_char * 1024)(), c_size_t()
        self.call("pending", byref(count))
        found = []
        for place in range(count.value):
            self.call("violation", place, byref(row), name, len(name), byref(length))
            found.append((name.raw[: length.value].decode(), row.value))
        return found

    @property
    def in_transaction(self):
        is_open = c_bool()
        self.call("in_transaction", byref(is_open))
        return is_open.value

    @property
    def work(self):
        """How many row changes the last statement made and undid, and how many keys it looked up."""
        done = Done()
        self.call("work", byref(done))
        return done.changes, done.undone, done.lookups


def bytes_of(text):
    return text if isinstance(text, bytes) else text.encode()


def open(depth=16, changes=65536):  # pylint: disable=redefined-builtin
    """Opens a session over a database without tables."""
    return Session(depth, changes)
