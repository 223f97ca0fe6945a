#!/usr/bin/env python3
"""Runs a long session through the library for C: its memory and the time of a round don't grow with the rounds.

  tests/long.py --library FOLDER [--all] [--rounds N]

A round inserts parents and children under keys that never came before, integers, texts and both together; changes a key, so that
children follow; deletes a parent with its children; and rolls a part of it back. After each round as many rows are left as before
it. There are 200,000 rounds, with --all 2,000,000.

Resident memory may rise by 2 MB from the middle to the end at most, and a round of the last tenth may take 1.2 of the processor time
of one of the first. Then sessions that had 60,000 rows at a time, which were rolled back or deleted, with accounts asked for and after
6,000 savepoints too, and ten small transactions after that, are held against one that had only the small ones: they may have 2 MB more. The C library keeps small blocks that were freed, so
it is asked to give them to the system first. The last line is `N passed, N failed`."""
import argparse
import ctypes
import os
import sys
import time

HERE = os.path.dirname(os.path.abspath(__file__))
sys.path.insert(0, os.path.join(HERE, '..', 'examples', 'python'))
import sqlkeep

MB = 1024 * 1024
SCHEMA = """
CREATE TABLE p (k INT PRIMARY KEY, t VARCHAR(30) UNIQUE, a INT, b VARCHAR(20), UNIQUE (a, b));
CREATE TABLE c (x INT REFERENCES p ON DELETE CASCADE ON UPDATE CASCADE, n INT UNIQUE, a INT, b VARCHAR(20),
    FOREIGN KEY (a, b) REFERENCES p (a, b) ON DELETE SET NULL ON UPDATE CASCADE INITIALLY DEFERRED);
"""
ROUND = """
INSERT INTO p VALUES (%(n)d, 'text %(n)d', %(n)d, 'part %(n)d');
INSERT INTO c VALUES (%(n)d, %(n)d, %(n)d, 'part %(n)d'), (%(n)d, -%(n)d, NULL, NULL);
COMMIT;
UPDATE p SET k = -k, a = -a WHERE k = %(n)d;
SAVEPOINT s;
INSERT INTO p VALUES (%(m)d, 'text %(m)d', 0, 'part %(m)d');
DELETE FROM p WHERE k = -%(n)d;
ROLLBACK TO SAVEPOINT s;
INSERT INTO p VALUES (%(m)d, 'other %(m)d', 0, 'other %(m)d');
ROLLBACK;
DELETE FROM p WHERE k = %(n)d;
DELETE FROM c;
COMMIT;
"""
MANY = 60_000
GROWN = {
    'rolled back': ['START TRANSACTION', '{rows}', 'ROLLBACK'],
    'deleted': ['{rows}', 'COMMIT', 'DELETE FROM w', 'COMMIT'],
    'told in accounts': ['{explain}', '{rows}', 'UPDATE w SET a = -a - 1', 'ROLLBACK', '{quiet}'],
    'with savepoints': ['START TRANSACTION', '{savepoints}', '{rows}', 'ROLLBACK'],
}


def give_back():
    """Has the C library give the memory that was freed to the system, if it has a function for that."""
    trim = getattr(ctypes.CDLL(None), 'malloc_trim', None)
    if trim is not None:
        trim(0)


def resident():
    """The bytes of this process that are in memory."""
    with open('/proc/self/statm', encoding='ascii') as file:
        return int(file.read().split()[1]) * os.sysconf('SC_PAGE_SIZE')


def run(session, text):
    """Executes each statement of a text; none may be refused."""
    count, fault = session.read(text)
    assert fault is None, text[fault:fault + 80]
    for place in range(count):
        outcome = session.execute_at(place)
        assert outcome.kind != sqlkeep.REFUSED, '%s: statement %d of %s' % (session.copied('cause'), place + 1, text[:200])


def run_rounds(session, first, end):
    """The processor time of these rounds."""
    start = time.process_time()
    for number in range(first, end):
        run(session, ROUND % {'n': number, 'm': number + 10**9})
    return time.process_time() - start


def middle(times):
    return sorted(times)[len(times) // 2]


def long_session(library, rounds):
    """What is wrong with a long session: lines of text."""
    with sqlkeep.Session(library=library) as session:
        run(session, SCHEMA + 'COMMIT;')
        times, sizes, step = [], [], rounds // 100
        for part in range(100):
            times.append(run_rounds(session, 1 + part * step, 1 + (part + 1) * step) / step)
            sizes.append(resident())
        assert session.query('SELECT k FROM p;') == session.query('SELECT x FROM c;') == []
    risen, first, last = (sizes[-1] - sizes[49]) / MB, middle(times[:10]), middle(times[-10:])
    print('%d rounds: %.1f MB in the middle, %+.2f MB from there to the end; a round %.1f us at first, %.1f us at last'
          % (rounds, sizes[49] / MB, risen, first * 1e6, last * 1e6), flush=True)
    if risen > 2:
        yield 'memory rises by %.2f MB in the last half' % risen
    if last > first * 1.2:
        yield 'a round of the last tenth takes %.2f of one of the first' % (last / first)


def inserts(count):
    """INSERTs of so many rows into table w, a thousand in each."""
    return '; '.join('INSERT INTO w VALUES ' + ', '.join("(%d, 'word %d')" % (n, n) for n in range(first, first + 1000)) for first in range(0, count, 1000))


def savepoints(count):
    """So many savepoints, each with a name of its own."""
    return '; '.join('SAVEPOINT s%d' % n for n in range(count))


def run_grown(session, statement):
    """Runs one of the lines above."""
    if statement in ('{explain}', '{quiet}'):
        session.explain(statement == '{explain}')
        return
    for part in {'{rows}': inserts(MANY), '{savepoints}': savepoints(MANY // 10)}.get(statement, statement).split('; '):
        run(session, part + ';')


def size_after(library, statements):
    """The bytes in memory of a process of its own after a session that had these statements, and then ten small transactions."""
    reader, writer = os.pipe()
    child = os.fork()
    if child == 0:
        session = sqlkeep.Session(library=library)
        run(session, 'CREATE TABLE w (a INT PRIMARY KEY, b VARCHAR(20) UNIQUE); COMMIT;')
        for statement in statements:
            run_grown(session, statement)
        for number in range(10):
            run(session, "INSERT INTO w VALUES (%d, 'x'); COMMIT; DELETE FROM w; COMMIT;" % number)
        give_back()
        os.write(writer, str(resident()).encode())
        os._exit(0)
    os.close(writer)
    with os.fdopen(reader) as told:
        size = int(told.read() or -1)
    os.waitpid(child, 0)
    return size


def large_transactions(library):
    """What is wrong after large transactions: lines of text."""
    alone = size_after(library, [])
    for name, statements in GROWN.items():
        size = size_after(library, statements)
        print('%d rows %s: %.1f MB after it, %.1f MB without it' % (MANY, name, size / MB, alone / MB), flush=True)
        if not 0 < size <= alone + 2 * MB:
            yield '%d rows %s leave %.1f MB in place of %.1f' % (MANY, name, size / MB, alone / MB)


def main():
    parser = argparse.ArgumentParser(description=__doc__, formatter_class=argparse.RawDescriptionHelpFormatter)
    parser.add_argument('--library', required=True)
    parser.add_argument('--all', action='store_true')
    parser.add_argument('--rounds', type=int)
    words = parser.parse_args()
    library = sqlkeep.load(os.path.join(words.library, 'libsqlkeep.so'))
    wrong = [*large_transactions(library), *long_session(library, words.rounds or (2_000_000 if words.all else 200_000))]
    for line in wrong:
        print('FAIL', line)
    count = 2 + len(GROWN)
    print('%d passed, %d failed' % (count - len(wrong), len(wrong)))
    return 1 if wrong else 0


if __name__ == '__main__':
    sys.exit(main())
