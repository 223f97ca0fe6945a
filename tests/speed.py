#!/usr/bin/env python3
"""How long scripts of each kind of statement take over a built program, and how much memory.

  tests/speed.py --program PATH [--only WORD].. [--sizes 256,512,1024] [--parts 4,2,1] [--cut 60]

For most kinds it makes a script of each size, in units of 1,024 bytes; for the others one of a number of rows, and of a part of
it, half of it for 2. It prints the seconds of each run and its peak of memory in MB. A run that takes longer than --cut seconds is
ended, and the scripts after it of its kind are left out. A run with status 2 is marked as such, and one in which a statement was
refused. The program and the computer's other work decide the figures: this is no test, and nothing fails."""
import argparse
import itertools
import os
import resource
import subprocess
import tempfile
import threading
import time

from made import hashes
from made.large import doubled

# Statements that come first, and then a list of them for each n from 1, as many as there is room for.
PARENTS = 'CREATE TABLE p (k INT PRIMARY KEY); CREATE TABLE c (x INT REFERENCES p ON DELETE CASCADE ON UPDATE CASCADE);'
HUNDRED = 'CREATE TABLE t (a INT); INSERT INTO t VALUES ' + ', '.join('(%d)' % n for n in range(100)) + '; COMMIT;'
HUNDRED_KEYS = HUNDRED.replace('a INT', 'a INT PRIMARY KEY')
CHECKS = 'CREATE TABLE t (a INT, ' + ', '.join('CHECK (a > %d) DEFERRABLE' % -n for n in range(64)) + '); START TRANSACTION;'

OTHERS = ' '.join('CREATE TABLE u%d (a INT, %s);' % (n, ', '.join(['CHECK (a > 0)'] * 64)) for n in range(32)) + ' CREATE TABLE t (a INT);'

KINDS = {
    'INSERT of a row, COMMIT after each': ('CREATE TABLE t (a INT);', lambda n: 'INSERT INTO t VALUES (%d); COMMIT;' % n),
    'INSERT of a row, one transaction': ('CREATE TABLE t (a INT);', lambda n: 'INSERT INTO t VALUES (%d);' % n),
    'INSERT beside 2,048 CHECKs of others': (OTHERS, lambda n: 'INSERT INTO t VALUES (%d);' % n),
    'INSERT beside 2,048 CHECKs of rows of others': (OTHERS + ' ' + ' '.join('INSERT INTO u%d VALUES (1);' % n for n in range(32)) + ' COMMIT;', lambda n: 'INSERT INTO t VALUES (%d);' % n),
    'START, ROLLBACK beside them': (OTHERS, lambda n: 'START TRANSACTION; ROLLBACK;'),
    'INSERT of a row, with a key': ('CREATE TABLE t (a INT PRIMARY KEY);', lambda n: 'INSERT INTO t VALUES (%d); COMMIT;' % n),
    'INSERT of a row, with a deferred key': ('CREATE TABLE t (a INT PRIMARY KEY INITIALLY DEFERRED);', lambda n: 'INSERT INTO t VALUES (%d);' % n),
    'UPDATE of one of 100 rows': (HUNDRED, lambda n: 'UPDATE t SET a = a WHERE a = %d; COMMIT;' % (n % 100)),
    'UPDATE of one of 100 keys': (HUNDRED_KEYS, lambda n: 'UPDATE t SET a = a WHERE a = %d; COMMIT;' % (n % 100)),
    'DELETE and INSERT, 100 rows': (HUNDRED, lambda n: 'DELETE FROM t WHERE a = %d; INSERT INTO t VALUES (%d);' % (n % 100, n % 100)),
    'SELECT from 100 rows': (HUNDRED, lambda n: 'SELECT * FROM t WHERE a = %d;' % (n % 100)),
    'SELECT of 100 rows': (HUNDRED, lambda n: 'SELECT a, a + 1 FROM t;'),
    'CREATE TABLE, 64 that fit': ('', lambda n: 'CREATE TABLE t%d (a INT PRIMARY KEY, b VARCHAR(9) UNIQUE);' % n),
    'ALTER TABLE ADD, 64 that fit': ('CREATE TABLE t (a INT);', lambda n: 'ALTER TABLE t ADD CONSTRAINT c%d CHECK (a > 0);' % n),
    'CREATE TRIGGER, DROP TRIGGER': ('CREATE TABLE t (a INT);', lambda n: "CREATE TRIGGER r AFTER INSERT ON t DELETE FROM t; DROP TRIGGER r;"),
    'trigger that logs': ('CREATE TABLE t (a INT); CREATE TABLE log (a INT); CREATE TRIGGER r AFTER INSERT ON t REFERENCING NEW AS n FOR EACH ROW INSERT INTO log VALUES (n.a);', lambda n: 'INSERT INTO t VALUES (%d); COMMIT;' % n),
    'SAVEPOINT, RELEASE': (HUNDRED + ' START TRANSACTION;', lambda n: 'SAVEPOINT s; RELEASE SAVEPOINT s;'),
    'SAVEPOINT, ROLLBACK TO': (HUNDRED + ' START TRANSACTION;', lambda n: 'SAVEPOINT s; DELETE FROM t; ROLLBACK TO SAVEPOINT s;'),
    'SAVEPOINTs that all stand': ('CREATE TABLE t (a INT); START TRANSACTION;', lambda n: 'SAVEPOINT s%d;' % n),
    'SET CONSTRAINTS, 64 of them': (CHECKS, lambda n: 'SET CONSTRAINTS ALL %s;' % ('DEFERRED', 'IMMEDIATE')[n % 2]),
    'START TRANSACTION, ROLLBACK': ('CREATE TABLE t (a INT);', lambda n: 'START TRANSACTION; ROLLBACK;'),
    'COMMIT': ('', lambda n: 'COMMIT;'),
    'parent and child, COMMIT after each': (PARENTS, lambda n: 'INSERT INTO p VALUES (%d); INSERT INTO c VALUES (%d); COMMIT;' % (n, n)),
    'cascades over few rows': (PARENTS, lambda n: 'INSERT INTO p VALUES (%d); INSERT INTO c VALUES (%d), (%d); UPDATE p SET k = 0; DELETE FROM p;' % (n, n, n)),
}


def of_statements(first, statements, size):
    """A script of at most this size: these statements, then those of each n."""
    parts, left = [first], size - len(first)
    for n in itertools.count(1):
        more = statements(n)
        if len(more) > left:
            return ''.join(parts)
        parts.append(more)
        left -= len(more)


def of_tuples(columns, size):
    """A script of this size with one INSERT of at most 65,000 tuples."""
    first, last = 'CREATE TABLE t (%s); INSERT INTO t VALUES ' % columns, '; COMMIT;'
    each = max(16, -(-(size - len(first) - len(last)) // 65_000))
    tuples = []
    for n in range(1, (size - len(first) - len(last)) // each + 1):
        tuples.append(("(%d, '" % n).ljust(each - 3, 'x') + "')")
    return first + ','.join(tuples) + last


# Kinds for a number of rows. A table is filled by doubling: k goes from 1 on.


def keyed(rows, constraint='PRIMARY KEY'):
    """A table of so many rows under a key."""
    return ['CREATE TABLE t (k INT %s, l INT)' % constraint, 'INSERT INTO t VALUES (1, 0)', *doubled(1, 'INSERT INTO t SELECT k + {n}, l FROM t', rows), 'COMMIT']


def family(rows, actions):
    """One parent with so many children."""
    tables = ['CREATE TABLE p (k INT PRIMARY KEY)', 'CREATE TABLE c (k INT, x INT REFERENCES p %s)' % actions]
    first = ['INSERT INTO p VALUES (1)', 'INSERT INTO c VALUES (1, 1)']
    return [*tables, *first, *doubled(1, 'INSERT INTO c SELECT k + {n}, x FROM c', rows), 'COMMIT']


def shifted(rows):
    return [*keyed(rows, 'UNIQUE'), 'UPDATE t SET k = k + 1', 'COMMIT']


def cascaded(rows):
    return [*family(rows, 'ON DELETE CASCADE'), 'DELETE FROM p', 'COMMIT']


def cascaded_back(rows):
    return [*family(rows, 'ON DELETE CASCADE'), 'DELETE FROM p', 'ROLLBACK', 'SELECT COUNT(*) FROM c']


def came_back(rows):
    return [*family(rows, 'INITIALLY DEFERRED'), 'DELETE FROM p', 'INSERT INTO p VALUES (1)', 'COMMIT']


def children_first(rows):
    """Four children for each parent, and the parents after them."""
    tables = ['CREATE TABLE p (k INT PRIMARY KEY)', 'CREATE TABLE c (k INT, x INT REFERENCES p INITIALLY DEFERRED)']
    texts = ['INSERT INTO c SELECT k + %d, x + %d FROM c WHERE k <= %d' % (count, count // 4, rows - count) for count in halves(4, rows)]
    parents = ['INSERT INTO p VALUES (1)', *doubled(1, 'INSERT INTO p SELECT k + {n} FROM p', -(-rows // 4))]
    return [*tables, 'INSERT INTO c VALUES (1, 1), (2, 1), (3, 1), (4, 1)', *texts, *parents, 'COMMIT']


def halves(start, rows):
    """The numbers of rows before each doubling."""
    return list(itertools.takewhile(lambda count: count < rows, (start * 2 ** power for power in itertools.count())))


def inserted_over(times, rows):
    """So many times INSERT and COMMIT over so many rows."""
    return [*keyed(rows), *('INSERT INTO t VALUES (%d, 0);COMMIT' % (rows + n) for n in range(1, times + 1))]


def saved_over(times, rows, name):
    """So many savepoints over so many rows."""
    return [*keyed(rows), 'START TRANSACTION', *(saved(name.replace('{n}', str(n)), rows + n) for n in range(1, times + 1)), 'COMMIT']


def saved(name, key):
    return 'SAVEPOINT %s;INSERT INTO t VALUES (%d, 0);ROLLBACK TO SAVEPOINT %s' % (name, key, name)


def undone(rows):
    fill = keyed(rows)[1:-1]
    return [keyed(1)[0], *fill, 'UPDATE t SET l = l + 1', 'DELETE FROM t', 'ROLLBACK']


def with_keys(keys):
    """One INSERT of these keys, an UPDATE and a DELETE of all of them, and back."""
    tuples = ','.join('(%d)' % key for key in keys)
    return ['CREATE TABLE t (k INT PRIMARY KEY)', 'INSERT INTO t VALUES ' + tuples, 'COMMIT', 'UPDATE t SET k = k', 'DELETE FROM t', 'ROLLBACK']


# The whole number of rows, or of times, which the name says too.
ROWS = {
    '65,536 keys in one constraint': (65_536, keyed),
    '60,000 rows under a UNIQUE shifted by one': (60_000, shifted),
    '60,000 rows made, changed, deleted, rolled back': (60_000, undone),
    '65,536 rows in one group of a foreign key': (65_536, lambda rows: family(rows, '')),
    '60,000 children deleted by CASCADE': (60_000, cascaded),
    '60,000 children deleted by CASCADE, rolled back': (60_000, cascaded_back),
    'parent of 65,536 goes and comes back': (65_536, came_back),
    '20,000 children before their 5,000 parents': (20_000, children_first),
    '10,000 INSERTs, COMMITs over 32,768 rows': (10_000, lambda times: inserted_over(times, 32_768 * times // 10_000)),
    '10,000 INSERTs, COMMITs over one row': (10_000, lambda times: inserted_over(times, 1)),
    '2,000 savepoints of one name over 32,768 rows': (2_000, lambda times: saved_over(times, 32_768 * times // 2_000, 's')),
    '2,000 savepoints that stand over 32,768 rows': (2_000, lambda times: saved_over(times, 32_768 * times // 2_000, 's{n}')),
    '16,384 keys chosen against the hash': (16_384, lambda rows: with_keys(hashes.keys(rows))),
    '16,384 keys that are not chosen': (16_384, lambda rows: with_keys(range(1021, 1021 * rows + 1, 1021))),
}


# Runs.


def memory(used):
    """A peak of memory in MB. The system counts what this process had when it began the run, so less than that isn't told."""
    own = resource.getrusage(resource.RUSAGE_SELF).ru_maxrss
    return ('%d MB' if used.ru_maxrss > own else 'below %d MB') % (max(used.ru_maxrss, own) * 1024 / 1e6)


def measured(program, script, cut):
    """How long a run of the script takes and its peak of memory, as a text, and whether it came to its end."""
    with tempfile.TemporaryFile() as given, tempfile.TemporaryFile() as errors:
        given.write(script.encode())
        given.seek(0)
        began = time.monotonic()
        running = subprocess.Popen([program], stdin=given, stdout=subprocess.DEVNULL, stderr=errors)
        end = threading.Timer(cut, running.kill)
        end.start()
        status, used = os.wait4(running.pid, 0)[1:]
        took, running.returncode = time.monotonic() - began, os.waitstatus_to_exitcode(status)
        end.cancel()
        errors.seek(0)
        said = errors.read().decode(errors='replace').strip()[:60]
    if running.returncode < 0:
        return 'over %d s' % cut if took >= cut else 'signal %d' % -running.returncode, False
    why = {0: '', 1: ' refused'}.get(running.returncode, ' status %d: %s' % (running.returncode, said))
    return '%.2f s, %s%s' % (took, memory(used), why), running.returncode < 2


def shown(program, scripts, cut):
    """What the runs of some scripts took, up to the first that didn't come to its end."""
    for script in scripts:
        text, ended = measured(program, script, cut)
        yield text.rjust(22)
        if not ended:
            return


def of_rows(make, rows):
    """A script for so many rows, which is not longer than a script may be."""
    script = ''.join(text + ';\n' for text in make(rows))
    assert len(script) <= 1_048_576
    return script


def print_table(words, heads, kinds):
    """Runs the scripts of each kind that is wanted, and prints a line for each."""
    print(heads[0].ljust(50) + ''.join(head.rjust(22) for head in heads[1:]))
    for kind, scripts in kinds:
        if not words.only or any(word in kind for word in words.only):
            print(kind.ljust(50) + ''.join(shown(words.program, scripts, words.cut)), flush=True)


def main():
    parser = argparse.ArgumentParser()
    parser.add_argument('--program', required=True)
    parser.add_argument('--only', action='append')
    parser.add_argument('--sizes', default='256,512,1024')
    parser.add_argument('--parts', default='4,2,1')
    parser.add_argument('--cut', type=int, default=60)
    words = parser.parse_args()
    sizes, parts = ([int(word) for word in text.split(',')] for text in (words.sizes, words.parts))
    makers = {kind: lambda size, parts=parts: of_statements(*parts, size) for kind, parts in KINDS.items()}
    makers['one INSERT of many tuples'] = lambda size: of_tuples('a INT, b VARCHAR(99)', size)
    makers['one INSERT of many tuples, with a key'] = lambda size: of_tuples('a INT PRIMARY KEY, b VARCHAR(99)', size)
    # `map` takes its function at once; a generator would take it when it is run, and so that of the last kind for all.
    kinds = [(kind, map(make, [size * 1024 for size in sizes])) for kind, make in makers.items()]
    print_table(words, ['for KiB', *('%d' % size for size in sizes)], kinds)
    kinds = [(kind, map(of_rows, itertools.repeat(make), [whole // part for part in parts])) for kind, (whole, make) in ROWS.items()]
    print_table(words, ['for so many, or a part of them', *('1 / %d' % part for part in parts)], kinds)


if __name__ == '__main__':
    main()
