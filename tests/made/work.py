"""The kinds of work that `./bench` times: for each a script for every engine, as a list of statements.

Each is made for a `part`: 1 is the whole work, and 2 half of it. The last statement is a SELECT that gives one number, the same for every
engine. Where a script is longer than the program reads, it is run through the library, in one session."""
import itertools

LONGEST = 1_048_576

class Ours:
    """How the work is written for this engine: a data statement begins a transaction by itself."""

    name = 'ours'
    first = []

    def transaction(self, statements, end='COMMIT'):
        return [*statements, end]

    def opened(self, statements, end='COMMIT'):
        """A transaction that begins by a statement of its own, as savepoints ask for."""
        return ['START TRANSACTION', *statements, end]

    def shift(self, table, column):
        return ['UPDATE %s SET %s = %s + 1' % (table, column, column)]

    def log(self, table, columns):
        """A trigger that logs these columns of a new row."""
        values = ', '.join('n.' + column for column in columns)
        return 'CREATE TRIGGER r AFTER INSERT ON %s REFERENCING NEW AS n FOR EACH ROW INSERT INTO log VALUES (%s)' % (table, values)

    def doubling_trigger(self, table, column, depth):
        """A trigger that inserts two rows of the next depth for each row above this depth."""
        row = '(n.%s + 1)' % column
        return ['CREATE TRIGGER r AFTER INSERT ON %s REFERENCING NEW AS n FOR EACH ROW WHEN (n.%s < %d) INSERT INTO %s VALUES %s, %s' % (table, column, depth, table, row, row)]

    def set_before(self, table, column, key, value):
        return 'CREATE TRIGGER r BEFORE UPDATE ON %s REFERENCING NEW AS n FOR EACH ROW SET n.%s = %s' % (table, column, value.replace('new.', 'n.'))


class SQLite:
    """How it is written for SQLite."""

    name = 'SQLite'
    first = ['PRAGMA foreign_keys = ON']

    def transaction(self, statements, end='COMMIT'):
        return ['BEGIN', *statements, end]

    opened = transaction

    def shift(self, table, column):
        """SQLite checks a UNIQUE row by row, so the keys go out of the way and come back."""
        return ['UPDATE %s SET %s = -%s' % (table, column, column), 'UPDATE %s SET %s = 1 - %s' % (table, column, column)]

    def log(self, table, columns):
        values = ', '.join('NEW.' + column for column in columns)
        return 'CREATE TRIGGER r AFTER INSERT ON %s FOR EACH ROW BEGIN INSERT INTO log VALUES (%s); END' % (table, values)

    def doubling_trigger(self, table, column, depth):
        row = '(NEW.%s + 1)' % column
        return ['PRAGMA recursive_triggers = ON', 'CREATE TRIGGER r AFTER INSERT ON %s FOR EACH ROW WHEN NEW.%s < %d BEGIN INSERT INTO %s VALUES %s, %s; END' % (table, column, depth, table, row, row)]

    def set_before(self, table, column, key, value):
        """SQLite can't set a column of the new row, so the row is changed once more after the change."""
        return 'CREATE TRIGGER r AFTER UPDATE OF %s ON %s FOR EACH ROW BEGIN UPDATE %s SET %s = %s WHERE %s = NEW.%s; END' % ('l', table, table, column, value.replace('new.', 'NEW.'), key, key)


def doubling(rows):
    """The numbers of rows before each doubling of one row up to so many."""
    return itertools.takewhile(lambda count: count < rows, (2 ** power for power in itertools.count()))


def filled(engine, rows, table='t (k INT PRIMARY KEY, l INT)'):
    """A table of so many rows under a key, k from 1 on."""
    name = table.split()[0]
    fill = ['INSERT INTO %s SELECT k + %d, l + %d FROM %s WHERE k <= %d' % (name, count, count, name, rows - count) for count in doubling(rows)]
    return ['CREATE TABLE ' + table, *engine.transaction(['INSERT INTO %s VALUES (1, 1)' % name, *fill])]


def start_up(engine, part):
    return ['CREATE TABLE t (k INT)', 'SELECT COUNT(*) FROM t']


def inserts(engine, part):
    rows = 25_000 // part
    return ['CREATE TABLE t (k INT PRIMARY KEY, l INT)', *engine.transaction(['INSERT INTO t VALUES (%d, %d)' % (n, n % 7) for n in range(1, rows + 1)]), 'SELECT COUNT(*) FROM t WHERE l = 3']


def children_first(engine, part):
    children, parents = 20_000 // part, 5_000 // part
    texts = ['INSERT INTO c VALUES (%d, %d)' % (n, n % parents) for n in range(children)] + ['INSERT INTO p VALUES (%d)' % n for n in range(parents)]
    tables = ['CREATE TABLE p (k INT PRIMARY KEY)', 'CREATE TABLE c (k INT, x INT REFERENCES p (k) DEFERRABLE INITIALLY DEFERRED)']
    indexes = [] if engine.name == 'ours' else ['CREATE INDEX c_x ON c (x)']
    return [*tables, *indexes, *engine.transaction(texts), 'SELECT COUNT(*) FROM c WHERE x = 3']


def copies(engine, part):
    rows = 32_768 // part
    tables = ['CREATE TABLE t%d (k INT PRIMARY KEY, l INT CHECK (l > 0))' % n for n in range(8)]
    return [*filled(engine, rows), *tables, *engine.transaction(['INSERT INTO t%d SELECT k, l FROM t' % n for n in range(8)]), 'SELECT COUNT(*) FROM t7']


def cascade(engine, part):
    middle = 20_000 // part
    tables = ['CREATE TABLE p (k INT PRIMARY KEY)', 'CREATE TABLE m (k INT PRIMARY KEY, l INT REFERENCES p (k) ON DELETE CASCADE)', 'CREATE TABLE c (k INT, l INT REFERENCES m (k) ON DELETE CASCADE)']
    fill = ['INSERT INTO p VALUES (1)', 'INSERT INTO m VALUES (1, 1)', *('INSERT INTO m SELECT k + %d, 1 FROM m WHERE k <= %d' % (count, middle - count) for count in doubling(middle))]
    indexes = [] if engine.name == 'ours' else ['CREATE INDEX m_l ON m (l)', 'CREATE INDEX c_l ON c (l)']
    gone = list(itertools.chain.from_iterable(engine.transaction(['DELETE FROM p'], 'ROLLBACK') for _ in range(4)))
    return [*tables, *indexes, *engine.transaction([*fill, 'INSERT INTO c SELECT k, k FROM m', 'INSERT INTO c SELECT k, k FROM m']), *gone, 'SELECT COUNT(*) FROM c']


def shifted(engine, part):
    shifts = list(itertools.chain.from_iterable(engine.transaction(engine.shift('t', 'k')) for _ in range(20)))
    return [*filled(engine, 32_768 // part, 't (k INT UNIQUE, l INT)'), *shifts, 'SELECT COUNT(*) FROM t WHERE k > 1000']


def logged(engine, part):
    rows = 16_384 // part
    return [*filled(engine, rows), 'CREATE TABLE u (k INT, l INT)', 'CREATE TABLE log (k INT, l INT)', engine.log('u', ['k', 'l']), *engine.transaction(['INSERT INTO u SELECT k, l FROM t']), 'SELECT COUNT(*) FROM log']


def set_before(engine, part):
    rows = 16_384 // part
    changes = list(itertools.chain.from_iterable(engine.transaction(['UPDATE t SET l = l + 1']) for _ in range(10)))
    return [*three(engine, rows), engine.set_before('t', 'm', 'k', 'new.l + new.k'), *changes, 'SELECT COUNT(*) FROM t WHERE m > 100']


def three(engine, rows):
    """A table of so many rows with a third column."""
    fill = ['INSERT INTO t SELECT k + %d, l + %d, m FROM t WHERE k <= %d' % (count, count, rows - count) for count in doubling(rows)]
    return ['CREATE TABLE t (k INT PRIMARY KEY, l INT, m INT)', *engine.transaction(['INSERT INTO t VALUES (1, 1, 0)', *fill])]


def undone(engine, part):
    rows = 32_768 // part
    work = ['INSERT INTO u SELECT k, l FROM t', 'UPDATE u SET l = l + 1', 'DELETE FROM u']
    return [*filled(engine, rows), 'CREATE TABLE u (k INT PRIMARY KEY, l INT)', *engine.transaction(work, 'ROLLBACK'), 'SELECT COUNT(*) FROM u']


def savepoints(engine, part):
    times, rows = 2_000 // part, 32_768 // part
    each = (['SAVEPOINT s%d' % n, 'INSERT INTO t VALUES (%d, 0)' % (rows + n), 'ROLLBACK TO SAVEPOINT s%d' % n] for n in range(1, times + 1))
    return [*filled(engine, rows), *engine.opened(list(itertools.chain.from_iterable(each))), 'SELECT COUNT(*) FROM t']


def inserts_over(rows, engine, part):
    times, first = 10_000 // part, max(rows // part, 1)
    each = (engine.transaction(['INSERT INTO t VALUES (%d, 0)' % (first + n)]) for n in range(1, times + 1))
    return [*filled(engine, first), *itertools.chain.from_iterable(each), 'SELECT COUNT(*) FROM t']


def updates_over(rows, engine, part):
    times = 500 // part
    each = (engine.transaction(['UPDATE t SET l = l + 1 WHERE k = %d' % (n * 2 + 1)]) for n in range(times))
    return [*filled(engine, rows // part), *itertools.chain.from_iterable(each), 'SELECT COUNT(*) FROM t WHERE l > k']


def updates_without_key(engine, part):
    times, rows = 200 // part, 32_768 // part
    each = (engine.transaction(['UPDATE t SET l = l + 1 WHERE l = %d' % (n * 3)]) for n in range(times))
    return [*filled(engine, rows), *itertools.chain.from_iterable(each), 'SELECT COUNT(*) FROM t WHERE l > k']


def correlated(engine, part):
    rows = 10_000 // part
    return [*filled(engine, rows, 'p (k INT PRIMARY KEY, l INT)'), *filled(engine, rows, 'c (k INT, l INT)'), 'SELECT COUNT(*) FROM c WHERE EXISTS (SELECT * FROM p WHERE p.k = c.l)']


def checked_load(engine, part):
    tuples = ["(%d, '%s')" % (n, 'x' * 20) for n in range(1, 30_000 // part)]
    return ["CREATE TABLE t (k INT CHECK (k > 0), v VARCHAR(30) CHECK (v <> 'y'))", *engine.transaction(['INSERT INTO t VALUES ' + ', '.join(tuples)]), 'SELECT COUNT(*) FROM t']


def many_rows(engine, part):
    """Two million rows, each of a statement of 100 tuples."""
    rows = 2_000_000 // part
    texts = ('INSERT INTO t VALUES ' + ','.join('(%d)' % n for n in range(first, first + 100)) for first in range(1, rows + 1, 100))
    return ['CREATE TABLE t (k INT PRIMARY KEY)', *in_transactions(engine, texts, 500), 'SELECT COUNT(*) FROM t']


def in_transactions(engine, texts, each):
    """The statements, so many of them in each transaction."""
    texts = list(texts)
    return itertools.chain.from_iterable(engine.transaction(texts[at:at + each]) for at in range(0, len(texts), each))


def new_keys(engine, part):
    times = 100_000 // part
    each = (engine.transaction(['INSERT INTO t VALUES (%d)' % n, 'DELETE FROM t WHERE k = %d' % n]) for n in range(1, times + 1))
    return ['CREATE TABLE t (k INT PRIMARY KEY)', *itertools.chain.from_iterable(each), 'SELECT COUNT(*) FROM t']


def selects_over_many(engine, part):
    """A table of a million rows, which is filled 50,000 rows at a time, and SELECTs of one of them."""
    rows = 1_000_000 // part
    first = ['INSERT INTO t SELECT k + %d FROM t WHERE k <= %d' % (count, 50_000 - count) for count in doubling(50_000)]
    more = itertools.chain.from_iterable(engine.transaction(['INSERT INTO t SELECT k + %d FROM t WHERE k <= 50000' % done]) for done in range(50_000, rows, 50_000))
    selects = ('SELECT k FROM t WHERE k = %d' % (n * 37 % rows + 1) for n in range(10_000 // part))
    return ['CREATE TABLE t (k INT PRIMARY KEY)', *engine.transaction(['INSERT INTO t VALUES (1)', *first]), *more, *selects, 'SELECT COUNT(*) FROM t']


def exists_twice(engine, part):
    """For each of 300 rows a search of 300, and for each of these of 300 more; half as much is 300 divided by the cube root of 2."""
    rows = 300 if part == 1 else 238
    condition = 'NOT EXISTS (SELECT * FROM t b WHERE EXISTS (SELECT * FROM t c WHERE c.l + b.l + a.l < 0))'
    texts = ['INSERT INTO t VALUES ' + ','.join('(%d)' % n for n in range(rows))]
    return ['CREATE TABLE t (l INT)', *engine.transaction(texts), 'SELECT COUNT(*) FROM t a WHERE ' + condition]


def tuples(engine, part):
    rows = 50_000 // part
    return ['CREATE TABLE t (k INT PRIMARY KEY, l INT)', *engine.transaction(['INSERT INTO t VALUES ' + ','.join('(%d,%d)' % (n, n % 7) for n in range(1, rows + 1))]), 'SELECT COUNT(*) FROM t']


def fires_itself(engine, part):
    """A trigger that inserts two rows for each, 13 deep, which makes 8,191 rows each time."""
    times = 10 // part
    return ['CREATE TABLE t (d INT)', *engine.doubling_trigger('t', 'd', 13), *itertools.chain.from_iterable(engine.transaction(['INSERT INTO t VALUES (1)']) for _ in range(times)), 'SELECT COUNT(*) FROM t']


KINDS = {
    'start-up': start_up,
    '25,000 INSERTs of a row under a key, one COMMIT': inserts,
    '20,000 children before their 5,000 parents, deferred': children_first,
    'INSERT .. SELECT to 8 tables of 32,768 rows, a key and a CHECK': copies,
    'a cascade of 60,000 rows on two levels, rolled back 4 times': cascade,
    'a UNIQUE shifted by one over 32,768 rows, 20 times': shifted,
    'an AFTER row trigger that logs 16,384 rows': logged,
    'a BEFORE row trigger that sets a column of 16,384 rows, 10 times': set_before,
    'INSERT, UPDATE, DELETE of 32,768 rows, rolled back': undone,
    '2,000 savepoints over 32,768 rows': savepoints,
    '10,000 INSERT, COMMIT over 32,768 rows': lambda engine, part: inserts_over(32_768, engine, part),
    '10,000 INSERT, COMMIT over one row': lambda engine, part: inserts_over(1, engine, part),
    '500 UPDATE by key, COMMIT over 32,768 rows': lambda engine, part: updates_over(32_768, engine, part),
    '500 UPDATE by key, COMMIT over 1,024 rows': lambda engine, part: updates_over(1_024, engine, part),
    '200 UPDATE without a key over 32,768 rows': updates_without_key,
    'EXISTS by key, correlated, two tables of 10,000 rows': correlated,
    'a load of 1 MB with two CHECKs': checked_load,
    'one INSERT of 50,000 tuples under a key': tuples,
    'EXISTS in EXISTS over 300 rows': exists_twice,
    'triggers that fire themselves, 8,191 rows, 10 times': fires_itself,
    '100,000 INSERT, DELETE over ever new keys': new_keys,
    '10,000 SELECT by key over a million rows': selects_over_many,
    'two million rows under a key': many_rows,
}

# The usual way round in SQLite, where it can't do the same.
OTHERWISE = {
    'a UNIQUE shifted by one over 32,768 rows, 20 times': 'two UPDATEs, since SQLite checks a UNIQUE row by row',
    'a BEFORE row trigger that sets a column of 16,384 rows, 10 times': 'an AFTER row trigger that changes the row once more',
    '20,000 children before their 5,000 parents, deferred': 'with an index of the foreign key, which SQLite does not make by itself',
    'a cascade of 60,000 rows on two levels, rolled back 4 times': 'with an index of each foreign key',
}
