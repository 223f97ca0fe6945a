"""Scripts of another shape: few tables with hundreds of rows, under keys or with a parent, which are deleted, rolled back and shifted."""
from made.rows import Statement

KINDS = {'SELECT': 'query', 'INSERT': 'rows', 'UPDATE': 'rows', 'DELETE': 'rows'}


def doubled(start, text, rows):
    """Statements that make so many rows of those that are there, k from 1 to `start`; {n} in the text is how many there are."""
    counts = [start * 2 ** power for power in range(17) if start * 2 ** power < rows]
    return [text.replace('{n}', str(count)) + ' WHERE k <= %d' % (rows - count) for count in counts]


def chosen(chance, steps, count):
    """So many of these steps, each a text or several."""
    picked = [chance.one(steps) for _ in range(count)]
    return [text for step in picked for text in ([step] if isinstance(step, str) else step)]


def keyed_steps(rows):
    """What is done to rows under keys, k from 1 on and l beside it."""
    middle = rows // 2
    return [
        'UPDATE t SET k = k + 1', 'UPDATE t SET k = k - 1', 'UPDATE t SET k = %d - k' % (rows + 1), 'UPDATE t SET l = l + 1 WHERE k > %d' % middle,
        'UPDATE t SET k = k + 1 WHERE k < %d' % middle, 'UPDATE t SET k = -k WHERE k > %d' % middle, "UPDATE t SET m = 'c' WHERE l = %d" % middle,
        'DELETE FROM t WHERE k = %d' % middle, 'DELETE FROM t WHERE k > %d AND k < %d' % (middle, middle + 40), 'DELETE FROM t WHERE m IS NULL',
        ['SAVEPOINT x', 'DELETE FROM t', 'SELECT COUNT(*) FROM t', 'ROLLBACK TO SAVEPOINT x', 'SELECT COUNT(*) FROM t'],
        ['SAVEPOINT x', 'UPDATE t SET k = k + 1', 'SAVEPOINT y', 'DELETE FROM t WHERE k > 9', 'ROLLBACK TO SAVEPOINT x'],
        ['DELETE FROM t WHERE k < 30', 'INSERT INTO t SELECT k - 40, NULL, m FROM t WHERE k > 60 AND k < 80'],
        "INSERT INTO t VALUES (%d, %d, 'a')" % (middle, middle), 'INSERT INTO t VALUES (0, 0, NULL)', ['SAVEPOINT z', 'RELEASE SAVEPOINT z']]


def keyed_table(times, rows):
    """A table of so many rows under two keys that are checked at these times."""
    table = 'CREATE TABLE t (k INT CONSTRAINT one PRIMARY KEY%s, l INT, m VARCHAR(3), CONSTRAINT two UNIQUE (l, m)%s)' % times
    first = "INSERT INTO t VALUES (1, 1, 'a'), (2, NULL, 'a'), (3, 3, NULL), (4, 1, 'b')"
    return [table, first, *doubled(4, 'INSERT INTO t SELECT k + {n}, l + {n}, m FROM t', rows)]


def keys(chance):
    """Some hundred rows under keys."""
    rows = chance.weighed((5, 200), (2, 300), (1, 400))
    times = chance.one(['', ' DEFERRABLE', ' INITIALLY DEFERRED']), chance.one(['', ' DEFERRABLE'])
    modes = ['SET CONSTRAINTS ALL DEFERRED', 'SET CONSTRAINTS ALL DEFERRED', 'SET CONSTRAINTS ALL IMMEDIATE']
    steps = [*keyed_steps(rows), *modes, ['COMMIT', 'START TRANSACTION'], ['ROLLBACK', 'START TRANSACTION']]
    some = 'SELECT * FROM t WHERE k < 40 OR k > %d' % (rows - 20)
    last = [some, 'COMMIT', 'SELECT COUNT(*) FROM t', 'SELECT * FROM t WHERE l = %d' % (rows // 2)]
    return [*keyed_table(times, rows), 'COMMIT', 'START TRANSACTION', *chosen(chance, steps, 9), *last]


def deferred_keys(chance):
    """2,000 rows under keys that are not checked before few are left: a scan of them all would take long."""
    steps, table = keyed_steps(2000), keyed_table((' INITIALLY DEFERRED', ' INITIALLY DEFERRED'), 2000)
    left = ['DELETE FROM t WHERE k > 150 OR k < 0', 'SELECT COUNT(*) FROM t', chance.one(['SET CONSTRAINTS ALL IMMEDIATE', 'COMMIT'])]
    left += ['SELECT * FROM t WHERE k < 40', 'COMMIT', 'SELECT COUNT(*) FROM t']
    back = ['ROLLBACK TO SAVEPOINT all_of_them', 'SELECT COUNT(*) FROM t']
    return [*table, 'SAVEPOINT all_of_them', *chosen(chance, steps, 9), *back, *chosen(chance, steps, 9), *left]


def children(chance):
    """Six parents with hundreds of children, and perhaps a trigger that notes which of these go."""
    rows = chance.weighed((3, 250), (3, 500), (1, 1000), (1, 2000))
    on_delete = chance.one(['CASCADE', 'CASCADE', 'SET NULL', 'SET DEFAULT', 'NO ACTION', 'RESTRICT'])
    on_update, time = chance.one(['CASCADE', 'CASCADE', 'SET NULL', 'NO ACTION']), chance.one(['', ' DEFERRABLE', ' INITIALLY DEFERRED'])
    child = 'CREATE TABLE c (k INT, x INT DEFAULT 0 CONSTRAINT parent REFERENCES p ON DELETE %s ON UPDATE %s%s)' % (on_delete, on_update, time)
    trigger = 'CREATE TRIGGER gone AFTER DELETE ON c REFERENCING OLD AS o FOR EACH ROW WHEN (o.k < 20) INSERT INTO log VALUES (o.k, o.x)'
    noting = ['CREATE TABLE log (k INT, x INT)', trigger]
    tables = ['CREATE TABLE p (k INT PRIMARY KEY, other INT)', child, *(noting if chance.happens(0.4) else [])]
    first = ['INSERT INTO p VALUES (0, 0), (1, 1), (2, 2), (3, 3), (4, 4), (5, 5)', 'INSERT INTO c VALUES (1, 1), (2, 1), (3, 2), (4, NULL), (5, 3)']
    first += doubled(5, 'INSERT INTO c SELECT k + {n}, x FROM c', rows)
    last = ['SELECT * FROM p', 'SELECT * FROM c WHERE k < 60', 'COMMIT', 'SELECT COUNT(*) FROM c WHERE x = 1', 'SELECT COUNT(*) FROM c']
    return [*tables, *first, 'COMMIT', 'START TRANSACTION', *chosen(chance, children_steps(rows), 12), *last]


def children_steps(rows):
    """What is done to parents and children."""
    return [
        'DELETE FROM p WHERE k = 1', 'DELETE FROM p WHERE k > 1 AND k < 4', 'UPDATE p SET k = k + 1', 'UPDATE p SET k = 9 - k',
        'UPDATE p SET k = k + 20 WHERE k = 2', 'INSERT INTO p VALUES (1, 1)', 'INSERT INTO p VALUES (2, 2), (3, 3)',
        'UPDATE c SET x = 3 WHERE x = 1', 'UPDATE c SET x = NULL WHERE k < 50',
        'DELETE FROM c WHERE k > %d' % (rows // 2), 'UPDATE c SET x = 2 WHERE x IS NULL', 'INSERT INTO c SELECT k + 5000, x FROM c WHERE k < 30',
        'UPDATE c SET x = 77 WHERE k = 7', 'DELETE FROM c WHERE x = 77', ['DELETE FROM p WHERE k = 3', 'INSERT INTO p VALUES (3, 3)'],
        ['SAVEPOINT x', 'DELETE FROM p WHERE k < 3', 'SELECT COUNT(*) FROM c', 'ROLLBACK TO SAVEPOINT x', 'SELECT COUNT(*) FROM c'],
        ['SAVEPOINT x', 'UPDATE p SET k = k + 1', 'SAVEPOINT y', 'DELETE FROM p WHERE k = 2', 'ROLLBACK TO SAVEPOINT y', 'UPDATE p SET k = k - 1'],
        'SET CONSTRAINTS ALL DEFERRED', 'SET CONSTRAINTS ALL IMMEDIATE', ['COMMIT', 'START TRANSACTION'], ['ROLLBACK', 'START TRANSACTION']]


def statements(chance):
    """The statements of such a script."""
    texts = chance.weighed((2, keys), (1, deferred_keys), (3, children))(chance)
    return [Statement(text, KINDS.get(text.split()[0], 'other')) for text in texts]
