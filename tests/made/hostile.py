"""Hostile scripts, each with the transcript that the rules give it. `SIZE` is how long a script may be; where a script is of one kind of text, it is as
long."""
from made import hashes

SIZE = 1_048_576
LETTERS = 'abcdefghijklmnopqrstuvwxyz0123456789_'


class Case:
    """A script, which is made when it is run, with its transcript; whether it takes long; the words for the command line."""

    def __init__(self, name, make, is_long=False, words=()):
        self.name, self.make, self.is_long, self.words = name, make, is_long, words

    def made(self):
        script, transcript = self.make()
        return script.encode(), transcript.encode()


def answered(*answers):
    """A transcript: its lines that are answers of statements get their numbers; a row, and the end of a transaction, are written as they are."""
    place, lines = 0, []
    for answer in answers:
        is_answer = not answer.startswith('| ') and answer != 'end rolled back'
        place += is_answer
        lines.append('%d %s\n' % (place, answer) if is_answer else answer + '\n')
    return ''.join(lines)


def numbered(text, count, first=1):
    """The text so many times, with {n} for the number of each."""
    return [text.replace('{n}', str(n)) for n in range(first, first + count)]


def filled(before, part, after, joined=''):
    """A text of the greatest length: `before`, as many times `part` as there is room for, `after`; and how often it came."""
    count = (SIZE - len(before) - len(after) + len(joined)) // (len(part) + len(joined))
    return before + joined.join([part] * count) + after, count


def filled_numbers(before, part, after, joined=', '):
    """The same with a number in each part, in place of {n}."""
    parts, length, n = [], len(before) + len(after), 1
    while True:
        one = part.replace('{n}', str(n))
        length += len(one) + len(joined)
        if length > SIZE:
            return before + joined.join(parts) + after, len(parts)
        parts.append(one)
        n += 1


def balanced(leaf, operator, levels):
    """2 ** levels leaves with an operator between each two, in pairs of parentheses; each level is two deeper."""
    text = leaf
    for _ in range(levels):
        text = '(%s%s%s)' % (text, operator, text)
    return text


def spread(words):
    """A statement of the greatest length: white space and comments of one length between its words."""
    gaps = len(words) - 1
    each = (SIZE - sum(map(len, words)) - 1) // gaps
    gap = '--' + 'x;' * ((each - 3) // 2) + '\n'
    return gap.join(words) + ';'


# Scripts with a fault. What is read before it is `COMMIT;` or nothing.


FAULT_AT_0 = answered('fault 0')


def faults():
    """Texts of 1 MB that are no statement, with their names."""
    yield 'opening parentheses', '(' * SIZE
    yield 'a text without end', "'" + 'x' * (SIZE - 1)
    yield 'quotes alone, of which the last text has no end', "'" * (SIZE - 1)
    yield 'semicolons alone', ';' * SIZE
    yield 'statements that are faults at once', filled('', 'x;', '')[0]
    yield 'a word of 1 MB', 'x' * SIZE
    yield 'a number of 1 MB', '1' * SIZE
    yield 'open parentheses in a condition', filled('SELECT * FROM t WHERE ', '(', '')[0]
    yield 'NOT in parentheses, again and again', filled('SELECT * FROM t WHERE ', 'NOT(', '')[0]
    yield 'EXISTS in EXISTS, again and again', filled('SELECT * FROM t WHERE ', 'EXISTS(SELECT*FROM t WHERE ', '')[0]
    yield 'signs in parentheses, again and again', filled('SELECT ', '-(', '')[0]
    yield 'a number in pairs of parentheses', 'SELECT ' + '(' * 524_000 + '1' + ')' * 524_000 + ' FROM t;'
    yield 'a sum of half a million numbers', filled('SELECT ', '1', ' FROM t;', '+')[0]
    yield 'a product of half a million numbers', filled('SELECT ', '1', ' FROM t;', '*')[0]
    yield 'conditions with AND between them', filled('SELECT * FROM t WHERE ', '1=1', ';', ' AND ')[0]
    yield 'conditions with OR between them', filled('SELECT * FROM t WHERE ', '1=1', ';', ' OR ')[0]
    yield 'a body without END', filled('CREATE TRIGGER r AFTER INSERT ON t BEGIN ATOMIC ', 'DELETE FROM t;', '')[0]
    yield 'columns without end', filled('CREATE TABLE t (', 'a INT,', '')[0]
    yield 'tuples without end', filled('INSERT INTO t VALUES ', '(1),', '')[0]
    yield 'an item of REFERENCING without a name', filled('CREATE TRIGGER r AFTER INSERT ON t REFERENCING ', 'NEW n ', '')[0]


def commits_and_a_letter():
    """As many statements as a script may have, and a letter that is no token as its last byte."""
    script, count = filled('', 'COMMIT;', '@')
    return script, answered(*['ok'] * count, 'fault %d' % (7 * count))


def open_text_after():
    """A statement, and a text of nothing but quotes in pairs, which has no end."""
    script, _ = filled("COMMIT;'", "''", '')
    return script, answered('ok', 'fault 7')


# One statement of 1 MB.


def one(text, *answers, before='', after=''):
    """Such a statement between others, with the answers of all."""
    return before + text + after, answered(*answers)


TABLE = 'CREATE TABLE t (a INT, b VARCHAR(4096));'
ONE_ROW = TABLE + 'INSERT INTO t VALUES (1, NULL);'
# Comparisons of 56 bytes: 16,384 of them have nearly 1 MB with what is between them, and so have 32 times 512.
LEAF = 't.a = ' + '1'.zfill(50)
CONDITION = balanced(LEAF, ' AND ', 14)
SUM = balanced('0001', '+', 17)


def statement(words, answer):
    """A small statement, spread over 1 MB."""
    return one(spread(words), answer)


def of_tables():
    """CREATE TABLE and ALTER TABLE."""
    yield 'CREATE TABLE of other columns', one(filled_numbers('CREATE TABLE t (', 'a{n} INT', ');')[0], 'refused 21 Limit')
    yield 'CREATE TABLE of one column, again and again', one(filled('CREATE TABLE t (', 'a INT', ');', ',')[0], 'refused 2 Duplicate')
    yield 'CREATE TABLE of CHECKs', one(filled('CREATE TABLE t (a INT,', 'CHECK(1=1)', ');', ',')[0], 'refused 21 Limit')
    named = filled_numbers('CREATE TABLE t (a INT,', 'CONSTRAINT c{n} UNIQUE(a)', ');', ',')[0]
    yield 'CREATE TABLE of keys with names', one(named, 'refused 21 Limit')
    yield 'CREATE TABLE of a column with constraints', one(filled('CREATE TABLE t (a INT ', 'UNIQUE', ');', ' ')[0], 'refused 21 Limit')
    keys = filled('CREATE TABLE t (k INT PRIMARY KEY, a INT ', 'REFERENCES t', ');', ' ')[0]
    yield 'CREATE TABLE of a column with foreign keys', one(keys, 'refused 21 Limit')
    yield 'CREATE TABLE, a key of unknown columns', one(filled_numbers('CREATE TABLE t (a INT, UNIQUE (', 'a{n}', '));')[0], 'refused 1 Unknown')
    yield 'CREATE TABLE, a key of one column', one(filled('CREATE TABLE t (a INT, UNIQUE (', 'a', '));', ',')[0], 'refused 2 Duplicate')
    text = filled("CREATE TABLE t (a VARCHAR(4096) DEFAULT '", 'x', "');")[0]
    yield 'CREATE TABLE, a default of 1 MB', one(text, 'refused 3 SchemaFault')
    check = 'CREATE TABLE t (a INT, CHECK (%s));' % CONDITION
    yield 'CREATE TABLE, a CHECK of 1 MB', one(check, 'ok', 'ok 1', 'ok', after='INSERT INTO t VALUES (1);COMMIT;')
    lists = filled('CREATE TABLE t (a INT PRIMARY KEY, FOREIGN KEY (a) REFERENCES t (', 'a', '));', ',')[0]
    yield 'CREATE TABLE, a list of REFERENCES', one(lists, 'refused 2 Duplicate')
    added = 'ALTER TABLE t ADD CHECK (%s);' % CONDITION
    yield 'ALTER TABLE, a CHECK of 1 MB', one(added, 'ok', 'ok', 'ok 1', 'ok', before=TABLE, after='INSERT INTO t VALUES (1, NULL);COMMIT;')
    yield 'ALTER TABLE, a key of one column', one(filled(TABLE + 'ALTER TABLE t ADD UNIQUE (', 'a', ');', ',')[0], 'ok', 'refused 2 Duplicate')
    yield 'ALTER TABLE, a key of unknown columns', one(filled_numbers(TABLE + 'ALTER TABLE t ADD PRIMARY KEY (', 'a{n}', ');')[0], 'ok', 'refused 1 Unknown')


def of_triggers():
    """CREATE TRIGGER and DROP TRIGGER."""
    head = 'CREATE TRIGGER r AFTER INSERT ON t '
    acts = filled(TABLE + head + 'BEGIN ATOMIC ', 'DELETE FROM t;', 'END;')[0]
    yield 'CREATE TRIGGER of more acts than may be', one(acts, 'ok', 'refused 21 Limit')
    items = filled(TABLE + head + 'REFERENCING ', 'NEW n', ' FOR EACH ROW DELETE FROM t;', ' ')[0]
    yield 'CREATE TRIGGER of one item, again and again', one(items, 'ok', 'refused 2 Duplicate')
    items = filled_numbers(TABLE + head + 'REFERENCING ', 'NEW n{n}', ' FOR EACH ROW DELETE FROM t;', ' ')[0]
    yield 'CREATE TRIGGER of other items', one(items, 'ok', 'refused 3 SchemaFault')
    body = head + 'BEGIN ATOMIC ' + 'DELETE FROM t WHERE %s;' % balanced(LEAF, ' AND ', 9) * 32 + 'END;'
    rest = 'INSERT INTO t VALUES (1, NULL);SELECT COUNT(*) FROM t;ROLLBACK;'
    yield 'CREATE TRIGGER of 32 long acts', one(body, 'ok', 'ok', 'ok 1', 'rows 1', '| 0', 'ok', before=TABLE, after=rest)
    text = 'x' * (SIZE - 200)
    signal = "CREATE TRIGGER r BEFORE INSERT ON t SIGNAL '%s';" % text
    yield 'CREATE TRIGGER, a SIGNAL of 1 MB', one(signal, 'ok', 'ok', "refused 15 Signal R '%s'" % text, before=TABLE, after='INSERT INTO t VALUES (1, NULL);')
    when = head + 'WHEN (%s) INSERT INTO t VALUES (2, NULL);' % balanced('EXISTS (SELECT * FROM t WHERE a > 3)', ' OR ', 14)
    yield 'CREATE TRIGGER, a WHEN of EXISTS', one(when, 'ok', 'ok', 'ok 1', 'rows 1', '| 1', 'ok', before=TABLE, after=rest)
    yield 'DROP TRIGGER', statement(['DROP', 'TRIGGER', 'r'], 'refused 1 Unknown')


def of_rows():
    """INSERT, UPDATE, DELETE and SELECT."""
    few = 'CREATE TABLE t (a INT);'
    yield 'INSERT of more tuples than the budget', one(filled(few + 'INSERT INTO t VALUES ', '(1)', ';', ',')[0], 'ok', 'refused 17 TooManyChanges')
    most = 'INSERT INTO t VALUES ' + ', '.join(['(  1, NULL)'] * 65_535) + ';'
    yield 'INSERT of as many tuples as the budget', one(most, 'ok', 'ok 65535', 'rows 1', '| 65535', 'ok', before=TABLE, after='SELECT COUNT(*) FROM t;COMMIT;')
    yield 'INSERT of one tuple', one(filled(few + 'INSERT INTO t VALUES (', '1', ');', ',')[0], 'ok', 'refused 9 WrongShape')
    yield 'INSERT with a list of one column', one(filled(few + 'INSERT INTO t (', 'a', ') VALUES (1);', ',')[0], 'ok', 'refused 2 Duplicate')
    yield 'INSERT with a list of unknown columns', one(filled_numbers(few + 'INSERT INTO t (', 'a{n}', ') VALUES (1);')[0], 'ok', 'refused 1 Unknown')
    yield 'INSERT of a text of 1 MB', one(filled(TABLE + "INSERT INTO t VALUES (1, '", 'x', "');")[0], 'ok', 'refused 11 TextTooLong')
    yield 'INSERT of a text of quotes', one(filled(TABLE + "INSERT INTO t VALUES (1, '", "''", "');")[0], 'ok', 'refused 11 TextTooLong')
    yield 'INSERT of a sum', one(few + 'INSERT INTO t VALUES (%s);SELECT * FROM t;COMMIT;' % SUM, 'ok', 'ok 1', 'rows 1', '| 131072', 'ok')
    yield 'INSERT of a query of many values', one(filled(few + 'INSERT INTO t SELECT ', 'a', ' FROM t;', ',')[0], 'ok', 'refused 9 WrongShape')
    yield 'UPDATE of one column, again and again', one(filled(few + 'UPDATE t SET ', 'a=1', ';', ',')[0], 'ok', 'refused 2 Duplicate')
    yield 'UPDATE of unknown columns', one(filled_numbers(few + 'UPDATE t SET ', 'a{n}=1', ';')[0], 'ok', 'refused 1 Unknown')
    yield 'UPDATE with a long condition', one('UPDATE t SET a = 2 WHERE %s;' % CONDITION, 'ok', 'ok 1', 'ok 1', 'ok', before=ONE_ROW, after='COMMIT;')
    answers = ['ok', 'ok 1', 'ok 1', 'rows 1', '| 131072', 'ok']
    yield 'UPDATE to a sum', one('UPDATE t SET a = %s;' % SUM, *answers, before=ONE_ROW, after='SELECT a FROM t;COMMIT;')
    yield 'DELETE with a long condition', one('DELETE FROM t WHERE %s;' % CONDITION, 'ok', 'ok 1', 'ok 1', 'ok', before=ONE_ROW, after='COMMIT;')
    values, count = filled(few + 'INSERT INTO t VALUES (7);SELECT ', 'a', ' FROM t;ROLLBACK;', ',')
    yield 'SELECT of half a million values', one(values, 'ok', 'ok 1', 'rows 1', '| ' + ', '.join(['7'] * count), 'ok')
    unknown = filled_numbers(few + 'SELECT ', 'a{n}', ' FROM t;')[0]
    yield 'SELECT of unknown columns', one(unknown, 'ok', 'refused 1 Unknown')
    yield 'SELECT with a long condition', one('SELECT a FROM t WHERE %s;' % CONDITION, 'ok', 'ok 1', 'rows 1', '| 1', 'ok', before=ONE_ROW, after='COMMIT;')
    pairs = '(' * 15 + 't.a = ' + '(' * 15 + '1' + ')' * 30
    many = 'SELECT a FROM t WHERE %s;' % balanced(pairs, ' AND ', 13)
    yield 'SELECT with parentheses of both kinds', one(many, 'ok', 'ok 1', 'rows 1', '| 1', 'ok', before=ONE_ROW, after='COMMIT;')
    zeros = filled(few + 'INSERT INTO t VALUES (', '0', '7);SELECT * FROM t;COMMIT;')[0]
    yield 'a number with half a million zeros before it', one(zeros, 'ok', 'ok 1', 'rows 1', '| 7', 'ok')
    several = 'CREATE TABLE t (a INT);INSERT INTO t VALUES (1), (2), (3), (4);'
    exists = 'SELECT a FROM t WHERE %s;' % balanced('EXISTS (SELECT * FROM t AS x WHERE x.a = t.a + 1)', ' AND ', 14)
    yield 'SELECT with 16,384 EXISTS', one(exists, 'ok', 'ok 4', 'rows 3', '| 1', '| 2', '| 3', 'ok', before=several, after='COMMIT;')


def of_transactions():
    """START TRANSACTION, COMMIT, ROLLBACK, savepoints and SET CONSTRAINTS."""
    yield 'START TRANSACTION', one(spread(['START', 'TRANSACTION']), 'ok', 'end rolled back')
    yield 'COMMIT', statement(['COMMIT', 'WORK'], 'ok')
    yield 'ROLLBACK', statement(['ROLLBACK', 'WORK'], 'ok')
    yield 'SAVEPOINT', statement(['SAVEPOINT', 's'], 'refused 5 NoTransaction')
    yield 'RELEASE SAVEPOINT', statement(['RELEASE', 'SAVEPOINT', 's'], 'refused 5 NoTransaction')
    yield 'ROLLBACK TO SAVEPOINT', statement(['ROLLBACK', 'WORK', 'TO', 'SAVEPOINT', 's'], 'refused 5 NoTransaction')
    before = 'CREATE TABLE t (a INT, CONSTRAINT c CHECK (a > 0) DEFERRABLE);START TRANSACTION;'
    unknown = filled_numbers(before + 'SET CONSTRAINTS ', 'd{n}', ' DEFERRED;')[0]
    yield 'SET CONSTRAINTS of unknown names', one(unknown, 'ok', 'ok', 'refused 1 Unknown', 'end rolled back')
    again = filled(before + 'SET CONSTRAINTS ', 'c', ' DEFERRED;INSERT INTO t VALUES (0);ROLLBACK;', ',')[0]
    yield 'SET CONSTRAINTS of one name, again and again', one(again, 'ok', 'ok', 'ok', 'ok 1', 'ok')
    immediate = filled(before + 'SET CONSTRAINTS c DEFERRED;INSERT INTO t VALUES (0);SET CONSTRAINTS ', 'c', ' IMMEDIATE;ROLLBACK;', ',')[0]
    yield 'SET CONSTRAINTS to IMMEDIATE, refused', one(immediate, 'ok', 'ok', 'ok', 'ok 1', 'refused 13 Violation C row 1', 'ok')


# Many statements.


def refused_at_once(text, answer):
    """One statement as often as there is room."""
    script, count = filled('', text, '')
    return script, answered(*[answer] * count)


def long_names():
    """Names of 128 characters that differ in the last alone: of columns, tables, constraints, triggers and savepoints, and uses of the last of them."""
    names = ['n' * 127 + letter for letter in LETTERS]
    columns, texts = names[:32], []
    texts.append('CREATE TABLE t (%s)' % ', '.join(one + ' INT' for one in columns))
    texts += ['CREATE TABLE %s (a INT CONSTRAINT %s CHECK (a > 0) DEFERRABLE)' % (one, one) for one in names]
    texts += ['CREATE TRIGGER %s BEFORE INSERT ON %s REFERENCING NEW AS n FOR EACH ROW SET n.a = %d' % (one, one, place) for place, one in enumerate(names)]
    answers = ['ok'] * len(texts)
    texts += ['INSERT INTO t (%s) VALUES (%s)' % (', '.join(columns), ', '.join(map(str, range(32))))]
    texts += ['INSERT INTO %s VALUES (9)' % one for one in names[1:]]
    texts += ['SELECT %s, %s FROM t' % (columns[0], columns[31])]
    texts += ['SELECT a FROM %s' % names[-1]]
    answers += ['ok 1'] * 37 + ['rows 1', '| 0, 31', 'rows 1', '| 36']
    texts += ['INSERT INTO %s VALUES (9)' % names[0]]
    answers += ['refused 13 Violation %s row 38' % names[0].upper()]
    texts += ['SAVEPOINT ' + one for one in names] + ['SET CONSTRAINTS %s DEFERRED' % ', '.join(reversed(names))]
    texts += ['RELEASE SAVEPOINT ' + one for one in reversed(names)] + ['RELEASE SAVEPOINT ' + names[0]]
    answers += ['ok'] * 75 + ['refused 7 UnknownSavepoint']
    listed = ', '.join(columns)
    rows = (SIZE - sum(len(text) + 1 for text in texts) - 10) // len('SELECT %s FROM t WHERE %s = 31;' % (listed, columns[31]))
    texts += ['SELECT %s FROM t WHERE %s = 31' % (listed, columns[31])] * rows
    answers += ['rows 1', '| ' + ', '.join(map(str, range(32)))] * rows
    return ';'.join(texts) + ';', answered(*answers, 'end rolled back')


def long_savepoints():
    """Savepoints whose names of 128 characters differ in the last two, and the way back to the first and the last of them, again and again."""
    names = ['n' * 126 + first + second for first in LETTERS for second in LETTERS][:1_000]
    back = ['ROLLBACK TO SAVEPOINT ' + names[-1]] * 5_000
    texts = ['START TRANSACTION', *('SAVEPOINT ' + one for one in names), *back]
    texts += ['ROLLBACK TO SAVEPOINT ' + names[0], 'ROLLBACK TO SAVEPOINT ' + names[1], 'COMMIT']
    return ';'.join(texts) + ';', answered(*['ok'] * (len(texts) - 2), 'refused 7 UnknownSavepoint', 'ok')


def colliding_keys():
    """65,000 numbers whose hashes share their low 20 bits, which are all inserted, changed to others and back, and deleted; and one that is there already."""
    keys = hashes.keys(65_000)
    texts = ['CREATE TABLE t (k INT PRIMARY KEY)', 'INSERT INTO t VALUES ' + ','.join('(%d)' % key for key in keys), 'INSERT INTO t VALUES (%d)' % keys[-1]]
    texts += ['UPDATE t SET k = k + 1', 'UPDATE t SET k = k - 1', 'COMMIT', 'DELETE FROM t', 'ROLLBACK', 'SELECT COUNT(*) FROM t']
    answers = ['ok', 'ok 65000', 'refused 13 Violation T_C1 row 65000', 'ok 65000', 'ok 65000', 'ok', 'ok 65000', 'ok', 'rows 1', '| 65000']
    return ';'.join(texts) + ';', answered(*answers)


def colliding_pairs():
    """40,000 pairs whose hashes share their low 24 bits, which are all inserted, changed to others and back, and deleted; and one that is there already."""
    pairs = hashes.pairs(40_000)
    texts = ['CREATE TABLE t (a INT, b INT, UNIQUE (a, b))', 'INSERT INTO t VALUES ' + ','.join('(%d,%d)' % pair for pair in pairs), 'INSERT INTO t VALUES (%d, %d)' % pairs[-1]]
    texts += ['UPDATE t SET b = b + 1', 'UPDATE t SET b = b - 1', 'COMMIT', 'DELETE FROM t', 'ROLLBACK', 'SELECT COUNT(*) FROM t']
    answers = ['ok', 'ok 40000', 'refused 13 Violation T_C1 row 40000', 'ok 40000', 'ok 40000', 'ok', 'ok 40000', 'ok', 'rows 1', '| 40000']
    return ';'.join(texts) + ';', answered(*answers)


def colliding_children():
    """32,000 such numbers, each with a child, which CASCADE deletes with them: 64,000 row changes in one statement."""
    keys = hashes.keys(32_000)
    texts = ['CREATE TABLE p (k INT PRIMARY KEY)', 'CREATE TABLE c (x INT REFERENCES p ON DELETE CASCADE ON UPDATE CASCADE)']
    texts += ['INSERT INTO p VALUES ' + ','.join('(%d)' % key for key in keys), 'INSERT INTO c SELECT k FROM p', 'COMMIT']
    texts += ['UPDATE p SET k = -k', 'ROLLBACK', 'DELETE FROM p', 'SELECT COUNT(*) FROM c', 'ROLLBACK']
    return ';'.join(texts) + ';', answered('ok', 'ok', 'ok 32000', 'ok 32000', 'ok', 'ok 32000', 'ok', 'ok 32000', 'rows 1', '| 0', 'ok')


def row_triggers(times):
    """256 row triggers on one table that each log a row. Of 127 rows they make 65,024 nested statements and row changes, and with the 127 rows and one for the
    statement that is within the budget. Of 128 rows the budget has 65,407 left for them: it ends at the 32,704th firing, which is one of the 256th trigger."""
    texts = ['CREATE TABLE t (a INT)', 'CREATE TABLE log (a INT)']
    texts += numbered('CREATE TRIGGER r{n} AFTER INSERT ON t REFERENCING NEW AS n FOR EACH ROW INSERT INTO log VALUES (n.a)', 256)
    texts += ['CREATE TRIGGER more AFTER INSERT ON t DELETE FROM log']
    answers = ['ok'] * 258 + ['refused 21 Limit']
    for rows, answer in ((127, 'ok 127'), (128, 'refused 17 TooManyChanges in R256')):
        texts += ['INSERT INTO t VALUES ' + ', '.join(['(1)'] * rows)]
        answers += [answer]
    texts += ['SELECT COUNT(*) FROM log', 'COMMIT'] + ['INSERT INTO t VALUES (1)'] * times + ['COMMIT', 'SELECT COUNT(*) FROM log']
    answers += ['rows 1', '| %d' % (256 * 127), 'ok'] + ['ok 1'] * times + ['ok', 'rows 1', '| %d' % (256 * (127 + times))]
    return ';'.join(texts) + ';', answered(*answers)


def triggers_of_another(times):
    """255 triggers of a table that nothing changes, and one that logs each of 21,000 rows, which come and are taken back again and again: 21,000 nested
    statements each time, with which none of the 255 has to do."""
    texts = ['CREATE TABLE %s (a INT)' % table for table in ('t', 's', 'log', 'other')]
    texts += ['INSERT INTO s VALUES ' + ','.join(['(1)'] * 21_000), 'COMMIT']
    texts += numbered('CREATE TRIGGER r{n} AFTER INSERT ON other REFERENCING NEW AS n FOR EACH ROW INSERT INTO log VALUES (n.a)', 255)
    texts += ['CREATE TRIGGER logs AFTER INSERT ON t REFERENCING NEW AS n FOR EACH ROW INSERT INTO log VALUES (n.a)']
    texts += ['INSERT INTO t SELECT a FROM s', 'SELECT COUNT(*) FROM log', 'ROLLBACK'] * times
    return ';'.join(texts) + ';', answered(*['ok'] * 4, 'ok 21000', 'ok', *['ok'] * 256, *['ok 21000', 'rows 1', '| 21000', 'ok'] * times)


def before_triggers():
    """256 BEFORE triggers on one table that each add one to the new row, over an INSERT of 20,000 rows."""
    texts = ['CREATE TABLE t (a INT)']
    texts += numbered('CREATE TRIGGER r{n} BEFORE INSERT ON t REFERENCING NEW AS n FOR EACH ROW SET n.a = n.a + 1', 256)
    texts += ['INSERT INTO t VALUES ' + ','.join(['(1)'] * 20_000), 'SELECT COUNT(*) FROM t WHERE a = 257', 'COMMIT']
    return ';'.join(texts) + ';', answered(*['ok'] * 257, 'ok 20000', 'rows 1', '| 20000', 'ok')


def chain():
    """64 tables, each of which refers to the one before it, and 1,023 rows in each: an UPDATE or DELETE of the first table changes 65,472 rows, and has one
    change for itself. With a row more in each it would be 65,537, one beyond the budget."""
    texts = ['CREATE TABLE t1 (k INT PRIMARY KEY)']
    texts += ['CREATE TABLE t%d (k INT PRIMARY KEY REFERENCES t%d ON DELETE CASCADE ON UPDATE CASCADE)' % (n, n - 1) for n in range(2, 65)]
    texts += ['INSERT INTO t1 VALUES ' + ', '.join(numbered('({n})', 1_023))]
    texts += ['INSERT INTO t%d SELECT k FROM t%d' % (n, n - 1) for n in range(2, 65)] + ['COMMIT']
    answers = ['ok'] * 64 + ['ok 1023'] * 64 + ['ok']
    texts += ['UPDATE t1 SET k = -k', 'SELECT COUNT(*) FROM t64 WHERE k < 0', 'ROLLBACK', 'DELETE FROM t1', 'SELECT COUNT(*) FROM t64', 'ROLLBACK']
    answers += ['ok 1023', 'rows 1', '| 1023', 'ok', 'ok 1023', 'rows 1', '| 0', 'ok']
    texts += ['INSERT INTO t%d VALUES (0)' % n for n in range(1, 65)] + ['COMMIT', 'DELETE FROM t1', 'UPDATE t1 SET k = k + 1', 'DELETE FROM t1 WHERE k = 0']
    answers += ['ok 1'] * 64 + ['ok', 'refused 17 TooManyChanges', 'refused 17 TooManyChanges', 'ok 1']
    texts += ['SELECT COUNT(*) FROM t64']
    answers += ['rows 1', '| 1023', 'end rolled back']
    return ';'.join(texts) + ';', answered(*answers)


def chain_of_one(times):
    """A chain of 64 tables of one row each, whose first key is changed again and again: 64 waves in each statement."""
    texts = ['CREATE TABLE t1 (k INT PRIMARY KEY)']
    texts += ['CREATE TABLE t%d (k INT PRIMARY KEY REFERENCES t%d ON UPDATE CASCADE)' % (n, n - 1) for n in range(2, 65)]
    texts += ['INSERT INTO t%d VALUES (0)' % n for n in range(1, 65)] + ['COMMIT']
    answers = ['ok'] * 64 + ['ok 1'] * 64 + ['ok']
    texts += ['UPDATE t1 SET k = k + 1'] * times + ['SELECT * FROM t64', 'COMMIT']
    answers += ['ok 1'] * times + ['rows 1', '| %d' % times, 'ok']
    return ';'.join(texts) + ';', answered(*answers)


def to_the_depth():
    """Two triggers that fire each other. The statement of the script is at depth 1 and on T, so those on T are at odd depths and those on U at even ones: the
    one at depth 16 is on U, and the one that its trigger Y has would be at depth 17."""
    before = 'CREATE TABLE t (a INT);CREATE TABLE u (a INT);CREATE TRIGGER x AFTER INSERT ON t INSERT INTO u VALUES (1);'
    script, count = filled(before + 'CREATE TRIGGER y AFTER INSERT ON u INSERT INTO t VALUES (1);', 'INSERT INTO t VALUES(1);', '')
    return script, answered(*['ok'] * 4, *['refused 16 DepthLimit Y'] * count)


DOUBLING = ('CREATE TABLE t (a INT);CREATE TRIGGER x AFTER INSERT ON t REFERENCING NEW AS n FOR EACH ROW WHEN (n.a > 0) '
            'BEGIN ATOMIC INSERT INTO t VALUES (n.a - 1); INSERT INTO t VALUES (n.a - 1); END;')


def to_the_budget(times):
    """A trigger that fires itself twice. With the value 14 there are 2 ** 15 - 1 statements of one row, 65,534 in all, which is within the budget; with 15
    there would be 131,070. The depth is 15 and 16."""
    script = DOUBLING + 'INSERT INTO t VALUES (14);SELECT COUNT(*) FROM t;ROLLBACK;' + 'INSERT INTO t VALUES (15);' * times
    return script, answered('ok', 'ok', 'ok 1', 'rows 1', '| 32767', 'ok', *['refused 17 TooManyChanges in X'] * times)


def with_rows(rows, *more):
    """A table T with columns A from 1 and B, made by doubling, and then other statements."""
    texts, there = ['CREATE TABLE t (a INT, b INT)', 'INSERT INTO t VALUES (1, 0)'], 1
    answers = ['ok', 'ok 1']
    while there < rows:
        added = min(there, rows - there)
        texts += ['INSERT INTO t SELECT a + %d, b FROM t WHERE a <= %d' % (there, added)]
        answers += ['ok %d' % added]
        there += added
    return ';'.join([*texts, *more]) + ';', answers


def exists_twice(rows):
    """An EXISTS over so many rows in an EXISTS over the same, for one row outside: each row of the outer has a next one inside, but for the last."""
    inner = 'EXISTS (SELECT * FROM t AS y WHERE y.a = x.a + 1 AND x.a > %d)' % (rows - 2)
    script, answers = with_rows(rows, 'SELECT COUNT(*) FROM t', 'COMMIT', 'CREATE TABLE one (k INT)', 'INSERT INTO one VALUES (1)',
                                'SELECT k FROM one WHERE EXISTS (SELECT * FROM t AS x WHERE %s)' % inner,
                                'SELECT k FROM one WHERE EXISTS (SELECT * FROM t AS x WHERE x.b > 0 AND %s)' % inner, 'COMMIT')
    return script, answered(*answers, 'rows 1', '| %d' % rows, 'ok', 'ok', 'ok 1', 'rows 1', '| 1', 'rows 0', 'ok')


def exists_thrice(rows):
    """The same over each of so many rows outside: the cube."""
    inner = 'EXISTS (SELECT * FROM t AS y WHERE y.a = x.a + 1)'
    script, answers = with_rows(rows, 'SELECT COUNT(*) FROM t WHERE EXISTS (SELECT * FROM t AS x WHERE x.a = t.a + 1 AND %s)' % inner, 'COMMIT')
    return script, answered(*answers, 'rows 1', '| %d' % (rows - 2), 'ok')


def nested(levels, condition, table):
    """So many EXISTS, each in the one before it, around a condition."""
    for _ in range(levels):
        condition = 'EXISTS (SELECT * FROM %s WHERE %s)' % (table, condition)
    return condition


def deepest():
    """All depths at once, with `--depth 64`: 64 statements nested by triggers, and at each of them a WHEN of depth 64, which are 62 EXISTS over one row. A
    statement that inserts 64 is at depth 1, and that which inserts 1 at depth 64."""
    when = nested(62, 'n.a > 1', 'one')
    texts = ['CREATE TABLE one (k INT)', 'INSERT INTO one VALUES (1)', 'COMMIT', 'CREATE TABLE t (a INT)']
    texts += ['CREATE TRIGGER r AFTER INSERT ON t REFERENCING NEW AS n FOR EACH ROW WHEN (%s) INSERT INTO t VALUES (n.a - 1)' % when]
    texts += ['INSERT INTO t VALUES (64)', 'SELECT COUNT(*) FROM t', 'INSERT INTO t VALUES (65)', 'ROLLBACK']
    return ';'.join(texts) + ';', answered('ok', 'ok 1', 'ok', 'ok', 'ok', 'ok 1', 'rows 1', '| 64', 'refused 16 DepthLimit R', 'ok')


def deepest_expressions():
    """Sums, conditions and CHECKs of depth 64, in a row each: 63 pairs of parentheses around a number, and 62 around a comparison."""
    number, test = '(' * 63 + '1' + ')' * 63, '(' * 62 + 'a = 1' + ')' * 62
    texts = ['CREATE TABLE t (a INT, CHECK (%s))' % test, 'INSERT INTO t VALUES (%s)' % number, 'UPDATE t SET a = %s WHERE %s' % (number, test)]
    texts += ['SELECT %s FROM t WHERE %s' % (number, test)] * 2_000 + ['COMMIT']
    return ';'.join(texts) + ';', answered('ok', 'ok 1', 'ok 1', *['rows 1', '| 1'] * 2_000, 'ok')


def exists_over_two_rows(levels):
    """EXISTS in EXISTS over two rows, so many deep. The condition of each is taken at both rows, so the innermost is taken 2 ** levels times."""
    texts = ['CREATE TABLE two (k INT)', 'INSERT INTO two VALUES (1), (2)', 'SELECT COUNT(*) FROM two WHERE ' + nested(levels - 1, 'k = 3', 'two'), 'COMMIT']
    return ';'.join(texts) + ';', answered('ok', 'ok 2', 'rows 1', '| 0', 'ok')


def condition_over(rows):
    """A condition of 1 MB, which is 16,384 comparisons, over so many rows."""
    script, answers = with_rows(rows, 'SELECT COUNT(*) FROM t WHERE %s' % CONDITION, 'COMMIT')
    return script, answered(*answers, 'rows 1', '| 1', 'ok')


def many_violations():
    """8,000 rows that each violate 63 deferred CHECKs, and have one key."""
    checks = ', '.join(['CHECK (a > 0) INITIALLY DEFERRED'] * 63)
    texts = ['CREATE TABLE t (a INT, %s, UNIQUE (a) INITIALLY DEFERRED)' % checks, 'INSERT INTO t VALUES ' + ', '.join(['(0)'] * 8_000)]
    texts += ['SET CONSTRAINTS ALL IMMEDIATE', 'SAVEPOINT s', 'DELETE FROM t', 'SET CONSTRAINTS ALL IMMEDIATE', 'ROLLBACK TO SAVEPOINT s', 'UPDATE t SET a = 1']
    texts += ['COMMIT', 'SELECT COUNT(*) FROM t']
    answers = ['ok', 'ok 8000', 'refused 13 Violation T_C1 row 1', 'ok', 'ok 8000', 'ok', 'ok', 'ok 8000']
    answers += ['refused 19 CommitRefused T_C64 row 1', 'rows 1', '| 0']
    return ';'.join(texts) + ';', answered(*answers)


def one_parent(rows):
    """So many children of one parent, which all go to another parent and back, are deleted one half after the other, and rolled back."""
    half = rows // 2
    texts = ['CREATE TABLE p (k INT PRIMARY KEY)', 'CREATE TABLE c (n INT, x INT REFERENCES p)', 'INSERT INTO p VALUES (1), (2)']
    texts += ['INSERT INTO c VALUES ' + ','.join('(%d,1)' % n for n in range(1, rows + 1)), 'COMMIT']
    texts += ['UPDATE c SET x = 2', 'UPDATE c SET x = 1 WHERE n > %d' % half, 'UPDATE c SET x = 1']
    texts += ['DELETE FROM c WHERE n > %d' % half, 'DELETE FROM c', 'ROLLBACK', 'SELECT COUNT(*) FROM c WHERE x = 1', 'DELETE FROM c WHERE n <= %d' % half]
    texts += ['DELETE FROM p WHERE k = 1']
    of_all, of_half = 'ok %d' % rows, 'ok %d' % half
    answers = ['ok', 'ok', 'ok 2', of_all, 'ok', of_all, of_half, of_all, of_half, of_half, 'ok', 'rows 1', '| %d' % rows, of_half]
    return ';'.join(texts) + ';', answered(*answers, 'refused 13 Violation C_C1 row %d' % (half + 3), 'end rolled back')


def explained_cascade(rows):
    """So many children of one parent, which CASCADE deletes with it, and a trigger for each statement that sees them; with accounts."""
    texts = ['CREATE TABLE p (k INT PRIMARY KEY)', 'CREATE TABLE c (x INT CONSTRAINT f REFERENCES p ON DELETE CASCADE)']
    texts += ['CREATE TABLE log (n INT)', 'CREATE TRIGGER gone AFTER DELETE ON c INSERT INTO log VALUES (1)', 'INSERT INTO p VALUES (7)']
    texts += ['INSERT INTO c VALUES ' + ','.join(['(7)'] * rows), 'DELETE FROM p', 'ROLLBACK']
    children = range(2, rows + 2)
    lines = ['1 ok', '2 ok', '3 ok', '4 ok', '5 ok 1', '  insert P row 1 (7)', '6 ok %d' % rows, *['  insert C row %d (7)' % n for n in children]]
    lines += ['7 ok 1', '  delete P row 1 (7)', *['  F CASCADE on C row %d' % n for n in children], *['  delete C row %d (7)' % n for n in children]]
    lines += ['  trigger GONE', *['    saw delete C row %d (7)' % n for n in children], '  statement 1', '    insert LOG row %d (1)' % (rows + 2), '8 ok']
    return ';'.join(texts) + ';', '\n'.join(lines) + '\n'


def now_pending(violations):
    """The lines of violations that came."""
    return ['  now pending ' + one for one in violations]


def explained_keys(rows):
    """So many rows that each have the key of another, and as many whose primary key is null, for which COMMIT is refused; with accounts."""
    half = rows // 2
    texts = ['CREATE TABLE t (a INT CONSTRAINT k UNIQUE INITIALLY DEFERRED)', 'CREATE TABLE p (a INT PRIMARY KEY INITIALLY DEFERRED)']
    texts += ['INSERT INTO t VALUES ' + ','.join(numbered('({n})', half)), 'INSERT INTO t SELECT a FROM t', 'INSERT INTO p SELECT NULL FROM t', 'COMMIT']
    lines = ['1 ok', '2 ok', '3 ok %d' % half, *numbered('  insert T row {n} ({n})', half)]
    equal = ['K: T row %d (%d) has the key of row %d (%d)' % (n, n, n + half, n) for n in range(1, half + 1)]
    equal += ['K: T row %d (%d) has the key of row %d (%d)' % (n + half, n, n, n) for n in range(1, half + 1)]
    null = ['P_C1 (PRIMARY KEY (A)): P row %d (NULL) has a null in its key' % n for n in range(rows + 1, 2 * rows + 1)]
    lines += ['4 ok %d' % half, *['  insert T row %d (%d)' % (n + half, n) for n in range(1, half + 1)], *now_pending(equal)]
    lines += ['5 ok %d' % rows, *['  insert P row %d (NULL)' % n for n in range(rows + 1, 2 * rows + 1)], *now_pending(null)]
    lines += ['6 refused 19 CommitRefused K row 1', *['  ' + one for one in equal + null]]
    return ';'.join(texts) + ';', '\n'.join(lines) + '\n'


def explained_nulls(rows):
    """So many rows that each have the key of another, with a null that is equal to a null, for which COMMIT is refused; with accounts."""
    half = rows // 2
    texts = ['CREATE TABLE t (a INT, b INT, CONSTRAINT k UNIQUE NULLS NOT DISTINCT (a, b) INITIALLY DEFERRED)']
    texts += ['INSERT INTO t VALUES ' + ','.join(numbered('({n},NULL)', half)), 'INSERT INTO t SELECT * FROM t', 'COMMIT']
    lines = ['1 ok', '2 ok %d' % half, *numbered('  insert T row {n} ({n}, NULL)', half)]
    equal = ['K: T row %d (%d, NULL) has the key of row %d (%d, NULL)' % (n, n, n + half, n) for n in range(1, half + 1)]
    equal += ['K: T row %d (%d, NULL) has the key of row %d (%d, NULL)' % (n + half, n, n, n) for n in range(1, half + 1)]
    lines += ['3 ok %d' % half, *['  insert T row %d (%d, NULL)' % (n + half, n) for n in range(1, half + 1)], *now_pending(equal)]
    lines += ['4 refused 19 CommitRefused K row 1', *['  ' + one for one in equal]]
    return ';'.join(texts) + ';', '\n'.join(lines) + '\n'


def refused_modes(doublings, times):
    """Two to the power of `doublings` rows that refer to nothing, and so many tries to make their foreign key immediate."""
    texts = ['CREATE TABLE p (k INT PRIMARY KEY)', 'CREATE TABLE t (a INT CONSTRAINT f REFERENCES p INITIALLY DEFERRED)', 'INSERT INTO t VALUES (1)']
    texts += ['INSERT INTO t SELECT a + %d FROM t' % 2 ** n for n in range(doublings)] + ['SET CONSTRAINTS ALL IMMEDIATE'] * times
    answers = ['ok', 'ok', 'ok 1', *['ok %d' % 2 ** n for n in range(doublings)], *['refused 13 Violation F row 1'] * times, 'end rolled back']
    return ';'.join(texts) + ';', answered(*answers)


def few_left(rows):
    """So many rows, of which all but each 4,000th are deleted; statements that look through those that are left, in the same transaction; then all come
    back."""
    left = rows // 4_000
    texts = ['CREATE TABLE t (a INT)', 'INSERT INTO t VALUES ' + ','.join('(%d)' % (n % 4_000 == 0) for n in range(1, rows + 1)), 'COMMIT']
    texts += ['DELETE FROM t WHERE a = 0']
    pair, last = ['SELECT COUNT(*) FROM t WHERE a = 1', 'UPDATE t SET a = 1 WHERE a = 1'], ['ROLLBACK', 'SELECT COUNT(*) FROM t WHERE a = 0']
    times = (SIZE - sum(len(text) + 1 for text in texts + last)) // sum(len(text) + 1 for text in pair)
    answers = ['ok', 'ok %d' % rows, 'ok', 'ok %d' % (rows - left), *['rows 1', '| %d' % left, 'ok %d' % left] * times]
    return ';'.join(texts + pair * times + last) + ';', answered(*answers, 'ok', 'rows 1', '| %d' % (rows - left))


def mended(rows):
    """So many rows that violate a deferred CHECK, of which the later half is mended before the earlier."""
    half = rows // 2
    texts = ['CREATE TABLE t (n INT, a INT, CHECK (a > 0) INITIALLY DEFERRED)', 'INSERT INTO t VALUES ' + ','.join('(%d,0)' % n for n in range(1, rows + 1))]
    texts += ['UPDATE t SET a = 1 WHERE n > %d' % half, 'SET CONSTRAINTS ALL IMMEDIATE', 'UPDATE t SET a = 1 WHERE a = 0', 'COMMIT', 'SELECT COUNT(*) FROM t']
    answers = ['ok', 'ok %d' % rows, 'ok %d' % half, 'refused 13 Violation T_C1 row 1', 'ok %d' % half, 'ok', 'rows 1', '| %d' % rows]
    return ';'.join(texts) + ';', answered(*answers)


def many_constraints():
    """64 tables with 64 deferred CHECKs each, one row in each table that violates all of its own, and lists of all 4,096 names."""
    checks = ', '.join(numbered('CHECK (a > {n}) INITIALLY DEFERRED', 64, 0))
    texts = numbered('CREATE TABLE t{n} (a INT, %s)' % checks, 64)
    names = ['t%d_c%d' % (table, place) for table in range(64, 0, -1) for place in range(64, 0, -1)]
    texts += numbered('INSERT INTO t{n} VALUES (0)', 64) + ['SET CONSTRAINTS ALL IMMEDIATE', 'COMMIT']
    answers = ['ok'] * 64 + ['ok 1'] * 64 + ['refused 13 Violation T1_C1 row 1', 'refused 19 CommitRefused T1_C1 row 1']
    texts += numbered('INSERT INTO t{n} VALUES (63)', 64) + ['SET CONSTRAINTS t64_c64, t64_c63 IMMEDIATE'] + numbered('UPDATE t{n} SET a = 64', 64)
    answers += ['ok 1'] * 64 + ['refused 13 Violation T64_C64 row 64'] + ['ok 1'] * 64
    times = (SIZE - sum(len(text) + 1 for text in texts) - 100) // (len(', '.join(names)) + 28)
    texts += ['SET CONSTRAINTS %s %s' % (', '.join(names), 'IMMEDIATE' if time % 2 else 'DEFERRED') for time in range(times)] + ['COMMIT']
    return ';'.join(texts) + ';', answered(*answers, *['ok'] * (times + 1))


def many_foreign_keys():
    """4,032 foreign keys that refer to one table, whose rows are inserted, shifted and deleted."""
    keys = ', '.join(['FOREIGN KEY (x) REFERENCES p'] * 64)
    texts = ['CREATE TABLE p (k INT PRIMARY KEY)'] + numbered('CREATE TABLE t{n} (x INT, %s)' % keys, 63)
    texts += ['INSERT INTO p VALUES ' + ', '.join(numbered('({n})', 200)), 'INSERT INTO t63 VALUES (200)']
    texts += ['UPDATE p SET k = k - 1', 'DELETE FROM p WHERE k < 200', 'COMMIT']
    return ';'.join(texts) + ';', answered(*['ok'] * 64, 'ok 200', 'ok 1', 'refused 13 Violation T63_C1 row 201', 'ok 199', 'ok')


def saved_with_constraints():
    """A thousand savepoints over 4,096 constraints, each of which keeps their modes."""
    checks = ', '.join(['CHECK (a > 0) DEFERRABLE'] * 64)
    texts = numbered('CREATE TABLE t{n} (a INT, %s)' % checks, 64) + ['START TRANSACTION'] + numbered('SAVEPOINT s{n}', 1_000)
    texts += ['SET CONSTRAINTS ALL DEFERRED', 'INSERT INTO t64 VALUES (0)', 'ROLLBACK TO SAVEPOINT s1000', 'INSERT INTO t64 VALUES (0)']
    texts += ['ROLLBACK TO SAVEPOINT s1', 'COMMIT']
    return ';'.join(texts) + ';', answered(*['ok'] * 1_065, 'ok', 'ok 1', 'ok', 'refused 13 Violation T64_C1 row 1', 'ok', 'ok')


def standing_savepoints(size):
    """As many savepoints of other names as there is room for, the way back to the last and to the first, and the same name again and again."""
    texts, length = ['START TRANSACTION'], 0
    while length < size:
        texts.append('SAVEPOINT s%d' % len(texts))
        length += len(texts[-1]) + 1
    last = len(texts) - 1
    texts += ['ROLLBACK TO SAVEPOINT s%d' % last, 'ROLLBACK TO SAVEPOINT s1', 'RELEASE SAVEPOINT s2', 'COMMIT']
    return ';'.join(texts) + ';', answered(*['ok'] * (last + 3), 'refused 7 UnknownSavepoint', 'ok')


def one_savepoint():
    """The same name again and again, which takes the older one away each time."""
    script, count = filled('START TRANSACTION;', 'SAVEPOINT s;', 'RELEASE SAVEPOINT s;RELEASE SAVEPOINT s;')
    return script, answered('ok', *['ok'] * count, 'ok', 'refused 7 UnknownSavepoint', 'end rolled back')


def cases():
    """All of them; those at the end take longer than ten seconds, or the language asks for as much."""
    for name, text in faults():
        yield Case('fault: ' + name, lambda text=text: (text, FAULT_AT_0))
    yield Case('fault: a letter after as many statements as there may be', commits_and_a_letter)
    yield Case('fault: a text without end after a statement', open_text_after)
    for part in (of_tables, of_triggers, of_rows, of_transactions):
        for name, made in part():
            yield Case('one statement: ' + name, lambda made=made: made)
    yield Case('87,381 statements refused at once', lambda: refused_at_once('SAVEPOINT s;', 'refused 5 NoTransaction'))
    yield Case('74,898 statements of an unknown table', lambda: refused_at_once('DELETE FROM t;', 'refused 1 Unknown'))
    yield Case('names of 128 characters that differ in the last', long_names)
    yield Case('1,000 savepoints of 128 characters that differ in the last two', long_savepoints)
    yield Case('65,000 keys whose hashes share 20 bits', colliding_keys)
    yield Case('40,000 pairs whose hashes share 24 bits', colliding_pairs)
    yield Case('32,000 such keys with a child each', colliding_children)
    yield Case('256 triggers on one table, and 200 statements', lambda: row_triggers(200))
    yield Case('256 BEFORE triggers over 20,000 rows', before_triggers)
    yield Case('255 triggers of another table, beside 1,260,000 nested statements', lambda: triggers_of_another(60))
    yield Case('a chain of 64 tables of 1,023 rows', chain)
    yield Case('a chain of 64 tables of one row, 2,000 times', lambda: chain_of_one(2_000))
    yield Case('triggers that fire each other to the depth', to_the_depth)
    yield Case('a trigger that fires itself to the budget, 10 times', lambda: to_the_budget(10))
    yield Case('an EXISTS in an EXISTS over 2,000 rows', lambda: exists_twice(2_000))
    yield Case('an EXISTS in an EXISTS for each of 150 rows', lambda: exists_thrice(150))
    yield Case('EXISTS in EXISTS over two rows, 18 deep', lambda: exists_over_two_rows(18))
    yield Case('a condition of 1 MB over 100 rows', lambda: condition_over(100))
    yield Case('all depths at once', deepest, words=['--depth', '64'])
    yield Case('expressions and conditions of depth 64', deepest_expressions)
    yield Case('8,000 rows that violate 64 constraints each', many_violations)
    yield Case('10,000 children of one parent', lambda: one_parent(10_000))
    yield Case('an account of a cascade over 60,000 rows', lambda: explained_cascade(60_000), words=['--explain'])
    yield Case('an account of 20,000 rows with the key of another, and 20,000 without one', lambda: explained_keys(20_000), words=['--explain'])
    yield Case('an account of 60,000 rows with the key of another, in which nulls are equal', lambda: explained_nulls(60_000), words=['--explain'])
    yield Case('60,000 rows of which 15 are left, looked through 24,000 times', lambda: few_left(60_000))
    yield Case('30,000 rows that violate one constraint, the later half mended', lambda: mended(30_000))
    yield Case('10,000 times SET CONSTRAINTS beside 65,536 pending rows', lambda: refused_modes(16, 10_000))
    yield Case('4,096 constraints', many_constraints)
    yield Case('4,032 foreign keys to one table', many_foreign_keys)
    yield Case('1,000 savepoints over 4,096 constraints', saved_with_constraints)
    yield Case('savepoints that all stand, 128 KiB', lambda: standing_savepoints(131_000))
    yield Case('87,000 savepoints of one name', one_savepoint)
    yield Case('savepoints that all stand, 1 MB', lambda: standing_savepoints(1_048_000), is_long=True)
    yield Case('256 triggers on one table, and 4,000 statements', lambda: row_triggers(4_000), is_long=True)
    yield Case('a chain of 64 tables of one row, 16,000 times', lambda: chain_of_one(16_000), is_long=True)
    yield Case('a trigger that fires itself to the budget, 200 times', lambda: to_the_budget(200), is_long=True)
    yield Case('an EXISTS in an EXISTS for each of 400 rows', lambda: exists_thrice(400), is_long=True)
    yield Case('EXISTS in EXISTS over two rows, 22 deep', lambda: exists_over_two_rows(22), is_long=True)
    yield Case('60,000 children of one parent', lambda: one_parent(60_000), is_long=True)
    yield Case('60,000 rows that violate one constraint, the later half mended', lambda: mended(60_000), is_long=True)
    yield Case('a condition of 1 MB over 2,000 rows', lambda: condition_over(2_000), is_long=True)
