"""Databases that are hard to write again: conditions as deep as the language allows, signs before everything, names of up to 128
characters, constraints without a name, all kinds of constraints and triggers."""
from made.chance import Chance
from made.tables import ACTIONS

DEEPEST = 64
LONGEST_NAME = 128
SIGNS = ['=', '<>', '<', '<=', '>', '>=']
TIMES = ['', '', 'NOT DEFERRABLE', 'DEFERRABLE', 'INITIALLY DEFERRED', 'DEFERRABLE INITIALLY IMMEDIATE']
TEXTS = ["''", "''''", "'it''s'", "'é'", "'--'", "'a\nb'", "'\ufeff'"]
NUMBERS = ['0', '1', '7', '9223372036854775807']


class Names:
    """Distinct names, of which many are as long as a name may be."""

    def __init__(self, chance):
        self.chance, self.count = chance, 0

    def new(self, letter):
        self.count += 1
        name = '%s%d' % (letter, self.count)
        length = self.chance.weighed((4, len(name)), (1, 60), (3, self.chance.number(LONGEST_NAME - 3, LONGEST_NAME)))
        return name + '_' + 'x' * (length - len(name) - 1) if length > len(name) + 1 else name


# ---- trees: a text, its depth, and how tightly it binds

SUM, PRODUCT, SIGNED, PRIMARY = range(4)


def within(tree, least):
    """The tree in parentheses if it binds less tightly than this."""
    text, depth, rank = tree
    return tree if rank >= least else ('(%s)' % text, depth + 1, PRIMARY)


def atom(chance, columns):
    text = chance.weighed((6, chance.one(columns)), (2, chance.one(NUMBERS)), (1, 'NULL'))
    return text, 1, PRIMARY


def grown(chance, tree, columns):
    """An expression around this one."""
    other = atom(chance, columns)
    kind = chance.weighed((4, 'sign'), (2, 'left'), (3, 'right'), (2, 'factor'), (1, 'group'))
    if kind == 'sign':
        text, depth, _ = within(tree, PRIMARY)
        return chance.weighed((4, '-'), (1, '+')) + text, depth + 1, SIGNED
    if kind == 'group':
        return within((tree[0], tree[1], -1), PRIMARY)
    if kind == 'factor':
        left, right = within(tree, PRODUCT), within(other, SIGNED)
        left, right = (left, right) if chance.happens(0.5) else (right, within(tree, SIGNED))
        return '%s * %s' % (left[0], right[0]), 1 + max(left[1], right[1]), PRODUCT
    left, right = (tree, within(other, PRODUCT)) if kind == 'left' else (other, within(tree, PRODUCT))
    return '%s %s %s' % (left[0], chance.one('+-'), right[0]), 1 + max(left[1], right[1]), SUM


def expression(chance, columns, deepest):
    """An expression of integers that is no deeper than this."""
    tree = atom(chance, columns)
    wanted = chance.weighed((3, 1), (2, chance.number(1, deepest)), (1, deepest))
    while tree[1] < wanted:
        more = grown(chance, tree, columns)
        if more[1] > deepest:
            break
        tree = more
    return tree[0], tree[1]


def comparison(chance, columns, deepest):
    text, depth = expression(chance, columns, deepest - 1)
    if chance.happens(0.2):
        return text + chance.one([' IS NULL', ' IS NOT NULL']), depth + 1
    return '%s %s %s' % (text, chance.one(SIGNS), chance.one(NUMBERS)), depth + 1


def condition(chance, columns, deepest=DEEPEST):
    """A condition that is no deeper than this."""
    text, depth = comparison(chance, columns, deepest - chance.weighed((2, 0), (1, chance.number(0, deepest - 2))))
    wanted = chance.weighed((2, depth), (1, deepest))
    while depth + 3 <= wanted:
        other = comparison(chance, columns, 3)[0]
        text, depth = chance.one([
            ('NOT (%s)' % text, depth + 2),
            ('(%s) AND %s' % (text, other), max(depth + 2, 4)),
            ('%s OR (%s)' % (other, text), max(depth + 2, 4)),
        ])
    return text


# ---- tables

class Table:
    """A table: its name, the names of its columns of integers, and the keys that may be referred to."""

    def __init__(self, names, chance):
        self.name, self.columns = names.new('t'), [names.new('c') for _ in range(chance.number(1, 4))]
        self.text, self.keys, self.has_primary = names.new('v'), [], False


def given(chance, names):
    return 'CONSTRAINT %s ' % names.new('k') if chance.happens(0.4) else ''


def time(chance):
    return ' ' + chance.one(TIMES)


def key(chance, table, names):
    """A key of the table; one that isn't deferrable may be referred to."""
    columns = chance.several(table.columns, chance.weighed((3, 1), (1, 2)))
    kind = chance.weighed((1, 'UNIQUE'), (1, 'UNIQUE NULLS NOT DISTINCT'), (0 if table.has_primary else 2, 'PRIMARY KEY'))
    table.has_primary = table.has_primary or kind == 'PRIMARY KEY'
    when = time(chance) if chance.happens(0.3) else ''
    if 'DEFER' not in when.replace('NOT DEFERRABLE', ''):
        table.keys.append(columns)
    return '%s%s (%s)%s' % (given(chance, names), kind, ', '.join(columns), when)


def reference(chance, table, parents, names):
    """A foreign key of the table, or nothing where none of these tables has a key that fits."""
    found = [(parent, columns) for parent in parents for columns in parent.keys if len(columns) <= len(table.columns)]
    if not found:
        return None
    parent, columns = chance.one(found)
    own = chance.several(table.columns, len(columns))
    match = chance.weighed((3, ''), (1, ' MATCH FULL'))
    actions = ' ON DELETE %s ON UPDATE %s' % (chance.one(ACTIONS), chance.one(ACTIONS))
    return '%sFOREIGN KEY (%s) REFERENCES %s (%s)%s%s%s' % (
        given(chance, names), ', '.join(own), parent.name, ', '.join(columns), match, actions, time(chance))


def check(chance, table, names):
    return '%sCHECK (%s)%s' % (given(chance, names), condition(chance, table.columns), time(chance))


def column(chance, table, name, names):
    default = chance.weighed((3, ''), (1, ' DEFAULT -9223372036854775807'), (1, ' DEFAULT 3'))
    parts = ['%s INT%s' % (name, default)]
    if chance.happens(0.2):
        parts.append('%sNOT NULL%s' % (given(chance, names), time(chance)))
    if chance.happens(0.1):
        parts.append('%sCHECK (%s)' % (given(chance, names), condition(chance, [name])))
    return ' '.join(parts)


def create(chance, table, parents, names):
    elements = [column(chance, table, name, names) for name in table.columns]
    elements.append('%s VARCHAR(30)%s' % (table.text, chance.weighed((2, ''), (1, ' DEFAULT ' + chance.one(TEXTS)))))
    elements += [key(chance, table, names) for _ in range(chance.weighed((1, 0), (3, 1), (1, 2)))]
    elements += [check(chance, table, names) for _ in range(chance.number(0, 2))]
    elements += [reference(chance, table, [*parents, table], names) for _ in range(chance.number(0, 2))]
    return 'CREATE TABLE %s (%s)' % (table.name, ', '.join(one for one in elements if one))


def add(chance, table, tables, names):
    one = chance.weighed((2, check(chance, table, names)), (3, reference(chance, table, tables, names)))
    return 'ALTER TABLE %s ADD %s' % (table.name, one) if one else None


# ---- rows and triggers

def insert(chance, table):
    number = [('-' if chance.happens(0.3) else '') + chance.one(NUMBERS) for _ in table.columns]
    values = [chance.weighed((3, str(chance.number(-2, 3))), (1, value), (1, 'NULL'), (1, 'DEFAULT')) for value in number]
    return '(%s)' % ', '.join([*values, chance.one([*TEXTS, 'NULL'])])


def inserts(chance, table):
    return ['INSERT INTO %s VALUES %s' % (table.name, insert(chance, table)) for _ in range(chance.number(0, 6))]


def body(chance, table, rows):
    """A statement of a trigger on the table, which sees these names of columns."""
    where = condition(chance, table.columns, chance.one([6, 20, DEEPEST]))
    # As a side of a comparison within EXISTS.
    value = expression(chance, rows, chance.one([2, 10, DEEPEST - 2]))[0]
    return chance.one([
        'UPDATE %s SET %s = %s WHERE %s' % (table.name, table.columns[0], value, where),
        'DELETE FROM %s WHERE EXISTS (SELECT * FROM %s AS q WHERE q.%s = %s)' % (table.name, table.name, table.columns[0], value),
        'INSERT INTO %s (%s) VALUES (%s), (DEFAULT)' % (table.name, table.columns[-1], value),
        'INSERT INTO %s (%s) SELECT %s FROM %s WHERE %s' % (table.name, table.columns[0], table.columns[-1], table.name, where),
        'SIGNAL %s' % chance.one(TEXTS),
    ])


def trigger(chance, table, tables, names):
    """A trigger of the table; its conditions are mostly false, and it is made after the rows."""
    event = chance.one(['INSERT', 'UPDATE', 'DELETE', 'UPDATE OF ' + table.columns[0]])
    row = names.new('r')
    side = 'OLD' if event == 'DELETE' else 'NEW'
    rows = ['%s.%s' % (row, one) for one in table.columns]
    when = ' WHEN (%s)' % condition(chance, rows, chance.one([4, 30, DEEPEST])) if chance.happens(0.7) else ''
    name = names.new('g')
    if side == 'NEW' and chance.happens(0.25):
        acts = ['SET %s = %s' % (rows[0], expression(chance, rows, chance.one([3, DEEPEST]))[0]), "SIGNAL 'no'"]
        acts = acts[:chance.number(1, 2)]
        head = 'BEFORE'
    else:
        acts = [body(chance, chance.one(tables), rows) for _ in range(chance.number(1, 3))]
        head = 'AFTER'
    done = acts[0] if len(acts) == 1 else 'BEGIN ATOMIC %s; END' % '; '.join(acts)
    return 'CREATE TRIGGER %s %s %s ON %s REFERENCING %s AS %s FOR EACH ROW%s %s' % (name, head, event, table.name, side, row, when, done)


def script(seed):
    """The script that makes the database of this seed. Some of its statements are refused."""
    chance = Chance(seed)
    names, tables, statements = Names(chance), [], []
    for _ in range(chance.number(1, 3)):
        table = Table(names, chance)
        statements.append(create(chance, table, tables, names))
        tables.append(table)
        statements += [*inserts(chance, table), 'COMMIT']
        if chance.happens(0.3):
            statements.append(add(chance, chance.one(tables), tables, names))
    statements += [add(chance, chance.one(tables), tables, names) for _ in range(chance.number(0, 2))]
    statements += [trigger(chance, chance.one(tables), tables, names) for _ in range(chance.weighed((1, 0), (2, 1), (2, 3)))]
    return ';\n'.join(one for one in statements if one) + ';\n'
