"""Triggers of random scripts. The guess knows nothing of what they do, so there are few, and most have a WHEN."""
from made.pieces import column, compared, condition, expression, is_null, literal, some_value, test, written
from made.rows import after_where
from made.tables import Table, Column

EVENTS = ['INSERT', 'UPDATE', 'DELETE']


def new_log(texts):
    """The table to which triggers write, and its statement."""
    columns = [Column('what', 'INT', None, ''), Column('a', 'INT', None, ''), Column('b', texts, None, '')]
    return Table('log', columns, []), 'CREATE TABLE log (what INT, a INT, b %s)' % texts


def listed(chance, event, table):
    """An event as it is written: some UPDATEs with a list of columns."""
    if event != 'UPDATE' or chance.happens(0.6):
        return event
    names = [one.name for one in table.columns if chance.happens(0.5)] or [table.columns[0].name]
    return 'UPDATE OF ' + ', '.join(names)


def rows_of(chance, event):
    """The row variables of an event, and the one whose values are used."""
    items = {'INSERT': ['NEW AS n'], 'DELETE': ['OLD ROW AS o'], 'UPDATE': ['OLD AS o', 'NEW ROW n']}[event]
    used = {'INSERT': 'n', 'DELETE': 'o', 'UPDATE': chance.one(['o', 'n'])}[event]
    return ' '.join(items), used


def when(chance, guess, table, name, share):
    """A WHEN over a row variable, in this share of all cases."""
    return ' WHEN (%s)' % condition(chance, guess, table, name).text if chance.happens(share) else ''


def of_kind(table, kind, name):
    """The first column of this type, after a name where one is given, or NULL."""
    places = [place for place, one in enumerate(table.columns) if one.kind == kind]
    return column(table, places[0], name).text if places else 'NULL'


def logging(chance, guess, table):
    """AFTER, for each row: its values go to the log."""
    event = chance.one(EVENTS)
    items, used = rows_of(chance, event)
    values = ', '.join([str(chance.number(1, 9)), of_kind(table, 'INT', used), of_kind(table, guess.tables['log'].columns[2].kind, used)])
    head = 'AFTER %s ON %s REFERENCING %s FOR EACH ROW%s' % (listed(chance, event, table), table.name, items, when(chance, guess, table, used, 0.3))
    return '%s INSERT INTO log VALUES (%s)' % (head, values)


def logging_all(chance, guess, table):
    """AFTER, once for the statement: all old or new rows go to the log."""
    event = chance.one(EVENTS)
    side = {'INSERT': 'NEW', 'DELETE': 'OLD', 'UPDATE': chance.one(['OLD', 'NEW'])}[event]
    values = ', '.join([str(chance.number(1, 9)), of_kind(table, 'INT', None), of_kind(table, guess.tables['log'].columns[2].kind, None)])
    where = after_where(test(chance, guess, table)) if chance.happens(0.3) else ''
    return 'AFTER %s ON %s REFERENCING %s TABLE AS changed INSERT INTO log SELECT %s FROM changed%s' % (listed(chance, event, table), table.name, side, values, where)


def setting(chance, guess, table):
    """BEFORE, for each row: a column is set, mostly where it is null."""
    event, place = chance.one(['INSERT', 'UPDATE']), chance.number(0, len(table.columns) - 1)
    one, kind = column(table, place, 'n'), table.columns[place].kind
    items = rows_of(chance, event)[0]
    asked = is_null(one, False) if chance.happens(0.7) else test(chance, guess, table, 'n')
    value = expression(chance, guess, table, kind, 'n') if chance.happens(0.5) else literal(some_value(chance, kind, 0))
    head = 'BEFORE %s ON %s REFERENCING %s FOR EACH ROW WHEN (%s)' % (listed(chance, event, table), table.name, items, asked.text)
    one_act = 'SET %s = %s' % (one.text, value.text)
    return '%s %s' % (head, chance.weighed((3, one_act), (1, 'BEGIN ATOMIC %s; %s; END' % (one_act, one_act))))


def signalling(chance, guess, table):
    """BEFORE or AFTER: some rows are refused."""
    event = chance.one(EVENTS)
    items, used = rows_of(chance, event)
    ints = [place for place, one in enumerate(table.columns) if one.kind == 'INT']
    rare = compared(column(table, chance.one(ints), used), '>', literal(chance.number(2, 5))) if ints else test(chance, guess, table, used)
    time, text = chance.one(['BEFORE', 'AFTER']), written(chance.one(['no', "it's not allowed", '']))
    return '%s %s ON %s REFERENCING %s FOR EACH ROW WHEN (%s) SIGNAL %s' % (time, listed(chance, event, table), table.name, items, rare.text, text)


def guarding(chance, guess, table):
    """BEFORE, once for the statement: refused while a row is there."""
    other = chance.one(list(guess.tables.values()))
    asked = compared(column(other, 0, other.name), '=', literal(some_value(chance, other.columns[0].kind, 0)))
    event = chance.one(EVENTS)
    return "BEFORE %s ON %s WHEN (EXISTS (SELECT * FROM %s WHERE %s)) SIGNAL 'closed'" % (listed(chance, event, table), table.name, other.name, asked.text)


def following(chance, guess, table):
    """AFTER, for each row: rows of some table are deleted or updated."""
    event = chance.one(EVENTS)
    items, used = rows_of(chance, event)
    other = chance.one(list(guess.tables.values()))
    place = chance.number(0, len(other.columns) - 1)
    kind = other.columns[place].kind
    value = of_kind(table, kind, used)
    asked = '%s = %s' % (other.columns[place].name, written(some_value(chance, kind, 0)) if value == 'NULL' else value)
    acts = ['DELETE FROM %s WHERE %s' % (other.name, asked), 'UPDATE %s SET %s = NULL WHERE %s' % (other.name, other.columns[-1].name, asked)]
    head = 'AFTER %s ON %s REFERENCING %s FOR EACH ROW%s' % (listed(chance, event, table), table.name, items, when(chance, guess, table, used, 0.6))
    return '%s %s' % (head, chance.one(acts))


def repeating(chance, guess, table):
    """AFTER: the trigger fires itself, in most scripts without end."""
    event = chance.one(['UPDATE', 'DELETE'])
    name = table.columns[0].name
    act = 'UPDATE %s SET %s = %s' % (table.name, name, name) if event == 'UPDATE' else 'DELETE FROM %s' % table.name
    row = '%s WHERE %s IS NULL' % (table.name, name)
    return 'AFTER %s ON %s WHEN (EXISTS (SELECT * FROM %s)) %s WHERE %s IS NOT NULL' % (listed(chance, event, table), table.name, row, act, name)


def new_trigger(chance, guess, name):
    """A statement that makes a trigger."""
    table = chance.one([one for one in guess.tables.values() if one.name != 'log'])
    make = chance.weighed((6, logging), (4, logging_all), (4, setting), (3, signalling), (1, guarding), (4, following), (2, repeating))
    return 'CREATE TRIGGER %s %s' % (name, make(chance, guess, table))
