"""Data statements of random scripts, with the changes of rows that they make by guess."""
from dataclasses import dataclass
from typing import Callable, Optional

from made.guess import key_of
from made.pieces import column, compared, condition, connected, expression, joined, literal, some_kept, some_value, written


@dataclass
class Statement:
    """The text of a statement without its semicolon, and its kind: what it is answered where it is accepted (`rows` with a
    count of rows it changes, `query` with rows, `other` with nothing). `changes` gives the changes of a data statement from all
    rows and the next row number: table, number and the new row, or None where it goes."""
    text: str
    kind: str = 'other'
    changes: Optional[Callable] = None


def found(rows, table, where):
    """The rows of a table, by number, where a condition is true, or all without one."""
    own = rows[table.name].items()
    return [(number, row) for number, row in own if where is None or where.value({'rows': rows, table.name: row}) is True]


def some_where(chance, guess, table, share):
    """A condition, or None in this share of all cases."""
    return None if chance.happens(share) else condition(chance, guess, table)


def after_where(where):
    return ' WHERE ' + where.text if where else ''


# INSERT.


def some_row(chance, guess, table):
    """Values for a row, of which the foreign keys mostly name rows that are there."""
    needed = {place for one in table.constraints if one.kind in ('NOT NULL', 'PRIMARY KEY') for place in one.places}
    row = [some_value(chance, one.kind, 0 if place in needed else 0.15) for place, one in enumerate(table.columns)]
    for key in [one for one in table.constraints if one.kind == 'FOREIGN KEY']:
        refer(chance, guess, key, row, needed)
    return row


def refer(chance, guess, key, row, needed):
    """Sets the columns of a foreign key: mostly to a key that is there, or else to nulls where they may be null."""
    parents = list(guess.rows[key.parent].values())
    own = key_of(row, key.places)
    nulls = own if needed & set(key.places) else [None] * len(key.places)
    there = key_of(chance.one(parents), key.key) if parents else nulls
    for place, value in zip(key.places, chance.weighed((8, there), (1, nulls), (1, own))):
        row[place] = value


def shown(chance, value, one):
    """A value of a new row as it is written in VALUES."""
    if value == one.default and chance.happens(0.4):
        return 'DEFAULT'
    plain = isinstance(value, int) and abs(value) < 100 and chance.happens(0.06)
    return '%d + %s' % (value - 1, written(1)) if plain else written(value)


def insert_values(chance, guess, table):
    rows = [some_row(chance, guess, table) for _ in range(chance.weighed((4, 1), (3, 2), (3, 3), (2, 5)))]
    places = list(range(len(table.columns)))
    listed = ''
    if chance.happens(0.35):
        places = chance.several(places, chance.number(max(1, len(places) - 1), len(places)))
        listed = ' (%s)' % ', '.join(table.columns[place].name for place in places)
    rows = [tuple(value if place in places else table.columns[place].default for place, value in enumerate(row)) for row in rows]
    tuples = ['(%s)' % ', '.join(shown(chance, row[place], table.columns[place]) for place in places) for row in rows]
    return inserted('%s%s VALUES %s' % (table.name, listed, ', '.join(tuples)), table, lambda all_rows: rows)


def inserted(text, table, rows_of):
    """An INSERT of the rows that come from all rows."""
    def changes(rows, number):
        return [(table.name, number + place, tuple(row)) for place, row in enumerate(rows_of(rows))]
    return Statement('INSERT INTO ' + text, 'rows', changes)


def insert_defaults(chance, guess, table):
    return inserted('%s DEFAULT VALUES' % table.name, table, lambda rows: [tuple(one.default for one in table.columns)])


def insert_query(chance, guess, table):
    """INSERT of a query over some table, often over the same one with its integers moved."""
    source = table if chance.happens(0.4) else chance.one(list(guess.tables.values()))
    where = some_where(chance, guess, source, 0.3)
    if source is table and chance.happens(0.5):
        step = literal(chance.number(1, 5))
        own = [column(table, place) for place in range(len(table.columns))]
        values = [joined(piece, '+', step) if one.kind == 'INT' else piece for one, piece in zip(table.columns, own)]
    else:
        values = [expression(chance, guess, source, one.kind) for one in table.columns]
    values = [value if fits(one, value, guess, source) else literal(None) for one, value in zip(table.columns, values)]

    def rows_of(rows):
        return [tuple(value.value({'rows': rows, source.name: row}) for value in values) for _, row in found(rows, source, where)]
    listed = ', '.join(value.text for value in values)
    return inserted('%s SELECT %s FROM %s%s' % (table.name, listed, source.name, after_where(where)), table, rows_of)


def fits(one, value, guess, source):
    """Whether the rows of the source give no text that is too long for the column."""
    texts = [row for row in guess.rows[source.name].values()] if one.kind != 'INT' else []
    return all([len(value.value({source.name: row}) or '') <= int(one.kind[8:-1]) for row in texts])


def insert(chance, guess, table):
    make = chance.weighed((30, insert_values), (8, insert_query), (2, insert_defaults))
    return make(chance, guess, table)


# UPDATE.


def updated(table, assignments, where):
    """An UPDATE that sets these places to these pieces; a piece of None is DEFAULT."""
    pieces = [(place, piece or literal(table.columns[place].default)) for place, piece in assignments]

    def new_row(rows, row):
        scope = {'rows': rows, table.name: row}
        values = {place: piece.value(scope) for place, piece in pieces}
        return tuple(values.get(place, value) for place, value in enumerate(row))

    def changes(rows, number):
        return [(table.name, number, new_row(rows, row)) for number, row in found(rows, table, where)]
    sets = ', '.join('%s = %s' % (table.columns[place].name, piece.text if piece else 'DEFAULT') for place, piece in assignments)
    return Statement('UPDATE %s SET %s%s' % (table.name, sets, after_where(where)), 'rows', changes)


def update_shift(chance, guess, table):
    """Integers that move by one or change places."""
    places = [place for place, one in enumerate(table.columns) if one.kind == 'INT']
    if not places:
        return update_some(chance, guess, table)
    chosen, where = chance.several(places, chance.weighed((3, 1), (1, 2))), some_where(chance, guess, table, 0.5)
    first, sign, last = chance.one([(None, '+', literal(1)), (None, '-', literal(1)), (literal(3), '-', None), (literal(5), '-', None)])
    columns = [column(table, place) for place in chosen]
    return updated(table, [(place, joined(first or one, sign, last or one)) for place, one in zip(chosen, columns)], where)


def update_swap(chance, guess, table):
    """Two columns that change places."""
    pairs = [(one, other) for one in range(len(table.columns)) for other in range(one) if table.columns[one].kind == table.columns[other].kind]
    if not pairs:
        return update_shift(chance, guess, table)
    one, other = chance.one(pairs)
    return updated(table, [(one, column(table, other)), (other, column(table, one))], some_where(chance, guess, table, 0.4))


def update_some(chance, guess, table):
    """Some columns that are set to a value, an expression, NULL or DEFAULT."""
    chosen = chance.several(range(len(table.columns)), chance.weighed((6, 1), (3, 2), (1, 3)))
    values = [literal(value) for value in some_row(chance, guess, table)]
    pieces = [(place, set_to(chance, guess, table, place, values[place])) for place in chosen]
    return updated(table, pieces, some_where(chance, guess, table, 0.12))


def set_to(chance, guess, table, place, value):
    """What a column is set to: DEFAULT is None."""
    kept, same = literal(some_kept(chance, guess, table, place, 0.9)), column(table, place)
    other = expression(chance, guess, table, table.columns[place].kind)
    return chance.weighed((6, value), (2, kept), (2, other), (1, literal(None)), (1, None), (1, same))


def update(chance, guess, table):
    make = chance.weighed((3, update_shift), (1, update_swap), (5, update_some))
    return make(chance, guess, table)


# DELETE.


def delete(chance, guess, table):
    return deleted(table, some_where(chance, guess, table, 0.06))


def deleted(table, where):
    """A DELETE of the rows where a condition is true, or of all."""
    def changes(rows, number):
        return [(table.name, number, None) for number, row in found(rows, table, where)]
    return Statement('DELETE FROM %s%s' % (table.name, after_where(where)), 'rows', changes)


# Parents.


def referring(guess):
    """The foreign keys that some row refers by, each with such a key."""
    keys = [one for one in guess.constraints if one.kind == 'FOREIGN KEY']
    held = [(one, key_of(row, one.places)) for one in keys for row in guess.rows[one.table].values()]
    return [(one, key) for one, key in held if None not in key]


def touch(chance, guess, table):
    """An UPDATE or DELETE of a row to which another one refers, in whatever table it is; often a row that refers itself too."""
    held = referring(guess)
    if not held:
        return insert(chance, guess, table)
    middle = [(one, key) for one, key in held if one.table in [other.parent for other, _ in held]]
    one, key = chance.one(middle if middle and chance.happens(0.5) else held)
    parent = guess.tables[one.parent]
    tests = [compared(column(parent, place), '=', literal(value)) for place, value in zip(one.key, key)]
    where = tests[0] if len(tests) == 1 or chance.happens(0.3) else connected(tests[0], 'AND', tests[1])
    if chance.happens(0.4):
        return deleted(parent, where)
    places = chance.several(one.key, chance.weighed((3, 1), (1, 2)))
    others = [place for place in range(len(parent.columns)) if place not in places and chance.happens(0.2)]
    pieces = [(place, literal(some_value(chance, parent.columns[place].kind, 0.04))) for place in places + others]
    return updated(parent, pieces, where)


def data(chance, guess, table):
    """A data statement; a table with few rows rather gets some."""
    few = len(guess.rows[table.name]) < 4
    weights = (8, 3, 3, 1) if few else (3, 7, 7, 2)
    return chance.weighed(*zip(weights, (insert, touch, update, delete)))(chance, guess, table)
