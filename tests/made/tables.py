"""Tables and constraints of random scripts."""
from dataclasses import dataclass, field
from typing import Optional

from made.pieces import Piece, column, compared, connected, is_null, joined, literal, negated, some_text, written

NULLS_NOT_DISTINCT = 'UNIQUE NULLS NOT DISTINCT'
UNIQUES = ('UNIQUE', NULLS_NOT_DISTINCT)
KEYS = (*UNIQUES, 'PRIMARY KEY')
ACTIONS = ['NO ACTION', 'CASCADE', 'CASCADE', 'CASCADE', 'SET NULL', 'SET NULL', 'SET DEFAULT', 'RESTRICT']


@dataclass
class Column:
    name: str
    kind: str
    default: object
    text: str


@dataclass
class Constraint:
    """A constraint on some columns, given by their places. Of a foreign key, `key` are the places of the parent's columns, and `tail`
    is its text from REFERENCES on."""
    kind: str
    places: list
    time: str
    condition: Optional[Piece] = None
    table: str = ''
    name: str = ''
    given: str = ''
    parent: str = ''
    key: list = field(default_factory=list)
    full: bool = False
    on_delete: str = 'NO ACTION'
    on_update: str = 'NO ACTION'
    tail: str = ''

    @property
    def deferred(self):
        return 'INITIALLY DEFERRED' in self.time

    @property
    def deferrable(self):
        return self.deferred or 'DEFERRABLE' in self.time.replace('NOT DEFERRABLE', '')

    def text(self, columns, inside=False):
        """The constraint as a part of its column, or as an element of its table."""
        listed = '(%s)' % ', '.join(columns[place].name for place in self.places)
        kind = '' if inside and self.kind == 'FOREIGN KEY' else self.kind
        listed = '(%s)' % self.condition.text if self.condition else '' if inside else listed
        return ' '.join(part for part in (self.given and 'CONSTRAINT ' + self.given, kind, listed, self.tail, self.time) if part)


@dataclass
class Table:
    name: str
    columns: list
    constraints: list

    def key(self):
        """The primary key, where there is one."""
        return next((one for one in self.constraints if one.kind == 'PRIMARY KEY'), None)


def new_column(chance, texts, name):
    kind = chance.weighed((7, 'INT'), (3, texts))
    default = chance.weighed((1, None), (4, some_text(chance, kind) if kind != 'INT' else chance.number(-2, 6)))
    shown = ' DEFAULT ' + written(default) if chance.happens(0.3) else ''
    return Column(name, kind, default if shown else None, '%s %s%s' % (name, kind, shown))


def some_time(chance, is_key):
    """When a constraint is checked; most keys are NOT DEFERRABLE, since a foreign key may name no others."""
    if chance.happens(0.75 if is_key else 0.45):
        return chance.weighed((6, ''), (1, 'NOT DEFERRABLE'), (1, 'INITIALLY IMMEDIATE'))
    return chance.weighed((3, 'DEFERRABLE'), (4, 'INITIALLY DEFERRED'), (1, 'DEFERRABLE INITIALLY DEFERRED'),
                          (1, 'INITIALLY DEFERRED DEFERRABLE'), (1, 'DEFERRABLE INITIALLY IMMEDIATE'))


def some_places(chance, table, most):
    """Between one and so many columns of the table, in any order."""
    return chance.several(range(len(table.columns)), chance.weighed((5, 1), (4, min(2, most)), (2, most)))


def some_check(chance, table):
    """A CHECK that most rows satisfy."""
    place = chance.number(0, len(table.columns) - 1)
    one, kind = column(table, place), table.columns[place].kind
    if kind != 'INT':
        return chance.one([compared(one, '<>', literal('ab')), compared(one, '>=', literal('B')), is_null(one, True)])
    other = chance.one([column(table, at) for at, each in enumerate(table.columns) if each.kind == 'INT'])
    loose = [compared(one, '>=', literal(chance.number(-2, 0))), compared(one, '<', literal(chance.number(5, 9))),
             compared(one, '<>', literal(chance.number(-1, 6))), negated(compared(one, '=', literal(chance.number(4, 6)))),
             compared(joined(one, '+', other), '<', literal(chance.number(7, 11))),
             connected(compared(one, '<=', other), 'OR', compared(one, '<', literal(4))),
             connected(is_null(one, False), 'OR', compared(one, '>', literal(-2))), compared(joined(one, '*', literal(2)), '<=', literal(11))]
    return chance.one(loose)


def again(chance, table):
    """The columns of another foreign key of the table, which two keys may then set to different values, or none."""
    others = [one.places for one in table.constraints if one.kind == 'FOREIGN KEY']
    return chance.one(others) if others and chance.happens(0.5) else []


def paired(chance, table, parent, key, wanted):
    """Columns of the table for these columns of the parent, of the same types, or None where there are too few."""
    places = []
    for other in key:
        fitting = [place for place, one in enumerate(table.columns) if one.kind == parent.columns[other].kind and place not in places]
        if not fitting:
            return None
        places.append(chance.one([place for place in fitting if place in wanted] or fitting))
    return places


def new_reference(chance, tables, table):
    """A foreign key of the table to a key of one of these tables, or None where that one doesn't fit."""
    keys = [(parent, key) for parent in tables for key in parent.constraints if key.kind in KEYS and not key.deferrable]
    if not keys:
        return None
    parent, named = chance.one(keys)
    unlisted = named.kind == 'PRIMARY KEY' and chance.happens(0.6)
    key = list(named.places) if unlisted else chance.several(named.places, len(named.places))
    places = paired(chance, table, parent, key, again(chance, table))
    if places is None or parent is table and places == key:
        return None
    match = chance.weighed((6, ''), (1, 'MATCH SIMPLE'), (3, 'MATCH FULL'))
    on_delete, on_update = chance.one(ACTIONS), chance.one(ACTIONS)
    actions = chance.several(['ON DELETE ' + on_delete, 'ON UPDATE ' + on_update], 2)
    shown = [one for one in actions if not (one.endswith('NO ACTION') and chance.happens(0.6))]
    listed = '' if unlisted else '(%s)' % ', '.join(parent.columns[place].name for place in key)
    tail = ' '.join(part for part in ('REFERENCES', parent.name, listed, match, *shown) if part)
    whole = {'parent': parent.name, 'key': key, 'full': match == 'MATCH FULL', 'on_delete': on_delete, 'on_update': on_update, 'tail': tail}
    return Constraint('FOREIGN KEY', places, some_time(chance, False), **whole)


def some_reference(chance, tables, table):
    """A foreign key of the table, where one of a few tries fits."""
    return next((one for one in (new_reference(chance, tables, table) for _ in range(4)) if one), None)


def new_constraints(chance, tables, table):
    """The constraints of a new table: its keys first, since its own foreign keys may name them."""
    if chance.happens(0.6):
        table.constraints.append(Constraint('PRIMARY KEY', some_places(chance, table, 3), some_time(chance, True)))
    uniques = chance.weighed((5, 0), (4, 1), (1, 2))
    table.constraints += [Constraint(chance.one(UNIQUES), some_places(chance, table, 3), some_time(chance, True)) for _ in range(uniques)]
    nulls = [place for place in range(len(table.columns)) if chance.happens(0.12)]
    table.constraints += [Constraint('NOT NULL', [place], some_time(chance, False)) for place in nulls]
    checks = chance.weighed((6, 0), (3, 1), (1, 2))
    table.constraints += [Constraint('CHECK', [], some_time(chance, False), some_check(chance, table)) for _ in range(checks)]
    references = chance.weighed((2, 0), (5, 1), (3, 2)) if tables else chance.weighed((3, 0), (1, 1))
    made = [some_reference(chance, [*tables, *tables, table], table) for _ in range(references)]
    table.constraints += [one for one in made if one]


def named(chance, table, constraint, number, names):
    """Gives a constraint its table and its name: one of its own, or the one that is made from its number."""
    if chance.happens(0.35):
        constraint.given = 'k%d' % (len(names) + 1)
        names.append(constraint.given)
    constraint.table, constraint.name = table.name, constraint.given or '%s_c%d' % (table.name, number)


def new_table(chance, tables, texts, name, names):
    """A table with its constraints, and the statement that makes it."""
    count = chance.weighed((1, 1), (4, 2), (4, 3), (2, 4))
    table = Table(name, [new_column(chance, texts, letter) for letter in 'abcd'[:count]], [])
    new_constraints(chance, tables, table)
    alone = [one.kind == 'NOT NULL' or len(one.places) < 2 and chance.happens(0.6) for one in table.constraints]
    inside = [(one.places or [count - 1])[0] if own else None for own, one in zip(alone, table.constraints)]
    elements = [(column, [one for one, place in zip(table.constraints, inside) if place == at]) for at, column in enumerate(table.columns)]
    for one in [one for one, place in zip(table.constraints, inside) if place is None]:
        elements.insert(chance.number(1, len(elements)), (None, [one]))
    return table, 'CREATE TABLE %s (%s)' % (name, ', '.join(laid_out(chance, table, elements, names)))


def laid_out(chance, table, elements, names):
    """The texts of the elements, which are a column with its constraints, or a constraint without a column. The constraints of
    the table come in the order of these texts, and get their names."""
    table.constraints = [one for _, own in elements for one in own]
    for number, one in enumerate(table.constraints, 1):
        named(chance, table, one, number, names)
    parts = [[column.text if column else ''] + [one.text(table.columns, bool(column)) for one in own] for column, own in elements]
    return [' '.join(part for part in texts if part) for texts in parts]


def new_addition(chance, tables, table, names):
    """A constraint for ALTER TABLE ADD, and its statement."""
    kind = chance.weighed((3, chance.one(UNIQUES)), (0 if table.key() else 2, 'PRIMARY KEY'), (3, 'CHECK'), (5, 'FOREIGN KEY'))
    one = some_reference(chance, tables, table) if kind == 'FOREIGN KEY' else None
    if kind in KEYS:
        one = Constraint(kind, some_places(chance, table, 3), some_time(chance, True))
    one = one or Constraint('CHECK', [], some_time(chance, False), some_check(chance, table))
    named(chance, table, one, len(table.constraints) + 1, names)
    return one, 'ALTER TABLE %s ADD %s' % (table.name, one.text(table.columns))
