"""Values, expressions and conditions of random scripts: the text of each, and what it is by guess.

A piece is evaluated over a scope: the rows of all tables under `rows`, and the row of each range under the range's name."""
import operator
from dataclasses import dataclass
from typing import Callable

LEAST, GREATEST = -2 ** 63, 2 ** 63 - 1
TEXTS = ['a', 'b', '', 'ab', 'B', 'a ', "'", 'é', 'bé', 'abc']
SIGNS = {'=': operator.eq, '<>': operator.ne, '<': operator.lt, '<=': operator.le, '>': operator.gt, '>=': operator.ge}
# The three truths in their order; None is unknown.
TRUTHS = [False, None, True]


class Refused(Exception):
    """By guess, the statement is refused."""


@dataclass
class Piece:
    """An expression or a condition."""
    text: str
    value: Callable


def written(value):
    """A value as an expression. The least integer has no number of its own."""
    if value == LEAST:
        return '(-%d - 1)' % GREATEST
    if isinstance(value, str):
        return "'%s'" % value.replace("'", "''")
    return 'NULL' if value is None else str(value)


def some_text(chance, kind):
    """A text that a column of this type holds."""
    return chance.one([text for text in TEXTS if len(text) <= int(kind[8:-1])])


def some_value(chance, kind, null=0.18):
    """A value of a column of this type: few and small ones, so that they meet often."""
    if chance.happens(null):
        return None
    if kind != 'INT':
        return some_text(chance, kind)
    if chance.happens(chance.extreme):
        return chance.one([LEAST, GREATEST])
    return chance.number(-2, 6) if chance.happens(0.5) else chance.number(0, 4)


def some_kept(chance, guess, table, place, share=0.6):
    """A value that some row has in this column, in this share of all cases; otherwise any value."""
    kept = [row[place] for row in guess.rows.get(table.name, {}).values()]
    if kept and chance.happens(share):
        return chance.one(kept)
    return some_value(chance, table.columns[place].kind)


def column(table, place, name=None):
    """A column of a row, after the name of its range where one is given."""
    called, key = table.columns[place].name, name or table.name
    return Piece('%s.%s' % (name, called) if name else called, lambda scope: scope[key][place])


def literal(value):
    return Piece(written(value), lambda scope: value)


def bounded(number):
    if not LEAST <= number <= GREATEST:
        raise Refused
    return number


def joined(left, sign, right):
    """Two integers with a sign between them."""
    do = {'+': operator.add, '-': operator.sub, '*': operator.mul}[sign]

    def value(scope):
        one, other = left.value(scope), right.value(scope)
        return None if one is None or other is None else bounded(do(one, other))
    return Piece('%s %s %s' % (left.text, sign, right.text), value)


def compared(left, sign, right):
    def value(scope):
        one, other = left.value(scope), right.value(scope)
        return None if one is None or other is None else SIGNS[sign](one, other)
    return Piece('%s %s %s' % (left.text, sign, right.text), value)


def is_null(piece, negated):
    return Piece(piece.text + (' IS NOT NULL' if negated else ' IS NULL'), lambda scope: (piece.value(scope) is None) != negated)


def connected(left, word, right):
    """Two conditions with AND or OR between them."""
    best = min if word == 'AND' else max

    def value(scope):
        return TRUTHS[best(TRUTHS.index(left.value(scope)), TRUTHS.index(right.value(scope)))]
    return Piece('%s %s %s' % (left.text, word, right.text), value)


def negated(piece):
    return Piece('NOT (%s)' % piece.text, lambda scope: TRUTHS[2 - TRUTHS.index(piece.value(scope))])


def exists(table, name, condition):
    """EXISTS over a table under a name."""
    shown = table.name if name == table.name else '%s AS %s' % (table.name, name)

    def value(scope):
        return any([condition.value({**scope, name: row}) is True for row in scope['rows'][table.name].values()])
    return Piece('EXISTS (SELECT * FROM %s WHERE %s)' % (shown, condition.text), value)


def expression(chance, guess, table, kind, name=None):
    """An expression of this type over a row of the table."""
    places = [place for place, other in enumerate(table.columns) if (other.kind == 'INT') == (kind == 'INT')]
    if not places or chance.happens(0.2):
        return literal(some_value(chance, kind))
    one = column(table, chance.one(places), name)
    if kind != 'INT' or chance.happens(0.5):
        return one
    other = column(table, chance.one(places), name) if chance.happens(0.3) else literal(chance.number(0, 4))
    return joined(*chance.one([(one, '+', other), (one, '-', other), (other, '-', one), (one, '*', literal(2))]))


def test(chance, guess, table, name=None):
    """A condition without AND, OR and EXISTS over a row of the table."""
    place = chance.number(0, len(table.columns) - 1)
    one, kind = column(table, place, name), table.columns[place].kind
    if chance.happens(0.12):
        return is_null(one, chance.happens(0.5))
    sign = chance.weighed((5, '='), (1, '<>'), (1, '<'), (2, '<='), (1, '>'), (2, '>='))
    if chance.happens(0.12):
        return compared(one, sign, expression(chance, guess, table, kind, name))
    return compared(one, sign, literal(some_kept(chance, guess, table, place)))


def matched(chance, guess, table, name):
    """EXISTS of a row of some table that has a value of the row."""
    inner = chance.one(list(guess.tables.values()))
    alias = inner.name if inner.name != (name or table.name) else 'x'
    one = chance.number(0, len(inner.columns) - 1)
    kind = inner.columns[one].kind
    outer = [place for place, other in enumerate(table.columns) if (other.kind == 'INT') == (kind == 'INT')]
    if not outer:
        return test(chance, guess, table, name)
    link = compared(column(inner, one, alias), chance.one(['=', '=', '=', '<']), column(table, chance.one(outer), name or table.name))
    more = connected(link, 'AND', test(chance, guess, inner, alias)) if chance.happens(0.3) else link
    found = exists(inner, alias, more)
    return negated(found) if chance.happens(0.4) else found


def condition(chance, guess, table, name=None):
    """A condition over a row of the table."""
    if chance.happens(0.14):
        return matched(chance, guess, table, name)
    first = test(chance, guess, table, name)
    if chance.happens(0.7):
        return first
    if chance.happens(0.2):
        return negated(first)
    return connected(first, chance.one(['AND', 'OR']), test(chance, guess, table, name))
