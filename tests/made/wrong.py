"""Statements of random scripts that are refused before any row is looked at, or for a value that doesn't fit."""
from made.pieces import GREATEST
from made.rows import Statement


def no_table(chance, guess, table):
    return Statement('SELECT * FROM nowhere', 'query')


def no_column(chance, guess, table):
    return Statement('UPDATE %s SET z = 1' % table.name, 'rows')


def no_trigger(chance, guess, table):
    return Statement('DROP TRIGGER nowhere')


def column_twice(chance, guess, table):
    return Statement('INSERT INTO %s (a, a) VALUES (NULL, NULL)' % table.name, 'rows')


def table_twice(chance, guess, table):
    return Statement('CREATE TABLE %s (a INT)' % table.name)


def name_twice(chance, guess, table):
    return Statement('ALTER TABLE %s ADD CONSTRAINT %s CHECK (1 = 1)' % (table.name, chance.one(guess.constraints).name if guess.constraints else 'k0'))


def no_key(chance, guess, table):
    return Statement('CREATE TABLE keyless (a INT REFERENCES keyless)')


def subquery_in_check(chance, guess, table):
    return Statement('ALTER TABLE %s ADD CHECK (EXISTS (SELECT * FROM %s))' % (table.name, table.name))


def two_times(chance, guess, table):
    return Statement('ALTER TABLE %s ADD UNIQUE (a) NOT DEFERRABLE INITIALLY DEFERRED' % table.name)


def another_transaction(chance, guess, table):
    return Statement('START TRANSACTION')


def no_savepoint(chance, guess, table):
    return Statement(chance.one(['ROLLBACK TO SAVEPOINT nowhere', 'RELEASE SAVEPOINT nowhere']))


def a_savepoint(chance, guess, table):
    return Statement(chance.one(['SAVEPOINT x', 'RELEASE SAVEPOINT x', 'ROLLBACK TO SAVEPOINT x', 'SET CONSTRAINTS ALL DEFERRED']))


def never_deferred(chance, guess, table):
    names = [one.name for one in guess.constraints if not one.deferrable] or ['nowhere']
    return Statement('SET CONSTRAINTS %s %s' % (chance.one(names), chance.one(['DEFERRED', 'IMMEDIATE'])))


def no_constraint(chance, guess, table):
    return Statement('SET CONSTRAINTS nowhere IMMEDIATE')


def many_values(chance, guess, table):
    return Statement('INSERT INTO %s VALUES (NULL, NULL, NULL, NULL, NULL)' % table.name, 'rows')


def other_kind(chance, guess, table):
    one = chance.one(table.columns)
    return Statement('UPDATE %s SET %s = %s' % (table.name, one.name, "'a'" if one.kind == 'INT' else '1'), 'rows')


def large_number(chance, guess, table):
    one = chance.one(table.columns)
    if one.kind != 'INT':
        return Statement('SELECT * FROM %s WHERE %d + 1 > 0' % (table.name, GREATEST), 'query')
    texts = ['UPDATE %s SET %s = %s + %d' % (table.name, one.name, one.name, GREATEST), 'DELETE FROM %s WHERE %s * %d > 0' % (table.name, one.name, GREATEST)]
    return Statement(chance.one(texts), 'rows')


def long_text(chance, guess, table):
    texts = [one for one in table.columns if one.kind != 'INT']
    if not texts:
        return other_kind(chance, guess, table)
    return Statement("INSERT INTO %s (%s) VALUES ('a longer text')" % (table.name, texts[0].name), 'rows')


# Those that come anywhere, inside a transaction alone, and outside one alone.
ANYWHERE = [no_table, no_column, column_twice, many_values, other_kind, large_number, large_number, long_text, long_text]
INSIDE = [table_twice, no_trigger, another_transaction, no_savepoint, never_deferred, never_deferred, no_constraint]
OUTSIDE = [no_trigger, table_twice, name_twice, no_key, subquery_in_check, two_times, a_savepoint, a_savepoint]


def wrong(chance, guess, table):
    """A statement that is refused."""
    make = chance.one(ANYWHERE if chance.happens(0.5) else INSIDE if guess.start else OUTSIDE)
    return make(chance, guess, table)
