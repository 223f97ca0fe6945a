"""Random scripts: which statements come after which."""
from made import large
from made.chance import Chance
from made.guess import Guess
from made.pieces import expression
from made.rows import Statement, after_where, data, insert_values, some_where
from made.tables import new_addition, new_table
from made.triggers import new_log, new_trigger
from made.wrong import wrong

SAVEPOINTS = ['x', 'y', 'z']


class Script:
    """The statements of a seed, and the words for the command line."""

    def __init__(self, seed):
        self.seed, self.chance, self.guess = seed, Chance(seed), Guess()
        self.words, self.statements, self.names, self.triggers = [], [], [], []
        self.texts = self.chance.weighed((4, 'VARCHAR(2)'), (1, 'VARCHAR(1)'), (2, 'VARCHAR(3)'))
        if self.chance.happens(0.04):
            self.statements = large.statements(self.chance)
        else:
            self.limits()
            self.begin()
            self.go_on()
            self.end()

    def text(self):
        """The script; its first line is a comment with the words for the command line."""
        head = '-- seed %d%s\n' % (self.seed, ', to be run with ' + ' '.join(self.words) if self.words else '')
        return head + ''.join(one.text + ';\n' for one in self.statements)

    def say(self, text, kind='other'):
        self.statements.append(Statement(text, kind))

    def table(self):
        """Some table; that of the triggers is named seldom."""
        tables = list(self.guess.tables.values())
        return self.chance.one([one for one in tables if one.name != 'log' or self.chance.happens(0.15)] or tables)

    # The parts of a script.

    def limits(self):
        """Smaller limits, in few scripts."""
        if self.chance.happens(0.07):
            self.guess.budget = self.chance.number(5, 14)
            self.words += ['--changes', str(self.guess.budget)]
        if self.chance.happens(0.05):
            self.words += ['--depth', str(self.chance.number(1, 3))]

    def begin(self):
        """Tables, with constraints and perhaps triggers, and their first rows."""
        for name in ['t', 'u', 'v', 'w'][:self.chance.weighed((2, 1), (4, 2), (4, 3), (2, 4))]:
            self.make_table(name)
        self.rings()
        if self.chance.happens(0.3) or '--depth' in self.words:
            self.make_triggers()
        self.fill()

    def rings(self):
        """Constraints that close a ring of tables, or are just added."""
        for _ in range(self.chance.weighed((5, 0), (4, 1), (2, 2))):
            self.make_addition()

    def make_triggers(self):
        log, text = new_log(self.texts)
        self.say(text)
        self.guess.add_table(log)
        for _ in range(self.chance.weighed((4, 1), (3, 2), (1, 3))):
            self.make_trigger()

    def fill(self):
        """Rows for each table, and for some twice, mostly committed."""
        tables = [one for one in self.guess.tables.values() if one.name != 'log']
        for table in tables + self.chance.several(tables, 2):
            self.try_data(insert_values, table, 12, True)
        if self.chance.happens(0.8):
            self.commit()

    def go_on(self):
        """Data statements between all others."""
        steps = [(56, self.some_data), (24, self.some_transaction), (6, self.some_query), (4, self.some_schema), (4, self.some_wrong), (1, self.look)]
        for _ in range(self.chance.number(20, 48)):
            self.chance.weighed(*steps)()

    def end(self):
        """What all tables hold, before and after the end of the transaction."""
        self.look()
        if self.guess.start and self.chance.happens(0.85):
            self.chance.weighed((4, self.commit), (1, self.rollback))()
            self.look()
        for table in self.guess.tables.values():
            self.say('SELECT COUNT(*) FROM %s' % table.name, 'query')

    # Data statements and queries.

    def some_data(self):
        """A data statement; most are accepted, and most of these violate no deferred constraint either."""
        tries = 7 if self.chance.happens(0.75) else 1
        self.try_data(data, self.table(), tries, self.chance.happens(0.8))

    def try_data(self, make, table, tries, strict):
        """The first data statement of a few that changes rows and is accepted by guess, or else the last one."""
        for place in range(tries):
            statement = make(self.chance, self.guess, table)
            after = self.guess.outcome(statement, strict and place < tries - 1)
            if after and after[1]:
                break
        self.statements.append(statement)
        if after:
            self.guess.take(after[0])

    def some_query(self):
        table = self.table()
        where = after_where(some_where(self.chance, self.guess, table, 0.2))
        listed = ', '.join(expression(self.chance, self.guess, table, one.kind).text for one in table.columns)
        listed = self.chance.one(['*', '*', 'COUNT(*)', listed])
        self.say('SELECT %s FROM %s%s' % (listed, table.name, where), 'query')

    def look(self):
        """All tables whole, or how many rows each has."""
        listed = self.chance.one(['*', '*', '*', 'COUNT(*)'])
        for table in self.guess.tables.values():
            self.say('SELECT %s FROM %s' % (listed, table.name), 'query')

    def some_wrong(self):
        self.statements.append(wrong(self.chance, self.guess, self.table()))

    # Tables, constraints and triggers.

    def make_table(self, name):
        tables = [one for one in self.guess.tables.values() if one.name != 'log']
        table, text = new_table(self.chance, tables, self.texts, name, self.names)
        self.say(text)
        self.guess.add_table(table)

    def make_addition(self):
        tables = [one for one in self.guess.tables.values() if one.name != 'log']
        one, text = new_addition(self.chance, tables, self.chance.one(tables), self.names)
        self.say(text)
        self.guess.add_constraint(one)

    def make_trigger(self):
        self.triggers.append('r%d' % (len(self.triggers) + 1))
        self.say(new_trigger(self.chance, self.guess, self.triggers[-1]))

    def some_schema(self):
        """A constraint, a trigger or a table more, or a trigger less; the transaction is ended before."""
        self.chance.weighed((2, self.commit), (1, self.rollback))()
        choices = [(6, self.make_addition)]
        choices += [(2, self.make_trigger), (4, self.drop_trigger)] if 'log' in self.guess.tables else []
        choices += [(1, lambda: self.make_table('s'))] if 's' not in self.guess.tables else []
        self.chance.weighed(*choices)()

    def drop_trigger(self):
        self.say('DROP TRIGGER %s' % self.chance.one(self.triggers))

    # Transactions.

    def some_transaction(self):
        if not self.guess.start:
            self.say('START TRANSACTION')
            self.guess.begin()
            return
        choices = [(20, self.commit), (9, self.rollback), (24, self.save), (16, self.set_modes)]
        choices += [(18, self.back_to), (6, self.release)] if self.guess.savepoints else []
        self.chance.weighed(*choices)()

    def commit(self):
        """COMMIT; where it is refused by guess, mostly SET CONSTRAINTS instead, which is refused too."""
        if self.guess.violated() and self.chance.happens(0.6):
            self.say('SET CONSTRAINTS ALL IMMEDIATE')
            self.chance.weighed((2, self.rollback), (1, self.mend))()
            return
        self.say(self.chance.one(['COMMIT', 'COMMIT', 'COMMIT WORK']))
        self.guess.commit()

    def mend(self):
        """Another data statement, on the table that violates, and COMMIT."""
        self.try_data(data, self.guess.tables[self.guess.violated().table], 7, True)
        self.say('COMMIT')
        self.guess.commit()

    def rollback(self):
        self.say(self.chance.one(['ROLLBACK', 'ROLLBACK WORK']))
        self.guess.rollback()

    def save(self):
        name = self.chance.one(SAVEPOINTS)
        self.say('SAVEPOINT ' + name)
        self.guess.save(name)

    def saved(self):
        return self.chance.one(self.guess.savepoints)[0]

    def back_to(self):
        name = self.saved()
        self.say('ROLLBACK TO SAVEPOINT ' + name)
        self.guess.back_to(name)

    def release(self):
        name = self.saved()
        self.say('RELEASE SAVEPOINT ' + name)
        self.guess.release(name)

    def set_modes(self):
        names = [one.name for one in self.guess.constraints if one.deferrable]
        chosen = names if self.chance.happens(0.4) else self.chance.several(names, self.chance.number(1, 2))
        deferred = self.chance.happens(0.6)
        listed = 'ALL' if chosen is names or not chosen else ', '.join(chosen)
        self.say('SET CONSTRAINTS %s %s' % (listed, 'DEFERRED' if deferred else 'IMMEDIATE'))
        self.guess.set_modes(chosen, deferred)
