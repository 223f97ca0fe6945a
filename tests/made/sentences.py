"""Random statements of the whole grammar over few names. Unlike those of scripts.py they follow no guess of what the tables hold, and nearly each part may
come anywhere: many are refused, for all kinds of causes."""
TABLES, COLUMNS, CONSTRAINTS, TRIGGERS, SAVEPOINTS = ['t', 'u', 'v'], ['a', 'b', 'c'], ['f', 'g', 't_c1', 'u_c2'], ['r', 's', 'q'], ['x', 'y']
NUMBERS = ['0', '1', '1', '2', '2', '3', '4', '007', '-1', '9223372036854775807']
TEXTS = ["''", "'x'", "'x'", "'y'", "'yy'", "'it''s'", "'ä€'", "';'", "'--'"]
ACTIONS = ['NO ACTION', 'RESTRICT', 'CASCADE', 'CASCADE', 'SET NULL', 'SET DEFAULT']
# What is wrong is put in place of what is right in this share of all cases.
WRONG = 0.012


class Sentences:
    """Statements of one script. `tables` are those that were named by a CREATE TABLE, `ranges` the names that a column may have before it: those of the FROMs
    around it."""

    def __init__(self, chance):
        self.chance, self.tables, self.ranges, self.rows, self.transitions = chance, [], [], [], []

    def one(self, *things):
        return self.chance.one(things)

    def maybe(self, share, text):
        """A text in this share of all cases, and nothing in the others."""
        return text if self.chance.happens(share) else ''

    def is_wrong(self):
        return self.chance.happens(WRONG)

    def table(self):
        return 'w' if self.is_wrong() else self.chance.one(self.tables)

    def columns(self, most=3):
        """Some columns; seldom one twice."""
        names = self.chance.several(COLUMNS, self.chance.number(1, most))
        return names + ([self.chance.one(names)] if self.is_wrong() else [])

    # Values and conditions. A kind is INT or VARCHAR; A and B are mostly of the one, C of the other.

    def kind(self):
        return self.chance.weighed((3, 'INT'), (1, 'VARCHAR'))

    def column(self, kind):
        """A column alone or after a range, or after a row variable."""
        name = 'c' if kind == 'VARCHAR' else self.one('a', 'b')
        if self.rows and (not self.ranges or self.chance.happens(0.5)):
            return '%s.%s' % (self.chance.one(self.rows), name)
        return self.maybe(0.2, '%s.' % self.chance.one(self.ranges or ['t'])) + name

    def expression(self, kind=None, levels=2):
        kind = kind or self.kind()
        kind = self.one('INT', 'VARCHAR') if self.is_wrong() else kind
        literal = self.chance.one(NUMBERS if kind == 'INT' else TEXTS)
        if kind == 'VARCHAR' or levels == 0 or self.chance.happens(0.5):
            columns = 6 if self.ranges or self.rows or self.is_wrong() else 0
            return self.chance.weighed((5, literal), (columns, self.column(kind)), (1, 'NULL'))
        left, right = self.expression('INT', levels - 1), self.expression('INT', levels - 1)
        return self.chance.weighed((4, '%s %s %s' % (left, self.one('+', '-', '*'), right)), (1, '(%s)' % left), (1, '-(%s)' % left))

    def condition(self, levels=2):
        if levels <= 0 or self.chance.happens(0.5):
            kind = self.kind()
            compared = '%s %s %s' % (self.expression(kind, 1), self.one('=', '=', '<>', '<', '<=', '>', '>='), self.expression(kind, 1))
            return self.chance.weighed((6, compared), (1, self.expression(kind, 1) + ' IS NULL'), (1, self.expression(kind, 1) + ' IS NOT NULL'))
        some, more = self.condition(levels - 1), self.condition(levels - 1)
        exists = 'EXISTS (SELECT * %s)' % self.range(levels - 1)[1]
        return self.chance.weighed((3, '%s AND %s' % (some, more)), (3, '%s OR %s' % (some, more)), (2, 'NOT (%s)' % some), (1, '(%s)' % some), (3, exists))

    def seen(self, ranges, make, *given):
        """What is made where these ranges, too, are around it."""
        before, self.ranges = self.ranges, ranges
        made = make(*given)
        self.ranges = before
        return made

    def where(self, levels=2):
        return self.maybe(0.6, ' WHERE ' + self.condition(levels))

    def range(self, levels=2):
        """A name, and a FROM with that name and perhaps a WHERE."""
        table = self.chance.one(self.transitions) if self.transitions and self.chance.happens(0.4) else self.table()
        alias = self.maybe(0.3, self.one('x', 'z'))
        name = alias or table
        return name, 'FROM %s%s%s' % (table, self.maybe(0.5, ' AS') + ' ' + alias if alias else '', self.seen([*self.ranges, name], self.where, levels))

    def value(self, column):
        return 'DEFAULT' if self.chance.happens(0.08) else self.expression('VARCHAR' if column == 'c' else 'INT')

    # Tables and triggers.

    def time(self):
        return self.one('', '', '', ' DEFERRABLE', ' INITIALLY DEFERRED', ' DEFERRABLE INITIALLY IMMEDIATE', ' NOT DEFERRABLE')

    def key_time(self):
        return self.one('', '', '', '', ' NOT DEFERRABLE', ' INITIALLY DEFERRED')

    def reference(self, listed=''):
        events = self.chance.several([' ON DELETE ' + self.chance.one(ACTIONS), ' ON UPDATE ' + self.chance.one(ACTIONS)], self.chance.number(0, 2))
        return 'REFERENCES %s%s%s%s' % (self.table(), listed, self.one('', '', ' MATCH SIMPLE', ' MATCH FULL'), ''.join(events))

    def named(self):
        return self.maybe(0.3, 'CONSTRAINT %s ' % self.chance.one(CONSTRAINTS))

    def check(self, table):
        saved = self.rows, self.transitions, self.ranges
        self.rows, self.transitions, self.ranges = [], [], [table]
        text = 'CHECK (%s)' % (self.condition(0) if not self.is_wrong() else self.condition(2))
        self.rows, self.transitions, self.ranges = saved
        return text

    def of_column(self, table):
        rules = (2, 'NOT NULL' + self.time()), (2, self.unique() + self.key_time()), (3, self.check(table) + self.time()), (3, self.reference() + self.time())
        rule = self.chance.weighed(*rules)
        return ' ' + self.named() + rule

    def of_table(self, table):
        listed = ', '.join(self.columns(2))
        foreign = 'FOREIGN KEY (%s) %s%s' % (listed, self.reference(self.maybe(0.5, ' (%s)' % listed)), self.time())
        return self.named() + self.chance.weighed((3, '%s (%s)%s' % (self.unique(), listed, self.key_time())), (2, self.check(table) + self.time()), (3, foreign))

    def create_table(self, name=None):
        table, parts = name or self.table(), []
        self.tables += [table] if table not in self.tables else []
        for column in COLUMNS:
            kind = self.one('VARCHAR(3)', 'VARCHAR(3)', 'CHAR VARYING(2)') if (column == 'c') != self.is_wrong() else self.one('INT', 'INTEGER')
            default = self.one("'x'", "''", 'NULL') if column == 'c' else self.one('0', '-1', 'NULL', '2')
            parts.append('%s %s%s%s' % (column, kind, self.maybe(0.3, ' DEFAULT ' + default), self.maybe(0.15, self.of_column(table))))
        parts[0] += self.maybe(0.7, ' PRIMARY KEY' + self.maybe(0.1, ' DEFERRABLE'))
        parts += [self.of_table(table) for _ in range(self.chance.weighed((3, 0), (3, 1), (1, 2)))]
        return 'CREATE TABLE %s (%s)' % (table, ', '.join(parts))

    def act(self, time, level):
        if time == 'BEFORE' and not self.is_wrong():
            column = self.chance.one(COLUMNS)
            set_row = 'SET n.%s = %s' % (column, self.expression('VARCHAR' if column == 'c' else 'INT'))
            return self.chance.weighed((4, set_row), (1, "SIGNAL 'no'")) if level == ' FOR EACH ROW' else "SIGNAL 'no'"
        return self.chance.weighed((4, self.insert()), (2, self.update()), (2, self.delete()), (1, "SIGNAL 'no'"))

    def unique(self):
        return 'UNIQUE' + self.maybe(0.3, ' NULLS NOT DISTINCT')

    def event(self, event):
        """An event as it is written: some UPDATEs with a list of columns, and few other events."""
        if event != 'UPDATE' and not self.is_wrong():
            return event
        return event + self.maybe(0.4, ' OF ' + ', '.join(self.columns()))

    def create_trigger(self):
        time, event, level = self.one('BEFORE', 'AFTER', 'AFTER'), self.one('INSERT', 'UPDATE', 'DELETE'), self.one('', ' FOR EACH ROW', ' FOR EACH ROW')
        sides = {'INSERT': ['NEW'], 'UPDATE': ['NEW', 'OLD'], 'DELETE': ['OLD']}[self.one('INSERT', 'DELETE') if self.is_wrong() else event]
        rows = [side for side in sides if level]
        tables = [side for side in sides if time == 'AFTER' and self.chance.happens(0.4)]
        self.rows, self.transitions = ['n' if side == 'NEW' else 'o' for side in rows], ['news' if side == 'NEW' else 'olds' for side in tables]
        items = ['%s AS %s' % (side, name) for side, name in zip(rows, self.rows)]
        items += ['%s TABLE %s' % (side, name) for side, name in zip(tables, self.transitions)]
        acts = [self.act(time, level) for _ in range(self.chance.number(1, 2))]
        body = acts[0] if len(acts) == 1 else 'BEGIN ATOMIC %s; END' % '; '.join(acts)
        when = self.maybe(0.5, ' WHEN (%s)' % (self.condition(1) if self.rows else 'EXISTS (SELECT * %s)' % self.range(1)[1]))
        self.rows, self.transitions = [], []
        return 'CREATE TRIGGER %s %s %s ON %s%s%s%s %s' % (
            self.chance.one(TRIGGERS), time, self.event(event), self.table(), ' REFERENCING ' + ' '.join(items) if items else '', level, when, body)

    # Rows.

    def insert(self):
        listed = self.columns() if self.chance.happens(0.3) else COLUMNS
        names = '' if listed is COLUMNS else ' (%s)' % ', '.join(listed)
        short = listed[:-1] if self.is_wrong() and len(listed) > 1 else listed
        tuples = ', '.join('(%s)' % ', '.join(self.value(column) for column in short) for _ in range(self.chance.number(1, 3)))
        name, source = self.range(1)
        values = ', '.join(self.seen([*self.ranges, name], self.expression, 'VARCHAR' if column == 'c' else 'INT') for column in short)
        query = 'SELECT %s %s' % (values, source)
        rest = self.chance.weighed((8, '%s VALUES %s' % (names, tuples)), (2, '%s %s' % (names, query)), (1, ' DEFAULT VALUES'))
        return 'INSERT INTO %s%s' % (self.table(), rest)

    def update(self):
        table = self.table()
        sets = self.seen([*self.ranges, table], lambda: ', '.join('%s = %s' % (column, self.value(column)) for column in self.columns()))
        return 'UPDATE %s SET %s%s' % (table, sets, self.seen([*self.ranges, table], self.where))

    def delete(self):
        table = self.table()
        return 'DELETE FROM %s%s' % (table, self.seen([*self.ranges, table], self.where))

    def select(self):
        name, source = self.range()
        values = self.seen([name], lambda: ', '.join(self.expression() for _ in range(self.chance.number(1, 3))))
        return 'SELECT %s %s' % (self.one('*', '*', 'COUNT(*)', values), source)

    # A script.

    def of_transaction(self):
        names = self.one('ALL', 'ALL', ', '.join(self.chance.several(CONSTRAINTS, self.chance.number(1, 2))))
        saved = self.chance.one(SAVEPOINTS)
        return self.chance.weighed((3, 'START TRANSACTION'), (6, 'COMMIT'), (2, 'ROLLBACK'), (4, 'SAVEPOINT ' + saved), (3, 'ROLLBACK TO SAVEPOINT ' + saved),
                                   (1, 'RELEASE SAVEPOINT ' + saved), (3, 'SET CONSTRAINTS %s %s' % (names, self.one('DEFERRED', 'IMMEDIATE'))))

    def add_constraint(self):
        table = self.table()
        return 'ALTER TABLE %s ADD %s' % (table, self.of_table(table))

    def statement(self):
        kinds = [(1, self.create_table), (2, self.add_constraint), (2, self.create_trigger), (1, lambda: 'DROP TRIGGER ' + self.chance.one(TRIGGERS))]
        kinds += [(16, self.insert), (8, self.update), (4, self.delete), (4, self.select), (10, self.of_transaction)]
        return self.chance.weighed(*kinds)()

    def script(self):
        """Tables, some triggers and rows, other statements between them, and what the tables hold at the end. A table that was refused is made in a plain
        form."""
        first = []
        for name in TABLES:
            first += [self.create_table(name), 'CREATE TABLE %s (a INT PRIMARY KEY, b INT UNIQUE, c VARCHAR(3))' % name]
        first += [self.create_trigger() for _ in range(self.chance.number(0, 3))] + [self.insert() for _ in range(4)]
        rest = [self.statement() for _ in range(self.chance.number(5, 30))]
        return ';\n'.join([*first, *rest, *['SELECT * FROM %s' % name for name in TABLES]]) + ';\n'
