"""What the tables hold by guess, so that most statements of a random script are accepted.

It knows keys, CHECKs, foreign keys with their actions, modes, transactions and savepoints, and nothing of triggers. Nothing is
expected of a program because of it: where it is wrong, a script has one refusal more."""
from made.pieces import Refused
from made.tables import KEYS, NULLS_NOT_DISTINCT

# More rows than this are not wanted in a table.
MANY = 40


def key_of(row, places):
    return tuple(row[place] for place in places)


def lost_keys(key, before, after):
    """Each key of the parent's rows that was lost, with the key that took its place, or None."""
    lost = {}
    for number, row in before.items():
        was, now = key_of(row, key), after.get(number) and key_of(after[number], key)
        if was != now and None not in was:
            lost.setdefault(was, now)
    return lost


def violates_key(constraint, rows):
    keys = [key_of(row, constraint.places) for row in rows.values()]
    whole = [key for key in keys if None not in key or constraint.kind == NULLS_NOT_DISTINCT]
    return len(set(whole)) < len(whole) or constraint.kind == 'PRIMARY KEY' and len(whole) < len(keys)


def violates_check(constraint, rows):
    try:
        return any([constraint.condition.value({constraint.table: row}) is False for row in rows.values()])
    except Refused:
        return True


class Guess:
    def __init__(self):
        self.tables, self.constraints, self.rows, self.last = {}, [], {}, 0
        self.budget, self.deferred, self.start, self.savepoints = 65_536, set(), None, []

    # Tables and constraints.

    def add_table(self, table):
        self.tables[table.name], self.rows[table.name] = table, {}
        self.constraints += table.constraints
        self.end()

    def add_constraint(self, constraint):
        """Whether the rows satisfy the constraint, which is then added."""
        if self.is_violated(constraint, self.rows):
            return False
        self.tables[constraint.table].constraints.append(constraint)
        self.constraints.append(constraint)
        self.end()
        return True

    # Constraints over rows.

    def is_violated(self, constraint, rows):
        own = rows[constraint.table]
        if constraint.kind in KEYS:
            return violates_key(constraint, own)
        if constraint.kind == 'CHECK':
            return violates_check(constraint, own)
        if constraint.kind == 'NOT NULL':
            return any([row[constraint.places[0]] is None for row in own.values()])
        parents = {key_of(row, constraint.key) for row in rows[constraint.parent].values()}
        keys = [key_of(row, constraint.places) for row in own.values()]
        if constraint.full and any([None in key and set(key) != {None} for key in keys]):
            return True
        return any([None not in key and key not in parents for key in keys])

    def violated(self, names=None):
        """The first of the constraints of these names, or of all, that is violated now."""
        meant = [one for one in self.constraints if names is None or one.name in names]
        return next((one for one in meant if self.is_violated(one, self.rows)), None)

    # Data statements.

    def outcome(self, statement, strict):
        """The rows after a data statement and how many it changed, or None where it is refused, or where it is to be strict and
        a deferred constraint is violated."""
        try:
            changes = statement.changes(self.rows, self.last + 1)
            rows = self.changed(changes)
        except Refused:
            return None
        asked = [one for one in self.constraints if strict or one.name not in self.deferred]
        refused = any([self.is_violated(one, rows) for one in asked]) or any([len(own) > MANY for own in rows.values()])
        return None if refused else (rows, len(changes))

    def take(self, rows):
        """The rows after a data statement that is accepted; outside a transaction it begins one."""
        self.begin()
        self.rows = rows
        self.last = max([self.last] + [number for own in rows.values() for number in own])

    def changed(self, changes):
        """The rows after these changes, which have table, number and new row, and after all that follows by actions."""
        before, used = self.rows, 1
        while changes:
            used += len(changes)
            if used > self.budget:
                raise Refused
            after = self.put(before, changes)
            before, changes = after, self.following(before, after)
        return before

    @staticmethod
    def put(rows, changes):
        rows = {name: dict(own) for name, own in rows.items()}
        for table, number, row in changes:
            if row is None:
                del rows[table][number]
            else:
                rows[table][number] = row
        return rows

    def following(self, before, after):
        """The changes by the actions of all foreign keys, after one wave of changes."""
        rows, gone = {}, set()
        for key in [one for one in self.constraints if one.kind == 'FOREIGN KEY']:
            lost = lost_keys(key.key, before[key.parent], after[key.parent])
            held = self.held(key, before, after, lost)
            self.act(key, held, after, rows, gone)
        return [(table, number, None if (table, number) in gone else row) for (table, number), row in rows.items()]

    @staticmethod
    def held(key, before, after, lost):
        """The rows that held a lost key and hold it still, each with the key that took its place."""
        own = [(number, row, key_of(row, key.places)) for number, row in before[key.table].items()]
        own = [(number, row, was) for number, row, was in own if was in lost]
        if any([(key.on_update if lost[was] else key.on_delete) == 'RESTRICT' for _, _, was in own]):
            raise Refused
        now = after[key.table]
        return [(number, lost[was]) for number, _, was in own if number in now and key_of(now[number], key.places) == was]

    def act(self, key, held, after, rows, gone):
        """Adds what the action of a foreign key does to these rows."""
        for number, new in held:
            action, place = key.on_update if new else key.on_delete, (key.table, number)
            if action in ('NO ACTION', 'RESTRICT'):
                continue
            row = list(rows.get(place, after[key.table][number]))
            defaults = [column.default for column in self.tables[key.table].columns]
            values = {'SET NULL': [None] * len(key.places), 'SET DEFAULT': key_of(defaults, key.places)}.get(action, new)
            gone.update([place] if values is None else [])
            self.give(key, row, values, after)
            rows[place] = tuple(row)

    @staticmethod
    def give(key, row, values, after):
        """Sets the referencing columns of a row."""
        for place, value in zip(key.places, values or ()):
            row[place] = value

    # Transactions.

    def now(self):
        return self.rows, self.last, self.deferred

    def back(self, moment):
        self.rows, self.last, self.deferred = moment

    def begin(self):
        self.start = self.start or self.now()

    def end(self):
        """No transaction is open, and each constraint has the mode that it was made with."""
        self.start, self.savepoints = None, []
        self.deferred = {one.name for one in self.constraints if one.deferred}

    def commit(self):
        if self.violated():
            self.back(self.start or self.now())
        self.end()

    def rollback(self):
        self.back(self.start or self.now())
        self.end()

    def save(self, name):
        self.savepoints = [one for one in self.savepoints if one[0] != name] + [(name, self.now())]

    def back_to(self, name):
        place = [one[0] for one in self.savepoints].index(name)
        self.back(self.savepoints[place][1])
        del self.savepoints[place + 1:]

    def release(self, name):
        del self.savepoints[[one[0] for one in self.savepoints].index(name):]

    def set_modes(self, names, deferred):
        """Whether the modes are set: not where a constraint that becomes immediate is violated."""
        if not deferred and self.violated(set(names) & self.deferred):
            return False
        self.deferred = self.deferred | set(names) if deferred else self.deferred - set(names)
        return True
