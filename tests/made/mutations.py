"""Other scripts of real ones: statements left out, doubled or exchanged, words and bytes replaced; and scripts of random words and bytes."""
import re

import cut

TOKEN = re.compile(rb"'[^']*'|--[^\n]*|\w+|<>|<=|>=|\s+|.", re.S)
WORDS = (b'ACTION ADD AFTER ALL ALTER AND AS ATOMIC BEFORE BEGIN CASCADE CHAR CHARACTER CHECK COMMIT CONSTRAINT CONSTRAINTS COUNT CREATE DEFAULT '
         b'DEFERRABLE DEFERRED DELETE DISTINCT DROP EACH END EXISTS FOR FOREIGN FROM FULL IMMEDIATE INITIALLY INSERT INT INTEGER INTO IS KEY MATCH NEW '
         b'NO NOT NULL NULLS OF OLD ON OR PRIMARY REFERENCES REFERENCING RELEASE RESTRICT ROLLBACK ROW SAVEPOINT SELECT SET SIGNAL SIMPLE START '
         b'STATEMENT TABLE TO TRANSACTION TRIGGER UNIQUE UPDATE VALUES VARCHAR VARYING WHEN WHERE WORK t u a b x n o 0 1 2 9223372036854775807 '
         b"9223372036854775808 ( ) , ; . = <> < <= > >= + - * '' 'x' -- @ _").split()


def tokens(script):
    return TOKEN.findall(script)


def changed_statements(chance, script, other):
    """A statement left out, doubled, moved, or put in from another script."""
    parts, others = cut.statements(script), cut.statements(other)
    if not parts:
        return script
    at, to = chance.number(0, len(parts) - 1), chance.number(0, len(parts) - 1)
    how = chance.one(['out', 'twice', 'moved', 'other', 'other'])
    if how == 'out':
        return b''.join(parts[:at] + parts[at + 1:])
    one = chance.one(others) if how == 'other' and others else parts[at]
    if how == 'moved':
        parts = parts[:at] + parts[at + 1:]
    return b''.join(parts[:to] + [one] + parts[to:])


def changed_tokens(chance, script, other):
    """A word or sign left out, put in or replaced by one of this script, of another, or of the language."""
    parts = tokens(script)
    if not parts:
        return script
    new = chance.one([chance.one(parts), chance.one(tokens(other) or parts), chance.one(WORDS)])
    at = chance.number(0, len(parts) - 1)
    how = chance.one(['out', 'in', 'replaced', 'replaced', 'exchanged'])
    if how == 'exchanged':
        to = chance.number(0, len(parts) - 1)
        parts[at], parts[to] = parts[to], parts[at]
        return b''.join(parts)
    return b''.join(parts[:at] + ([] if how == 'out' else [b' ', new, b' '] if how == 'in' else [new]) + parts[at + (how != 'in'):])


def changed_bytes(chance, script, _):
    """A byte replaced, or a piece left out or doubled."""
    if not script:
        return script
    at, to = sorted([chance.number(0, len(script)), chance.number(0, len(script))])
    byte = bytes([chance.number(0, 255) if chance.happens(0.2) else chance.number(32, 126)])
    return chance.one([script[:at] + byte + script[at + 1:], script[:at] + script[to:], script[:to] + script[at:]])


def mutated(chance, scripts):
    """A real script with one to four changes."""
    script, other = chance.one(scripts), chance.one(scripts)
    for _ in range(chance.number(1, 4)):
        script = chance.weighed((4, changed_statements), (4, changed_tokens), (1, changed_bytes))(chance, script, other)
    return script


def words(chance):
    """Words and signs of the language in any order."""
    return b' '.join(chance.one(WORDS) for _ in range(chance.number(1, 60)))


def noise(chance):
    """Bytes, of which most are signs that can be read, after a statement or none."""
    few = chance.happens(0.5)
    made = bytes(chance.number(0, 255) if few and chance.happens(0.05) else chance.number(32, 126) for _ in range(chance.number(0, 200)))
    return chance.one([b'', b'COMMIT;', b'CREATE TABLE t (a INT);']) + made
