"""Cuts scripts into statements, and leaves some of them out. A statement ends at its semicolon outside texts, comments and BEGIN .. END."""
import re

TOKEN = re.compile(rb"'[^']*'|--[^\n]*|\w+|;")


def statements(script):
    """The bytes of each whole statement, with what comes before it and with its semicolon."""
    inside, start, found = 0, 0, []
    for token in TOKEN.finditer(script):
        word = token[0].upper()
        inside += (word == b'BEGIN') - (word == b'END')
        if word == b';' and inside == 0:
            found.append(script[start:token.end()])
            start = token.end()
    return found


def words(statement):
    """The words of a statement in upper case, without comments and texts."""
    return [token[0].upper() for token in TOKEN.finditer(statement) if token[0][:1] not in (b"'", b'-', b';')]


def without(script, places):
    """The script without the statements of these places, which count from 1."""
    whole = statements(script)
    rest = script[sum(map(len, whole)):]
    return b''.join(one for place, one in enumerate(whole, 1) if place not in places) + rest


def doubled(script):
    """The script with each statement twice."""
    return b''.join(one + one for one in statements(script))


def looked(script):
    """The script with a look at all tables that it has made after each statement."""
    tables, parts = [], []
    for one in statements(script):
        found = words(one)
        tables += [found[2]] if found[:2] == [b'CREATE', b'TABLE'] and found[2] not in tables else []
        parts += [one, *(b' SELECT * FROM %s;' % name for name in tables)]
    return b''.join(parts)


def numbered(outcome, place):
    """An outcome as that of another place."""
    return re.sub(rb'\A\d+', b'%d' % place, outcome)
