#!/usr/bin/env python3
"""Runs every script with --json, and with --json --explain, and judges each line by docs/json/schema.json. From the objects the transcript
is written again, in words, and has to be the one that the program writes without --json.

  tests/json_lines.py --program PATH [--program PATH]..
The last line is `N passed, N failed`; the status is 1 where something failed."""
import argparse
import functools
import itertools
import json
import os
import re
import shlex
import sys

import run as tests

HERE = os.path.dirname(os.path.abspath(__file__))
sys.setrecursionlimit(10000)
SCHEMA = json.loads(tests.read('..', 'docs', 'json', 'schema.json'))
TYPES = {'object': dict, 'array': list, 'string': str, 'integer': int, 'null': type(None)}
ITEMS = {'row_variable': 'row variable', 'referencing_name': 'REFERENCING name'}
FAULTS = {'unknown': "isn't there", 'in_use': 'is there already', 'twice': 'comes twice'}
REFERENCES = {
    'missing_key': "which isn't there",
    'protected_key': 'which RESTRICT protects'}


# ---- the schema: the words of JSON Schema that it uses

@functools.cache
def named(word):
    """The judge of a part of the schema that has a name."""
    return judge_of(SCHEMA['$defs'][word.removeprefix('#/$defs/')])


def of_types(word):
    types = {TYPES[one] for one in ([word] if isinstance(word, str) else word)}
    return lambda value: type(value) in types


def of_members(word):
    judges = {name: judge_of(schema) for name, schema in word.items()}
    return lambda value: all(judges[name](value[name]) for name in value if name in judges)


def one_of(word):
    judges = list(map(judge_of, word))
    return lambda value: sum(judge(value) for judge in judges) == 1


def each_of(word):
    judge = judge_of(word)
    return lambda value: all(map(judge, value))


def judge_of(schema):
    """What tells whether a value is as a schema says. A schema with a word that isn't known here is a fault."""
    makers = {
        'type': of_types,
        '$ref': lambda word: lambda value: named(word)(value),
        'oneOf': one_of,
        'const': lambda word: lambda value: value == word and type(value) is type(word),
        'enum': lambda word: lambda value: value in word,
        'minimum': lambda word: lambda value: value >= word,
        'maximum': lambda word: lambda value: value <= word,
        'required': lambda word: lambda value: all(name in value for name in word),
        'additionalProperties': lambda word: lambda value: all(name in schema['properties'] for name in value),
        'properties': of_members,
        'items': each_of}
    silent = ('$schema', '$defs', 'title', 'description')
    words = sorted((word for word in schema if word not in silent), key=list(makers).index)
    judges = [makers[word](schema[word]) for word in words]
    return judges[0] if len(judges) == 1 else lambda value: all(judge(value) for judge in judges)


# ---- from objects to words

def value_text(value):
    return 'NULL' if value is None else str(value) if isinstance(value, int) else "'%s'" % value.replace("'", "''")


def row_text(row):
    return ', '.join(map(value_text, row))


def listed(words, row):
    return '' if row is None else '%s (%s)' % (words, row_text(row))


def change_text(change):
    old, new = change.get('old'), change.get('new')
    sides = listed('', old) + listed(' to', new) if old is not None else listed('', new)
    return '%s %s row %d%s' % (change['event'], change['table'], change['row'], sides)


def reason_text(entry):
    because = entry['because']
    if because in REFERENCES:
        return ' refers to %s%s, %s' % (entry['referenced'], listed('', entry['key']), REFERENCES[because])
    if because == 'action_conflict':
        sides = [value_text(entry[name]) for name in ('other_value', 'value')]
        return ' refers to %s%s, and %s sets %s to %s, where %s sets it to %s' % (
            entry['referenced'], listed('', entry['key']), entry['other_constraint'], entry['column'], sides[0], entry['constraint'], sides[1])
    if because == 'equal_key':
        return ' has the key of row %d%s' % (entry['other_row'], listed('', entry['other']))
    return {
        'some_nulls': ' has some nulls in its key',
        'null_in_key': ' has a null in its key',
        'false_condition': ' makes %s false (%s)' % (entry.get('condition'), entry.get('with_values')),
        'null': ' has NULL in %s' % entry.get('column')}[because]


def constraint_text(entry):
    """The constraint by its name, and what it asks, if the name was generated."""
    generated = re.match('%(table)s_C[0-9]' % entry, entry['constraint'])
    return '%(constraint)s (%(rule)s)' % entry if generated else entry['constraint']


def asked_text(entry):
    return 'trigger ' + entry['trigger'] + listed(' OLD', entry.get('old')) + listed(' NEW', entry.get('new'))


def part_text(entry):
    """What was evaluated, with the table of a column."""
    return {
        'column': '%s of %s' % (entry.get('column'), entry.get('column_of')),
        'item': 'item %s' % entry.get('item'),
        'where': 'WHERE',
        'when': 'WHEN of trigger %s' % entry.get('trigger')}[entry['part']]


def failure_text(entry):
    if 'table' not in entry:
        front = part_text(entry) + listed(' OLD', entry.get('old')) + listed(' NEW', entry.get('new'))
    else:
        part = part_text(entry) + ' from' if entry.get('source') else part_text(entry).removesuffix(' of %s' % entry.get('column_of')) + ' of'
        front = '%s %s row %d%s' % (part, entry['table'], entry['row'], listed('', entry['values']))
    if entry['because'] == 'too_long':
        return '%s is VARCHAR(%d), and the text has %d characters' % (front, entry['most'], entry['length'])
    return '%s: %d %s %d is out of range' % (front, entry['left'], entry['operator'], entry['right'])


def entry_lines(entry):
    """The lines of an entry, without the indentation of what is around it."""
    if entry['entry'] == 'changes':
        return map(change_text, entry['changes'])
    if entry['entry'] == 'actions':
        return ('%(constraint)s %(action)s on %(table)s row %(row)d' % action for action in entry['actions'])
    if entry['entry'] == 'trigger':
        return [asked_text(entry), *('  saw ' + change_text(change) for change in entry['saw'])]
    if entry['entry'] == 'skipped':
        return [asked_text(entry) + ' skipped: WHEN is ' + entry['when']]
    if entry['entry'] == 'limit':
        return [entry['text']]
    if entry['entry'] == 'statement':
        line = 'statement %d' % entry['number'] + (' changes nothing' if entry.get('changes_nothing') else '')
        return [line, *('  ' + line for line in account_lines(entry['account']))]
    if entry['entry'] == 'failure':
        return [failure_text(entry)]
    if entry['entry'] == 'savepoints':
        return ['savepoints that stand: ' + ', '.join(entry['standing']) if entry['standing'] else 'no savepoint stands']
    row = '%s: %s row %d' % (constraint_text(entry), entry['table'], entry['row'])
    return [row + listed('', entry['values']) + reason_text(entry)]


def account_lines(account):
    return itertools.chain.from_iterable(map(entry_lines, account))


def details(outcome):
    """What stands after the cause: of SIGNAL and of the depth the trigger, of others what they speak of and the trigger that ran."""
    own = outcome['name'] in ('Signal', 'DepthLimit')
    found = [' %s' % outcome['constraint']] if 'constraint' in outcome else []
    found += [' row %d' % outcome['row']] if 'row' in outcome else []
    found += [(' %s' if own else ' in %s') % outcome['trigger']] if 'trigger' in outcome else []
    found += [' ' + value_text(outcome['signal'])] if 'signal' in outcome else []
    return ''.join(found)


def about_text(about):
    name = about['name'] if 'range' not in about else '%s.%s' % (about['range'], about['name'])
    return '  %s %s %s' % (ITEMS.get(about['item'], about['item']), name, FAULTS[about['fault']])


def outcome_lines(outcome):
    kind = outcome['kind']
    if kind == 'refused':
        yield '%(number)d refused %(cause)d %(name)s' % outcome + details(outcome)
    elif kind == 'rows':
        yield '%d rows %d' % (outcome['number'], len(outcome['rows']))
        yield from ['  columns ' + ', '.join(outcome['columns'])] if 'columns' in outcome else []
        yield from ('| ' + row_text(row) for row in outcome['rows'])
    else:
        yield '%d ok' % outcome['number'] + (' %d' % outcome['count'] if kind == 'changed' else '')
    yield from ('  ' + line for line in account_lines(outcome.get('account', [])))
    yield from [about_text(outcome['about'])] if 'about' in outcome else []
    yield from ['  ' + outcome['reason']] if 'reason' in outcome else []
    yield from ('  now pending ' + line for entry in outcome.get('now_pending', []) for line in entry_lines(entry))
    yield from ('  no longer pending %s: %s row %d' % (constraint_text(gone), gone['table'], gone['row']) for gone in outcome.get('no_longer_pending', []))


def fault_lines(fault, explain):
    yield '%(number)d fault %(byte)d' % fault
    wanted = '; wanted ' + ' or '.join(fault['wanted']) if fault['wanted'] else ''
    told = fault.get('hint', fault['word'].get('text', 'the end of the text') + wanted)
    yield from ['  line %(line)d, column %(column)d: ' % fault['word'] + told] if explain else []


def words(objects, explain):
    """The transcript of these objects, without the line around a fault."""
    lines = []
    for found in objects:
        kind = found['kind']
        lines += fault_lines(found, explain) if kind == 'fault' else ['end rolled back'] if kind == 'end' else outcome_lines(found)
    return ''.join(line + '\n' for line in lines)


IS_LINE = judge_of(SCHEMA)


# ---- scripts

def scripts():
    """Names, scripts and words of the command line: of the tests, of the examples, and of the pages of the language."""
    for directory in ('scripts', '../examples'):
        for name in sorted({file.split('.')[0] for file in tests.files(directory)}):
            given = shlex.split((tests.read(directory, name + '.args') or b'').decode())
            yield directory + '/' + name, tests.stored(directory, name + '.sql') or b'', given
    for file in tests.files('../docs/language'):
        found = re.findall(rb'```sql([^\n]*)\n(.*?)```', tests.read('../docs/language', file), re.S)
        for place, (given, script) in enumerate(found, 1):
            yield 'docs/language/%s, script %d' % (file, place), script, shlex.split(given.decode())


def lines_of(out):
    """The objects of the lines, and what is wrong with them."""
    found, why = [], []
    for line in out.decode().splitlines(keepends=True):
        try:
            found.append(json.loads(line))
        except ValueError:
            return [], ['no JSON: %r' % line[:200]]
        why += [] if line.endswith('\n') and IS_LINE(found[-1]) else ['not as the schema says: %r' % line[:200]]
    return found, why


def judge(program, script, given, explain):
    """Why the objects of a script aren't its transcript; nothing where it has none."""
    given = ['--explain'] * explain + [word for word in given if word != '--explain']
    want, status, _ = tests.run(program, script, given)
    if status == 2 or {'--help', '--version', '--dump', '--format'} & set(given):
        return []
    out, got, err = tests.run(program, script, ['--json', *given])
    objects, why = lines_of(out)
    plain = re.sub(r'(?m)^(  line \d+, column \d+: .*\n)    .*\n    *\^\n', r'\1', want.decode())
    why += [] if why else tests.compare('words', plain.encode(), words(objects, explain).encode())
    return why + ([] if (got, err) == (status, b'') else ['status %d, standard error %r' % (got, err)])


def main():
    parser = argparse.ArgumentParser()
    parser.add_argument('--program', action='append', required=True)
    passed = failed = 0
    for program in parser.parse_args().program:
        for (name, script, given), explain in itertools.product(list(scripts()), (False, True)):
            why = judge(os.path.abspath(program), script, given, explain)
            passed, failed = passed + (not why), failed + bool(why)
            if why:
                print('FAILED %s%s over %s: %s' % (name, ' with accounts' * explain, program, '; '.join(why[:3])))
    print('%d passed, %d failed' % (passed, failed))
    raise SystemExit(int(failed > 0))


if __name__ == '__main__':
    main()
