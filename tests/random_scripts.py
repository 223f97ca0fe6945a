#!/usr/bin/env python3
"""Runs random scripts over each program given, and compares what the programs write; see README.md beside this file.

  tests/random_scripts.py --program PATH [--program PATH].. [--seed N] [--count 500] [--tell]
  tests/random_scripts.py --show [--seed N] [--count 500]

The seeds of the scripts follow each other from --seed on. --show prints the scripts and runs none. --tell prints how often each
kind of answer came. The last line is `N passed, M failed`; the status is 1 where something failed."""
import argparse
import collections
import itertools
import os
import re
from concurrent import futures

import run
from made.scripts import Script

NAME = rb'[A-Z_][A-Z0-9_]*'
FAULT = rb' %s row \d+' % NAME
# The name of each cause, and its details.
CAUSES = {
    1: (b'Unknown', b''), 2: (b'Duplicate', b''), 3: (b'SchemaFault', b''), 4: (b'InTransaction', b''), 5: (b'NoTransaction', b''),
    6: (b'ActiveTransaction', b''), 7: (b'UnknownSavepoint', b''), 8: (b'NotDeferrable', b' ' + NAME), 9: (b'WrongShape', b''),
    10: (b'NumberOutOfRange', b''), 11: (b'TextTooLong', b''), 12: (b'Restrict', FAULT), 13: (b'Violation', FAULT),
    14: (b'ActionConflict', FAULT), 15: (b'Signal', rb" %s '([^']|'')*'" % NAME), 16: (b'DepthLimit', b' ' + NAME),
    17: (b'TooManyChanges', b''), 18: (b'TransactionTooLarge', b''), 19: (b'CommitRefused', FAULT), 20: (b'AddRefused', rb' row \d+'),
    21: (b'Limit', b''), 22: (b'OutOfMemory', b'')}
INSIDE = rb'( in %s)?' % NAME
REFUSED = b'|'.join(rb'refused %d %s%s%s' % (cause, name, details, b'' if cause in (15, 16) else INSIDE) for cause, (name, details) in CAUSES.items())
VALUE = rb"(-?\d+|NULL|'([^']|'')*')"
# What a statement of each kind is answered where it is accepted.
ACCEPTED = {'rows': rb'ok \d+', 'query': rb'rows \d+', 'other': rb'ok'}
ANSWERS = {kind: re.compile(rb'(%s|%s)\n(\| %s(, %s)*\n)*' % (answer, REFUSED, VALUE, VALUE)) for kind, answer in ACCEPTED.items()}


def is_answer(place, statement, outcome):
    """Whether an outcome has the form of an answer to this statement of the script."""
    number, _, rest = outcome.partition(b' ')
    rows = re.match(rb'rows (\d+)', rest)
    return number == b'%d' % place and ANSWERS[statement.kind].fullmatch(rest) and rest.count(b'\n') == 1 + int(rows[1] if rows else 0)


def malformed(script, transcript):
    """Why a transcript isn't made of one answer for each statement."""
    outcomes, faults, whole = run.groups(transcript)
    if faults or not whole or len(outcomes) != len(script.statements):
        return ['%d outcomes and %d faults for %d statements' % (len(outcomes), len(faults), len(script.statements))]
    pairs = enumerate(zip(script.statements, outcomes), 1)
    return ['not an answer to %s: %r' % (one.text, outcome[:80]) for place, (one, outcome) in pairs if not is_answer(place, one, outcome)][:1]


def differences(first, other):
    """Where a run over another program differs from that over the first one."""
    why = run.compare('transcript', first[0], other[0]) + run.compare('standard error', first[2], other[2])
    return why + (['expected status %d, got %d' % (first[1], other[1])] if first[1] != other[1] else [])


def failures(script, programs, runs):
    """What is wrong with the runs of a script, program by program."""
    out, status, errors = runs[0]
    why = malformed(script, out) + run.compare('standard error', b'', errors) + ([] if status == run.status_of(out) else ['got status %d' % status])
    whys = [why] + [differences(runs[0], other) for other in runs[1:]]
    return [(program, why) for program, why in zip(programs, whys) if why]


def answers(script, transcript):
    """Each answer in a few words, after the kind of its statement."""
    outcomes = [re.match(rb'\d+ (refused \d+ \w+|\w+( \d+)?)', one)[1] for one in run.groups(transcript)[0]]
    shapes = [re.sub(rb'(?<=ok |ws )[1-9]\d*', b'n', one).decode() for one in outcomes]
    return [(one.kind, shape) for one, shape in zip(script.statements, shapes)]


def place_of(answer):
    """Where an answer stands in the list: refusals come last, by their cause."""
    return answer.startswith('refused'), int((re.findall(r'\d+', answer) or ['0'])[0]), answer


def tell(told):
    """Prints how often each answer came, and how many data statements were accepted."""
    counts = collections.Counter(answer for _, answer in told)
    for answer in sorted(counts, key=place_of):
        print('%8d  %s' % (counts[answer], answer))
    data = [answer.startswith('ok') for kind, answer in told if kind == 'rows']
    print('%d statements, %d data statements, %.1f%% of these accepted' % (len(told), len(data), 100 * sum(data) / max(1, len(data))))


def tested(seed, programs):
    """What is wrong with the runs of a seed's script, in lines, and the answers of the first program."""
    script = Script(seed)
    runs = [run.run(program, script.text().encode(), script.words) for program in programs]
    show = 'tests/random_scripts.py --seed %d --count 1 --show' % seed
    lines = ['FAILED seed %d over %s: %s; %s' % (seed, program, '; '.join(why), show) for program, why in failures(script, programs, runs)]
    return lines, answers(script, runs[0][0])


def test(seeds, programs, tells):
    """Runs the scripts, as many at a time as there are processors, and prints what came of them; whether all is well."""
    failed, told = 0, []
    with futures.ThreadPoolExecutor(os.cpu_count()) as pool:
        for lines, some in pool.map(tested, seeds, itertools.repeat(programs)):
            failed, told = failed + bool(lines), told + some
            print(''.join(line + '\n' for line in lines), end='', flush=True)
    if tells:
        tell(told)
    print('%d passed, %d failed' % (len(seeds) - failed, failed))
    return failed == 0


def main():
    parser = argparse.ArgumentParser()
    parser.add_argument('--program', action='append', default=[])
    parser.add_argument('--seed', type=int, default=1)
    parser.add_argument('--count', type=int, default=500)
    parser.add_argument('--show', action='store_true')
    parser.add_argument('--tell', action='store_true')
    given = parser.parse_args()
    seeds = range(given.seed, given.seed + given.count)
    if given.show:
        print(''.join(Script(seed).text() for seed in seeds), end='')
        return
    if not given.program:
        parser.error('give a --program, or --show')
    raise SystemExit(int(not test(seeds, [os.path.abspath(program) for program in given.program], given.tell)))


if __name__ == '__main__':
    main()
