#!/usr/bin/env python3
"""Makes scripts, runs each over all programs given, and shrinks one over which they differ to a small script; see README.md beside this file.

  tests/fuzz.py --program PATH [--program PATH].. --seconds N [--seed S]
  tests/fuzz.py --program PATH [--program PATH].. --scripts N [--seed S]

The scripts are of the seeds S, S + 1 and so on: random statements over few names, real scripts of tests/scripts, examples and docs/language with changes,
random words and random bytes. Transcripts, statuses and standard error are compared byte for byte with those of the first program, whose transcript must have
the form of one. A script to which some program has no answer in ten seconds is counted and not compared. A small script that still shows the difference is
printed, and kept in the folder --keep, which is out/fuzz if nothing else is said. The last line is `N passed, N failed`; the status is 1 where something
failed."""
import argparse
import os
import re
import subprocess
import time

import cut
import programs
import run
from made import mutations
from made.chance import Chance
from made.scripts import Script
from made.sentences import Sentences

SECONDS, SHRINKING = 10, 60
LONGEST = 20_000
LINES = [b'', b'sqlkeep: the script is not UTF-8\n', b'sqlkeep: the script is longer than 1048576 bytes\n']


def real_scripts():
    """Scripts that are stored, and those on the pages of the language, that are not too long."""
    found = [run.read(folder, file) for folder in ('scripts', '../examples') for file in run.files(folder) if file.endswith('.sql')]
    for file in run.files('../docs/language'):
        found += [text for text in re.findall(rb'```sql[^\n]*\n(.*?)```', run.read('../docs/language', file), re.S)]
    return [script for script in found if len(script) <= LONGEST and not is_doubling(script)]


def is_doubling(script):
    """Whether a script makes tens of thousands of rows by doubling: that takes the plain store too long."""
    return script.count(b'INSERT INTO t SELECT * FROM t') > 10


def made(seed, real):
    """The script of a seed, and the words for the command line."""
    chance = Chance(seed)
    limits = chance.weighed((8, []), (1, ['--changes', str(chance.number(1, 12))]), (1, ['--depth', str(chance.number(1, 3))]))
    kind = chance.weighed((6, 'sentences'), (6, 'mutated'), (2, 'random'), (1, 'words'), (1, 'noise'))
    if kind == 'random':
        script = Script(seed)
        return script.text().encode(), script.words
    if kind == 'sentences':
        return Sentences(chance).script().encode(), limits
    if kind == 'mutated':
        return mutations.mutated(chance, real), limits
    return (mutations.words(chance) if kind == 'words' else mutations.noise(chance)), []


def one_run(program, script, words):
    """Standard output, status and standard error, or nothing where there was no answer in time."""
    try:
        done = subprocess.run([program, *words], input=script, capture_output=True, timeout=SECONDS, check=False)
        return done.stdout, done.returncode, done.stderr
    except subprocess.TimeoutExpired:
        return None


def malformed(got):
    """Why a run of one program isn't of the form that it must have."""
    out, status, errors = got
    if errors:
        return [] if errors in LINES and status == 2 and out == b'' else ['status %d, standard error %r' % (status, errors[:200])]
    why = [] if status == run.status_of(out) else ['status %d' % status]
    # a text with a line feed goes over several lines, and then the form isn't looked at
    return why + ([] if run.groups(out)[2] or b"'" in out else ['no transcript: %r' % out[:200]])


def judged(given, script, words):
    """Why the runs of a script aren't as they should be; nothing is said of a script without an answer in time, and `None` is given."""
    runs = [one_run(program, script, words) for program in given]
    if None in runs:
        return None
    why = malformed(runs[0])
    for program, got in zip(given[1:], runs[1:]):
        differs = run.compare('transcript', runs[0][0], got[0]) + run.compare('standard error', runs[0][2], got[2])
        differs += ['status %d and %d' % (runs[0][1], got[1])] if runs[0][1] != got[1] else []
        why += ['%s and %s: %s' % (given[0], program, '; '.join(differs))] if differs else []
    return why


# A difference is made smaller: statements, then words, then bytes are left out as long as it is still there.


def left_out(parts, size, step, shows, until):
    """The parts without those groups of so many, one after another, that can be left out."""
    at = 0
    while at < len(parts) and time.monotonic() < until:
        rest = parts[:at] + parts[at + size:]
        if len(rest) < len(parts) and shows(b''.join(rest)):
            parts = rest
        else:
            at += step
    return parts


def smaller(parts, shows, until):
    """A list of parts from which no few that stand together can be left out: first halves are tried, then quarters and so on, then each few."""
    size = len(parts) // 2
    while size > 0:
        parts, size = left_out(parts, size, size, shows, until), size // 2
    while time.monotonic() < until:
        was = len(parts)
        for few in range(8, 0, -1):
            parts = left_out(parts, few, 1, shows, until)
        if len(parts) == was:
            break
    return parts


def shrunk(script, shows):
    """A small script that still shows the difference."""
    until = time.monotonic() + SHRINKING
    for split in (with_rest, mutations.tokens, lambda text: [bytes([byte]) for byte in text]):
        script = b''.join(smaller(split(script), shows, until))
    return script


def with_rest(script):
    """The whole statements of a script, and what comes after them."""
    parts = cut.statements(script)
    return [*parts, script[sum(map(len, parts)):]]


def is_shrinking_well():
    """Whether a made-up difference is shrunk to what makes it: a script of 40 statements, of which two have to stay."""
    script = b''.join(b'INSERT INTO t VALUES (%d);' % n for n in range(40))
    return shrunk(script, lambda text: b'(7' in text and b'31);' in text) == b'(731);'


def keep(folder, seed, script, words, why):
    """Prints a small script with its difference, and keeps it; its first line has the words for the command line."""
    os.makedirs(folder, exist_ok=True)
    path = os.path.join(folder, 'seed_%d.sql' % seed)
    with open(path, 'wb') as file:
        file.write(script)
    print('FAILED seed %d with the words %s: %s' % (seed, words, '; '.join(why)))
    print('  kept as %s, %d bytes:\n%s' % (path, len(script), script.decode(errors='backslashreplace')), flush=True)


def seeds(given):
    """The seeds of the scripts, for so many or for so long."""
    until = time.monotonic() + (given.seconds or 0)
    seed = given.seed
    while seed < given.seed + given.scripts if given.scripts else time.monotonic() < until:
        yield seed
        seed += 1


def main():
    parser = argparse.ArgumentParser()
    parser.add_argument('--program', action='append', required=True)
    parser.add_argument('--seed', type=int, default=1)
    parser.add_argument('--seconds', type=float)
    parser.add_argument('--scripts', type=int)
    parser.add_argument('--keep', default=os.path.join(run.HERE, '..', 'out', 'fuzz'))
    given = parser.parse_args()
    if (given.seconds is None) == (given.scripts is None):
        parser.error('either --seconds or --scripts')
    tried, real = programs.found(given.program, parser), real_scripts()
    passed, failed, slow = (1, 0, 0) if is_shrinking_well() else (0, 1, 0)
    for seed in seeds(given):
        script, words = made(seed, real)
        why = judged(tried, script, words)
        passed, failed, slow = passed + (why == []), failed + bool(why), slow + (why is None)
        if why:
            small = shrunk(script, lambda text, words=words: bool(judged(tried, text, words)))
            keep(given.keep, seed, small, words, judged(tried, small, words) or why)
    print('%d scripts of the seeds from %d on; %d had no answer in %d seconds' % (passed + failed + slow - 1, given.seed, slow, SECONDS))
    print('%d passed, %d failed' % (passed, failed))
    raise SystemExit(int(failed > 0))


if __name__ == '__main__':
    main()
