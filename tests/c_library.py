#!/usr/bin/env python3
"""Tries the library for C: its header, its examples and its calls; see README.md beside this file.

  tests/c_library.py --library FOLDER [--only WORD]

The folder has libsqlkeep.a, libsqlkeep.so and sqlkeep.h, as `./build --library` leaves them in out/. Each script of tests/scripts and of
examples that has no other words than limits is run by the C example, which does what the program does, and so by those in Rust and
Python: transcript, standard error and status are to be those of the program. The last line is `N passed, N failed`."""
import argparse
import importlib.util
import os
import re
import shlex
import shutil
import stat
import subprocess
import sys
import tempfile
from concurrent.futures import ThreadPoolExecutor

import pending
import preload
import refused_memory
import run
from made.scripts import Script

HERE = os.path.dirname(os.path.abspath(__file__))
EXAMPLES = os.path.join(HERE, '..', 'examples')
WARNINGS = ['-Wall', '-Wextra', '-Wpedantic', '-Werror']
LIMITS = re.compile(r'(--(depth|changes) [0-9]{1,9} ?)*')
# What the tests of a schema use of pytest, where that isn't there, and a run of them.
STANDS_IN = """import contextlib, types

def fixture(function):
    return function

@contextlib.contextmanager
def raises(kind):
    caught = types.SimpleNamespace(value=None)
    try:
        yield caught
    except kind as error:
        caught.value = error
    assert caught.value is not None
"""
RUNS = """import test_schema
for name, test in sorted(vars(test_schema).items()):
    if name.startswith('test_'):
        with test_schema.pytest.contextlib.contextmanager(test_schema.database)() as database:
            test(database)
"""
# The script whose requests for memory are refused one after the other.
REFUSED = 'savepoint_restores_modes'


class Room:
    """A folder for what is built, with the library."""

    def __init__(self, library):
        self.library, self.folder = library, tempfile.mkdtemp(prefix='c-library-')

    def __enter__(self):
        return self

    def __exit__(self, *_):
        shutil.rmtree(self.folder)

    def place(self, name):
        return os.path.join(self.folder, name)

    def c_program(self, source, name):
        """Builds a C program with the static library; its path, or what the compiler says."""
        words = [os.environ.get('CC', 'cc'), '-std=c11', '-O1', '-g', *WARNINGS, '-I', self.library, source, os.path.join(self.library, 'libsqlkeep.a'), '-o', self.place(name)]
        return self.place(name), told(words)

    def starter(self, name, command):
        """A program that runs a command with further words."""
        with open(self.place(name), 'w', encoding='utf-8') as file:
            file.write('#!/bin/sh\nexec %s "$@"\n' % command)
        os.chmod(self.place(name), stat.S_IRWXU)
        return self.place(name)


def told(words, **how):
    """Nothing where a command ends well, and else what it wrote."""
    done = subprocess.run(words, stdout=subprocess.PIPE, stderr=subprocess.STDOUT, check=False, **how)
    return [] if done.returncode == 0 else ['%s: %s' % (shlex.join(words), done.stdout.decode(errors='replace')[-2000:])]


def headers(room):
    """The header as C and as C++, with all warnings as faults."""
    for name, compiler, ending in (('C11', os.environ.get('CC', 'cc'), 'c'), ('C++17', os.environ.get('CXX', 'c++'), 'cpp')):
        source = room.place('header.' + ending)
        with open(source, 'w', encoding='ascii') as file:
            file.write('#include "sqlkeep.h"\nsqlkeep session = SQLKEEP_EMPTY;\n')
        standard = '-std=' + name.lower()
        yield 'the header as ' + name, told([compiler, standard, *WARNINGS, '-I', room.library, '-c', source, '-o', room.place('header.o')])


def known(every=1):
    """Each so-many-th script that has no words but limits: its name, text, transcript, standard error, status and words. Scripts
    that can't be read, as one that is too long, are in the list of all of them alone."""
    found = []
    for folder in ('scripts', '../examples'):
        for name in sorted({file.split('.')[0] for file in run.files(folder)}):
            words = (run.read(folder, name + '.args') or b'').decode().strip()
            if LIMITS.fullmatch(words) and max(words.count('--depth'), words.count('--changes')) < 2:
                status = run.read(folder, name + '.status')
                err = run.read(folder, name + '.err') or (None if words and status == b'2\n' else b'')
                found.append((name, run.stored(folder, name + '.sql'), run.stored(folder, name + '.out'), err, status, words.split()))
    return [script for script in found if every == 1 or not script[3]][::every]


def scripts(what, program, every=1, words=()):
    """Whether a program answers the scripts as `sqlkeep` does."""
    def one(script):
        name, text, want, err, status, limits = script
        return '%s: %s' % (what, name), run.judge(program, text, want, err, status, [*limits, *words])

    with ThreadPoolExecutor(os.cpu_count() or 1) as pool:
        yield from pool.map(one, known(every))


def accounts(what, program, words=()):
    """Whether a program writes the accounts of the examples as `sqlkeep` does; statement by statement without what came and went of what is pending."""
    for name in sorted({file.split('.')[0] for file in run.files('../examples')}):
        want = run.read('../examples', name + '.account')
        if want is not None:
            text = run.stored('../examples', name + '.sql')
            want = pending.without(want) if '--statements' in words else want
            yield '%s, with accounts: %s' % (what, name), run.judge(program, text, want, b'', None, ['--explain', *words])


def refused(program, words=()):
    """One script with each of its requests for memory refused in turn."""
    script = run.stored('scripts', REFUSED + '.sql')
    with preload.Library() as library:
        trial = refused_memory.Trial(library, program, False, script, list(words))
        for request, _, why in refused_memory.judged(trial, 0, False):
            yield 'refused memory: %s' % ' '.join([request, *words]), why


def example(language, name):
    return os.path.join(EXAMPLES, language, name)


def programs(room):
    """What runs scripts, for each language that is there: a name, the program, and what its compiler said."""
    yield ('C', *room.c_program(example('c', 'script.c'), 'script'))
    if shutil.which('rustc'):
        words = ['rustc', '--edition', '2021', '-O', '-D', 'warnings', '-L', room.library, '-l', 'static=sqlkeep', '-o', room.place('rust'), example('rust', 'sqlkeep.rs')]
        why = told(words)
        yield 'Rust', room.starter('rust_script', room.place('rust') + ' script'), why
    shared = shlex.quote(os.path.join(room.library, 'libsqlkeep.so'))
    yield 'Python', room.starter('python_script', 'env SQLKEEP_LIBRARY=%s %s %s' % (shared, sys.executable, example('python', 'script.py'))), []


def schema(room, settings):
    """The tests of a schema in Python, by pytest or by what stands in for it."""
    words = [sys.executable, '-m', 'pytest', '-q', '-p', 'no:cacheprovider', example('python', 'test_schema.py')]
    if not importlib.util.find_spec('pytest'):
        with open(room.place('pytest.py'), 'w', encoding='ascii') as file:
            file.write(STANDS_IN)
        words = [sys.executable, '-c', RUNS]
        settings = {**settings, 'PYTHONPATH': os.pathsep.join([room.folder, example('python', '')]), 'PYTHONDONTWRITEBYTECODE': '1'}
    return told(words, env=settings)


def firsts(room):
    """The first script of the README in each language: its refused COMMIT is shown with the constraint and the row."""
    program, why = room.c_program(example('c', 'first.c'), 'first')
    commands = [('C', [program])] + ([('Rust', [room.place('rust')])] if shutil.which('rustc') else []) + [('Python', [sys.executable, example('python', 'first.py')])]
    settings = {**os.environ, 'SQLKEEP_LIBRARY': os.path.join(room.library, 'libsqlkeep.so')}
    yield 'the first script in C is built', why
    for what, words in commands:
        done = subprocess.run(words, capture_output=True, check=False, env=settings)
        wanted = all(word in done.stdout for word in (b'Persuasion', b'CommitRefused', b'WRITTEN_BY', b'6')) and done.returncode == 0
        yield 'the first script in ' + what, [] if wanted else ['status %d: %r' % (done.returncode, done.stdout + done.stderr)]
    yield 'tests of a schema', schema(room, settings)


def by_c(room, program):
    """What is tried with the C example alone: refused memory, and bad accesses and leaks."""
    yield from refused(program)
    yield from refused(program, ['--statements'])
    yield from refused(program, ['--explain'])
    if shutil.which('valgrind'):
        checked = room.starter('checked', 'valgrind -q --leak-check=full --show-leak-kinds=all --error-exitcode=99 ' + program)
        yield from scripts('C under valgrind', checked, 10)
        yield from scripts('C under valgrind, statement by statement', checked, 20, ['--statements'])


def places(room):
    """Whether each statement of each script is where the library says."""
    program, why = room.c_program(os.path.join(HERE, 'c_places.c'), 'c_places')
    yield 'places of statements: the program is built', why
    for name, text, *_ in [] if why else known():
        yield 'places of statements: ' + name, told([program], input=text)


def follows(program, lister, seed):
    """Whether what is pending after each statement of a random script, followed by the lines of its accounts, is what the library says."""
    script = Script(seed)
    limits = dict(zip(script.words[::2], script.words[1::2]))
    given = [limits.get('--depth', '16'), limits.get('--changes', '65536')]
    told = run.groups(run.run(program, script.text().encode(), ['--explain', *script.words])[0])[0]
    listed = [line.split()[1:] for line in run.run(lister, script.text().encode(), given)[0].splitlines()]
    want = [set(zip(words[::2], map(int, words[1::2]))) for words in listed]
    got = pending.followed([one.text.encode() for one in script.statements], told)
    place = next((at for at, pair in enumerate(zip(want, got), 1) if pair[0] != pair[1]), None)
    why = ['%d statements, and %d are listed' % (len(got), len(want))] if len(got) != len(want) else []
    return why + (['after statement %d: wanted %r, followed %r' % (place, want[place - 1], got[place - 1])] if place else []), sum(map(bool, want))


def pending_lines(room):
    """Whether the lines of accounts that tell what came and what went lead to what is pending, in 200 random scripts."""
    program, why = room.c_program(example('c', 'script.c'), 'script')
    lister, also = room.c_program(os.path.join(HERE, 'c_pending.c'), 'c_pending')
    yield 'what is pending: the programs are built', why + also
    if why + also:
        return
    with ThreadPoolExecutor(os.cpu_count() or 1) as pool:
        found = list(pool.map(lambda seed: follows(program, lister, seed), range(1, 201)))
    yield from (('what is pending: seed %d' % seed, why) for seed, (why, _) in enumerate(found, 1))
    often = sum(count for _, count in found)
    yield 'what is pending: something often is', [] if often > 200 else ['after %d statements' % often]


def dumps(room):
    """Whether the dump after each script makes its database again."""
    program, why = room.c_program(os.path.join(HERE, 'c_dump.c'), 'c_dump')
    yield 'dumps: the program is built', why
    if why:
        return
    with ThreadPoolExecutor(os.cpu_count() or 1) as pool:
        yield from pool.map(lambda script: ('dumps: ' + script[0], told([program], input=script[1])), known())
    if shutil.which('valgrind'):
        for name, text, *_ in known(25):
            yield 'dumps under valgrind: ' + name, told(['valgrind', '-q', '--leak-check=full', '--error-exitcode=99', program], input=text)


def tried(room):
    """All tests: a name, and why it failed."""
    yield from headers(room)
    for what, program, why in programs(room):
        yield what + ' example is built', why
        if not why:
            yield from scripts(what, program)
            yield from scripts(what + ', statement by statement', program, 10, ['--statements'])
            yield from accounts(what, program)
            yield from accounts(what + ', statement by statement', program, ['--statements'])
            if what == 'C':
                yield from by_c(room, program)
    yield from firsts(room)
    yield from places(room)
    yield from dumps(room)
    yield from pending_lines(room)
    for what, name in (('sessions side by side', 'c_sessions'), ('templates and the catalogue', 'c_catalogue'), ('accounts entry by entry', 'c_accounts'),
                       ('rows many at a time', 'c_rows'), ('places, messages, results and violations', 'c_results')):
        program, why = room.c_program(os.path.join(HERE, name + '.c'), name)
        yield what, why or told([program])
        if shutil.which('valgrind'):
            yield what + ' under valgrind', why or told(['valgrind', '-q', '--leak-check=full', '--error-exitcode=99', program])
    with open(os.path.join(HERE, '..', 'VERSION'), encoding='ascii') as file:
        line = '#define SQLKEEP_VERSION "%s"\n' % file.read().strip()
    with open(os.path.join(room.library, 'sqlkeep.h'), encoding='utf-8') as file:
        yield 'the version of the header', [] if line in file.read() else ['not ' + line]


def main():
    parser = argparse.ArgumentParser()
    parser.add_argument('--library', required=True)
    parser.add_argument('--only')
    given, passed, failed = parser.parse_args(), 0, 0
    with Room(os.path.abspath(given.library)) as room:
        for name, why in tried(room):
            if given.only and given.only not in name:
                continue
            passed, failed = passed + (not why), failed + bool(why)
            if why:
                print('FAILED %s: %s' % (name, '; '.join(why)), flush=True)
    print('%d passed, %d failed' % (passed, failed))
    raise SystemExit(int(failed > 0))


if __name__ == '__main__':
    main()
