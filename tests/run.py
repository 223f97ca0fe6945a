#!/usr/bin/env python3
"""Runs the tests of this directory over each program given; see README.md beside this file.

  tests/run.py --program PATH [--program PATH]... [--only PART]
The last line is `N passed, N failed`; the status is 1 where something failed."""
import argparse
import json
import os
import re
import resource
import shlex
import subprocess

HERE = os.path.dirname(os.path.abspath(__file__))
# One statement that was read, its rows, and the end of an open transaction.
READ = re.compile(rb'1 (ok( \d+)?|rows \d+|refused \d+ [^\n]*)\n(\| [^\n]*\n)*(end rolled back\n)?')


def files(directory):
    """The files of a folder; the folders in it are left out."""
    return sorted(entry.name for entry in os.scandir(os.path.join(HERE, directory)) if entry.is_file())


def read(*path):
    """The bytes of a file, or None where there is none."""
    try:
        with open(os.path.join(HERE, *path), 'rb') as file:
            return file.read()
    except FileNotFoundError:
        return None


def stored(directory, name):
    """A stored file, or what its generator file makes: lines `repeat COUNT "TEXT"`, where {n} is the place from 1 and {n+7} is 7 more."""
    plan, made = read(directory, name + '.gen'), []
    for line in (plan or b'').decode().splitlines():
        count, text = line.removeprefix('repeat ').split(' ', 1)
        text, numbers = json.loads(text), range(1, int(count) + 1)
        place = re.compile(r'\{n(?:\+(\d+))?\}')
        numbered = [place.sub(lambda found: str(n + int(found[1] or 0)), text) for n in numbers] if place.search(text) else None
        made += numbered or [text * len(numbers)]
    return ''.join(made).encode() if plan is not None else read(directory, name)


def run(program, script, words=()):
    """Standard output, status and standard error; a FILE among the words is looked for beside the scripts."""
    try:
        beside = os.path.join(HERE, 'scripts')
        done = subprocess.run([program, *words], input=script, capture_output=True, timeout=300, cwd=beside)
        return done.stdout, done.returncode, done.stderr
    except subprocess.TimeoutExpired:
        return b'no answer in 300 s', -1, b''


def status_of(transcript):
    """The status of a run with this transcript, in words or as JSON."""
    return int(re.search(rb'^(\d+ |\{"number":\d+,"kind":")(refused|fault)[ "]', transcript, re.M) is not None)


def compare(what, want, got):
    """Nothing, or the first place where two texts differ."""
    lines, found = want.split(b'\n'), got.split(b'\n')
    at = next((i for i, (a, b) in enumerate(zip(lines, found)) if a != b), min(len(lines), len(found)))
    return [] if want == got else ['%s, line %d: expected %r, got %r' % (what, at + 1, lines[at:at + 1], found[at:at + 1])]


def judge(program, script, want, err=b'', status=None, words=()):
    """Why a run isn't as it should be; standard error isn't compared where `err` is None."""
    out, got, errors = run(program, script, words)
    why = compare('transcript', want, out) + (compare('standard error', err, errors) if err is not None else [])
    expected = status_of(want) if status is None else int(status)
    return why + (['expected status %d, got %d' % (expected, got)] if got != expected else [])


def scripts(program):
    """Whole scripts with their transcript, status and standard error, and with accounts: those of tests and of examples."""
    for directory in ('scripts', '../examples'):
        for name in sorted({file.split('.')[0] for file in files(directory)}):
            script, want = stored(directory, name + '.sql'), stored(directory, name + '.out')
            err, status = read(directory, name + '.err'), read(directory, name + '.status')
            words = shlex.split((read(directory, name + '.args') or b'').decode())
            # a fault of the command line is written in the words of the library that reads it
            err = err or (None if words and status == b'2\n' else b'')
            why = judge(program, script, want, err, status, words)
            account = read(directory, name + '.account')
            if account is not None:
                why += judge(program, script, account, err, status, [*words, '--explain'])
            there = read(directory, name + '.nofile') is not None and os.path.exists(os.path.join(HERE, directory, words[-1]))
            yield directory + '/' + name, why + (['%s is there' % words[-1]] if there else [])


def options(program):
    """The text of --help, which names every option, and the line of --version, and nothing else."""
    out, status, err = run(program, b'SELECT * FROM t;', ['--help'])
    words = (b'--depth', b'--changes', b'--explain', b'--json', b'--dump', b'--format', b'--version', b'FILE', b'Limits:', b'Examples:')
    good = status == 0 and err == b'' and out.endswith(b'\n') and all(word in out for word in words)
    yield 'options: --help', [] if good else ['status %d, got %r, standard error %r' % (status, out[:200], err[:200])]
    for name, line in ((b'\xff.sql', b"a word of the command line isn't UTF-8; give such a file on standard input"), (b'\x1b[2J', b'cannot read the file: no such file')):
        got = run(program, b'', [name])
        yield 'options: the file %r' % name, [] if got == (b'', 2, b'sqlkeep: %s\n' % line) else ['got %r' % (got,)]
    for word in ('--version', '-V'):
        out, status, err = run(program, b'SELECT * FROM t;', [word])
        good = status == 0 and err == b'' and re.fullmatch(rb'sqlkeep %s \([^\n]*\)\n' % re.escape(read('../VERSION').strip()), out)
        yield 'options: ' + word, [] if good else ['status %d, got %r, standard error %r' % (status, out[:200], err[:200])]


def pages(program):
    """Scripts on the pages of the language and of JSON, each with its transcript directly after it."""
    for page in [os.path.join('docs', folder, file) for folder in ('language', 'json') for file in files('../docs/' + folder)]:
        found = re.findall(rb'```sql([^\n]*)\n(.*?)```\n+```text\n(.*?)```', read('..', page), re.S)
        for place, (words, script, want) in enumerate(found, 1):
            yield '%s, script %d' % (page, place), judge(program, script, want, words=shlex.split(words.decode()))


def statements(program):
    """Statements of the grammar, and their nearest neighbours that are none."""
    for place, line in enumerate(read('grammar/statements.txt').splitlines(), 1):
        if line[:1] in (b'', b'#'):
            continue
        kind, text = line.split(b' | ', 1)
        out, status, err = run(program, text + b';')
        at = int(kind.split()[1]) if kind.startswith(b'fault ') else 0
        fault = rb'^%s fault %d\n(end rolled back\n)?\Z' % (rb'\d+' if at > 0 else rb'\A1', at)
        good = READ.fullmatch(out) if kind == b'read' else re.search(fault, out, re.M)
        good = good and status == status_of(out) and err == b''
        yield 'grammar/statements.txt:%d' % place, [] if good else ['%s: got %r' % (line.decode()[:120], out[:80])]


def ends(script):
    """The offsets after each semicolon that ends a statement: outside texts and outside BEGIN .. END."""
    inside, found = 0, []
    for token in re.finditer(rb"'[^']*'|\w+|;", script):
        word = token[0].upper()
        inside += (word == b'BEGIN') - (word == b'END')
        found += [token.end()] if word == b';' and inside == 0 else []
    return found


def groups(transcript):
    """The outcomes, each with its rows and its account; the faults; and whether the transcript is made of these alone."""
    shape = rb'(\d+ (?:ok|rows|refused)[^\n]*\n(?:(?:\||  )[^\n]*\n)*)|(\d+ fault \d+\n(?:  [^\n]*\n)*)|(end rolled back\n\Z)'
    found = list(re.finditer(shape, transcript))
    outcomes, faults = ([f[part] for f in found if f[part]] for part in (1, 2))
    return outcomes, faults, b''.join(f[0] for f in found) == transcript


def prefixes(program):
    """Each prefix of a script runs the statements that are whole in it, and has a fault at the rest."""
    for file in files('prefixes'):
        script = read('prefixes', file)
        stops, (all_outcomes, _, _) = ends(script), groups(run(program, script)[0])
        for length in range(len(script) + 1):
            whole = [stop for stop in stops if stop <= length]
            rest = script[([0] + whole)[-1]:length].lstrip()
            want = [b'%d fault %d\n' % (len(whole) + 1, length - len(rest))] if rest else []
            out, status, err = run(program, script[:length])
            outcomes, faults, good = groups(out)
            good = good and len(outcomes) == len(whole) and outcomes == all_outcomes[:len(whole)]
            good = good and faults == want and status == status_of(out) and err == b''
            yield 'prefixes/%s:%d' % (file, length), [] if good else ['got %r' % out[-200:]]


def small_memory():
    """16 MiB for all that the process maps."""
    resource.setrlimit(resource.RLIMIT_AS, (1 << 24, 1 << 24))


def devices(program):
    """Runs that can't be finished: a directory in place of the script, a script without end, a full device, a pipe that
    nobody reads, and too little memory. Where standard error is full too, the status is the same."""
    directory, zeros, full = os.open(HERE, os.O_RDONLY), os.open('/dev/zero', os.O_RDONLY), os.open('/dev/full', os.O_WRONLY)
    reader, pipe = os.pipe()
    os.close(reader)
    cases = [
        ('a directory', b'cannot read the script', {'stdin': directory, 'stdout': subprocess.PIPE}),
        ('a script without end', b'the script is longer than 1048576 bytes', {'stdin': zeros, 'stdout': subprocess.PIPE}),
        ('a full device', b'cannot write', {'input': b'COMMIT;', 'stdout': full}),
        ('a full device, long', b'cannot write', {'input': b'COMMIT;' * 10000, 'stdout': full}),
        ('a pipe that nobody reads', b'cannot write', {'input': b'COMMIT;', 'stdout': pipe}),
        ('little memory', b'out of memory', {'input': b'(' * 1000000, 'stdout': subprocess.PIPE, 'preexec_fn': small_memory})]
    for name, line, options in cases:
        for errors, want in ((subprocess.PIPE, b'sqlkeep: %s\n' % line), (full, None)):
            done = subprocess.run([program], stderr=errors, timeout=300, check=False, **options)
            got = (done.stdout or b'', done.stderr, done.returncode)
            yield 'devices: ' + name, [] if got == (b'', want, 2) else ['got %r' % (got,)]
    for descriptor in (directory, zeros, full, pipe):
        os.close(descriptor)


PARTS = {part.__name__: part for part in (scripts, options, pages, statements, prefixes, devices)}


def main():
    parser = argparse.ArgumentParser()
    parser.add_argument('--program', action='append', required=True)
    parser.add_argument('--only', choices=PARTS)
    given, passed, failed = parser.parse_args(), 0, 0
    for program in given.program:
        for part in [given.only] if given.only else PARTS:
            for name, why in PARTS[part](os.path.abspath(program)):
                passed, failed = passed + (not why), failed + bool(why)
                if why:
                    print('FAILED %s over %s: %s' % (name, program, '; '.join(why)))
    print('%d passed, %d failed' % (passed, failed))
    raise SystemExit(int(failed > 0))


if __name__ == '__main__':
    main()
