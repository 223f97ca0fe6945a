#!/usr/bin/env python3
"""The built program beside SQLite: processor time and peak memory over the same work.

  ./bench [--program PATH] [--library FOLDER] [--only WORD].. [--runs 5] [--save]
  ./bench --compare COMMIT [--instructions] [--only WORD].. [--runs 5]

Each kind of work (made/work.py) is a script for each engine, and again of about half the work. The engines take turns, and what is told is
the median of the runs: processor seconds of the user and of the kernel, from start to end of the process, and the ratio to SQLite's
(`:memory:`). The last SELECT has to give both the same number. A script of more than 1 MB is run through the library, in one session. With
--save the table goes into docs/speed/README.md, with the machine, the versions and the date.

With --compare the programs of a commit and of HEAD are compiled without proof, optimised, and compared; with --instructions their
instructions are counted by callgrind too, which a busy machine doesn't change."""
import argparse
import ctypes
import datetime
import os
import platform
import re
import shutil
import statistics
import subprocess
import sys
import tempfile

from made.work import KINDS, LONGEST, OTHERWISE, Ours, SQLite

ROOT = os.path.dirname(os.path.dirname(os.path.realpath(__file__)))
PROGRAMS = [os.path.join(ROOT, 'out/sqlkeep'), os.path.join(ROOT, 'crates/sqlkeep/out/sqlkeep'), os.path.join(ROOT, 'dist/sqlkeep')]
# Python's module runs a script as the command does; the interpreter's own start is part of its time.
BY_MODULE = 'import sqlite3, sys\nbase = sqlite3.connect(":memory:", isolation_level=None)\nfor part in sys.stdin.read().split(";\\n"):\n    for row in base.execute(part):\n        print(*row)\n'


def sqlite_command():
    """The words that run SQLite over a script on standard input."""
    return ['sqlite3', ':memory:'] if shutil.which('sqlite3') else [sys.executable, '-c', BY_MODULE]


# Linux stops a process that asks to be traced as it begins and, where it is told to, as it ends, while its memory is
# still told. The peak that `wait4` tells is that of the interpreter which forked it too.
LIBC = ctypes.CDLL(None, use_errno=True)
TRACE_ME, GO_ON, SET_OPTIONS, STOP_AT_END = 0, 7, 0x4200, ctypes.c_void_p(0x40)
BEGINS, ENDS = 5, 6 << 8 | 5


def ended(pid):
    """Waits for a process: its status, what it used, and its own peak of memory in kB, or that which `wait4` tells where
    the process isn't traced."""
    peak = None
    while True:
        status, used = os.wait4(pid, 0)[1:]
        if not os.WIFSTOPPED(status):
            return status, used, peak or used.ru_maxrss
        why, signal = status >> 8, ctypes.c_void_p(0)
        if why == BEGINS:
            LIBC.ptrace(SET_OPTIONS, pid, None, STOP_AT_END)
        elif why == ENDS:
            with open('/proc/%d/status' % pid, encoding='utf-8') as lines:
                peak = next((int(line.split()[1]) for line in lines if line.startswith('VmHWM:')), None)
        else:
            signal = ctypes.c_void_p(os.WSTOPSIG(status))
        LIBC.ptrace(GO_ON, pid, None, signal)


def timed(words, script):
    """The processor seconds of a run, its peak of memory in MB and what it printed."""
    with tempfile.TemporaryFile() as given, tempfile.TemporaryFile() as printed:
        given.write(script)
        given.seek(0)
        running = subprocess.Popen(words, stdin=given, stdout=printed, stderr=subprocess.STDOUT, preexec_fn=lambda: LIBC.ptrace(TRACE_ME, 0, None, None))
        status, used, peak = ended(running.pid)
        running.returncode = os.waitstatus_to_exitcode(status)
        printed.seek(0)
        text = printed.read().decode(errors='replace')
    if running.returncode:
        raise SystemExit('%s: status %d: %s' % (words[0], running.returncode, text[-300:]))
    return used.ru_utime + used.ru_stime, peak * 1024 / 1e6, text


def last_number(text):
    """The number that the last SELECT gave."""
    return int(re.findall(r'-?\d+', text.strip().splitlines()[-1])[-1])


def parts_of(statements):
    """The statements as scripts of which none is longer than a script may be."""
    parts, size = [[]], 0
    for text in statements:
        more = len(text) + 2
        if size + more > LONGEST:
            parts.append([])
            size = 0
        parts[-1].append(text + ';\n')
        size += more
    return [''.join(part).encode() for part in parts]


class Engine:
    """What runs a script: a program, and for a script that is too long for it one that runs several in a session."""

    def __init__(self, name, way, words, session=None):
        self.name, self.way, self.words, self.session = name, way, words, session

    def lay_out(self, make, part, folder):
        """The words that run the work, and what they are given on standard input; none where that can't be had."""
        scripts = parts_of([*self.way.first, *make(self.way, part)])
        if len(scripts) == 1 or self.way.name != 'ours':
            return self.words, b''.join(scripts)
        if self.session is None:
            return None
        files = [os.path.join(folder, '%s-%d-%d.sql' % (self.name.replace(os.sep, '_'), part, place)) for place in range(len(scripts))]
        for file, script in zip(files, scripts):
            with open(file, 'wb') as out:
                out.write(script)
        return [*self.session, *files], b''


def compared(engines, make, part, runs, folder):
    """For each engine the medians of processor time and peak memory; they have to answer the same."""
    works = {engine.name: engine.lay_out(make, part, folder) for engine in engines}
    if None in works.values():
        return None
    seen = {name: [] for name in works}
    for _ in range(runs):
        for name, (words, given) in works.items():
            seen[name].append(timed(words, given))
    answers = {name: last_number(results[0][2]) for name, results in seen.items()}
    if len(set(answers.values())) > 1:
        raise SystemExit('the last SELECT answers %s' % answers)
    return {name: tuple(statistics.median(result[at] for result in results) for at in (0, 1)) for name, results in seen.items()}


def instructions(words, given):
    """How many instructions a run takes, as callgrind counts them."""
    with tempfile.TemporaryDirectory() as folder:
        counted = ['valgrind', '--tool=callgrind', '--callgrind-out-file=' + os.path.join(folder, 'out'), *words]
        done = subprocess.run(counted, input=given, stdout=subprocess.DEVNULL, stderr=subprocess.PIPE, check=False)
    found = re.search(rb'Collected : (\d+)', done.stderr)
    if not found:
        raise SystemExit(done.stderr.decode(errors='replace')[-300:])
    return int(found[1])


def session_driver(library, folder):
    """The words that run several scripts in one session through a library; none where it isn't built."""
    archive = os.path.join(library, 'libsqlkeep.a')
    if not os.path.exists(archive):
        return None
    driver = os.path.join(folder, 'session-' + re.sub(r'\W', '_', library))
    source = os.path.join(ROOT, 'tests', 'bench_session.c')
    subprocess.run([os.environ.get('CC', 'cc'), '-O1', '-I', library, source, archive, '-o', driver], check=True)
    return [driver]


def filled(words, folder):
    """The seconds of 300,000 INSERTs with two values, each from its text, in the library and in SQLite by prepare, bind and step."""
    source, compiler = os.path.join(ROOT, 'tests', 'bench_filled.c'), os.environ.get('CC', 'cc')
    made = {'ours': ['-I', words.library, source, os.path.join(words.library, 'libsqlkeep.a')], 'SQLite': ['-DSQLITE', source, '-lsqlite3']}
    for name, given in made.items():
        program = os.path.join(folder, 'filled-' + name)
        subprocess.run([compiler, '-O1', *given, '-o', program], check=True)
        seconds = min(timed([program, '300000'], b'')[0] for _ in range(words.runs))
        print('%s: %.3f s' % (name, seconds), flush=True)


def of_commit(commit, folder):
    """The program of a commit, without proof but optimised, and its library: both are made in a checkout of its own in out/, which stays."""
    name = subprocess.run(['git', '-C', ROOT, 'rev-parse', '--short=12', commit], capture_output=True, text=True, check=True).stdout.strip()
    place = os.path.join(ROOT, 'out', 'commits', name)
    if not os.path.exists(place):
        subprocess.run(['git', 'clone', '--quiet', '--shared', '--no-checkout', ROOT, place], check=True)
        subprocess.run(['git', '-C', place, 'checkout', '--quiet', name], check=True)
    made = os.path.join(place, 'out', 'unproved')
    for more in ([], ['--library']):
        if subprocess.run([os.path.join(place, 'build'), '--unproved', '--optimise', *more], check=False).returncode:
            raise SystemExit('%s has no program without proof: only later commits can be compared' % commit)
    return Engine(name, Ours(), [os.path.join(made, 'sqlkeep')], session_driver(made, folder))


def row_of(kind, whole, half):
    """A line of the table: seconds, ratio, growth from half the work to the whole, memory."""
    ours, other = whole['ours'], whole['SQLite']
    cells = [kind, '%.3f' % ours[0], '%.3f' % other[0], '%.2f' % (ours[0] / max(other[0], 0.001))]
    return cells + ['%.1f' % (ours[0] / max(half['ours'][0], 0.001)), '%.0f' % ours[1], '%.0f' % other[1]]


HEADS = ['work', 'seconds', 'SQLite', 'ratio', 'whole / half', 'MB', 'SQLite MB']


def machine():
    with open('/proc/cpuinfo', encoding='utf-8') as lines:
        model = next((line.split(':')[1].strip() for line in lines if line.startswith('model name')), platform.machine())
    return '%s, %d cores, %s' % (model, os.cpu_count() or 1, platform.system())


def version(words):
    return subprocess.run(words, capture_output=True, text=True, check=False).stdout.strip().splitlines()[0]


def page(rows, runs):
    """The page of docs/speed."""
    otherwise = ''.join('- %s: %s.\n' % (kind, way) for kind, way in OTHERWISE.items())
    table = '\n'.join('| ' + ' | '.join(row) + ' |' for row in [HEADS, ['---'] * len(HEADS), *rows])
    about = 'Made by `./bench --save` on %s: %s; %s; SQLite %s. Each figure is the median of %d runs; the engines take turns.' % (
        datetime.date.today(), machine(), version(['rt', 'version']), version(['sqlite3', '--version']).split()[0] if shutil.which('sqlite3') else 'by Python', runs)
    return SPEED % (about, table, otherwise)


SPEED = '''# Speed beside SQLite

`./bench` runs the built program and SQLite (`:memory:`) over the same work, and checks that both answer the same at the end. The seconds are of the processor, from the start of the process to its end; `ratio` is ours to SQLite's, and `whole / half` says how the time grows from half the work to the whole: 2 is linear.

%s

%s

Where SQLite takes another way for the same work:

%s
[Where the time goes](profiles.md), and what was tried.
'''


def wanted(words):
    return [(kind, make) for kind, make in KINDS.items() if not words.only or any(word in kind for word in words.only)]


def beside_sqlite(words, folder):
    """The table of our program beside SQLite."""
    engines = [Engine('ours', Ours(), [words.program], session_driver(words.library, folder)), Engine('SQLite', SQLite(), sqlite_command())]
    print(' | '.join(HEADS))
    rows = []
    for kind, make in wanted(words):
        both = [compared(engines, make, part, words.runs, folder) for part in (1, 2)]
        if None in both:
            print('%s: skipped; ./build --library makes the library that runs it' % kind)
            continue
        rows.append(row_of(kind, *both))
        print(' | '.join(rows[-1]), flush=True)
    return rows


def beside_commit(words, folder):
    """The table of two commits: seconds of each, and with --instructions what callgrind counts."""
    engines = [of_commit(words.compare, folder), of_commit('HEAD', folder)]
    print(' | '.join(['work', *(engine.name for engine in engines), 'ratio', 'MB', 'MB', *(['instructions'] if words.instructions else [])]))
    for kind, make in wanted(words):
        seen = compared(engines, make, 1, words.runs, folder)
        before, after = (seen[engine.name] for engine in engines)
        cells = [kind, '%.3f' % before[0], '%.3f' % after[0], '%.2f' % (after[0] / max(before[0], 0.001)), '%.0f' % before[1], '%.0f' % after[1]]
        if words.instructions:
            counts = [instructions(*engine.lay_out(make, 1, folder)) for engine in engines]
            cells.append('%.2f' % (counts[1] / counts[0]))
        print(' | '.join(cells), flush=True)


def main():
    parser = argparse.ArgumentParser(description=__doc__, formatter_class=argparse.RawDescriptionHelpFormatter)
    parser.add_argument('--program', default=next((path for path in PROGRAMS if os.path.exists(path)), PROGRAMS[0]))
    parser.add_argument('--library', default=os.path.join(ROOT, 'out'))
    parser.add_argument('--only', action='append')
    parser.add_argument('--runs', type=int, default=5)
    parser.add_argument('--save', action='store_true')
    parser.add_argument('--compare', metavar='COMMIT')
    parser.add_argument('--instructions', action='store_true')
    parser.add_argument('--filled', action='store_true', help='an INSERT with values, 300,000 times, beside SQLite by prepare, bind and step')
    words = parser.parse_args()
    with tempfile.TemporaryDirectory(prefix='bench-') as folder:
        if words.compare:
            beside_commit(words, folder)
            return
        if words.filled:
            filled(words, folder)
            return
        if not os.path.exists(words.program):
            raise SystemExit('there is no %s: ./build makes it' % words.program)
        rows = beside_sqlite(words, folder)
    if words.save:
        with open(os.path.join(ROOT, 'docs/speed/README.md'), 'w', encoding='utf-8') as out:
            out.write(page(rows, words.runs))


if __name__ == '__main__':
    main()
