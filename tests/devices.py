#!/usr/bin/env python3
"""Runs each program given over devices that fail, are slow, are interrupted or are closed; see README.md beside this file.

  tests/devices.py --program PATH [--program PATH].. [--only WORD] [--tell]

Statuses and lines are those of docs/language/program.md. Some devices are made with files, pipes, limits and a small file system; the others by the library
of preload.c, which counts the program's own calls and lets the n-th fail. Where the system lets no file system be mounted, that run is left out, and a line
says so. The last line is `N passed, N failed`; the status is 1 where something failed."""
import argparse
import contextlib
import fcntl
import os
import pty
import resource
import shutil
import signal
import subprocess
import tempfile
import threading

import preload
import programs

SIZE = 1_048_576
SECONDS = 60
NOBODY = 65534
READ, LONG, NOT_UTF8, WRITE = (b'sqlkeep: %s\n' % line for line in (
    b'cannot read the script', b'the script is longer than 1048576 bytes', b'the script is not UTF-8', b'cannot write'))
# A script of several reads, and its transcript of several writes.
COMMITS = 20_000
SCRIPT = b'COMMIT;' * COMMITS
TRANSCRIPT = b''.join(b'%d ok\n' % n for n in range(1, COMMITS + 1))
SHORT, SHORT_TRANSCRIPT = b'COMMIT;SELECT * FROM t;x', b'1 ok\n2 refused 1 Unknown\n3 fault 23\n'


def compared(want, got):
    """Why a run's output, status and standard error aren't those that are wanted."""
    names = ('standard output', 'status', 'standard error')
    return ['%s: expected %r, got %r' % (name, str(a)[:90], str(b)[:90]) for name, a, b in zip(names, want, got) if a != b]


def is_cut(want_error, got):
    """Why a run that could not write isn't as it should be: what was written is a beginning of the transcript."""
    out, status, errors = got
    why = [] if TRANSCRIPT.startswith(out) and out != TRANSCRIPT else ['what was written is no part of the transcript: %r' % out[-60:]]
    return why + compared((b'', 2, want_error), (b'', status, errors))


def run(words, **options):
    """A run of the program with these words: standard output, status and standard error."""
    options = {'stdout': subprocess.PIPE, 'stderr': subprocess.PIPE, **options}
    done = subprocess.run(words, timeout=SECONDS, check=False, **options)
    return done.stdout or b'', done.returncode, done.stderr or b''


class Place:
    """A folder for files, with the library, and the program that is run."""

    def __init__(self, program, folder, library):
        self.program, self.folder, self.library = program, folder, library

    def file(self, name, content):
        path = os.path.join(self.folder, name)
        with open(path, 'wb') as file:
            file.write(content)
        return path


# Readers.


def failing_reads(place):
    """A read that fails, or is interrupted: each in turn, from standard input and from a FILE."""
    file = place.file('commits.sql', SCRIPT)
    for name, script, words in (('standard input', SCRIPT, []), ('a file', b'', [file])):
        reads = place.library.counts(place.program, script, words)[1]
        for how in ('FAIL_READ', 'INTERRUPT_READ'):
            for n in range(1, reads + 1):
                got = place.library.run(place.program, script, words, **{how: n})
                yield '%s=%d of %d reads of %s' % (how, n, reads, name), compared((b'', 2, READ), got)
        got = place.library.run(place.program, script, words, FAIL_READ=reads + 1)
        yield 'no read of %s fails' % name, compared((TRANSCRIPT, 0, b''), got)


def short_reads(place):
    """Reads that give one byte each."""
    file = place.file('short.sql', SHORT)
    for name, script, words in (('standard input', SHORT, []), ('a file', b'', [file])):
        yield 'one byte a read from ' + name, compared((SHORT_TRANSCRIPT, 1, b''), place.library.run(place.program, script, words, SHORT_READS=1))
    letters = 'SELECT * FROM t WHERE a = \'äöü€\';'.encode()
    yield 'one byte a read, letters of several bytes', compared((b'1 refused 1 Unknown\n', 1, b''), place.library.run(place.program, letters, SHORT_READS=1))
    got = place.library.run(place.program, b' ' * SIZE, SHORT_READS=1)
    yield 'one byte a read, 1,048,576 of them', compared((b'', 0, b''), got)
    got = place.library.run(place.program, b' ' * (SIZE + 1), SHORT_READS=1)
    yield 'one byte a read, 1,048,577 of them', compared((b'', 2, LONG), got)
    got = place.library.run(place.program, b' ' * 100 + b'\xff', SHORT_READS=1)
    yield 'one byte a read, the last is no UTF-8', compared((b'', 2, NOT_UTF8), got)


def feed(descriptor, parts):
    """Writes the parts one by one, as long as somebody reads, and closes."""
    with contextlib.suppress(BrokenPipeError):
        for part in parts:
            os.write(descriptor, part)
    os.close(descriptor)


def endless():
    while True:
        yield b' ' * 4096


def pipes(place):
    """A pipe and a fifo that are slow, or have no end, or end at once."""
    for name, parts, want in (
            ('one byte at a time', [bytes([byte]) for byte in SHORT], (SHORT_TRANSCRIPT, 1, b'')),
            ('nothing', [], (b'', 0, b'')),
            ('bytes without end', endless(), (b'', 2, LONG))):
        reader, writer = os.pipe()
        feeder = threading.Thread(target=feed, args=(writer, parts))
        feeder.start()
        got = run([place.program], stdin=reader)
        os.close(reader)
        feeder.join()
        yield 'a pipe that gives ' + name, compared(want, got)
    fifo = os.path.join(place.folder, 'fifo')
    os.mkfifo(fifo)
    feeder = threading.Thread(target=lambda: feed(os.open(fifo, os.O_WRONLY), [bytes([byte]) for byte in SHORT]))
    feeder.start()
    yield 'a fifo as FILE that gives one byte at a time', compared((SHORT_TRANSCRIPT, 1, b''), run([place.program, fifo]))
    feeder.join()


def how_far(place):
    """Of a file without end no more than 1,048,577 bytes are read."""
    file = place.file('long.sql', b' ' * (2 * SIZE))
    with open(file, 'rb') as script:
        got = run([place.program], stdin=script)
        at = os.lseek(script.fileno(), 0, os.SEEK_CUR)
    yield 'a script of 2 MB', compared((b'', 2, LONG), got) + ([] if at <= SIZE + 1 else ['%d bytes were read' % at])
    yield '/dev/zero as FILE', compared((b'', 2, LONG), run([place.program, '/dev/zero']))
    yield '/dev/null as FILE', compared((b'', 0, b''), run([place.program, '/dev/null']))


def unread(program, name, reason, **options):
    """Why a run over a FILE that can't be read isn't as it should be."""
    return compared((b'', 2, f'sqlkeep: cannot read {name}: {reason}\n'.encode()), run([program, name], **options))


def files(place):
    """A FILE that can't be opened or read."""
    loop = os.path.join(place.folder, 'loop')
    os.symlink(loop, loop)
    yield 'a directory as standard input', directory_as_input(place)
    for what, name, reason in (
            ('a directory as FILE', place.folder, 'it is a directory'),
            ('no such file', os.path.join(place.folder, 'absent.sql'), 'no such file'),
            ('a file below a file', os.path.join(place.file('plain', b''), 'below.sql'), 'a part of its path is no directory'),
            ('an empty word as FILE', '', 'no such file'),
            ('a name of 300 letters', 'n' * 300, 'the system refuses it'),
            ('a name of 5,000 letters', 'n/' * 2500, 'the system refuses it'),
            ('a link to itself', loop, 'the system refuses it')):
        yield what, unread(place.program, name, reason)
    yield from rights(place)


def directory_as_input(place):
    descriptor = os.open(place.folder, os.O_RDONLY)
    try:
        return compared((b'', 2, READ), run([place.program], stdin=descriptor))
    finally:
        os.close(descriptor)


def can_start(program, user):
    """Whether the system lets this user start the program."""
    try:
        return subprocess.run([program, '--help'], capture_output=True, timeout=SECONDS, check=False, **user).returncode == 0
    except (OSError, subprocess.SubprocessError):
        return False


def rights(place):
    """A file without rights, for a user who isn't root. The program is copied to where this user can start it."""
    user = {'user': NOBODY, 'group': NOBODY} if os.geteuid() == 0 else {}
    own = shutil.copy(place.program, os.path.join(place.folder, 'program'))
    os.chmod(own, 0o755)
    hidden, shown = place.file('hidden.sql', SHORT), place.file('shown.sql', SHORT)
    os.chmod(hidden, 0)
    os.chmod(shown, 0o444)
    locked = os.path.join(place.folder, 'locked')
    os.mkdir(locked)
    shutil.copy(shown, locked)
    os.chmod(locked, 0)
    if not can_start(own, user):
        print('files without rights: left out, since no other user can start a program here')
        os.chmod(locked, 0o755)
        return
    yield 'a file with rights to read', compared((SHORT_TRANSCRIPT, 1, b''), run([own, shown], **user))
    yield 'a file without rights', unread(own, hidden, 'permission denied', **user)
    yield 'a folder without rights', unread(own, os.path.join(locked, 'shown.sql'), 'permission denied', **user)
    os.chmod(locked, 0o755)


# Writers.


def failing_writes(place):
    """A write that fails, is interrupted, or takes nothing: each in turn; and the same where the line on standard error can't be written either."""
    writes = place.library.counts(place.program, SCRIPT)[2]
    for how in ('FAIL_WRITE', 'INTERRUPT_WRITE', 'EMPTY_WRITE'):
        for n in range(1, writes + 1):
            got = place.library.run(place.program, SCRIPT, **{how: n})
            yield '%s=%d of %d writes' % (how, n, writes), is_cut(WRITE, got)
        got = place.library.run(place.program, SCRIPT, **{how: writes + 1})
        yield '%s=%d of %d writes' % (how, writes + 1, writes), compared((TRANSCRIPT, 0, b''), got)
    for how in ('FAIL_WRITE', 'EMPTY_WRITE', 'INTERRUPT_WRITE'):
        got = place.library.run(place.program, b'\xff', **{how: 1})
        yield 'the line of a fault, %s=1' % how, compared((b'', 2, b''), got)
        got = place.library.run(place.program, b'', ['--help'], **{how: 1})
        yield 'the help text, %s=1' % how, compared((b'', 2, WRITE), got)
        got = place.library.run(place.program, b'', ['--unknown'], **{how: 1})
        yield 'why a word is wrong, %s=1' % how, compared((b'', 2, b''), got)


def short_writes(place):
    """Writes that take few bytes."""
    for count in (1, 7, 4095):
        got = place.library.run(place.program, SCRIPT, SHORT_WRITES=count)
        yield 'writes of at most %d bytes' % count, compared((TRANSCRIPT, 0, b''), got)
    got = place.library.run(place.program, SHORT, SHORT_WRITES=1, SHORT_READS=1)
    yield 'reads and writes of one byte', compared((SHORT_TRANSCRIPT, 1, b''), got)
    got = place.library.run(place.program, b'\xff', SHORT_WRITES=1)
    yield 'the line of a fault, byte by byte', compared((b'', 2, NOT_UTF8), got)
    whole = run([place.program, '--help'])
    got = place.library.run(place.program, b'', ['--help'], SHORT_WRITES=1)
    yield 'the help text, byte by byte', compared(whole, got) + ([] if whole[0] and whole[1] == 0 else ['there is no help'])


def slow_reader(place):
    """A pipe of one page whose reader takes some bytes at a time: each write takes some."""
    reader, writer = os.pipe()
    fcntl.fcntl(writer, fcntl.F_SETPIPE_SZ, 4096)
    running = subprocess.Popen([place.program, place.file('commits.sql', SCRIPT)], stdout=writer, stderr=subprocess.PIPE)
    os.close(writer)
    taken = []
    while part := os.read(reader, 1000):
        taken.append(part)
    os.close(reader)
    errors = running.communicate(timeout=SECONDS)[1]
    yield 'a pipe of one page, read slowly', compared((TRANSCRIPT, 0, b''), (b''.join(taken), running.returncode, errors))


def closed_pipe(place):
    """A pipe whose reader goes away, at once or after a byte."""
    for count in (0, 1, 5000):
        reader, writer = os.pipe()
        fcntl.fcntl(writer, fcntl.F_SETPIPE_SZ, 4096)
        running = subprocess.Popen([place.program, place.file('commits.sql', SCRIPT)], stdout=writer, stderr=subprocess.PIPE)
        os.close(writer)
        taken = b''
        while len(taken) < count:
            taken += os.read(reader, 1)
        os.close(reader)
        errors = running.communicate(timeout=SECONDS)[1]
        yield 'a pipe that is closed after %d bytes' % count, is_cut(WRITE, (taken, running.returncode, errors))


def full_pipe(place):
    """A pipe of one page that nobody reads and that doesn't wait."""
    reader, writer = os.pipe()
    fcntl.fcntl(writer, fcntl.F_SETPIPE_SZ, 4096)
    os.set_blocking(writer, False)
    got = run([place.program, place.file('commits.sql', SCRIPT)], stdout=writer)
    os.close(writer)
    taken = b''
    while part := os.read(reader, 65536):
        taken += part
    os.close(reader)
    yield 'a full pipe that does not wait', is_cut(WRITE, (taken, *got[1:]))


def small_files():
    """No file may be longer than 10,000 bytes: a write takes what there is room for, and the next one fails."""
    signal.signal(signal.SIGXFSZ, signal.SIG_IGN)
    resource.setrlimit(resource.RLIMIT_FSIZE, (10_000, 10_000))


def full(place):
    """A full device, a file that may not grow, and a file system that is full."""
    with open('/dev/full', 'wb') as device:
        yield '/dev/full', compared((b'', 2, WRITE), run([place.program], input=SHORT, stdout=device))
        yield '/dev/full, a long transcript', compared((b'', 2, WRITE), run([place.program], input=SCRIPT, stdout=device))
        yield '/dev/full for the help text', compared((b'', 2, WRITE), run([place.program, '--help'], stdout=device))
        yield '/dev/full for both', compared((b'', 2, b''), run([place.program], input=SHORT, stdout=device, stderr=device))
        yield '/dev/full for the line of a fault', compared((b'', 2, b''), run([place.program], input=b'\xff', stderr=device))
        yield '/dev/full for why a word is wrong', compared((b'', 2, b''), run([place.program, '--unknown'], stderr=device))
        yield '/dev/full with nothing to write', compared((b'', 0, b''), run([place.program], input=b' ', stdout=device))
    script = place.file('commits.sql', SCRIPT)
    yield 'a file of at most 10,000 bytes', into_file(place, script, place.folder, {'preexec_fn': small_files}, 10_000)
    disk = os.path.join(place.folder, 'disk')
    os.mkdir(disk)
    if subprocess.run(['mount', '-t', 'tmpfs', '-o', 'size=16k', 'tmpfs', disk], capture_output=True, check=False).returncode == 0:
        try:
            yield 'a file system of 16 kB', into_file(place, script, disk, {}, 16_384)
        finally:
            subprocess.run(['umount', disk], check=True)
    else:
        print('a file system of 16 kB: left out, since none can be mounted here')


def into_file(place, script, folder, options, most):
    """A transcript that is written into a file with too little room: the file has its beginning, and not more than there is room for."""
    path = os.path.join(folder, 'transcript')
    with open(path, 'wb') as file:
        got = run([place.program, script], stdout=file, **options)
    with open(path, 'rb') as file:
        taken = file.read()
    return is_cut(WRITE, (taken, *got[1:])) + ([] if 0 < len(taken) <= most else ['%d bytes were written' % len(taken)])


# Closed from the start.


def without(*descriptors):
    """Closes standard input, output or error before the program begins."""
    def close():
        for descriptor in descriptors:
            os.close(descriptor)
    return close


def closed(place):
    """Standard input, output and error closed at the start. A FILE that is opened then may take their places."""
    script = place.file('short.sql', SHORT)
    yield 'standard input closed', compared((b'', 2, READ), run([place.program], preexec_fn=without(0)))
    yield 'standard input closed, and a FILE', compared((SHORT_TRANSCRIPT, 1, b''), run([place.program, script], preexec_fn=without(0)))
    yield 'standard output closed', compared((b'', 2, WRITE), run([place.program], input=SHORT, preexec_fn=without(1)))
    yield 'standard output closed, and a FILE', compared((b'', 2, WRITE), run([place.program, script], preexec_fn=without(1)))
    yield 'standard output closed, --help', compared((b'', 2, WRITE), run([place.program, '--help'], preexec_fn=without(1)))
    yield 'standard output closed, nothing to write', compared((b'', 0, b''), run([place.program], input=b'', preexec_fn=without(1)))
    yield 'standard error closed', compared((SHORT_TRANSCRIPT, 1, b''), run([place.program], input=SHORT, preexec_fn=without(2)))
    yield 'standard error closed, and a fault', compared((b'', 2, b''), run([place.program], input=b'\xff', preexec_fn=without(2)))
    yield 'standard error closed, and a wrong word', compared((b'', 2, b''), run([place.program, '--unknown'], preexec_fn=without(2)))
    yield 'all three closed', compared((b'', 2, b''), run([place.program], preexec_fn=without(0, 1, 2)))
    yield 'all three closed, and a FILE', compared((b'', 2, b''), run([place.program, script], preexec_fn=without(0, 1, 2)))
    with open(script, 'rb') as file:
        unchanged = file.read() == SHORT
    yield 'a FILE that was opened in their place is unchanged', [] if unchanged else ['it was written to']
    yield 'standard output opened for reading alone', read_only_output(place, script)


def read_only_output(place, script):
    with open(script, 'rb') as file:
        return compared((b'', 2, WRITE), run([place.program, script], stdout=file))


def terminal(place):
    """A terminal as standard input: a line, and the sign for the end."""
    master, slave = pty.openpty()
    os.write(master, b'COMMIT;\n\x04')
    got = run([place.program], stdin=slave)
    os.close(master)
    os.close(slave)
    yield 'a terminal as standard input', compared((b'1 ok\n', 0, b''), got)


def signals(place):
    """A program that waits for its script is stopped and goes on, and gets a signal that it doesn't heed."""
    reader, writer = os.pipe()
    running = subprocess.Popen([place.program], stdin=reader, stdout=subprocess.PIPE, stderr=subprocess.PIPE)
    os.close(reader)
    os.write(writer, SHORT[:10])
    for number in (signal.SIGSTOP, signal.SIGCONT, signal.SIGWINCH):
        os.kill(running.pid, number)
    os.write(writer, SHORT[10:])
    os.close(writer)
    out, errors = running.communicate(timeout=SECONDS)
    got = out, running.returncode, errors
    yield 'a program that is stopped and goes on', compared((SHORT_TRANSCRIPT, 1, b''), got)


PARTS = [failing_reads, short_reads, pipes, how_far, files, failing_writes, short_writes, slow_reader, closed_pipe, full_pipe, full, closed, terminal, signals]


def tried(program, library, only, is_told):
    """How many runs over a program passed and failed."""
    passed = failed = 0
    for part in PARTS:
        if only and only not in part.__name__:
            continue
        with tempfile.TemporaryDirectory() as folder:
            os.chmod(folder, 0o755)
            for name, why in part(Place(program, folder, library)):
                passed, failed = passed + (not why), failed + bool(why)
                if is_told:
                    print('%s: %s' % (part.__name__, name), flush=True)
                if why:
                    print('FAILED %s over %s: %s' % (name, program, '; '.join(why)), flush=True)
    return passed, failed


def main():
    parser = argparse.ArgumentParser()
    parser.add_argument('--program', action='append', required=True)
    parser.add_argument('--only')
    parser.add_argument('--tell', action='store_true')
    given, passed, failed = parser.parse_args(), 0, 0
    with preload.Library() as library:
        for program in programs.found(given.program, parser):
            more = tried(program, library, given.only, given.tell)
            passed, failed = passed + more[0], failed + more[1]
    print('%d passed, %d failed' % (passed, failed))
    raise SystemExit(int(failed > 0))


if __name__ == '__main__':
    main()
