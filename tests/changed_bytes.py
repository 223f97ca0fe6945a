#!/usr/bin/env python3
"""Changes each byte of some scripts to each of 16 others, and runs each script that comes of it over all programs given; see README.md beside this file.

  tests/changed_bytes.py --program PATH [--program PATH].. [--others 16]

The scripts are those of tests/prefixes, of which run.py runs each prefix. A script with one byte changed is a script too: it has an answer, with status 0 or
1, and with nothing on standard error. The statements before that of the changed byte answer what they do in the whole script; there is at most one fault, and
it is not before that statement. All programs write the same. With --others N there are N others for each byte, which change from place to place. A byte that
makes the script no UTF-8 is a test too: status 2, and its line. The last line is `N passed, N failed`."""
import argparse

import cut
import programs
import run

# 16 bytes of all kinds that a token may begin or end with, one that begins none, and two in place of that which is there already.
OTHERS = b" \n'(),;-.=*<09A\0"
SPARE = b'_@'
NOT_UTF8 = (b'', 2, b'sqlkeep: the script is not UTF-8\n')


def others(byte):
    """16 bytes that are others than this one."""
    chosen = [one for one in OTHERS if one != byte]
    return chosen + [one for one in SPARE if one != byte][:16 - len(chosen)]


def judged(got, before, start):
    """Why a run isn't as it should be: `before` are the outcomes of the statements before the changed one, which starts at the byte `start`."""
    out, status, errors = got
    outcomes, faults, is_whole = run.groups(out)
    why = [] if is_whole and len(faults) <= 1 else ['no transcript: %r' % out[-80:]]
    why += run.compare('standard error', b'', errors) + ([] if status in (0, 1) and status == run.status_of(out) else ['status %d' % status])
    if outcomes[:len(before)] != before:
        why.append('the statements before the changed one answer other than before')
    return why + ['a fault at byte %s' % fault.split()[2] for fault in faults if int(fault.split()[2]) < start]


def changes(program, file, count):
    """Each place and byte, the script with it, the outcomes before the place and where its statement starts."""
    script = run.read('prefixes', file)
    outcomes, place, start = run.groups(run.run(program, script)[0])[0], 0, 0
    ends = [sum(map(len, cut.statements(script)[:n + 1])) for n in range(len(cut.statements(script)))]
    for at, byte in enumerate(script):
        while place < len(ends) and ends[place] <= at:
            place, start = place + 1, ends[place]
        chosen = others(byte)
        for other in [chosen[(at + step) % 16] for step in range(count)]:
            yield at, other, script[:at] + bytes([other]) + script[at + 1:], outcomes[:place], start
        yield at, 255, script[:at] + b'\xff' + script[at + 1:], None, start


def main():
    parser = argparse.ArgumentParser()
    parser.add_argument('--program', action='append', required=True)
    parser.add_argument('--others', type=int, default=16)
    words, passed, failed = parser.parse_args(), 0, 0
    given = programs.found(words.program, parser)
    for file in run.files('prefixes'):
        for at, other, script, before, start in changes(given[0], file, words.others):
            runs = [run.run(program, script) for program in given]
            for program, got in zip(given, runs):
                why = judged(got, before, start) if before is not None else [] if got == NOT_UTF8 else ['got %r' % (got,)]
                why += [] if got == runs[0] else ['another answer than that of %s' % given[0]]
                passed, failed = passed + (not why), failed + bool(why)
                if why:
                    print('FAILED %s, byte %d changed to %d over %s: %s' % (file, at, other, program, '; '.join(why)))
    print('%d passed, %d failed' % (passed, failed))
    raise SystemExit(int(failed > 0))


if __name__ == '__main__':
    main()
