#!/usr/bin/env python3
"""Runs hostile scripts over each program given, each with a stack of 256 kB and in less than ten seconds of the processor; see README.md beside this file.

  tests/hostile.py --program PATH [--program PATH].. [--only WORD] [--all] [--tell]

The scripts are those of made/hostile.py, mostly of 1 MB, with the transcript that the rules give each. --tell prints what each took; --all runs those too
that take longer, which have a minute. The last line is `N passed, N failed`; the status is 1 where something failed."""
import argparse
import os
import resource
import subprocess
import tempfile
import threading

import programs
import run
from made import hostile

STACK = 256 * 1024
SECONDS, MORE_SECONDS = 10, 60


def small_stack():
    """What `ulimit -s 256` does, and no file of a core."""
    resource.setrlimit(resource.RLIMIT_STACK, (STACK, STACK))
    resource.setrlimit(resource.RLIMIT_CORE, (0, 0))


def peak(used):
    """A peak of memory as a text. The system counts what this process had when it began the run, so less than that isn't told."""
    own = resource.getrusage(resource.RUSAGE_SELF).ru_maxrss
    return ('%.0f MB' if used.ru_maxrss > own else 'below %.0f MB') % (max(used.ru_maxrss, own) * 1024 / 1e6)


def measured(program, script, words, seconds):
    """Standard output, status, standard error, the processor seconds and the peak of memory. A run that takes far too long is ended."""
    with tempfile.TemporaryFile() as given, tempfile.TemporaryFile() as out, tempfile.TemporaryFile() as errors:
        given.write(script)
        given.seek(0)
        running = subprocess.Popen([program, *words], stdin=given, stdout=out, stderr=errors, preexec_fn=small_stack)
        end = threading.Timer(10 * seconds, running.kill)
        end.start()
        _, status, used = os.wait4(running.pid, 0)
        running.returncode = os.waitstatus_to_exitcode(status)
        end.cancel()
        out.seek(0)
        errors.seek(0)
        return out.read(), running.returncode, errors.read(), used.ru_utime + used.ru_stime, peak(used)


def judged(program, case):
    """Why a run isn't as it should be, and what it took."""
    script, want = case.made()
    seconds = MORE_SECONDS if case.is_long else SECONDS
    out, status, errors, took, memory = measured(program, script, case.words, seconds)
    why = ['the script has %d bytes' % len(script)] if len(script) > hostile.SIZE else []
    why += run.compare('transcript', want, out) + run.compare('standard error', b'', errors)
    why += ['expected status %d, got %d' % (run.status_of(want), status)] if status != run.status_of(want) else []
    why += ['it took %.1f seconds' % took] if took >= seconds else []
    return why, '%7d kB %7.2f s %12s  %s' % (len(script) / 1000, took, memory, case.name)


def shortened(why):
    """Reasons that may be printed: a script's lines are as long as the script."""
    return '; '.join(one[:300] for one in why)


def main():
    parser = argparse.ArgumentParser()
    parser.add_argument('--program', action='append', required=True)
    parser.add_argument('--only')
    parser.add_argument('--all', action='store_true')
    parser.add_argument('--tell', action='store_true')
    given, passed, failed = parser.parse_args(), 0, 0
    for program in programs.found(given.program, parser):
        for case in hostile.cases():
            if (case.is_long and not given.all) or (given.only and given.only not in case.name):
                continue
            why, took = judged(program, case)
            passed, failed = passed + (not why), failed + bool(why)
            if given.tell:
                print(took, flush=True)
            if why:
                print('FAILED %s over %s: %s' % (case.name, program, shortened(why)), flush=True)
    print('%d passed, %d failed' % (passed, failed))
    raise SystemExit(int(failed > 0))


if __name__ == '__main__':
    main()
