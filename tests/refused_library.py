#!/usr/bin/env python3
"""Refuses memory to the library, at each of its requests in turn; see README.md beside this file.

  tests/refused_library.py --library FOLDER [--steps N] [--only WORD]

refused_library.c is built with the library for C in that folder: it executes the statements of a script one by one, and a statement that
answers 22 once more, after it has looked whether the session shows what it showed before. Each script is run as often as the program asks
for memory in it, or at --steps of its requests, and each time another request is refused. Such a run has to answer as the run without
refusal in every statement, or to end with want of memory before it; and no COMMIT or ROLLBACK, nor a ROLLBACK TO, may have been refused
memory. The last line is `N passed, N failed`."""
import argparse
import collections
import os
import re

import c_library
import cut
import preload
import refused_memory
import run

SOURCE = os.path.join(os.path.dirname(os.path.abspath(__file__)), 'refused_library.c')
TOLD = re.compile(rb'refused (\d+)( changed)?')


def is_sure(statement):
    """Whether a statement is never refused memory by its kind."""
    return cut.words(statement)[0] in (b'COMMIT', b'ROLLBACK')


def judge(whole, got, statements):
    """What became of a run, in one word, and why it isn't as it should be."""
    out, status, errors = got
    if status not in (0, 1):
        return 'failed', ['status %d: %r' % (status, errors[-200:])]
    if status:
        return 'ended', [] if whole.startswith(out) else ['the transcript differs: %r' % out[-200:]]
    told = [(int(place), changed) for place, changed in TOLD.findall(errors)]
    why = run.compare('transcript', whole, out) + ['statement %d changed something' % place for place, changed in told if changed]
    why += ['statement %d may not answer 22: %r' % (place, statements[place - 1].strip()[:60]) for place, _ in told if is_sure(statements[place - 1])]
    return 'refused' if told else 'same', why


def tables(statements):
    """The names of the tables that a script makes, once each."""
    found = [cut.words(one) for one in statements]
    return list(dict.fromkeys(words[2].decode() for words in found if words[:2] == [b'CREATE', b'TABLE'] and len(words) > 2))


def judged(library, program, script, steps):
    """Each run of a script: what is refused, what became of it, and why it isn't as it should be."""
    statements = cut.statements(script)
    words = tables(statements)
    whole, status, _ = run.run(program, script, words)
    requests = library.counts(program, script, words)[0]
    yield 'no request', 'same', [] if status == 0 else ['status %d' % status]
    for request in range(1, requests + 1, max(1, requests // steps) if steps else 1):
        how, why = judge(whole, library.run(program, script, words, REFUSE_MEMORY=request), statements)
        yield 'request %d of %d' % (request, requests), how, why


def main():
    parser = argparse.ArgumentParser()
    parser.add_argument('--library', required=True)
    parser.add_argument('--steps', type=int, default=0)
    parser.add_argument('--only')
    given, became, failed = parser.parse_args(), collections.Counter(), 0
    with preload.Library() as library, c_library.Room(os.path.abspath(given.library)) as room:
        program, why = room.c_program(SOURCE, 'refused')
        if why:
            parser.error('; '.join(why))
        for name, script, words in refused_memory.named(False):
            if words or (given.only and given.only not in name):
                continue
            for request, how, why in judged(library, program, script, given.steps):
                became[how] += 1
                failed += bool(why)
                if why:
                    print('FAILED %s, %s: %s' % (name, request, '; '.join(why)), flush=True)
    print('the library: %d runs ended, %d were as without refusal, %d had statements that were given once more' % (became['ended'], became['same'], became['refused']))
    print('%d passed, %d failed' % (sum(became.values()) - failed, failed))
    raise SystemExit(int(failed > 0))


if __name__ == '__main__':
    main()
