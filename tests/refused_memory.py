#!/usr/bin/env python3
"""Refuses memory to each program given, at each of its requests in turn; see README.md beside this file.

  tests/refused_memory.py --program PATH [--program PATH].. [--plain PATH] [--all] [--only WORD]

A --program keeps its rows in the index store, the --plain one in the plain store. Each script of SCRIPTS and of the tour is run as often as the program asks
for memory in it, and each time another request is refused. Each run has to be one of these:

  ended    nothing is written, the status is 2, and standard error is `sqlkeep: out of memory`
  same     the run is as without refusal: the memory was for speed alone
  refused  one statement answers 22, and all else is the transcript of the script without that statement, which is run too. It is never COMMIT or ROLLBACK, nor
           over the index store ROLLBACK TO, nor a statement that would be answered 4, 5 or 6
  untold   with --explain, the run is as without refusal, but a COMMIT or a ROLLBACK TO that is refused has no account, or the lines of what is pending are
           left out once: what came and what went then is told with the next ones

Words with which no transcript is written are tried in the same way. 100 random scripts are run too, with ten of their requests refused. Without --all the plain one
has five of their requests refused, and 60 of each other script, not all. With --all there are, besides: some scripts more; all these with each statement
twice, so that the statement that was refused is given once more; with what all tables hold after each statement; with a request and all that come after it
refused, where several statements may answer 22; and five times as many requests of each random script. The scripts of
the tour are run with --explain as well. The last line is `N passed, N failed`; the status is 1 where something failed."""
import argparse
import collections
import os
import re
import shlex

import cut
import pending
import preload
import programs
import run
from made.scripts import Script

SCRIPTS = [
    ('the cascade', 'deletion_wins_over_set_null'), ('the swap of keys', 'update_cascade_swaps_keys'), ('the ring of deferred keys', 'ring_of_deferred_keys'),
    ('savepoints with modes', 'savepoint_restores_modes'), ('a refusal inside a trigger', 'refusal_inside_trigger'),
    ('refusals inside triggers', 'refusals_in_triggers'), ('transition tables', 'statement_trigger_without_rows')]
MORE = [
    ('a cascade within a budget', 'budget_5'), ('a chain of actions', 'actions_along_a_chain'), ('net changes', 'net_changes'),
    ('triggers that see later tables', 'triggers_see_later_tables'), ('actions on two columns', 'actions_on_two_columns'),
    ('savepoints by name', 'savepoint_names'),
    ('constraints that are added', 'refused_addition')]
TOLD = [('savepoints with accounts', 'savepoints_explained'), ('constraints that are not added, with accounts', 'additions_explained')]
RANDOM = 100
REFUSED = re.compile(rb'\d+ refused 22 OutOfMemory( in [A-Z0-9_]+)?\n')
ENDED = (b'', 2, b'sqlkeep: out of memory\n')


class Trial:
    """A script over a program, and what the program makes of the script and of its shorter forms when no memory is refused."""

    def __init__(self, library, program, is_plain, script, words):
        self.library, self.program, self.is_plain, self.script, self.words = library, program, is_plain, script, words
        self.statements, self.known = cut.statements(script), {}
        self.whole = self.shorter(())
        self.requests = library.counts(program, script, words)[0]

    def shorter(self, places):
        """The run of the script without the statements of these places."""
        if places not in self.known:
            self.known[places] = run.run(self.program, cut.without(self.script, places), self.words)
        return self.known[places]

    def refusing(self, **how):
        return self.library.run(self.program, self.script, self.words, **how)

    def ends_or_goes_back(self, place):
        """Whether a statement is COMMIT, ROLLBACK or ROLLBACK TO."""
        return cut.words(self.statements[place - 1])[0] in (b'COMMIT', b'ROLLBACK')

    def is_sure(self, place):
        """Whether a statement is never refused memory by its kind: COMMIT, ROLLBACK and, over the index store, ROLLBACK TO."""
        return self.ends_or_goes_back(place) and not (self.is_plain and b'TO' in cut.words(self.statements[place - 1]))

    def would_be(self, place, earlier):
        """What a statement is answered with enough memory, after a run without the earlier statements that answered 22."""
        return run.groups(self.shorter(earlier)[0])[0][place - 1 - len(earlier)]

    def expected(self, outcomes, places):
        """The transcript without the statements of these places, into which their refusals are put."""
        others, faults, _ = run.groups(self.shorter(places)[0])
        others, text = iter(others), b''
        for place in range(1, len(outcomes) + 1):
            one = outcomes[place - 1] if place in places else next(others, b'')
            text += cut.numbered(one, place)
        for fault in faults:
            number, at = (int(word) for word in re.findall(rb'\d+', fault))
            text += b'%d fault %d\n' % (number + len(places), at + sum(len(self.statements[place - 1]) for place in places))
        return text + b''.join(others) + (b'end rolled back\n' if self.shorter(places)[0].endswith(b'end rolled back\n') else b'')


# A refused COMMIT with its account, and a refused ROLLBACK TO: what stands there without it.
WITHOUT_ACCOUNT = [
    (re.compile(rb'(\d+ refused 19 [^\n]*\n).+', re.S), rb'\1'),
    (re.compile(rb'(\d+ refused 7 .*\n)  (?:savepoints that stand: .*|no savepoint stands)\n(  .*\n)'), rb'\1\2')]


def untold(trial, out):
    """Whether a transcript is another one in which a COMMIT or a ROLLBACK TO that is refused has no account."""
    whole = trial.whole[0]
    for place, outcome in enumerate(run.groups(whole)[0], 1):
        for form, rest in WITHOUT_ACCOUNT:
            if form.fullmatch(outcome) and trial.ends_or_goes_back(place) and whole.replace(outcome, form.sub(rest, outcome), 1) == out:
                return True
    return False


def unlisted(trial, out):
    """Whether a transcript is another one in which one statement has no lines of what is pending, and the next statement tells what they
    told: no other line differs, and what is pending by the lines is the same after every other statement."""
    want, got = (run.groups(text)[0] for text in (trial.whole[0], out))
    unlike = [place for place, pair in enumerate(zip(want, got)) if pair[0] != pair[1]]
    if pending.without(trial.whole[0]) != pending.without(out) or unlike not in ([place, place + 1][:len(unlike)] for place in unlike[:1]):
        return False
    before, after = (pending.followed(trial.statements, outcomes) for outcomes in (want, got))
    differ = [place for place, pair in enumerate(zip(before, after)) if pair[0] != pair[1]]
    left_out = got[unlike[0]] == pending.without(want[unlike[0]])
    return left_out and differ == unlike[:1] and after[unlike[0]] == (after[unlike[0] - 1] if unlike[0] > 0 else set())


def judge(trial, got, is_one):
    """What became of a run, in one word, and why it isn't as it should be."""
    if got == ENDED:
        return 'ended', []
    if got == trial.whole:
        return 'same', []
    out, status, errors = got
    if '--explain' in trial.words and (status, errors) == trial.whole[1:] and (untold(trial, out) or unlisted(trial, out)):
        return 'untold', []
    outcomes, _, _ = run.groups(out)
    places = tuple(place for place, one in enumerate(outcomes, 1) if REFUSED.fullmatch(one))
    why = run.compare('standard error', b'', errors) + ([] if status == 1 else ['status %d' % status])
    if not places or (is_one and len(places) > 1):
        return 'refused', why + ['%d statements answer 22: %r' % (len(places), out[-200:])]
    why += ['statement %d may not answer 22: %r' % (place, trial.statements[place - 1].strip()[:60]) for place in places if trial.is_sure(place)]
    answers = [trial.would_be(place, places[:before]) for before, place in enumerate(places)]
    why += ['22 in place of %r' % answer for answer in answers if re.match(rb'\d+ refused [456] ', answer)]
    return 'refused', why + run.compare('transcript', trial.expected(outcomes, places), out)


def judged(trial, steps, later):
    """Each run of a trial: what is refused, what became of it, and why it isn't as it should be."""
    step = max(1, trial.requests // steps) if steps else 1
    for request in [*range(1, trial.requests + 1, step), trial.requests + 1]:
        got = trial.refusing(REFUSE_MEMORY=request, REFUSE_LATER=int(later)) if later else trial.refusing(REFUSE_MEMORY=request)
        how, why = judge(trial, got, not later)
        if request > trial.requests and how != 'same':
            why = why + ['nothing was refused, and the run differs']
        yield 'request %d of %d%s' % (request, trial.requests, ' and all later ones' if later else ''), how, why


def named(is_all):
    """Each script with its name and its words: those of SCRIPTS, perhaps those of MORE, and those of the tour."""
    for name, file in SCRIPTS + (MORE if is_all else []):
        words = shlex.split((run.read('scripts', file + '.args') or b'').decode())
        yield name, run.stored('scripts', file + '.sql'), words
    for name, file in TOLD:
        yield name, run.stored('scripts', file + '.sql'), ['--explain']
    for file in run.files('../examples'):
        if file.endswith('.sql'):
            yield 'the tour: ' + file, run.read('../examples', file), []
            yield 'the tour with accounts: ' + file, run.read('../examples', file), ['--explain']


# A run that is refused memory has a folder of its own.
SCRIPTS_FOLDER = os.path.join(os.path.dirname(os.path.abspath(__file__)), 'scripts')

# Words with which no transcript is written: such a run ends with the line, or is as without refusal. A dump is never without what a
# statement did that was refused memory.
WORDS = [
    ('the help text', ['--help']), ('a depth that is none', ['--depth', '0']), ('an unknown word', ['--unknown']), ('a file that is not there', ['absent.sql']),
    ('a layout', ['--format', os.path.join(SCRIPTS_FOLDER, 'options_format.sql')]),
    ('a dump', ['--dump', os.path.join(SCRIPTS_FOLDER, 'options_dump.sql')]),
    ('the layout of a fault', ['--format', os.path.join(SCRIPTS_FOLDER, 'options_format_fault.sql')])]


def plan(is_all, is_plain):
    """Each script with its name, its words, how many of its requests are refused (0 for all), and whether all later ones are refused too."""
    for name, words in WORDS:
        yield name, b'', words, 0, False
    for name, script, words in named(is_all):
        yield name, script, words, 60 if is_plain and not is_all else 0, False
        if is_all:
            yield name + ', all later ones too', script, words, 0, True
            yield name + ', each statement twice', cut.doubled(script), words, 0, False
            yield name + ', all tables after each statement', cut.looked(script), words, 200, False
    for seed in range(1, RANDOM + 1):
        made = Script(seed)
        text = made.text().encode()
        some = 5 if is_plain else 10
        yield 'random script %d' % seed, text, made.words, 5 * some if is_all else some, False
        if is_all:
            yield 'random script %d, all later ones too' % seed, text, made.words, some, True
            yield 'random script %d, each statement twice' % seed, cut.doubled(text), made.words, some, False


def tried(library, program, is_plain, given):
    """Runs all scripts over a program; how many runs passed and failed."""
    became, failed = collections.Counter(), 0
    for name, script, words, steps, later in plan(given.all, is_plain):
        if given.only and given.only not in name:
            continue
        for request, how, why in judged(Trial(library, program, is_plain, script, words), steps, later):
            became[how] += 1
            if why:
                failed += 1
                print('FAILED %s, %s over %s: %s' % (name, request, program, '; '.join(why)), flush=True)
    print('%s: %d runs ended with the line, %d were as without refusal, %d had statements that answered 22, %d a COMMIT or a ROLLBACK TO without its account or a statement without its lines of what is pending' % (
        os.path.basename(program), became['ended'], became['same'], became['refused'], became['untold']), flush=True)
    return sum(became.values()) - failed, failed


def main():
    parser = argparse.ArgumentParser()
    parser.add_argument('--program', action='append', default=[])
    parser.add_argument('--plain', action='append', default=[])
    parser.add_argument('--all', action='store_true')
    parser.add_argument('--only')
    given, passed, failed = parser.parse_args(), 0, 0
    if not given.program + given.plain:
        parser.error('a --program or a --plain is needed')
    with preload.Library() as library:
        for is_plain, paths in ((False, given.program), (True, given.plain)):
            for program in programs.found(paths, parser):
                more = tried(library, program, is_plain, given)
                passed, failed = passed + more[0], failed + more[1]
    print('%d passed, %d failed' % (passed, failed))
    raise SystemExit(int(failed > 0))


if __name__ == '__main__':
    main()
