#!/usr/bin/env python3
"""Changes the definitions, one change at a time on a copy, and looks whether a worked script notices.

  tests/definitions.py [--only WORD] [--all] [--jobs N] [--minutes N]
The changes are those of definitions.edits beside this file; a file there is of iv_machine, or of the crate whose name it begins with. Each
takes a quarter of a minute or more, N of them side by side, each on a copy of its own; `out/` of the crates below iv_machine has to be there, as `rt all check` leaves it. The last line is
`N passed, N failed`.

The file definitions.digest has a digest of the changes, and of the definitions, the types that they name and the worked scripts without
comments, where all changes were noticed. While it is still the same they aren't tried again, except with --all or --only; where all are tried and
noticed it is written anew.

With --minutes they are tried over the libraries that `rt ci` left, for so many minutes by the clock at most. What wasn't tried then, and changes of
crates below the machine, are counted as skipped, and the last line is `N passed, N failed, N skipped`."""
import argparse
import contextlib
import hashlib
import os
import queue
import re
import shutil
import tempfile
import time
from concurrent.futures import ThreadPoolExecutor

from edits import bare, libraries, read, repository, sandboxes, write

HERE = os.path.dirname(os.path.abspath(__file__))
CRATES = os.path.join(HERE, '..', 'crates')
BELOW = ['iv_value', 'iv_numbers', 'iv_expr', 'iv_syntax', 'iv_catalogue', 'iv_key', 'iv_lex', 'iv_parse_terms', 'iv_parse_data', 'iv_parse']
# The crates whose definitions are changed, each with the crate whose worked scripts have to notice.
NOTICES = {
    'iv_machine': 'iv_worked', 'iv_account': 'iv_worked', 'iv_key': 'iv_worked',
    'iv_resolution': 'iv_worked', 'iv_syntax': 'iv_worked',
    'iv_step': 'iv_step', 'iv_text': 'iv_text', 'iv_print': 'iv_print', 'iv_script': 'iv_script', 'iv_explain': 'iv_explain',
}
# Of these the definitions alone are copied. Five have their worked scripts beside the definitions; this file of theorems names them.
DEFINED = ['iv_machine', 'iv_account', 'iv_resolution', 'iv_step', 'iv_text', 'iv_print', 'iv_script', 'iv_explain']
OWN = {'iv_step': 'WorkedScripts', 'iv_text': 'Worked', 'iv_print': 'Worked', 'iv_script': 'Worked', 'iv_explain': 'ComputedNames'}
WORKED = ['iv_worked']
CHANGES = os.path.join(HERE, 'definitions.edits')
DIGEST = os.path.join(HERE, 'definitions.digest')
DIGESTED = [crate + '/specs' for crate in ['iv_key', 'iv_syntax'] + DEFINED] + [crate + part for crate in WORKED for part in ('/specs', '/proofs', '/src')]


def changes():
    """The changes by name: a name, then a file, and pairs of an old text and a new one, each of one line."""
    found, path, old = {}, None, None
    for line in read(CHANGES).splitlines():
        key, _, text = line.partition(': ')
        if key == 'change':
            pairs = found[text] = []
        elif key == 'file':
            path = text if text.split('/')[0] in NOTICES else 'iv_machine/' + text
        elif key == 'old':
            old = text
        elif key == 'new':
            pairs.append((path, old, text))
    return found


def definitions(crate):
    """The files of a crate's definitions: all, or those that its worked scripts and those of the crates above need."""
    folder = os.path.join(CRATES, crate, 'specs')
    if crate not in OWN:
        return sorted(file[:-5] for file in os.listdir(folder) if file != 'Lib.antt')
    theorems = read(os.path.join(CRATES, crate, 'proofs', OWN[crate] + '.antt'))
    needed, open_ones = set(), re.findall(r'Rattle\.%s\.specs\.(Worked\w*)\.' % crate, theorems)
    for other in DEFINED[DEFINED.index(crate) + 1 :]:
        for file in definitions(other):
            open_ones += re.findall(r'Rattle\.%s\.specs\.(\w+)\.' % crate, read(os.path.join(CRATES, other, 'specs', file + '.antt')))
    while open_ones:
        name = open_ones.pop()
        if name not in needed and os.path.exists(os.path.join(folder, name + '.antt')):
            needed.add(name)
            open_ones += re.findall(r'Rattle\.%s\.specs\.(\w+)\.' % crate, read(os.path.join(folder, name + '.antt')))
    return sorted(needed)


def declared(name):
    """The modules of a crate whose types the definitions and the worked scripts name."""
    texts = [read(os.path.join(CRATES, crate, 'specs', file + '.antt')) for crate in DEFINED for file in definitions(crate)]
    for crate in WORKED:
        folder = os.path.join(CRATES, crate, 'specs')
        texts += [read(os.path.join(folder, file)) for file in os.listdir(folder)]
    return set(re.findall(r'Rattle\.%s\.specs\.declared\.(\w+)\.' % name, '\n'.join(texts)))


def digest_of_sources():
    """A digest of the changes, and of the definitions and the worked scripts that they are tried over."""
    types = {os.path.join(CRATES, crate, 'src', name + '.rt') for crate in DEFINED for name in declared(crate)}
    paths = {CHANGES, *types}
    for folder in DIGESTED:
        for place, _, files in os.walk(os.path.join(CRATES, folder)):
            paths.update(os.path.join(place, file) for file in files if file != 'tests.rt')
    digest = hashlib.sha256()
    for path in sorted(paths):
        digest.update(os.path.relpath(path, HERE).encode() + b'\0' + bare(path, path in types).encode() + b'\0')
    return digest.hexdigest()


def listed(names):
    """The lines of crates.txt of these crates, with those of them that they name, and those of the kit."""
    lines = [line.split(':') for line in read(os.path.join(HERE, '../crates.txt')).splitlines() if line.split(':')[0] in names]
    kept = [(name, [word for word in words.split() if word in names or not word.startswith('iv_')]) for name, words in lines]
    return ''.join('%s: %s\n' % (name, ' '.join(words)) for name, words in kept)


def types(text):
    """The types and constants of a module, without its functions."""
    items = re.findall(r'^(?://!.*|use .*;|use .*\{\n(?:    .*\n)*\};)$|^((?:(?:///.*|#\[.*\])\n)*pub (?:(?:const|static) [A-Z]\w*: .*?(?:\n.*?)*?;|(?:enum|struct) \w+(?:<.*>)? \{\n(?:.*\n)*?\}))$', text, re.M)
    kept = [item for item in items if item]
    uses = [line for line in re.findall(r'^use .*;$', text, re.M) if any(re.search(r'\b%s\b' % word, '\n'.join(kept)) for word in re.findall(r'\w+', line)[1:])]
    return '\n'.join(['//! Types.'] + uses + kept) + '\n'


def copy_definitions(crates, name):
    """A crate's definitions and the types that they name, without code, and with no proof but that of its own worked scripts."""
    crate, modules = os.path.join(crates, name), sorted(declared(name))
    files = definitions(name)
    for part in ('specs', 'src', 'proofs'):
        os.makedirs(os.path.join(crate, part))
    for file in files:
        shutil.copy(os.path.join(CRATES, name, 'specs', file + '.antt'), crate + '/specs')
    write(crate + '/specs/Lib.antt', ''.join('pub mod %s\n' % file for file in files))
    for module in modules:
        text = read(os.path.join(CRATES, name, 'src', module + '.rt'))
        write(crate + '/src/%s.rt' % module, types(text) if name in OWN else text)
    library = read(os.path.join(CRATES, name, 'src/lib.rt'))
    items = re.findall(r'^(?://!.*|#!\[.*\]|(?:mod|pub use) (?:%s)\b[^;]*;)$' % '|'.join(modules or ['none']), library, re.M)
    if name in OWN:
        items = ['//! Definitions.', '#![tactic(auto)]'] + ['pub mod %s;' % module for module in modules]
        shutil.copy(os.path.join(CRATES, name, 'proofs', OWN[name] + '.antt'), crate + '/proofs')
        write(crate + '/proofs/Lib.antt', 'pub mod %s\n' % OWN[name])
    write(crate + '/src/lib.rt', '\n'.join(items) + '\n')


def copied(sandbox, over_gate=False):
    """The repository as far as the worked scripts, where the crates that are changed have their definitions alone; those below them are left
    out over the libraries that `rt ci` left."""
    crates = os.path.join(sandbox, 'crates')
    write(os.path.join(sandbox, 'crates.txt'), listed(BELOW + DEFINED + WORKED))
    for name in [] if over_gate else BELOW:
        shutil.copytree(os.path.join(CRATES, name), os.path.join(crates, name), symlinks=True)
    for name in DEFINED:
        copy_definitions(crates, name)
    for name in WORKED:
        shutil.copytree(os.path.join(CRATES, name), os.path.join(crates, name), ignore=shutil.ignore_patterns('out'))
    return crates


def steps(crates, target, over_gate):
    """The commands that prove the worked scripts of a crate, each with its folder: one that builds what is below it too, or, over the
    libraries that `rt ci` left, one for each crate below it whose definitions are copied."""
    if not over_gate:
        return [(['rt', 'check', '--jobs', '1'], os.path.join(crates, target))]
    copies, rlibs, found = set(DEFINED + WORKED), {name: os.path.join(CRATES, name, 'out/rlib') for name in BELOW}, []
    named = {name: [low for low in lows if low in copies] for name, lows in repository.crates().items() if name in copies}
    below = repository.below([target], named) - {target}
    for name in sorted(below, key=lambda name: (len(repository.below([name], named)), name)):
        folder, own = os.path.join(crates, name), os.path.join(crates, name, 'out/rlib')
        os.makedirs(own, exist_ok=True)
        os.makedirs(os.path.join(folder, 'out/incremental'), exist_ok=True)
        found.append(([*libraries.words('build', name, rlibs), '--jobs', '1', '-o', os.path.join(own, name + '.rlib')], folder))
        rlibs[name] = own
    os.makedirs(os.path.join(crates, target, 'out/incremental'), exist_ok=True)
    return [*found, ([*libraries.words('check', target, rlibs), '--jobs', '1'], os.path.join(crates, target))]


def checked(crates, target, over_gate=False, until=None):
    """Whether a crate's worked scripts are proved, and the scripts that are refused."""
    crate = os.path.join(crates, target)
    for words, place in steps(crates, target, over_gate):
        status, output, _ = sandboxes.timed(words, place, until or time.monotonic() + 1200)
        if status != 0:
            break
    places = sorted({(file, int(n)) for file, n in re.findall(r'proofs/(\w+)\.antt:(\d+):', output) if os.path.exists('%s/proofs/%s.antt' % (crate, file))})
    lines = [read('%s/proofs/%s.antt' % (crate, file)).splitlines()[n - 1] for file, n in places]
    return status == 0, [line.split('=')[0].strip() for line in lines if '= refl' in line]


def is_late(until):
    return until is not None and time.monotonic() >= until


def tried(crates, pairs, over_gate=False, until=None):
    """The scripts that notice the change, or why it can't be made; nothing where there was no time for it."""
    kept = {}
    try:
        for path, old, new in pairs:
            path = os.path.join(crates, path)
            text = read(path)
            kept.setdefault(path, text)
            if text.count(old) != 1:
                return 'its old text occurs %d times in %s: %s' % (text.count(old), os.path.basename(path), old)
            write(path, text.replace(old, new))
        proved, names = checked(crates, NOTICES[pairs[0][0].split('/')[0]], over_gate, until)
        if is_late(until):
            return None
        return names or ('no script notices it' if proved else 'the definitions with it are refused, and no script is')
    finally:
        for path, text in kept.items():
            write(path, text)


def prepared(stack, targets, over_gate=False, until=None):
    """A copy in which the worked scripts are proved; none where there was no time for that."""
    crates = copied(stack.enter_context(tempfile.TemporaryDirectory(prefix='definitions-')), over_gate)
    for target in targets:
        if not checked(crates, target, over_gate, until)[0]:
            if is_late(until):
                return None
            if over_gate:
                print('the worked scripts of %s could not be proved over these libraries, so no change was tried' % target, flush=True)
                return None
            raise SystemExit('the worked scripts of %s are not proved as they are' % target)
    return crates


def all_tried(chosen, jobs, over_gate=False, until=None):
    """The changes, each with what `tried` says of it, in their order; nothing where there was no time for it."""
    with contextlib.ExitStack() as stack, ThreadPoolExecutor(jobs) as pool:
        free = queue.Queue()
        targets = sorted({NOTICES[pairs[0][0].split('/')[0]] for pairs in chosen.values()})
        for sandbox in pool.map(lambda _: prepared(stack, targets, over_gate, until), range(min(jobs, len(chosen)))):
            free.put(sandbox)

        def one(pairs):
            sandbox = free.get()
            try:
                is_below = over_gate and any(path.split('/')[0] in BELOW for path, _, _ in pairs)
                return None if sandbox is None or is_below or is_late(until) else tried(sandbox, pairs, over_gate, until)
            finally:
                free.put(sandbox)

        yield from zip(chosen, pool.map(one, chosen.values()))


def are_left_by_gate():
    """Whether `rt ci` left the libraries that the definitions name."""
    return all(os.path.isdir(os.path.join(CRATES, name, 'out/rlib', name + '.rlib')) for name in BELOW)


def main():
    parser = argparse.ArgumentParser()
    parser.add_argument('--only', default='')
    parser.add_argument('--all', action='store_true')
    parser.add_argument('--jobs', type=int, default=max(1, (os.cpu_count() or 1) - 1))
    parser.add_argument('--minutes', type=float)
    words = parser.parse_args()
    chosen = {name: pairs for name, pairs in changes().items() if words.only in name}
    digest, passed, failed, skipped = digest_of_sources(), 0, 0, 0
    if not words.all and not words.only and os.path.exists(DIGEST) and read(DIGEST).strip() == digest:
        print('%d changes were noticed over these sources already' % len(chosen))
        print('%d passed, 0 failed' % len(chosen))
        return
    limited = words.minutes is not None and not words.all
    until = time.monotonic() + 60 * words.minutes if limited else None
    if limited and not are_left_by_gate():
        chosen, skipped = {}, len(chosen)
    for name, said in all_tried(chosen, words.jobs, limited, until):
        good = isinstance(said, list)
        passed, failed, skipped = passed + good, failed + (said is not None and not good), skipped + (said is None)
        if said is not None:
            print('%s: %s' % (name, 'noticed by ' + ', '.join(said) if good else 'FAILED: ' + said), flush=True)
    if not failed and not skipped and not words.only:
        write(DIGEST, digest + '\n')
    print('%d passed, %d failed' % (passed, failed) + (', %d skipped' % skipped if skipped else ''))
    raise SystemExit(int(failed > 0))


if __name__ == '__main__':
    main()
