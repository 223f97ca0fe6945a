#!/usr/bin/env python3
"""Looks whether the page "Where to change what" of docs/architecture leads to each file that takes cases.

  tests/where.py                   checks the page
  tests/where.py --list WORD..     prints the files that have one of the words, by folder
  tests/where.py --list 'A limit'  the same with the words of a paragraph

Each paragraph of the page has words to look for, and names files that no word finds. The check demands that each word occurs, that each
file which is named is there, and that each file which takes cases is found: one that has a word of GUARDS, or names enough variants
of an enum. Crates of tests and of worked scripts are listed and not checked. The last line is `N passed, N failed`."""
import argparse
import os
import re
import sys

ROOT = os.path.dirname(os.path.dirname(os.path.abspath(__file__)))
PAGE = os.path.join(ROOT, 'docs/architecture/README.md')
SECTION = '## Where to change what'

# What stands beside the new thing, and how the paragraph begins.
GUARDS = {
    'AddRefused': 'A new refusal',
    'DropTrigger': 'A new statement',
    'SetNull': 'A new referential action',
    'on_delete': 'A new referential action',
    'NotNull': 'A new kind of constraint',
    'Varchar': 'A new type of columns',
    'Int': 'A new type of columns',
    'Ran': 'A new account entry',
    'explain': 'A new option',
    'MatchType': 'A new match type',
    'Comparison': 'A new condition or operator',
    'ActionTime': 'A new time or event of a trigger',
    'TriggerEvent': 'A new time or event of a trigger',
    'default_at': 'A new part of a column',
    'ValueOrDefault': 'A new part of a column',
}

# An enum, the file that declares it, how many of its variants a file names that takes cases, and how the paragraph begins.
ENUMS = [
    ('Cause', 'iv_catalogue/src/cause.rt', 12, 'A new refusal'),
    ('Statement', 'iv_syntax/src/statement.rt', 8, 'A new statement'),
    ('ReferentialAction', 'iv_syntax/src/table.rt', 3, 'A new referential action'),
    ('Rule', 'iv_catalogue/src/constraint.rt', 5, 'A new kind of constraint'),
    ('ColumnType', 'iv_syntax/src/table.rt', 2, 'A new type of columns'),
    ('Entry', 'iv_account/src/entry.rt', 4, 'A new account entry'),
    ('Condition', 'iv_syntax/src/tree.rt', 7, 'A new condition or operator'),
    ('Comparison', 'iv_expr/src/tree.rt', 4, 'A new condition or operator'),
]

# Other folders that a list looks at; what a build leaves, stored scripts and edits aren't in it.
FOLDERS = ('include', 'bindings', 'page', 'docs', 'examples', 'tests', 'tools', 'man', 'completions')
PASSED_BY = ('tests/edits', 'tests/scripts')


def read(path):
    with open(path, encoding='utf-8', errors='replace') as file:
        return file.read()


def below(folder, endings=None):
    """The files below a folder of the repository, by their names there."""
    for place, folders, files in os.walk(os.path.join(ROOT, folder)):
        folders[:] = sorted(name for name in folders if name not in ('out', '__pycache__'))
        named = os.path.relpath(place, ROOT)
        if not named.startswith(PASSED_BY):
            yield from (os.path.join(named, file) for file in sorted(files) if endings is None or file.endswith(endings))


def sources():
    """The words of each source file of a crate."""
    return {path: set(re.findall(r'\w+', read(os.path.join(ROOT, path)))) for path in below('crates', ('.rt', '.antt'))}


def is_checked(path):
    return not path.startswith(('crates/iv_tests_', 'crates/iv_worked/')) and os.path.basename(path) != 'tests.rt'


def paragraphs():
    """The paragraphs of the section, by their titles."""
    text = read(PAGE)
    section = text[text.index(SECTION) + len(SECTION):].split('\n## ')[0]
    return {found[1].rstrip('.'): found[0] for found in re.finditer(r'^\*\*(.+?)\*\*.*$', section, re.M)}


def words_of(paragraph):
    """The words to look for."""
    found = re.search(r'Look for (?:the constant, as )?((?:`\w+`(?:, | and )?)+)', paragraph)
    return re.findall(r'`(\w+)`', found[1]) if found else []


def named_in(paragraph):
    """The files and folders that a paragraph names; one of a crate begins with the crate's name."""
    found = [name for name in re.findall(r'`([\w./-]+)`', paragraph) if '/' in name]
    return [os.path.join('crates', name) if os.path.isdir(os.path.join(ROOT, 'crates', name.split('/')[0])) else name for name in found]


def variants(enum, path):
    """The variants that a file declares of an enum."""
    body = re.search(r'pub enum %s \{\n(.*?)\n\}' % enum, read(os.path.join(ROOT, 'crates', path)), re.S)[1]
    return set(re.findall(r'^    (\w+)', body, re.M))


def is_named(path, named):
    return any(path == name or path.startswith(name.rstrip('/') + '/') for name in named)


def check(title, paragraph, files):
    """What a paragraph has wrong in itself."""
    known = set().union(*files.values())
    yield from (('%s: the word %s is there' % (title, word), word in known) for word in words_of(paragraph))
    yield from (('%s: %s is there' % (title, name), os.path.exists(os.path.join(ROOT, name))) for name in named_in(paragraph))


def check_cases(files, page):
    """Whether each file that takes cases is found."""
    cases = [(word, {word}, 1, title) for word, title in GUARDS.items()]
    cases += [(enum, variants(enum, path), count, title) for enum, path, count, title in ENUMS]
    for what, words, count, title in cases:
        found, named = set(words_of(page[title])), named_in(page[title])
        for path, there in files.items():
            if is_checked(path) and len(words & there) >= count:
                yield '%s: %s takes cases of %s' % (title, path, what), bool(found & there) or is_named(path, named)


def listed(words, files):
    """Prints the files that have one of the words, a folder a line."""
    others = {path: set(re.findall(r'\w+', read(os.path.join(ROOT, path)))) for folder in FOLDERS for path in below(folder)}
    folders = {}
    for path, there in {**files, **others}.items():
        if there & set(words):
            parts = path.split('/')
            cut = 2 if parts[0] == 'crates' else 1
            folders.setdefault('/'.join(parts[:cut]), []).append('/'.join(parts[cut:]))
    for folder, names in folders.items():
        print('%s: %s' % (folder, ', '.join(names)))


def main():
    parser = argparse.ArgumentParser(description=__doc__, formatter_class=argparse.RawDescriptionHelpFormatter)
    parser.add_argument('--list', nargs='+', metavar='WORD')
    given, page, files = parser.parse_args(), paragraphs(), sources()
    if given.list:
        listed([word for one in given.list for word in (words_of(page[one]) if one in page else [one])], files)
        sys.exit(0)
    tried = [one for title, text in page.items() for one in check(title, text, files)] + list(check_cases(files, page))
    failed = [name for name, good in tried if not good]
    for name in failed:
        print('FAILED ' + name)
    print('%d passed, %d failed' % (len(tried) - len(failed), len(failed)))
    sys.exit(int(bool(failed)))


if __name__ == '__main__':
    main()
