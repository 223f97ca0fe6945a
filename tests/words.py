#!/usr/bin/env python3
"""Tries the word that a fault names, over each program given: tests/words.py --program PATH [--program PATH]..

For each fault of grammar/statements.txt: no statement of that file that is read begins with the words up to the one that is named
and with it; and the words before it, cut there, are completed by the end of some statement that is read, or it is the first.
For each statement that is read: cut after any of its words, the word that is named is the end of the text.
For the first faults the word is the one of grammar/words.txt, which is written by hand.
The last line is `N passed, N failed`; the status is 1 where something failed."""
import argparse
import os
import re
import subprocess

HERE = os.path.dirname(os.path.abspath(__file__))
TOKEN = re.compile(r"--[^\n]*|'(?:[^']|'')*'|\w+|<>|<=|>=|[^\s\w]")
PLACE = re.compile(r'^  line (\d+), column (\d+)', re.M)
FAULT = re.compile(r'^\d+ fault (\d+)$', re.M)
GREATEST = 9223372036854775807
# Words are completed where there are at most so many before: what is too deep has more.
LONGEST = 64
LONGEST_NAME = 128
# Ends that no statement of the file has.
MORE = [') FROM t;', '1 = 1;']


def keywords():
    """The keywords of the language."""
    with open(os.path.join(HERE, '..', 'crates', 'iv_lex', 'src', 'reserved.rt'), encoding='utf-8') as file:
        return set(re.findall(r'\("([A-Z]+)", TokenKind', file.read()))


KEYWORDS = keywords()


def tokens(text):
    """The tokens of a text with their places, without comments."""
    return [(found[0], found.start()) for found in TOKEN.finditer(text) if not found[0].startswith('--')]


def same(word):
    """A word as the grammar sees it; nothing where it is no token."""
    if word[0].isdigit():
        return '#' if word.isdigit() and int(word) <= GREATEST else None
    if re.fullmatch(r'[A-Za-z_]\w*', word, re.ASCII):
        return word.upper() if word.upper() in KEYWORDS else 'name' if len(word) <= LONGEST_NAME else None
    return "'" if word[0] == "'" and len(word) > 1 else word if re.fullmatch(r'<>|<=|>=|[(),;.=<>+*-]', word) else None


def answer(program, text):
    """The fault of a script and the place of its word, or nothing."""
    done = subprocess.run([program, '--explain'], input=text.encode(), capture_output=True, timeout=60)
    out = done.stdout.decode()
    fault, place = FAULT.search(out), PLACE.search(out)
    if fault is None or place is None:
        return None
    line, column = int(place[1]), int(place[2])
    before = text.encode().split(b'\n')[:line - 1]
    start = sum(len(part) + 1 for part in before)
    at = start + len(text.encode()[start:].decode()[:column - 1].encode())
    return int(fault[1]), at


def cases():
    """The statements that are read and those that aren't, each with its semicolon."""
    with open(os.path.join(HERE, 'grammar', 'statements.txt'), encoding='utf-8') as file:
        lines = [line.rstrip('\n').split(' | ', 1) for line in file if line[:1] not in '#\n']
    read = [text + ';' for kind, text in lines if kind == 'read']
    return read, [text + ';' for kind, text in lines if kind != 'read']


def completed(program, before, ends):
    """Whether the words are a statement with the end of one that is read."""
    last = same(tokens(before)[-1][0])
    return any(answer(program, before + '\n' + end) is None for end in [*MORE, *ends.get(last, [])])


def judge_fault(program, text, read, ends):
    """Why the word of a fault isn't the first that is wrong; nothing where it is."""
    found = answer(program, text)
    if found is None:
        return 'no fault or no place'
    start, at = found
    begun = [same(word) for word, place in tokens(text) if start <= place < at]
    wrong = [same(word) for word, place in tokens(text) if place == at]
    if wrong and None not in wrong and any(one[:len(begun) + 1] == begun + wrong for one in read):
        return 'a statement that is read begins with the words up to the one at %d' % at
    if not begun or len(begun) > LONGEST or completed(program, text.encode()[start:at].decode(), ends):
        return ''
    return 'the words before the one at %d are completed by no end' % at


def judge_cuts(program, text):
    """The cuts of a statement that is read whose word isn't the end; none where all are."""
    places = [place for _, place in tokens(text)][1:]
    return [text[:place] for place in places if (answer(program, text[:place]) or (0, 0))[1] != len(text[:place].encode())]


def by_hand():
    """The first faults with the places of their words, in bytes."""
    with open(os.path.join(HERE, 'grammar', 'words.txt'), encoding='utf-8') as file:
        lines = [line.rstrip('\n') for line in file if line[0] != '#']
    whole = [line if '«;»' in line and line.endswith('»') else line + ';' for line in lines]
    return [(line.replace('«', '').replace('»', ''), len(line[:line.index('«')].encode())) for line in whole]


def judge_by_hand(program, faults):
    """The first faults whose word isn't the one that is written by hand."""
    wanted = by_hand()
    missed = [] if [text for text, _ in wanted] == faults[:len(wanted)] else ['words.txt has other statements than statements.txt']
    return missed + [text for text, at in wanted if (answer(program, text) or (0, -1))[1] != at]


def main():
    parser = argparse.ArgumentParser()
    parser.add_argument('--program', action='append', required=True)
    good = bad = 0
    for program in parser.parse_args().program:
        program = os.path.abspath(program)
        whole, faults = cases()
        read = [[same(word) for word, _ in tokens(text)] for text in whole]
        ends = {}
        for text in whole:
            found = tokens(text)
            for (word, _), (_, place) in zip(found, found[1:]):
                if text[place:] not in ends.setdefault(same(word), []):
                    ends[same(word)].append(text[place:])
        missed = judge_by_hand(program, faults)
        good, bad = good + len(by_hand()) - len(missed), bad + len(missed)
        for text in missed:
            print('%r: the word is not the one of words.txt' % text)
        for text in faults:
            why = judge_fault(program, text, read, ends)
            good, bad = good + (why == ''), bad + (why != '')
            if why:
                print('%r: %s' % (text, why))
        for text in whole:
            cuts = judge_cuts(program, text)
            good, bad = good + (not cuts), bad + bool(cuts)
            for cut in cuts:
                print('%r: the word is not the end' % cut)
    print('%d passed, %d failed' % (good, bad))
    return int(bad > 0)


if __name__ == '__main__':
    raise SystemExit(main())
