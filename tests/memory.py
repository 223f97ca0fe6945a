#!/usr/bin/env python3
"""Looks in the sources for where the answer of refused memory, or the failure of a device, is made.

Contracts let a function answer that memory was refused at any time, so that a wrong body could give this in place of
any other answer. Here that can't hide: the answer is made by the conversion from std's AllocError alone, no code makes an
AllocError, and a DeviceFault is made by `Std` alone, where the call under it failed. The exceptions are below; tests may make any.

  tests/memory.py
Each source file is a test, and so is each made-up source below. The last line is `N passed, N failed`."""
import os
import re

CRATES = os.path.join(os.path.dirname(os.path.abspath(__file__)), '..', 'crates')

# The file, the function, the word, and why it is there.
EXCEPTIONS = [
    ('iv_store_groups/src/hash_index.rt', 'push', 'AllocError', 'more groups of one constraint than numbers of 32 bits would take 300 GB at least'),
    ('iv_expr/src/expression.rt', 'copy', 'NoMemory', 'the copy of a text, which answers an AllocError or none'),
    ('iv_parse/src/parser.rt', 'run', 'AllocError', 'a rule of the grammar was refused memory, which is a variant of Stop'),
    ('iv_catalogue/src/cause.rt', 'from', 'OutOfMemory', 'the evaluation was refused memory, which is a fault of its own'),
    ('iv_template/src/places.rt', 'hole', 'AllocError', 'the search for a question mark was refused memory; a template that was filled has no other fault'),
    ('iv_dump/src/queries.rt', 'rows_named', 'NoMemory', 'the rows of a table are refused only if an allocation failed'),
    ('iv_restore/src/comparing.rt', 'rows_of', 'NoMemory', 'the rows of a table are refused only if an allocation failed'),
    ('iv_restore/src/running.rt', 'accept', 'NoMemory', 'an allocation failed in the statement, which is a cause of its own'),
    ('iv_state/src/schema.rt', 'adding_refusal', 'AllocError', 'the store was refused memory, which is a fault of its own'),
    ('iv_program/src/program.rt', 'words', 'NoMemory', 'std tells by a kind of its error that memory for the words was refused'),
    ('iv_program/src/program.rt', 'refuse_words', 'NoMemory', 'memory was refused for the options, which is an error of its own'),
    ('iv_program/src/reading.rt', 'words_error', 'NoMemory', 'clap tells by a kind of its error that memory was refused'),
    ('iv_program/src/dumping.rt', 'execute_one', 'NoMemory', 'an allocation failed in the statement, which is a cause of its own'),
    ('iv_program/src/dumping.rt', 'stop_of', 'NoMemory', 'the dump was refused memory, which is a refusal of its own'),
    ('iv_text/src/device.rt', 'read', 'DeviceFault', 'the reader under the device failed'),
    ('iv_text/src/device.rt', 'write', 'DeviceFault', 'the writer under the device failed, or took none of some bytes'),
]

# what may come before a word that is a value, beside a parenthesis and a comma: an opening, an assignment, an arm, a closure, `return`, or another statement
BEFORE_A_VALUE = ['[', '=', '=>', '|', 'return', ';', '{', '}', 'else']
# the word names a variant, which may be made in a conversion alone
VARIANTS = ['OutOfMemory', 'NoMemory']
# the word names a type with one value, which is made by naming it
UNITS = ['AllocError', 'DeviceFault']


def plain(text):
    """The text without comments, texts, clauses and ghost items."""
    text = re.sub(r'//[^\n]*|/\*.*?\*/|b?"(?:\\.|[^"\\])*"|b?\'(?:\\.|[^\'\\])\'', ' ', text, flags=re.S)
    text = re.sub(r'\b(ensures|requires)\b\s*\w*\s*\{', r'\1{', text)
    parts, at = [], 0
    for found in re.finditer(r'\b(?:ensures|requires)\{|\bghost\b', text):
        if found.start() < at:
            continue
        parts.append(text[at:found.start()])
        at = end_of(text, found)
    return ''.join(parts) + text[at:]


def end_of(text, found):
    """The place after a clause's closing brace, or after a ghost item."""
    depth, at = (1, found.end()) if found[0].endswith('{') else (0, found.end())
    while at < len(text):
        depth += (text[at] in '{(') - (text[at] in '})')
        at += 1
        if depth == 0 and (text[at - 1] == ';' or found[0].endswith('{')):
            break
    return at


def tokens(text):
    return re.findall(r'\w+|::|=>|->|==|!=|&&|\|\||[^\s\w]', plain(text))


def is_of_type(words, at):
    """Whether the word is in a type, an item's head or an import, and not in an expression."""
    while at >= 2 and words[at - 1] == '::':
        at -= 2
    if words[at - 1] not in ('(', ','):
        return words[at - 1] not in BEFORE_A_VALUE
    at = opening(words, at)
    if words[at] != '(':
        return words[at] == '<'
    return words[at - 1] in (':', '->', '<', '&', 'Fn', 'FnMut', 'FnOnce') or (words[at - 1] in ('(', ',') and is_of_type(words, at))


def opening(words, at):
    """The place of the bracket that is open before the word."""
    depth = 0
    while at > 0:
        at -= 1
        depth += (words[at] in ')]}>') - (words[at] in '([{<')
        if depth < 0:
            break
    return at


def is_pattern(words, at):
    """Whether the variant is matched or compared: an arm of a match, an alternative of one, `if let`, `matches!`, `==`."""
    if at >= 3 and words[at - 1] == '::' and words[at - 3] in ('==', '!='):
        return True
    rest = words[at + 1:at + 40]
    while rest and rest[0] in ')|':
        rest = rest[1:] if rest[0] == ')' else rest[next((i for i, w in enumerate(rest) if w == '=>'), len(rest)):]
    if rest[:1] in (['=>'], ['if']) or (rest[:1] == ['='] and 'let' in words[last_end(words, at):at]):
        return True
    back = words[max(0, at - 40):at]
    opened = len(back) - 1 - back[::-1].index('matches') if 'matches' in back else None
    return opened is not None and back[opened + 1:opened + 2] == ['!'] and ';' not in back[opened:] and '}' not in back[opened:]


def places(words):
    """The function and the item's head of each word."""
    heads, head, found = [], [], []
    for word in words:
        found.append((next((h[h.index('fn') + 1] for h in reversed(heads) if 'fn' in h), ''), [w for h in heads for w in h]))
        if word == '{':
            heads.append(head)
        if word == '}' and heads:
            heads.pop()
        head = [] if word in '{};' else head + [word]
    return found


def in_conversion(head):
    """Whether the item is a conversion from std's errors of allocation."""
    text = ' '.join(head)
    return re.search(r'\bimpl\b.*\bFrom < (AllocError|AllocFailed)\b.*\bfor\b', text) is not None


def makings(text):
    """The words that make one of these answers, each with its function."""
    words = tokens(text)
    for at, (word, (function, head)) in enumerate(zip(words, places(words))):
        inside = 'use' in head or 'use' in words[max(0, last_end(words, at)):at]
        if word in VARIANTS and ('enum' in head or is_pattern(words, at)):
            continue
        if word in VARIANTS and not in_conversion(head):
            yield word, function
        if word in UNITS and not inside and not is_of_type(words, at) and words[at + 1:at + 2] != ['::'] and not is_declared(words, at, head):
            yield word, function


def last_end(words, at):
    return max([i for i in range(at) if words[i] in ';}'] + [-1]) + 1


def is_declared(words, at, head):
    """Whether the word is in a variant's or a struct's parts."""
    return 'enum' in head or 'struct' in words[last_end(words, at):at]


def sources():
    for folder, folders, files in os.walk(CRATES):
        left_out = {'out', 'tests', 'specs', 'proofs', 'must-fail'}
        folders[:] = sorted(name for name in folders if name not in left_out and not name.startswith('iv_tests_'))
        for name in sorted(files):
            if name.endswith('.rt') and name != 'tests.rt':
                path = os.path.join(folder, name)
                yield os.path.relpath(path, CRATES), path


def judge_sources():
    """Each file, with what it makes where it should not."""
    used = set()
    for name, path in sources():
        with open(path, encoding='utf-8') as file:
            found = list(makings(file.read()))
        allowed = [place for place in found if (name, place[1], place[0]) in {(f, g, w) for f, g, w, _ in EXCEPTIONS}]
        used |= {(name, function, word) for word, function in allowed}
        yield name, ['%s is made in %s' % (word, function or 'an item') for word, function in found if (word, function) not in allowed]
    for file, function, word, _ in EXCEPTIONS:
        yield 'exception %s, %s' % (file, function), [] if (file, function, word) in used else ['nothing there makes %s' % word]


# A made-up source, and what is found in it.
MADE_UP = [
    ('fn f() -> Result<(), AllocError> { v.push(1)?; Ok(()) }', []),
    ('fn f() -> Result<(), AllocError> { Err(AllocError) }', ['AllocError']),
    ('fn f() -> Result<(), AllocError> { let e = AllocError; Err(e) }', ['AllocError']),
    ('fn f() -> Result<(), AllocError> { g().ok_or(std::alloc::AllocError) }', ['AllocError']),
    ('fn f() -> Result<(), AllocError> { g().map_err(|_| AllocError) }', ['AllocError']),
    ('fn f() -> Option<AllocError> { if a { AllocError } else { b } }', ['AllocError']),
    ('use std::alloc::{AllocError, Global}; fn f(a: (u8, AllocError)) -> Result<(A, B), AllocError> { a.1 }', []),
    ('fn f() -> Result<(), Refusal> { Err(Refusal { cause: Cause::OutOfMemory, trigger: None }) }', ['OutOfMemory']),
    ('fn f() -> Result<(), Refusal> { match g() { Ok(a) => a, Err(_) => refuse(Cause::OutOfMemory), } }', ['OutOfMemory']),
    ('impl From<AllocError> for Refusal { fn from(_: AllocError) -> Refusal { of(Cause::OutOfMemory) } }', []),
    ('impl<T> From<AllocFailed<T>> for Refusal { fn from(_: AllocFailed<T>) -> Refusal { of(Cause::OutOfMemory) } }', []),
    ('impl From<Utf8Error> for RunFault { fn from(_: Utf8Error) -> RunFault { RunFault::NoMemory } }', ['NoMemory']),
    ('fn f(c: Cause) -> u8 { match c { Cause::Limit => 21, Cause::OutOfMemory => 22 } }', []),
    ('fn f(c: Cause) -> bool { matches!(c, Cause::Limit | Cause::OutOfMemory) }', []),
    ('fn f(c: Cause) -> bool { match c { Cause::OutOfMemory | Cause::Limit => true, _ => false } }', []),
    ('fn f(e: Fault) -> Cause { match e { Fault::NoMemory => Cause::OutOfMemory, _ => Cause::Limit } }', ['OutOfMemory']),
    ('fn f() -> Cause { use Cause::OutOfMemory; OutOfMemory }', ['OutOfMemory', 'OutOfMemory']),
    ('fn f(r: Result<(), Cause>) -> bool { if let Err(Cause::OutOfMemory) = r { true } else { false } }', []),
    ('fn f(c: Cause) -> bool { c == Cause::OutOfMemory }', []),
    ('fn f() -> Result<(), Cause> { let r = Err(Cause::OutOfMemory); r }', ['OutOfMemory']),
    ('enum RunFault { Read, NoMemory }', []),
    ('// Err(AllocError)\nfn f() -> u8 ensures { IsErrOf result RunFault.NoMemory → x } { 1 }', []),
    ('ghost use a.{NoMemory}; fn f() -> bool { g("NoMemory AllocError") }', []),
    ('fn read() -> Result<usize, DeviceFault> { if full { return Err(DeviceFault); } Ok(0) }', ['DeviceFault']),
    ('#[derive(Clone)] pub struct DeviceFault; fn f(x: DeviceFault) -> Result<(), DeviceFault> { Err(x) }', []),
]


def judge_made_up():
    for place, (text, want) in enumerate(MADE_UP, 1):
        got = [word for word, _ in makings(text)]
        yield 'made-up source %d' % place, [] if got == want else ['expected %s, got %s' % (want, got)]


def main():
    passed, failed = 0, 0
    for judged in (judge_made_up(), judge_sources()):
        for name, why in judged:
            passed, failed = passed + (not why), failed + bool(why)
            if why:
                print('FAILED %s: %s' % (name, '; '.join(why)))
    print('%d passed, %d failed' % (passed, failed))
    raise SystemExit(int(failed > 0))


if __name__ == '__main__':
    main()
