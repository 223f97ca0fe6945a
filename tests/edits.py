#!/usr/bin/env python3
"""Tries the edits of tests/edits/CRATE/*.edit, many in one check: the prover has to refuse each function that is edited.

  tests/edits.py [CRATE..] [--all] [--jobs N] [--keep FOLDER] [--minutes N]

An edit has a line `file: src/..`, and pairs of lines `old: TEXT` and `new: TEXT`; each old text occurs once in its file.
A round has at most one edit of a function, and an edit outside of every function has a round of its own. A round is made on
a copy of the crate, over the work that a check kept. One check, which goes on past what is refused, has to name every edited
function, and no other, as refused for what it does. Where it names one only for what that calls, its edit is tried again in a
further round. An edit that is refused only because a proof names a call that is gone is told: it shows nothing, and wants
other words. The last line is `N passed, N failed`.

The file tests/edits/DIGESTS has a digest for each crate whose edits were all refused: of the edits, of the crate, and of
what it names in the crates below, and that in turn: modules of proofs and definitions, and of code the files that define
a name or have an `impl` of it. Tests, comments and the breaks of lines of code are no part of it; of the crates below
neither are private functions and fields, tactics, drops without a clause, the bodies of functions that have a contract,
and imports for these, since a proof above sees models and the contracts of public functions alone; nor is a public
function with a contract that neither the crate, nor its edits, nor what else is in the digest names. Where it is still
the same the edits aren't tried again, except with --all; where they are tried and all are refused it is written anew. A
crate that is tried is proved first where its kept work is missing or old.

With --minutes the edits are tried over the libraries that `rt ci` left, those of the crates that changed last first, and for so
many minutes by the clock at most. What wasn't tried then is counted as skipped, and the last line is `N passed, N failed, N skipped`.
A round has few edits then, so that some are judged before the time is over; all rounds together take longer."""
import argparse
import functools
import hashlib
import os
import re
import shutil
import subprocess
import sys
import tempfile
import time
from concurrent.futures import ThreadPoolExecutor, as_completed

HERE = os.path.dirname(os.path.abspath(__file__))
ROOT = os.path.dirname(HERE)
sys.path.insert(0, os.path.join(ROOT, "tools"))
import libraries
import repository
import sandboxes

FUNCTION = re.compile(r"^( *)(?:pub(?:\([a-z]+\))? )?(?:const )?(?:extern \"C\" )?fn (\w+)", re.M)
# A public function that has clauses: the layout has its braces on lines of their own.
CONTRACTED = re.compile(r"^( *)pub (?:const )?fn (\w+)[^\n]*\n(?:\1[ )][^\n]*\n)*\1\{\n(?:\1 [^\n]*\n|\n)*\1\}\n", re.M)
# An `impl` of a type, and of no trait, in which nothing is left.
EMPTY = re.compile(r"^impl\b(?:(?! for )[^{])*\{\n\s*\}\n", re.M)
# The body of a function that has clauses.
BODY = re.compile(r"^( *)\{\n.*?^\1\}\n", re.M | re.S)
# A function outside of every `impl` that no other crate can call, and how a function is to be proved.
PRIVATE = re.compile(r"^(?:pub\([a-z]+\) )?(?:const )?fn .*?(?:^| )\{\n.*?^\}\n", re.M | re.S)
TACTIC = re.compile(r"^ *#!?\[tactic\(.*?\)\]\n", re.M | re.S)
IMPORT = re.compile(r"^ *(?:ghost )?use ([^;{]*)(?:\{([^}]*)\})?;\n", re.M)
COMMENTS = {".rt": "//", ".antt": "--"}
# How a proof and code name a module of a crate of the repository.
PROOF_PATH = re.compile(r"\bRattle\.(iv_\w+)\.(specs|proofs)\.([\w.◌+-]*\w)")
CODE_PATH = re.compile(r"\b(iv_\w+|crate)((?:::\w+)*)::(?:(\w+)|\{([^}]*)\})")
EXPORT = re.compile(r"^pub use (\w+)::(?:(\w+)|\{([^}]*)\});", re.M)
# A struct with its fields, of which another crate sees the public ones; and what says, without a clause, that a type may be dropped.
FIELDS = re.compile(r"^( *pub struct [^{};]*\{\n)(.*?)^( *\}\n)", re.M | re.S)
DROPPED = re.compile(r"^ *#\[derive\(Drop\)\]\n|^impl\b(?:<[^{]*?>)? *Drop for [^{]*\{\n(?:(?!\}\n)(?! *(?:requires|ensures)).*\n)*\}\n", re.M)
# The head of an `impl`: its parameters, its trait and its type; and the words of these that the check calls it by.
IMPLEMENTS = re.compile(r"^impl\b(<[^{]*?>(?= ))? *(?:([^{]*?) for )?([^{]*?)\s*(?:where\b[^{]*)?\{", re.M)
SIGNS = re.compile(r"(?<!')\b\w+\b(?!::)")
# What a check says last where it came to its end, of a function that it doesn't take for proved, and of a goal of some function of a file.
ENDED = re.compile(r"^(logic=not-proved|only=\d+ holes=\d+)", re.M)
REFUSED = re.compile(r"^fn (\S+): ((?:not proved|no proof).*)", re.M)
EXPECTED = re.compile(r"no proof: expected \w+ in \./proofs/(\S+)/\w+\.antt")
CYCLE = re.compile(r"^ *#\[cycle\(\w+\)\]\n(?:(?! *(?:pub\b.*)?fn ).*\n)*.*?fn (\w+)", re.M)
OPEN = re.compile(r"(?:prove `|, `)([\w-]+)`")
NOTE = re.compile(r"^note: src/(\S+)\.rt:[\d:]+ .*\(`([\w-]+)`\)", re.M)
# How many edits a round has at most where time is short.
FEW = 12
# What a check says of a proof that names a call which isn't there, or that it can't read any more.
UNREADABLE = re.compile(r"has no field|does not read `|has no `[^`]*` that can be named")


def read(path):
    with open(path, encoding="utf-8") as file:
        return file.read()


def write(path, text):
    with open(path, "w", encoding="utf-8") as file:
        file.write(text)


class Edit:
    """An edit: its name, its file, the spans of that file that get new texts, and the functions that they are in, of which the first has to be
    refused: a method after its type and its trait, and none outside of every function."""

    def __init__(self, crate, path):
        self.name = os.path.basename(path)[: -len(".edit")]
        lines = [line.partition(": ") for line in read(path).splitlines()]
        self.file = next(text for key, _, text in lines if key == "file")
        texts = [(key, text) for key, _, text in lines if key in ("old", "new")]
        source = read(os.path.join(ROOT, "crates", crate, self.file))
        self.spans = []
        for (_, old), (_, new) in zip(texts[::2], texts[1::2]):
            if source.count(old) != 1:
                raise SystemExit(f"{crate}/{self.name}: its old text occurs {source.count(old)} times in {self.file}: {old}")
            start = source.index(old)
            self.spans.append((start, start + len(old), new))
        self.functions = [enclosing(source, start) if self.file.endswith(".rt") else None for start, _, _ in self.spans]
        self.function = self.functions[0]

    def module(self):
        """The path of the file's module."""
        parts = self.file[len("src/") : -len(".rt")].split("/")
        return [part for part in parts if part not in ("lib", "main")]

    def path(self):
        """How a check is asked for the function: a method without its module, since its type may be of another one."""
        return self.function if "::" in self.function else "::".join([*self.module(), self.function])

    def is_of(self, crate, path):
        """Whether a check calls the function by this path."""
        between = r"(?:\w+::)*" if "::" in self.function else ""
        return re.fullmatch(f"{crate}::{between}{re.escape(self.path())}", path) is not None

    def is_beside(self, other):
        """Whether the two can be in one round: both are of functions, and of no function both."""
        return bool(self.function and other.function) and (self.file != other.file or not set(self.functions) & set(other.functions))


def enclosing(source, place):
    """The function that a place of a file is in, after its type and its trait where it is a method; none before the first."""
    found = [match for match in FUNCTION.finditer(source) if match.start() <= place]
    if not found:
        return None
    function = found[-1]
    blocks = [match for match in IMPLEMENTS.finditer(source) if match.start() <= function.start()] if function[1] else []
    if not blocks:
        return function[2]
    generics, of_trait, of_type = (part or "" for part in blocks[-1].groups())
    parameters = re.findall(r"[<,] *(\w+)", generics)
    return "".join(sign for sign in SIGNS.findall(of_type) + SIGNS.findall(of_trait) if sign not in parameters) + f"::{function[2]}"


def rounds_of(edits, most=None, rounds=()):
    """The edits in rounds of so many at most, each with at most one edit of a function, after those that are in rounds already."""
    made = list(map(list, rounds))
    for edit in edits:
        for one in made:
            if len(one) != most and all(map(edit.is_beside, one)):
                one.append(edit)
                break
        else:
            made.append([edit])
    return made


def below(crate):
    """The crate and those of the repository that it depends on."""
    return repository.below([crate], repository.crates())


def without_comments(path):
    """A file's text without the lines that hold a comment alone."""
    mark = COMMENTS.get(os.path.splitext(path)[1])
    return "".join(line for line in read(path).splitlines(True) if mark is None or not line.lstrip().startswith(mark))


def with_used_imports(source):
    """A file's text with those of its imports alone that the rest of it names, one a line."""
    rest = IMPORT.sub("", source)

    def is_named(name):
        signs = [part for part in name.split(" as ")[-1].split("◌") if part]
        return all(re.search(rf"\b{part}\b", rest) if re.fullmatch(r"\w+", part) else part in rest for part in signs)

    imports = [
        (path + name.strip() if names else path, name)
        for path, names in IMPORT.findall(source)
        for name in (names or re.split(r"::|\.", path)[-1]).split(",")
    ]
    return "".join(f"use {path};\n" for path, name in imports if is_named(name.strip())) + rest


def with_public_fields(struct):
    """The text of a struct without its private fields. A field begins with the least indent; what it has on further lines has more."""
    lines = struct[2].splitlines(True)
    indents = [len(line) - len(line.lstrip()) for line in lines]
    kept, is_public = [], False
    for line, indent in zip(lines, indents):
        if indent == min(indents) and line.lstrip()[0].isalpha():
            is_public = line.lstrip().startswith("pub ")
        if is_public:
            kept.append(line)
    return struct[1] + "".join(kept) + struct[3]


def seen_from_above(source, called=None):
    """What a crate above sees of a file of code: no private functions and fields, tactics, drops without a clause, and bodies of functions
    that have clauses, and no imports for these; and, where it is said which public functions that have clauses it calls, no others of them."""
    if called is not None:
        source = EMPTY.sub("", CONTRACTED.sub(lambda function: function[0] if function[2] in called else "", source))
    seen = BODY.sub("", PRIVATE.sub("", TACTIC.sub("", source)))
    return with_used_imports(FIELDS.sub(with_public_fields, DROPPED.sub("", seen)))


@functools.lru_cache(maxsize=None)
def contracted(path):
    """The names of the public functions of a file that have clauses."""
    return frozenset(name for _, name in CONTRACTED.findall(without_comments(path)))


@functools.lru_cache(maxsize=None)
def words_of(path, from_above):
    """The words of a file of code or of an edit, or of what is seen of a file from above without the names under which its functions are
    declared. A definition or a proof calls no function."""
    text = "" if path.endswith(".antt") else without_comments(path)
    if from_above:
        text = re.sub(r"\bfn \w+", "", seen_from_above(text))
    return frozenset(re.findall(r"\w+", text))


@functools.lru_cache(maxsize=None)
def bare(path, from_above=False, called=None):
    """A file's text without the lines that hold a comment alone; of code also without the breaks of its lines, without
    the module of tests, and without the marks that the layout puts before the first case and after the last field of
    what it writes over several lines; and, where it is asked, as a crate above sees it. No proof depends on the rest."""
    source = without_comments(path)
    if not path.endswith(".rt"):
        return source
    text = " ".join((seen_from_above(source, called) if from_above else source).split()).replace("#[cfg(test)] mod tests;", "").replace("  ", " ")
    return re.sub(r"(\brecord \{[^{}]*); \}", r"\1 }", text.replace("[ | ", "[ "))


def files_in(folder):
    """The files of a folder and of those in it, without tests."""
    found = []
    for place, names, files in os.walk(folder):
        names[:] = sorted(name for name in names if name != "tests")
        found += [os.path.join(place, file) for file in files if file != "tests.rt"]
    return found


def module(folder, parts, suffix):
    """The file of the longest path that is one, among those that begin a dotted path."""
    for length in range(len(parts), 0, -1):
        path = os.path.join(folder, *parts[:length]) + suffix
        if os.path.exists(path):
            return [path]
    return []


@functools.lru_cache(maxsize=None)
def exported(crate):
    """For each name that a crate's root offers, the files of the crate that define it or have an `impl` that names it."""
    folder = os.path.join(ROOT, "crates", crate, "src")
    sources = {path: read(path) for path in files_in(folder)}
    offered = {}
    for part, one, several in EXPORT.findall(sources.get(os.path.join(folder, "lib.rt"), "")):
        for name in filter(None, map(str.strip, (one or several).split(","))):
            uses = re.compile(rf"^ *impl\b[^{{]*\b{name}\b", re.M)
            offered[name] = module(folder, [part], ".rt") + [path for path, source in sources.items() if uses.search(source)]
    return offered


def code_named(crate, parts):
    """The files that a path of code leads to in another crate: those of the name that the crate's root offers, or else all code."""
    folder = os.path.join(ROOT, "crates", crate)
    if parts[0] in ("proofs", "specs"):
        return module(os.path.join(folder, parts[0]), parts[1:], ".antt")
    return exported(crate).get(parts[0]) or files_in(os.path.join(folder, "src"))


@functools.lru_cache(maxsize=None)
def named_in(path, from_above, called=None):
    """The files of the repository's crates that a file names by their modules, or of which it names what they offer; of a file of a crate
    below, in what is seen of it from above."""
    text = without_comments(path)
    if from_above and path.endswith(".rt"):
        text = seen_from_above(text, called)
    found = set()
    for crate, kind, rest in PROOF_PATH.findall(text):
        folder, parts = os.path.join(ROOT, "crates", crate), rest.split(".")
        if kind == "specs" and parts[0] in ("declared", "contracts"):
            files = module(os.path.join(folder, "src"), parts[1:], ".rt")
        else:
            files = module(os.path.join(folder, kind), parts, ".antt")
        found.update(files or files_in(os.path.join(folder, "src")) + files_in(os.path.join(folder, "specs")))
    for crate, rest, one, several in CODE_PATH.findall(text) if path.endswith(".rt") else []:
        own = os.path.relpath(path, os.path.join(ROOT, "crates")).split(os.sep)[0]
        for name in filter(None, map(str.strip, (one or several).split(","))):
            parts = [*rest.split("::")[1:], name.split(" ")[0]]
            if crate == "crate" and parts[0] != "proofs":
                folder = os.path.join(ROOT, "crates", own, "src")
                found.update(module(folder, parts, ".rt") or exported(own).get(parts[0]) or files_in(folder))
            elif crate == "crate" or os.path.isdir(os.path.join(ROOT, "crates", crate)):
                found.update(code_named(own if crate == "crate" else crate, parts))
    return frozenset(found)


def reached(files, words=None):
    """The files of a crate, and those that they name, and so on; where words are given, without the functions that none of them names."""
    found, left = set(), list(files)
    while left:
        path = left.pop()
        if path not in found:
            found.add(path)
            left += named_in(path, path not in files, None if words is None else contracted(path) & words)
    return found


def digest_of(crate):
    """A digest of a crate's edits, of the crate, and of the code and definitions that it names in the crates below it, and they in
    turn, without tests. Proofs of the crates below are no part of it, but what they name is."""
    folder = os.path.join(ROOT, "crates", crate)
    own = [path for part in ("src", "specs", "proofs") for path in files_in(os.path.join(folder, part)) if path.endswith((".rt", ".antt"))]
    edits = files_in(os.path.join(HERE, "edits", crate))
    words = frozenset().union(*(words_of(path, path not in own) for path in reached(own)), *(words_of(path, False) for path in edits))
    lower = {path for path in reached(own, words) if not path.startswith((os.path.join(folder, ""), os.path.join(ROOT, "tests"))) and "proofs" not in os.path.relpath(path, ROOT).split(os.sep)}
    digest = hashlib.sha256()
    for path in sorted({*edits, *own, *lower}):
        text = bare(path, True, contracted(path) & words) if path in lower else bare(path)
        digest.update(os.path.relpath(path, ROOT).encode() + b"\0" + text.encode() + b"\0")
    return digest.hexdigest()


def digests():
    """The digest of each crate whose edits were all refused."""
    path = os.path.join(HERE, "edits", "DIGESTS")
    return dict(line.split() for line in read(path).splitlines()) if os.path.exists(path) else {}


def remember(crates):
    """Writes the digests of crates whose edits were all refused, beside those that are there."""
    known = {**digests(), **{crate: digest_of(crate) for crate in crates}}
    write(os.path.join(HERE, "edits", "DIGESTS"), "".join(f"{crate} {known[crate]}\n" for crate in sorted(known)))


def copied(crate, sandbox):
    """A copy of the crate and of those below it, with the work that checks kept."""
    copy = sandboxes.furnish(sandbox, crate, below(crate))
    shutil.copytree(os.path.join(ROOT, "crates", crate, "out"), os.path.join(copy, "out"))
    return copy


def make(crate, copy, edits):
    """Makes the edits on the copy of the crate, and gives the files that they change."""
    files = {edit.file for edit in edits}
    for file in files:
        source = read(os.path.join(ROOT, "crates", crate, file))
        spans = sorted(span for edit in edits if edit.file == file for span in edit.spans)
        for start, end, new in reversed(spans):
            source = source[:start] + new + source[end:]
        write(os.path.join(copy, file), source)
    return files


@functools.lru_cache(maxsize=None)
def in_cycles(crate):
    """The functions of a crate that are in cycles of calls. Those of a cycle have one proof, in a folder of its name behind a plus, where the
    name of a goal begins with that of its function."""
    sources = (read(path) for path in files_in(os.path.join(ROOT, "crates", crate, "src")))
    return frozenset(name for source in sources for name in CYCLE.findall(source))


def is_its_own(path, said, notes):
    """Whether a check refuses a function for what it does, and not only for what it calls or stands on. A function that calls itself alone
    has its proof in a folder behind a plus too. What a call requires is a goal of the caller."""
    crate, *outer, last = path.split("::")
    module = re.escape(".".join([crate, "proofs", *outer, ""]))
    if last in in_cycles(crate):
        goals = OPEN.findall(said) + [goal for file, goal in notes if file in ("/".join(outer), "/".join(outer[:-1]))]
        goals += re.findall(rf"`Rattle\.{module}\+\w+\.\w+\.([\w-]+)", said)
        return any(re.match(rf"{last}-(?!(?:\d+-)?requires)", goal) for goal in goals)
    expected = EXPECTED.match(said)
    if expected and expected[1] in ("/".join([*outer, last]), "/".join([*outer, f"+{last}"])):
        return True
    return said == "not proved" or re.search(rf"`Rattle\.{module}\+?{last}\.", said) is not None


def refusals(output):
    """The functions that the check refuses for what they do, by their paths, with what it says of them."""
    notes = NOTE.findall(output)
    return {path: said for path, said in REFUSED.findall(output) if is_its_own(path, said, notes)}


def refused(crate, edit, output):
    """Whether the check refuses the edited function for what it does; outside of every function anything."""
    if edit.function is None:
        return re.search(r"^(fn|struct|enum|impl) .*: (not proved|no proof: expected|no proof: in )", output, re.M) is not None
    return any(edit.is_of(crate, path) for path in refusals(output))


def waits(crate, edit, output):
    """Whether the check doesn't take the edited function for proved, but only for what it calls."""
    return edit.function is not None and any(edit.is_of(crate, path) for path, _ in REFUSED.findall(output)) and not refused(crate, edit, output)


def bystanders(crate, edits, output):
    """The functions that the check refuses for what they do, though no edit of the round is of them."""
    if any(edit.function is None for edit in edits):
        return []
    others = {function for edit in edits for function in edit.functions[1:] if function}
    return [
        path
        for path in refusals(output)
        if not any(edit.is_of(crate, path) for edit in edits) and not any(path.endswith("::" + function) for function in others)
    ]


def lost_a_name(edit, output):
    """Whether the check refuses the edited function only because its proof names a call that the edit took away."""
    if edit.function is None:
        return False
    *outer, last = [*edit.module(), *edit.function.split("::")]
    folder = re.escape("/".join(["./proofs", *outer, ""]))
    errors = re.findall(rf"^{folder}(?:\+?{last}/\w+\.antt:[\d:]* error: |\+\w+/\w+\.antt:[\d:]* error: (?=`{last}-))(.*)", output, re.M)
    return bool(errors) and all(UNREADABLE.search(error) for error in errors)


def asked(edits):
    """The words by which a check is asked for the edited functions and those that they call, and goes on past what it refuses. An edit
    outside of every function concerns the whole crate."""
    if any(edit.function is None for edit in edits):
        return []
    return ["--allow-holes", *(word for path in sorted({edit.path() for edit in edits}) for word in ("--only", path))]


def tried(crate, copy, edits, words=("rt", "check", "--jobs", "1"), until=None):
    """The edits of a round that were not refused, what the check said, and the processor seconds that it took; nothing where it was
    stopped at that time."""
    files = make(crate, copy, edits)
    status, output, used = sandboxes.timed([*words, *asked(edits)], copy, until)
    for file in files:
        shutil.copy2(os.path.join(ROOT, "crates", crate, file), os.path.join(copy, file))
    if until is not None and time.monotonic() >= until:
        return None
    if status != 1 or not ENDED.search(output):
        return edits, output, used
    return [edit for edit in edits if not refused(crate, edit, output)], output, used


def put_off(crate, rounds, number, said):
    """Puts the edits of a round that could not be judged beside others into later ones, or into a further round. Without others they stay:
    they have failed."""
    kept, output, used = said
    off = [edit for edit in kept if waits(crate, edit, output)]
    if not off or len(off) == len(rounds[number]):
        return said
    rounds[number] = [edit for edit in rounds[number] if edit not in off]
    later = rounds[number + 1 :]
    rounds[number + 1 :] = rounds_of(off, rounds=later)
    return [edit for edit in kept if edit not in off], output, used


def tried_in_turn(crate, rounds, copy, words, until=None):
    """What each round of a crate came to, one after the other on a copy of the crate, as far as it was tried until that time. What a check
    proved serves the next."""
    said = {}
    # Rounds may be added on the way.
    for number, edits in enumerate(rounds):
        one = tried(crate, copy, edits, words, until) if until is None or time.monotonic() < until else None
        if one is None:
            break
        said[number] = put_off(crate, rounds, number, one)
    return said


def tried_over_kept(crate, rounds, sandbox):
    """The same over the work that a check kept."""
    said = tried_in_turn(crate, rounds, copied(crate, sandbox), ["rt", "check", "--jobs", "1"])
    shutil.rmtree(sandbox)
    return said


def tried_over_gate(crate, rounds, sandbox, until):
    """The same over the libraries that `rt ci` left; nothing where one of them isn't there."""
    rlibs = libraries.left_by_gate(crate)
    if rlibs is None:
        return {}
    shutil.copytree(os.path.join(ROOT, "crates", crate), sandbox, ignore=shutil.ignore_patterns("out"))
    os.makedirs(os.path.join(sandbox, "out", "incremental"))
    said = tried_in_turn(crate, rounds, sandbox, [*libraries.words("check", crate, rlibs), "--jobs", "1"], until)
    shutil.rmtree(sandbox)
    return said


def report(crate, rounds, said, keep):
    """Prints what the rounds of a crate came to, as far as they were tried, and gives the number of edits that were refused and of those
    that were not."""
    passed = failed = 0
    for number, (kept, output, used) in sorted(said.items()):
        one = rounds[number]
        passed, failed = passed + len(one) - len(kept), failed + len(kept)
        print(f"{crate}: {len(one) - len(kept)} of {len(one)} refused in one check, {used / 60:.1f} processor minutes", flush=True)
        for edit in kept:
            print(f"FAILED: {crate}/{edit.name}: {edit.function} of {edit.file} was not refused")
        for path in bystanders(crate, one, output):
            print(f"FAILED: {path} was refused too, though no edit is of it")
            failed += 1
        for edit in one:
            if lost_a_name(edit, output):
                print(f"{crate}/{edit.name}: refused only because the proof of {edit.function} names a call that is gone")
        if keep:
            write(os.path.join(keep, f"{crate}-{number}.log"), output)
        elif kept:
            print("\n".join(output.splitlines()[:20]))
    return passed, failed


def changed_last():
    """The crates whose files, or whose edits, changed since digests were written; none where git can't tell."""
    def told(*words):
        done = subprocess.run(["git", "-C", ROOT, *words], stdout=subprocess.PIPE, stderr=subprocess.DEVNULL, text=True, check=False)
        return done.stdout.split() if done.returncode == 0 else []

    written = told("log", "-1", "--format=%H", "--", "tests/edits/DIGESTS")
    paths = told("diff", "--name-only", written[0], "--", "crates", "tests/edits") if written else []
    return {path.removeprefix("tests/edits/").removeprefix("crates/").split("/")[0] for path in paths}


def stale(crates, known, most):
    """The rounds of each crate whose digest isn't known, and how many edits the others have."""
    rounds, refused_before = {}, 0
    for crate in crates:
        names = sorted(name for name in os.listdir(os.path.join(HERE, "edits", crate)) if name.endswith(".edit"))
        if known.get(crate) == digest_of(crate):
            print(f"{crate}: {len(names)} edits were refused over these sources already", flush=True)
            refused_before += len(names)
        else:
            rounds[crate] = rounds_of([Edit(crate, os.path.join(HERE, "edits", crate, name)) for name in names], most)
    return rounds, refused_before


def judge(rounds, jobs, keep, begin):
    """Tries the rounds of each crate, crates side by side in the order that they are in, each in a sandbox of its own; the number of edits that were
    refused and of those that were not."""
    passed = failed = 0
    with tempfile.TemporaryDirectory(prefix="edits-", dir=sandboxes.place()) as sandbox, ThreadPoolExecutor(jobs) as pool:
        begun = {pool.submit(begin, crate, rounds[crate], os.path.join(sandbox, crate)): crate for crate in rounds}
        for done in as_completed(begun):
            crate, said = begun[done], done.result()
            refused_now, kept_now = report(crate, rounds[crate], said, keep)
            passed, failed = passed + refused_now, failed + kept_now
            if len(said) == len(rounds[crate]) and not kept_now:
                remember([crate])
    return passed, failed


def try_all(rounds, jobs, keep):
    """Tries all rounds over the work that checks kept; the number of edits that were refused and of those that were not."""
    if not sandboxes.prove(repository.below(rounds, repository.crates()), repository.crates(), jobs):
        return 0, 1
    longest_first = sorted(rounds, key=lambda crate: -sum(map(len, rounds[crate])))
    return judge({crate: rounds[crate] for crate in longest_first}, jobs, keep, tried_over_kept)


def try_some(rounds, jobs, keep, minutes):
    """Tries what can be tried in so many minutes over the libraries that `rt ci` left; the number of edits that were refused, of those that
    were not, and of those that weren't tried."""
    until, last, order = time.monotonic() + 60 * minutes, changed_last(), list(repository.crates())
    first = sorted(rounds, key=lambda crate: (crate not in last, order.index(crate)))
    count = sum(len(one) for each in rounds.values() for one in each)
    passed, failed = judge({crate: rounds[crate] for crate in first}, jobs, keep, functools.partial(tried_over_gate, until=until))
    return passed, failed, max(0, count - passed - failed)


def main():
    parser = argparse.ArgumentParser()
    parser.add_argument("crates", nargs="*")
    parser.add_argument("--all", action="store_true")
    parser.add_argument("--jobs", type=int, default=os.cpu_count() or 1)
    parser.add_argument("--keep")
    parser.add_argument("--minutes", type=float)
    words = parser.parse_args()
    folder = os.path.join(HERE, "edits")
    crates = words.crates or sorted(name for name in os.listdir(folder) if os.path.isdir(os.path.join(folder, name)))
    known = {} if words.all else digests()
    in_time = words.minutes is not None and not words.all
    rounds, passed = stale(crates, known, FEW if in_time else None)
    failed = skipped = 0
    if rounds and in_time:
        refused_now, failed, skipped = try_some(rounds, words.jobs, words.keep, words.minutes)
    elif rounds:
        refused_now, failed = try_all(rounds, words.jobs, words.keep)
    else:
        refused_now = 0
    print(f"{passed + refused_now} passed, {failed} failed" + (f", {skipped} skipped" if skipped else ""))
    return int(failed > 0)


if __name__ == "__main__":
    sys.exit(main())
