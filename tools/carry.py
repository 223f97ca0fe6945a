#!/usr/bin/env python3
"""Carries the digests of edits over a renaming, without trying the edits again.

  tools/carry.py COMMIT NAMES

NAMES is a file with a line `OLD NEW` for each word that was renamed: crates, files, types and functions. A line `OLD NEW
PLACE..` holds in the files and folders whose paths have one of these places, as `iv_lex` or `iv_exec_waves/src`, and before a
line without places. A line with one word alone is the path of a file that was taken away because no other file used it;
it is taken out of the tree of the commit too. The tree of the commit is laid out in a folder of its own, each old word is replaced there by its
new one, in code, in paths and where comments and pages name it between backticks, and the files are laid out anew. Where what a crate's digest is made of is then the same as in this checkout, and the digest
held at the commit, its edits were refused over these sources but for the names, and the digest is written anew. The
last line is `N carried, N stale`; the edits of a stale crate have to be tried."""
import os
import re
import subprocess
import sys
import tempfile

ROOT = os.path.dirname(os.path.dirname(os.path.realpath(__file__)))
sys.path.insert(0, os.path.join(ROOT, "tests"))
import edits

# The endings of the files that are renamed and whose texts are, and DIGESTS. What a program reads or prints stays.
RENAMED = {".rt", ".antt", ".edit", ".md", ".py", ".txt"}


def run(words, folder):
    return subprocess.run(words, cwd=folder, check=True, capture_output=True).stdout


def names_of(path):
    """The renamings: the old word, the new one and the places where it was renamed; everywhere where there are none."""
    with open(path, encoding="utf-8") as lines:
        return [(words[0], words[1], words[2:]) for words in map(str.split, lines) if len(words) > 1]


def taken_away(path):
    """The files that were taken away."""
    with open(path, encoding="utf-8") as lines:
        return [words[0] for words in map(str.split, lines) if len(words) == 1]


def names_at(names, path):
    """The new word of each old one in a file or folder."""
    everywhere = {old: new for old, new, places in names if not places}
    return {**everywhere, **{old: new for old, new, places in names if any(f"/{place}/" in f"/{path}/" for place in places)}}


def renamed(text, names):
    """A text with new words in place of old ones; a word has letters, digits and underscores."""
    return re.sub(r"\w+", lambda word: names.get(word[0], word[0]), text)


def prose_renamed(text, names):
    """A text in which words with an underscore are renamed, and others between backticks."""
    parts = text.split("`")
    plain = {old: new for old, new in names.items() if "_" in old}
    return "`".join(renamed(part, names if place % 2 else plain) for place, part in enumerate(parts))


def file_renamed(text, suffix, names):
    """The text of a file with new words; in pages, scripts of Python and lines that hold a comment, those that are names."""
    if suffix in (".md", ".py"):
        return prose_renamed(text, names)
    mark = edits.COMMENTS.get(suffix)
    lines = text.split("\n")
    return "\n".join(prose_renamed(line, names) if mark and line.lstrip().startswith(mark) else renamed(line, names) for line in lines)


def rename_tree(root, names):
    """Replaces the words in the texts and in the paths of a tree, files before the folders that they are in."""
    for place, _, files in os.walk(root, topdown=False):
        for file in files:
            path = os.path.join(place, file)
            at = names_at(names, os.path.relpath(path, root))
            suffix = os.path.splitext(file)[1]
            if suffix not in RENAMED and file != "DIGESTS":
                continue
            with open(path, encoding="utf-8", newline="") as source:
                text = source.read()
            new = os.path.join(place, renamed(file, at))
            os.rename(path, new)
            with open(new, "w", encoding="utf-8", newline="") as target:
                target.write(file_renamed(text, suffix, at))
        if place != root:
            at = names_at(names, os.path.relpath(place, root))
            os.rename(place, os.path.join(os.path.dirname(place), renamed(os.path.basename(place), at)))


def lay_out(root):
    """Lays out the files of each crate: names stand in another order where they are others."""
    crates = os.path.join(root, "crates")
    for crate in sorted(os.listdir(crates)):
        subprocess.run(["rt", "fmt"], cwd=os.path.join(crates, crate), check=True, capture_output=True)


def digests_in(root):
    """The digests that hold in a tree: those written there that are those of its sources."""
    script = os.path.join(root, "tests", "edits.py")
    code = f"import sys; sys.path.insert(0, {os.path.dirname(script)!r}); import edits\nfor crate, known in edits.digests().items():\n    print(crate, int(known == edits.digest_of(crate)), edits.digest_of(crate))"
    return {crate: (held == "1", digest) for crate, held, digest in (line.split() for line in run([sys.executable, "-c", code], root).decode().splitlines())}


def main():
    if len(sys.argv) != 3:
        raise SystemExit(__doc__)
    names = names_of(sys.argv[2])
    with tempfile.TemporaryDirectory(prefix="carry-") as root:
        archive = run(["git", "archive", sys.argv[1]], ROOT)
        subprocess.run(["tar", "-x"], cwd=root, input=archive, check=True)
        held = {renamed(crate, names_at(names, crate)) for crate, (holds, _) in digests_in(root).items() if holds}
        for gone in taken_away(sys.argv[2]):
            os.remove(os.path.join(root, gone))
        rename_tree(root, names)
        lay_out(root)
        before = {crate: digest for crate, (_, digest) in digests_in(root).items()}
    crates = sorted(os.listdir(os.path.join(ROOT, "tests", "edits")))
    crates = [crate for crate in crates if os.path.isdir(os.path.join(ROOT, "tests", "edits", crate))]
    carried = [crate for crate in crates if crate in held and before.get(crate) == edits.digest_of(crate)]
    edits.remember(carried)
    for crate in crates:
        if crate not in carried:
            print(f"{crate}: its edits have to be tried")
    print(f"{len(carried)} carried, {len(crates) - len(carried)} stale")
    return 0


if __name__ == "__main__":
    sys.exit(main())
