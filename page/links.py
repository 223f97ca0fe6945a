"""Puts below each script of the pages of the language a link that opens it in the page.

    links.py             writes the links; those of before are taken away first
    links.py --check     tells the pages whose links aren't as this would write them; the status is 1 if there are some
"""
import re
import sys

import documents

OLD = re.compile(r"\n?^\[in the page\]\(\.\./\.\./out/sqlkeep\.html#[\w-]+\)\n", re.M)


def linked(file):
    """The text of a page with its links."""
    file_text = OLD.sub("", file.read_text("utf-8"))
    parts, at = [], 0
    scripts = documents.scripts_of_text(file.stem, file_text)
    for script in scripts:
        parts.append(file_text[at : script["end"]] + f"\n[in the page](../../out/sqlkeep.html#{script['name']})\n")
        at = script["end"]
    return "".join(parts) + file_text[at:]


def main(words):
    stale = [file for file, _, _ in documents.pages() if linked(file) != file.read_text("utf-8")]
    for file in stale:
        print(f"{file.relative_to(documents.ROOT)}: {'the links are not as links.py writes them' if '--check' in words else 'linked'}")
        if "--check" not in words:
            file.write_text(linked(file), "utf-8")
    return int("--check" in words and bool(stale))


if __name__ == "__main__":
    sys.exit(main(sys.argv[1:]))
