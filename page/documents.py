"""The scripts that the page opens: the examples of the tour with their questions, and those of the pages of the language."""
import re
import shlex
from pathlib import Path

ROOT = Path(__file__).resolve().parent.parent
LANGUAGE = ROOT / "docs" / "language"
LINK = r"\[([^\]]*)\]\([^)]*\)"
# A heading, or a script with the words of the program and the transcript that may follow.
PIECE = re.compile(r"^#+ (?P<heading>[^\n]+)$|^```sql(?P<words>[^\n]*)\n(?P<script>.*?)^```\n(?:\n*^```text\n(?P<transcript>.*?)^```\n)?", re.M | re.S)


def plain(text):
    """A paragraph without links: those that only say where to read on are left out."""
    text = re.sub(r"(?<=[.)])(,?\s+" + LINK + r")+\s*$", "", text.strip())
    text = re.sub(r"\s*\(" + LINK + r"\)", "", text)
    return re.sub(r"\s+", " ", re.sub(LINK, r"\1", text)).strip()


def note(sign, text):
    """A note of a lesson: lines of comments with a sign (page/parts/lesson.mjs)."""
    return "".join(f"--{sign} {line}".rstrip() + "\n" for line in text.split("\n"))


def tour():
    """The examples of the tour as lessons with their questions, in its order, and the one that isn't in it."""
    text = (LANGUAGE / "tour.md").read_text("utf-8")
    body, answers = text.split("\n## Answers\n")
    said = [plain(answer) for answer in re.split(r"^\d+\. ", answers, flags=re.M)[1:]]
    parts = re.findall(r"^## (\d+) \[(\w+)\.sql\]\([^)]*\): ([^\n]+)\n(.*?)\n\*Question \d+\.\*(.*?)(?=\n## |\Z)", body, re.M | re.S)
    lessons = [(name, f"{name.capitalize()}: {title}", note("#", f"{title[0].upper()}{title[1:]}\n{plain(words)}") + note("?", plain(asked)) + note("!", said[int(at) - 1])) for at, name, title, words, asked in parts]
    return [{"name": name, "title": title, "lesson": lesson, "script": lesson + (ROOT / "examples" / f"{name}.sql").read_text("utf-8")} for name, title, lesson in [*lessons, ("authors", "Authors: a first script", "")]]


def exercises():
    """The exercises that check themselves, by their headings."""
    files = sorted((ROOT / "examples" / "lessons").glob("*.sql"))
    return [{"name": file.stem, "title": re.search(r"^--# (.+)$", file.read_text("utf-8"), re.M)[1], "script": file.read_text("utf-8")} for file in files]


def limits_of(words):
    """The limits among the words of the program; a script with other words than these and --explain isn't opened by the page."""
    given = [word for word in shlex.split(words) if word != "--explain"]
    return {name[2:]: int(value) for name, value in zip(given[::2], given[1::2])} if all(word in ("--depth", "--changes") for word in given[::2]) else None


def scripts_of_text(name, text):
    """The scripts of a page of the language: their names, the headings that they stand under, and where each ends."""
    heading, found = "", []
    for piece in PIECE.finditer(text):
        if piece["heading"]:
            heading = plain(piece["heading"]).replace("`", "")
            continue
        found.append({"name": f"{name}-{len(found) + 1}", "title": heading, "script": piece["script"], "transcript": piece["transcript"], "limits": limits_of(piece["words"]), "end": piece.end()})
    return [each for each in found if each["limits"] is not None]


def pages():
    """The pages of the language that have scripts, with their headings."""
    files = sorted(LANGUAGE.glob("*.md"))
    found = [(file, re.search(r"^# (.+)$", file.read_text("utf-8"), re.M)[1], scripts_of_text(file.stem, file.read_text("utf-8"))) for file in files]
    return [page for page in found if page[2]]


def groups():
    """What the page offers: a group for the tour, one for the exercises, and one for each page of the language, under their headings."""
    def kept(label, examples):
        return {"label": label, "examples": [{key: each[key] for key in ("name", "title", "script", "limits") if key in each} for each in examples]}

    return [kept("Tour", tour()), kept("Exercises", exercises()), *(kept(title, scripts) for _, title, scripts in pages())]
