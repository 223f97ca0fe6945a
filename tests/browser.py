#!/usr/bin/env python3
"""Tries the page in Chromium: every script of the tests and examples through its engine, what the page does (browser_page.py and
the other files of tests beside it), how fast it starts and how much it weighs.

  tests/browser.py --library FOLDER              FOLDER has sqlkeep.html, as `./build --page` leaves it in out/
  tests/browser.py --library FOLDER --only WORD  the tests of the page alone that have this word in their names
  tests/browser.py --library FOLDER --pictures   makes the pictures of docs/page anew

It wants chromium and chromedriver. The last line is `N passed, N failed, N skipped`."""
import argparse
import base64
import gzip
import os
import shutil
import struct
import subprocess
import sys
import tempfile
import zlib
from pathlib import Path

HERE = Path(__file__).resolve().parent
ROOT = HERE.parent
sys.dont_write_bytecode = True
sys.path[:0] = [str(HERE), str(ROOT / "page")]
import browser_blocks  # noqa: F401
import browser_lessons  # noqa: F401
import browser_pictures  # noqa: F401
import browser_scripts
import bundle
import documents
import javascript
import run
from browser_driver import Browser, Fault, PACKAGES, is_here

# Each file of tests adds its own to one list.
TESTS = browser_scripts.TESTS
START_MS, COMPRESSED = 300, 400_000
PICTURES = ROOT / "docs" / "page"
MOST_BYTES = 60_000
# The section of exports, that of code, and a body that stops at once: no locals, unreachable, end.
EXPORTS, CODE, STOPS = 7, 10, b"\x00\x00\x0b"

# A worker of its own that answers calls, as the page has one.
HARNESS = """
    const text = (id) => document.getElementById(id).textContent;
    const characters = atob(text('engine')), bytes = Uint8Array.from(characters, (each) => each.charCodeAt(0));
    const plain = await new Response(new Blob([bytes]).stream().pipeThrough(new DecompressionStream('gzip'))).arrayBuffer();
    const worker = new Worker(URL.createObjectURL(new Blob([text('worker')], { type: 'text/javascript' })));
    window.ask = (call, words) => new Promise((resolve, reject) => {
        const answers = [];
        worker.onerror = (event) => reject(event.message);
        worker.onmessage = ({ data }) => data.isDone ? resolve({ ...data, answers: answers.flat() }) : answers.push(data.answers);
        worker.postMessage({ id: 0, call, ...words });
    });
    await ask('begin', { module: await WebAssembly.compile(plain) });
    window.decoded = (base64) => Uint8Array.from(atob(base64), (each) => each.charCodeAt(0));
"""
RUN = "const found = await ask('transcript', { script: decoded(words[0]), options: words[1] }); return found.error ? { status: found.error.status ?? found.error.message } : { transcript: found.transcript };"
# A script step by step: the lines of its answers, and the rows of its tables at the end, which have no number where the accounts told others.
STEPS = """
    const script = new TextDecoder('utf-8', { ignoreBOM: true }).decode(decoded(words[0])), { count, fault, whole } = await ask('load', { script, limits: {} });
    const { answers } = await ask('run', { upTo: count });
    const detail = count > 0 ? (await ask('view', { number: count })).detail : { tables: [] };
    return { count, isFaulty: fault !== null, whole, lines: answers.map((answer) => answer.line), unknown: detail.tables.filter((table) => table.rows.some((row) => row.row === null)).map((table) => table.name) };
"""


class Page:
    """The page in a browser."""

    def __init__(self, browser, file, trapping):
        self.browser, self.file, self.trapping, self.notes = browser, file, trapping, []

    def note(self, text):
        self.notes.append(text)

    def open(self, address="", file=None):
        self.browser.open((file or self.file).as_uri() + address)
        self.ready()

    def reload(self):
        self.browser.reload()
        self.ready()

    def ready(self):
        self.browser.wait(lambda: self.browser.script("return document.documentElement.dataset.ready"), "the page")
        self.idle()

    def idle(self):
        self.browser.wait(lambda: self.browser.script("return document.body.getAttribute('aria-busy') !== 'true'"), "the end of the run", 240)

    def click(self, selector):
        self.browser.click(selector)
        self.idle()

    def press(self, *names):
        self.browser.press(*names)
        self.idle()

    def put(self, script):
        """Opens the page and puts a script into the editor, as if it were pasted."""
        self.open()
        self.browser.script("const area = document.getElementById('script'); area.focus(); area.value = arguments[0]; area.dispatchEvent(new InputEvent('input'))", script)
        # A long script is coloured a moment later.
        self.browser.promise("await new Promise((resolve) => setTimeout(resolve, 300)); return null")

    def type(self, script):
        self.browser.script("document.getElementById('script').select()")
        self.browser.send("#script", script)

    def run_script(self, script):
        self.put(script)
        self.click("#run")

    def fill(self, selector, value):
        """Types a value into a field and leaves it."""
        self.browser.script("const field = document.querySelector(arguments[0]); field.value = arguments[1]; field.dispatchEvent(new Event('change'))", selector, value)
        self.idle()

    def choose_example(self, name):
        self.browser.script("const list = document.getElementById('example'); list.value = arguments[0]; list.dispatchEvent(new Event('change'))", name)
        self.idle()

    def texts(self, selector):
        return self.browser.script("return [...document.querySelectorAll(arguments[0])].map((each) => each.textContent)", selector)

    def text(self, selector):
        return self.texts(selector)[0]

    def joined(self, selector):
        return "".join(self.texts(selector))

    def count(self, selector):
        return self.browser.script("return document.querySelectorAll(arguments[0]).length", selector)

    def value(self, selector):
        return self.browser.script("return document.querySelector(arguments[0]).value", selector)

    def attribute(self, selector, name):
        return self.browser.script("return document.querySelector(arguments[0]).getAttribute(arguments[1])", selector, name)

    def lines(self):
        """The lines of all answers, those that the list doesn't show too."""
        self.browser.script("const list = document.getElementById('answers'); list.style.height = '2000px'")
        self.browser.promise("await new Promise((resolve) => requestAnimationFrame(() => setTimeout(resolve, 30))); return null")
        found = self.texts(".answer .said")
        self.browser.script("document.getElementById('answers').style.height = ''")
        return found

    def cells(self, inside):
        return self.browser.script("return [...document.querySelectorAll(arguments[0] + ' .cells')].map((row) => [...row.children].map((cell) => cell.textContent))", inside)

    def rows(self, table):
        return self.cells(f"#rows [aria-label=\"Table {table}\"]")

    def titles(self):
        return self.texts("#picture rect title")

    def shapes(self):
        """The texts of the picture with their places; of equal ones the first."""
        found = self.browser.script("return [...document.querySelectorAll('#picture svg text')].map((text) => [text.textContent, text.getBoundingClientRect().left, text.getBoundingClientRect().top])")
        return {text: (left, top) for text, left, top in reversed(found)}

    def colour(self, name):
        found = self.browser.script("const probe = document.createElement('i'); probe.style.color = `var(--${arguments[0]})`; document.body.append(probe); const colour = getComputedStyle(probe).color; probe.remove(); return colour", name)
        return [int(part) for part in found[4:-1].split(",")]

    def downloaded(self, name):
        file = Path(self.browser.folder, name)
        self.browser.wait(file.exists, name)
        text = file.read_text("utf-8")
        file.unlink()
        return text

    def upload(self, name, content):
        file = Path(self.browser.folder, name)
        file.write_bytes(content)
        self.browser.send("#file", str(file))
        self.browser.wait(lambda: self.browser.script("return document.getElementById('file').value === ''"), "the file")
        self.browser.promise("await new Promise((resolve) => setTimeout(resolve, 200)); return null")
        self.idle()


def number_at(code, at):
    """A number of a module, and the place after it."""
    value = shift = 0
    while True:
        byte = code[at]
        value |= (byte & 127) << shift
        at, shift = at + 1, shift + 7
        if byte < 128:
            return value, at


def written_number(value):
    return bytes([value & 127 | 128]) + written_number(value >> 7) if value > 127 else bytes([value])


def sections(code):
    at = 8
    while at < len(code):
        size, start = number_at(code, at + 1)
        yield code[at], code[start : start + size]
        at = start + size


def exported(content, name):
    """The number of the function that a module exports by this name."""
    count, at = number_at(content, 0)
    for _ in range(count):
        length, at = number_at(content, at)
        found, at = content[at : at + length], at + length
        number, at = number_at(content, at + 1)
        if found == name:
            return number
    raise SystemExit(f"the module has no {name}")


def with_trap(code, name):
    """The module with a function that stops at once: what a fault of the compiler would be like."""
    parts = dict(sections(code))
    wanted = exported(parts[EXPORTS], name)
    count, at = number_at(parts[CODE], 0)
    body = written_number(count)
    for number in range(count):
        size, start = number_at(parts[CODE], at)
        own = STOPS if number == wanted else parts[CODE][start : start + size]
        body += written_number(len(own)) + own
        at = start + size
    return code[:8] + b"".join(bytes([kind]) + written_number(len(content)) + content for kind, content in ((kind, body if kind == CODE else content) for kind, content in sections(code)))


def scripts_through(page):
    """Runs each script of the tests through the engine of the page; what failed, and how many passed."""
    page.open()
    page.browser.promise(HARNESS)
    passed, failed = 0, []
    for name, script, options, want in javascript.cases():
        found = page.browser.promise(RUN, base64.b64encode(script).decode(), options)
        why = run.compare(name, want, javascript.said(found))
        passed, failed = passed + (not why), failed + [text[:300] for text in why[:1]]
    return passed, failed


def scripts_by_steps(page):
    """Runs each script statement by statement, as the page does: its lines are those of the transcript, and its rows those of the accounts."""
    page.open()
    page.browser.promise(HARNESS)
    passed, failed = 0, []
    for name, script, options, want in javascript.cases():
        if options or len(script) > 60_000 or want.startswith(b"sqlkeep:"):
            continue
        found = page.browser.promise(STEPS, base64.b64encode(script).decode())
        wanted = statement_lines(want.decode(), found["count"])
        is_split = found["whole"] >= found["count"] if found["isFaulty"] else found["whole"] == found["count"]
        is_good = found["lines"] == wanted and is_split and found["unknown"] == []
        passed, failed = passed + is_good, failed + ([] if is_good else [f"{name} by steps: {found['unknown']} {is_split} {[pair for pair in zip(found['lines'], wanted) if pair[0] != pair[1]][:1]}"])
    return passed, failed


def statement_lines(transcript, count):
    """The lines of so many statements; a text between quotes may go on in the next line."""
    found, number = [], 1
    for line in transcript.split("\n"):
        if number <= count and line.startswith((f"{number} ok", f"{number} rows ", f"{number} refused ")):
            found, number = [*found, line], number + 1
        elif found and found[-1].count("'") % 2 == 1:
            found[-1] += "\n" + line
    return found


def weight(page):
    size = len(gzip.compress(page.file.read_bytes(), 9))
    page.note(f"the page weighs {page.file.stat().st_size:,} bytes, {size:,} compressed")
    assert size <= COMPRESSED, size


def start(page):
    """The best of some starts, since other work may hold up each of them."""
    times = []
    while len(times) < 5 or (min(times) > START_MS and len(times) < 20):
        page.open()
        times.append(int(page.browser.script("return document.documentElement.dataset.ready")))
    page.note(f"starts in {', '.join(map(str, times))} ms, up to the answers and the picture of the first example")
    assert min(times) <= START_MS, times


def tried(function, page):
    """Whether a test passes. Whatever the page wrote to the console as an error fails it."""
    name = function.__name__.replace("_", " ")
    try:
        page.browser.complaints()
        function(page)
        complaints = [text for text in page.browser.complaints() if "example.org" not in text and "Content Security Policy" not in text]
        assert complaints == [], complaints[:1]
    except (AssertionError, Fault, IndexError, KeyError, TypeError) as why:
        print(f"FAILED {name}: {type(why).__name__ if not str(why) else str(why)[:600]}")
        return False
    finally:
        page.browser.size(1280, 900)
        page.browser.scheme("light")
    return True


def settled(page):
    page.browser.promise("await new Promise((resolve) => setTimeout(resolve, 200)); return null")


def page_shot(page, name, width):
    """A picture of the whole page with an example."""
    page.browser.size(width, 900)
    page.open(f"#e={name}")
    page.browser.size(width, page.browser.script("return document.documentElement.scrollHeight"))
    settled(page)
    return page.browser.picture()


def account_shot(page, name, scheme):
    """A picture of the account of an example's statement, in two pixels for one."""
    page.browser.size(1280, 900, 2)
    page.browser.scheme(scheme)
    page.open(f"#e={name}")
    settled(page)
    found = page.browser.picture("#picture svg")
    page.browser.scheme("light")
    return found


# The colours of areas and of texts, and the pairs of which a picture needs the middle too, for the edges of letters and lines.
COLOURS = ["ground", "panel", "text", "muted", "line", "edge", "accent", "chosen", "good", "good-ground", "bad", "bad-ground", "change", "change-ground", "keyword", "literal-text", "number"]
MIDDLES = [("text", "ground"), ("muted", "ground"), ("line", "ground"), ("accent", "ground"), ("keyword", "ground"), ("literal-text", "ground"), ("number", "ground"), ("text", "chosen"), ("good", "good-ground"),
           ("bad", "bad-ground"), ("change", "change-ground")]


def palette(page, pairs):
    """A picture of the page's own colours and of the middles of these pairs, one pixel for each."""
    middles = [[(one + other) // 2 for one, other in zip(page.colour(first), page.colour(second))] for first, second in pairs]
    dots = bytes(part for colour in [page.colour(name) for name in COLOURS] + middles for part in colour)

    def chunk(kind, content):
        return struct.pack(">I", len(content)) + kind + content + struct.pack(">I", zlib.crc32(kind + content))

    head = struct.pack(">IIBBBBB", len(dots) // 3, 1, 8, 2, 0, 0, 0)
    return b"\x89PNG\r\n\x1a\n" + chunk(b"IHDR", head) + chunk(b"IDAT", zlib.compress(b"\0" + dots)) + chunk(b"IEND", b"")


def made_small(page, file):
    """Takes colours away until the picture has few enough bytes: 64 or 48 of its own, or else those of the page alone. How it was done."""
    whole = file.read_bytes()
    palettes = [Path(page.browser.folder, f"palette-{count}.png") for count in (len(MIDDLES), 3, 1)]
    for own, count in zip(palettes, (len(MIDDLES), 3, 1)):
        own.write_bytes(palette(page, MIDDLES[:count]))
    for how in [["64"], ["48"], *(["--map", str(own)] for own in palettes)]:
        done = subprocess.run(["pngquant", "--nofs", "--strip", "--speed", "1", *how, "-"], input=whole, capture_output=True, check=True)
        file.write_bytes(done.stdout)
        if len(done.stdout) <= MOST_BYTES * 12 // 10:
            subprocess.run(["zopflipng", "-y", str(file), str(file)], stdout=subprocess.DEVNULL, check=True)
        if file.stat().st_size <= MOST_BYTES:
            return f"{how[0]} colours" if len(how) == 1 else Path(how[1]).stem
    raise SystemExit(f"{file} has {file.stat().st_size:,} bytes with few colours")


def lesson_shot(page, name):
    """A picture of the page with an exercise, checked, up to where the answers begin."""
    page.browser.size(1280, 640)
    page.open(f"#{name}")
    page.click("#tour .check")
    settled(page)
    return page.browser.picture()


# The pictures that README.md and docs/library/page.md show.
SHOTS = {
    "authors": lambda page: page_shot(page, "authors", 1280),
    "lesson": lambda page: lesson_shot(page, "teams"),
    "first-account": lambda page: account_shot(page, "first", "light"),
    "cascades-account": lambda page: account_shot(page, "cascades", "light"),
}


def pictures(page):
    """Makes the pictures of docs/page; the status."""
    PICTURES.mkdir(exist_ok=True)
    for name, make in SHOTS.items():
        file = PICTURES / f"{name}.png"
        file.write_bytes(make(page))
        how = made_small(page, file)
        print(f"{file.relative_to(ROOT)}: {file.stat().st_size:,} bytes, {how}")
    return 0


def all_tests(page, only):
    page.browser.size(1280, 900)
    chosen = [each for each in [weight, start, *TESTS] if only is None or only in each.__name__]
    results = [tried(function, page) for function in chosen]
    passed, failed = sum(results), len(results) - sum(results)
    for through in [] if only is not None else [scripts_through, scripts_by_steps]:
        good, bad = through(page)
        print("\n".join(f"FAILED {why}" for why in bad), end="\n" if bad else "")
        passed, failed = passed + good, failed + len(bad)
        page.note(f"{through.__name__.replace('_', ' ')}: {good} passed, {len(bad)} failed")
    print("\n".join(page.notes))
    print(f"{passed} passed, {failed} failed")
    return int(failed > 0)


def main():
    parser = argparse.ArgumentParser()
    parser.add_argument("--library", required=True)
    parser.add_argument("--only")
    parser.add_argument("--pictures", action="store_true")
    words = parser.parse_args()
    file = Path(os.path.abspath(words.library), "sqlkeep.html")
    if words.pictures and (shutil.which("pngquant") is None or shutil.which("zopflipng") is None):
        print("what makes pictures small isn't here: apt-get install pngquant zopfli")
        return 2
    if not is_here() or not file.exists():
        print(f"the page in a browser: skipped; {PACKAGES} binaryen nodejs, then ./build --page\n0 passed, 0 failed, 1 skipped")
        return 0
    browser = Browser()
    with tempfile.TemporaryDirectory() as folder:
        try:
            trapping = Path(folder, "trapping.html")
            trapping.write_text(bundle.page(with_trap(file.with_name("sqlkeep.wasm").read_bytes(), b"sqlkeep_execute"), True), "utf-8")
            page = Page(browser, file, trapping)
            print(f"Chromium {browser.version}")
            return pictures(page) if words.pictures else all_tests(page, words.only)
        finally:
            browser.close()


if __name__ == "__main__":
    sys.exit(main())
