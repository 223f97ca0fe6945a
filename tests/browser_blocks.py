"""Blocks of SQL in somebody's own page: examples/page/blocks.html from a server of the test's own. Each function of TESTS, which has those
of browser_page.py too, is one test over a Page (browser.py)."""
import functools
import http.server
import shutil
import tempfile
import threading
from contextlib import contextmanager
from pathlib import Path

from browser_page import ROOT, TESTS, equal, test

__all__ = ["TESTS"]

FILES = ("sqlkeep-element.mjs", "sqlkeep.wasm")
BLOCK = "document.querySelectorAll('sql-keep')[arguments[0]]"


class Handler(http.server.SimpleHTTPRequestHandler):
    extensions_map = {**http.server.SimpleHTTPRequestHandler.extensions_map, ".mjs": "text/javascript", ".wasm": "application/wasm"}

    def do_GET(self):
        if self.path == "/favicon.ico":
            self.send_response(204)
            self.end_headers()
        else:
            super().do_GET()

    def log_message(self, *_):
        """Says nothing."""


@contextmanager
def served(page, text, files=FILES):
    """The address of a folder with a page and the files that it needs."""
    with tempfile.TemporaryDirectory() as folder:
        for name in files:
            shutil.copyfile(page.file.with_name(name), Path(folder, name))
        Path(folder, "index.html").write_text(text, "utf-8")
        server = http.server.ThreadingHTTPServer(("127.0.0.1", 0), functools.partial(Handler, directory=folder))
        thread = threading.Thread(target=server.serve_forever)
        thread.start()
        try:
            yield f"http://127.0.0.1:{server.server_port}/"
        finally:
            page.browser.call("POST", "/url", {"url": "about:blank"})
            server.shutdown()
            server.server_close()
            thread.join()


def opened(page, address):
    page.browser.call("POST", "/url", {"url": address})
    page.browser.wait(lambda: page.browser.script("return [...document.querySelectorAll('sql-keep')].every((each) => each.shadowRoot)"), "the blocks")


def inside(page, at, expression, *words):
    """What an expression gives over the root of a block."""
    return page.browser.script(f"const root = {BLOCK}.shadowRoot; return {expression}", at, *words)


def press(page, at, name):
    page.browser.script(f"[...{BLOCK}.shadowRoot.querySelectorAll('button')].find((each) => each.textContent === arguments[1]).click()", at, name)


def answers(page, at, count):
    lines = lambda: inside(page, at, "[...root.querySelectorAll('.answer .said')].map((each) => each.textContent)")
    page.browser.wait(lambda: len(lines()) == count and inside(page, at, "root.host.getAttribute('aria-busy') !== 'true'"), f"{count} answers of block {at + 1}")
    return lines()


EXAMPLE = ROOT / "examples" / "page" / "blocks.html"


@test
def blocks_run_in_another_page(page):
    with served(page, EXAMPLE.read_text("utf-8")) as address:
        opened(page, address)
        equal(inside(page, 0, "root.querySelectorAll('.answer').length"), 0)
        press(page, 0, "Run")
        equal(answers(page, 0, 3), ["1 ok", "2 ok 2", "3 rows 1"])
        page.browser.wait(lambda: inside(page, 0, "root.querySelectorAll('#said .cells').length === 1"), "the rows")
        equal(inside(page, 0, "[root.querySelector('#said .cells').textContent, root.querySelector('.picture').hidden]"), ["'Ulysses'", True])


@test
def blocks_of_one_database_go_on_with_it(page):
    with served(page, EXAMPLE.read_text("utf-8")) as address:
        opened(page, address)
        page.browser.script(f"{BLOCK}.scrollIntoView()", 1)
        equal(answers(page, 1, 4), ["1 ok", "2 ok", "3 ok 2", "4 ok 3"])
        equal(inside(page, 1, "root.querySelector('textarea').readOnly"), True)
        press(page, 2, "Run")
        equal(answers(page, 2, 2), ["1 ok 1", "2 refused 13 Violation ORDERS_C2 row 6"])
        press(page, 2, "Back")
        page.browser.wait(lambda: inside(page, 2, "root.querySelectorAll('.picture .tip').length === 2"), "the picture of the cascade")
        equal(inside(page, 2, "[root.querySelector('.answer[aria-selected=true] .said').textContent, [...root.querySelectorAll('.chosen')].map((each) => each.textContent).join('')]"), ["1 ok 1", "DELETE FROM customer WHERE id = 1;"])


@test
def the_engine_is_loaded_once_and_late(page):
    with served(page, EXAMPLE.read_text("utf-8").replace(" autorun", "")) as address:
        loaded = "return performance.getEntriesByType('resource').filter((entry) => entry.name.endsWith('.wasm')).length"
        opened(page, address)
        equal(page.browser.script(loaded), 0)
        press(page, 0, "Run")
        answers(page, 0, 3)
        press(page, 2, "Run")
        answers(page, 2, 2)
        equal(page.browser.script(loaded), 1)


@test
def a_block_is_used_by_keys_and_tells_faults(page):
    with served(page, "<!doctype html><meta charset=utf-8><script type=module src=sqlkeep-element.mjs></script><sql-keep>COMMIT;\nSELEKT;</sql-keep>") as address:
        opened(page, address)
        page.browser.script(f"{BLOCK}.shadowRoot.querySelector('textarea').focus()", 0)
        page.browser.press("Control", "Enter")
        equal(answers(page, 0, 2), ["1 ok", "2 fault 8"])
        page.browser.wait(lambda: inside(page, 0, "root.querySelector('#said .why') !== null"), "the fault")
        equal(inside(page, 0, "[root.querySelector('.faulty').textContent, root.querySelector('#said .why').textContent]"), ["SELEKT", "No statement begins at line 2, column 1: SELEKT;"])
        page.browser.press("Alt", "Up")
        page.browser.wait(lambda: inside(page, 0, "root.querySelector('.answer[aria-selected=true]').id") == "answer-1", "the statement before")
        equal(inside(page, 0, "[root.querySelector('.answers').getAttribute('role'), root.querySelector('.bar').getAttribute('role'), root.querySelector('.status').getAttribute('role')]"), ["listbox", "toolbar", "status"])


@test
def an_engine_that_is_not_there_is_told(page):
    with served(page, EXAMPLE.read_text("utf-8").replace(" autorun", ""), FILES[:1]) as address:
        opened(page, address)
        for _ in range(2):
            press(page, 0, "Run")
            page.browser.wait(lambda: inside(page, 0, "root.querySelector('.status').textContent") == f"The engine can't be loaded: {address}sqlkeep.wasm answers 404.", "the reason")
        # The browser tells it, too.
        page.browser.complaints()


@test
def a_slow_block_is_stopped(page):
    slow = "CREATE TABLE t (a INT);\nINSERT INTO t VALUES (1);\n" + "INSERT INTO t SELECT * FROM t;\n" * 14 + "DELETE FROM t WHERE EXISTS (SELECT * FROM t AS x WHERE x.a &gt; t.a);\n"
    with served(page, f"<!doctype html><meta charset=utf-8><script type=module src=sqlkeep-element.mjs></script><sql-keep>{slow}</sql-keep>") as address:
        opened(page, address)
        press(page, 0, "Run")
        page.browser.wait(lambda: inside(page, 0, "root.querySelector('.status').textContent").startswith("Running statement 17"), "the slow statement")
        press(page, 0, "Stop")
        page.browser.wait(lambda: inside(page, 0, "root.querySelector('.status').textContent") == "Stopped. 16 statements executed.", "the end")
        press(page, 0, "Step")
        page.browser.wait(lambda: inside(page, 0, "root.querySelector('.answer[aria-selected=true]')?.id") == "answer-1", "the first statement")
