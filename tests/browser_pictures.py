"""Pictures of accounts that are large or refused, the page on paper and on a phone. Each function of TESTS, which has those of
browser_page.py too, is one test over a Page (browser.py)."""
from browser_page import CROSSINGS, TESTS, equal, test

__all__ = ["TESTS"]

# A tree of 63 rows in one table, deleted at its root: six waves of 1, 2, 4, 8, 16 and 32 rows.
TREE = ("CREATE TABLE t (id INT PRIMARY KEY, up INT CONSTRAINT above REFERENCES t ON DELETE CASCADE);\n"
        "INSERT INTO t VALUES (1, NULL)" + "".join(f", ({n}, {n // 2})" for n in range(2, 64)) + ";\nDELETE FROM t WHERE id = 1;\n")
# A row with 1,000 rows that refer to it.
THOUSAND = ("CREATE TABLE p (id INT PRIMARY KEY);\nCREATE TABLE c (id INT PRIMARY KEY, p INT REFERENCES p ON DELETE CASCADE);\nINSERT INTO p VALUES (1);\n"
            "INSERT INTO c VALUES (1, 1)" + "".join(f", ({n}, 1)" for n in range(2, 1001)) + ";\nDELETE FROM p WHERE id = 1;\n")


def height(page):
    return page.browser.script("return document.querySelector('.sheet-of-picture').offsetHeight")


@test
def a_signal_is_told_in_the_frame_of_its_trigger(page):
    page.open("#guards&n=9")
    frame, signal, head = page.browser.script("""
        const texts = [...document.querySelectorAll('#picture svg text')], at = (element) => element.getBoundingClientRect().toJSON(), text = (words) => at(texts.find((each) => each.textContent === words));
        return [at(document.querySelector('#picture .refusal')), text("SIGNAL 'overdrawn'"), text('trigger OVERDRAWN')]""")
    for inner in (signal, head):
        assert frame["left"] < inner["left"] and inner["right"] < frame["right"] and frame["top"] < inner["top"] and inner["bottom"] < frame["bottom"], (frame, inner)
    equal([page.count("#picture .refusal"), page.count("#picture .trigger")], [1, 2])


@test
def the_signal_of_an_inner_trigger_has_its_own_frame(page):
    page.run_script("CREATE TABLE a (x INT);\nCREATE TABLE b (x INT);\nCREATE TRIGGER outer_one AFTER INSERT ON a FOR EACH ROW INSERT INTO b VALUES (1);\n"
                    "CREATE TRIGGER inner_one BEFORE INSERT ON b SIGNAL 'not here';\nINSERT INTO a VALUES (1);")
    words = page.texts("#picture svg text")
    equal([page.count("#picture .refusal"), page.count("#picture .trigger"), words.count("SIGNAL 'not here'")], [1, 1, 1])


@test
def the_new_row_of_a_key_is_red_and_the_old_one_grey(page):
    page.open("#keys&n=6")
    found = page.browser.script("return [...document.querySelectorAll('#picture .row.violating, #picture .row.plain')].map((box) => [box.getAttribute('class'), box.querySelector('title').textContent])")
    equal(found, [["row violating", "BOOK row 4 (4, 'Faust', 1, 2)"], ["row plain", "BOOK row 2 (2, 'Ulysses', 1, 2)"]])
    equal(page.texts("#picture .row.hit title"), ["insert BOOK row 4 (4, 'Faust', 1, 2)"])


@test
def each_wave_has_an_arrow_from_each_row(page):
    """Each of the 31 rows with children has a pill; each of the 62 children has an arrow."""
    page.run_script(TREE)
    page.click("#answer-3")
    equal([page.count("#picture .tip"), page.browser.script(CROSSINGS)], [62, []])
    words = page.texts("#picture svg text")
    equal([word.strip() for word in words if word.startswith("row ")], [f"row {n}" for n in range(1, 32)])
    equal([words.count("ABOVE"), words.count("CASCADE"), height(page) < 2000], [31, 31, True])


@test
def a_large_picture_is_folded_and_unfolds(page):
    for script, number, hidden, rows in ((TREE, 3, 0, 63), (THOUSAND, 5, 977, 1001)):
        page.run_script(script)
        page.click(f"#answer-{number}")
        words = page.texts("#picture svg text")
        assert height(page) < 2000, height(page)
        if hidden:
            equal([words.count(f"and {hidden} more"), page.browser.script(CROSSINGS)], [1, []])
            equal(page.text("#unfold"), "Show all rows")
            page.click("#unfold")
            page.browser.script("document.getElementById('picture').scrollTop = 1e6")
            page.browser.wait(lambda: f"delete row {rows}" in page.texts("#picture svg text"), "the last row")
    page.browser.size(400, 800)
    page.run_script(TREE)
    page.click("#answer-3")
    assert height(page) < 2000, height(page)


@test
def savepoints_that_stand_are_told(page):
    page.run_script("SAVEPOINT a;\nSTART TRANSACTION;\nSAVEPOINT a;\nSAVEPOINT b;\nROLLBACK TO SAVEPOINT a;\nCOMMIT;")
    found = []
    for number in (2, 3, 4, 5, 6):
        page.click(f"#answer-{number}")
        found.append(page.texts("#said .note")[-1])
    equal([each.replace("0 row changes, 0 look-ups of keys. ", "") for each in found], [
        "A transaction is open.", "A transaction is open; the savepoint A stands.", "A transaction is open; savepoints A, B stand.", "A transaction is open; the savepoint A stands.", "No transaction is open."])


@test
def a_button_explains_the_words(page):
    page.open()
    page.click("#help")
    equal(page.texts("#legend dt"), ["row 3", "Wave", "Arrow", "Dotted frame", "Red frame", "+ ± −", "Pending", "Mode", "Look-up", "Keys"])
    for link in page.browser.script("return [...document.querySelectorAll('#legend a')].map((each) => each.href)"):
        equal([link, page.browser.script("return arguments[0].startsWith('file://') && arguments[0].endsWith('.md')", link)], [link, True])
        assert (page.file.parent / link[7:]).resolve().exists() or "/docs/" in link, link
    page.press("Enter")
    page.browser.wait(lambda: not page.browser.script("return document.getElementById('legend').open"), "the end of the dialog")


@test
def paper_has_the_whole_script_and_no_buttons(page):
    script = "CREATE TABLE t (a INT);\n" + "".join(f"INSERT INTO t VALUES ({n});\n" for n in range(1, 1700))
    for name in ("cascades", None):
        if name:
            page.open(f"#{name}")
        else:
            page.run_script(script)
        page.browser.command("Emulation.setEmulatedMedia", media="print")
        try:
            page.browser.script("dispatchEvent(new Event('beforeprint'))")
            lines, answers, statements = page.browser.script("return [document.querySelectorAll('.lines .line').length, document.querySelectorAll('.answer').length, document.getElementById('script').value.split('\\n').length]")
            equal([name, lines, answers], [name, statements, 25 if name else 1700])
            hidden = page.browser.script("return ['run', 'share', 'transcript', 'depth'].filter((id) => document.getElementById(id).getClientRects().length > 0)")
            equal(hidden, [])
            sizes = page.browser.script("return ['editor', 'answers', 'picture'].map((id) => document.getElementById(id)).map((box) => [box.scrollHeight <= box.clientHeight + 1, box.scrollWidth <= box.clientWidth + 1])")
            equal([name, sizes], [name, [[True, True]] * 3])
        finally:
            page.browser.command("Emulation.setEmulatedMedia", media="")
            page.browser.script("dispatchEvent(new Event('afterprint'))")
    assert page.count(".answer") < 100, page.count(".answer")


@test
def paper_is_white(page):
    page.browser.scheme("dark")
    page.open()
    page.browser.command("Emulation.setEmulatedMedia", media="print", features=[{"name": "prefers-color-scheme", "value": "dark"}])
    try:
        equal(page.colour("ground"), [255, 255, 255])
    finally:
        page.browser.command("Emulation.setEmulatedMedia", media="", features=[])


@test
def a_refused_commit_marks_the_new_row_of_a_key(page):
    page.run_script("CREATE TABLE t (a INT, CONSTRAINT one UNIQUE (a) INITIALLY DEFERRED);\nINSERT INTO t VALUES (1);\nCOMMIT;\nINSERT INTO t VALUES (1);\nCOMMIT;")
    equal(page.text("#statement-head"), "Statement 5 of 5")
    equal(page.browser.script("return [...document.querySelectorAll('#picture .row.violating, #picture .row.plain')].map((box) => [box.getAttribute('class'), box.querySelector('title').textContent])"),
          [["row violating", "T row 2 (1)"], ["row plain", "T row 1 (1)"]])


@test
def a_phone_keeps_run_and_step_in_sight(page):
    page.browser.size(400, 800)
    page.open("#cascades&n=10")
    page.click("#step")
    places = page.browser.script("return ['run', 'step', 'account-head'].map((id) => document.getElementById(id).getBoundingClientRect()).map((box) => box.top >= 0 && box.bottom <= innerHeight)")
    equal([page.text("#statement-head"), places], ["Statement 11 of 25", [True, True, True]])
    page.browser.size(340, 800)
    equal(page.browser.script("return [...document.querySelectorAll('.runs button')].map((each) => each.getBoundingClientRect()).filter((box) => box.left < 0 || box.right > innerWidth || box.bottom > innerHeight).length"), 0)
