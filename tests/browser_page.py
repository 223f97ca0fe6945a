"""What the page does, tried in a browser: each function of TESTS is one test over a Page (browser.py)."""
import re
import time
from pathlib import Path

ROOT = Path(__file__).resolve().parent.parent
TESTS = []
LINE_OF_ANSWER = re.compile(r"^\d+ (?:ok|rows|refused|fault)\b.*$", re.M)


# The words of the panes whose letters stand in more than one line.
BROKEN_WORDS = """
    const found = [], texts = document.createTreeWalker(document.body, NodeFilter.SHOW_TEXT, (node) => node.parentElement.closest('.editor, select, script, style, pre') ? NodeFilter.FILTER_REJECT : NodeFilter.FILTER_ACCEPT);
    while (texts.nextNode()) {
        for (const word of texts.currentNode.data.matchAll(/[\\p{L}\\d]+/gu)) {
            const range = document.createRange();
            range.setStart(texts.currentNode, word.index);
            range.setEnd(texts.currentNode, word.index + word[0].length);
            if (new Set([...range.getClientRects()].map((box) => Math.round(box.top))).size > 1) { found.push(word[0]); }
        }
    }
    return found;
"""


def test(function):
    TESTS.append(function)
    return function


def example(name, ending="sql"):
    return (ROOT / "examples" / f"{name}.{ending}").read_text("utf-8")


def equal(found, wanted):
    assert found == wanted, f"{found!r} and not {wanted!r}"


# ---- running


@test
def the_first_example_runs_by_itself(page):
    page.open()
    equal(page.lines(), ["1 ok", "2 ok 1", "3 refused 13 Violation KNOWN row 2", "4 ok 1", "5 rows 2", "6 refused 19 CommitRefused SOLVENT row 2", "7 rows 0", "8 ok 1", "9 ok", "10 rows 1"])
    equal(page.value("#example"), "first")
    equal(page.text("#statement-head"), "Statement 6 of 10")


@test
def every_example_has_its_transcript(page):
    for file in sorted((ROOT / "examples").glob("*.sql")):
        page.open(f"#e={file.stem}")
        wanted = [line for line in LINE_OF_ANSWER.findall(example(file.stem, "out"))]
        equal(page.lines(), wanted)


@test
def run_executes_what_was_typed(page):
    page.open()
    page.type("CREATE TABLE t (a INT);\nINSERT INTO t VALUES (7);\n")
    equal(page.lines(), [])
    equal(page.text("#status"), "The script was changed: run it again.")
    page.click("#run")
    equal(page.lines(), ["1 ok", "2 ok 1"])
    equal(page.rows("T"), [["+ 1", "7"]])


@test
def control_enter_runs(page):
    page.open()
    page.type("COMMIT;")
    page.press("Control", "Enter")
    equal(page.lines(), ["1 ok"])


@test
def an_empty_script_has_no_answer(page):
    page.run_script("  -- nothing\n")
    equal(page.lines(), [])
    assert page.text("#status").startswith("0 statements, 0 refused"), page.text("#status")


@test
def step_executes_one_statement(page):
    page.put("CREATE TABLE t (a INT); INSERT INTO t VALUES (1); INSERT INTO t VALUES (2);")
    found = []
    for _ in range(4):
        page.click("#step")
        found.append(len(page.lines()))
    equal(found, [1, 2, 3, 3])
    equal(page.text("#statement-head"), "Statement 3 of 3")


@test
def alt_and_arrows_step_on_and_back(page):
    page.put("CREATE TABLE t (a INT); INSERT INTO t VALUES (1);")
    page.press("Alt", "Down")
    page.press("Alt", "Down")
    equal([page.text("#statement-head"), page.rows("T")], ["Statement 2 of 2", [["+ 1", "1"]]])
    page.press("Alt", "Up")
    equal([page.text("#statement-head"), page.rows("T")], ["Statement 1 of 2", []])
    equal(page.browser.script("return document.getElementById('back').disabled"), True)


@test
def back_shows_the_rows_of_then(page):
    page.run_script("CREATE TABLE t (a INT); INSERT INTO t VALUES (1); UPDATE t SET a = 2; DELETE FROM t;")
    found = {}
    for number in (4, 3, 2):
        found[number] = page.rows("T")
        page.click("#back")
    equal(found, {4: [["− 1", "2"]], 3: [["± 1", "1 → 2"]], 2: [["+ 1", "1"]]})


@test
def the_open_transaction_at_the_end_is_told(page):
    page.run_script("CREATE TABLE t (a INT); INSERT INTO t VALUES (1);")
    assert page.text("#status").endswith("The transaction that is open at the end is rolled back."), page.text("#status")


# ---- choosing


@test
def arrows_choose_in_the_list_of_answers(page):
    page.open()
    page.browser.script("document.getElementById('answers').focus()")
    page.press("Home")
    equal(page.text("#statement-head"), "Statement 1 of 10")
    page.press("Down")
    equal(page.text("#statement-head"), "Statement 2 of 10")
    page.press("End")
    equal(page.text("#statement-head"), "Statement 10 of 10")
    equal(page.attribute("#answers", "aria-activedescendant"), "answer-10")


@test
def a_click_chooses_an_answer(page):
    page.open()
    page.click("#answer-3")
    equal(page.text("#said .line-of-answer"), "3 refused 13 Violation KNOWN row 2")
    equal(page.attribute("#answer-3", "aria-selected"), "true")


@test
def the_caret_chooses_a_statement(page):
    page.run_script("CREATE TABLE t (a INT);\nINSERT INTO t VALUES (1);\nSELECT a FROM t;\n")
    page.browser.script("const area = document.getElementById('script'); area.focus(); area.setSelectionRange(30, 30)")
    page.press("Down")
    equal(page.text("#statement-head"), "Statement 3 of 3")


@test
def the_chosen_statement_is_marked_in_the_script(page):
    page.open("#e=cascades&n=11")
    equal(page.joined(".lines .chosen"), "DELETE FROM customer WHERE id = 1;")


@test
def one_of_two_statements_of_a_line_is_marked(page):
    page.run_script("COMMIT; ROLLBACK;")
    page.click("#answer-1")
    equal(page.joined(".lines .chosen"), "COMMIT;")


# ---- the editor


@test
def lines_have_numbers_and_signs(page):
    page.run_script("CREATE TABLE t (a INT CHECK (a > 0));\n\nINSERT INTO t VALUES (0);\nCOMMIT;")
    equal(page.browser.script("return [...document.querySelectorAll('.line')].map((line) => [line.dataset.mark ?? '', line.className.replace('line', '').trim()])"),
          [["✓", "ok"], ["", ""], ["✗", "refused"], ["✓", "ok"]])
    equal(page.browser.script("return [...document.querySelectorAll('.line')].map((line) => getComputedStyle(line, '::before').content)"), ['"1"', '"2"', '"3"', '"4"'])
    page.browser.script("const area = document.getElementById('script'); area.focus(); area.setSelectionRange(0, 0)")
    page.browser.send("#script", "\ue011\ue007")
    equal(page.browser.script("return [...document.querySelectorAll('.line')].map((line) => line.dataset.number)"), ["1", "2", "3", "4", "5"])


@test
def words_have_their_colours(page):
    page.run_script("SELECT a, 'x; y' FROM t WHERE a > 12; -- a comment\n")
    kinds = {kind: page.texts(f".lines .{kind}") for kind in ("keyword", "text", "number", "comment")}
    equal(kinds, {"keyword": ["SELECT", "FROM", "WHERE"], "text": ["'x; y'"], "number": ["12"], "comment": ["-- a comment"]})


@test
def a_fault_is_marked_at_its_line(page):
    page.run_script("COMMIT;\nSELEKT;\n")
    equal(page.lines(), ["1 ok", "2 fault 8"])
    equal([page.texts(".line.fault"), page.joined(".faulty")], [["SELEKT;"], "SELEKT"])
    equal(page.texts("#said .why")[0], "No statement begins at line 2, column 1: SELEKT;")
    assert page.texts("#said .why")[1].startswith("The first word that can't stand where it does is at line 2, column 1: SELEKT; wanted "), page.texts("#said .why")
    assert page.text("#status").endswith("No statement begins at line 2, column 1."), page.text("#status")


@test
def a_fault_says_what_is_known_of_it(page):
    """The words are those of docs/language/mistakes.md and of the grammar: behind FROM stands the name of a table."""
    for script, wanted in (
        ("COMMIT;\nSELECT * FROM a\n  JOIN b;", "The first word that can't stand where it does is at line 3, column 8: JOIN isn't in this language."),
        ("SELECT a FROM 7;", "The first word that can't stand where it does is at line 1, column 15: 7; wanted a name."),
        ("SELECT a FROM ", "The script ends within that statement at line 1, column 15: the end of the text; wanted a name."),
    ):
        page.run_script(script)
        equal(page.texts("#said .why")[1], wanted)


@test
def letters_that_are_no_token_are_marked(page):
    page.run_script("COMMIT; é;")
    equal(page.lines(), ["1 ok", "2 fault 8"])
    equal([page.texts(".lines span.fault"), page.joined(".lines .faulty")], [["é"], "é"])


@test
def a_change_in_the_middle_keeps_the_other_lines(page):
    page.put("COMMIT;\nCOMMIT;\nCOMMIT;")
    page.browser.script("const area = document.getElementById('script'); area.focus(); area.setSelectionRange(8, 8)")
    page.browser.send("#script", "\ue017\ue017")
    equal(page.browser.script("return [...document.querySelectorAll('.line')].map((line) => line.textContent)"), ["COMMIT;", "MMIT;", "COMMIT;"])


@test
def coloured_lines_lie_under_the_text(page):
    for width in (1280, 400):
        page.browser.size(width, 900)
        for file in sorted((ROOT / "examples").glob("*.sql")):
            page.open(f"#{file.stem}")
            heights = page.browser.script("""const area = document.getElementById('script'), lines = document.querySelector('.lines'), height = lines.scrollHeight;
                lines.style.display = 'none'; area.style.height = '0'; const own = area.scrollHeight; lines.style.display = ''; area.style.height = ''; return [own, height]""")
            equal([file.stem, width, heights[0]], [file.stem, width, heights[1]])


@test
def a_script_that_is_too_long_is_not_run(page):
    page.put("COMMIT;\n" + " " * 1048569)
    page.click("#run")
    equal([page.text("#status"), page.lines()], ["The script is longer than 1,048,576 bytes: it has 1,048,577.", []])
    page.run_script("COMMIT;\n" + " " * 1048568)
    equal(page.lines(), ["1 ok"])


@test
def an_own_script_is_kept_beside_the_examples(page):
    page.open()
    page.type("COMMIT; -- mine")
    page.choose_example("keys")
    assert page.value("#script").startswith("-- A library."), page.value("#script")[:40]
    page.upload("other.sql", b"ROLLBACK; -- other")
    for name, script in (("your script", "COMMIT; -- mine"), ("your script 2", "ROLLBACK; -- other"), ("your script", "COMMIT; -- mine")):
        page.choose_example(name)
        equal(page.value("#script"), script)


# ---- the answer


@test
def a_query_has_heads_and_rows(page):
    page.run_script("CREATE TABLE t (a INT, b VARCHAR(9)); INSERT INTO t VALUES (1, 'it''s'), (NULL, ''); SELECT b, a + 1, a FROM t;")
    equal(page.texts("#said .head span"), ["B", "a + 1", "A"])
    equal(page.cells("#said"), [["'it''s'", "2", "1"], ["''", "NULL", "NULL"]])


@test
def a_query_without_rows_has_heads(page):
    page.run_script("CREATE TABLE t (a INT, b INT); SELECT * FROM t;")
    equal([page.texts("#said .head span"), page.texts("#said .nothing")], [["A", "B"], ["no rows"]])


@test
def a_refusal_says_what_it_means(page):
    page.run_script("SELECT * FROM nowhere;")
    equal(page.texts("#said .why")[0], "Table NOWHERE isn't there. A name names nothing. The statement changed nothing.")


@test
def a_refusal_says_its_reason(page):
    page.run_script("CREATE TABLE t (a INT); INSERT INTO t VALUES ('<b>');")
    means = "The number of values isn't that of the columns, or an integer meets a text. The statement changed nothing."
    equal(page.texts("#said .why")[0], f"'<b>' is a text, and column A of T is an INTEGER. {means}")


@test
def texts_of_rows_are_never_elements(page):
    page.run_script("CREATE TABLE t (a VARCHAR(90)); INSERT INTO t VALUES ('<img src=x onerror=\"window.hit = 1\"><b>'); SELECT a FROM t; -- <b>")
    equal(page.cells("#said"), [["'<img src=x onerror=\"window.hit = 1\"><b>'"]])
    equal(page.browser.script("return [document.querySelectorAll('main img, main b').length, window.hit ?? null]"), [0, None])


@test
def long_values_are_whole(page):
    for count in (1, 70):
        page.run_script(f"CREATE TABLE t (a VARCHAR(300));\nINSERT INTO t VALUES {', '.join(['(' + repr('many words ' * 20) + ')'] * count)};\nSELECT a FROM t;")
        sizes = page.browser.script("return [...document.querySelectorAll('#said .cells span, #rows .cells .value')].map((cell) => [cell.textContent.length, cell.scrollWidth <= cell.clientWidth])")
        assert len(sizes) >= 2 and all(size == [222, True] for size in sizes), sizes[:3]


# ---- the account as a picture


@test
def waves_go_from_left_to_right(page):
    page.open("#e=cascades&n=11")
    texts = page.shapes()
    waves = [texts[f"Wave {number}"][0] for number in (1, 2, 3)]
    assert waves == sorted(waves) and len(set(waves)) == 3, waves
    assert texts["CUSTOMER"][0] < texts["ORDERS"][0] < texts["LINE"][0] and texts["NOTE"][0] == texts["ORDERS"][0], texts


@test
def each_foreign_key_that_acted_has_arrows(page):
    page.open("#e=cascades&n=11")
    words = page.texts("#picture svg text")
    equal([words.count(word) for word in ("ORDERS_C2", "NOTE_C1", "LINE_C1", "CASCADE", "SET NULL")], [1, 1, 2, 3, 1])
    equal(page.count("#picture .tip"), 5)
    equal(page.titles(), ["delete CUSTOMER row 1 (1, 'Ann')", "delete ORDERS row 3 (10, 1)", "delete ORDERS row 4 (11, 1)", "update NOTE row 9 (1, 'pays late') to (NULL, 'pays late')",
                          "delete LINE row 6 (10, 5, 1)", "delete LINE row 7 (11, 5, 2)"])


@test
def an_arrow_begins_at_the_row_that_lost_its_key(page):
    page.open("#e=cascades&n=23")
    # The order with row 5 was Bob's, whose row is the second one; its arrow comes from there.
    found = page.browser.script("""
        const at = (element) => element.getBoundingClientRect(), box = (word) => at([...document.querySelectorAll('#picture title')].find((title) => title.textContent.startsWith(word)).parentNode);
        const middle = (rect) => rect.top + rect.height / 2, bob = box('delete CUSTOMER row 2');
        return [...document.querySelectorAll('#picture path.arrow')].map((path) => path.getBoundingClientRect()).filter((rect) => Math.abs(rect.left - bob.right) < 3)
            .filter((rect) => Math.abs(rect.top - middle(bob)) < 4).length""")
    equal(found, 1)


@test
def arrows_cross_no_text(page):
    for name, number in (("cascades", 11), ("cascades", 23), ("cascades", 21), ("first", 6), ("rings", 10), ("logs", 11), ("keys", 6)):
        for width in (1280, 400):
            page.browser.size(width, 900)
            page.open(f"#e={name}&n={number}")
            equal([name, number, width, page.browser.script(CROSSINGS)], [name, number, width, []])
    page.browser.size(1280, 900)
    for place in (3, 5):
        page.run_script(TWO_KEYS)
        page.click(f"#answer-{place}")
        equal([place, page.browser.script(CROSSINGS)], [place, []])


# Two foreign keys with names of different lengths, whose rows cross.
TWO_KEYS = """CREATE TABLE p (k INT PRIMARY KEY, l INT UNIQUE);
CREATE TABLE c (x INT CONSTRAINT a_rather_long_name_of_a_foreign_key REFERENCES p ON DELETE CASCADE, y INT CONSTRAINT brief REFERENCES p (l) ON DELETE SET NULL);
INSERT INTO p VALUES (1, 11), (2, 12), (3, 13), (4, 14), (5, 15), (6, 16), (7, 17);
INSERT INTO c VALUES (1, 12), (2, 11), (3, 17), (4, NULL), (5, 14), (6, 16), (7, 13);
DELETE FROM p;
"""


# The texts that a point of an arrow lies in.
CROSSINGS = """
    const found = [];
    for (const svg of document.querySelectorAll('.picture svg')) {
        const texts = [...svg.querySelectorAll('text')].map((text) => [text.textContent, text.getBoundingClientRect()]);
        for (const path of svg.querySelectorAll('path.arrow')) {
            const place = path.getScreenCTM(), length = path.getTotalLength();
            for (let at = 0; at <= length; at += 2) {
                const point = path.getPointAtLength(at).matrixTransform(place);
                texts.filter(([, box]) => point.x > box.left && point.x < box.right && point.y > box.top + 2 && point.y < box.bottom - 2).forEach(([text]) => found.push(text));
            }
        }
    }
    return [...new Set(found)]"""


@test
def texts_of_a_picture_do_not_overlap(page):
    for file in sorted((ROOT / "examples").glob("*.sql")):
        page.open(f"#e={file.stem}")
        overlaps = page.browser.script("""
            const boxes = [...document.querySelectorAll('.picture svg')].flatMap((svg) => [...svg.querySelectorAll('text')]).map((text) => [text.textContent, text.getBoundingClientRect()]);
            return boxes.flatMap(([one, a], at) => boxes.slice(at + 1).filter(([, b]) => a.left < b.right - 1 && b.left < a.right - 1 && a.top < b.bottom - 4 && b.top < a.bottom - 4).map(([other]) => [one, other]))""")
        equal([file.stem, overlaps], [file.stem, []])


@test
def a_violating_row_is_shown_with_its_condition(page):
    page.open("#e=first&n=3")
    equal(page.count("#picture .row.violating"), 1)
    words = page.texts("#picture svg text")
    assert {"KNOWN", "CHECK", "NUMBER > 0 is false", "row 2"} <= set(words), words
    equal(page.texts("#picture .row.hit title"), ["insert ACCOUNT row 2 (-1, 50)"])


@test
def a_key_that_is_not_there_is_shown(page):
    page.open("#e=cascades&n=16")
    words = page.texts("#picture svg text")
    assert {"NOTE_C1", "refers to", "isn't there", "row 10"} <= set(words), words
    equal(page.count("#picture .row.absent"), 1)


@test
def the_other_row_of_a_key_is_shown(page):
    page.open("#e=keys&n=6")
    words = page.texts("#picture svg text")
    assert {"ONE_PLACE", "same key", "row 2", "row 4"} <= set(words), words


@test
def triggers_are_frames_with_what_they_saw(page):
    page.open("#e=logs&n=9")
    equal(page.count("#picture .trigger"), 4)
    words = page.texts("#picture svg text")
    equal([words.count(word) for word in ("trigger TAKE", "trigger TRACK", "OLD", "NEW", "statement 1 of the body")], [2, 2, 2, 4, 4])
    outer, inner = page.browser.script("return [...document.querySelectorAll('#picture .trigger')].slice(0, 2).map((each) => each.getBoundingClientRect().toJSON())")
    assert outer["left"] < inner["left"] and inner["right"] < outer["right"] and inner["bottom"] < outer["bottom"], (outer, inner)


@test
def a_statement_trigger_shows_the_rows_that_it_saw(page):
    page.open("#e=logs&n=13")
    words = page.texts("#picture svg text")
    assert {"saw SALE", "saw STOCK", "trigger GONE", "trigger CLOSED", "SALE_C1", "CASCADE"} <= set(words), words


@test
def a_refused_commit_shows_what_went_back(page):
    page.open("#e=first&n=6")
    words = page.texts("#picture svg text")
    assert {"What went back", "gone row 1", "gone row 2", "SOLVENT", "BALANCE >= 0 is false"} <= set(words), words


@test
def a_rollback_shows_what_went_back(page):
    page.open("#e=savepoints&n=8")
    words = page.texts("#picture svg text")
    assert {"What went back", "back row 1", "back row 2", "back row 3"} <= set(words), words


@test
def the_account_stands_there_as_text(page):
    page.open("#e=cascades&n=11")
    page.browser.script("document.getElementById('account-text').open = true")
    page.browser.wait(lambda: page.count("#account-lines .rolling > *") == 11, "the lines")
    equal(page.texts("#account-lines .rolling > *")[1], "  ORDERS_C2 CASCADE on ORDERS row 3")


# ---- tables and constraints that wait


@test
def changed_cells_are_marked(page):
    page.open("#e=cascades&n=11")
    equal(page.rows("NOTE"), [["± 9", "1 → NULL", "'pays late'"], ["10", "2", "'pays'"]])
    equal(page.rows("CUSTOMER"), [["− 1", "1", "'Ann'"], ["2", "2", "'Bob'"]])
    equal(page.texts("#rows .changed"), ["1 → NULL"])


@test
def a_refused_statement_leaves_the_rows(page):
    page.open("#e=cascades&n=21")
    equal([page.rows("CUSTOMER"), page.rows("INVOICE")], [[["1", "1", "'Ann'"], ["2", "3", "'Bob'"]], [["11", "11"]]])
    equal(page.count("#rows .insert, #rows .delete, #rows .changed"), 0)


@test
def texts_with_line_feeds_keep_their_rows(page):
    page.run_script("CREATE TABLE t (a VARCHAR(9)); INSERT INTO t VALUES ('one\ntwo'), ('''\n''\n'), ('三');")
    equal(page.rows("T"), [["+ 1", "'one↵two'"], ["+ 2", "'''↵''↵'"], ["+ 3", "'三'"]])


@test
def waiting_constraints_fill_and_empty(page):
    found = {}
    for number in (8, 9, 10):
        page.open(f"#e=rings&n={number}")
        found[number] = page.texts(".waiting li li")
    third, fourth = (f"PLAYER row {row} ({number}, {team}) refers to TEAM ({team}), which isn't there" for row, number, team in ((3, 8, 2), (4, 9, 3)))
    equal(found, {8: [third, fourth], 9: [fourth], 10: []})


@test
def a_waiting_row_has_its_reason(page):
    page.run_script("CREATE TABLE p (a INT, b INT, UNIQUE (a, b));\nCREATE TABLE t (k INT CONSTRAINT one PRIMARY KEY INITIALLY DEFERRED, a INT, b INT CONSTRAINT some CHECK (b > 0) INITIALLY DEFERRED,\n"
                    "    CONSTRAINT both FOREIGN KEY (a, b) REFERENCES p (a, b) MATCH FULL INITIALLY DEFERRED);\nINSERT INTO t VALUES (7, NULL, 1), (7, NULL, NULL), (NULL, 2, 0);")
    equal(page.texts(".waiting li li"), [
        "T row 1 (7, NULL, 1) has the key of row 2", "T row 2 (7, NULL, NULL) has the key of row 1", "T row 3 (NULL, 2, 0) has a null in its key", "T row 3 (NULL, 2, 0) makes B > 0 false",
        "T row 1 (7, NULL, 1) has some nulls in its key", "T row 3 (NULL, 2, 0) refers to P (2, 0), which isn't there"])
    assert page.texts(".waiting .mode")[0].endswith("COMMIT would be refused:"), page.texts(".waiting .mode")[0]


@test
def words_are_not_broken(page):
    """At no width a word of a pane goes over two lines, except in code, which may be long."""
    for width, name in ((1280, "rings&n=8"), (400, "rings&n=8"), (1280, "savepoints&n=12"), (400, "first&n=6"), (400, "nulls&n=6"), (400, "guards&n=11"), (1280, "teams"), (400, "library")):
        page.browser.size(width, 900)
        page.open(f"#e={name}")
        equal([width, name, page.browser.script(BROKEN_WORDS)], [width, name, []])


@test
def modes_come_back_with_a_savepoint(page):
    found = {}
    for number in (12, 13, 15):
        page.open(f"#e=savepoints&n={number}")
        found[number] = page.text(".waiting .mode").split(",")[1].split(".")[0].strip()
    equal(found, {12: "immediate", 13: "deferred: checked at COMMIT", 15: "immediate"})


@test
def the_course_of_waiting_rows_is_drawn(page):
    page.open("#e=rings&n=9")
    titles = page.texts(".course title")
    equal([titles[place] for place in (6, 7, 8, 9)], ["after statement 7: 0 rows", "after statement 8: 2 rows", "after statement 9: 1 row", "after statement 10: 0 rows"])


@test
def the_schema_is_a_diagram(page):
    page.open("#e=cascades&n=11")
    words = page.texts("#diagram svg text")
    assert {"CUSTOMER", "ORDERS", "LINE", "NOTE", "INVOICE"} <= set(words), words
    assert "ORDERS_C2 (CUSTOMER) refers to CUSTOMER on delete cascade on update cascade" in words, words
    equal(page.count("#diagram .arrow"), 4)


# ---- what goes wrong, and what is long


# 32,768 rows that are updated 300 times: a run of half a minute.
LONG_RUN = ("CREATE TABLE u (a INT);\nINSERT INTO u VALUES (1);\n" + "INSERT INTO u SELECT * FROM u;\n" * 15 + "UPDATE u SET a = a;\nCOMMIT;\n" * 300)


@test
def stop_ends_a_run_and_the_page_goes_on(page):
    page.put(LONG_RUN)
    page.browser.click("#run")
    page.browser.wait(lambda: not page.browser.script("return document.getElementById('stop').disabled"), "Stop")
    page.browser.click("#stop")
    page.idle()
    assert re.fullmatch(r"Stopped\. \d+ statements? of 617 executed\.", page.text("#status")), page.text("#status")
    page.run_script("COMMIT;")
    equal(page.lines(), ["1 ok"])


@test
def a_slow_statement_shows_that_it_runs(page):
    """The statements before it have their answers, the time goes on, and Stop says how many there were."""
    page.put("CREATE TABLE t (a INT);\nINSERT INTO t VALUES (1);\n" + "INSERT INTO t SELECT * FROM t;\n" * 14 + "DELETE FROM t WHERE EXISTS (SELECT * FROM t AS x WHERE x.a > t.a);\nCOMMIT;\n")
    page.browser.click("#run")
    page.browser.wait(lambda: re.fullmatch(r"Running statement 17 of 18, for \d+ s", page.text("#status")), "the time of the statement")
    equal(page.texts(".answer .said")[:2], ["1 ok", "2 ok 1"])
    page.browser.click("#stop")
    page.idle()
    equal(page.text("#status"), "Stopped. 16 statements of 18 executed.")


@test
def typing_ends_a_run(page):
    page.put(LONG_RUN)
    page.browser.click("#run")
    page.browser.wait(lambda: len(page.texts(".answer")) > 0, "an answer")
    page.browser.script("const area = document.getElementById('script'); area.value = 'COMMIT;'; area.dispatchEvent(new InputEvent('input'))")
    page.idle()
    equal([page.lines(), page.text("#status")], [[], "The script was changed: run it again."])
    page.click("#run")
    equal(page.lines(), ["1 ok"])


@test
def another_example_ends_a_run(page):
    page.put(LONG_RUN)
    page.browser.click("#run")
    page.choose_example("first")
    page.browser.wait(lambda: page.text("#statement-head") == "Statement 6 of 10", "the example")
    equal(len(page.lines()), 10)


@test
def after_a_trap_the_session_is_thrown_away(page):
    page.open(file=page.trapping)
    assert re.match(r"The engine stopped at statement 1 \(.*\)\. Its session is thrown away; Run begins a new one\.$", page.text("#status")), page.text("#status")
    equal([page.lines(), page.attribute("#status", "class")], [[], "bad"])
    page.type("COMMIT;")
    page.click("#run")
    assert page.text("#status").startswith("The engine stopped at statement 1 "), page.text("#status")


@test
def a_long_account_is_drawn_where_it_is_seen(page):
    script = ("CREATE TABLE t (a INT);\nCREATE TABLE log (a INT);\nCREATE TRIGGER note AFTER INSERT ON t REFERENCING NEW AS n FOR EACH ROW INSERT INTO log VALUES (n.a);\nINSERT INTO t VALUES (1);\n"
              + "INSERT INTO t SELECT a FROM t;\n" * 13)
    page.put(script)
    page.browser.script("window.gap = 0; let last = performance.now(); const beat = (now) => { window.gap = Math.max(window.gap, now - last); last = now; requestAnimationFrame(beat); }; requestAnimationFrame(beat)")
    page.click("#run")
    page.click("#unfold")
    lines, gap = page.browser.script("document.getElementById('account-text').open = true; return [document.querySelector('#account-lines .rolling').style.height, window.gap]")
    # 4,096 rows were inserted by the last statement, and for each a trigger ran a statement that inserted a row.
    equal(lines, f"{4096 * 4 * 20}px")
    assert page.count("#picture svg *") < 3000, page.count("#picture svg *")
    page.browser.script("document.getElementById('picture').scrollTop = 1e6")
    page.browser.wait(lambda: any("16384" in text for text in page.texts("#picture svg text")), "the last row")
    page.note(f"an account of 16,384 lines: the page stood still for {gap:.0f} ms at most")
    assert gap < 3000, gap


@test
def a_script_of_22000_statements_runs(page):
    page.put("CREATE TABLE t (a INT PRIMARY KEY);\n" + "".join(f"INSERT INTO t VALUES ({n});\n" for n in range(21000)) + "COMMIT;\n" * 999)
    began = time.monotonic()
    page.click("#run")
    seen = time.monotonic() - began
    assert page.text("#status").startswith("22,000 statements, 0 refused, "), page.text("#status")
    page.note(f"22,000 statements: {page.text('#status').split(', ')[-1].rstrip('.')}, and {seen:.1f} s until the last one is shown")
    equal(page.browser.script("return [document.getElementById('answers').scrollHeight > 500000, document.querySelectorAll('.answer').length < 100]"), [True, True])


@test
def a_big_table_is_drawn_where_it_is_seen(page):
    page.run_script("CREATE TABLE t (a INT);\nINSERT INTO t VALUES (1);\n" + "INSERT INTO t SELECT a + 1 FROM t;\n" * 12)
    equal(page.text(".table h3"), "T 4,096 rows")
    assert page.count("#rows .cells") < 100, page.count("#rows .cells")


# ---- for everybody


@test
def every_control_is_reached_by_the_tab_key(page):
    page.open("#e=first")
    page.browser.script("document.activeElement.blur()")
    seen = []
    for _ in range(28):
        page.browser.press("Tab")
        seen.append(page.browser.script("return document.activeElement.id || document.activeElement.className || document.activeElement.tagName"))
    wanted = ["example", "run", "back", "step", "here", "selection", "share", "open", "save", "lesson", "help", "depth", "changes", "script", "transcript", "answers"]
    equal([name for name in seen if name in wanted][: len(wanted)], wanted)


@test
def the_skip_links_lead_on(page):
    page.open()
    page.browser.script("document.activeElement.blur()")
    page.browser.press("Tab")
    page.browser.press("Enter")
    equal(page.browser.script("return document.activeElement.id"), "script")


@test
def controls_have_names(page):
    page.open()
    names = {"#example": "Example", "#run": "Run", "#back": "Back", "#step": "Step", "#here": "To here", "#selection": "Selection", "#stop": "Stop", "#lesson": "Lesson", "#help": "Help", "#share": "Share", "#open": "Open", "#save": "Save", "#transcript": "Save transcript", "#depth": "Trigger depth", "#changes": "Row changes",
             "#script": "Script in SQL", "#answers": "Answers"}
    equal({selector: page.browser.label(selector) for selector in names}, names)
    equal(page.browser.script("return [...document.querySelectorAll('svg[role=img]')].filter((svg) => !svg.getAttribute('aria-label')).length"), 0)


@test
def a_picture_says_in_words_what_it_shows(page):
    page.open("#e=cascades&n=11")
    equal(page.attribute("#picture svg", "aria-label"), "Picture of the account: 5 deletes, 1 update, 5 actions. The account as text follows.")


@test
def colours_have_contrast(page):
    pairs = [("text", "ground"), ("text", "panel"), ("text", "chosen"), ("muted", "ground"), ("muted", "panel"), ("accent", "ground"), ("on-accent", "accent"), ("good", "ground"), ("good", "good-ground"),
             ("bad", "ground"), ("bad", "bad-ground"), ("change", "change-ground"), ("keyword", "ground"), ("keyword", "chosen"), ("literal-text", "ground"), ("literal-text", "chosen"), ("number", "ground"), ("number", "chosen")]
    pairs += [("text", "good-ground"), ("text", "bad-ground"), ("text", "change-ground"), ("muted", "change-ground"), ("muted", "good-ground")]
    for scheme in ("light", "dark"):
        page.browser.scheme(scheme)
        page.open()
        poor = [(scheme, *pair, round(ratio, 2)) for pair in pairs if (ratio := contrast(page.colour(pair[0]), page.colour(pair[1]))) < 4.5]
        equal(poor, [])
        edges = [(scheme, name) for name in ("edge", "accent", "bad", "good", "change") if contrast(page.colour(name), page.colour("ground")) < 3]
        equal(edges, [])
    page.browser.scheme("light")


def contrast(one, other):
    """The ratio of the luminances of two colours, as WCAG defines it."""
    def luminance(colour):
        parts = [part / 255 for part in colour]
        linear = [part / 12.92 if part <= 0.04045 else ((part + 0.055) / 1.055) ** 2.4 for part in parts]
        return 0.2126 * linear[0] + 0.7152 * linear[1] + 0.0722 * linear[2]
    high, low = sorted((luminance(one), luminance(other)), reverse=True)
    return (high + 0.05) / (low + 0.05)


@test
def dark_and_light_follow_the_system(page):
    found = {}
    for scheme in ("dark", "light"):
        page.browser.scheme(scheme)
        page.open()
        found[scheme] = page.browser.script("return getComputedStyle(document.body).backgroundColor")
    equal(found, {"dark": "rgb(14, 17, 22)", "light": "rgb(255, 255, 255)"})


@test
def a_phone_has_one_pane_below_the_other(page):
    page.browser.size(400, 800)
    for name in ("first", "cascades", "logs", "rings", "guards", "keys"):
        page.open(f"#e={name}")
        equal([name, page.browser.script("return document.documentElement.scrollWidth")], [name, 400])
        tops = page.browser.script("return ['editor', 'answers', 'statement', 'account', 'tables', 'schema'].map((id) => document.getElementById(id).getBoundingClientRect()).map((box) => [box.left < 20, box.top])")
        equal([name, tops], [name, sorted(tops, key=lambda place: place[1])])
        assert all(is_left for is_left, _ in tops), tops
    page.browser.size(1280, 900)


@test
def pictures_fit_a_phone(page):
    page.browser.size(400, 800)
    for name in ("first", "cascades", "rings", "logs", "guards"):
        page.open(f"#e={name}")
        box, svg = page.browser.script("return [document.getElementById('picture').clientWidth, document.querySelector('#picture svg').getBoundingClientRect().width]")
        assert svg <= box + 1, (name, svg, box)
    page.browser.size(1280, 900)


@test
def the_page_asks_for_nothing(page):
    page.open("#e=logs")
    equal(page.browser.script("return performance.getEntriesByType('resource').map((entry) => entry.name).filter((name) => !name.startsWith('blob:') && !name.startsWith('data:'))"), [])
    equal(page.browser.script("return fetch('https://example.org/').then(() => 'sent', () => 'not sent')"), "not sent")
