"""Lessons: notes in comments, exercises that check themselves, and the history of what was opened. Each function of TESTS, which has those
of browser_page.py too, is one test over a Page (browser.py)."""
from browser_page import TESTS, equal, example, test

__all__ = ["TESTS"]

LESSON = """--# Keys & `<b>`
--# A text with **weight**, *stress* and <img src=x onerror="window.hit = 1">.
--#
--# - one
--# - two
CREATE TABLE t (a INT PRIMARY KEY);
--? What is refused?
--! The second row.
INSERT INTO t VALUES (1);
--@ refuses Violation T_C1: INSERT INTO t VALUES (1);
--@ accepts: INSERT INTO t
--@   VALUES (2);
--@ refuses Violation: INSERT INTO t VALUES (3);
"""
PLAIN = "CREATE TABLE t (a INT PRIMARY KEY);\nINSERT INTO t VALUES (1);\n"


@test
def a_lesson_stands_beside_its_script(page):
    page.open()
    page.upload("lesson.sql", LESSON.encode())
    equal([page.value("#script"), page.lines()], [PLAIN, ["1 ok", "2 ok 1"]])
    equal([page.texts("#tour h2"), page.texts("#tour li")], [["Keys & <b>"], ["one", "two"]])
    equal(page.texts("#tour > p"), ["A text with weight, stress and <img src=x onerror=\"window.hit = 1\">.", "Question. What is refused? (statement 2)"])
    equal(page.browser.script("return [document.querySelectorAll('#tour img, #tour b').length, window.hit ?? null, document.querySelector('#tour details').open]"), [0, None, False])
    equal(page.texts("#tour details p"), ["The second row."])
    page.click("#answer-1")
    page.click("#tour .link")
    equal(page.text("#statement-head"), "Statement 2 of 2")


@test
def a_lesson_goes_along_with_its_script(page):
    page.open()
    page.upload("lesson.sql", LESSON.encode())
    page.click("#save")
    equal(page.downloaded("script.sql"), LESSON)
    page.click("#share")
    page.browser.wait(lambda: page.browser.script("return location.hash").startswith("#s="), "the address")
    page.open(page.browser.script("return location.hash"))
    equal([page.value("#script"), page.texts("#tour h2")], [PLAIN, ["Keys & <b>"]])
    page.click("#lesson")
    equal([page.value("#script"), page.texts("#tour h2"), page.attribute("#lesson", "aria-pressed")], [LESSON, [], "true"])
    page.type("--# Another\nCOMMIT;\n")
    page.click("#lesson")
    equal([page.value("#script"), page.texts("#tour h2")], ["COMMIT;\n", ["Another"]])
    page.reload()
    equal([page.value("#script"), page.texts("#tour h2")], ["COMMIT;\n", ["Another"]])


@test
def a_lesson_goes_with_the_last_line_of_its_script(page):
    page.open("#keys")
    page.browser.script("const area = document.getElementById('script'); area.value = area.value.replace(/^.*$/m, '-- first line'); area.dispatchEvent(new InputEvent('input'))")
    equal(page.texts("#tour h2"), ["No two alike"])
    page.type("COMMIT;")
    equal(page.count("#tour > *"), 0)
    page.upload("empty.sql", b"--# Write a table\n")
    page.type("CREATE TABLE t (a INT);")
    equal(page.texts("#tour h2"), ["Write a table"])


@test
def a_comment_within_a_text_is_no_lesson(page):
    script = "CREATE TABLE t (a VARCHAR(20));\nINSERT INTO t VALUES ('\n--# not a heading\n');\nCOMMIT; --? nor this\n"
    page.run_script(script)
    page.click("#lesson")
    page.click("#lesson")
    equal([page.value("#script"), page.count("#tour > *")], [script, 0])


@test
def checks_tell_what_passes_and_hide_what_they_are(page):
    page.open()
    page.upload("lesson.sql", LESSON.encode())
    page.click("#tour .check")
    equal(page.texts("#tour .checks > p"), ["2 of 3 checks passed."])
    equal(page.browser.script("return [...document.querySelectorAll('#tour .checks details')].map((each) => [each.className, each.innerText.trim()])"),
          [["passed", "✓ Check 1 passed"], ["passed", "✓ Check 2 passed"], ["failed", "✗ Check 3 did not pass"]])
    equal(page.texts("#tour .checks details:last-child > *"), ["✗ Check 3 did not pass", "INSERT INTO t VALUES (3);", "It has to be refused with Violation; it answers: ok 1"])
    page.type("CREATE TABLE t (a INT PRIMARY KEY);\nINSERT INTO t VALUES (3), (1);\n")
    page.click("#tour .check")
    equal(page.texts("#tour .checks > p"), ["All checks passed."])
    page.type("CREATE TABEL")
    page.click("#tour .check")
    equal(page.texts("#tour .checks > p"), ["The script has a fault at line 1, column 8: nothing was checked."])


# For each exercise a script that passes; how many checks the script that is there passes is less.
SOLVED = {
    "library": "CREATE TABLE book (number INT PRIMARY KEY, title VARCHAR(40) NOT NULL);\n"
               "CREATE TABLE loan (book INT NOT NULL UNIQUE REFERENCES book, reader VARCHAR(40), days INT DEFAULT 14 CHECK (days > 0 AND days < 29));\n"
               "INSERT INTO book VALUES (1, 'Emma');\nINSERT INTO loan (book, reader) VALUES (1, 'Ann');\n",
    "teams": "CREATE TABLE team (id INT PRIMARY KEY, captain INT);\n"
             "CREATE TABLE player (id INT PRIMARY KEY, team INT CONSTRAINT plays_for REFERENCES team INITIALLY DEFERRED);\n"
             "ALTER TABLE team ADD CONSTRAINT led_by FOREIGN KEY (captain) REFERENCES player INITIALLY DEFERRED;\n",
    "guard": "CREATE TABLE article (id INT PRIMARY KEY, price INT NOT NULL);\n"
             "CREATE TRIGGER never_lower BEFORE UPDATE ON article REFERENCING OLD AS o NEW AS n FOR EACH ROW WHEN (n.price < o.price) SIGNAL 'never';\n"
             "INSERT INTO article VALUES (1, 100), (2, 200);\nCOMMIT;\n",
}


@test
def each_exercise_can_be_solved(page):
    page.open()
    names = page.browser.script("return [...document.querySelectorAll('optgroup')].find((group) => group.label === 'Exercises').querySelectorAll('option').length")
    equal(names, len(SOLVED))
    for name, script in SOLVED.items():
        page.open(f"#{name}")
        page.click("#tour .check")
        assert page.text("#tour .checks > p") != "All checks passed.", name
        page.type(script)
        page.click("#tour .check")
        equal([name, page.text("#tour .checks > p")], [name, "All checks passed."])


@test
def the_list_has_headings_in_words(page):
    page.open()
    labels = page.browser.script("return [...document.querySelectorAll('optgroup')].map((group) => group.label)")
    assert labels[:2] == ["Tour", "Exercises"] and "Tables and constraints" in labels and not any(".md" in label for label in labels), labels
    equal(page.texts("#example option")[:2], ["1 First: now or later", "2 Nulls: neither true nor false"])


# ---- nothing is lost


@test
def back_leads_to_what_was_there(page):
    page.open("#first")
    page.choose_example("keys")
    page.type("COMMIT; -- mine\n")
    page.choose_example("rings")
    for name, script in (("your script", "COMMIT; -- mine\n"), ("first", example("first")), ("your script", "COMMIT; -- mine\n"), ("rings", example("rings"))):
        forward = name == "rings" or (name == "your script" and page.value("#example") == "first")
        page.browser.script(f"history.{'forward' if forward else 'back'}()")
        page.browser.wait(lambda: page.value("#example") == name, name)
        page.idle()
        equal([name, page.value("#script")], [name, script])


@test
def leaving_is_asked_where_nothing_is_kept(page):
    leave = "const leaving = new Event('beforeunload', { cancelable: true }); dispatchEvent(leaving); return leaving.defaultPrevented"
    page.open()
    page.type("COMMIT;")
    equal(page.browser.script(leave), False)
    page.browser.script("Storage.prototype.setItem = () => { throw new Error('no room'); }")
    page.type("COMMIT; COMMIT;")
    equal(page.browser.script(leave), True)


@test
def a_byte_order_mark_is_left_out(page):
    page.open()
    page.upload("mark.sql", "\ufeffCOMMIT;\n".encode())
    equal([page.value("#script"), page.lines()], ["COMMIT;\n", ["1 ok"]])
    assert page.text("#status").endswith(" The byte order mark at the beginning of mark.sql was left out."), page.text("#status")


@test
def run_to_here_executes_up_to_the_caret(page):
    page.put("COMMIT;\nROLLBACK;\nCOMMIT;\n")
    page.browser.script("const area = document.getElementById('script'); area.focus(); area.setSelectionRange(10, 10)")
    page.press("Control", "Shift", "Enter")
    equal([page.text("#statement-head"), len(page.lines())], ["Statement 2 of 3", 2])


@test
def what_is_selected_runs_alone(page):
    page.run_script("COMMIT;\nCREATE TABLE t (a INT);\nCOMMIT;\n")
    page.browser.script("const area = document.getElementById('script'); area.focus(); area.setSelectionRange(8, 31)")
    page.press("Alt", "Enter")
    equal([page.value("#script"), page.lines()], ["CREATE TABLE t (a INT);", ["1 ok"]])
    page.browser.script("history.back()")
    page.browser.wait(lambda: page.value("#script") == "COMMIT;\nCREATE TABLE t (a INT);\nCOMMIT;\n", "the whole script")
    page.idle()
    page.click("#selection")
    equal(page.text("#status"), "Nothing is selected in the script.")


@test
def tab_indents_where_it_is_asked(page):
    page.put("COMMIT;\nROLLBACK;")
    page.browser.script("const area = document.getElementById('script'); area.focus(); area.setSelectionRange(0, 10)")
    page.press("Control", "m")
    equal(page.text("#status"), "Tab and Shift-Tab indent. Escape lets Tab leave the editor again.")
    page.press("Tab")
    equal(page.value("#script"), "    COMMIT;\n    ROLLBACK;")
    page.press("Shift", "Tab")
    equal(page.value("#script"), "COMMIT;\nROLLBACK;")
    page.press("Control", "z")
    equal(page.value("#script"), "    COMMIT;\n    ROLLBACK;")
    page.press("\ue00c")
    page.press("Tab")
    equal([page.value("#script"), page.browser.script("return document.activeElement.id")], ["    COMMIT;\n    ROLLBACK;", "transcript"])
