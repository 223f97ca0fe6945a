"""How scripts come to the page and leave it: limits, names and addresses of scripts, files, what the browser keeps. Each function of TESTS,
which has those of browser_page.py too, is one test over a Page (browser.py)."""
import base64
import re
import zlib

import documents
import links
from browser_page import LINE_OF_ANSWER, TESTS, equal, example, test

__all__ = ["TESTS"]


@test
def limits_are_those_of_the_fields(page):
    page.open("#cascades&n=11")
    page.fill("#changes", "5")
    equal([page.lines(), page.text("#status")], [[], "The limits were changed: run the script again."])
    page.click("#run")
    equal(page.lines()[10], "11 refused 17 TooManyChanges")
    page.fill("#changes", "7")
    page.click("#run")
    equal(page.lines()[10], "11 ok 1")


@test
def a_limit_out_of_range_is_put_back(page):
    page.open()
    for field, value, why in (("#depth", "65", "The depth of triggers is a number from 1 to 64."), ("#changes", "0", "The number of row changes is a number from 1 to 65,536."), ("#depth", "1.5", "The depth of triggers is a number from 1 to 64.")):
        page.fill(field, value)
        equal([page.text("#status"), page.value("#depth"), page.value("#changes"), len(page.lines())], [why, "16", "65536", 10])


@test
def limits_go_with_a_shared_address(page):
    page.run_script("CREATE TABLE t (a INT); INSERT INTO t VALUES (1), (2);")
    page.fill("#changes", "2")
    page.click("#run")
    page.click("#share")
    page.browser.wait(lambda: page.browser.script("return location.hash").startswith("#s="), "the address")
    address = page.browser.script("return location.hash")
    assert address.endswith("&changes=2"), address
    page.open(address)
    equal([page.value("#changes"), page.lines()], ["2", ["1 ok", "2 refused 17 TooManyChanges"]])


@test
def scripts_of_the_language_are_opened_by_name(page):
    count = 0
    for _, _, scripts in documents.pages():
        for each in scripts:
            page.open(f"#{each['name']}")
            wanted = LINE_OF_ANSWER.findall(each["transcript"])
            equal([each["name"], page.value("#script"), page.value("#example"), page.lines()], [each["name"], each["script"], each["name"], wanted])
            count += 1
    page.note(f"{count} scripts of docs/language were opened by their names")


@test
def links_lead_to_their_scripts(page):
    for file, _, scripts in documents.pages():
        text = links.linked(file)
        equal(links.OLD.findall(text), [f"\n[in the page](../../out/sqlkeep.html#{each['name']})\n" for each in scripts])
        equal(links.OLD.sub("", text), links.OLD.sub("", file.read_text("utf-8")))


@test
def a_name_that_is_not_there_is_told(page):
    page.open("#tables-99")
    equal([page.text("#status"), len(page.lines())], ["This address holds no script: there is none of the name tables-99.", 10])


@test
def a_shared_address_brings_the_script_back(page):
    page.run_script("CREATE TABLE t (a VARCHAR(9));\nINSERT INTO t VALUES ('é 三 \U0001f600');\nCOMMIT;\n")
    page.click("#answer-2")
    page.click("#share")
    page.browser.wait(lambda: page.browser.script("return location.hash").startswith("#s="), "the address")
    address, script = page.browser.script("return [location.hash, document.getElementById('script').value]")
    assert re.fullmatch(r"#s=[\w-]+&n=2", address), address
    page.open(address)
    equal([page.value("#script"), page.text("#statement-head")], [script, "Statement 2 of 3"])


@test
def a_damaged_address_is_told(page):
    for address, why in (("#s=AAAA", "the script in the address is damaged or cut off"), ("#s=%20%3C", "the address has signs that no shared script has")):
        page.open(address)
        equal(page.text("#status"), f"This address holds no script: {why}.")
        equal(len(page.lines()), 10)


@test
def an_address_that_inflates_is_told(page):
    """50 MB in 65 kB: the page reads as much as a script may have, and goes on."""
    packer = zlib.compressobj(9, zlib.DEFLATED, -15)
    packed = b"".join(packer.compress(bytes(1000000)) for _ in range(50)) + packer.flush()
    page.open("#s=" + base64.urlsafe_b64encode(packed).decode().rstrip("="))
    equal(page.text("#status"), "This address holds no script: the script is longer than 1,048,576 bytes.")
    equal(len(page.lines()), 10)


@test
def save_writes_the_script(page):
    page.open("#e=keys")
    page.click("#save")
    lesson = next(each["lesson"] for each in documents.tour() if each["name"] == "keys")
    equal(page.downloaded("keys.sql"), lesson + example("keys"))


@test
def the_transcript_can_be_saved(page):
    page.open("#e=logs")
    page.click("#transcript")
    equal(page.downloaded("logs.out"), example("logs", "out"))


@test
def open_reads_a_file(page):
    page.open()
    page.upload("shop.sql", b"CREATE TABLE shop (a INT);\nINSERT INTO shop VALUES (3);\n")
    equal([page.value("#script"), page.lines()], ["CREATE TABLE shop (a INT);\nINSERT INTO shop VALUES (3);\n", ["1 ok", "2 ok 1"]])


@test
def a_file_that_is_no_script_changes_nothing(page):
    page.open("#e=keys")
    for name, bytes_of_file, why in (("latin.sql", b"-- \xe9", "the script is not UTF-8"), ("long.sql", b" " * 1048577, "the script is longer than 1,048,576 bytes: it has 1,048,577")):
        page.upload(name, bytes_of_file)
        equal([page.text("#status"), page.value("#script")], [f"{name} was not opened: {why}.", example("keys")])


@test
def a_script_comes_back_after_a_reload(page):
    for address in ("", "#e=rings&n=8"):
        page.open(address)
        page.reload()
        equal(page.value("#example"), "rings" if address else "first")
        page.type("COMMIT; -- \u00e9\n")
        page.reload()
        equal([page.value("#script"), page.value("#example"), page.lines()], ["COMMIT; -- \u00e9\n", "your script", []])
        equal(page.text("#status"), "This is the script that was typed here last: run it.")
        page.click("#run")
        equal(page.lines(), ["1 ok"])
    page.choose_example("keys")
    page.reload()
    equal(page.value("#example"), "keys")
    page.choose_example("your script")
    equal(page.value("#script"), "COMMIT; -- \u00e9\n")
