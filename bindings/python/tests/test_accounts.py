"""Accounts and transcripts as dataclasses: every stored one is read and written again, and some are read by hand."""
import os
import unittest
from pathlib import Path

import sqlkeep
from sqlkeep import Action, Answer, Change, Nested, Refusal, Skipped, Trigger, Violation
from sqlkeep.account import NameFault

ROOT = Path(os.environ.get("SQLKEEP_ROOT", Path(__file__).resolve().parents[3]))


def is_transcript(path):
    """Whether a stored text is a transcript, and not a dump or a layout."""
    words = path.with_suffix(".args")
    return not words.exists() or not {"--dump", "--format"} & set(words.read_text("utf-8").split())


FOUND = [path for folder in ("examples", "tests/scripts") for kind in ("account", "out") for path in (ROOT / folder).glob(f"*.{kind}")]
STORED = sorted(path for path in FOUND if is_transcript(path))

STOCK = """  insert SALE row 7 (1, 2)
  insert SALE row 8 (2, 1)
  trigger TAKE NEW (1, 2)
  statement 1
    update STOCK row 1 (1, 7) to (1, 5)
    trigger TRACK OLD (1, 7) NEW (1, 5)
    statement 1
      insert LOG row 9 ('stock', 1, -2)
  trigger TAKE NEW (2, 1)
  statement 1
    update STOCK row 2 (2, 0) to (2, -1)
    ENOUGH: STOCK row 2 (2, -1) makes PIECES >= 0 false (-1 >= 0)
"""


class Stored(unittest.TestCase):
    def test_there_are_some(self):
        self.assertGreater(sum(path.suffix == ".account" for path in STORED), 20)

    def test_each_is_written_as_it_was(self):
        for path in STORED:
            with self.subTest(path.name):
                text = path.read_bytes().decode()
                self.assertEqual(str(sqlkeep.parse_transcript(text)), text)


class ByHand(unittest.TestCase):
    def test_nested(self):
        track = Trigger("TRACK", old=(1, 7), new=(1, 5), statements=(Nested(1, (Change("insert", "LOG", 9, None, ("stock", 1, -2)),)),))
        short = Violation("ENOUGH", "STOCK", 2, (2, -1), "condition", condition="PIECES >= 0", with_values="-1 >= 0")
        self.assertEqual(sqlkeep.parse_account(STOCK).events, (
            Change("insert", "SALE", 7, None, (1, 2)),
            Change("insert", "SALE", 8, None, (2, 1)),
            Trigger("TAKE", new=(1, 2), statements=(Nested(1, (Change("update", "STOCK", 1, (1, 7), (1, 5)), track)),)),
            Trigger("TAKE", new=(2, 1), statements=(Nested(1, (Change("update", "STOCK", 2, (2, 0), (2, -1)), short)),)),
        ))

    def test_what_it_gives(self):
        account = sqlkeep.parse_account(STOCK)
        self.assertEqual(account.touched(), {"SALE": {"insert": 2}, "STOCK": {"update": 2}, "LOG": {"insert": 1}})
        self.assertEqual(account.triggers(), ["TAKE", "TRACK", "TAKE"])
        self.assertEqual([(each.constraint, each.row, each.reason) for each in account.violations], [("ENOUGH", 2, "STOCK row 2 (2, -1) makes PIECES >= 0 false (-1 >= 0)")])
        self.assertEqual([(each.kind, each.row) for each in account.changes()], [("insert", 7), ("insert", 8), ("update", 1), ("insert", 9), ("update", 2)])
        self.assertIsNone(account.name)

    def test_statement_trigger(self):
        found = sqlkeep.parse_account("  trigger GONE\n    saw delete SALE row 4 (2, 5)\n  statement 1\n    insert LOG row 7 ('sale gone', 2, 5)\n  trigger CLOSED\n")
        self.assertEqual(found.events, (
            Trigger("GONE", saw=(Change("delete", "SALE", 4, (2, 5), None),), statements=(Nested(1, (Change("insert", "LOG", 7, None, ("sale gone", 2, 5)),)),)),
            Trigger("CLOSED"),
        ))

    def test_skipped(self):
        text = ("  trigger HOLD skipped: WHEN is unknown\n  trigger TAKE NEW (1, 'x')\n  statement 1 changes nothing\n  statement 2\n"
                "    trigger TRACK OLD (1) NEW (NULL) skipped: WHEN is false\n  trigger TAKE NEW (2, 'y') skipped: WHEN is false\n")
        found = sqlkeep.parse_account(text)
        track = Skipped("TRACK", "false", old=(1,), new=(None,))
        self.assertEqual(found.events, (
            Skipped("HOLD", "unknown"),
            Trigger("TAKE", new=(1, "x"), statements=(Nested(1, (), changes_nothing=True), Nested(2, (track,)))),
            Skipped("TAKE", "false", new=(2, "y")),
        ))
        self.assertEqual((str(found), found.triggers()), (text, ["TAKE"]))

    def test_refused_at_once(self):
        found = sqlkeep.parse_account("  trigger AGAIN\n  statement 1\n")
        self.assertEqual(found.events, (Trigger("AGAIN", statements=(Nested(1, ()),)),))

    def test_actions(self):
        found = sqlkeep.parse_account("  F CASCADE on C row 3\n  G SET NULL on D row 4\n  H SET DEFAULT on E row 5\n")
        self.assertEqual(found.events, (Action("F", "CASCADE", "C", 3), Action("G", "SET NULL", "D", 4), Action("H", "SET DEFAULT", "E", 5)))

    def test_each_matter(self):
        for line, wanted in [
            ("C: T row 1 (0) makes A > 0 false (0 > 0)", Violation("C", "T", 1, (0,), "condition", condition="A > 0", with_values="0 > 0")),
            ("C: T row 1 ('n') makes A = 'it''s false (' false ('n' = 'it''s false (')",
             Violation("C", "T", 1, ("n",), "condition", condition="A = 'it''s false ('", with_values="'n' = 'it''s false ('")),
            ("T_C1 (NOT NULL A): T row 1 (NULL) has NULL in A", Violation("T_C1", "T", 1, (None,), "null", column="A", rule="NOT NULL A")),
            ("T_C2 (FOREIGN KEY (A, B) REFERENCES P (K, L) MATCH FULL): T row 1 (NULL, 5) has some nulls in its key",
             Violation("T_C2", "T", 1, (None, 5), "some nulls", rule="FOREIGN KEY (A, B) REFERENCES P (K, L) MATCH FULL")),
            ("C: T row 1 (NULL, 'x') has NULL in A", Violation("C", "T", 1, (None, "x"), "null", column="A")),
            ("C: T row 1 (5) has the key of row 2 (5)", Violation("C", "T", 1, (5,), "same key", other_row=2, other_values=(5,))),
            ("C: T row 1 (NULL) has a null in its key", Violation("C", "T", 1, (None,), "null in key")),
            ("C: T row 1 (NULL, 5) has some nulls in its key", Violation("C", "T", 1, (None, 5), "some nulls")),
            ("C: T row 1 (5) refers to P (5), which isn't there", Violation("C", "T", 1, (5,), "missing", refers_to="P", key=(5,))),
            ("C: T row 1 (5) refers to P (5), which RESTRICT protects", Violation("C", "T", 1, (5,), "restrict", refers_to="P", key=(5,))),
            ("C: T row 1 (5) refers to P (5), and another foreign key sets a column otherwise", Violation("C", "T", 1, (5,), "conflict", refers_to="P", key=(5,))),
            ("C: T row 1 (5) refers to P (5), and B sets A to NULL, where C sets it to 'it''s, (so)'",
             Violation("C", "T", 1, (5,), "conflict", refers_to="P", key=(5,), column="A", other="B", other_value=None, value="it's, (so)")),
            ("C: T row 1 (5) refers to P (5, 'x'), and B sets A to -7, where C sets it to 8",
             Violation("C", "T", 1, (5,), "conflict", refers_to="P", key=(5, "x"), column="A", other="B", other_value=-7, value=8)),
        ]:
            with self.subTest(line):
                account = sqlkeep.parse_account(f"  {line}\n")
                self.assertEqual((account.events, str(account)), ((wanted,), f"  {line}\n"))

    def test_names(self):
        for line, wanted in [
            ("table BOOOK isn't there", NameFault("table", "BOOOK", "isn't there")), ("column B.TITEL isn't there", NameFault("column", "B.TITEL", "isn't there")),
            ("row variable N isn't there", NameFault("row variable", "N", "isn't there")), ("constraint C is there already", NameFault("constraint", "C", "is there already")),
            ("REFERENCING name N comes twice", NameFault("REFERENCING name", "N", "comes twice")),
        ]:
            with self.subTest(line):
                account = sqlkeep.parse_account(f"  {line}\n")
                self.assertEqual((account.name, str(account)), (wanted, f"  {line}\n"))

    def test_reasons(self):
        for line in (
            "tuple 2 has 1 value for 3 columns of BOOK", "the query gives 2 values for 1 column of P", "'it''s\n' is a text, and column ID of BOOK is an INTEGER",
            "1 is an integer, and N.B is a VARCHAR(2)", "column K of P is an INTEGER, and column B of T is a VARCHAR(2)", "B is compared with A + 'x', and only one of them is a text",
            "(B) is a text, and arithmetic takes integers", "table T has no column", "column B is a VARCHAR(2), and its DEFAULT is 'abc'",
            "constraint K is the second PRIMARY KEY of its table", "constraint K: column A is an INTEGER, and column C of P is a VARCHAR(3)",
            "constraint K refers to T (A, B), which is no key that is NOT DEFERRABLE", "REFERENCING names the old row twice", "REFERENCING name Z is for old rows, and INSERT has none",
            "statement 2 is SET, and the trigger is AFTER", "statement 2 sets Z.B, which is of the old row", "there would be 65 tables, and 64 is the most",
            "trigger R would have 33 statements, and 32 is the most", "column B is a VARCHAR(0), and 1 is the least", "savepoint S isn't there",
            "A of T: 9223372036854775807 + 1 is out of range", "PRICE of BOOK row 3 ('it''s: 1', 9): 9223372036854775807 * -2 is out of range",
            "WHERE of BOOK row 1 ('a\n  statement 1\n'): 0 - -9223372036854775808 is out of range", "WHEN of trigger R OLD (1) NEW (2): 9223372036854775807 + 2 is out of range",
            "item 2 of BOOK row 1 (9): 9223372036854775807 + 9 is out of range", "TITLE of BOOK from U row 3 ('it''s') is VARCHAR(5), and the text has 19 characters",
            "depth 2, and 1 is the most: R statement 1", "counted so far 4, 4 is the most, and this or the next row changes are too many: R statement 1, S statement 2",
            "counted so far 1, 65536 is the most, and this or the next row changes are too many", "a transaction has at most 1048576 row changes",
        ):
            with self.subTest(line):
                account = sqlkeep.parse_account(f"  {line}\n")
                self.assertEqual((account.reason, str(account)), (sqlkeep.Reason(line), f"  {line}\n"))

    def test_texts_that_look_like_lines(self):
        """A value may hold line feeds, quotes, parentheses and whole lines of an account."""
        for text in ("\n  insert T row 2 (1)\n", "it's", "', (1", "a)\n", "\n1 ok\n", "\nend rolled back", "), which isn't there\n", "''"):
            session = sqlkeep.Session(explain=True)
            session.execute("CREATE TABLE t (a VARCHAR(40) CONSTRAINT c UNIQUE, b INT)").check()
            self.assertEqual(session.execute("INSERT INTO t VALUES (?, -1)", (text,)).account.events, (Change("insert", "T", 1, None, (text, -1)),))
            found = session.execute("INSERT INTO t VALUES (?, 2)", (text,)).account
            self.assertEqual(found.events[1], Violation("C", "T", 1, (text, -1), "same key", other_row=2, other_values=(text, 2)))

    def test_savepoints_that_stand(self):
        found = sqlkeep.parse_account("  savepoints that stand: A, B_2\n  savepoint Z isn't there\n")
        self.assertEqual(found.events, (sqlkeep.Savepoints(("A", "B_2")), sqlkeep.Reason("savepoint Z isn't there")))
        self.assertEqual(found.savepoints, ("A", "B_2"))
        self.assertEqual(sqlkeep.parse_account("  no savepoint stands\n").savepoints, ())
        self.assertIsNone(sqlkeep.parse_account("  insert T row 1 (1)\n").savepoints)

    def test_what_a_session_tells_of_savepoints_and_constraints(self):
        session = sqlkeep.Session(explain=True)
        session.execute("CREATE TABLE t (a INT)").check()
        session.execute("INSERT INTO t VALUES (1), (1)").check()
        session.execute("SAVEPOINT s").check()
        self.assertEqual(session.execute("ROLLBACK TO SAVEPOINT r").account.savepoints, ("S",))
        session.execute("COMMIT").check()
        found = session.execute("ALTER TABLE t ADD CONSTRAINT one UNIQUE (a)").account
        self.assertEqual(found.events, (Violation("ONE", "T", 1, (1,), "same key", other_row=2, other_values=(1,)),))

    def test_what_is_none(self):
        for text in (
            "insert T row 1 (1)\n", "  insert T row 1 (1)", "  insert T row x (1)\n", "  insert T row 1 (1\n", "    insert T row 1 (1)\n", "  nothing\n", "  C: T row 1 (5) is odd\n",
            "  insert T row 1 (1x)\n",
        ):
            with self.subTest(text), self.assertRaises(ValueError):
                sqlkeep.parse_account(text)

    def test_empty(self):
        account = sqlkeep.parse_account("")
        self.assertEqual((bool(account), account.touched(), str(account)), (False, {}, ""))


class Transcripts(unittest.TestCase):
    def test_each_line(self):
        text = "1 ok\n2 ok 3\n3 rows 2\n| 1, NULL\n| -7, 'it''s'\n4 rows 0\n5 refused 1 Unknown\n6 fault 219\n  line 6, column 1: SELEKT 'x\nend rolled back\n"
        found = sqlkeep.parse_transcript(text)
        self.assertEqual(found.answers, (
            Answer(1), Answer(2, count=3), Answer(3, rows=((1, None), (-7, "it's"))), Answer(4, rows=()), Answer(5, refusal=Refusal(1, "Unknown")),
        ))
        self.assertEqual((found.fault.number, found.fault.place, found.fault.line, found.fault.column, found.fault.words, found.rolled_back), (6, 219, 6, 1, "SELEKT 'x", True))
        self.assertEqual(str(found), text)

    def test_columns_and_what_is_pending(self):
        text = (
            "1 rows 1\n  columns A, B.C * 2, 'x, ''y'\n| 1, 2, 'x, ''y'\n"
            "2 ok 1\n  insert T row 2 (5)\n  now pending F: T row 2 (5) refers to P (5), which isn't there\n"
            "  now pending U: T row 3 ('\n') has the key of row 4 ('\n')\n  no longer pending U: T row 1\n")
        query, insertion = sqlkeep.parse_transcript(text).answers
        self.assertEqual(query.columns, ("A", "B.C * 2", "'x, ''y'"))
        self.assertEqual([(each.constraint, each.row, each.why) for each in insertion.came], [("F", 2, "missing"), ("U", 3, "same key")])
        self.assertEqual(insertion.went, (sqlkeep.Settled("U", "T", 1),))
        self.assertEqual(insertion.account.events, (Change("insert", "T", 2, None, (5,)),))
        self.assertEqual(str(sqlkeep.parse_transcript(text)), text)

    def test_refusals(self):
        for line, wanted in [
            ("refused 8 NotDeferrable C", Refusal(8, "NotDeferrable", constraint="C")),
            ("refused 13 Violation C row 3 in T", Refusal(13, "Violation", constraint="C", row=3, inside="T")),
            ("refused 15 Signal T 'no more'", Refusal(15, "Signal", trigger="T", signal="no more")),
            ("refused 16 DepthLimit T", Refusal(16, "DepthLimit", trigger="T")),
            ("refused 17 TooManyChanges in T", Refusal(17, "TooManyChanges", inside="T")),
            ("refused 20 AddRefused row 3", Refusal(20, "AddRefused", row=3)),
            ("refused 22 OutOfMemory", Refusal(22, "OutOfMemory")),
        ]:
            with self.subTest(line):
                self.assertEqual(sqlkeep.parse_transcript(f"1 {line}\n").answers, (Answer(1, refusal=wanted),))
                self.assertEqual(str(wanted), line)

    def test_what_is_none(self):
        for text in ("ok\n", "1 ok", "1 rows 1\n", "1 rows 1\n| x\n", "1 refused Unknown\n", "end rolled back\n1 ok\n", "1 fault 0\n2 ok\n"):
            with self.subTest(text), self.assertRaises(ValueError):
                sqlkeep.parse_transcript(text)


if __name__ == "__main__":
    unittest.main()
