"""Small scripts, each for one thing that PostgreSQL takes otherwise, or that is translated so that it doesn't.

A case is a script and the notes that its statements have, by their numbers from 1; `!` before a note says that the statement does differ.
Every other statement answers the same and has no note. What is expected comes from the rules of both, by hand.
"""
import random
import subprocess
import sys

ICU = "CREATE DATABASE linguistic TEMPLATE template0 LOCALE_PROVIDER icu ICU_LOCALE 'en-US'"
LETTERS = "".join(random.Random(7).choices("abcdefghijklmnopqrstuvwxyzABCDEFGHIJKLMNOPQRSTUVWXYZ0123456789", k=4_000))
LONG = "n" * 64
ROWS_FIRST = "!PostgreSQL runs the row triggers of a table before its statement triggers"
SEVERAL = "several constraints are violated"
STORED = "!PostgreSQL stores and tests each row before the BEFORE triggers of the next"
AT_ONCE = "!PostgreSQL tests BF at once"
IMMEDIATE = "!NotDeferrable here: PostgreSQL lets IMMEDIATE be said of any constraint"
ROW_BY_ROW = "PostgreSQL tests a key that foreign keys refer to row by row"

CASES = {
    "statement trigger before row trigger": (
        """CREATE TABLE t (a INT); CREATE TABLE l (n INT);
        CREATE TRIGGER s AFTER INSERT ON t INSERT INTO l VALUES (NULL);
        CREATE TRIGGER r AFTER INSERT ON t REFERENCING NEW AS w FOR EACH ROW UPDATE l SET n = w.a WHERE n IS NULL;
        INSERT INTO t VALUES (7);""", {5: ROWS_FIRST}),
    "row trigger before statement trigger": (
        """CREATE TABLE t (a INT); CREATE TABLE l (n INT);
        CREATE TRIGGER r AFTER INSERT ON t REFERENCING NEW AS w FOR EACH ROW UPDATE l SET n = w.a WHERE n IS NULL;
        CREATE TRIGGER s AFTER INSERT ON t INSERT INTO l VALUES (NULL);
        INSERT INTO t VALUES (7);""", {}),
    "BEFORE trigger beside an earlier row": (
        """CREATE TABLE t (k INT PRIMARY KEY, n INT);
        CREATE TRIGGER g BEFORE INSERT ON t REFERENCING NEW AS w FOR EACH ROW WHEN (w.n = 9) SIGNAL 'no';
        INSERT INTO t VALUES (NULL, 1), (2, 9);
        INSERT INTO t VALUES (1, 1), (2, 9);
        INSERT INTO t VALUES (1, 9), (NULL, 1);""", {3: STORED}),
    "SET DEFAULT of a deferred key": (
        """CREATE TABLE a (n INT UNIQUE); CREATE TABLE b (n INT DEFAULT 2 CONSTRAINT bf REFERENCES a (n) ON DELETE SET DEFAULT INITIALLY DEFERRED);
        INSERT INTO a VALUES (2), (3); INSERT INTO b VALUES (3); DELETE FROM a WHERE n = 3; DELETE FROM a;""", {6: AT_ONCE}),
    "SET DEFAULT of a deferred key, ON UPDATE": (
        """CREATE TABLE a (n INT UNIQUE); CREATE TABLE b (n INT DEFAULT 2 CONSTRAINT bf REFERENCES a (n) ON UPDATE SET DEFAULT INITIALLY DEFERRED);
        INSERT INTO a VALUES (2); INSERT INTO b VALUES (2); UPDATE a SET n = 3;""", {5: AT_ONCE}),
    "variables of PL/pgSQL": (
        """CREATE TABLE t (found INT CHECK (found < 9) DEFERRABLE, tg_op INT);
        CREATE TRIGGER g AFTER INSERT ON t REFERENCING NEW AS n FOR EACH ROW UPDATE t SET found = found + 1 WHERE tg_op = n.tg_op AND found < 5;
        ALTER TABLE t ADD CHECK (tg_op > 0) DEFERRABLE;
        INSERT INTO t VALUES (1, 2); SELECT found FROM t WHERE tg_op = 2;""", {}),
    "names of keys": (
        """CREATE TABLE t_c1 (a INT); CREATE TABLE t (a INT PRIMARY KEY); CREATE TABLE u (a INT CONSTRAINT u UNIQUE, b INT CONSTRAINT u_key UNIQUE);
        INSERT INTO t VALUES (1); INSERT INTO t VALUES (1); INSERT INTO u VALUES (1, 2); INSERT INTO u VALUES (1, 3); INSERT INTO u VALUES (2, 2);""", {}),
    "names of PostgreSQL's own": (
        """CREATE TABLE pg_class (ctid INT, xmin INT, xmax INT, cmin INT, cmax INT, tableoid INT UNIQUE); CREATE TABLE pg_index (pg_class INT CONSTRAINT pg_index PRIMARY KEY);
        INSERT INTO pg_class VALUES (1, 2, 3, 4, 5, 6); UPDATE pg_class SET ctid = xmin + 1 WHERE tableoid = 6; INSERT INTO pg_class (tableoid) VALUES (6);
        INSERT INTO pg_index VALUES (1); INSERT INTO pg_index VALUES (1); DELETE FROM pg_class WHERE xmax = 3; SELECT * FROM pg_class;""", {}),
    "long keys": (
        f"""CREATE TABLE t (a VARCHAR(4000) UNIQUE, b INT); INSERT INTO t VALUES ('{LETTERS[:2_600]}', 1); INSERT INTO t VALUES ('{LETTERS}', 2);""", {3: "!PostgreSQL refuses a key of more than 2,704 bytes"}),
    "SET CONSTRAINTS of what can't be deferred": (
        """CREATE TABLE t (a INT CONSTRAINT c CHECK (a > 0), b INT CONSTRAINT r UNIQUE DEFERRABLE); START TRANSACTION;
        SET CONSTRAINTS c DEFERRED; SET CONSTRAINTS r, c IMMEDIATE;""", {4: IMMEDIATE}),
    "two keys of the same columns": (
        """CREATE TABLE t (b INT CONSTRAINT k UNIQUE DEFERRABLE CONSTRAINT r UNIQUE DEFERRABLE CONSTRAINT s PRIMARY KEY DEFERRABLE); START TRANSACTION; SET CONSTRAINTS r, k, s DEFERRED;
        INSERT INTO t VALUES (1), (1); SET CONSTRAINTS k, s DEFERRED; SET CONSTRAINTS r IMMEDIATE; ROLLBACK;""", {}),
    "SET CONSTRAINTS of a key": (
        """CREATE TABLE t (b INT CONSTRAINT k UNIQUE); START TRANSACTION; SET CONSTRAINTS k DEFERRED;""", {3: "!NotDeferrable here: PostgreSQL has a key that is tested when a statement ends as a deferrable one"}),
    "one of several constraints": (
        """CREATE TABLE t (a INT UNIQUE, b INT NOT NULL, c INT CHECK (c > 0)); INSERT INTO t VALUES (1, 1, 1);
        INSERT INTO t VALUES (1, 1, 1); INSERT INTO t VALUES (2, NULL, 1); INSERT INTO t VALUES (2, 1, 0); INSERT INTO t VALUES (1, NULL, 1); INSERT INTO t VALUES (3, NULL, 0);""", {6: "!" + SEVERAL}),
    "several constraints at COMMIT": (
        """CREATE TABLE t (k INT UNIQUE, a INT UNIQUE INITIALLY DEFERRED, b INT CONSTRAINT f REFERENCES t (k) INITIALLY DEFERRED);
        INSERT INTO t VALUES (1, 1, 5); COMMIT; INSERT INTO t VALUES (1, 1, 5), (2, 1, 1); COMMIT;""", {5: "!" + SEVERAL}),
    "savepoints of one name": (
        """CREATE TABLE t (a INT); START TRANSACTION; SAVEPOINT s; INSERT INTO t VALUES (1); SAVEPOINT s; INSERT INTO t VALUES (2);
        ROLLBACK TO SAVEPOINT s; RELEASE SAVEPOINT s; ROLLBACK TO SAVEPOINT s; SAVEPOINT s; INSERT INTO t VALUES (3); ROLLBACK TO SAVEPOINT s; COMMIT; SELECT a FROM t;""", {}),
    "modes come back": (
        """CREATE TABLE t (a INT CONSTRAINT k UNIQUE DEFERRABLE); INSERT INTO t VALUES (1); SAVEPOINT s; SET CONSTRAINTS k DEFERRED;
        ROLLBACK TO SAVEPOINT s; INSERT INTO t VALUES (1); SET CONSTRAINTS ALL DEFERRED; INSERT INTO t VALUES (1); COMMIT;""", {}),
    "nulls of a deferred PRIMARY KEY": (
        """CREATE TABLE t (a INT PRIMARY KEY INITIALLY DEFERRED); INSERT INTO t VALUES (1); INSERT INTO t VALUES (NULL);""", {3: "!PostgreSQL tests the nulls of a PRIMARY KEY at once"}),
    "BEFORE trigger that looks at its table": (
        """CREATE TABLE t (a INT); CREATE TRIGGER g BEFORE INSERT ON t FOR EACH ROW WHEN (EXISTS (SELECT * FROM t)) SIGNAL 'second';
        INSERT INTO t VALUES (1); DELETE FROM t; INSERT INTO t VALUES (1), (2);""", {5: "!a BEFORE row trigger sees the rows that the statement has changed so far"}),
    "a transition table that hides a table": (
        """CREATE TABLE t (a INT); CREATE TABLE u (a INT);
        CREATE TRIGGER g AFTER INSERT ON t REFERENCING NEW TABLE AS u INSERT INTO u SELECT a FROM u;
        INSERT INTO u VALUES (1); INSERT INTO t VALUES (2);""", {5: "!a transition table has the name of a table"}),
    "columns beside transition tables": (
        """CREATE TABLE t (a INT, b INT); CREATE TABLE l (a INT);
        CREATE TRIGGER g AFTER UPDATE OF a ON t REFERENCING NEW TABLE AS news INSERT INTO l SELECT a FROM news;
        INSERT INTO t VALUES (1, 1); UPDATE t SET a = 2; UPDATE t SET b = 2;""", {6: "!PostgreSQL allows no column list beside transition tables"}),
    "keys that change places": (
        """CREATE TABLE p (k INT PRIMARY KEY); CREATE TABLE c (x INT REFERENCES p);
        INSERT INTO p VALUES (1), (2); UPDATE p SET k = k + 10; UPDATE p SET k = k + 1;""", {5: "!" + ROW_BY_ROW}),
    "RESTRICT of a row that stays": (
        """CREATE TABLE p (k INT PRIMARY KEY); CREATE TABLE c (x INT CONSTRAINT f REFERENCES p ON DELETE RESTRICT);
        INSERT INTO p VALUES (1); INSERT INTO c VALUES (1); DELETE FROM p;""", {}),
    "NO ACTION beside CASCADE": (
        """CREATE TABLE p (k INT PRIMARY KEY); CREATE TABLE d (k INT PRIMARY KEY REFERENCES p ON DELETE CASCADE);
        CREATE TABLE c (x INT CONSTRAINT f REFERENCES p, y INT REFERENCES d ON DELETE CASCADE);
        INSERT INTO p VALUES (1); INSERT INTO d VALUES (1); INSERT INTO c VALUES (1, 1); DELETE FROM p;""", {7: "!PostgreSQL tests F row by row, beside what other foreign keys do"}),
    "a row that comes to refer to a key that goes": (
        """CREATE TABLE t (k INT UNIQUE, up INT CONSTRAINT f REFERENCES t (k) ON UPDATE SET NULL);
        INSERT INTO t VALUES (1, NULL), (2, NULL); UPDATE t SET k = 17 - 8 * k, up = 1;""", {3: "!PostgreSQL also follows F"}),
    "a CHECK that is out of range": (
        """CREATE TABLE t (a INT CONSTRAINT c CHECK (a + 1 > 0)); INSERT INTO t VALUES (-5); INSERT INTO t VALUES (9223372036854775807);""", {3: "!a CHECK that is out of range is violated here"}),
    "numbers where no row is": (
        """CREATE TABLE t (a INT); SELECT a FROM t WHERE 9223372036854775807 + 0 > a; SELECT a FROM t WHERE 9223372036854775807 + 1 > a;""", {3: "!PostgreSQL reckons with numbers even if no row is looked at"}),
    "numbers in parentheses": (
        """CREATE TABLE t (a INT); INSERT INTO t VALUES ((2147483647) + (1)); INSERT INTO t VALUES (-(2147483647 + (1)) * (2)); SELECT a FROM t WHERE a > (2147483647) * ((2));""", {}),
    "names that are cut": (
        f"""CREATE TABLE {LONG} (a INT); INSERT INTO {LONG} VALUES (1);""", {1: "PostgreSQL cuts", 2: "PostgreSQL cuts"}),
    "constraints whose names are long": (
        f"""CREATE TABLE {LONG[:62]} (a INT UNIQUE, b INT UNIQUE, c INT CHECK (c > 0) DEFERRABLE, d INT CHECK (d > 0) DEFERRABLE); INSERT INTO {LONG[:62]} VALUES (1, 1, 1, 1);
        INSERT INTO {LONG[:62]} VALUES (1, 2, 1, 1); INSERT INTO {LONG[:62]} VALUES (2, 1, 1, 1); INSERT INTO {LONG[:62]} VALUES (2, 2, 0, 1); INSERT INTO {LONG[:62]} VALUES (2, 2, 1, 0);""", {}),
    "texts that look like numbers": (
        """CREATE TABLE t (a INT, b VARCHAR(3)); INSERT INTO t VALUES ('x', 'y'); INSERT INTO t VALUES (1, 2, 3); SELECT a FROM t WHERE b = 5; INSERT INTO t VALUES ('7', 'y');""", {5: "!WrongShape here"}),
    "blanks that are cut": (
        """CREATE TABLE t (b VARCHAR(3)); INSERT INTO t VALUES ('abcd'); INSERT INTO t VALUES ('abc ');""", {3: "!TextTooLong here"}),
    "a transaction that is open": (
        """CREATE TABLE t (a INT); START TRANSACTION; CREATE TABLE t (a INT); DROP TRIGGER r; CREATE TABLE u (a INT);""", {5: "!InTransaction here"}),
    "a note is of its statement": (
        """CREATE TABLE t (a INT); START TRANSACTION; START TRANSACTION; INSERT INTO t VALUES (1);""", {3: "!ActiveTransaction here"}),
    "triggers that were refused": (
        """CREATE TABLE t (a INT); CREATE TRIGGER r AFTER UPDATE OF b ON t DELETE FROM t; CREATE TRIGGER r AFTER UPDATE OF a ON t DELETE FROM t;
        CREATE TRIGGER r AFTER INSERT ON t DELETE FROM t; INSERT INTO t VALUES (1); UPDATE t SET a = 2; SELECT a FROM t;""", {2: "Unknown here"}),
}
LITERALS = ("CREATE TABLE u (a INT, CHECK ('a' < 'B' OR a = 1)); INSERT INTO u VALUES (1); INSERT INTO u VALUES (2); SELECT a FROM u WHERE ('a') > ('B');", {})


# A script that refers to a key only if its budget is three.
LIMITED = (
    """CREATE TABLE s (a INT PRIMARY KEY); CREATE TABLE t (a INT); INSERT INTO t VALUES (1), (2), (3);
    ALTER TABLE t ADD CONSTRAINT f FOREIGN KEY (a) REFERENCES s (a);""", {3: "!TooManyChanges here"})


def judged(script, expected, dsn, changes=65_536):
    """What is wrong with the answers and the notes of a script."""
    import psycopg2  # pylint: disable=import-outside-toplevel,import-error
    from sqlkeep.postgresql import commands, compared  # pylint: disable=import-outside-toplevel,import-error
    found = compared(script, lambda: psycopg2.connect(dsn), (psycopg2.Error,), changes=changes)
    differ = {id(each.translation) for each in found.differences}
    notes = {at: each for at, each in enumerate(found.translations, 1) if each.differs or id(each) in differ}
    right = notes.keys() == expected.keys() and all(any(note.startswith(expected[at].lstrip("!")) for note in each.differs) for at, each in notes.items())
    is_true = all(id(each) in differ for at, each in notes.items() if expected.get(at, "").startswith("!"))
    return [] if right and is_true and found.is_foretold else [f"{({at: each.differs for at, each in notes.items()})}\n{commands.told(found)}"]


def schemas(dsn, package):
    """The name of a schema may be anything; one that can't be is told, with status 2."""
    wrong = []
    for schema, status in (('a"b', 0), ("A b;--", 0), ("pg_x", 2), ("", 2), ("public", 2)):
        command = [sys.executable, "-m", "sqlkeep", "compare", "-", "--postgresql", dsn, "--schema", schema]
        done = subprocess.run(command, env={"PYTHONPATH": str(package)}, input=b"CREATE TABLE t (a INT); INSERT INTO t VALUES (1);", capture_output=True, check=False)
        if done.returncode != status or b"Traceback" in done.stderr or (status and not done.stderr.startswith(b"sqlkeep: ")):
            wrong.append(f"--schema {schema}: {done}")
    return wrong


def results(dsn, package):
    """What is wrong, by the name of the case."""
    import psycopg2  # pylint: disable=import-outside-toplevel,import-error
    there = psycopg2.connect(dsn)
    there.autocommit = True
    there.cursor().execute(ICU)
    there.close()
    found = {name: judged(script, expected, dsn) for name, (script, expected) in CASES.items()}
    found["literals in another collation"] = judged(*LITERALS, dsn.replace("dbname=postgres", "dbname=linguistic"))
    found["a small budget"] = judged(*LIMITED, dsn, 3)
    found["schemas"] = schemas(dsn, package)
    return found
