"""Hostile texts in every place where a text or a name may stand, through psql over a server.

Each statement is there for one place of the grammar. What the server has afterwards is compared with what the engine has; a text that ended
its quotes would leave another table, a file in the folder of psql, or other rows.
"""
import random
import subprocess
import sys
from pathlib import Path

PIECES = (
    "$$", "$", "$a$", "$sk$", "$sk0$", "$tag$", "$body$", "body", "$body", "body$", "$body2$", "\\", "\\\\", "\\'", "\\!", "\\q", "\\.", "\\g", "\\gexec", "\\i /etc/passwd", "\r", "\n", "\r\n",
    "'", "''", '"', ":'a'", ":a", ':"a"', "::", "%", "%s", "--", "/*", "*/", "\ufeff", ";", "(", ")", "E'", "U&'", "{}", "{", "\x01", "\x1b[2J", "\x7f", "\u2028", "\x85", "\x1a", "é", "あ", "ソ", "\U0001f600",
    "\n\\! touch pwned\n", "\n\\q\n", "\n\\.\n", "\n; CREATE TABLE injected (a int);\n", "$$; CREATE TABLE injected (a int); SELECT $$", "$body$; CREATE TABLE injected (a int); SELECT $body$",
    "'); CREATE TABLE injected (a int); --", "\\'); CREATE TABLE injected (a int); --", " ", "END", "COPY t FROM stdin;",
)
# Words that are PostgreSQL's own, as names.
NAMES = (
    "found", "tg_op", "tg_name", "tg_argv", "ctid", "xmin", "xmax", "cmin", "cmax", "tableoid", "pg_class", "pg_type", "pg_proc", "pg_user", "user", "order", "group", "limit", "end_", "loop", "declare",
    "exception", "raise", "strict", "using", "perform", "return", "row_", "current_user", "session_user", "a_", "true", "false", "array", "analyse", "lateral", "window", "_", "pgx", "sqlstate", "sqlerrm",
)
WIDTH = 400


def texts(count):
    """The pieces by themselves, at either end and in the middle, and some more at random."""
    found = [*PIECES, *(before + piece + behind for piece in PIECES for before, behind in (("x", "y"), ("'", "'"), ("$", "$")))]
    chance = random.Random(20240229)
    return found + ["".join(chance.choices(PIECES, k=chance.randint(1, 6))) for _ in range(count)]


def quoted(text):
    return "'" + text.replace("'", "''") + "'"


def in_places(number, some):
    """Statements in which texts, up to thirty, stand in each place of the grammar that takes one, over tables of this number."""
    t, said = f"t{number}", list(map(quoted, some))
    none_of = " AND ".join(f"b <> {text}" for text in said)
    acts = "".join(f"UPDATE v{number} SET b = {text}, c = {at} WHERE b = {text} OR EXISTS (SELECT * FROM {t} AS x WHERE x.b = {text} AND a < 0); " for at, text in enumerate(said[:30]))
    tuples = ", ".join(f"({at}, {text})" for at, text in enumerate(said))
    signals = "".join(f"CREATE TRIGGER {t}_s{at} BEFORE DELETE ON {t} REFERENCING OLD AS o FOR EACH ROW WHEN (o.a = {at} AND o.b = {text}) SIGNAL {text};\n" for at, text in enumerate(said))
    return f"""CREATE TABLE d{number} ({", ".join(f"c{at} VARCHAR({WIDTH}) DEFAULT {text}" for at, text in enumerate(said))});
CREATE TABLE {t} (a INT, b VARCHAR({WIDTH}), CONSTRAINT {t}_c CHECK ({none_of} OR a < 90), CONSTRAINT {t}_d CHECK ({none_of} OR a < 80) INITIALLY DEFERRED);
CREATE TABLE v{number} (a INT, b VARCHAR({WIDTH}), c INT);
ALTER TABLE {t} ADD CONSTRAINT {t}_e CHECK ({none_of} OR {said[0]} = {said[-1]} OR a < 70);
ALTER TABLE {t} ADD CONSTRAINT {t}_f CHECK ({none_of} OR a < 60) DEFERRABLE;
CREATE TRIGGER {t}_g AFTER INSERT ON {t} REFERENCING NEW AS n FOR EACH ROW WHEN (n.a = {len(some) - 1} AND NOT ({none_of.replace("b <>", "n.b <>")}))
    BEGIN ATOMIC INSERT INTO v{number} VALUES {", ".join(f"({at}, {text}, -1)" for at, text in enumerate(said))}; {acts}DELETE FROM v{number} WHERE {none_of}; END;
INSERT INTO d{number} DEFAULT VALUES;
INSERT INTO {t} VALUES {tuples};
INSERT INTO {t} VALUES (95, {said[0]});
INSERT INTO {t} SELECT a + 30, {said[-1]} FROM {t} WHERE b = {said[0]};
UPDATE {t} SET b = {said[0]} WHERE a = 30 OR b = {said[-1]} AND a > 30;
COMMIT;
{signals}"""


def in_names(number, word):
    """A script in which a word is the name of everything that has one."""
    other = f"u{number}"
    return f"""CREATE TABLE {word} ({word} INT CONSTRAINT {word} UNIQUE, b VARCHAR(9));
CREATE TABLE {other} ({word} INT CONSTRAINT {word}_f REFERENCES {word} ({word}) ON DELETE CASCADE, CONSTRAINT {word}_g CHECK ({word} < 9) DEFERRABLE);
ALTER TABLE {word} ADD CONSTRAINT {word}_h CHECK ({word} < 8) DEFERRABLE;
CREATE TRIGGER {word} AFTER UPDATE OF {word} ON {word} REFERENCING OLD AS {word} NEW AS n FOR EACH ROW WHEN ({word}.{word} < n.{word})
    UPDATE {other} SET {word} = NULL WHERE {word} = 2 AND {word} < 5;
CREATE TRIGGER {word}_s AFTER DELETE ON {word} REFERENCING OLD TABLE AS gone INSERT INTO {other} SELECT NULL FROM gone WHERE {word} = 1;
INSERT INTO {word} VALUES (1, 'x'), (2, 'y'), (3, 'z');
INSERT INTO {other} VALUES (1), (2);
SAVEPOINT {word};
UPDATE {word} SET {word} = {word} + 2 WHERE {word} = 3;
SET CONSTRAINTS {word}_g DEFERRED;
ROLLBACK TO SAVEPOINT {word};
UPDATE {word} SET {word} = {word} + 3 WHERE {word} = 3 AND EXISTS (SELECT * FROM {word} AS {word} WHERE {word}.{word} = 1);
DELETE FROM {word} WHERE {word} = 1;
COMMIT;
"""


def held(session):
    """Every table of the engine with its rows."""
    return {table: sorted(map(repr, session.execute(f"SELECT * FROM {table}").rows)) for table in session.catalogue.tables}


def held_there(cursor, schema):
    """Every table of a schema with its rows."""
    cursor.execute("SELECT relname, oid::regclass::text FROM pg_class WHERE relkind IN ('r', 'v') AND relnamespace = %s::regnamespace", (schema,))
    found = {}
    for called, quoted_name in cursor.fetchall():
        cursor.execute(f"SELECT * FROM {quoted_name}")
        found[called.upper()] = sorted(map(repr, cursor.fetchall()))
    return found


def signalled(cursor, table, some):
    """What a row says that is deleted, for each whose text is another one."""
    import psycopg2  # pylint: disable=import-outside-toplevel,import-error
    wrong = []
    for at, text in enumerate(some):
        try:
            cursor.execute(f"DELETE FROM {table} WHERE a = {at}")
            wrong.append(f"{table} {at}: no SIGNAL {text!r}")
        except psycopg2.Error as error:
            wrong += [] if error.diag.message_primary == text else [f"{table} {at}: {error.diag.message_primary!r} for {text!r}"]
    return wrong


def scripts(some):
    """Scripts by what they are about, with the numbers of the tables whose rows signal."""
    numbers = range(0, len(some), 30)
    batches = [in_places(at, some[at : at + 30]) for at in numbers]
    found = {f"texts_{at}": ("".join(batches[at : at + 7]), numbers[at : at + 7]) for at in range(0, len(batches), 7)}
    found["names"] = ("".join(in_names(number, word) for number, word in enumerate(NAMES[:20])), ())
    found["more_names"] = ("".join(in_names(number, word) for number, word in enumerate(NAMES[20:])), ())
    return found


def script_for_psql(script, folder, package):
    """What the command makes of a script, as a file; the command reads bytes and writes bytes in any locale."""
    ours, theirs = Path(folder, "ours.sql"), Path(folder, "theirs.sql")
    ours.write_bytes(script.encode())
    command = [sys.executable, "-m", "sqlkeep", "to-postgresql", str(ours)]
    theirs.write_bytes(subprocess.run(command, env={"PYTHONPATH": str(package), "LC_ALL": "C", "PYTHONIOENCODING": "latin-1"}, stdout=subprocess.PIPE, check=True).stdout)
    return theirs


def run(server, folder, script, theirs, setting):
    """Runs a script through psql in a schema of its own; gives what is wrong. The session begins with this setting for backslashes, and with
    an encoding in which a byte of a letter may be taken for the first half of another one if it is off."""
    import psycopg2  # pylint: disable=import-outside-toplevel,import-error
    from sqlkeep.session import Session  # pylint: disable=import-outside-toplevel,import-error
    schema = f"hostile_{setting}"
    there = psycopg2.connect(server.dsn)
    there.autocommit = True
    cursor = there.cursor()
    cursor.execute(f"DROP SCHEMA IF EXISTS {schema} CASCADE; CREATE SCHEMA {schema}; SET search_path = {schema}")
    before = sorted(path.name for path in Path(folder).iterdir())
    encoding = {"on": "UTF8", "off": "SJIS"}[setting]
    server.psql(theirs, folder, f"-c search_path={schema} -c standard_conforming_strings={setting} -c client_min_messages=error", encoding)
    with Session() as session:
        for part in session.parts(script):
            session.execute(part)
        here, found = held(session), held_there(cursor, schema)
    wrong = [f"{table}: here {here.get(table)}, there {found.get(table)}" for table in sorted(here.keys() | found.keys()) if here.get(table) != found.get(table)]
    wrong += [f"files: {path}" for path in sorted(path.name for path in Path(folder).iterdir()) if path not in before]
    return wrong, cursor


def nul(package, folder):
    """U+0000 in a text is refused with its place, and nothing is written."""
    wrong = []
    for script, place in ((b"CREATE TABLE t (a VARCHAR(9));\nINSERT INTO t VALUES ('x'), ('a\0b');\n", b"line 2, column 32"), (b"CREATE TABLE t (a INT); CREATE TRIGGER r AFTER DELETE ON t SIGNAL '\0';", b"line 1, column 68")):
        path = Path(folder, "nul.sql")
        path.write_bytes(script)
        done = subprocess.run([sys.executable, "-m", "sqlkeep", "to-postgresql", str(path)], env={"PYTHONPATH": str(package)}, capture_output=True, check=False)
        if done.returncode != 2 or done.stdout or place not in done.stderr:
            wrong.append(f"nul: {done}")
    return wrong


def own_names(cursor):
    """The names of the system catalogue that a table's name could meet."""
    cursor.execute("SELECT relname FROM pg_class WHERE relnamespace = 'pg_catalog'::regnamespace AND relkind IN ('r', 'v') AND relname !~ '^pg_'")
    return [f"{name} is of the catalogue" for name, in cursor.fetchall()]


def results(server, folder, package, count=2_000):
    """What is wrong, by the names of what ran. The pieces themselves, which come first, and the names run in sessions of both settings."""
    Path(folder).mkdir(mode=0o755)
    some, found = texts(count), {"nul": nul(package, folder)}
    for at, (name, (script, numbers)) in enumerate(scripts(some).items()):
        theirs = script_for_psql(script, folder, package)
        for setting in ("on", "off") if at < 2 or not numbers else ("off",):
            wrong, cursor = run(server, folder, script, theirs, setting)
            for number in numbers if setting == "off" else ():
                wrong += signalled(cursor, f"t{number}", some[number : number + 30])
            found[f"{name}_{setting}"] = wrong + own_names(cursor)
            cursor.connection.close()
    return found
