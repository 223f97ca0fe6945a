#!/usr/bin/env python3
"""Tries the way in: files of SQLite and databases of PostgreSQL that become scripts of this language.

    way_in.py [--library FOLDER] [--only WORD] [--tell] [--seed N] [--count N]

- Small schemas stand here beside the script that has to come of each, worked out from docs/library/way-in.md.
- Schemas that Debian's packages ship become scripts that the engine takes whole; nothing of them is lost without a note; and --count random
  changes are accepted here exactly where SQLite accepts them, except where a note says what was left out. A package that isn't
  installed is fetched by `apt-get download` into a temporary folder, and skipped where that fails.
- The same is tried with small schemas of PostgreSQL and that of pgbench, over a server of its own.
The last line is `N passed, N failed`, with `, N skipped`."""
import argparse
import glob
import os
import random
import shutil
import sqlite3
import subprocess
import sys
import tempfile
from pathlib import Path

from postgresql.server import Server, binaries

ROOT = Path(__file__).resolve().parent.parent

# A package, and the files in it that make schemas of SQLite.
PACKAGES = {
    "bacula-director-sqlite3": ("usr/share/dbconfig-common/data/bacula-director-sqlite3/install/sqlite3",),
    "pdns-backend-sqlite3": ("usr/share/pdns-backend-sqlite3/schema/schema.sqlite3.sql", "usr/share/pdns-backend-sqlite3/schema/bind-dnssec.schema.sqlite3.sql"),
    "freeradius-config": ("etc/freeradius/3.0/mods-config/sql/main/sqlite/schema.sql", "etc/freeradius/3.0/mods-config/sql/ippool/sqlite/schema.sql", "etc/freeradius/3.0/mods-config/sql/cui/sqlite/schema.sql"),
    "kamailio-sqlite-modules": tuple(f"usr/share/kamailio/db_sqlite/{name}-create.sql" for name in ("carrierroute", "drouting", "lcr", "presence", "registrar", "usrloc")),
}

PIECES = ("'", "''", '"', "--", "\n", "\r", ";", "\\", "x", "?", "(", ")", "; DROP TRIGGER t;", "\u2028", "\u00e9", "\x1b[31m", "/*", "*/", "]", "`")
# A name, what SQLite runs, whether the rows come along, the script, and the status.
CASES = [
    ("nothing", "", False, "", 0),
    ("a table that stays as it is", "CREATE TABLE t (a INT NOT NULL UNIQUE, b INTEGER DEFAULT -5);", False, """CREATE TABLE t (
    a INT NOT NULL,
    b INT DEFAULT -5,
    UNIQUE (a)
);
""", 0),
    ("types", "CREATE TABLE t (a BIGINT, b TEXT, c VARCHAR(20), d CHAR(3), e BOOLEAN, f REAL, g);", False, """-- changed: a: BIGINT is INT
-- changed: b: TEXT is VARCHAR(4096)
-- changed: c: VARCHAR(20) holds no longer texts here
-- changed: d: CHAR(3) is VARCHAR(3)
-- changed: e: BOOLEAN is INT
-- changed: f: REAL is VARCHAR(4096), so numbers are texts
-- changed: g: no type is VARCHAR(4096), so numbers are texts
CREATE TABLE t (
    a INT,
    b VARCHAR(4096),
    c VARCHAR(20),
    d VARCHAR(3),
    e INT,
    f VARCHAR(4096),
    g VARCHAR(4096)
);
""", 0),
    ("defaults", "CREATE TABLE t (a INT DEFAULT '7', b INT DEFAULT TRUE, c INT DEFAULT (1 + 1), d VARCHAR(9) DEFAULT 'it''s', e VARCHAR(9) DEFAULT 5, f INT DEFAULT CURRENT_DATE, g INT DEFAULT NULL);", False, """-- left out: DEFAULT 1 + 1 of c: it is no literal
-- changed: d: VARCHAR(9) holds no longer texts here
-- changed: e: VARCHAR(9) holds no longer texts here
-- left out: DEFAULT CURRENT_DATE of f: it is no literal
CREATE TABLE t (
    a INT DEFAULT 7,
    b INT DEFAULT 1,
    c INT,
    d VARCHAR(9) DEFAULT 'it''s',
    e VARCHAR(9) DEFAULT '5',
    f INT,
    g INT
);
""", 1),
    ("names", 'CREATE TABLE "order" ("count" INT, "a b" INT, "a_b" INT, "1st" INT, "ä" INT); CREATE TABLE "a\n-- b" (k INT CONSTRAINT t_c1 NOT NULL);', False, """-- changed: count is called count_
-- changed: a b is called a_b
-- changed: a_b is called a_b_2
-- changed: 1st is called _1st
-- changed: ä is called _
CREATE TABLE order (
    count_ INT,
    a_b INT,
    a_b_2 INT,
    _1st INT,
    _ INT
);

-- changed: a\\n-- b is called a____b
-- changed: constraint t_c1 is called t_c1_
CREATE TABLE a____b (
    k INT CONSTRAINT t_c1_ NOT NULL
);
""", 0),
    ("conditions", """CREATE TABLE t (a INT, b INT, c TEXT, d BOOLEAN,
    CONSTRAINT one CHECK (a BETWEEN 1 AND 9 AND b NOT IN (2, -3)), CHECK (c IN ('x', 'it''s') OR c ISNULL), CHECK (NOT d OR a == b), CHECK (t."a" IS NOT NULL AND [b] != 4),
    CHECK (a + 2 * b <= 7), CHECK (length(c) > 1), CHECK (c LIKE 'x%'), CHECK (a > 'x'), CHECK (a > 1.5), CHECK (a IS 1), CHECK (a / 2 > 1));""", False, """-- changed: c: TEXT is VARCHAR(4096)
-- changed: d: BOOLEAN is INT
-- left out: CHECK (length ( c ) > 1): length() can't be said here
-- left out: CHECK (c LIKE 'x%'): LIKE can't be said here
-- left out: CHECK (a > 1.5): 1.5 can't be said here
-- left out: CHECK (a IS 1): 1 can't be said here
-- left out: CHECK (a / 2 > 1): / can't be said here
-- left out: CHECK (a > 'x'): WrongShape
CREATE TABLE t (
    a INT,
    b INT,
    c VARCHAR(4096),
    d INT,
    CONSTRAINT one CHECK ((a >= 1 AND a <= 9) AND (NOT (b = 2 OR b = (-3)))),
    CHECK ((c = 'x' OR c = 'it''s') OR (c IS NULL)),
    CHECK ((NOT d <> 0) OR (a = b)),
    CHECK ((a IS NOT NULL) AND (b <> 4)),
    CHECK ((a + (2 * b)) <= 7)
);
""", 1),
    ("what doesn't compare as there", "CREATE TABLE t (a REAL CHECK (a > 0) CHECK (a IS NOT NULL), b VARCHAR(9) COLLATE NOCASE CHECK (b = 'x') UNIQUE);", False, """-- changed: a: REAL is VARCHAR(4096), so numbers are texts
-- changed: b: VARCHAR(9) holds no longer texts here
-- left out: COLLATE NOCASE of b: texts are compared character by character
-- left out: CHECK (a > 0): a is a text here
-- left out: CHECK (b = 'x'): b is a text here
CREATE TABLE t (
    a VARCHAR(4096),
    b VARCHAR(9),
    UNIQUE (b),
    CHECK (a IS NOT NULL)
);
""", 1),
    ("keys and indexes", "CREATE TABLE t (k INTEGER PRIMARY KEY, a INT, b INT, CONSTRAINT pair UNIQUE (a, b)); CREATE TABLE u (x INT, y INT NOT NULL, PRIMARY KEY (y, x)); CREATE INDEX i ON t (a); CREATE UNIQUE INDEX j ON t (b); CREATE UNIQUE INDEX p ON t (a) WHERE b > 0; CREATE UNIQUE INDEX e ON t (a + b);", False, """-- changed: k: SQLite numbers a row without one, and here it is refused
-- not needed: index i
-- changed: unique index j is a UNIQUE
-- left out: unique index p: it has a WHERE
-- left out: unique index e: it has an expression
CREATE TABLE t (
    k INT,
    a INT,
    b INT,
    PRIMARY KEY (k),
    CONSTRAINT pair UNIQUE (a, b),
    CONSTRAINT j UNIQUE (b)
);

-- changed: x: SQLite lets nulls into such a PRIMARY KEY, and here none may be
CREATE TABLE u (
    x INT,
    y INT NOT NULL,
    PRIMARY KEY (y, x)
);
""", 1),
    ("foreign keys", """CREATE TABLE c (x INT CONSTRAINT f REFERENCES p ON DELETE CASCADE ON UPDATE SET NULL DEFERRABLE INITIALLY DEFERRED, y VARCHAR(5) REFERENCES p (name) MATCH FULL, z INT REFERENCES gone (k), w TEXT REFERENCES p);
        CREATE TABLE p (k INT PRIMARY KEY NOT NULL, name VARCHAR(8) UNIQUE);""", False, """-- changed: y: VARCHAR(5) holds no longer texts here
-- changed: w: TEXT is VARCHAR(4096)
-- changed: MATCH FULL is MATCH SIMPLE, as SQLite takes it
-- changed: y is VARCHAR(8), as the foreign key of c asks
CREATE TABLE c (
    x INT,
    y VARCHAR(8),
    z INT,
    w VARCHAR(4096)
);

-- changed: name: VARCHAR(8) holds no longer texts here
CREATE TABLE p (
    k INT NOT NULL,
    name VARCHAR(8),
    PRIMARY KEY (k),
    UNIQUE (name)
);

ALTER TABLE c ADD CONSTRAINT f FOREIGN KEY (x) REFERENCES p (k) ON DELETE CASCADE ON UPDATE SET NULL INITIALLY DEFERRED;

ALTER TABLE c ADD FOREIGN KEY (y) REFERENCES p (name);

-- left out: foreign key (z) of c to gone (k): there is no such key

-- left out: foreign key (w) of c to p (k): SchemaFault
""", 1),
    ("what there isn't here", "CREATE TABLE t (a INT UNIQUE ON CONFLICT REPLACE, b INT AS (a + 1)); CREATE VIEW v AS SELECT a FROM t; CREATE TRIGGER g AFTER INSERT ON t BEGIN DELETE FROM t; END;", False, """-- left out: the expression of the generated column b, which is a plain one
-- left out: ON CONFLICT REPLACE of t
CREATE TABLE t (
    a INT,
    b INT,
    UNIQUE (a)
);

-- left out: view v
-- left out: trigger g
""", 1),
    ("a table that is too wide", f"CREATE TABLE wide ({', '.join(f'c{at} INT' for at in range(33))}); CREATE TABLE t (a INT);", False, """-- left out: table wide: Limit

CREATE TABLE t (
    a INT
);
""", 1),
    ("rows", """CREATE TABLE t (a INT NOT NULL, b VARCHAR(3), c REAL); CREATE TABLE u (k INT UNIQUE, up INT REFERENCES u (k));
        INSERT INTO t VALUES (1, 'it''', 1.5), (-9223372036854775808, NULL, 2), ('x', 'a', NULL), (2, 'long', NULL), (3, x'41', NULL), (4, CAST(x'ff' AS TEXT), NULL), (1.5, 'b', NULL);
        INSERT INTO u VALUES (1, 2), (2, NULL);""", True, """-- changed: b: VARCHAR(3) holds no longer texts here
-- changed: c: REAL is VARCHAR(4096), so numbers are texts
CREATE TABLE t (
    a INT NOT NULL,
    b VARCHAR(3),
    c VARCHAR(4096)
);

CREATE TABLE u (
    k INT,
    up INT,
    UNIQUE (k)
);

INSERT INTO t VALUES (1, 'it''', '1.5');
INSERT INTO t VALUES (-9223372036854775807 - 1, NULL, '2.0');
-- left out: row 3: the text 'x' in a
-- left out: row 4 (2, 'long', NULL): TextTooLong
-- left out: row 5: the blob b'A' in b
-- left out: row 6: the blob b'\\xff' in b
-- left out: row 7: the number 1.5 in a
COMMIT;

INSERT INTO u VALUES (1, 2);
INSERT INTO u VALUES (2, NULL);
COMMIT;

ALTER TABLE u ADD FOREIGN KEY (up) REFERENCES u (k);
""", 1),
    ("a condition that is too deep", f"CREATE TABLE t (a INT, CHECK (a = 1 AND {'(' * 20}a = 1{')' * 20}), CHECK ({'(' * 70}a = 1{')' * 70}), CHECK ({'NOT (' * 40}a = 1{')' * 40}), CHECK ({'a = 1 AND ' * 64}a = 1));", False, f"""-- left out: CHECK ({'( ' * 70}a = 1{' )' * 70}): it is too deep
-- left out: CHECK ({'NOT ( ' * 40}a = 1{' )' * 40}): no statement
-- left out: CHECK ({'a = 1 AND ' * 64}a = 1): no statement
CREATE TABLE t (
    a INT,
    CHECK ((a = 1) AND (a = 1))
);
""", 1),
    ("rows that a foreign key refuses", "CREATE TABLE p (k INT UNIQUE); CREATE TABLE c (x INT REFERENCES p (k)); INSERT INTO c VALUES (7);", True, """CREATE TABLE p (
    k INT,
    UNIQUE (k)
);

CREATE TABLE c (
    x INT
);

INSERT INTO c VALUES (7);
COMMIT;

-- left out: foreign key (x) of c to p (k): AddRefused
""", 1),
]
POSTGRESQL = [
    ("types and defaults", """CREATE TYPE mood AS ENUM ('a');
        CREATE TABLE t (a smallint DEFAULT -3, b bigint, c varchar(9) DEFAULT 'it''s', d text, e boolean DEFAULT true, f numeric(5,2) CHECK (f > 0), g date DEFAULT now(), h mood, i serial);""", """-- changed: a: smallint is INT, of 64 bits
-- changed: d: text is VARCHAR(4096)
-- changed: e: boolean is INT, 0 or 1
-- changed: f: numeric(5,2) is VARCHAR(4096), with texts only
-- changed: g: date is VARCHAR(4096), with texts only
-- left out: DEFAULT now() of g: it is no literal
-- changed: h: public.mood is VARCHAR(4096), with texts only
-- changed: i: integer is INT, of 64 bits
-- changed: i: PostgreSQL numbers a row without one, and here it has none
-- left out: CHECK t_f_check (( f > ( 0 ) :: numeric )): f is a text here
CREATE TABLE t (
    a INT DEFAULT -3,
    b INT,
    c VARCHAR(9) DEFAULT 'it''s',
    d VARCHAR(4096),
    e INT DEFAULT 1,
    f VARCHAR(4096),
    g VARCHAR(4096),
    h VARCHAR(4096),
    i INT NOT NULL,
    CHECK (e = 0 OR e = 1)
);

-- not needed: sequence t_i_seq
-- left out: type mood
""", 1),
    ("keys and foreign keys of PostgreSQL", """CREATE TABLE p (k bigint CONSTRAINT pk PRIMARY KEY, l bigint CONSTRAINT one UNIQUE DEFERRABLE INITIALLY DEFERRED);
        CREATE TABLE c (x bigint CONSTRAINT f REFERENCES p MATCH FULL ON DELETE CASCADE ON UPDATE SET NULL DEFERRABLE, CONSTRAINT c_c1 UNIQUE NULLS NOT DISTINCT (x));
        CREATE INDEX i ON c (x); CREATE UNIQUE INDEX j ON p (k, l); CREATE UNIQUE INDEX e ON c ((x + 1)); CREATE UNIQUE INDEX w ON c (x) WHERE x > 0;""", """-- changed: unique index j is a UNIQUE
CREATE TABLE p (
    k INT NOT NULL,
    l INT,
    CONSTRAINT pk PRIMARY KEY (k),
    CONSTRAINT one UNIQUE (l) INITIALLY DEFERRED,
    CONSTRAINT j UNIQUE (k, l)
);

-- not needed: index i
-- left out: unique index e: it has an expression
-- left out: unique index w: it has a WHERE
-- changed: constraint c_c1 is called c_c1_
CREATE TABLE c (
    x INT,
    CONSTRAINT c_c1_ UNIQUE NULLS NOT DISTINCT (x)
);

ALTER TABLE c ADD CONSTRAINT f FOREIGN KEY (x) REFERENCES p (k) MATCH FULL ON DELETE CASCADE ON UPDATE SET NULL DEFERRABLE;
""", 1),
    ("conditions of PostgreSQL", """CREATE TABLE t (a bigint, b varchar(9), d boolean, CONSTRAINT one CHECK (a IN (1, -2)), CONSTRAINT two CHECK (b NOT IN ('x', 'y')), CONSTRAINT three CHECK (a BETWEEN 1 AND 9),
        CONSTRAINT four CHECK (NOT d OR a IS NOT NULL), CONSTRAINT five CHECK (length(b) > 1), CONSTRAINT six CHECK (a::text < b::text), CONSTRAINT seven CHECK (b <> ''));""", """-- changed: d: boolean is INT, 0 or 1
-- left out: CHECK five (( length ( ( b ) :: text ) > 1 )): length() can't be said here
-- left out: CHECK six (( ( a ) :: text < ( b ) :: text )): ::text can't be said here
CREATE TABLE t (
    a INT,
    b VARCHAR(9),
    d INT,
    CHECK (d = 0 OR d = 1),
    CONSTRAINT one CHECK (a = 1 OR a = (-2)),
    CONSTRAINT two CHECK (b <> 'x' AND b <> 'y'),
    CONSTRAINT three CHECK ((a >= 1) AND (a <= 9)),
    CONSTRAINT four CHECK ((NOT d <> 0) OR (a IS NOT NULL)),
    CONSTRAINT seven CHECK (b <> '')
);
""", 1),
    ("names of PostgreSQL", """CREATE TABLE t (k bigint UNIQUE, "true" boolean CONSTRAINT one CHECK ("true" <> true)); CREATE SCHEMA s; CREATE TABLE s.t (k bigint); CREATE TABLE "T" (k bigint UNIQUE); CREATE TABLE u (a bigint, "A" bigint);
        CREATE TABLE "or der" (k bigint CONSTRAINT f REFERENCES "T" (k)); CREATE TABLE e (k varchar(9) CONSTRAINT two CHECK (k <> E'\\\\'));""", """-- changed: true: boolean is INT, 0 or 1
CREATE TABLE t (
    k INT,
    true INT,
    CONSTRAINT t_k_key UNIQUE (k),
    CHECK (true = 0 OR true = 1),
    CONSTRAINT one CHECK (true <> 1)
);

-- changed: s.t is called s_t
CREATE TABLE s_t (
    k INT
);

-- left out: foreign key f to T, which is left out
-- changed: or der is called or_der
CREATE TABLE or_der (
    k INT
);

CREATE TABLE e (
    k VARCHAR(9),
    CONSTRAINT two CHECK (k <> '\\')
);

-- left out: table T: a name is there in small and in capital letters
-- left out: table u: a name is there in small and in capital letters
""", 1),
    ("what there isn't here of PostgreSQL", """CREATE TABLE t (a bigint, b bigint GENERATED ALWAYS AS (a + 1) STORED); CREATE VIEW v AS SELECT a FROM t; CREATE SEQUENCE s; CREATE FUNCTION f() RETURNS trigger LANGUAGE plpgsql AS 'BEGIN RETURN NEW; END';
        CREATE TRIGGER g BEFORE INSERT ON t FOR EACH ROW EXECUTE FUNCTION f(); CREATE TABLE r (LIKE t) PARTITION BY RANGE (a); CREATE TABLE r1 PARTITION OF r DEFAULT;""", """-- left out: the expression of the generated column b, which is a plain one
CREATE TABLE t (
    a INT,
    b INT
);

-- left out: PARTITION BY of r
CREATE TABLE r (
    a INT,
    b INT
);

-- left out: view v
-- left out: sequence s
-- left out: partition r1
-- left out: trigger g of t
-- left out: function f
""", 1),
]
# The causes that the scripts above name; the engine tells more.
CAUSES = ("no statement", "SchemaFault", "WrongShape", "Limit", "TextTooLong", "AddRefused")


def command(package, *words):
    """What `python -m sqlkeep` writes and says, and its status."""
    done = subprocess.run([sys.executable, "-m", "sqlkeep", *words], cwd=package, capture_output=True, check=False)
    return done.stdout.decode(), done.stderr.decode(), done.returncode


def made(folder, name, script):
    """A file of SQLite that a script has made."""
    file = Path(folder, f"{name}.sqlite")
    connection = sqlite3.connect(file)
    connection.executescript(script)
    connection.close()
    return str(file)


def fits(line, wanted):
    """Whether a line is the wanted one, or begins with it where that ends with a cause."""
    return line.startswith(wanted) if wanted.endswith(CAUSES) else line == wanted


def cases(package, folder):
    """What is wrong with each small schema."""
    for at, (name, script, with_rows, wanted, status) in enumerate(CASES):
        answer = command(package, "from-sqlite", made(folder, f"case{at}", script), *(["--data"] if with_rows else []))
        yield name, differs(answer, wanted, status)


def differs(answer, wanted, status):
    """What is wrong with an answer of the command."""
    written, said, answered = answer
    lines, expected = written.split("\n"), wanted.split("\n")
    wrong = [f"the script is\n{written}"] if len(lines) != len(expected) or not all(map(fits, lines, expected)) else []
    counts = [sum(line.startswith(f"-- {kind}: ") for line in expected) for kind in ("changed", "not needed", "left out")]
    summary = "sqlkeep: {} changed, {} not needed, {} left out".format(*counts)
    wrong += [f"standard error is\n{said}"] if said.splitlines()[-1:] != [summary] or len(said.splitlines()) != counts[2] + 1 else []
    return wrong + ([f"the status is {answered}"] if answered != status else [])


def unreadable(package, folder):
    """What is wrong where there is no file of SQLite."""
    Path(folder, "text").write_text("CREATE TABLE t (a INT);\n" * 99)
    for name, file in (("no file", f"{folder}/none"), ("no file of SQLite", f"{folder}/text"), ("a folder", str(folder))):
        written, said, status = command(package, "from-sqlite", file)
        yield name, [] if (written, status) == ("", 2) and said.startswith(f"sqlkeep: cannot read {file}: ") and said.count("\n") == 1 else [written + said]


def hostile(package, folder, words):
    """What is wrong where names, defaults, conditions and rows are made of pieces that end a text, a name or a comment elsewhere."""
    from sqlkeep import Session

    choose, texts = random.Random(words.seed), []
    connection = sqlite3.connect(Path(folder, "hostile"))
    for number in range(50):
        table, column, check, kind = ('"' + "".join(choose.choices(PIECES, k=4)).replace('"', '""') + f'{number}-{at}"' for at in range(4))
        texts.append("".join(choose.choices(PIECES, k=6)))
        quoted = "'" + texts[-1].replace("'", "''")
        connection.execute(f"CREATE TABLE {table} ({column} TEXT DEFAULT {quoted}' CONSTRAINT {check} CHECK ({column} <> {quoted}!'), {kind} {kind})")
        connection.execute(f"INSERT INTO {table} ({column}) VALUES (?)", (texts[-1],))
    connection.commit()
    connection.close()
    script, said, status = command(package, "from-sqlite", str(Path(folder, "hostile")), "--data")
    session = Session()
    for part in session.parts(script):
        session.execute(part).check()
    tables = [table.columns[0] for table in session.catalogue.tables.values()]
    rows = [session.execute(f"SELECT {table.columns[0].name} FROM {name};").rows for name, table in session.catalogue.tables.items()]
    refused = [session.execute(f"INSERT INTO {name} VALUES (?, NULL);", (text + "!",)).error is not None for name, text in zip(session.catalogue.tables, texts)]
    right = status == 0 and said.count("\n") == 1 and all(refused) and rows == [[(text,)] for text in texts] and [column.default for column in tables] == texts
    yield "hostile names and texts", [] if right else [said, script]


# ---- PostgreSQL

def of_postgresql(package, folder, words):
    """What is wrong with each small schema of PostgreSQL, and with pgbench's; None if there is no server."""
    if not binaries() or not shutil.which("psql"):
        yield "postgresql", None
        return
    room = Path(folder, "server")
    room.mkdir()
    os.chmod(folder, 0o755)
    with Server(str(room)) as server:
        for name, script, wanted, status in POSTGRESQL:
            asked(server, folder, "DROP SCHEMA public CASCADE; DROP SCHEMA IF EXISTS s CASCADE; CREATE SCHEMA public;" + script)
            yield name, differs(command(package, "from-postgresql", server.dsn), wanted, status)
        yield "no server", [] if command(package, "from-postgresql", "host=/none")[2] == 2 else ["it was read"]
        asked(server, folder, "DROP SCHEMA public CASCADE; DROP SCHEMA IF EXISTS s CASCADE; CREATE SCHEMA public;")
        subprocess.run([os.path.join(binaries(), "pgbench"), "-h", str(room), "-U", "tester", "-i", "-q", "-I", "dtpf", "postgres"], capture_output=True, check=True)
        script, _, status = command(package, "from-postgresql", server.dsn)
        yield "pgbench", ([f"the status is {status}"] if status != int("-- left out: " in script) else []) + alike_there(server, folder, script, words)


def asked(server, folder, script):
    """What psql says to a script."""
    file = Path(folder, "asked.sql")
    file.write_text(script)
    return server.psql(file, folder, "-c client_min_messages=warning", "UTF8").decode()


def alike_there(server, folder, script, words):
    """The random changes that aren't accepted in both or in neither, over the columns whose values are the same in both."""
    from sqlkeep import Session
    from sqlkeep.values import write_value

    session, choose, changes = Session(), random.Random(words.seed), []
    session.script(script)
    for _ in range(words.count):
        table = choose.choice(list(session.catalogue.tables.values()))
        some = {column.name: write_value(choose.choice(pool(column, True))) for column in table.columns if column.length != 4096}
        one, where = choose.choice(list(some)), choose.choice(list(some))
        changes.append(choose.choice([f"INSERT INTO {table.name} ({', '.join(some)}) VALUES ({', '.join(some.values())});"] * 3 + [f"UPDATE {table.name} SET {one} = {some[one]} WHERE {where} = {some[where]};", f"DELETE FROM {table.name} WHERE {where} = {some[where]};"]))
    here = [session.execute(change).error is None and session.commit().error is None for change in changes if session.rollback() is None]
    there = [line == "false" for line in asked(server, folder, "".join(f"{change}\n\\echo :ERROR\n" for change in changes)).splitlines() if line in ("true", "false")]
    if words.tell:
        print(f"pgbench: {sum(here)} of {len(here)} changes are accepted")
    return [f"{change} here {one}, there {other}" for change, one, other in zip(changes, here, there) if one != other] + ([] if len(here) == len(there) and 0 < sum(here) < len(here) else [f"{len(there)} answers"])


# ---- schemas of packages

def fetched(package, folder):
    """The folder with a package's files; None if there is none."""
    if any(glob.glob(f"/{file}") for file in PACKAGES[package]):
        return Path("/")
    try:
        subprocess.run(["apt-get", "download", "-q", package], cwd=folder, capture_output=True, check=True, timeout=60)
        archive = glob.glob(f"{folder}/{package}_*.deb")[0]
        subprocess.run(["dpkg-deb", "-x", archive, f"{folder}/{package}"], capture_output=True, check=True)
    except (OSError, subprocess.SubprocessError, IndexError):
        return None
    return Path(folder, package)


def pool(column, has_default):
    """Values for a column as the script declares it."""
    if column.length is None:
        values = [0, 1, 2, 3, 7]
    else:
        values = [value[:column.length] for value in ("a", "b", "cd", "1x")]
    return values + ([None] if has_default else [None, values[0]])


def change(choose, schema, table):
    """A random statement, for both."""
    from sqlkeep.values import write_value

    columns = list(zip((row[0] for row in schema[table.name.lower()][1]), table.columns))
    some = {there: write_value(choose.choice(pool(here, False))) for there, here in columns}
    name = schema[table.name.lower()][0]
    there, _ = choose.choice(columns)
    where, _ = choose.choice(columns)
    kind = choose.choice(["insert", "insert", "insert", "update", "delete"])
    if kind == "insert":
        return "INSERT INTO {} VALUES (" + ", ".join(some.values()) + ")", [name]
    if kind == "update":
        return f"UPDATE {{}} SET {{}} = {some[there]} WHERE {{}} = {write_value(pool(dict(columns)[where], True)[0])}", [name, there, where]
    return f"DELETE FROM {{}} WHERE {{}} = {some[where]}", [name, where]


def both(script, file, seed, count):
    """How many changes were answered alike, how many otherwise as a note says, and those that were answered otherwise without one. A null in
    a PRIMARY KEY is a number or a null in SQLite; what is refused there only is so by a rule that was left out."""
    from sqlkeep import Session

    session = Session()
    for part in session.parts(script):
        session.execute(part).check()
    connection = sqlite3.connect(file, isolation_level=None)
    connection.execute("PRAGMA foreign_keys = ON")
    catalogue, choose = session.catalogue, random.Random(seed)
    schema = {name.lower(): (name, connection.execute("SELECT name FROM pragma_table_info(?)", (name,)).fetchall()) for (name,) in connection.execute("SELECT name FROM sqlite_master WHERE type = 'table'").fetchall()}
    tables = [table for name, table in catalogue.tables.items() if name.lower() in schema and not renamed(table, schema)]
    alike, foretold, otherwise = 0, 0, []
    for _ in range(count if tables else 0):
        table = choose.choice(tables)
        template, names = change(choose, schema, table)
        here, wants_key = answer_here(session, template.format(*names) + ";", catalogue)
        there = answer_there(connection, template.format(*(f'"{name}"' for name in names)))
        for each in (session, connection):
            (each.commit if here and there else each.rollback)()
        if here == there:
            alike += 1
        elif (wants_key and "NULL" in template) if there else leaves_out(script, names[0].lower()):
            foretold += 1
        else:
            otherwise.append(f"{template.format(*names)}: here {here}, there {there}")
            break
    for table in tables:
        here = session.execute(f"SELECT COUNT(*) FROM {table.name};").rows[0][0]
        there = connection.execute(f'SELECT COUNT(*) FROM "{table.name}"').fetchone()[0]
        otherwise += [f"{table.name} has {here} rows here, {there} there"] if here != there else []
    connection.close()
    return alike, foretold, otherwise


def renamed(table, schema):
    return [column.name.lower() for column in table.columns] != [row[0].lower() for row in schema[table.name.lower()][1]]


def leaves_out(script, table):
    """Whether a note says that a rule of a table was left out: at the table, or at a foreign key of it or to it."""
    parts = script.lower().split("\n\n")
    return any("-- left out: " in part and any(words in part for words in (f"create table {table} ", f" of {table} to ", f" to {table} (")) for part in parts)


def answer_here(session, statement, catalogue):
    """Whether a change is accepted, and otherwise whether what is violated wants a column of a PRIMARY KEY not to be null. Its transaction
    stays open."""
    error = session.execute(statement).error
    violated = error.constraint if error is not None else next((each.constraint for each in session.pending()), None)
    if error is None and violated is None:
        return True, False
    found = catalogue.constraints.get(violated)
    key = {column for each in catalogue.constraints_of(found.table) if each.kind == "PRIMARY KEY" for column in each.columns} if found else set()
    return False, found is not None and found.kind in ("PRIMARY KEY", "NOT NULL") and key.issuperset(found.columns)


def answer_there(connection, statement):
    """Whether a change is accepted. Its transaction stays open. Of a foreign key to what isn't there SQLite says so in each change."""
    connection.execute("BEGIN")
    try:
        connection.execute(statement)
        return not connection.execute("PRAGMA foreign_key_check").fetchall()
    except (sqlite3.IntegrityError, sqlite3.OperationalError):
        return False


def shipped(package, folder, words):
    """What is wrong with each schema that packages ship; None for a package that can't be had."""
    for name, patterns in PACKAGES.items():
        room = fetched(name, folder)
        files = sorted(file for pattern in patterns for file in glob.glob(str(room / pattern))) if room else []
        if not files:
            yield name, None
        for file in files:
            yield f"{name}: {Path(file).name}", shipped_file(package, folder, file, words)


def shipped_file(package, folder, file, words):
    first = Path(file).with_name("standard-create.sql")
    database = made(folder, f"shipped-{abs(hash(file))}", (first.read_text() if first.exists() and first != Path(file) else "") + Path(file).read_text())
    script, said, status = command(package, "from-sqlite", database, "--data")
    wrong = [] if status == int("-- left out: " in script) else [f"the status is {status}: {said}"]
    connection = sqlite3.connect(database)
    names = [name for (name,) in connection.execute("SELECT name FROM sqlite_master WHERE name NOT LIKE 'sqlite\\_%' ESCAPE '\\'")]
    connection.close()
    wrong += [f"{name} is neither in the script nor in a note" for name in names if name.lower() not in script.lower()]
    alike, foretold, otherwise = both(script, database, words.seed, words.count)
    if words.tell:
        print(f"{Path(file).name}: {alike} alike, {foretold} foretold; {said.splitlines()[-1:]}")
    return wrong + otherwise


def main():
    parser = argparse.ArgumentParser()
    parser.add_argument("--library", default=str(ROOT / "out"))
    parser.add_argument("--only", choices=("cases", "shipped", "postgresql"))
    parser.add_argument("--tell", action="store_true")
    parser.add_argument("--seed", type=int, default=1)
    parser.add_argument("--count", type=int, default=200)
    words = parser.parse_args()
    wheels = glob.glob(os.path.join(words.library, "sqlkeep-*.whl"))
    if not wheels:
        print("the way in: skipped; the wheel is not there: ./build --library\n0 passed, 0 failed, 1 skipped")
        return 0
    results = []
    with tempfile.TemporaryDirectory(prefix="way-in-") as folder:
        package = Path(folder, "package")
        shutil.unpack_archive(wheels[0], package, "zip")
        sys.path.insert(0, str(package))
        if words.only in (None, "postgresql"):
            results += of_postgresql(package, folder, words)
        if words.only in (None, "cases"):
            results += [*cases(package, folder), *unreadable(package, folder), *hostile(package, folder, words)]
        if words.only in (None, "shipped"):
            results += shipped(package, folder, words)
    for name, wrong in results:
        if wrong is None:
            print(f"{name}: skipped; apt-get install {name}")
        elif wrong:
            print(f"{name}: " + "\n".join(wrong)[:4_000])
    skipped, failed = sum(wrong is None for _, wrong in results), sum(bool(wrong) for _, wrong in results)
    print(f"{len(results) - skipped - failed} passed, {failed} failed" + (f", {skipped} skipped" if skipped else ""))
    return int(failed > 0)


if __name__ == "__main__":
    sys.exit(main())
