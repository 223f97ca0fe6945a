"""Statements that are refused, with texts that look like lines of an account or end them, and the reasons of each as the program's JSON has
them. Who takes reasons out of lines must find the same."""
import json
import random
import subprocess

import json_lines

PIECES = [
    "\n", "\n", "\n  ", "'", "''", '"', ": ", ";", "isn't there", "isn'", "isn", ", which isn't there", "  ", "T_C9: T row 1 (1) has the key of row 2 (1)", "insert T row 1 ('x')", "delete ",
    "F CASCADE on T row 2", " is VARCHAR(", "counted so far ", "trigger R", "statement 1", "savepoint A isn't there", "\r", "\u2028", "\ufeff", "é", "\U0001f600", "\0", "\\", "--", "\n1 ok\n", "\n| ", "(", "),", "?",
]
SCHEMA = [
    "CREATE TABLE p (k VARCHAR(400) PRIMARY KEY, n INT)",
    "CREATE TABLE c (k VARCHAR(400) CONSTRAINT f REFERENCES p ON DELETE RESTRICT ON UPDATE CASCADE, n INT CONSTRAINT few CHECK (n < 100))",
    "CREATE TABLE d (k VARCHAR(400) CONSTRAINT later REFERENCES p INITIALLY DEFERRED, u VARCHAR(400) CONSTRAINT one UNIQUE INITIALLY DEFERRED)",
    "CREATE TABLE log (words VARCHAR(400) CHECK (words <> {0} OR words = {1}), n INT)",
    "CREATE TRIGGER keep BEFORE DELETE ON c REFERENCING OLD AS o FOR EACH ROW WHEN (o.k = {2}) SIGNAL {3}",
    "CREATE TRIGGER note AFTER UPDATE OF n ON c REFERENCING NEW AS n FOR EACH ROW INSERT INTO log VALUES (n.k, n.n * 4611686018427387904)",
    "CREATE TRIGGER follow AFTER UPDATE OF k ON c FOR EACH ROW INSERT INTO log VALUES ({0}, 1)",
]
# Each with places for texts; those in the second half need the rows of the first.
STATEMENTS = [
    "INSERT INTO p VALUES ({0}, {1})", "UPDATE p SET n = {0}", "INSERT INTO p VALUES ({0})", "SELECT n FROM p WHERE n = {0}", "SELECT {0} + n FROM p", "INSERT INTO c VALUES ({0}, 1)",
    "INSERT INTO c SELECT k, 100 FROM p", "INSERT INTO log VALUES ({0}, 1 + 9223372036854775807)", "INSERT INTO p SELECT {long}, n FROM p", "UPDATE c SET k = {long}", "SELECT {0} FROM nowhere", "SELECT nothing FROM p WHERE k = {0}",
    "RELEASE SAVEPOINT s", "DELETE FROM p", "DELETE FROM c WHERE k = {2}", "UPDATE c SET n = n + 3", "UPDATE p SET k = {0}", "INSERT INTO p VALUES ({2}, 9)", "SET CONSTRAINTS later, one IMMEDIATE", "INSERT INTO log VALUES ({0}, 1)",
]
BETWEEN = [
    ["ROLLBACK", "CREATE TABLE x{number} (a VARCHAR(3) DEFAULT {0})", "CREATE TABLE x{number} (a INT CHECK (a = {0}))"],
    ["ROLLBACK", "INSERT INTO d VALUES ({0}, {1}), ({1}, {1})", "COMMIT"],
    ["ROLLBACK", "ALTER TABLE c ADD CONSTRAINT never CHECK (k = {0} AND n < 0)"],
]


def literal(text):
    return "'" + text.replace("'", "''") + "'"


def statements(seed, count):
    """A schema with rows, and then this many statements of which nearly all are refused."""
    chance = random.Random(seed)

    def filled(text, number=0):
        words = [literal("".join(chance.choices(PIECES, k=chance.randint(1, 5)))) for _ in range(2)]
        return text.format(*words, *constants[2:], long=literal("\n".join(chance.choices(PIECES, k=401))), number=number)

    constants = [literal("".join(chance.choices(PIECES, k=5))) for _ in range(4)]
    made = [text.format(*constants) for text in SCHEMA]
    made += [f"INSERT INTO p VALUES ({constants[2]}, 7), ('p', 8)", f"INSERT INTO c VALUES ({constants[2]}, 1), ('p', 2)", "COMMIT"]
    while len(made) < count:
        made += [filled(text, len(made)) for text in chance.choice(BETWEEN)]
        made += [f"INSERT INTO d VALUES ({literal(chance.choice(PIECES))}, 'd'), ('p', 'd')", *(filled(chance.choice(STATEMENTS)) for _ in range(12))]
    return [*made, "ROLLBACK"]


def told(entries):
    """The lines of what a refusal is about, wherever it stands in an account."""
    for entry in entries:
        if entry["entry"] == "statement":
            yield from told(entry["account"])
        elif entry["entry"] in ("violation", "not_added", "failure", "savepoints", "limit"):
            yield from json_lines.entry_lines(entry)


def reasons(program, texts):
    """The reasons of each statement, by the program's JSON; None of one that is accepted."""
    script = ";\n".join([*texts, ""]).encode()
    done = subprocess.run([str(program), "--json", "--explain"], input=script, capture_output=True, check=False)
    outcomes = [json.loads(line) for line in done.stdout.split(b"\n") if line]
    assert len(outcomes) == len(texts), done.stderr.decode() or outcomes[-1]
    for outcome in outcomes:
        if outcome["kind"] != "refused":
            yield None
        else:
            about = [json_lines.about_text(outcome["about"]).strip(" ")] if "about" in outcome else []
            yield [*told(outcome["account"]), *about, *([outcome["reason"]] if "reason" in outcome else [])]
