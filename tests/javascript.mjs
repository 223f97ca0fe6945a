// The calls of a session in JavaScript: node javascript.mjs FOLDER. A line for each test, `ok NAME` or `FAILED NAME: why`.
import assert from "node:assert/strict";
import { readFileSync } from "node:fs";
import { pathToFileURL } from "node:url";
import { deflateRawSync } from "node:zlib";

const folder = process.argv[2];
const { EngineError, Refusal, Session, SyntaxFault, Trap, load } = await import(pathToFileURL(`${folder}/sqlkeep.mjs`));
const engine = await load(readFileSync(`${folder}/sqlkeep.wasm`));

const SCHEMA = `CREATE TABLE author (name VARCHAR(20) PRIMARY KEY);
CREATE TABLE book (title VARCHAR(30) PRIMARY KEY,
    author VARCHAR(20) CONSTRAINT written_by REFERENCES author ON DELETE CASCADE INITIALLY DEFERRED);`;

const parts = new URL("../page/parts/", import.meta.url);

const tests = {
  outcomes() {
    const session = engine.open();
    const outcomes = session.execute("CREATE TABLE t (a INT); INSERT INTO t VALUES (1), (2); SELECT a, a + 1 FROM t;");
    assert.deepEqual(outcomes.map(({ kind, count }) => [kind, count]), [["done", 0], ["changed", 2], ["rows", 2]]);
    assert.deepEqual(outcomes[2].rows, [[1, 2], [2, 3]]);
    assert.equal(outcomes[1].lines, "2 ok 2\n");
  },
  values() {
    const session = engine.open();
    session.execute("CREATE TABLE t (a INT, b VARCHAR(9));");
    session.execute("INSERT INTO t VALUES (9223372036854775807, 'é€😀'), (-9007199254740991, ''), (NULL, NULL);");
    assert.deepEqual(session.query("SELECT * FROM t;"), [[9223372036854775807n, "é€😀"], [-9007199254740991, ""], [null, null]]);
  },
  a_refused_commit() {
    const session = engine.open();
    session.execute(SCHEMA);
    session.execute("INSERT INTO book VALUES ('Dracula', 'Stoker');");
    assert.deepEqual(session.pending(), [{ row: 1, constraint: "WRITTEN_BY", key: ["Stoker"], other: null }]);
    assert.equal(session.inTransaction, true);
    assert.throws(() => session.commit(), (refusal) => refusal instanceof Refusal && refusal.cause === 19 && refusal.constraint === "WRITTEN_BY" && refusal.row === 1);
    assert.equal(session.inTransaction, false);
    assert.deepEqual(session.query("SELECT title FROM book;"), []);
  },
  two_rows_of_one_key() {
    const session = engine.open();
    session.execute("CREATE TABLE t (a INT, b VARCHAR(9), CONSTRAINT one UNIQUE (a, b) DEFERRABLE INITIALLY DEFERRED);");
    session.execute("INSERT INTO t VALUES (1, 'x'), (2, 'x'), (1, 'x');");
    const key = [1, "x"];
    assert.deepEqual(session.pending(), [{ row: 1, constraint: "ONE", key, other: 3 }, { row: 3, constraint: "ONE", key, other: 1 }]);
  },
  places_of_statements() {
    const session = engine.open();
    assert.equal(session.read(" COMMIT; -- one;\n SELECT ';' FROM t;", undefined).statements, 2);
    assert.deepEqual([session.place(0), session.place(1), session.place(2)], [{ begin: 1, end: 8 }, { begin: 18, end: 36 }, null]);
    session.read("SELECT ? FROM t; COMMIT; SELECT FROM", ["a long text;"]);
    assert.deepEqual([session.place(0), session.place(1)], [{ begin: 0, end: 16 }, { begin: 17, end: 24 }]);
    assert.deepEqual(session.fault, { at: 25, word: 32, end: 36, isCut: false });
  },
  messages() {
    const session = engine.open();
    assert.equal(session.message, "done");
    assert.throws(() => session.execute("SELECT a FROM t;"));
    assert.equal(session.message, "refused: Unknown: table T isn't there");
  },
  a_refusal_leaves_the_statements_before() {
    const session = engine.open();
    session.execute("CREATE TABLE t (a INT CHECK (a > 0));");
    assert.throws(() => session.execute("INSERT INTO t VALUES (1); INSERT INTO t VALUES (0);"), { name: "Refusal", message: "statement 2: Violation of T_C1 (CHECK): T row 2 (0) makes A > 0 false (0 > 0)", number: 2, lines: "2 refused 13 Violation T_C1 row 2\n" });
    assert.deepEqual(session.query("SELECT a FROM t;"), [[1]]);
  },
  an_account() {
    const session = engine.open({ explain: true });
    const [, insert] = session.execute("CREATE TABLE t (a INT); INSERT INTO t VALUES (7);");
    assert.equal(insert.lines, "2 ok 1\n  insert T row 1 (7)\n");
  },
  one_statement_after_the_other() {
    const session = engine.open();
    const steps = session.steps("CREATE TABLE t (a INT); INSERT INTO t VALUES (1);");
    assert.equal(steps.next().value.kind, "done");
    assert.equal(session.work().changes, 0);
    assert.equal(steps.next().value.count, 1);
    assert.equal(session.work().changes, 1);
    assert.equal(steps.next().done, true);
  },
  steps_beside_other_texts() {
    const session = engine.open();
    session.execute("CREATE TABLE a (x INT); CREATE TABLE b (x INT); INSERT INTO b VALUES (7);");
    for (const outcome of session.steps("INSERT INTO a VALUES (?); INSERT INTO a VALUES (2); INSERT INTO a SELECT x + ? FROM b;", [1, 3])) {
      assert.equal(outcome.count, 1);
      session.execute("SELECT x FROM b; DELETE FROM b WHERE x > 9; SELECT x FROM b;");
      session.read("DELETE FROM a; DELETE FROM a; DELETE FROM a;");
    }
    assert.deepEqual(session.query("SELECT x FROM a"), [[1], [2], [10]]);
    const [one, other] = [["1", "2"], ["3", "4"]].map((values) => session.steps(values.map((value) => `INSERT INTO a VALUES (${value}0);`).join("")));
    [one, other, one, other].forEach((steps) => assert.equal(steps.next().value.count, 1));
    assert.deepEqual([one.next().done, other.next().done], [true, true]);
    assert.deepEqual(session.query("SELECT x FROM a WHERE x > 10"), [[30], [20], [40]]);
  },
  steps_of_what_is_changed_in_between() {
    const session = engine.open(), values = [1, 2], bytes = new TextEncoder().encode("INSERT INTO t VALUES (?); INSERT INTO t VALUES (?);");
    session.execute("CREATE TABLE t (a INT)");
    const steps = session.steps(bytes, values);
    steps.next();
    values.fill(9);
    bytes.fill(32);
    session.read("COMMIT;");
    steps.next();
    assert.deepEqual(session.query("SELECT a FROM t"), [[1], [2]]);
  },
  a_byte_order_mark_in_a_value() {
    const session = engine.open(), texts = ["\ufeffx", "\ufeff", "x\ufeff", "\ufeff".repeat(4096)];
    session.execute("CREATE TABLE t (a VARCHAR(4096))");
    texts.forEach((text) => session.execute("INSERT INTO t VALUES (?)", [text]));
    assert.deepEqual(session.query("SELECT a FROM t"), texts.map((text) => [text]));
    session.execute("COMMIT; CREATE TABLE u (a VARCHAR(9) DEFAULT '\ufeffd' CONSTRAINT one UNIQUE INITIALLY DEFERRED);");
    assert.equal(session.catalogue().tables[1].columns[0].default, "\ufeffd");
    session.execute("INSERT INTO u VALUES ('\ufeffk'), ('\ufeffk')");
    assert.deepEqual(session.pending().map(({ key }) => key), [["\ufeffk"], ["\ufeffk"]]);
  },
  a_semicolon_that_is_left_out() {
    const session = engine.open();
    assert.equal(session.execute("CREATE TABLE t (a INT)")[0].kind, "done");
    assert.equal(session.execute("INSERT INTO t VALUES (?) -- one", [1])[0].count, 1);
    assert.deepEqual(session.query("SELECT a FROM t"), [[1]]);
    assert.throws(() => session.execute("INSERT INTO t VALUES (2); INSERT INTO t VALUES (3)"), (fault) => fault instanceof SyntaxFault && fault.isCut && fault.at === 26);
    assert.throws(() => session.execute("SELECT a FROM"), (fault) => fault.isCut && fault.word === 13 && fault.message === "no statement at line 1, column 1: the text ends within it");
    assert.deepEqual(session.fault, { at: 0, word: 13, end: 13, isCut: true });
    assert.throws(() => session.execute("INSERT INTO t VALUES ('x"), SyntaxFault);
    assert.deepEqual(session.execute(""), []);
    assert.deepEqual(session.query("SELECT COUNT(*) FROM t"), [[1]]);
  },
  sentences() {
    const commit = (session) => session.commit(), told = [
      ["", "SELECT * FROM uu", "Unknown: table UU isn't there"],
      ["CREATE TABLE t (a INT);", "CREATE TABLE t (b INT)", "Duplicate: table T is there already"],
      ["", "CREATE TABLE t (a INT REFERENCES t)", "SchemaFault: constraint T_C1 refers to T, which has no PRIMARY KEY"],
      ["CREATE TABLE t (a INT); INSERT INTO t VALUES (1);", "CREATE TABLE u (a INT)", "InTransaction: tables, constraints and triggers are made and dropped outside a transaction; COMMIT or ROLLBACK first"],
      ["", "RELEASE SAVEPOINT s", "NoTransaction: no transaction is open; START TRANSACTION first"],
      ["START TRANSACTION;", "RELEASE SAVEPOINT s", "UnknownSavepoint: savepoint S isn't there"],
      ["START TRANSACTION;", (session) => session.rollbackTo("s"), "UnknownSavepoint: there is no savepoint of that name"],
      ["CREATE TABLE t (a INT CONSTRAINT c NOT NULL); START TRANSACTION;", "SET CONSTRAINTS c DEFERRED", "NotDeferrable of C: constraint C is NOT DEFERRABLE"],
      ["CREATE TABLE t (a INT);", "INSERT INTO t VALUES (1, 2)", "WrongShape: tuple 1 has 2 values for 1 column of T"],
      ["CREATE TABLE t (a INT);", "INSERT INTO t VALUES (9223372036854775807 + 1)", "NumberOutOfRange: A of T: 9223372036854775807 + 1 is out of range"],
      ["CREATE TABLE t (a VARCHAR(3));", "INSERT INTO t VALUES ('four')", "TextTooLong: A of T is VARCHAR(3), and the text has 4 characters"],
      ["CREATE TABLE t (a INT, b VARCHAR(60) UNIQUE); INSERT INTO t VALUES (7, 'x\n  U: V row 9 (1): a');", "INSERT INTO t VALUES (7, 'x\n  U: V row 9 (1): a')",
        "Violation of T_C1 (UNIQUE (B)): T row 1 (7, 'x\n  U: V row 9 (1): a') has the key of row 2 (7, 'x\n  U: V row 9 (1): a')"],
      ["CREATE TABLE t (a INT CHECK (a > 0)); CREATE TABLE u (a INT); CREATE TRIGGER r AFTER INSERT ON u INSERT INTO t VALUES (0);", "INSERT INTO u VALUES (5)",
        "Violation of T_C1 (CHECK): T row 2 (0) makes A > 0 false (0 > 0), in trigger R"],
      ["CREATE TABLE t (a INT); CREATE TRIGGER guard BEFORE DELETE ON t SIGNAL 'it''s\n  kept';", "DELETE FROM t", "Signal of GUARD: it's\n  kept"],
      ["CREATE TABLE t (a INT); CREATE TRIGGER guard BEFORE DELETE ON t SIGNAL '';", "DELETE FROM t", "Signal of GUARD: "],
      ["CREATE TABLE t (a INT); CREATE TRIGGER again AFTER INSERT ON t INSERT INTO t VALUES (1);", "INSERT INTO t VALUES (0)",
        "DepthLimit of AGAIN: depth 17, and 16 is the most: AGAIN statement 1, AGAIN statement 1, AGAIN statement 1, .., AGAIN statement 1"],
      ["CREATE TABLE t (a INT CONSTRAINT p CHECK (a > 0) INITIALLY DEFERRED); INSERT INTO t VALUES (0), (-1);", " -- now\n commit", "CommitRefused of P: T row 1 (0) makes A > 0 false (0 > 0), and 1 more violation; the transaction is rolled back"],
      ["CREATE TABLE t (a INT CONSTRAINT p CHECK (a > 0) INITIALLY DEFERRED); INSERT INTO t VALUES (0);", commit, "CommitRefused of P: T row 1 (0) makes A > 0 false (0 > 0); the transaction is rolled back"],
      ["CREATE TABLE t (a INT); INSERT INTO t VALUES (0); COMMIT;", "ALTER TABLE t ADD CHECK (a > 0)", "AddRefused of T_C1 (CHECK): T row 1 (0) makes A > 0 false (0 > 0)"],
      ["", "CREATE TABLE t (a VARCHAR(4097))", "Limit: column A is a VARCHAR(4097), and 4096 is the most"],
    ];
    for (const [setting, call, message] of told) {
      for (const explain of [false, true]) {
        const session = engine.open({ explain });
        session.execute(setting);
        assert.throws(() => (typeof call === "string" ? session.execute(call) : call(session)), { name: "Refusal", message });
        assert.ok(explain || session.account.length === 0);
        assert.equal(session.message.startsWith("refused: "), true);
      }
    }
  },
  a_refusal_is_told_without_an_account() {
    const session = engine.open();
    session.execute("CREATE TABLE t (a INT, b VARCHAR(9) CONSTRAINT c CHECK (b <> 'x'))");
    assert.throws(() => session.execute("INSERT INTO t VALUES (1, 'y'), (2, 'x')"), { lines: "1 refused 13 Violation C row 2\n", row: 2, constraint: "C" });
    assert.deepEqual([session.account, session.query("SELECT * FROM t")], [[], []]);
    assert.equal(session.execute("INSERT INTO t VALUES (1, 'y')")[0].lines, "1 ok 1\n");
  },
  savepoints() {
    const session = engine.open();
    session.execute("CREATE TABLE t (a INT); START TRANSACTION; SAVEPOINT s; INSERT INTO t VALUES (1);");
    session.rollbackTo("s");
    assert.deepEqual(session.query("SELECT COUNT(*) FROM t;"), [[0]]);
    session.execute("SAVEPOINT ss");
    for (const name of ["NONE", "ß", "ſ", ""]) {
      assert.throws(() => session.rollbackTo(name), { name: "Refusal", cause: 7 });
    }
    session.rollback();
  },
  a_fault() {
    const session = engine.open();
    assert.throws(() => session.execute("COMMIT; SELEKT;"), (fault) => fault instanceof SyntaxFault && fault.at === 8 && fault.word === 8 && fault.end === 14 && !fault.isCut);
    assert.throws(() => session.execute("COMMIT; SELECT a FORM t;"), (fault) => fault.at === 8 && fault.word === 17 && fault.message === 'no statement at line 1, column 9: wrong word "FORM" at line 1, column 18');
    assert.throws(() => session.execute("COMMIT;\n -- é\nSELECT 'é😀', \"a\u001b\" FROM t"), { line: 3, column: 14, text: "", message: "no statement at line 3, column 1: no word begins at line 3, column 14" });
    assert.throws(() => session.execute("SELECT 'é😀'\n FROM\n 'é'\n; COMMIT;"), { line: 3, column: 2, text: "'é'", at: 0, message: `no statement at line 1, column 1: wrong word "'é'" at line 3, column 2` });
    assert.throws(() => session.execute("SELECT ? FORM t", [1]), { line: 1, column: 10, text: "FORM" });
    assert.deepEqual([session.read("SELECT a FROM t").faultAt, session.fault], [0, { at: 0, word: 15, end: 15, isCut: true }]);
    assert.deepEqual([session.read("COMMIT;").faultAt, session.fault], [null, null]);
  },
  limits_that_are_out_of_range() {
    for (const options of [{ depth: 65 }, { depth: 0 }, { depth: 260 }, { depth: -1 }, { changes: 65537 }, { changes: 2 ** 32 + 1 }, { depth: 2 ** 32 + 3 }]) {
      assert.throws(() => engine.open(options), (error) => error instanceof EngineError && error.status === 3);
      assert.throws(() => engine.run("COMMIT;", options), { status: 3 });
    }
    assert.equal(engine.run("COMMIT;", { depth: 64, changes: 65536 }).accepted, 1);
  },
  options_that_are_none() {
    const wrong = [[{ depth: "3" }, "depth is a whole number, not a value of type string"], [{ depth: 1.5 }, "depth is a whole number, not 1.5"], [{ changes: 1n }, "changes is a whole number, not 1"],
      [{ changes: null }, "changes is a whole number, not null"], [{ explian: true }, 'there is no option "explian": the options are depth, changes and explain'],
      [{ explain: "no" }, "explain is true or false, not a value of type string"], [null, "the options are an object, not null"], [7, "the options are an object, not 7"]];
    for (const [options, message] of wrong) {
      assert.throws(() => engine.open(options), { name: "TypeError", message });
    }
    const session = engine.open({ depth: undefined });
    assert.throws(() => session.explain("no"), { name: "TypeError", message: "explain is true or false, not a value of type string" });
  },
  texts_that_are_none() {
    const session = engine.open();
    for (const [text, words] of [[undefined, "a value of type undefined"], [5, "5"], [null, "null"], [["COMMIT;"], "a value of type object"]]) {
      const wanted = { name: "TypeError", message: `a text is a string or a Uint8Array, not ${words}` };
      for (const call of ["execute", "query", "read", "run", "rollbackTo"]) {
        assert.throws(() => session[call](text), wanted);
      }
    }
    session.execute("CREATE TABLE t (a VARCHAR(9))");
    for (const call of ["execute", "query", "read", "run", "rollbackTo"]) {
      assert.throws(() => session[call]("INSERT INTO t VALUES ('\ud800');"), { name: "TypeError", message: "a text has half of a character" });
    }
    assert.throws(() => session.execute(new Uint8Array([0xff])), { name: "EngineError", status: 4 });
    assert.deepEqual(session.query("SELECT a FROM t"), []);
  },
  places_that_are_none() {
    const session = engine.open();
    session.read("COMMIT;");
    for (const [at, words] of [[-1, "-1"], [0.5, "0.5"], [undefined, "a value of type undefined"], ["0", "a value of type string"], [2n ** 64n, "18446744073709551616"]]) {
      assert.throws(() => session.attempt(at), { name: "TypeError", message: `a place is a whole number from 0, not ${words}` });
      assert.throws(() => session.place(at), { name: "TypeError" });
    }
    assert.throws(() => session.attempt(2 ** 32), { status: 7 });
    assert.equal(session.place(2 ** 32), null);
    assert.equal(session.attempt(0n, 7).lines, "7 ok\n");
  },
  a_closed_session() {
    const session = engine.open();
    session.close();
    session.close();
    assert.throws(() => session.commit(), { name: "EngineError", message: "the session is closed" });
  },
  values_at_question_marks() {
    const session = engine.open();
    session.execute("CREATE TABLE t (a INT, b VARCHAR(60));");
    const texts = ["'; DROP TABLE t; --", "?", "", "it's", "a -- b", "é€😀", "line\nline"];
    texts.forEach((text, at) => session.execute("INSERT INTO t VALUES (?, ?);", [at, text]));
    assert.deepEqual(session.query("SELECT b FROM t;"), texts.map((text) => [text]));
    assert.deepEqual(session.query("SELECT a FROM t WHERE b = ? AND a = ?;", ["it's", 3]), [[3]]);
    session.execute("INSERT INTO t VALUES (?, ?); INSERT INTO t VALUES (5 -?, NULL);", [-9223372036854775808n, null, -1]);
    assert.deepEqual(session.query("SELECT a, b FROM t WHERE b IS NULL;"), [[-9223372036854775808n, null], [6, null]]);
  },
  values_that_are_none() {
    const session = engine.open();
    session.execute("CREATE TABLE t (a INT);");
    for (const value of [1.5, NaN, 2 ** 53, true, undefined, {}, "\ud800"]) {
      assert.throws(() => session.execute("INSERT INTO t VALUES (?);", [value]), TypeError);
    }
    assert.throws(() => session.execute("INSERT INTO t VALUES (?);", [2n ** 63n]), RangeError);
    for (const [values, words] of [["ab", "a value of type string"], [{ 0: 1 }, "a value of type object"], [null, "null"], [7, "7"], [new Map(), "a value of type object"]]) {
      assert.throws(() => session.execute("INSERT INTO t VALUES (?);", values), { name: "TypeError", message: `the values are an array, not ${words}` });
    }
    session.execute("CREATE TABLE u (a INT, b INT, c INT)");
    assert.throws(() => session.execute("INSERT INTO u VALUES (?, ?, ?);", [1, , 2]), { name: "TypeError", message: "a value of type undefined is none: null, an exact integer, a BigInt or a string is one" });
    assert.deepEqual(session.query("SELECT a FROM t;"), []);
  },
  templates_with_another_number_of_values() {
    const session = engine.open();
    assert.throws(() => session.execute("SELECT ? FROM t;", []), { name: "EngineError", status: 9, message: "the template has another number of question marks than there are values" });
    assert.throws(() => session.execute("SELECT '?' FROM t;", [1]), { status: 9 });
    assert.throws(() => session.execute("SELECT ? # FROM t;", [1]), { status: 10 });
    assert.throws(() => session.execute("SELECT ? FROM t;"), (fault) => fault instanceof SyntaxFault && fault.at === 0);
  },
  columns_of_a_query() {
    const session = engine.open();
    session.execute("CREATE TABLE t (a INT, b INT);");
    assert.deepEqual(session.execute("SELECT * FROM t;")[0].columns, ["A", "B"]);
    assert.deepEqual(session.execute("SELECT b, a + 1 FROM t;")[0].columns, ["B", ""]);
    assert.deepEqual(session.execute("SELECT COUNT(*) FROM t;")[0].columns, ["COUNT"]);
  },
  a_refusal_as_an_outcome() {
    const session = engine.open();
    assert.deepEqual(session.read("CREATE TABLE t (a INT CHECK (a > 0)); INSERT INTO t VALUES (0); SELEKT"), { statements: 2, faultAt: 64 });
    assert.equal(session.attempt(0).kind, "done");
    const refused = session.attempt(1);
    assert.deepEqual([refused.kind, refused.cause, refused.reason, refused.constraint, refused.row, refused.lines], ["refused", 13, "13 Violation", "T_C1", 1, "2 refused 13 Violation T_C1 row 1\n"]);
    assert.throws(() => session.attempt(2), { status: 7 });
  },
  a_refusal_in_a_trigger() {
    const session = engine.open();
    session.execute("CREATE TABLE t (a INT); CREATE TRIGGER stop BEFORE DELETE ON t SIGNAL 'it''s kept';");
    assert.throws(() => session.execute("DELETE FROM t;"), { cause: 15, trigger: "STOP", signal: "it's kept", constraint: null, row: null });
  },
  an_account_as_objects() {
    const session = engine.open({ explain: true });
    session.execute(SCHEMA);
    session.execute("CREATE TABLE removed (title VARCHAR(30)); CREATE TRIGGER log AFTER DELETE ON book REFERENCING OLD AS o OLD TABLE AS olds FOR EACH ROW INSERT INTO removed VALUES (o.title);");
    session.execute("INSERT INTO author VALUES ('O''Hara'); INSERT INTO book VALUES ('One\nTwo', 'O''Hara'); DELETE FROM author;");
    const gone = ["One\nTwo", "O'Hara"];
    assert.deepEqual(session.account, [
      { kind: "delete", table: "AUTHOR", row: 1, before: ["O'Hara"], after: null },
      { kind: "action", constraint: "WRITTEN_BY", action: "CASCADE", table: "BOOK", row: 2 },
      { kind: "delete", table: "BOOK", row: 2, before: gone, after: null },
      { kind: "trigger", trigger: "LOG", old: gone, new: null, saw: [], statements: [
        { kind: "statement", place: 1, entries: [{ kind: "insert", table: "REMOVED", row: 3, before: null, after: ["One\nTwo"] }] }] },
    ]);
  },
  skipped_triggers_as_objects() {
    const session = engine.open({ explain: true });
    session.execute("CREATE TABLE t (a INT, b VARCHAR(19)); CREATE TABLE u (a INT);");
    session.execute("CREATE TRIGGER hold BEFORE INSERT ON t WHEN (NULL > 0) SIGNAL 'no'; CREATE TRIGGER take AFTER INSERT ON t REFERENCING NEW AS n FOR EACH ROW WHEN (n.a > 1) BEGIN ATOMIC DELETE FROM u; INSERT INTO u VALUES (n.a); END;");
    session.execute("INSERT INTO t VALUES (1, 'x skipped: '), (2, NULL);");
    assert.deepEqual(session.account, [
      { kind: "skipped", trigger: "HOLD", old: null, new: null, when: "unknown" },
      { kind: "insert", table: "T", row: 1, before: null, after: [1, "x skipped: "] },
      { kind: "insert", table: "T", row: 2, before: null, after: [2, null] },
      { kind: "skipped", trigger: "TAKE", old: null, new: [1, "x skipped: "], when: "false" },
      { kind: "trigger", trigger: "TAKE", old: null, new: [2, null], saw: [], statements: [
        { kind: "statement", place: 1, entries: [], changesNothing: true },
        { kind: "statement", place: 2, entries: [{ kind: "insert", table: "U", row: 3, before: null, after: [2] }] }] },
    ]);
  },
  foreign_keys_that_disagree_as_objects() {
    const session = engine.open({ explain: true });
    session.execute("CREATE TABLE p (k INT UNIQUE, l INT UNIQUE); CREATE TABLE c (x INT CONSTRAINT f REFERENCES p (k) ON UPDATE SET NULL CONSTRAINT g REFERENCES p (l) ON UPDATE CASCADE); INSERT INTO p VALUES (5, 5); INSERT INTO c VALUES (5);");
    assert.throws(() => session.execute("UPDATE p SET k = 6, l = 7;"), { cause: 14 });
    assert.deepEqual(session.account.at(-1), { kind: "violation", constraint: "G", table: "C", row: 2, values: [5], reason: "conflict", otherTable: "P", other: [5], otherConstraint: "F", column: "X", otherValue: null, value: 7 });
  },
  violations_as_objects() {
    const session = engine.open({ explain: true });
    session.execute(SCHEMA);
    session.execute("INSERT INTO book VALUES ('Dracula', 'Stoker'), ('Emma', 'Austen');");
    assert.throws(() => session.commit(), { cause: 19 });
    const violation = (row, values) => ({ kind: "violation", constraint: "WRITTEN_BY", table: "BOOK", row, values, reason: "absent", otherTable: "AUTHOR", other: [values[1]] });
    assert.deepEqual(session.account, [violation(1, ["Dracula", "Stoker"]), violation(2, ["Emma", "Austen"])]);
  },
  each_reason_of_a_violation() {
    const session = engine.open({ explain: true });
    session.execute("CREATE TABLE p (k INT PRIMARY KEY, l INT UNIQUE); CREATE TABLE c (x INT NOT NULL, CONSTRAINT f FOREIGN KEY (x) REFERENCES p ON DELETE RESTRICT ON UPDATE CASCADE);");
    session.execute("ALTER TABLE c ADD CONSTRAINT g FOREIGN KEY (x) REFERENCES p (l) ON UPDATE CASCADE; CREATE TABLE m (x INT, y INT UNIQUE, z INT CHECK (z > 0)); CREATE TABLE q (a INT, b INT, PRIMARY KEY (a, b));");
    session.execute("CREATE TABLE full_key (a INT, b INT, FOREIGN KEY (a, b) REFERENCES q MATCH FULL); INSERT INTO p VALUES (5, 5); INSERT INTO c VALUES (5); INSERT INTO m VALUES (1, 1, 1);");
    const reason = (text) => {
      assert.throws(() => session.execute(text), Refusal);
      return session.account.find((entry) => entry.kind === "violation").reason;
    };
    const texts = ["INSERT INTO m VALUES (1, 2, 0);", "INSERT INTO c VALUES (NULL);", "INSERT INTO m VALUES (1, 1, 1);", "INSERT INTO q VALUES (1, NULL);", "INSERT INTO c VALUES (6);", "INSERT INTO full_key VALUES (1, NULL);",
      "DELETE FROM p;", "UPDATE p SET k = 6, l = 7;"];
    assert.deepEqual(texts.map(reason), ["condition", "null", "key", "null key", "absent", "some nulls", "restrict", "conflict"]);
    assert.throws(() => session.execute(texts[0]), Refusal);
    const { constraint, rule, condition, withValues } = session.account.find((entry) => entry.kind === "violation");
    assert.deepEqual([constraint, rule, condition, withValues], ["M_C2", "CHECK", "Z > 0", "0 > 0"]);
    assert.throws(() => session.execute(texts[5]), Refusal);
    assert.equal(session.account.find((entry) => entry.kind === "violation").rule, "FOREIGN KEY (A, B) REFERENCES Q (A, B) MATCH FULL");
  },
  savepoints_that_stand() {
    const session = engine.open({ explain: true });
    session.execute("START TRANSACTION; SAVEPOINT a; SAVEPOINT b;");
    assert.throws(() => session.execute("RELEASE SAVEPOINT c;"), { message: "UnknownSavepoint: savepoint C isn't there", lines: "1 refused 7 UnknownSavepoint\n  savepoints that stand: A, B\n  savepoint C isn't there\n" });
    assert.deepEqual(session.account, [{ kind: "savepoints", standing: ["A", "B"] }, { kind: "note", text: "savepoint C isn't there" }]);
    session.execute("RELEASE SAVEPOINT a;");
    assert.throws(() => session.execute("ROLLBACK TO SAVEPOINT a;"), { cause: 7 });
    assert.deepEqual(session.account[0], { kind: "savepoints", standing: [] });
  },
  a_constraint_that_is_not_added() {
    const session = engine.open({ explain: true });
    session.execute("CREATE TABLE t (a INT); INSERT INTO t VALUES (7), (7); COMMIT;");
    assert.throws(() => session.execute("ALTER TABLE t ADD CONSTRAINT one UNIQUE (a);"), { cause: 20 });
    assert.deepEqual(session.account, [{ kind: "violation", constraint: "ONE", table: "T", row: 1, values: [7], reason: "key", otherRow: 2, other: [7] }]);
  },
  names_in_an_account() {
    const session = engine.open({ explain: true });
    assert.throws(() => session.execute("SELECT a FROM nowhere;"), { lines: "1 refused 1 Unknown\n  table NOWHERE isn't there\n" });
    assert.deepEqual(session.account, [{ kind: "note", text: "table NOWHERE isn't there" }]);
  },
  a_catalogue() {
    const session = engine.open();
    assert.deepEqual(session.catalogue(), { tables: [], constraints: [], triggers: [] });
    session.execute("CREATE TABLE p (k INT DEFAULT 7, l VARCHAR(9) DEFAULT 'none', PRIMARY KEY (l, k));");
    session.execute("CREATE TABLE c (x INT, y VARCHAR(9) NOT NULL, CONSTRAINT f FOREIGN KEY (x, y) REFERENCES p (k, l) MATCH FULL ON DELETE SET NULL ON UPDATE CASCADE INITIALLY DEFERRED, UNIQUE NULLS NOT DISTINCT (y) DEFERRABLE, CHECK (x > 0));");
    session.execute("CREATE TRIGGER r AFTER UPDATE OF y ON c FOR EACH ROW BEGIN ATOMIC DELETE FROM p; DELETE FROM c; END;");
    const { tables, constraints, triggers } = session.catalogue();
    assert.deepEqual(tables[0], { name: "P", columns: [{ name: "K", type: "INTEGER", length: null, default: 7 }, { name: "L", type: "VARCHAR", length: 9, default: "none" }] });
    assert.deepEqual(constraints.map(({ name, table, kind, columns }) => [name, table, kind, columns]),
      [["P_C1", "P", "PRIMARY KEY", ["L", "K"]], ["C_C1", "C", "NOT NULL", ["Y"]], ["F", "C", "FOREIGN KEY", ["X", "Y"]], ["C_C3", "C", "UNIQUE", ["Y"]], ["C_C4", "C", "CHECK", []]]);
    assert.deepEqual(constraints[2], { name: "F", table: "C", kind: "FOREIGN KEY", columns: ["X", "Y"], isDeferrable: true, isInitiallyDeferred: true, isDeferred: true, nullsNotDistinct: false, referenced: "P",
      referencedColumns: ["K", "L"], isMatchFull: true, onDelete: "SET NULL", onUpdate: "CASCADE", condition: null });
    assert.deepEqual([constraints[3].nullsNotDistinct, constraints[3].isDeferrable, constraints[3].isInitiallyDeferred, constraints[3].referenced, constraints[3].onDelete], [true, true, false, null, null]);
    assert.deepEqual(constraints.map(({ condition }) => condition), [null, null, null, null, "X > 0"]);
    const deferred = () => session.catalogue().constraints.filter(({ isDeferred }) => isDeferred).map(({ name }) => name);
    session.execute("START TRANSACTION; SAVEPOINT s; SET CONSTRAINTS ALL IMMEDIATE; SET CONSTRAINTS c_c3 DEFERRED;");
    assert.deepEqual(deferred(), ["C_C3"]);
    session.rollbackTo("s");
    assert.deepEqual(deferred(), ["F"]);
    assert.deepEqual(triggers, [{ name: "R", table: "C", time: "AFTER", event: "UPDATE", forEach: "ROW", columns: ["Y"], statements: 2 }]);
  },
  a_dump() {
    const [session, copy] = [engine.open(), engine.open()];
    session.execute("CREATE TABLE t (a INT PRIMARY KEY, b VARCHAR(9) CHECK (b <> 'é')); INSERT INTO t VALUES (1, 'it''s'), (2, NULL);");
    assert.throws(() => session.dump(), { name: "EngineError", message: "a transaction is open", status: 11 });
    session.commit();
    const scripts = session.dump();
    scripts.forEach((script) => copy.execute(script));
    assert.deepEqual([copy.dump(), copy.catalogue()], [scripts, session.catalogue()]);
    assert.deepEqual(copy.query("SELECT * FROM t;"), [[1, "it's"], [2, null]]);
  },
  a_trap() {
    // A function that traps in place of one of the module's: none of its own does.
    const { exports } = new WebAssembly.Instance(new WebAssembly.Module(readFileSync(`${folder}/sqlkeep.wasm`)), {});
    const trapping = () => { throw new WebAssembly.RuntimeError("unreachable"); };
    const session = new Session({ exports: { ...exports, sqlkeep_execute: trapping } }, 16, 65536, false);
    assert.throws(() => session.execute("CREATE TABLE t (a INT);"), (error) => error instanceof Trap && error.message === "the engine stopped in sqlkeep_execute: unreachable");
    assert.throws(() => session.execute("COMMIT;"), { name: "EngineError", message: "the session was given up after a trap" });
    session.close();
    assert.equal(engine.open().execute("COMMIT;")[0].kind, "done");
  },
  async an_address_that_inflates() {
    const { addressOf, scriptOf } = await import(new URL("share.mjs", parts));
    const script = "\ufeffSELECT 'é€😀' FROM t;\n".repeat(30000);
    assert.equal((await scriptOf(await addressOf(script, 7, {}))).script, script);
    const most = "-- ".padEnd(1 << 20, "x");
    assert.equal((await scriptOf(await addressOf(most, 0, {}))).script, most);
    await assert.rejects(addressOf(`${most}x`, 0, {}).then(scriptOf), { message: "the script is longer than 1,048,576 bytes" });
    const before = process.resourceUsage().maxRSS, bomb = deflateRawSync(Buffer.alloc(300e6)).toString("base64url");
    const packed = process.resourceUsage().maxRSS;
    await assert.rejects(scriptOf(`#s=${bomb}`), { message: "the script is longer than 1,048,576 bytes" });
    assert.ok(process.resourceUsage().maxRSS - packed < 60000, `${packed - before} kB, and then ${process.resourceUsage().maxRSS - packed} kB`);
    await assert.rejects(scriptOf(`#s=${bomb.slice(0, 100)}`), { message: "the script in the address is damaged or cut off" });
  },
  two_sessions() {
    const [one, other] = [engine.open(), engine.open()];
    one.execute("CREATE TABLE t (a INT);");
    assert.throws(() => other.execute("INSERT INTO t VALUES (1);"), { name: "Refusal", cause: 1 });
  },
};

for (const [name, test] of Object.entries(tests)) {
  try {
    await test();
    console.log(`ok ${name}`);
  } catch (error) {
    console.log(`FAILED ${name}: ${error.message.replaceAll("\n", " ")}`);
  }
}
