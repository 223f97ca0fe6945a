//! Statements, values, refusals and transactions through the crate.
use sqlkeep::{Cause, Error, Place, Session, SyntaxError, Value, Violation};

fn books() -> Session {
    let mut session = Session::open().unwrap();
    session
        .execute_batch(
            "CREATE TABLE author (name VARCHAR(20) PRIMARY KEY, born INT);
             CREATE TABLE book (title VARCHAR(20), author VARCHAR(20)
                 CONSTRAINT written_by REFERENCES author ON DELETE CASCADE INITIALLY DEFERRED, pages INT CONSTRAINT some CHECK (pages > 0));
             INSERT INTO author VALUES ('Austen', 1775); COMMIT;",
        )
        .unwrap();
    session
}

fn refused(error: Error) -> sqlkeep::Refusal {
    match error {
        Error::Refused(refusal) => *refusal,
        other => panic!("{other}"),
    }
}

#[test]
fn values_come_back_as_they_were() {
    let mut session = Session::open().unwrap();
    session.execute_batch("CREATE TABLE t (a INT, b VARCHAR(60)); COMMIT;").unwrap();
    let texts = ["'; DROP TABLE t; --", "?", "", "it''s", "x'); INSERT INTO t VALUES (9, 'y", "\u{e9}\u{20ac}", "a\nb", "-- no comment"];
    for (at, text) in texts.iter().enumerate() {
        assert_eq!(session.execute("INSERT INTO t VALUES (?, ?)", (at as i32, text)), Ok(1));
        let found: String = session.query_one::<(String,)>("SELECT b FROM t WHERE a = ? AND b = ?", (at as u32, text)).unwrap().0;
        assert_eq!(&found, text);
    }
    for number in [i64::MIN, i64::MAX, -1, 0] {
        session.execute("DELETE FROM t", ()).unwrap();
        session.execute("INSERT INTO t (a) VALUES (?)", [number]).unwrap();
        assert_eq!(session.query::<(i64, Option<String>)>("SELECT a, b FROM t;", ()), Ok(vec![(number, None)]));
    }
}

#[test]
fn rows_become_what_is_asked_for() {
    let mut session = books();
    session.execute("INSERT INTO book VALUES ('Emma', 'Austen', NULL)", ()).unwrap();
    let rows: Vec<Vec<Value>> = session.query("SELECT * FROM book", ()).unwrap();
    assert_eq!(rows, [[Value::Text("Emma".into()), Value::Text("Austen".into()), Value::Null]]);
    assert_eq!(session.columns(), ["TITLE", "AUTHOR", "PAGES"]);
    let wrong = session.query::<(String, i64, Option<i64>)>("SELECT * FROM book", ());
    assert_eq!(wrong, Err(Error::Type { column: 1, wanted: "i64" }));
    assert_eq!(session.query::<(String,)>("SELECT title, pages FROM book", ()), Err(Error::Type { column: 1, wanted: "column of a shorter row" }));
    assert_eq!(session.query::<(String, i64)>("SELECT title FROM book", ()), Err(Error::Type { column: 1, wanted: "i64" }));
    assert_eq!(session.query_one::<(u8,)>("SELECT born FROM author", ()), Err(Error::Type { column: 0, wanted: "u8" }));
    assert_eq!(session.query_one::<(i64,)>("SELECT born FROM author WHERE born = 0", ()), Err(Error::RowCount(0)));
    assert_eq!(session.query_one::<(i64,)>("SELECT COUNT(*) FROM author", ()), Ok((1,)));
    session.execute("INSERT INTO author (name) VALUES ('Bront\u{eb}')", ()).unwrap();
    assert_eq!(session.query_one::<(String,)>("SELECT name FROM author", ()), Err(Error::RowCount(2)));
}

#[test]
fn places_and_keys() {
    let mut session = Session::open().unwrap();
    session.execute_batch(" CREATE TABLE t (a INT CONSTRAINT one UNIQUE DEFERRABLE INITIALLY DEFERRED); INSERT INTO t VALUES (7), (7);").unwrap();
    assert_eq!(session.statement_places(), Ok(vec![1..76, 77..107]));
    let wanted = |row, other| Violation { constraint: "ONE".into(), row, key: vec![Value::Integer(7)], other: Some(other) };
    assert_eq!(session.pending(), Ok(vec![wanted(1, 2), wanted(2, 1)]));
}

#[test]
fn a_refusal_says_what_it_is_about() {
    let mut session = books();
    let refusal = refused(session.execute("INSERT INTO book VALUES ('Emma', 'Austen', 0)", ()).unwrap_err());
    assert_eq!((refusal.cause, refusal.constraint.as_deref(), refusal.row), (Cause::Violation, Some("SOME"), Some(2)));
    assert_eq!(refusal.reasons, ["SOME: BOOK row 2 ('Emma', 'Austen', 0) makes PAGES > 0 false (0 > 0)"]);
    let refusal = refused(session.execute("INSERT INTO boook VALUES (1)", ()).unwrap_err());
    assert_eq!((refusal.cause, &refusal.reasons[..]), (Cause::Unknown, &["table BOOOK isn't there".to_string()][..]));
    assert_eq!(session.message().as_deref(), Ok("refused: Unknown: table BOOOK isn't there"));
    session.execute("INSERT INTO book VALUES ('Dracula', 'Stoker', 1), ('Frankenstein', 'Shelley', 2)", ()).unwrap();
    let wanted = |row, author: &str| Violation { constraint: "WRITTEN_BY".into(), row, key: vec![Value::Text(author.into())], other: None };
    assert_eq!(session.pending(), Ok(vec![wanted(2, "Stoker"), wanted(3, "Shelley")]));
    let refusal = refused(session.commit().unwrap_err());
    assert_eq!((refusal.cause, refusal.row, refusal.reasons.len()), (Cause::CommitRefused, Some(2), 2));
    assert_eq!(refusal.reasons[1], "WRITTEN_BY: BOOK row 3 ('Frankenstein', 'Shelley', 2) refers to AUTHOR ('Shelley'), which isn't there");
    assert!(!session.in_transaction());
    assert_eq!(session.query::<(String,)>("SELECT title FROM book", ()), Ok(vec![]));
}

#[test]
fn a_commit_by_its_text_is_executed_once() {
    let mut session = books();
    session.execute("INSERT INTO book VALUES ('Dracula', 'Stoker', 1)", ()).unwrap();
    let refusal = refused(session.execute("-- now\n commit", ()).unwrap_err());
    assert_eq!((refusal.cause, refusal.reasons.len()), (Cause::CommitRefused, 1));
    assert!(!session.in_transaction());
}

// What a refusal of the second text says, after the first.
fn told(setting: &str, text: &str) -> String {
    let mut session = Session::open().unwrap();
    session.execute_batch(setting).unwrap();
    session.execute(text, ()).unwrap_err().to_string()
}

#[test]
fn each_cause_has_its_reason() {
    assert_eq!(told("", "CREATE TABLE t (a INT REFERENCES t)"), "SchemaFault: constraint T_C1 refers to T, which has no PRIMARY KEY");
    assert_eq!(told("CREATE TABLE t (a INT, a2 INT);", "INSERT INTO t VALUES (1)"), "WrongShape: tuple 1 has 1 value for 2 columns of T");
    assert_eq!(told("CREATE TABLE t (a INT);", "INSERT INTO t VALUES ('a: b')"), "WrongShape: 'a: b' is a text, and column A of T is an INTEGER");
    assert_eq!(told("", "CREATE TABLE t (a VARCHAR(4097))"), "Limit: column A is a VARCHAR(4097), and 4096 is the most");
    assert_eq!(told("", "CREATE TABLE t (a INT, b INT, a INT)"), "Duplicate: column A comes twice");
    assert_eq!(told("CREATE TABLE t (a INT CONSTRAINT c NOT NULL); START TRANSACTION;", "SET CONSTRAINTS c DEFERRED"), "NotDeferrable: constraint C is NOT DEFERRABLE");
    assert_eq!(told("START TRANSACTION; SAVEPOINT a;", "RELEASE SAVEPOINT s"), "UnknownSavepoint: savepoints that stand: A; savepoint S isn't there");
    assert_eq!(told("CREATE TABLE t (a INT);", "INSERT INTO t VALUES (9223372036854775807 + 1)"), "NumberOutOfRange: A of T: 9223372036854775807 + 1 is out of range");
    assert_eq!(
        told("CREATE TABLE t (a INT); CREATE TRIGGER again AFTER INSERT ON t INSERT INTO t VALUES (1);", "INSERT INTO t VALUES (0)"),
        "DepthLimit: depth 17, and 16 is the most: AGAIN statement 1, AGAIN statement 1, AGAIN statement 1, .., AGAIN statement 1"
    );
    let acted = "CREATE TABLE p (k INT PRIMARY KEY); CREATE TABLE c (k INT CONSTRAINT f REFERENCES p ON DELETE CASCADE);
        CREATE TABLE d (a INT CONSTRAINT few CHECK (a < 1)); CREATE TRIGGER r AFTER DELETE ON c INSERT INTO d VALUES (1);
        INSERT INTO p VALUES (7); INSERT INTO c VALUES (7); COMMIT;";
    assert_eq!(told(acted, "DELETE FROM p"), "Violation: FEW: D row 3 (1) makes A < 1 false (1 < 1)");
}

#[test]
fn texts_forge_no_line_of_an_account() {
    let forged = "x\n  T_C9: forged reason\n1 ok\n  it's isn't there\n";
    let written = format!("'{}'", forged.replace('\'', "''"));
    let mut session = Session::open().unwrap();
    session.execute_batch("CREATE TABLE t (a VARCHAR(300) PRIMARY KEY, b INT);").unwrap();
    session.execute("INSERT INTO t VALUES (?, 1)", (forged,)).unwrap();
    let refusal = refused(session.execute("INSERT INTO t VALUES (?, 2)", (forged,)).unwrap_err());
    assert_eq!(refusal.reasons, [format!("T_C1 (PRIMARY KEY (A)): T row 1 ({written}, 1) has the key of row 2 ({written}, 2)")]);
    let refusal = refused(session.execute("UPDATE t SET b = ?", (forged,)).unwrap_err());
    assert_eq!(refusal.reasons, [format!("{written} is a text, and column B of T is an INTEGER")]);
    session.explain(true);
    session.execute("DELETE FROM t", ()).unwrap();
    assert_eq!(session.account(), Ok(vec![format!("  delete T row 1 ({written}, 1)")]));
    session.execute("INSERT INTO t VALUES (?, 1)", (forged,)).unwrap();
    session.query::<(String, i64)>("SELECT * FROM t", ()).unwrap();
    assert_eq!(session.account(), Ok(vec!["  columns A, B".to_string()]));
    session.execute_batch(&format!("COMMIT; CREATE TRIGGER r BEFORE DELETE ON t SIGNAL {written};")).unwrap();
    let refusal = refused(session.execute("DELETE FROM t", ()).unwrap_err());
    assert_eq!((refusal.signal.as_deref(), refusal.reasons), (Some(forged), vec![]));
    assert_eq!(session.account(), Ok(vec!["  trigger R".to_string()]));
}

#[test]
fn names_of_any_length_are_whole() {
    let (table, mut session) = ("T".repeat(128), Session::open().unwrap());
    session.execute_batch(&format!("CREATE TABLE {table} (a INT UNIQUE INITIALLY DEFERRED); INSERT INTO {table} VALUES (1), (1);")).unwrap();
    assert_eq!(session.pending().unwrap()[1].constraint, format!("{table}_C1"));
    assert_eq!(session.catalogue().constraints[0].name, format!("{table}_C1"));
}

#[test]
fn a_transaction_whose_body_panics_is_rolled_back() {
    let mut session = books();
    let body = |it: &mut Session| -> sqlkeep::Result<()> {
        it.execute("DELETE FROM author", ())?;
        panic!("in the body")
    };
    assert!(std::panic::catch_unwind(std::panic::AssertUnwindSafe(|| session.transaction(body))).is_err());
    assert!(!session.in_transaction());
    assert_eq!(session.query_one::<(i64,)>("SELECT COUNT(*) FROM author", ()), Ok((1,)));
    session.commit().unwrap();
    let refusal = refused(session.transaction(|it| it.execute("INSERT INTO book VALUES ('Dracula', 'Stoker', 1)", ())).unwrap_err());
    assert_eq!((refusal.cause, session.in_transaction()), (Cause::CommitRefused, false));
    assert_eq!(session.transaction(|it| it.execute("INSERT INTO author VALUES ('Shelley', 1797)", ())), Ok(1));
    session.rollback();
    assert_eq!(session.query_one::<(i64,)>("SELECT COUNT(*) FROM author", ()), Ok((2,)));
}

#[test]
fn a_signal_and_its_trigger_are_told() {
    let mut session = Session::open().unwrap();
    session
        .execute_batch("CREATE TABLE t (a INT); CREATE TRIGGER kept BEFORE DELETE ON t SIGNAL 'rows stay'; INSERT INTO t VALUES (1); COMMIT;")
        .unwrap();
    let error = session.execute("DELETE FROM t", ()).unwrap_err();
    assert_eq!(error.to_string(), "Signal: rows stay");
    let refusal = refused(error);
    assert_eq!((refusal.trigger.as_deref(), refusal.signal.as_deref()), (Some("KEPT"), Some("rows stay")));
}

#[test]
fn texts_that_are_no_statement() {
    let mut session = Session::open().unwrap();
    let place = Place { byte: 9, line: 2, column: 2 };
    let fault = SyntaxError { statement: place, word: place, is_cut: false };
    assert_eq!(session.execute_batch("COMMIT;\n COMIT;"), Err(Error::Syntax(fault)));
    let word = Place { byte: 18, line: 2, column: 11 };
    let error = session.execute_batch("COMMIT;\n SELECT a FORM t;").unwrap_err();
    assert_eq!(error, Error::Syntax(SyntaxError { word, ..fault }));
    assert_eq!(error.to_string(), "no statement at line 2, column 2: wrong word at line 2, column 11");
    let error = session.execute_batch("SELECT a FROM t").unwrap_err();
    assert_eq!(error.to_string(), "no statement at line 1, column 1: the text ends within it");
    assert_eq!(session.execute("COMMIT; COMMIT;", ()), Err(Error::StatementCount(2)));
    assert_eq!(session.execute("", ()), Err(Error::StatementCount(0)));
    assert_eq!(session.execute("SELECT a FROM t WHERE a = ?", ()), Err(Error::ParameterCount(0)));
    assert_eq!(session.execute("SELECT a FROM t WHERE a = '?'", (1,)), Err(Error::ParameterCount(1)));
    assert_eq!(session.execute("SELECT # FROM t WHERE a = ?", (1,)), Err(Error::NoTemplate));
    assert_eq!(session.execute("SELECT # FROM t", ()), Err(Error::Syntax(SyntaxError { statement: Place { byte: 0, line: 1, column: 1 }, word: Place { byte: 7, line: 1, column: 8 }, is_cut: false })));
    session.execute_batch("CREATE TABLE t (a INT); COMMIT;").unwrap();
    assert_eq!(session.execute("SELECT a FROM t", ()), Err(Error::Rows { wanted: false }));
    assert_eq!(session.query::<(i64,)>("DELETE FROM t", ()), Err(Error::Rows { wanted: true }));
    assert_eq!(session.execute("INSERT INTO t VALUES (1) -- no end", ()), Ok(1));
}

#[test]
fn a_batch_ends_at_the_first_refusal() {
    let mut session = Session::open().unwrap();
    let refusal = refused(session.execute_batch("CREATE TABLE t (a INT PRIMARY KEY); INSERT INTO t VALUES (1); INSERT INTO t VALUES (1); COMMIT;").unwrap_err());
    assert_eq!((refusal.statement, refusal.cause), (2, Cause::Violation));
    assert_eq!(refusal.to_string(), "Violation: T_C1 (PRIMARY KEY (A)): T row 1 (1) has the key of row 2 (1) (statement 3)");
    assert!(session.in_transaction());
    session.rollback();
    assert_eq!(session.query_one::<(u64,)>("SELECT COUNT(*) FROM t", ()), Ok((0,)));
}

#[test]
fn savepoints_and_accounts() {
    let mut session = books();
    session.explain(true);
    session.execute_batch("START TRANSACTION; SAVEPOINT s;").unwrap();
    session.execute("INSERT INTO book VALUES ('Emma', 'Austen', 1)", ()).unwrap();
    assert_eq!(session.account(), Ok(vec!["  insert BOOK row 2 ('Emma', 'Austen', 1)".to_string()]));
    session.execute("DELETE FROM author", ()).unwrap();
    assert_eq!(session.work().changes, 2);
    assert_eq!(session.account().unwrap()[1], "  WRITTEN_BY CASCADE on BOOK row 2");
    session.rollback_to("s").unwrap();
    assert_eq!(session.work().undone, 3);
    assert_eq!(refused(session.rollback_to("nosuch").unwrap_err()).cause, Cause::UnknownSavepoint);
    session.commit().unwrap();
    session.explain(false);
    session.execute("DELETE FROM author", ()).unwrap();
    assert_eq!(session.account(), Ok(vec![]));
}

#[test]
fn scripts_are_run_as_by_the_program() {
    let mut session = Session::with_limits(1, 2).unwrap();
    let ran = session.run("CREATE TABLE t (a INT); INSERT INTO t VALUES (1), (2); COMMIT; COMIT;").unwrap();
    assert_eq!(ran.text, "1 ok\n2 refused 17 TooManyChanges\n3 ok\n4 fault 63\n");
    assert_eq!((ran.accepted, ran.refused, ran.fault), (2, 1, Some(63)));
    assert_eq!(session.run(&" ".repeat(1_048_577)), Err(Error::TooLong));
    assert_eq!(Session::with_limits(65, 1).err(), Some(Error::Limits));
}

#[test]
fn a_dump_makes_the_database_again() {
    let mut session = Session::open().unwrap();
    session.execute_batch("CREATE TABLE t (a INT PRIMARY KEY, b VARCHAR(9) CHECK (b <> 'no')); INSERT INTO t VALUES (2, 'it''s'), (1, NULL);").unwrap();
    assert_eq!(session.dump(), Err(Error::InTransaction));
    session.commit().unwrap();
    let scripts = session.dump().unwrap();
    let mut copy = Session::open().unwrap();
    for script in &scripts {
        copy.execute_batch(script).unwrap();
    }
    assert_eq!((copy.dump().unwrap(), copy.catalogue()), (scripts, session.catalogue()));
    assert_eq!(copy.query::<(i64, Option<String>)>("SELECT * FROM t", ()).unwrap(), [(2, Some("it's".into())), (1, None)]);
}
