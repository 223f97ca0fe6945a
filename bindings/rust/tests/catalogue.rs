//! Tables, constraints and triggers as the catalogue has them.
use sqlkeep::catalogue::{Action, Event, Kind, Time};
use sqlkeep::{Session, Value};

#[test]
fn everything_has_its_parts() {
    let mut session = Session::open().unwrap();
    session
        .execute_batch(
            "CREATE TABLE author (id INT PRIMARY KEY, name VARCHAR(40) DEFAULT 'no one', CONSTRAINT known UNIQUE NULLS NOT DISTINCT (name, id));
             CREATE TABLE book (author INT DEFAULT 5, title VARCHAR(40) NOT NULL, part INT CHECK (part > 0),
                 CONSTRAINT by_whom FOREIGN KEY (title, author) REFERENCES author (name, id)
                     MATCH FULL ON DELETE CASCADE ON UPDATE SET NULL INITIALLY DEFERRED);
             CREATE TRIGGER second AFTER UPDATE OF title ON book BEGIN ATOMIC SIGNAL 'x'; SIGNAL 'y'; END; COMMIT;",
        )
        .unwrap();
    let catalogue = session.catalogue();
    assert_eq!(catalogue.tables.iter().map(|table| &table.name[..]).collect::<Vec<_>>(), ["AUTHOR", "BOOK"]);
    let name = &catalogue.table("AUTHOR").unwrap().columns[1];
    assert_eq!((&name.name[..], name.longest, &name.default), ("NAME", Some(40), &Value::Text("no one".into())));
    let number = &catalogue.table("BOOK").unwrap().columns[0];
    assert_eq!((number.longest, &number.default), (None, &Value::Integer(5)));
    let kinds: Vec<Kind> = catalogue.constraints.iter().map(|constraint| constraint.kind).collect();
    assert_eq!(kinds, [Kind::PrimaryKey, Kind::UniqueNullsNotDistinct, Kind::NotNull, Kind::Check, Kind::ForeignKey]);
    let conditions: Vec<Option<&str>> = catalogue.constraints.iter().map(|constraint| constraint.condition.as_deref()).collect();
    assert_eq!(conditions, [None, None, None, Some("PART > 0"), None]);
    let key = catalogue.constraints_of("BOOK").last().unwrap();
    assert_eq!((&key.name[..], &key.columns[..], key.deferrable, key.initially_deferred), ("BY_WHOM", &["TITLE".to_string(), "AUTHOR".to_string()][..], true, true));
    let reference = key.references.as_ref().unwrap();
    assert_eq!((&reference.table[..], &reference.columns[..]), ("AUTHOR", &["NAME".to_string(), "ID".to_string()][..]));
    assert_eq!((reference.match_full, reference.on_delete, reference.on_update), (true, Action::Cascade, Action::SetNull));
    let trigger = &catalogue.triggers[0];
    assert_eq!((&trigger.name[..], &trigger.table[..], trigger.time, trigger.event), ("SECOND", "BOOK", Time::After, Event::Update));
    assert_eq!((&trigger.columns[..], trigger.for_each_row, trigger.statements), (&["TITLE".to_string()][..], false, 2));
}

fn modes(session: &mut Session) -> Vec<bool> {
    session.catalogue().constraints.iter().map(|constraint| constraint.deferred).collect()
}

#[test]
fn modes_are_those_of_now() {
    let mut session = Session::open().unwrap();
    session.execute_batch("CREATE TABLE t (a INT CONSTRAINT one CHECK (a > 0) DEFERRABLE, CONSTRAINT two CHECK (a < 9) INITIALLY DEFERRED);").unwrap();
    assert_eq!(modes(&mut session), [false, true]);
    session.execute_batch("START TRANSACTION; SET CONSTRAINTS one DEFERRED; SET CONSTRAINTS two IMMEDIATE;").unwrap();
    assert_eq!(modes(&mut session), [true, false]);
    session.rollback();
    assert_eq!(modes(&mut session), [false, true]);
}

#[test]
fn rows_are_read_by_their_numbers() {
    let mut session = Session::open().unwrap();
    session.execute_batch("CREATE TABLE t (a INT, b VARCHAR(9)); INSERT INTO t VALUES (-3, NULL), (4, 'four');").unwrap();
    assert_eq!(session.row(1), Some(("T".into(), vec![Value::Integer(-3), Value::Null])));
    assert_eq!(session.row(2), Some(("T".into(), vec![Value::Integer(4), Value::Text("four".into())])));
    session.execute_batch("DELETE FROM t WHERE a = 4;").unwrap();
    assert_eq!((session.row(2), session.row(0), session.row(u64::MAX)), (None, None, None));
}
