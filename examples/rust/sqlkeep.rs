//! The library for C from Rust: a session that closes itself, rows by an iterator, and errors as values.
//!
//!     rustc --edition 2021 sqlkeep.rs -L ../../out -l static=sqlkeep -o first && ./first
//!
//! Without words it runs the first script of the README. With the word `script` it runs the script on standard input, as
//! the program does; with --statements after it, statement by statement.
use std::ffi::c_void;
use std::fmt;
use std::io::{Read, Write};
use std::marker::PhantomData;
use std::process::ExitCode;

mod c {
    //! What include/sqlkeep.h declares.
    use std::ffi::c_void;

    #[repr(C)]
    pub struct Handle {
        pub is_open: bool,
        pub inside: *mut c_void,
    }

    #[repr(C)]
    #[derive(Clone, Copy, Debug, Default)]
    pub struct Summary {
        pub accepted: u64,
        pub refused: u64,
        pub memory_refused: u64,
        pub has_fault: u64,
        pub fault_at: u64,
        pub untold: u64,
    }

    #[repr(C)]
    #[derive(Clone, Copy, Debug, Default)]
    pub struct Script {
        pub statements: u64,
        pub has_fault: u64,
        pub fault_at: u64,
    }

    #[repr(C)]
    #[derive(Clone, Copy, Debug, Default)]
    pub struct Outcome {
        pub kind: u32,
        pub cause: u32,
        pub count: u64,
        pub row: u64,
    }

    #[repr(C)]
    #[derive(Clone, Copy, Debug, Default)]
    pub struct Cell {
        pub kind: u64,
        pub integer: i64,
        pub length: u64,
    }

    extern "C" {
        pub fn sqlkeep_open(handle: *mut Handle, depth: u8, changes: u32) -> u32;
        pub fn sqlkeep_close(handle: *mut Handle) -> u32;
        pub fn sqlkeep_explain(handle: *mut Handle, asked: u32) -> u32;
        pub fn sqlkeep_run(handle: *mut Handle, text: *const u8, length: usize, summary: *mut Summary) -> u32;
        pub fn sqlkeep_transcript(handle: *mut Handle, from: usize, buffer: *mut u8, size: usize, copied: *mut usize) -> u32;
        pub fn sqlkeep_read(handle: *mut Handle, text: *const u8, length: usize, script: *mut Script) -> u32;
        pub fn sqlkeep_execute(handle: *mut Handle, at: usize, outcome: *mut Outcome) -> u32;
        pub fn sqlkeep_lines(handle: *mut Handle, number: u64) -> u32;
        pub fn sqlkeep_columns(handle: *mut Handle, row: usize, count: *mut usize) -> u32;
        pub fn sqlkeep_value(handle: *mut Handle, row: usize, column: usize, value: *mut Cell) -> u32;
        pub fn sqlkeep_value_text(handle: *mut Handle, row: usize, column: usize, from: usize, buffer: *mut u8, size: usize, copied: *mut usize) -> u32;
        pub fn sqlkeep_cause(handle: *mut Handle, from: usize, buffer: *mut u8, size: usize, copied: *mut usize) -> u32;
        pub fn sqlkeep_constraint(handle: *mut Handle, from: usize, buffer: *mut u8, size: usize, copied: *mut usize) -> u32;
        pub fn sqlkeep_trigger(handle: *mut Handle, from: usize, buffer: *mut u8, size: usize, copied: *mut usize) -> u32;
        pub fn sqlkeep_commit(handle: *mut Handle, outcome: *mut Outcome) -> u32;
        pub fn sqlkeep_in_transaction(handle: *mut Handle, is_open: *mut bool) -> u32;
    }
}

/// Why a call didn't do what it is for, or why a statement was refused.
#[derive(Clone, Debug, PartialEq, Eq)]
pub enum Error {
    /// A limit of the session isn't in its range.
    Limits,
    NotUtf8,
    TooLong,
    NoMemory,
    /// There is nothing at this place.
    Nothing,
    /// Something is left of the text, from this byte on, that is no statement.
    NoStatement(u64),
    /// A statement was refused: the number and the name of the cause, the constraint, the trigger and the row.
    Refused {
        cause: String,
        constraint: Option<String>,
        trigger: Option<String>,
        row: Option<u64>,
    },
}

impl fmt::Display for Error {
    fn fmt(&self, f: &mut fmt::Formatter<'_>) -> fmt::Result {
        match self {
            Error::Limits => f.write_str("the limits are out of range"),
            Error::NotUtf8 => f.write_str("the script is not UTF-8"),
            Error::TooLong => f.write_str("the script is longer than 1048576 bytes"),
            Error::NoMemory => f.write_str("out of memory"),
            Error::Nothing => f.write_str("there is nothing at this place"),
            Error::NoStatement(at) => write!(f, "no statement at byte {at}"),
            Error::Refused { cause, constraint, trigger, row } => {
                write!(f, "refused {cause}")?;
                for name in [constraint, trigger].into_iter().flatten() {
                    write!(f, " {name}")?;
                }
                row.map_or(Ok(()), |row| write!(f, " row {row}"))
            }
        }
    }
}

impl std::error::Error for Error {}

fn checked(status: u32) -> Result<(), Error> {
    match status {
        0 => Ok(()),
        3 => Err(Error::Limits),
        4 => Err(Error::NotUtf8),
        5 => Err(Error::TooLong),
        6 => Err(Error::NoMemory),
        7 => Err(Error::Nothing),
        other => unreachable!("status {other}: a session is open as long as it lives"),
    }
}

/// A value of a row.
#[derive(Clone, Debug, PartialEq, Eq)]
pub enum Value {
    Null,
    Integer(i64),
    Text(String),
}

/// What an accepted statement answered.
pub enum Answer<'a> {
    Done,
    Changed(u64),
    Rows(Rows<'a>),
}

/// A database in memory with its transaction. It stays on the thread that opened it.
pub struct Session {
    handle: c::Handle,
    not_send: PhantomData<*mut c_void>,
}

impl Drop for Session {
    fn drop(&mut self) {
        unsafe { c::sqlkeep_close(&mut self.handle) };
    }
}

impl Session {
    /// Opens a session over a database without tables.
    pub fn open(depth: u8, changes: u32) -> Result<Session, Error> {
        let handle = c::Handle { is_open: false, inside: std::ptr::null_mut() };
        let mut session = Session { handle, not_send: PhantomData };
        checked(unsafe { c::sqlkeep_open(&mut session.handle, depth, changes) })?;
        Ok(session)
    }

    /// From now on the lines of a statement have its account, or don't.
    pub fn explain(&mut self, asked: bool) -> Result<(), Error> {
        checked(unsafe { c::sqlkeep_explain(&mut self.handle, u32::from(asked)) })
    }

    // A text that a call copies piece by piece.
    fn copied(&mut self, copy: impl Fn(*mut c::Handle, usize, *mut u8, usize, *mut usize) -> u32) -> Result<String, Error> {
        let (mut piece, mut whole) = ([0u8; 4096], Vec::new());
        loop {
            let mut count = 0;
            checked(copy(&mut self.handle, whole.len(), piece.as_mut_ptr(), piece.len(), &mut count))?;
            if count == 0 {
                return String::from_utf8(whole).map_err(|_| Error::NotUtf8);
            }
            whole.extend_from_slice(&piece[..count]);
        }
    }

    /// Runs a script in a database of its own, and gives its transcript and whether all was accepted.
    pub fn run(&mut self, script: &[u8]) -> Result<(String, bool), Error> {
        let mut summary = c::Summary::default();
        checked(unsafe { c::sqlkeep_run(&mut self.handle, script.as_ptr(), script.len(), &mut summary) })?;
        Ok((self.transcript()?, summary.refused == 0 && summary.has_fault == 0))
    }

    fn transcript(&mut self) -> Result<String, Error> {
        self.copied(|handle, from, buffer, size, count| unsafe { c::sqlkeep_transcript(handle, from, buffer, size, count) })
    }

    /// Reads the statements of a text: how many they are, and the byte where no further one begins.
    pub fn read(&mut self, text: &[u8]) -> Result<(usize, Option<u64>), Error> {
        let mut script = c::Script::default();
        checked(unsafe { c::sqlkeep_read(&mut self.handle, text.as_ptr(), text.len(), &mut script) })?;
        Ok((script.statements as usize, (script.has_fault == 1).then_some(script.fault_at)))
    }

    /// Executes one of the statements that were read.
    pub fn execute_at(&mut self, place: usize) -> Result<Answer<'_>, Error> {
        let mut outcome = c::Outcome::default();
        checked(unsafe { c::sqlkeep_execute(&mut self.handle, place, &mut outcome) })?;
        self.answer(outcome)
    }

    /// The lines of the last outcome, as the program writes them.
    pub fn lines(&mut self, number: u64) -> Result<String, Error> {
        checked(unsafe { c::sqlkeep_lines(&mut self.handle, number) })?;
        self.transcript()
    }

    fn answer(&mut self, outcome: c::Outcome) -> Result<Answer<'_>, Error> {
        match outcome.kind {
            0 => Ok(Answer::Done),
            1 => Ok(Answer::Changed(outcome.count)),
            2 => Ok(Answer::Rows(Rows { session: self, next: 0, count: outcome.count as usize })),
            _ => Err(self.refusal(outcome.row)?),
        }
    }

    fn refusal(&mut self, row: u64) -> Result<Error, Error> {
        let cause = self.copied(|handle, from, buffer, size, count| unsafe { c::sqlkeep_cause(handle, from, buffer, size, count) })?;
        let constraint = self.copied(|handle, from, buffer, size, count| unsafe { c::sqlkeep_constraint(handle, from, buffer, size, count) })?;
        let trigger = self.copied(|handle, from, buffer, size, count| unsafe { c::sqlkeep_trigger(handle, from, buffer, size, count) })?;
        let named = |name: String| Some(name).filter(|name| !name.is_empty());
        Ok(Error::Refused { cause, constraint: named(constraint), trigger: named(trigger), row: (row > 0).then_some(row) })
    }

    /// Executes all statements of a text until one is refused.
    pub fn execute(&mut self, text: &str) -> Result<(), Error> {
        let (count, fault) = self.read(text.as_bytes())?;
        if let Some(at) = fault {
            return Err(Error::NoStatement(at));
        }
        for place in 0..count {
            self.execute_at(place)?;
        }
        Ok(())
    }

    /// The rows of a query.
    pub fn query(&mut self, text: &str) -> Result<Rows<'_>, Error> {
        self.read(text.as_bytes())?;
        match self.execute_at(0)? {
            Answer::Rows(rows) => Ok(rows),
            _ => Err(Error::Nothing),
        }
    }

    /// COMMIT; where it is refused the transaction is rolled back.
    pub fn commit(&mut self) -> Result<(), Error> {
        let mut outcome = c::Outcome::default();
        checked(unsafe { c::sqlkeep_commit(&mut self.handle, &mut outcome) })?;
        self.answer(outcome).map(|_| ())
    }

    /// Whether a transaction is open.
    pub fn in_transaction(&mut self) -> Result<bool, Error> {
        let mut is_open = false;
        checked(unsafe { c::sqlkeep_in_transaction(&mut self.handle, &mut is_open) })?;
        Ok(is_open)
    }

    fn value(&mut self, row: usize, column: usize) -> Result<Value, Error> {
        let mut cell = c::Cell::default();
        checked(unsafe { c::sqlkeep_value(&mut self.handle, row, column, &mut cell) })?;
        Ok(match cell.kind {
            0 => Value::Null,
            1 => Value::Integer(cell.integer),
            _ => Value::Text(self.copied(|handle, from, buffer, size, count| unsafe { c::sqlkeep_value_text(handle, row, column, from, buffer, size, count) })?),
        })
    }

    fn row(&mut self, row: usize) -> Result<Vec<Value>, Error> {
        let mut count = 0;
        checked(unsafe { c::sqlkeep_columns(&mut self.handle, row, &mut count) })?;
        (0..count).map(|column| self.value(row, column)).collect()
    }
}

/// The rows of a query. The session can't execute anything as long as they are used.
pub struct Rows<'a> {
    session: &'a mut Session,
    next: usize,
    count: usize,
}

impl Iterator for Rows<'_> {
    type Item = Result<Vec<Value>, Error>;

    fn next(&mut self) -> Option<Self::Item> {
        if self.next == self.count {
            return None;
        }
        self.next += 1;
        Some(self.session.row(self.next - 1))
    }
}

const SCHEMA: &str = "
CREATE TABLE author (name VARCHAR(20) PRIMARY KEY);
CREATE TABLE book (
    title VARCHAR(30) PRIMARY KEY,
    author VARCHAR(20) CONSTRAINT written_by REFERENCES author ON DELETE CASCADE INITIALLY DEFERRED
);
CREATE TABLE removed (title VARCHAR(30));
CREATE TRIGGER log_removed AFTER DELETE ON book REFERENCING OLD AS o FOR EACH ROW
    INSERT INTO removed VALUES (o.title);
";

// The first script of the README, and its refused COMMIT.
fn first() -> Result<(), Error> {
    let mut session = Session::open(16, 65_536)?;
    session.execute(SCHEMA)?;
    session.execute("INSERT INTO book VALUES ('Emma', 'Austen'), ('Persuasion', 'Austen');")?;
    session.execute("INSERT INTO author VALUES ('Austen'); COMMIT;")?;
    session.execute("DELETE FROM author WHERE name = 'Austen';")?;
    for row in session.query("SELECT title FROM removed;")? {
        println!("{:?}", row?);
    }
    session.execute("INSERT INTO book VALUES ('Dracula', 'Stoker');")?;
    match session.commit() {
        Ok(()) => println!("committed"),
        Err(error) => println!("{error}"),
    }
    Ok(())
}

// Executes a script statement by statement, and gives its transcript and whether all was accepted.
fn statements(session: &mut Session, script: &[u8]) -> Result<(String, bool), Error> {
    let (count, fault) = session.read(script)?;
    let (mut transcript, mut accepted) = (String::new(), fault.is_none());
    for place in 0..count {
        accepted &= !matches!(session.execute_at(place), Err(Error::Refused { .. }));
        transcript += &session.lines(place as u64 + 1)?;
    }
    if let Some(at) = fault {
        transcript += &format!("{} fault {at}\n", count + 1);
    }
    if session.in_transaction()? {
        transcript += "end rolled back\n";
    }
    Ok((transcript, accepted))
}

fn number_after(words: &[String], word: &str, other: u64) -> u64 {
    let place = words.iter().position(|it| it == word);
    place.and_then(|place| words.get(place + 1)).map_or(other, |number| number.parse().unwrap_or(u64::MAX))
}

// Runs the script on standard input.
fn script(words: &[String]) -> Result<bool, Error> {
    let depth = u8::try_from(number_after(words, "--depth", 16)).map_err(|_| Error::Limits)?;
    let changes = u32::try_from(number_after(words, "--changes", 65_536)).map_err(|_| Error::Limits)?;
    let mut bytes = Vec::new();
    std::io::stdin().read_to_end(&mut bytes).expect("standard input can be read");
    let mut session = Session::open(depth, changes)?;
    session.explain(words.iter().any(|word| word == "--explain"))?;
    let (transcript, accepted) = if words.iter().any(|word| word == "--statements") {
        statements(&mut session, &bytes)?
    } else {
        session.run(&bytes)?
    };
    std::io::stdout().write_all(transcript.as_bytes()).expect("standard output takes all");
    Ok(accepted)
}

fn main() -> ExitCode {
    let words: Vec<String> = std::env::args().skip(1).collect();
    let done = if words.first().is_some_and(|word| word == "script") { script(&words) } else { first().map(|()| true) };
    match done {
        Ok(accepted) => ExitCode::from(u8::from(!accepted)),
        Err(error) => {
            eprintln!("sqlkeep: {error}");
            ExitCode::from(2)
        }
    }
}
