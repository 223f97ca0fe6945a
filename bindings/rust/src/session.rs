//! Sessions: a database in memory with its transaction.
use crate::copying::{copied, named};
use crate::error::{Cause, Error, Place, Refusal, Result, SyntaxError};
use crate::ffi;
use crate::reasons::{account_of, reasons};
use crate::value::{FromRow, Parameters, Value, ValueRef};
use std::marker::PhantomData;
use std::ops::Range;
use std::ptr::null_mut;

/// A database in memory with its transaction. It stays on the thread that opened it, and is gone when it is dropped.
///
/// ```
/// # fn main() -> sqlkeep::Result<()> {
/// let mut session = sqlkeep::Session::open()?;
/// session.execute_batch("CREATE TABLE book (id INT PRIMARY KEY, title VARCHAR(40));")?;
/// session.execute("INSERT INTO book VALUES (?, ?);", (1, "Emma"))?;
/// session.commit()?;
/// let titles: Vec<(String,)> = session.query("SELECT title FROM book WHERE id = ?;", (1,))?;
/// assert_eq!(titles, [("Emma".to_string(),)]);
/// # Ok(())
/// # }
/// ```
///
/// A session can't be sent to another thread:
///
/// ```compile_fail
/// let session = sqlkeep::Session::open().unwrap();
/// std::thread::spawn(move || drop(session));
/// ```
pub struct Session {
    handle: ffi::Handle,
    // Whether an account is asked for.
    explained: bool,
    // The handle is used on one thread.
    _here: PhantomData<*mut ()>,
}

/// What the last statement did.
#[derive(Clone, Copy, Debug, Default, PartialEq, Eq)]
pub struct Work {
    /// How many row changes it made, those of triggers and actions too.
    pub changes: u64,
    /// How many row changes it undid.
    pub undone: u64,
    /// How many keys were looked up for constraints.
    pub lookups: u64,
}

/// A row that violates a deferred constraint.
#[derive(Clone, Debug, PartialEq, Eq)]
pub struct Violation {
    /// The name of the constraint.
    pub constraint: String,
    /// The number of the row.
    pub row: u64,
    /// The values of the row in the columns of the constraint; none of a CHECK.
    pub key: Vec<Value>,
    /// The number of the other row with this key, of a key that two rows have.
    pub other: Option<u64>,
}

/// A script that was run as the program runs it.
#[derive(Clone, Debug, PartialEq, Eq)]
pub struct Transcript {
    /// The lines that the program writes.
    pub text: String,
    /// How many statements were accepted.
    pub accepted: u64,
    /// How many statements were refused.
    pub refused: u64,
    /// The byte from which on the script is no statement.
    pub fault: Option<u64>,
}

// A failed call: what its status says.
fn failed(status: u32) -> Error {
    match status {
        ffi::LIMITS => Error::Limits,
        ffi::TOO_LONG => Error::TooLong,
        ffi::IN_TRANSACTION => Error::InTransaction,
        ffi::NOT_RESTORED => Error::NotRestored,
        ffi::NO_MEMORY => Error::NoMemory,
        ffi::NO_TEMPLATE => Error::NoTemplate,
        other => unreachable!("status {other} of a session that is open"),
    }
}

fn checked(status: u32) -> Result<()> {
    if status == ffi::OK { Ok(()) } else { Err(failed(status)) }
}

// The value of a cell, whose text is at the front of those that are left.
fn value(cell: &ffi::Cell, left: &mut &[u8]) -> Value {
    match cell.kind {
        ffi::INTEGER => Value::Integer(cell.integer),
        ffi::TEXT => {
            let (text, rest) = left.split_at(cell.length as usize);
            *left = rest;
            Value::Text(String::from_utf8_lossy(text).into_owned())
        }
        _ => Value::Null,
    }
}

// The value of a cell, where a call copies the bytes of a text.
fn value_by(cell: &ffi::Cell, read: impl FnMut(usize, *mut u8, usize, *mut usize) -> u32) -> Value {
    match cell.kind {
        ffi::INTEGER => Value::Integer(cell.integer),
        ffi::TEXT => Value::Text(copied(read).unwrap_or_default()),
        _ => Value::Null,
    }
}

// A transaction that is rolled back where it isn't finished, also by a panic.
struct Unfinished<'a> {
    session: &'a mut Session,
    is_open: bool,
}

impl Drop for Unfinished<'_> {
    fn drop(&mut self) {
        if self.is_open {
            self.session.rollback();
        }
    }
}

impl Session {
    /// Opens a session over a database without tables, with the limits of the program: triggers may nest 16 deep, and a statement may
    /// make 65,536 row changes.
    ///
    /// # Errors
    /// [`Error::NoMemory`].
    pub fn open() -> Result<Session> {
        Session::with_limits(16, 65_536)
    }

    /// Opens a session over a database without tables. Triggers may nest `depth` deep, 1 to 64, and a statement may make `changes`
    /// row changes, 1 to 65,536.
    ///
    /// # Errors
    /// [`Error::Limits`], [`Error::NoMemory`].
    pub fn with_limits(depth: u8, changes: u32) -> Result<Session> {
        let mut handle = ffi::Handle { is_open: false, inside: null_mut() };
        checked(unsafe { ffi::sqlkeep_open(&mut handle, depth, changes) })?;
        Ok(Session { handle, explained: false, _here: PhantomData })
    }

    pub(crate) fn handle(&mut self) -> &mut ffi::Handle {
        &mut self.handle
    }

    /// From now on the account of each statement is kept for [`Session::account`], or isn't.
    pub fn explain(&mut self, asked: bool) {
        self.explained = asked;
        self.ask(asked);
    }

    fn ask(&mut self, asked: bool) {
        let status = unsafe { ffi::sqlkeep_explain(&mut self.handle, u32::from(asked)) };
        debug_assert_eq!(status, ffi::OK);
    }

    /// The account of the last statement, line by line, as `sqlkeep --explain` writes it; empty where none was asked for. A text with a
    /// line feed stays in its line.
    ///
    /// # Errors
    /// [`Error::NoMemory`].
    pub fn account(&mut self) -> Result<Vec<String>> {
        checked(unsafe { ffi::sqlkeep_lines(&mut self.handle, 1) })?;
        let text = copied(|from, buffer, size, count| unsafe { ffi::sqlkeep_transcript(&mut self.handle, from, buffer, size, count) });
        Ok(account_of(&text.unwrap_or_default()))
    }

    // Reads the statements of a template with its values, and says how many there are.
    fn read(&mut self, text: &str, parameters: &(impl Parameters + ?Sized)) -> Result<u64> {
        let handle = &mut self.handle;
        checked(unsafe { ffi::sqlkeep_unbind(handle) })?;
        let mut count = 0;
        parameters.try_each(&mut |value| {
            count += 1;
            checked(match value {
                ValueRef::Null => unsafe { ffi::sqlkeep_bind_null(handle) },
                ValueRef::Integer(integer) => unsafe { ffi::sqlkeep_bind_integer(handle, integer) },
                ValueRef::Text(text) => unsafe { ffi::sqlkeep_bind_text(handle, text.as_ptr(), text.len()) },
            })
        })?;
        // A text without parameters is read as it is: its faults are told at their places.
        let mut script = ffi::Script::default();
        let status = unsafe { ffi::sqlkeep_read_bound(handle, text.as_ptr(), text.len(), &mut script) };
        match status {
            ffi::WRONG_COUNT => Err(Error::ParameterCount(count)),
            ffi::NO_TEMPLATE if count == 0 => self.read_plain(text),
            _ => {
                checked(status)?;
                self.whole(text, script)
            }
        }
    }

    // Reads the statements of a text without parameters.
    fn read_plain(&mut self, text: &str) -> Result<u64> {
        let mut script = ffi::Script::default();
        checked(unsafe { ffi::sqlkeep_read(&mut self.handle, text.as_ptr(), text.len(), &mut script) })?;
        self.whole(text, script)
    }

    // How many statements were read, where the text has nothing else.
    fn whole(&mut self, text: &str, script: ffi::Script) -> Result<u64> {
        if script.has_fault == 0 {
            return Ok(script.statements);
        }
        let mut found = ffi::FaultPlace::default();
        checked(unsafe { ffi::sqlkeep_fault(&mut self.handle, &mut found) })?;
        Err(Error::Syntax(SyntaxError {
            statement: Place::of(text, found.at as usize),
            word: Place::of(text, found.word as usize),
            is_cut: found.is_cut == 1,
        }))
    }

    // Executes a statement that was read.
    fn execute_at(&mut self, at: usize) -> Result<ffi::Outcome> {
        let mut outcome = ffi::Outcome::default();
        checked(unsafe { ffi::sqlkeep_execute(&mut self.handle, at, &mut outcome) })?;
        if outcome.kind == ffi::REFUSED { Err(self.refused(&outcome, at)) } else { Ok(outcome) }
    }

    // The same with its account, so that a refusal has its reasons. A refused statement changed nothing, so it is refused the same way
    // when it is executed again. COMMIT alone rolls back, so a statement about transactions is executed once, with its account.
    fn execute_explained(&mut self, at: usize) -> Result<ffi::Outcome> {
        let mut kind = 0;
        checked(unsafe { ffi::sqlkeep_statement_kind(&mut self.handle, at, &mut kind) })?;
        let is_once = self.explained || kind == ffi::TRANSACTION;
        let answer = if is_once { self.execute_told(at) } else { self.execute_at(at) };
        match &answer {
            Err(Error::Refused(refusal)) if !is_once && refusal.cause != Cause::OutOfMemory => match self.execute_told(at) {
                Err(Error::Refused(told)) if told.cause == refusal.cause => Err(Error::Refused(told)),
                _ => answer,
            },
            _ => answer,
        }
    }

    // Executes a statement with its account, whether accounts are asked for or not.
    fn execute_told(&mut self, at: usize) -> Result<ffi::Outcome> {
        self.ask(true);
        let answer = self.execute_at(at);
        if !self.explained {
            self.ask(false);
        }
        answer
    }

    // The refusal that the library tells of.
    fn refused(&mut self, outcome: &ffi::Outcome, statement: usize) -> Error {
        let Some(cause) = Cause::numbered(outcome.cause) else {
            unreachable!("cause {}", outcome.cause);
        };
        let handle = &mut self.handle;
        let constraint = named(|from, buffer, size, count| unsafe { ffi::sqlkeep_constraint(handle, from, buffer, size, count) });
        let trigger = named(|from, buffer, size, count| unsafe { ffi::sqlkeep_trigger(handle, from, buffer, size, count) });
        let signal = named(|from, buffer, size, count| unsafe { ffi::sqlkeep_signal(handle, from, buffer, size, count) });
        let account = self.account().unwrap_or_default();
        Error::Refused(Box::new(Refusal {
            cause,
            reasons: reasons(&account, cause),
            constraint,
            trigger,
            signal: signal.filter(|_| cause == Cause::Signal),
            row: (outcome.row != 0).then_some(outcome.row),
            statement,
        }))
    }

    /// Executes one statement, and says how many rows it inserted, updated or deleted. A semicolon at its end may be left out.
    ///
    /// # Errors
    /// [`Error::Refused`], [`Error::Syntax`], [`Error::StatementCount`], [`Error::ParameterCount`], [`Error::NoTemplate`],
    /// [`Error::Rows`] where it is a query, which was executed; [`Error::NoMemory`].
    pub fn execute(&mut self, statement: &str, parameters: impl Parameters) -> Result<u64> {
        let outcome = self.execute_one(statement, &parameters)?;
        match outcome.kind {
            ffi::ROWS => Err(Error::Rows { wanted: false }),
            ffi::CHANGED => Ok(outcome.count),
            _ => Ok(0),
        }
    }

    fn execute_one(&mut self, statement: &str, parameters: &(impl Parameters + ?Sized)) -> Result<ffi::Outcome> {
        let count = match self.read(statement, parameters) {
            Err(Error::Syntax(fault)) if fault.statement.byte <= statement.len() => {
                // The text may want its semicolon alone.
                self.read(&format!("{statement}\n;"), parameters).map_err(|_| Error::Syntax(fault))?
            }
            other => other?,
        };
        if count != 1 {
            return Err(Error::StatementCount(count));
        }
        self.execute_explained(0)
    }

    /// Executes all statements of a text, up to the first that is refused. Where a part of the text is no statement, none is executed.
    ///
    /// # Errors
    /// [`Error::Refused`], whose `statement` says which; the statements before it were executed. [`Error::Syntax`],
    /// [`Error::NoMemory`].
    pub fn execute_batch(&mut self, statements: &str) -> Result<()> {
        let count = self.read_plain(statements)?;
        self.ask(true);
        let answer = (0..count as usize).try_for_each(|at| self.execute_at(at).map(drop));
        self.ask(self.explained);
        answer
    }

    /// Executes a query, and gives its rows.
    ///
    /// # Errors
    /// Those of [`Session::execute`]; [`Error::Rows`] where the statement is no query, which was executed; [`Error::Type`] where a
    /// value can't be what is asked for.
    pub fn query<R: FromRow>(&mut self, query: &str, parameters: impl Parameters) -> Result<Vec<R>> {
        let outcome = self.execute_one(query, &parameters)?;
        if outcome.kind != ffi::ROWS {
            return Err(Error::Rows { wanted: true });
        }
        let columns = self.column_count();
        self.rows(outcome.count as usize, columns).into_iter().map(R::from_row).collect()
    }

    /// Executes a query that has to give one row.
    ///
    /// # Errors
    /// Those of [`Session::query`]; [`Error::RowCount`] where it gives none or several.
    pub fn query_one<R: FromRow>(&mut self, query: &str, parameters: impl Parameters) -> Result<R> {
        let mut rows = self.query(query, parameters)?;
        match (rows.pop(), rows.len()) {
            (Some(row), 0) => Ok(row),
            (_, left) => Err(Error::RowCount(if left == 0 { 0 } else { left as u64 + 1 })),
        }
    }

    fn column_count(&mut self) -> usize {
        let mut columns = 0;
        let status = unsafe { ffi::sqlkeep_query(&mut self.handle, &mut columns) };
        debug_assert_eq!(status, ffi::OK);
        columns
    }

    // The rows of the last query, copied many at a time.
    fn rows(&mut self, count: usize, columns: usize) -> Vec<Vec<Value>> {
        let mut rows = Vec::with_capacity(count);
        let mut cells = vec![ffi::Cell::default(); columns.max(2048)];
        let mut texts = vec![0; 32 * 1024];
        while rows.len() < count {
            let mut taken = ffi::Taken::default();
            let (to, room) = (texts.as_mut_ptr(), texts.len());
            let status = unsafe { ffi::sqlkeep_rows(&mut self.handle, rows.len(), cells.as_mut_ptr(), cells.len(), to, room, &mut taken) };
            debug_assert_eq!(status, ffi::OK);
            if taken.rows == 0 {
                texts.resize(2 * room, 0);
            }
            let mut left = &texts[..];
            rows.extend(cells.chunks(columns).take(taken.rows as usize).map(|row| row.iter().map(|cell| value(cell, &mut left)).collect()));
        }
        rows
    }

    /// The names of the columns of the last query; a column that is an expression has an empty one.
    pub fn columns(&mut self) -> Vec<String> {
        (0..)
            .map_while(|at| copied(|from, buffer, size, count| unsafe { ffi::sqlkeep_query_column(&mut self.handle, at, from, buffer, size, count) }))
            .collect()
    }

    /// Commits the transaction that is open, if one is.
    ///
    /// # Errors
    /// [`Error::Refused`] with [`Cause::CommitRefused`] where rows violate a constraint: all of them are in `reasons`, and the transaction
    /// is rolled back.
    pub fn commit(&mut self) -> Result<()> {
        self.ask(true);
        let mut outcome = ffi::Outcome::default();
        let status = checked(unsafe { ffi::sqlkeep_commit(&mut self.handle, &mut outcome) });
        let answer = status.and_then(|()| if outcome.kind == ffi::REFUSED { Err(self.refused(&outcome, 0)) } else { Ok(()) });
        if !self.explained {
            self.ask(false);
        }
        answer
    }

    /// Rolls back the transaction that is open, if one is. It can't fail.
    pub fn rollback(&mut self) {
        let status = unsafe { ffi::sqlkeep_rollback(&mut self.handle) };
        debug_assert_eq!(status, ffi::OK);
    }

    /// Rolls back to a savepoint, which stays. The name is folded to upper case.
    ///
    /// # Errors
    /// [`Error::Refused`] with [`Cause::UnknownSavepoint`] or [`Cause::NoTransaction`].
    pub fn rollback_to(&mut self, savepoint: &str) -> Result<()> {
        let name = savepoint.to_ascii_uppercase();
        let mut outcome = ffi::Outcome::default();
        checked(unsafe { ffi::sqlkeep_rollback_to(&mut self.handle, name.as_ptr(), name.len(), &mut outcome) })?;
        if outcome.kind == ffi::REFUSED { Err(self.refused(&outcome, 0)) } else { Ok(()) }
    }

    /// The database as scripts that make it again, to be executed one after another in a new session by [`Session::execute_batch`]: each
    /// table with its constraints and its rows, in creation order, then the triggers. Rows get new numbers. The scripts were run in a
    /// database of their own, which was compared with this one.
    ///
    /// ```
    /// # fn main() -> sqlkeep::Result<()> {
    /// let mut session = sqlkeep::Session::open()?;
    /// session.execute_batch("CREATE TABLE t (a INT CHECK (a > 0)); INSERT INTO t VALUES (1), (2); COMMIT;")?;
    /// let mut copy = sqlkeep::Session::open()?;
    /// for script in session.dump()? {
    ///     copy.execute_batch(&script)?;
    /// }
    /// assert_eq!(copy.query::<(i64,)>("SELECT a FROM t;", ())?, [(1,), (2,)]);
    /// # Ok(())
    /// # }
    /// ```
    ///
    /// # Errors
    /// [`Error::InTransaction`], [`Error::TooLong`] where a row would need a longer script, [`Error::NotRestored`], [`Error::NoMemory`].
    pub fn dump(&mut self) -> Result<Vec<String>> {
        let mut count = 0;
        checked(unsafe { ffi::sqlkeep_dump(&mut self.handle, &mut count) })?;
        let mut script = |at| copied(|from, buffer, size, count| unsafe { ffi::sqlkeep_dump_script(&mut self.handle, at, from, buffer, size, count) });
        Ok((0..count).map(|at| script(at).unwrap_or_default()).collect())
    }

    /// Runs `body` in a transaction: commits if it answers `Ok`, and else rolls back, also where it panics.
    ///
    /// ```
    /// # fn main() -> sqlkeep::Result<()> {
    /// let mut session = sqlkeep::Session::open()?;
    /// session.execute_batch("CREATE TABLE t (a INT PRIMARY KEY); COMMIT;")?;
    /// let refused = session.transaction(|it| {
    ///     it.execute("INSERT INTO t VALUES (?);", (1,))?;
    ///     it.execute("INSERT INTO t VALUES (?);", (1,))
    /// });
    /// assert_eq!(refused.unwrap_err().to_string(), "Violation: T_C1 (PRIMARY KEY (A)): T row 1 (1) has the key of row 2 (1)");
    /// assert_eq!(session.query::<(i64,)>("SELECT a FROM t;", ())?, []);
    /// # Ok(())
    /// # }
    /// ```
    ///
    /// # Errors
    /// Those of `body` and of [`Session::commit`].
    pub fn transaction<T>(&mut self, body: impl FnOnce(&mut Session) -> Result<T>) -> Result<T> {
        let mut unfinished = Unfinished { session: self, is_open: true };
        let value = body(unfinished.session)?;
        unfinished.is_open = false;
        unfinished.session.commit().map(|()| value)
    }

    /// Whether a transaction is open.
    pub fn in_transaction(&mut self) -> bool {
        let mut is_open = false;
        let status = unsafe { ffi::sqlkeep_in_transaction(&mut self.handle, &mut is_open) };
        debug_assert_eq!(status, ffi::OK);
        is_open
    }

    /// What the last statement did.
    pub fn work(&mut self) -> Work {
        let mut done = ffi::Done::default();
        let status = unsafe { ffi::sqlkeep_work(&mut self.handle, &mut done) };
        debug_assert_eq!(status, ffi::OK);
        Work { changes: done.changes, undone: done.undone, lookups: done.lookups }
    }

    /// The rows that violate deferred constraints now: what COMMIT would be refused for, in that order.
    ///
    /// # Errors
    /// [`Error::NoMemory`].
    pub fn pending(&mut self) -> Result<Vec<Violation>> {
        let mut count = 0;
        checked(unsafe { ffi::sqlkeep_pending(&mut self.handle, &mut count) })?;
        Ok((0..count).map(|at| self.violation(at)).collect())
    }

    fn violation(&mut self, at: usize) -> Violation {
        let mut about = ffi::ViolationShown::default();
        let status = unsafe { ffi::sqlkeep_violation_about(&mut self.handle, at, &mut about) };
        debug_assert_eq!(status, ffi::OK);
        let place = about.constraint as usize;
        let name = copied(|from, buffer, size, count| unsafe { ffi::sqlkeep_constraint_name(&mut self.handle, place, from, buffer, size, count) });
        Violation {
            constraint: name.unwrap_or_default(),
            row: about.row,
            key: (0..about.columns as usize).map(|place| self.value_of_violation(at, place)).collect(),
            other: (about.other != 0).then_some(about.other),
        }
    }

    fn value_of_violation(&mut self, at: usize, place: usize) -> Value {
        let mut cell = ffi::Cell::default();
        unsafe { ffi::sqlkeep_violation_value(&mut self.handle, at, place, &mut cell) };
        value_by(&cell, |from, buffer, size, count| unsafe { ffi::sqlkeep_violation_text(&mut self.handle, at, place, from, buffer, size, count) })
    }

    /// Where the statements of the text that was read last are in it: ranges of its bytes, each from the first word of a statement up to
    /// its semicolon.
    ///
    /// # Errors
    /// [`Error::NoMemory`].
    pub fn statement_places(&mut self) -> Result<Vec<Range<usize>>> {
        let mut found = Vec::new();
        loop {
            let mut span = ffi::Span::default();
            match unsafe { ffi::sqlkeep_statement_place(&mut self.handle, found.len(), &mut span) } {
                ffi::NOTHING => return Ok(found),
                status => checked(status)?,
            }
            found.push(span.begin as usize..span.end as usize);
        }
    }

    /// The last outcome in words, on one line. It is to be called before the next statement.
    ///
    /// # Errors
    /// [`Error::NoMemory`].
    pub fn message(&mut self) -> Result<String> {
        let mut answered = ffi::OK;
        let text = copied(|from, buffer, size, count| {
            answered = unsafe { ffi::sqlkeep_message(&mut self.handle, from, buffer, size, count) };
            answered
        });
        checked(answered)?;
        Ok(text.unwrap_or_default())
    }

    /// The row of this number as it is now: the name of its table, and its values. Refusals, violations and accounts tell rows by their
    /// numbers.
    pub fn row(&mut self, number: u64) -> Option<(String, Vec<Value>)> {
        let mut row = ffi::StoredRow::default();
        if unsafe { ffi::sqlkeep_row(&mut self.handle, number, &mut row) } != ffi::OK {
            return None;
        }
        let table = row.table as usize;
        let name = copied(|from, buffer, size, count| unsafe { ffi::sqlkeep_table_name(&mut self.handle, table, from, buffer, size, count) });
        Some((name.unwrap_or_default(), (0..row.columns as usize).map(|column| self.value_of_row(number, column)).collect()))
    }

    fn value_of_row(&mut self, number: u64, column: usize) -> Value {
        let mut cell = ffi::Cell::default();
        unsafe { ffi::sqlkeep_row_value(&mut self.handle, number, column, &mut cell) };
        value_by(&cell, |from, buffer, size, count| unsafe { ffi::sqlkeep_row_text(&mut self.handle, number, column, from, buffer, size, count) })
    }

    /// Runs a whole script in a new database of its own, as the program does, and gives what the program writes. The limits, and whether
    /// accounts are asked for, are those of this session, whose database isn't touched.
    ///
    /// # Errors
    /// [`Error::TooLong`], [`Error::NoMemory`].
    pub fn run(&mut self, script: &str) -> Result<Transcript> {
        self.ask(self.explained);
        let mut summary = ffi::Summary::default();
        checked(unsafe { ffi::sqlkeep_run(&mut self.handle, script.as_ptr(), script.len(), &mut summary) })?;
        let text = copied(|from, buffer, size, count| unsafe { ffi::sqlkeep_transcript(&mut self.handle, from, buffer, size, count) });
        Ok(Transcript {
            text: text.unwrap_or_default(),
            accepted: summary.accepted,
            refused: summary.refused,
            fault: (summary.has_fault == 1).then_some(summary.fault_at),
        })
    }
}

impl Drop for Session {
    fn drop(&mut self) {
        unsafe { ffi::sqlkeep_close(&mut self.handle) };
    }
}
