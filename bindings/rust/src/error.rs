//! Why a call failed, and why a statement was refused.
use std::fmt;

/// What calls of this crate answer.
pub type Result<T, E = Error> = std::result::Result<T, E>;

/// Why a call failed. Nothing was changed, but for a [`Cause::CommitRefused`], which rolls the transaction back.
#[derive(Clone, Debug, PartialEq, Eq)]
#[non_exhaustive]
pub enum Error {
    /// A statement was refused.
    Refused(Box<Refusal>),
    /// Something of the text is no statement.
    Syntax(SyntaxError),
    /// The template has another number of question marks than there are values; there are so many values.
    ParameterCount(usize),
    /// At some place of the template there is neither a token nor a question mark.
    NoTemplate,
    /// The text has this many statements, and one was wanted.
    StatementCount(u64),
    /// The statement gives rows, and none were wanted; or rows were wanted, and it gives none.
    Rows {
        /// Whether rows were wanted.
        wanted: bool,
    },
    /// A row's value can't be what was asked for.
    Type {
        /// The column of the value, from 0.
        column: usize,
        /// What was asked for.
        wanted: &'static str,
    },
    /// A query that has to give one row gave this many.
    RowCount(u64),
    /// The limits of a session are out of their ranges: a depth of 1 to 64, and 1 to 65,536 changes.
    Limits,
    /// The script is longer than 1,048,576 bytes.
    TooLong,
    /// A transaction is open, so that the database isn't dumped.
    InTransaction,
    /// What was written of the database, as a dump, doesn't make the same again.
    NotRestored,
    /// Memory was refused.
    NoMemory,
}

/// A place in a text.
#[derive(Clone, Copy, Debug, PartialEq, Eq)]
pub struct Place {
    /// The byte, from 0. Where the text has parameters, it is a byte of the text with their values in it.
    pub byte: usize,
    /// The line, from 1, and the column in characters, from 1.
    pub line: usize,
    /// The column in characters, from 1.
    pub column: usize,
}

/// Where a text has something that is no statement.
#[derive(Clone, Copy, Debug, PartialEq, Eq)]
pub struct SyntaxError {
    /// Where that begins.
    pub statement: Place,
    /// The first word that can't stand where it does, whatever follows it; the text's end where more should follow.
    pub word: Place,
    /// Whether the text ends within the statement.
    pub is_cut: bool,
}

impl fmt::Display for SyntaxError {
    fn fmt(&self, f: &mut fmt::Formatter<'_>) -> fmt::Result {
        write!(f, "no statement at line {}, column {}", self.statement.line, self.statement.column)?;
        if self.is_cut { write!(f, ": the text ends within it") } else { write!(f, ": wrong word at line {}, column {}", self.word.line, self.word.column) }
    }
}

impl Place {
    pub(crate) fn of(text: &str, byte: usize) -> Place {
        let before = &text.as_bytes()[..byte.min(text.len())];
        let start = before.iter().rposition(|&b| b == b'\n').map_or(0, |at| at + 1);
        Place {
            byte,
            line: before.iter().filter(|&&b| b == b'\n').count() + 1,
            column: String::from_utf8_lossy(&before[start..]).chars().count() + 1,
        }
    }
}

/// Why a statement was refused, and by what.
#[derive(Clone, Debug, PartialEq, Eq)]
pub struct Refusal {
    /// The cause.
    pub cause: Cause,
    /// The name of the constraint that refused it.
    pub constraint: Option<String>,
    /// The name of the trigger that the cause speaks of, or else of the innermost one that was running.
    pub trigger: Option<String>,
    /// The text of the SIGNAL.
    pub signal: Option<String>,
    /// The number of the row that the cause speaks of.
    pub row: Option<u64>,
    /// What the refusal is about, a line for each violation, as the account of the statement has them.
    pub reasons: Vec<String>,
    /// The place of the statement in its text, from 0.
    pub statement: usize,
}

impl fmt::Display for Refusal {
    fn fmt(&self, f: &mut fmt::Formatter<'_>) -> fmt::Result {
        write!(f, "{}", self.cause)?;
        match (&self.reasons[..], &self.signal) {
            (reasons @ [_, ..], _) => write!(f, ": {}", reasons.join("; "))?,
            ([], Some(signal)) => write!(f, ": {signal}")?,
            ([], None) => {
                for name in self.constraint.iter().chain(&self.trigger) {
                    write!(f, " {name}")?;
                }
                if let Some(row) = self.row {
                    write!(f, " row {row}")?;
                }
            }
        }
        if self.statement > 0 {
            write!(f, " (statement {})", self.statement + 1)?;
        }
        Ok(())
    }
}

impl fmt::Display for Error {
    fn fmt(&self, f: &mut fmt::Formatter<'_>) -> fmt::Result {
        match self {
            Error::Refused(refusal) => refusal.fmt(f),
            Error::Syntax(fault) => fault.fmt(f),
            Error::ParameterCount(count) => write!(f, "there are {count} values, and the text has another number of question marks"),
            Error::NoTemplate => f.write_str("the text has a character that begins no token, or a text without its end"),
            Error::StatementCount(count) => write!(f, "the text has {count} statements, and one was wanted"),
            Error::Rows { wanted: true } => f.write_str("rows were wanted, and the statement gives none"),
            Error::Rows { wanted: false } => f.write_str("the statement gives rows: ask for them by `query`"),
            Error::Type { column, wanted } => write!(f, "the value in column {column} is no {wanted}"),
            Error::RowCount(count) => write!(f, "one row was wanted, and the query gives {count}"),
            Error::Limits => f.write_str("the limits of a session are a depth of 1 to 64, and 1 to 65536 changes"),
            Error::InTransaction => f.write_str("a transaction is open"),
            Error::NotRestored => f.write_str("what was written doesn't make the same again"),
            Error::TooLong => f.write_str("the script is longer than 1048576 bytes"),
            Error::NoMemory => f.write_str("memory was refused"),
        }
    }
}

impl std::error::Error for Error {}

impl Error {
    /// The refusal, where a statement was refused.
    pub fn refusal(&self) -> Option<&Refusal> {
        match self {
            Error::Refused(refusal) => Some(refusal),
            _ => None,
        }
    }
}

macro_rules! causes {
    ($($(#[$said:meta])* $name:ident = $number:literal,)*) => {
        /// Why a statement is refused. The numbers are those of the transcript.
        #[derive(Clone, Copy, Debug, PartialEq, Eq, Hash, PartialOrd, Ord)]
        #[non_exhaustive]
        pub enum Cause {
            $($(#[$said])* $name = $number,)*
        }

        impl Cause {
            pub(crate) fn numbered(number: u32) -> Option<Cause> {
                match number {
                    $($number => Some(Cause::$name),)*
                    _ => None,
                }
            }

            /// The name, as the transcript has it.
            pub fn name(self) -> &'static str {
                match self {
                    $(Cause::$name => stringify!($name),)*
                }
            }
        }
    };
}

causes! {
    /// A name isn't there.
    Unknown = 1,
    /// A new name is in use, or comes twice.
    Duplicate = 2,
    /// A rule of definitions is broken.
    SchemaFault = 3,
    /// The statement isn't allowed inside a transaction.
    InTransaction = 4,
    /// The statement needs a transaction, and none is open.
    NoTransaction = 5,
    /// A transaction is open already.
    ActiveTransaction = 6,
    /// There is no such savepoint.
    UnknownSavepoint = 7,
    /// The constraint can't be deferred.
    NotDeferrable = 8,
    /// A value doesn't fit where it stands.
    WrongShape = 9,
    /// A number is out of range.
    NumberOutOfRange = 10,
    /// A text is longer than its column.
    TextTooLong = 11,
    /// RESTRICT of a foreign key.
    Restrict = 12,
    /// A row violates a constraint.
    Violation = 13,
    /// Two foreign keys set a column to different values.
    ActionConflict = 14,
    /// A trigger's SIGNAL.
    Signal = 15,
    /// Triggers nest too deep.
    DepthLimit = 16,
    /// A statement changes too many rows.
    TooManyChanges = 17,
    /// A transaction changes too many rows.
    TransactionTooLarge = 18,
    /// COMMIT found violations of deferred constraints, and rolled back.
    CommitRefused = 19,
    /// A row violates a constraint that is added.
    AddRefused = 20,
    /// A limit of the language.
    Limit = 21,
    /// Memory was refused.
    OutOfMemory = 22,
}

impl fmt::Display for Cause {
    fn fmt(&self, f: &mut fmt::Formatter<'_>) -> fmt::Result {
        f.write_str(self.name())
    }
}
