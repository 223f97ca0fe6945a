//! An in-memory SQL engine whose matter is integrity: keys, CHECK, foreign keys with every referential action, deferred constraints,
//! savepoints and triggers, over integers and texts. It says which rows a cascade touches, which trigger sees what, and why a commit is
//! refused.
//!
//! ```
//! use sqlkeep::{Cause, Session};
//!
//! # fn main() -> sqlkeep::Result<()> {
//! let mut session = Session::open()?;
//! session.execute_batch(
//!     "CREATE TABLE author (name VARCHAR(20) PRIMARY KEY);
//!      CREATE TABLE book (title VARCHAR(20), author VARCHAR(20)
//!          CONSTRAINT written_by REFERENCES author INITIALLY DEFERRED);",
//! )?;
//! session.execute("INSERT INTO book VALUES (?, ?);", ("Dracula", "Stoker"))?;
//! let error = session.commit().unwrap_err();
//! let refusal = error.refusal().unwrap();
//! assert_eq!(refusal.cause, Cause::CommitRefused);
//! assert_eq!(refusal.constraint.as_deref(), Some("WRITTEN_BY"));
//! assert_eq!(
//!     error.to_string(),
//!     "CommitRefused: WRITTEN_BY: BOOK row 1 ('Dracula', 'Stoker') refers to AUTHOR ('Stoker'), which isn't there"
//! );
//! # Ok(())
//! # }
//! ```
//!
//! The crate needs `libsqlkeep`, which is found in the folder that `SQLKEEP_LIB_DIR` names, by `pkg-config`, or in `out/` of the
//! repository that the crate is in.
#![warn(missing_docs)]

pub mod catalogue;
mod copying;
mod error;
mod ffi;
mod reasons;
mod session;
mod value;

pub use error::{Cause, Error, Place, Refusal, Result, SyntaxError};
pub use session::{Session, Transcript, Violation, Work};
pub use value::{FromRow, FromValue, Parameters, ToValue, Value, ValueRef};
