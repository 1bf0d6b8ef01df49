//! Why a store has no answer.

use std::fmt;
use std::future::Future;
use std::io;
use std::sync::Arc;
use std::time::Instant;

use super::statements::{Reason, ANSWER, SILENT};

/// How many characters of an error are shown.
const MOST: usize = 1024;

/// Why there is no answer. Nobody knows what the store has.
#[derive(Debug, Clone)]
pub(crate) struct Fault {
    /// That of `lists/postgres.toml`, "unfit" where the store is of no use to this member, or "server".
    pub name: &'static str,
    pub text: String,
    /// That of the server's error; "" where it answered none.
    pub code: String,
}

impl Fault {
    /// A fault of the server, or of the way to it. It is one line, whatever the server says.
    pub fn server(text: impl fmt::Display) -> Fault {
        let plain = |it: char| if it.is_control() { ' ' } else { it };
        Fault { name: "server", text: text.to_string().chars().take(MOST).map(plain).collect(), code: String::new() }
    }

    pub fn is(&self, reason: Reason) -> bool {
        self.name == reason.0
    }
}

impl From<Reason> for Fault {
    fn from((name, text): Reason) -> Fault {
        Fault { name, text: text.to_owned(), code: String::new() }
    }
}

impl From<tokio_postgres::Error> for Fault {
    fn from(why: tokio_postgres::Error) -> Fault {
        match why.as_db_error() {
            Some(said) => Fault { code: said.code().code().to_owned(), ..Fault::server(said.message()) },
            None => Fault::server(why),
        }
    }
}

impl fmt::Display for Fault {
    fn fmt(&self, f: &mut fmt::Formatter<'_>) -> fmt::Result {
        f.write_str(&self.text)
    }
}

impl std::error::Error for Fault {}

/// Why a [`PostgresStore`](crate::PostgresStore) does not begin.
#[derive(Debug, Clone)]
#[non_exhaustive]
pub enum PostgresError {
    /// What is wrong with the options, the group, the replicas or an address, without any part of an address.
    Unfit(String),
    /// The system has no other thread, or no means for one to wait.
    Io(Arc<io::Error>),
}

impl PostgresError {
    pub(crate) fn unfit(text: impl Into<String>) -> PostgresError {
        PostgresError::Unfit(text.into())
    }
}

impl From<io::Error> for PostgresError {
    fn from(why: io::Error) -> PostgresError {
        PostgresError::Io(Arc::new(why))
    }
}

impl fmt::Display for PostgresError {
    fn fmt(&self, f: &mut fmt::Formatter<'_>) -> fmt::Result {
        match self {
            PostgresError::Unfit(why) => f.write_str(why),
            PostgresError::Io(why) => write!(f, "the store's thread can't begin: {why}"),
        }
    }
}

impl std::error::Error for PostgresError {
    fn source(&self) -> Option<&(dyn std::error::Error + 'static)> {
        match self {
            PostgresError::Unfit(_) => None,
            PostgresError::Io(why) => Some(why.as_ref()),
        }
    }
}

/// What comes of some work until a moment.
pub(crate) async fn within<T>(end: Instant, work: impl Future<Output = T>) -> Result<T, Fault> {
    tokio::time::timeout_at(end.into(), work).await.map_err(|_| SILENT.into())
}

/// The only row of an answer.
pub(crate) fn only(rows: Vec<tokio_postgres::Row>) -> Result<Columns, Fault> {
    match <[_; 1]>::try_from(rows) {
        Ok([row]) => Ok(Columns(row)),
        Err(_) => Err(ANSWER.into()),
    }
}

/// The columns of a row.
pub(crate) struct Columns(tokio_postgres::Row);

impl Columns {
    pub fn get<'a, T: tokio_postgres::types::FromSql<'a>>(&'a self, at: usize) -> Result<T, Fault> {
        self.0.try_get(at).map_err(|_| ANSWER.into())
    }
}
