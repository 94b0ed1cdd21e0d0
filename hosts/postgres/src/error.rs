//! Why there is no answer.

use crate::libpq::Lost;
use cuckooormolu::{Refusal, MOST_EFFORT};
use std::fmt;

/// Why there is no answer.
#[derive(Clone, Debug, PartialEq, Eq)]
pub enum Error {
    /// There is no way to the circles: the server is away or refuses the connection, or the tables are not there.
    /// Anything asked before may have been answered or not, as for [`Error::Lost`].
    Away(Lost),
    /// A statement failed or the connection was lost. The request may have been answered or not: ask again with the
    /// same key, by another connection.
    Lost(Lost),
    /// There is no such circle.
    NoCircle,
    /// There is such a circle already.
    Circle,
    /// The key was used for another request or revision.
    OtherRequest,
    /// A request by these terms may work out so many rows, more than the limit. Nothing was written.
    Costly { rows: usize, limit: usize },
    /// The circle's words are not ones that the library accepts. Nothing was answered.
    Damaged(Refusal),
    /// The same, and the row is as long as those that earlier versions wrote.
    Earlier,
}

impl Error {
    /// What is wrong, in one line, where a circle was asked.
    pub fn of(&self, circle: i64) -> String {
        match self {
            Error::Lost(lost) => format!("circle {circle}: {lost}"),
            Error::NoCircle => format!("circle {circle} does not exist"),
            Error::Circle => format!("circle {circle} exists already"),
            Error::Damaged(refusal) => format!("circle {circle} is damaged: {refusal}"),
            Error::Earlier => {
                format!(
                    "circle {circle} is stored as by an earlier version: run `circles upgrade TO`"
                )
            }
            other => other.to_string(),
        }
    }
}

impl fmt::Display for Error {
    fn fmt(&self, out: &mut fmt::Formatter<'_>) -> fmt::Result {
        match self {
            Error::Away(lost) | Error::Lost(lost) => lost.fmt(out),
            Error::NoCircle => out.write_str("the circle does not exist"),
            Error::Circle => out.write_str("the circle exists already"),
            Error::OtherRequest => {
                out.write_str("the key was used for another request or revision")
            }
            Error::Costly { rows, limit } => {
                let more = if *rows >= MOST_EFFORT { " or more" } else { "" };
                write!(
                    out,
                    "under these terms a single request may compute {rows} rows{more}, and the limit is {limit}: \
                     change the part that `cuckooormolu check` names, or set another limit with --effort ROWS"
                )
            }
            Error::Damaged(refusal) => write!(out, "the circle is damaged: {refusal}"),
            Error::Earlier => out.write_str("the circle is stored as by an earlier version"),
        }
    }
}

impl std::error::Error for Error {}

/// Writes a line to standard error, by one call, since workers may share it.
pub fn report(what: impl fmt::Display) {
    let line = format!("circles: {what}\n");
    eprint!("{line}");
}

impl From<Lost> for Error {
    fn from(lost: Lost) -> Error {
        Error::Lost(lost)
    }
}
