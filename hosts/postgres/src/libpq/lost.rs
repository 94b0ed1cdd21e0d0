//! What the server or the way to it says where something failed.

use std::fmt;

/// What the server or the way to it says. Whether a transaction that was to be committed is in can't be told.
#[derive(Clone, Debug, PartialEq, Eq)]
pub struct Lost {
    says: String,
    /// The SQLSTATE; empty where the server gave none.
    code: String,
    /// Whether there is no connection any more.
    away: bool,
}

/// Failures that pass: the connection is lost, the server starts or stops, the transaction gave way to another.
const PASSING: [&str; 3] = ["08", "57P", "40"];

const NO_TABLE: &str = "42P01";
const NO_COLUMN: &str = "42703";

impl Lost {
    /// One line, whatever was said: line feeds and tabs separate answers and their fields.
    pub(super) fn new(says: &str, code: &str, away: bool) -> Lost {
        let says = says.split_whitespace().collect::<Vec<_>>().join(" ");
        Lost { says, code: code.to_string(), away }
    }

    /// Whether asking again may help, by another connection.
    pub fn passes(&self) -> bool {
        self.away || PASSING.iter().any(|class| self.code.starts_with(class))
    }
}

impl fmt::Display for Lost {
    fn fmt(&self, out: &mut fmt::Formatter<'_>) -> fmt::Result {
        out.write_str(&self.says)?;
        match self.code.as_str() {
            NO_TABLE => out.write_str(": `circles schema TO` makes the tables"),
            NO_COLUMN => out.write_str(": `circles upgrade TO` brings older tables to this form"),
            _ => Ok(()),
        }
    }
}
