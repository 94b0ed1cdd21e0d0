//! How a sub-command ends, and why it stops early.

use crate::json::Json;
use crate::source::mistake::Mistaken;
use std::fmt;
use std::io;

/// The exit status: done.
pub const WELL: i32 = 0;
/// The exit status: what was asked to hold does not. A denial, a refusal, an
/// expectation that fails, a document that quotes otherwise.
pub const FAILING: i32 = 1;
/// The exit status: the command line is wrong.
pub const USAGE: i32 = 2;
/// The exit status: a file can't be read, written or compiled, or its terms are
/// not accepted.
pub const UNUSABLE: i32 = 3;

/// Why a sub-command stops early.
#[derive(Clone, Debug)]
pub enum Stop {
    /// The command line is wrong.
    Usage(String),
    /// What was asked for can't be done.
    Failed(String),
    /// A source has mistakes.
    Mistaken(Mistaken),
    /// What is wrong with a terms file or with requests, at its place: for people, and as
    /// one object for each cause.
    Told(String, Vec<Json>),
    /// The proved library and the keeper differ.
    Differ(String),
    /// The reader of the output went away.
    Closed,
}

impl Stop {
    pub fn status(&self) -> i32 {
        match self {
            Stop::Usage(_) => USAGE,
            Stop::Closed => WELL,
            Stop::Failed(_) | Stop::Mistaken(_) | Stop::Told(..) | Stop::Differ(_) => UNUSABLE,
        }
    }

    /// What `--json` prints of it, one object a line. Each has an `error`.
    pub fn json(&self) -> Vec<Json> {
        match self {
            Stop::Closed => Vec::new(),
            Stop::Mistaken(mistaken) => mistaken.json(),
            Stop::Told(_, json) => json.clone(),
            _ => vec![Json::Object(vec![("error", self.to_string().into())])],
        }
    }
}

impl fmt::Display for Stop {
    fn fmt(&self, out: &mut fmt::Formatter<'_>) -> fmt::Result {
        match self {
            Stop::Usage(said) | Stop::Failed(said) | Stop::Told(said, _) => out.write_str(said),
            Stop::Mistaken(mistaken) => mistaken.fmt(out),
            Stop::Differ(said) => {
                write!(out, "the proved library and the keeper differ, please report it: {said}")
            }
            Stop::Closed => Ok(()),
        }
    }
}

impl From<io::Error> for Stop {
    fn from(error: io::Error) -> Stop {
        match error.kind() {
            io::ErrorKind::BrokenPipe => Stop::Closed,
            _ => Stop::Failed(format!("cannot write to standard output: {error}")),
        }
    }
}
