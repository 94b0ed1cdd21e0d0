//! Tests that people write: tests.say, with what is given and who may then do what.
//!
//! * `lines`: a text cut into statements; `read`: the statements, with their names found
//! * `cursor`: the words of a statement; `people`: whom it speaks of
//! * `run`: the tests made, each from the first moment, and where they fail; `because`: the
//!   words that a reason has to have

mod because;
mod cursor;
mod lines;
mod people;
pub mod read;
pub mod run;

use crate::source::ast::Span;
use keeper::terms::Edge;

/// The tests of a folder.
pub const TESTS: &str = "tests.say";

/// A test: its title and its statements, in order.
#[derive(Clone, Debug, PartialEq)]
pub struct Test {
    pub title: String,
    pub span: Span,
    pub statements: Vec<Statement>,
}

/// A statement and where it is written.
#[derive(Clone, Debug, PartialEq)]
pub struct Statement {
    pub span: Span,
    pub said: Said,
}

#[derive(Clone, Debug, PartialEq)]
pub enum Said {
    /// Edges that are there from the start, or are not.
    First { there: bool, edges: Vec<Edge> },
    /// A request that is made, and has to be granted, or denied.
    Made { call: Call, granted: bool },
    /// Requests that are looked at, each with whether it may be made; and words that the
    /// reason has to have.
    Asked { calls: Vec<(Call, bool)>, because: Option<String> },
}

/// An event, its initiator and its target.
#[derive(Clone, Copy, Debug, PartialEq, Eq)]
pub struct Call {
    pub event: usize,
    pub from: usize,
    pub to: usize,
}
