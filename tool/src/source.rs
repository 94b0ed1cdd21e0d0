//! The source language: terms with names, compiled to a terms file, and back.
//!
//! * `tokens`, `parse`, `ast`: a text, read
//! * `kinds`: kinds of members as attributes
//! * `passing`: events of one moment where the past seems to be meant
//! * `twice`: what was so twice, and is forgotten straight after
//! * `seldom`: other sentences that say something else than they seem to
//! * `disjoint`: what no member can be, by the kinds of members
//! * `seeker`: what these four find
//! * `resolve`, `said`: names found, definitions and derived forms unfolded
//! * `tree`: at which member each part is said
//! * `entries`: variables numbered, equal parts made one entry
//! * `compile`: all of it, with what is declared
//! * `goal`: a sentence that stands alone, as further entries of terms
//! * `print`: a source, written; `decompile`: the way back from terms
//! * `mistake`: what is wrong, shown at its place

pub mod ast;
pub mod compile;
pub mod decompile;
mod disjoint;
mod entries;
pub mod goal;
pub(crate) mod kinds;
pub mod mistake;
mod one_or_two;
pub mod parse;
mod passing;
pub mod print;
mod resolve;
mod said;
mod seeker;
mod seldom;
pub mod tokens;
mod tree;
mod twice;

pub use compile::{compile, Compiled};
pub use entries::Origin;
pub use parse::parse;
