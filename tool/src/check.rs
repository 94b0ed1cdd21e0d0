//! What is wrong with a terms file, and what may be.
//!
//! Whether a file is accepted, and if not with which number at which line, is
//! said by the proved library and the keeper. Here the cause is found in that
//! line, and told with what would be right.
//!
//! * `fault`: a cause with its place, and how both are shown
//! * `reader`: the lines in turn; `line`: what a line is made of
//! * `entries`, `others`, `stored`: F lines; M, L, P, K, E and G lines; S, T and V lines
//! * `advice`: what would be right
//! * `warnings`, `tried`, `sought`: what is accepted and yet seldom meant
//! * `effort`: what a request may work out

mod advice;
pub mod effort;
mod entries;
mod fault;
mod line;
mod others;
mod reader;
mod sought;
mod stored;
mod tried;
mod warnings;

pub use fault::Fault;
pub use reader::diagnose;
pub use warnings::{About, Warning};

use crate::both::Both;
use crate::folder::Folder;
use crate::stop::Stop;
use keeper::terms::Refusal;

/// What there is to say of a terms text.
pub enum Checked {
    Refused(Fault),
    Accepted(Box<Both>, Vec<Warning>),
}

/// Checks the terms of a folder. If a request may take long by them, nothing is asked of
/// what is accepted.
pub fn check(folder: &Folder) -> Result<Checked, Stop> {
    match Both::read_terms(&folder.terms)? {
        Ok(both) => {
            let warnings = warnings::warnings(&both, folder)?;
            Ok(Checked::Accepted(Box::new(both), warnings))
        }
        Err(refusal) => Ok(Checked::Refused(agreed(folder, refusal))),
    }
}

/// The cause that was found, if it is one for this refusal.
fn agreed(folder: &Folder, refusal: Refusal) -> Fault {
    let found = diagnose(&folder.terms, &folder.names);
    let found = found.filter(|fault| (fault.number, fault.line) == (refusal.number, refusal.line));
    found.unwrap_or_else(|| {
        let what = format!("refused with {}", refusal.number);
        Fault { line: refusal.line, ..Fault::without_line(refusal.number, what, String::new()) }
    })
}
