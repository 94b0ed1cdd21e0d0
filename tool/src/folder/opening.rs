//! Terms that are to be used: what a user has to know first, and why they are refused.

use super::{Folder, NAMES, TERMS};
use crate::both::Both;
use crate::check::effort;
use crate::stop::Stop;
use keeper::terms::Refusal;
use std::path::Path;

impl Folder {
    /// Loads terms by which requests are answered, and tells on standard error what their
    /// user has to know first.
    pub fn opening(path: &Path) -> Result<Folder, Stop> {
        let folder = Folder::load(path)?;
        folder.notes(path).iter().for_each(|note| eprintln!("{note}"));
        Ok(folder)
    }

    /// That a past is not used, that names are of other terms, that a request may take long.
    pub fn notes(&self, path: &Path) -> Vec<String> {
        let mut notes = Vec::new();
        if let Some((what, right)) = self.idle() {
            notes.push(format!("warning: {what}; {right}"));
        }
        let read = keeper::terms::read(&self.terms).ok().filter(|_| self.source.is_none());
        if let Some(unfit) = read.and_then(|read| self.names.unfit(&read.terms)) {
            let names = self.path.join(NAMES);
            notes.push(format!(
                "warning: {} names {unfit}: is it of other terms? Then answers are shown with wrong names",
                names.display()
            ));
        }
        if let Some(rows) = effort::lengthy(&self.terms) {
            notes.push(format!(
                "this may take long: a request works out {}; `cuckooormolu check {}` says which part causes it",
                effort::told(rows),
                path.display()
            ));
        }
        notes
    }

    /// The terms opened: a refusal stops the program, and names the file.
    pub fn accepted(&self) -> Result<Both, Stop> {
        Both::read(&self.terms)?.map_err(|refusal| self.refused(refusal))
    }

    /// The same for what is read for its terms alone.
    pub fn accepted_terms(&self) -> Result<Both, Stop> {
        Both::read_terms(&self.terms)?.map_err(|refusal| self.refused(refusal))
    }

    fn refused(&self, refusal: Refusal) -> Stop {
        let own = self.file.file_name().is_some_and(|name| name == TERMS);
        let checked = if own { self.path.display() } else { self.file.display() };
        let at = match refusal.line {
            0 => String::new(),
            line => format!(" at line {line}"),
        };
        Stop::Failed(format!(
            "{} is refused with {}{at}; `cuckooormolu check {checked}` says what is wrong",
            self.file.display(),
            refusal.number
        ))
    }
}
