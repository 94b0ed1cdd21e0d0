//! Other terms to go on with, and what is taken back.

use super::{Reply, Trial};
use crate::folder::Folder;
use crate::replay::Step;
use crate::session::Session;
use crate::stop::Stop;
use crate::words::answered;
use std::path::Path;

impl Trial {
    /// Goes on with the terms of a folder.
    pub(super) fn revise(&mut self, folder: &str, renamed: bool) -> Result<Reply, Stop> {
        let new = match Folder::load(Path::new(folder)) {
            Ok(new) => new,
            Err(stop) => return Ok(Reply::Wrong(stop.to_string())),
        };
        let old = self.present().clone();
        let revised = match self.session.revise(&old, &new, renamed) {
            Err(stop @ (Stop::Failed(_) | Stop::Mistaken(_))) => {
                return Ok(Reply::Wrong(stop.to_string()))
            }
            revised => revised?,
        };
        let said = revised.text(self.session.terms()).trim_end().to_string();
        let new = Folder { names: revised.names, ..new };
        self.revisions.push((self.session.steps().len(), new));
        self.last = None;
        Ok(Reply::Said(said))
    }

    /// Makes all again but the last request or revision.
    pub(super) fn undo(&mut self) -> Result<Reply, Stop> {
        let count = self.session.steps().len();
        let revised = self.revisions.last().is_some_and(|(after, _)| *after == count);
        let taken = match (self.session.steps().last(), revised) {
            (_, true) => format!("took back the terms of {}", self.present().path.display()),
            (None, false) => {
                return Ok(Reply::Wrong("there is nothing to take back".to_string()));
            }
            (Some(last), false) => {
                let (asked, answer) = (self.asked(last), answered(last.verdict));
                format!("took back {asked}, which was {answer}")
            }
        };
        if revised {
            self.revisions.pop();
        }
        let mut session = Session::before(&self.folder, self.session.is_banked())?;
        let mut left = self.revisions.iter().peekable();
        let kept = if revised { count } else { count - 1 };
        for made in 0..=kept {
            while let Some((_, terms)) = left.next_if(|(after, _)| *after == made) {
                session.revise_again(&terms.accepted()?)?;
            }
            if made < kept {
                let Step { bank, request, .. } = self.session.steps()[made];
                session.make(bank, request)?;
            }
        }
        // Only what was asked under the terms in use has a reason.
        let since = self.revisions.last().map_or(0, |(after, _)| *after);
        self.last = session.steps()[since..].last().copied();
        self.session = session;
        Ok(Reply::Said(format!("{taken}; moment {}", self.session.moment())))
    }
}
