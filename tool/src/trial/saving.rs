//! The requests of a trial, written to a file.

use super::{Reply, Trial};
use crate::folder::{self, Request, REQUESTS, SPOKEN};
use crate::replay::Step;
use crate::requests;
use std::path::Path;

impl Trial {
    /// Writes the requests. The folder's own file is written only where nothing
    /// of it would be lost.
    pub(super) fn save(&self, file: Option<&str>) -> Reply {
        if !self.revisions.is_empty() {
            let said = "the terms were revised, and a file of requests has no word for that: undo it first";
            let or = match self.session.is_banked() {
                true => "",
                false => ", or use `cuckooormolu revise` with --store",
            };
            return Reply::Wrong(format!("{said}{or}"));
        }
        let malformed = |step: &Step| step.request == Request::Malformed;
        let lost = self.session.steps().iter().any(malformed)
            || !self.after && (!self.folder.requests.is_empty() || self.folder.unread.is_some());
        if file.is_none() && lost {
            let said = "the folder's requests have more than this: give save a file name";
            return Reply::Wrong(said.to_string());
        }
        let (sourced, banked) = (self.folder.source.is_some(), self.session.is_banked());
        let (spoken, numbered) = (self.folder.path.join(SPOKEN), self.folder.path.join(REQUESTS));
        let own = match self.folder.asked != spoken && self.folder.asked != numbered {
            true => &self.folder.asked,
            false if sourced || banked || spoken.exists() => &spoken,
            false => &numbered,
        };
        let path = file.map_or(own.as_path(), Path::new);
        // Names stay right when members are added to the source, numbers do not.
        let by_name = match path.extension().and_then(|ending| ending.to_str()) {
            Some("say") => true,
            Some("tsv") => false,
            _ => sourced || banked,
        };
        if banked && !by_name {
            let said = "a .tsv has no words for banks: give save a name that ends in .say";
            return Reply::Wrong(said.to_string());
        }
        let Some(lines) = self.lines(by_name) else {
            let said = "a name has a quote, and its number is another's name";
            return Reply::Wrong(format!("{said}: no file of requests can say it"));
        };
        let new = file.is_none() && path == spoken && !spoken.exists();
        let instead = match new && numbered.exists() {
            true => format!(", which is read instead of {REQUESTS} from now on"),
            false => String::new(),
        };
        match folder::write(path, lines.concat().as_bytes()) {
            Ok(()) => {
                let (count, path) = (lines.len(), path.display());
                Reply::Said(format!("wrote {count} requests to {path}{instead}"))
            }
            Err(stop) => Reply::Wrong(stop.to_string()),
        }
    }

    /// The requests as lines, by name or by number; those of banks are by name, if that
    /// can be.
    fn lines(&self, by_name: bool) -> Option<Vec<String>> {
        let (steps, names) = (self.session.steps().iter(), &self.folder.names);
        if self.session.is_banked() {
            let asked = steps.filter_map(|step| Some((step.bank?, step.request)));
            return requests::write_banked(asked, self.session.terms(), names);
        }
        let asked = steps.map(|step| step.request);
        Some(match by_name {
            true => requests::write(asked, names),
            false => requests::numbered(asked),
        })
    }
}
