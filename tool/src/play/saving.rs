//! What of the page is saved in the folder.

use super::asked::{Named, Save};
use super::files::{numbers, Files};
use super::page;
use crate::folder::{self, Folder, REQUESTS, SOURCE, SPOKEN};
use crate::json::Json;
use crate::names::Kind;
use crate::report::html::counted;
use crate::requests;
use crate::stop::Stop;
use std::fs;

impl Files {
    /// Writes the source, and the requests by name where nothing of them would be lost;
    /// both or neither. Of terms that were stored with a past, the requests alone. Says
    /// what was done, and what the folder has then.
    pub fn save(&self, save: &Save) -> Json {
        match self.saved(save) {
            Ok(said) => {
                let found = self.found().map(|found| page::kept(&found.kept));
                Json::Object(vec![
                    ("done", true.into()),
                    ("changed", false.into()),
                    ("said", said.into()),
                    ("kept", found.unwrap_or(Json::Null)),
                ])
            }
            Err((changed, why)) => Json::Object(vec![
                ("done", false.into()),
                ("changed", changed.into()),
                ("said", why.into()),
            ]),
        }
    }

    /// What was written, or why nothing was; that others have written is told apart.
    fn saved(&self, save: &Save) -> Result<String, (bool, String)> {
        let failed = |stop: Stop| (false, stop.to_string());
        let found = self.found().map_err(failed)?;
        if found.kept != save.before && !save.anyway {
            let why = "The folder was changed elsewhere after this page read it.";
            return Err((true, why.to_string()));
        }
        let path = self.requests();
        let file = folder::name(&path);
        // A file that is left as it was has to be read under the new terms, too.
        let (requests, advice) = match found.more {
            true => (&found.kept.requests, format!("Take them out of {file}")),
            false => (&save.now.requests, "Take them back with Undo".to_string()),
        };
        if let Some(why) = self.unknown(&save.now.source, requests, &advice) {
            return Err((false, why));
        }
        if found.more && path.ends_with(REQUESTS) && self.renumbered(&save.now.source, requests) {
            let why = format!(
                "Not saved: the numbers in {file} would mean others under these terms, and it has more than \
                 requests that this page can show. Write its requests by name to {SPOKEN} first."
            );
            return Err((false, why));
        }
        let source = self.path.join(SOURCE);
        let write = || match found.stored {
            true => Ok(()),
            false => folder::write(&source, save.now.source.as_bytes()).map_err(failed),
        };
        if found.more {
            let why = format!(
                "{file} is left as it was: it has more than requests that this page can show."
            );
            if found.stored {
                return Err((false, format!("Not saved: {why}")));
            }
            write()?;
            return Ok(format!("{SOURCE} is saved. {why}"));
        }
        let lines = by_name(requests).ok_or((false, "Not saved: a name has a quote.".into()))?;
        if lines.is_empty() && !path.exists() {
            write()?;
            return Ok(format!("{SOURCE} is saved."));
        }
        let spoken = self.path.join(SPOKEN);
        let before = fs::read(&spoken).ok();
        let written = folder::write(&spoken, lines.concat().as_bytes())
            .map_err(failed)
            .and_then(|()| write());
        if let Err(why) = written {
            let _ = match before {
                Some(before) => fs::write(&spoken, before),
                None => fs::remove_file(&spoken),
            };
            return Err(why);
        }
        let instead = match path != spoken && path.exists() {
            true => format!(", which is read instead of {file} from now on"),
            false => String::new(),
        };
        let count = counted(lines.len(), "request");
        Ok(match found.stored {
            true => format!("{SPOKEN} is saved with {count}{instead}."),
            false => format!("{SOURCE} is saved, and {SPOKEN} with {count}{instead}."),
        })
    }

    /// Why requests can't be saved with a source: they speak of what it no longer has.
    /// Of a source with mistakes nobody knows.
    fn unknown(&self, source: &str, requests: &[Named], advice: &str) -> Option<String> {
        let names = self.with(source).ok()?.names;
        let unknown = |(kind, name): &(Kind, &str)| names.find(*kind, name).is_none();
        let (kind, name) = requests.iter().flat_map(said).find(unknown)?;
        let speak = |named: &&Named| said(named).contains(&(kind, name));
        let count = requests.iter().filter(speak).count();
        let speak = if count == 1 { "speaks" } else { "speak" };
        let what = match kind {
            Kind::Member => "who is no longer a member",
            _ => "which is no longer an event",
        };
        let advice = if count == 1 { advice.replace("them", "it") } else { advice.to_string() };
        Some(format!(
            "Not saved: {} {speak} of `{name}`, {what}. {advice}, or put `{name}` back.",
            counted(count, "request")
        ))
    }

    /// Whether requests with numbers would mean others under a source.
    fn renumbered(&self, source: &str, requests: &[Named]) -> bool {
        let (Ok(old), Ok(new)) = (Folder::load(&self.path), self.with(source)) else {
            return false;
        };
        requests.iter().any(|named| numbers(named, &old.names) != numbers(named, &new.names))
    }
}

/// The names in a request.
fn said(named: &Named) -> [(Kind, &str); 3] {
    [(Kind::Event, &named.event), (Kind::Member, &named.from), (Kind::Member, &named.to)]
        .map(|(kind, name)| (kind, name.as_str()))
}

/// Requests as lines of requests.say, if all names can stand there.
pub fn by_name(requests: &[Named]) -> Option<Vec<String>> {
    let line = |named: &Named| requests::line(said(named).map(|(_, name)| name));
    requests.iter().map(line).collect()
}
