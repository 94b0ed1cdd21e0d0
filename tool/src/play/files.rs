//! What a folder has for the page.

use super::asked::{Kept, Named};
use super::saving::by_name;
use crate::folder::{self, Folder, Request, REQUESTS, SOURCE, SPOKEN};
use crate::names::{Kind, Names};
use crate::requests;
use crate::source::decompile::decompile;
use crate::source::mistake::Mistake;
use crate::source::print::print;
use crate::stop::Stop;
use crate::trial::typed::split;
use keeper::terms::Terms;
use std::fs;
use std::path::{Path, PathBuf};

/// A folder that the page reads and writes.
#[derive(Clone, Debug)]
pub struct Files {
    pub path: PathBuf,
}

/// What the folder has.
pub struct Found {
    pub kept: Kept,
    /// Whether the file of requests has more than requests that the page can show, so
    /// that it must not be written over.
    pub more: bool,
    /// Whether the terms were stored with a past. They are shown, and requests go on from
    /// there; they can't be edited, since a source can't say what they remember.
    pub stored: bool,
}

impl Files {
    /// A folder with terms, or with a source that has mistakes.
    pub fn new(path: &Path) -> Result<Files, Stop> {
        let files = Files { path: folder::folder_of(path) };
        files.found()?;
        Ok(files)
    }

    /// The folder's name, also of `.`.
    pub fn name(&self) -> String {
        folder::name(&self.path)
    }

    /// Reads the folder. Terms without a source are written as one.
    pub fn found(&self) -> Result<Found, Stop> {
        let loaded = Folder::load(&self.path).and_then(|folder| folder.readable().map(|()| folder));
        match loaded {
            Ok(folder) => {
                folder.of_one_bank()?;
                let both = folder.accepted_terms()?;
                let (requests, more) = named(&folder, both.terms(), &self.requests());
                let source = match &folder.source {
                    Some(source) => source.text.clone(),
                    None => print(&decompile(both.terms(), &folder.names)),
                };
                let stored = folder.source.is_none() && both.is_stored();
                Ok(Found { kept: Kept { source, requests }, more, stored })
            }
            // A source is shown as it is, with its mistakes, and requests that it may have no
            // names for.
            Err(Stop::Mistaken(_) | Stop::Failed(_)) if self.path.join(SOURCE).is_file() => {
                let file = self.path.join(SOURCE);
                let source = fs::read_to_string(&file).map_err(|error| {
                    Stop::Failed(format!("cannot read {}: {error}", file.display()))
                })?;
                let text = fs::read_to_string(self.path.join(SPOKEN)).ok();
                let requests = text.as_deref().and_then(spoken);
                let there = fs::metadata(self.requests()).is_ok_and(|data| data.len() > 0);
                let more = there && requests.is_none();
                let kept = Kept { source, requests: requests.unwrap_or_default() };
                Ok(Found { kept, more, stored: false })
            }
            Err(stop) => Err(stop),
        }
    }

    /// The folder with a source of the page's, or, if its terms were stored with a past,
    /// with those.
    pub fn with(&self, source: &str) -> Result<Folder, Vec<Mistake>> {
        if let Some(stored) = self.stored() {
            return Ok(stored);
        }
        Folder { path: self.path.clone(), ..Folder::default() }.with_source(source)
    }

    /// The folder, if its terms were stored with a past.
    pub fn stored(&self) -> Option<Folder> {
        let folder = Folder::load(&self.path).ok().filter(|folder| folder.source.is_none())?;
        folder.accepted_terms().is_ok_and(|both| both.is_stored()).then_some(folder)
    }

    /// Where the requests are read from.
    pub(super) fn requests(&self) -> PathBuf {
        let spoken = self.path.join(SPOKEN);
        if spoken.is_file() {
            spoken
        } else {
            self.path.join(REQUESTS)
        }
    }
}

/// The requests in a text of lines by name; none if it has anything else.
fn spoken(text: &str) -> Option<Vec<Named>> {
    let named = |line: &str| match <[String; 3]>::try_from(split(line)) {
        Ok([event, from, to]) => Some(Named { event, from, to }),
        Err(_) => None,
    };
    let requests = text.lines().map(named).collect::<Option<Vec<Named>>>()?;
    (by_name(&requests)?.concat() == text).then_some(requests)
}

/// Requests as lines of a file: with names in requests.say, else with numbers.
fn lines(requests: impl Iterator<Item = Request>, names: &Names, path: &Path) -> Vec<String> {
    match path.file_name().is_some_and(|name| name == SPOKEN) {
        true => requests::write(requests, names),
        false => requests::numbered(requests),
    }
}

/// The requests of a folder by name, and whether their file has more than these:
/// lines that name nothing, or comments.
fn named(folder: &Folder, terms: &Terms, file: &Path) -> (Vec<Named>, bool) {
    let requests = folder.requests();
    let name = |request: &Request| match *request {
        Request::Ask { event, from, to }
            if event < terms.events && from.max(to) < terms.members =>
        {
            let names = &folder.names;
            Some(Named {
                event: names.event(event),
                from: names.member(from),
                to: names.member(to),
            })
        }
        _ => None,
    };
    let named: Vec<Named> = requests.iter().filter_map(name).collect();
    let written = lines(requests.iter().copied(), &folder.names, file).concat();
    let same = fs::read(file).map_or(requests.is_empty(), |text| text == written.as_bytes());
    let more = named.len() < requests.len() || !same;
    (named, more)
}

/// The numbers of a request's names, or which of them there is not.
pub fn numbers(named: &Named, names: &Names) -> Result<(usize, usize, usize), String> {
    let find = |kind: Kind, name: &str| {
        names.find(kind, name).ok_or_else(|| format!("there is no {kind} `{name}`"))
    };
    Ok((
        find(Kind::Event, &named.event)?,
        find(Kind::Member, &named.from)?,
        find(Kind::Member, &named.to)?,
    ))
}
