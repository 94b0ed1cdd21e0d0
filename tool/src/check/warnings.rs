//! What is accepted and yet seldom meant.

mod seldom;

use super::{effort, tried};
use crate::both::Both;
use crate::folder::{Folder, Sourced, SPOKEN};
use crate::names::Names;
use crate::source::ast::Span;
use crate::source::mistake::Mistake;
use crate::stop::Stop;
use crate::testing::TESTS;
use keeper::terms::Terms;
use seldom::{edgeless, nameless, strangers, swapped, uncountable, unkept, unsaid, unused};
use std::fs;

/// Something that may be a mistake.
#[derive(Clone, Debug, PartialEq, Eq)]
pub struct Warning {
    /// A word for programs.
    pub kind: &'static str,
    /// What it is about.
    pub about: About,
    /// The line of the terms file, or of the source where there is one; 0 if it is
    /// about no single one.
    pub line: usize,
    pub what: String,
    /// What to look at; may be empty.
    pub right: String,
}

#[derive(Clone, Copy, Debug, PartialEq, Eq)]
pub enum About {
    Entry(usize),
    /// The policy of an event.
    Policy(usize),
    Nothing,
}

/// Lines before the first entry: M and L.
const HEAD: usize = 2;

/// The terms that are looked at, and how to speak of them.
pub struct Subject<'a> {
    pub terms: &'a Terms,
    pub names: &'a Names,
    /// Whether each entry is part of a policy.
    pub reached: Vec<bool>,
    /// Whether the terms come from a source: it has no entries and no labels.
    pub sourced: bool,
}

impl Subject<'_> {
    /// A warning, told for a terms file or for a source.
    pub fn warn(
        &self,
        kind: &'static str,
        about: About,
        terms: impl FnOnce() -> (String, String),
        source: impl FnOnce() -> (String, String),
    ) -> Warning {
        let (what, right) = if self.sourced { source() } else { terms() };
        Warning { kind, about, line: 0, what, right }
    }
}

/// All warnings, by line.
pub fn warnings(both: &Both, folder: &Folder) -> Result<Vec<Warning>, Stop> {
    let (terms, names) = (both.terms(), &folder.names);
    let sourced = folder.source.is_some();
    let subject = Subject { terms, names, reached: reached(terms), sourced };
    let mut warnings = unused(&subject);
    warnings.extend(edgeless(&subject));
    warnings.extend(swapped(&subject));
    warnings.extend(uncountable(&subject));
    warnings.extend(unkept(&subject));
    warnings.extend(strangers(terms, names));
    warnings.extend(nameless(terms, names));
    warnings.extend(unsaid(&subject));
    warnings.extend(unread(folder));
    warnings.extend(misnamed(folder));
    let long = effort::long(&subject, both.effort());
    if long.is_none() && effort::is_quick(terms) {
        warnings.extend(tried::one_sided(both, &subject, folder)?);
    }
    warnings.extend(long);
    // In the stored form all lines come after S.
    let head = HEAD + usize::from(both.is_stored());
    for warning in &mut warnings {
        warning.line = match (folder.place(warning.about), warning.about) {
            (Some((line, _)), _) => line,
            (None, About::Entry(entry)) => head + 1 + entry,
            (None, About::Policy(event)) => head + terms.entries.len() + 1 + event,
            (None, About::Nothing) => 0,
        };
    }
    warnings.sort_by_key(|warning| warning.line);
    Ok(warnings)
}

/// Requests of the folder that can't be read: they are not tried.
fn unread(folder: &Folder) -> Option<Warning> {
    let why = folder.unread.as_ref()?.to_string();
    Some(Warning {
        kind: "requests",
        about: About::Nothing,
        line: 0,
        what: format!("the folder's requests cannot be read: {why}"),
        right: "what makes these requests stops there; `run --requests FILE` makes others"
            .to_string(),
    })
}

/// Files that are called nearly as those of requests and tests are: they are not read.
fn misnamed(folder: &Folder) -> Vec<Warning> {
    let files = fs::read_dir(&folder.path).into_iter().flatten().flatten();
    let files = files.map(|file| file.file_name().to_string_lossy().into_owned());
    let mut files: Vec<String> = files.collect();
    files.sort();
    let mut warnings = Vec::new();
    for (begins, right) in [("request", SPOKEN), ("test", TESTS)] {
        let near = |name: &&String| {
            let (name, ending) =
                (name.to_lowercase(), name.rsplit_once('.').map(|(_, ending)| ending));
            name.starts_with(begins) && matches!(ending, Some("txt" | "say" | "rtf"))
        };
        if files.iter().any(|name| name == right) {
            continue;
        }
        warnings.extend(files.iter().find(near).map(|name| Warning {
            kind: "file",
            about: About::Nothing,
            line: 0,
            what: format!("{name} is not read"),
            right: format!("rename it to {right}"),
        }));
    }
    warnings
}

impl Folder {
    /// The line and the stretch of the source that a warning is about.
    pub fn place(&self, about: About) -> Option<(usize, Span)> {
        let Sourced { text, compiled } = self.source.as_ref()?;
        let span = match about {
            About::Entry(entry) => compiled.origins.get(entry)?.span,
            About::Policy(event) => *compiled.events.get(event)?,
            About::Nothing => return None,
        };
        Some((Mistake::new(span, "").place(text).0, span))
    }
}

/// Whether each entry is part of a policy.
fn reached(terms: &Terms) -> Vec<bool> {
    let mut reached = vec![false; terms.entries.len()];
    for &policy in &terms.policies {
        reached[policy] = true;
    }
    for entry in (0..reached.len()).rev() {
        if reached[entry] {
            for f in terms.entries[entry].operands() {
                reached[f] = true;
            }
        }
    }
    reached
}
