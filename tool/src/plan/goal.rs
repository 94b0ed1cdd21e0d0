//! The goal of a plan: an event's policy, or a sentence.

use crate::both::Both;
use crate::folder::Folder;
use crate::names::{nearest, Kind};
use crate::source::ast::Source;
use crate::source::decompile::decompile;
use crate::source::goal::{add, Added};
use crate::source::mistake::{Mistake, Mistaken};
use crate::source::{kinds, parse};
use crate::stop::Stop;
use crate::words::Words;
use keeper::terms::Terms;

/// What is to hold of a pair.
pub struct Goal {
    /// The event whose policy it is; none for a sentence.
    pub event: Option<usize>,
    /// How it was given.
    text: String,
    /// Its entry.
    pub entry: usize,
    /// The terms with that entry, where they are others than the folder's.
    terms: Option<Terms>,
}

impl Goal {
    /// Reads a goal: the name of an event, or a sentence about `me` and `target`.
    pub fn read(text: &str, folder: &Folder, terms: &Terms) -> Result<Goal, Stop> {
        let given = text.trim();
        if let Ok(event) = folder.names.lookup(Kind::Event, given, terms.events) {
            let entry = terms.policies[event];
            return Ok(Goal { event: Some(event), text: given.into(), entry, terms: None });
        }
        let Added { terms: with, entry } =
            add(text, &source(folder, terms), terms).map_err(|mistake| {
                let mistakes = vec![hinted(mistake, given, folder, terms)];
                Stop::Mistaken(Mistaken { file: "--goal".into(), text: text.into(), mistakes })
            })?;
        let terms = (with.entries.len() > terms.entries.len()).then_some(with);
        Ok(Goal { event: None, text: given.into(), entry, terms })
    }

    /// Goes on with terms that have the goal. What it says about the past, and the
    /// terms did not, begins now; gives whether there is such a thing, and a past.
    pub fn enter(&self, both: &mut Both) -> Result<bool, Stop> {
        let Some(terms) = &self.terms else { return Ok(false) };
        let before = both.terms().past().len();
        let is_fresh = both.record().graphs().len() == 1 && !both.is_stored();
        let next = Both::accepted(&keeper::terms::write(terms, &terms.edges))?;
        match both.revise(&next)? {
            Ok(()) => Ok(both.terms().past().len() > before && !is_fresh),
            Err(refusal) => {
                Err(Stop::Failed(format!("the goal is refused with {}", refusal.number)))
            }
        }
    }

    /// That it holds of a pair at some time, `load pete → saw would be granted after it`; or,
    /// if none is given, at no time.
    pub fn said(&self, words: &Words, pair: (usize, usize), after: Option<&str>) -> String {
        let (first, second) = pair;
        let when = after.unwrap_or("at any point in the plan");
        match self.event {
            Some(event) => {
                let would = if after.is_some() { "would" } else { "would not" };
                format!("{} {would} be granted {when}", words.event(event, first, second))
            }
            None => {
                let holds = if after.is_some() { "holds" } else { "does not hold" };
                let (me, target) = (words.member(first), words.member(second));
                format!("`{}` {holds} {when} (me is {me}, target is {target})", self.text)
            }
        }
    }

    pub fn text(&self) -> &str {
        &self.text
    }
}

/// The source of a folder, or what its terms are as a source.
fn source(folder: &Folder, terms: &Terms) -> Source {
    let parsed = folder.source.as_ref().and_then(|source| parse(&source.text).ok());
    match parsed {
        Some(mut source) => {
            kinds::unfold(&mut source);
            source
        }
        None => decompile(terms, &folder.names),
    }
}

/// A single word may be meant as an event.
fn hinted(mistake: Mistake, given: &str, folder: &Folder, terms: &Terms) -> Mistake {
    let events = folder.names.events(terms);
    let message = mistake.message.replace("the end of the file", "the end of the goal");
    let mistake = Mistake { message, ..mistake };
    match nearest(given, events.iter().map(String::as_str)) {
        Some(near) => mistake.advise(format!("write `{near}`, if that event is meant")),
        None if !given.contains(' ') => {
            mistake.advise(format!("a goal is an event ({}) or a sentence", events.join(", ")))
        }
        None => mistake,
    }
}
