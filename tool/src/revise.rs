//! A monitor that goes on with new terms: what becomes of the past, and which
//! answers change.
//!
//! * `agreement`: whether both terms speak of the same members, relations and events
//! * `sentences`: which sentences about the past go on, begin or are dropped
//! * `changes`: who could and no longer can, and the other way round
//! * `unused`: first edges that differ

mod agreement;
mod changes;
mod sentences;
mod unused;

use crate::bank::Bank;
use crate::both::{Allowed, Banks, Both};
use crate::folder::Folder;
use crate::json::Json;
use crate::names::{Kind, Names};
use crate::stop::Stop;
use crate::words::Words;
use changes::{Change, Changes};
use keeper::terms::{EventEdge, Refusal, Terms};
pub use sentences::Start;
use sentences::Told;

/// Said where a sentence that begins reads as one that is dropped.
const READ_ALIKE: &str = "\
What begins and what is dropped in the same words is not the same formula: variables
differ, or the order of parts. `cuckooormolu compile --print` shows them.
";

/// What can go on with new terms: one state, or two banks together.
pub trait Revisable {
    fn terms(&self) -> &Terms;

    /// The present moment.
    fn moment(&self) -> usize;

    /// What there is now: one view, or one of each bank.
    fn views(&self) -> Result<Vec<View>, Stop>;

    /// Goes on with the terms of another; or it is refused, and all is as it was.
    fn go_on(&mut self, new: &Both) -> Result<Result<(), Refusal>, Stop>;
}

/// The present event and all that is allowed now, in a bank where there are two.
pub struct View {
    pub bank: Option<Bank>,
    pub event: Option<EventEdge>,
    pub allowed: Allowed,
}

/// What a revision comes to.
pub struct Revised {
    /// The moment at which it is made.
    pub moment: usize,
    /// Whether the new terms say the same as the old, first edges aside.
    same: bool,
    /// The event of that moment, with which what begins now begins, and its bank.
    last: Option<(Option<Bank>, EventEdge)>,
    /// What has another name in the new terms: kind, number and its name before.
    renamed: Vec<(Kind, usize, String)>,
    /// What is said of first edges that differ, where both terms have them by name.
    unused: Option<String>,
    pub told: Vec<Told>,
    /// The changes in each bank.
    changes: Vec<(Option<Bank>, Changes)>,
    /// The names from here on: those of the new terms, and where these have none
    /// those of the old.
    pub names: Names,
}

/// Goes on with the terms of a folder. It is refused, and nothing is changed, where
/// these have other numbers of members, relations or events, or, unless they were
/// `renamed` on purpose, other names of them.
pub fn revise(
    revised: &mut impl Revisable,
    old: &Folder,
    new: &Folder,
    renamed: bool,
) -> Result<Revised, Stop> {
    let next = new.accepted()?;
    let (before, could) = (revised.terms().clone(), revised.views()?);
    let differing = agreement::renamed(&before, &old.names, &new.names);
    if before.is_same_size(next.terms()) && !renamed && !differing.is_empty() {
        return Err(agreement::other_names(&before, old, new, &differing));
    }
    if revised.go_on(&next)?.is_err() {
        return Err(agreement::other_size(&before, next.terms(), old, new));
    }
    let can = revised.views()?;
    let change =
        |(could, can): (&View, &View)| (can.bank, Changes::of(&could.allowed, &can.allowed));
    let names = agreement::merged(revised.terms(), &old.names, &new.names);
    // Edges of stored terms are those of a later moment.
    let from_start = old.source.is_some() && new.source.is_some();
    let unused = unused::told((&before, &old.names), (next.terms(), &new.names));
    Ok(Revised {
        same: is_same(&before, revised.terms()),
        moment: revised.moment(),
        last: can.iter().find_map(|view| Some((view.bank, view.event?))),
        renamed: differing,
        unused: unused.filter(|_| from_start),
        told: sentences::told((&before, &old.names), (revised.terms(), &names)),
        changes: could.iter().zip(&can).map(change).collect(),
        names,
    })
}

/// Whether two terms are the same but for their first edges.
fn is_same(old: &Terms, new: &Terms) -> bool {
    let said = |terms: &Terms| keeper::terms::write(terms, &Default::default());
    said(old) == said(new)
}

impl Revisable for Both {
    fn terms(&self) -> &Terms {
        Both::terms(self)
    }

    fn moment(&self) -> usize {
        self.record().graphs().len() - 1
    }

    fn views(&self) -> Result<Vec<View>, Stop> {
        Ok(vec![View { bank: None, event: self.present().event, allowed: self.allowed()? }])
    }

    fn go_on(&mut self, new: &Both) -> Result<Result<(), Refusal>, Stop> {
        self.revise(new)
    }
}

impl Revisable for Banks {
    fn terms(&self) -> &Terms {
        Banks::terms(self)
    }

    fn moment(&self) -> usize {
        Banks::moment(self)
    }

    fn views(&self) -> Result<Vec<View>, Stop> {
        let view = |bank: Bank| {
            let event = self.record(bank).last().event;
            Ok(View { bank: Some(bank), event, allowed: self.allowed(bank)? })
        };
        Bank::BOTH.into_iter().map(view).collect()
    }

    fn go_on(&mut self, new: &Both) -> Result<Result<(), Refusal>, Stop> {
        self.revise(new)
    }
}

impl Revised {
    /// All of it for people.
    pub fn text(&self, terms: &Terms) -> String {
        let words = Words::new(terms, &self.names);
        let mut parts = Vec::new();
        if !self.renamed.is_empty() {
            let line = |(kind, number, before): &(Kind, usize, String)| {
                format!(
                    "- {kind} {number}, {before}, is called {}\n",
                    self.names.name(*kind, *number)
                )
            };
            let lines: String = self.renamed.iter().map(line).collect();
            parts
                .push(format!("WARNING: renamed, with all that they have and have done:\n{lines}"));
        }
        parts.extend(self.unused.clone());
        if self.same {
            let rest = if self.unused.is_some() { "Else the terms" } else { "The terms" };
            parts.push(format!("{rest} are the same: nothing changes.\n"));
            return parts.join("\n");
        }
        let heads = [
            (Start::Carried, "Still remembered:".to_string()),
            (Start::Now, self.begins(&words)),
            (Start::Dropped, "These are dropped, with all that they remember:".to_string()),
        ];
        for (start, head) in heads {
            parts.extend(sentences::part(&self.told, start, &head));
        }
        if self.told.is_empty() {
            parts.push("Neither terms say anything about the past.\n".to_string());
        }
        if sentences::some_read_alike(&self.told) {
            parts.push(READ_ALIKE.to_string());
        }
        if sentences::some_are_numbered(&self.told) {
            parts.push(
                "Clauses have the numbers that `cuckooormolu aloud` gives them.\n".to_string(),
            );
        }
        parts.extend(sentences::letters(&self.told));
        for (bank, changes) in &self.changes {
            let of = bank.map_or(String::new(), |bank| format!("In the {bank} bank:\n\n"));
            parts.push(of + &changes.parts(&words).join("\n"));
        }
        parts.join("\n")
    }

    fn begins(&self, words: &Words) -> String {
        let now = format!("These begin now, at moment {}", self.moment);
        match self.last.map(|(bank, event)| (bank, words.happened(event))) {
            None => format!("{now}:"),
            Some((None, event)) => format!("{now}, and its event, {event}, counts:"),
            Some((Some(bank), event)) => {
                format!("{now}, and its event, {event}, counts in the {bank} bank:")
            }
        }
    }

    /// All of it, one object a line.
    pub fn json(&self) -> Vec<Json> {
        let renamed = self.renamed.iter().map(|(kind, number, before)| {
            Json::Object(vec![
                ("kind", kind.word().into()),
                ("number", (*number).into()),
                ("before", before.as_str().into()),
                ("name", self.names.name(*kind, *number).into()),
            ])
        });
        let renamed: Vec<Json> = renamed.collect();
        let mut lines = vec![Json::Object(vec![
            ("moment", self.moment.into()),
            ("renamed", Json::List(renamed)),
        ])];
        lines.extend(self.told.iter().map(Told::json));
        let changes = self.changes.iter().flat_map(|(_, changes)| &changes.list);
        lines.extend(changes.map(|change: &Change| change.json(&self.names)));
        lines
    }
}
