//! What becomes of the sentences about the past.

use crate::aloud::tables::{tables, Table};
use crate::aloud::{listed, Sentence};
use crate::json::Json;
use crate::names::Names;
use keeper::terms::formula::first_same;
use keeper::terms::Terms;

/// From where on a sentence counts.
#[derive(Clone, Copy, Debug, PartialEq, Eq)]
pub enum Start {
    /// From where it counted under the old terms.
    Carried,
    /// From this moment on.
    Now,
    /// The new terms do not have it.
    Dropped,
}

impl Start {
    fn word(self) -> &'static str {
        match self {
            Start::Carried => "carried",
            Start::Now => "now",
            Start::Dropped => "dropped",
        }
    }
}

/// A past-time entry of the new terms, or one of the old terms that is dropped.
pub struct Told {
    pub start: Start,
    /// Its number in the new terms.
    pub entry: Option<usize>,
    /// The number in the old terms of the entry that it goes on from, or that is dropped.
    pub was: Option<usize>,
    /// The events whose policies have it.
    pub events: Vec<String>,
    /// The definition that it stands in.
    pub definition: Option<String>,
    table: Table,
}

/// All sentences of the new terms, and those of the old terms that are dropped.
pub fn told(old: (&Terms, &Names), new: (&Terms, &Names)) -> Vec<Told> {
    let carried = first_same(old.0, new.0);
    let kept = first_same(new.0, old.0);
    let mut told = Vec::new();
    for table in tables(new.0, new.1) {
        let (entry, was) = (table.entry, carried[table.entry]);
        let start = if was.is_some() { Start::Carried } else { Start::Now };
        told.push(Told { entry: Some(entry), was, ..standing(new, start, table) });
    }
    for table in tables(old.0, old.1).into_iter().filter(|table| kept[table.entry].is_none()) {
        let was = Some(table.entry);
        told.push(Told { was, ..standing(old, Start::Dropped, table) });
    }
    told
}

/// Where a sentence stands in its terms.
fn standing((terms, names): (&Terms, &Names), start: Start, table: Table) -> Told {
    let above = users(terms, table.entry);
    let policies = terms.policies.iter().enumerate().filter(|(_, policy)| above[**policy]);
    let events = policies.map(|(event, _)| names.event(event)).collect();
    let called = (table.entry..above.len()).filter(|&entry| above[entry]);
    let definition = called.filter_map(|entry| names.defined(entry)).next();
    let definition = definition.map(|called| called.name.clone());
    Told { start, entry: None, was: None, events, definition, table }
}

/// For each entry whether it is the given one or has it inside.
fn users(terms: &Terms, entry: usize) -> Vec<bool> {
    let mut above = vec![false; terms.entries.len()];
    for (index, user) in terms.entries.iter().enumerate() {
        above[index] = index == entry || user.operands().into_iter().any(|part| above[part]);
    }
    above
}

impl Told {
    /// The sentence, after the policies and the definition that it stands in.
    fn sentence(&self) -> Sentence {
        let place = match (&self.events[..], &self.definition) {
            ([], None) => "in no policy".to_string(),
            ([], Some(definition)) => format!("in no policy, under {definition}"),
            (events, None) => format!("in {}", listed(events)),
            (events, Some(definition)) => format!("in {}, under {definition}", listed(events)),
        };
        self.table.sentence(&format!("{place}:"))
    }

    pub fn json(&self) -> Json {
        Json::Object(vec![
            ("sentence", self.table.sentence("").text().trim_start().into()),
            ("start", self.start.word().into()),
            ("entry", self.entry.into()),
            ("was", self.was.into()),
            ("events", self.events.clone().into()),
            ("definition", self.definition.clone().into()),
        ])
    }
}

/// Whether a sentence that begins reads as one that is dropped.
pub fn some_read_alike(told: &[Told]) -> bool {
    let said = |start: Start| {
        let those = told.iter().filter(move |told| told.start == start);
        those.map(|told| told.table.sentence(""))
    };
    said(Start::Now).any(|begun| said(Start::Dropped).any(|dropped| begun == dropped))
}

/// Whether a sentence speaks of a clause by its number.
pub fn some_are_numbered(told: &[Told]) -> bool {
    told.iter().any(|told| told.table.sentence("").text().contains("clause "))
}

/// Who A, B and C are, if a sentence speaks of them.
pub fn letters(told: &[Told]) -> Option<String> {
    let said = |letter: &str, least: usize| {
        let those = told.iter().filter(|told| told.table.sought >= least);
        let mut texts = those.map(|told| told.table.sentence("").text());
        texts.any(|text| text.split(|c: char| !c.is_alphanumeric()).any(|word| word == letter))
    };
    let who = match (said("A", 0), said("B", 0), said("C", 3)) {
        (_, _, true) => "A, B and C stand for any members",
        (_, true, _) => "A and B stand for any members",
        (true, ..) => "A stands for any member",
        _ => return None,
    };
    Some(format!("{who} who fit{}.\n", if who.ends_with('s') { "" } else { "s" }))
}

/// The sentences with one start under their heading, if there are any. What is
/// the same in words is said once.
pub fn part(told: &[Told], start: Start, head: &str) -> Option<String> {
    let mut lines = vec![(0, head.to_string())];
    let mut said: Vec<Sentence> = Vec::new();
    for sentence in told.iter().filter(|told| told.start == start).map(Told::sentence) {
        if !said.contains(&sentence) {
            lines.extend(sentence.lines.iter().map(|(depth, line)| (depth + 1, line.clone())));
            said.push(sentence);
        }
    }
    (!said.is_empty()).then(|| Sentence { lines }.wrapped())
}
