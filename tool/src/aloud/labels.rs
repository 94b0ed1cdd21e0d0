//! How relations and events are said: as verbs where their names are verbs,
//! otherwise by their names.

mod linked;

pub use linked::{Manner, Voice};

use super::grammar::with;
use super::verbs::Verb;
use super::wording::Wording;
use crate::names::{Kind, Labelled, Names};
use keeper::terms::Terms;
use std::collections::BTreeMap;

/// Whether a name says how somebody is rather than what: `suspended`, `active`.
pub fn is_adjective(name: &str) -> bool {
    const ENDINGS: [&str; 9] = ["ed", "able", "ible", "ive", "ous", "ful", "less", "al", "ic"];
    ENDINGS.iter().any(|ending| name.len() > ending.len() + 2 && name.ends_with(ending))
}

/// The wordings of all labels of some terms: those of relations and events, the
/// events denied having those of the events.
pub struct Labels {
    relations: usize,
    wordings: Vec<Wording>,
}

impl Labels {
    pub fn new(terms: &Terms, names: &Names) -> Labels {
        let labels = 0..terms.relations + terms.events;
        let kinds: Vec<(Kind, usize)> =
            labels.map(|label| Labelled::of(terms, label).named()).collect();
        let spoken = |kind: Kind, number: usize| match kind {
            Kind::Event => names.spoken(number),
            _ => None,
        };
        let wording = |&(kind, number): &(Kind, usize)| match (
            spoken(kind, number),
            names.given(kind, number),
        ) {
            (Some(spoken), _) => Wording::Verb(Verb::told(&spoken.may, &spoken.has)),
            (None, None) => Wording::Name(format!("{kind} {number}")),
            (None, Some(name)) => Wording::of(kind, name),
        };
        let mut labels =
            Labels { relations: terms.relations, wordings: kinds.iter().map(wording).collect() };
        // Labels that would sound alike are called by name, or else by number.
        for label in labels.alike() {
            let (kind, number) = kinds[label];
            labels.wordings[label] = Wording::Name(names.name(kind, number));
        }
        for label in labels.alike() {
            let (kind, number) = kinds[label];
            labels.wordings[label] = Wording::Name(format!("{kind} number {number}"));
        }
        labels
    }

    /// The labels that share a form with another one of their kind.
    fn alike(&self) -> Vec<usize> {
        let mut said: BTreeMap<(bool, String), Vec<usize>> = BTreeMap::new();
        for (label, wording) in self.wordings.iter().enumerate() {
            let mut forms = match wording {
                Wording::Verb(verb) => vec![verb.base.clone(), verb.participle.clone()],
                Wording::Of(name) | Wording::Role(name) => vec![format!("{name} of")],
                Wording::Name(name) => vec![name.clone()],
            };
            forms.dedup();
            for form in forms {
                said.entry((self.is_event(label), form)).or_default().push(label);
            }
        }
        said.into_values().filter(|labels| labels.len() > 1).flatten().collect()
    }

    /// Whether nothing is known of how a label is said but its name.
    pub fn is_plain_name(&self, label: usize) -> bool {
        matches!(self.wording(label), Wording::Name(_))
    }

    pub fn is_event(&self, label: usize) -> bool {
        label >= self.relations
    }

    /// The wording of a label, or of the event that is denied.
    fn wording(&self, label: usize) -> &Wording {
        let events = self.wordings.len() - self.relations;
        self.wordings.get(label).unwrap_or_else(|| &self.wordings[label - events])
    }

    /// Whether a label is that of an event denied.
    fn is_denied(&self, label: usize) -> bool {
        label >= self.wordings.len()
    }

    /// Whether an edge is said from its end to its beginning.
    pub fn is_reversed(&self, label: usize) -> bool {
        matches!(self.wording(label), Wording::Role(_))
    }

    /// The noun of a label that is said with "of".
    pub fn noun(&self, label: usize) -> Option<&str> {
        match self.wording(label) {
            Wording::Of(name) | Wording::Role(name) => Some(name),
            Wording::Verb(_) | Wording::Name(_) => None,
        }
    }

    /// What may be done to the target: `share with`.
    pub fn may(&self, label: usize) -> String {
        match self.wording(label) {
            Wording::Verb(verb) => with(&verb.base, verb.preposition),
            Wording::Of(name) | Wording::Role(name) | Wording::Name(name) => {
                format!("do {name} to")
            }
        }
    }
}
