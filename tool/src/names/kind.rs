//! What names are the names of, and what a label stands for.

use keeper::terms::Terms;
use std::fmt;

/// What a name can be the name of.
#[derive(Clone, Copy, Debug, PartialEq, Eq, PartialOrd, Ord)]
pub enum Kind {
    Member,
    Relation,
    Event,
}

impl Kind {
    pub const ALL: [Kind; 3] = [Kind::Member, Kind::Relation, Kind::Event];

    /// The kind's word in names.tsv and in messages.
    pub fn word(self) -> &'static str {
        match self {
            Kind::Member => "member",
            Kind::Relation => "relation",
            Kind::Event => "event",
        }
    }
}

impl fmt::Display for Kind {
    fn fmt(&self, out: &mut fmt::Formatter<'_>) -> fmt::Result {
        out.pad(self.word())
    }
}

/// What a label stands for: a relation, an event, or an event denied.
#[derive(Clone, Copy, Debug, PartialEq, Eq)]
pub enum Labelled {
    Relation(usize),
    Event(usize),
    Denied(usize),
}

impl Labelled {
    /// Relations come first, then the events, then the events denied.
    pub fn of(terms: &Terms, label: usize) -> Labelled {
        let Some(event) = label.checked_sub(terms.relations) else {
            return Labelled::Relation(label);
        };
        match event.checked_sub(terms.events) {
            None => Labelled::Event(event),
            Some(event) => Labelled::Denied(event),
        }
    }

    /// Whose name it has.
    pub fn named(self) -> (Kind, usize) {
        match self {
            Labelled::Relation(relation) => (Kind::Relation, relation),
            Labelled::Event(event) | Labelled::Denied(event) => (Kind::Event, event),
        }
    }

    /// The word before the name.
    pub fn before(self) -> &'static str {
        match self {
            Labelled::Denied(_) => "denied ",
            _ => "",
        }
    }
}
