//! Sentences about single members, for reasons: `dora owns saw`, `pete has never
//! shared with saw`.

mod sought;

use super::clause::Clause;
use super::define;
use super::form::Forms;
use super::grammar::Time;
use super::labels::{Labels, Manner, Voice};
use super::resolve;
use super::words::{full, letters, named, Words};
use crate::names::{Called, Names};
use keeper::record::meaning::Assigned;
use keeper::terms::Terms;

/// Whose entry is said: at a member, under an assignment.
pub type At = (usize, usize, Assigned);

/// The wordings of some terms, for sentences about members by name.
pub struct Telling<'a> {
    forms: Forms<'a>,
    labels: Labels,
    names: &'a Names,
}

impl<'a> Telling<'a> {
    pub fn new(terms: &'a Terms, names: &'a Names) -> Telling<'a> {
        Telling { forms: Forms::new(terms, names), labels: Labels::new(terms, names), names }
    }

    /// An edge now or then: `dora owns saw`, `dora did not own saw`, `cem has just
    /// asked ann`. Ends may be `no member`.
    pub fn edge(&self, label: usize, from: &str, to: &str, then: bool, holds: bool) -> String {
        let time = if then { Time::Then } else { Time::Now };
        let manner = if holds { Manner::Plain } else { Manner::Negated };
        let attribute = self.labels.attribute(label, false, time, holds);
        if let Some(attribute) = attribute.filter(|_| from == to) {
            return format!("{from} {attribute}");
        }
        let (from, to) = if self.labels.is_reversed(label) { (to, from) } else { (from, to) };
        let link = self.labels.link(label, Voice::Active, false, time, manner);
        link.map_or_else(String::new, |link| format!("{from} {}", link.with(to)))
    }

    /// An event at a moment that is named after it: `dora shared with pete`, `no
    /// member shared with pete`, `dora did not share with pete`.
    pub fn event(&self, label: usize, from: &str, to: &str, holds: bool) -> String {
        format!("{from} {} {to}", self.labels.did(label, holds))
    }

    /// Whether an edge is said with its beginning for the subject.
    pub fn begins(&self, label: usize) -> bool {
        !self.labels.is_reversed(label)
    }

    /// An entry said of members, as it is now or was then.
    pub fn holds(&self, at: At, holds: bool, then: bool) -> String {
        let clause = resolve::of_place(&self.forms, at, holds);
        self.say(&clause, if then { Time::Then } else { Time::Now })
    }

    /// That an entry has held at no moment so far, or up to then.
    pub fn never(&self, at: At, then: bool) -> String {
        let clause = self.by_name(at);
        let never = Clause::Once { holds: false, then: Box::new(clause) };
        self.say(&never, if then { Time::Then } else { Time::Now })
    }

    /// That an entry has held at every moment since one that was told before.
    pub fn since(&self, at: At, then: bool) -> String {
        let time = if then { Time::Then } else { Time::Now };
        let clause = self.by_name(at);
        match self.speaker().ended(&clause, time, None) {
            Some(words) => format!("{} since", self.finish(words)),
            None => format!("at every moment since {}", self.say(&clause, Time::Then)),
        }
    }

    /// What an entry says of members; a definition by its name.
    fn by_name(&self, at: At) -> Clause {
        match self.names.defined(at.0) {
            Some(_) => resolve::by_name(&self.forms, at, true),
            None => resolve::of_place(&self.forms, at, true),
        }
    }

    /// That the step of a reach leads to nobody.
    pub fn no_step(&self, at: At, then: bool) -> String {
        let clause = resolve::no_step(&self.forms, at);
        self.say(&clause, if then { Time::Then } else { Time::Now })
    }

    /// A definition said of members: `ben is suspended`, `dora did not trust pete`.
    pub fn defined(&self, called: &Called, people: &[String], holds: bool, then: bool) -> String {
        let time = if then { Time::Then } else { Time::Now };
        let people: Vec<(String, bool)> = people.iter().map(|name| (name.clone(), false)).collect();
        define::said(called, &people, time, holds)
    }

    fn say(&self, clause: &Clause, time: Time) -> String {
        self.finish(self.speaker().say(clause, time, None))
    }

    fn finish(&self, words: Words) -> String {
        named(&letters(&in_line(words)), self.names)
    }
}

/// An outline as one line.
fn in_line(words: Words) -> String {
    match words {
        Words::Line { subject, text, .. } => full(subject, &text),
        Words::Outline { head, parts } => {
            let parts: Vec<String> = parts.into_iter().map(nested).collect();
            format!("{head}: {}", parts.join("; "))
        }
    }
}

fn nested(words: Words) -> String {
    match words {
        Words::Line { .. } => in_line(words),
        Words::Outline { .. } => format!("({})", in_line(words)),
    }
}
