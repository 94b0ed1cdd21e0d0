//! Finds people, labels and definitions by name, or says what was meant.

use super::super::ast::{Fact, MemberKind, Name, Person, Quantifier, Span, Walk, Who as Written};
use super::super::mistake::Mistake;
use super::super::said::{Who, ME, TARGET};
use super::super::tokens::ENGLISH;
use super::{Resolver, Scope};
use crate::names::did_you_mean;
use crate::source::kinds::{forms, singular};

/// Other words for `me` that one may try.
const WHO_ASKS: [&str; 7] = ["i", "you", "self", "initiator", "asker", "requester", "subject"];

impl Resolver<'_> {
    pub(super) fn person(&self, person: &Person, scope: &Scope) -> Result<Who, Mistake> {
        Ok(match &person.who {
            Written::Me => Who::Other(ME),
            Written::Target => Who::Other(TARGET),
            Written::Here => Who::Here,
            Written::Named(text) => {
                let found = scope.iter().rev().find(|(name, _)| name == text);
                let name = || Name { text: text.clone(), span: person.span };
                found.ok_or_else(|| self.unknown_person(&name(), scope, false))?.1
            }
        })
    }

    pub(super) fn unknown_person(&self, name: &Name, scope: &Scope, also_defined: bool) -> Mistake {
        let text = &name.text;
        if self.source.members.iter().any(|member| member.text == *text) {
            let message = format!("`{text}` is a member; a formula cannot name a single member");
            let advice = "it can speak of me, of target and of those it has named; to single a member out, \
                          give it an attribute: `relation chief`, `first dora is chief`, `x is chief`";
            return Mistake::new(name.span, message).advise(advice);
        }
        if WHO_ASKS.contains(&text.to_lowercase().as_str()) {
            let message = format!("nobody is called `{text}` here");
            return Mistake::new(name.span, message).advise("who makes the request is `me`");
        }
        if let Some(advice) = self.pronoun(text) {
            let message = format!("nobody is called `{text}` here");
            return Mistake::new(name.span, message).advise(advice);
        }
        let mut known: Vec<&str> = scope.iter().map(|(name, _)| name.as_str()).collect();
        known.extend(["me", "target", "here"]);
        let mut all = known.clone();
        let what = if also_defined {
            all.extend(self.source.definitions.iter().map(|known| known.name.text.as_str()));
            all.extend(self.source.relations.iter().map(|known| known.text.as_str()));
            "nobody, no attribute and no definition"
        } else {
            "nobody"
        };
        let kinds: Vec<String> =
            self.source.kinds.iter().map(|kind| singular(&kind.name.text)).collect();
        if also_defined {
            all.extend(kinds.iter().map(String::as_str));
        }
        let hint = did_you_mean(text, all);
        let mistake = Mistake::unknown(name, format!("{what} is called `{text}` here{hint}"));
        if let Some(naming) = self.nameless.last().filter(|_| !also_defined && hint.is_empty()) {
            return mistake.advise(naming.replace('*', text));
        }
        let mut known = format!("names in sight: {}", known.join(", "));
        if also_defined && !kinds.is_empty() {
            known += &format!("; kinds: {}", self.kinds());
        }
        match (also_defined, hint.is_empty()) {
            (true, true) => mistake.advise(format!(
                "{known}; or declare it: `relation {text}`, or `define p is {text}: ...`"
            )),
            (false, true) if scope.is_empty() && !self.is_no_name(text) => mistake.advise(format!(
                "{known}; to look for somebody, say `some {text} {} target:` and after the `:` what holds of them",
                self.source.relations.first().map_or("owns", |relation| &relation.text)
            )),
            _ => mistake.advise(known),
        }
    }

    /// Whether nobody would be called by a word: one of English, or an event's.
    fn is_no_name(&self, text: &str) -> bool {
        ENGLISH.contains(&text) || self.source.is_event(text)
    }

    /// How to name whom a walk finds; `*` stands for the name.
    pub(super) fn naming(walk: &Walk) -> String {
        let person = match &walk.person.who {
            Written::Me => "me",
            Written::Target => "target",
            Written::Here => "here",
            Written::Named(name) => name,
        };
        let quantity = match walk.quantifier {
            Quantifier::Some => "some".to_string(),
            Quantifier::Every => "every".to_string(),
            Quantifier::AtLeast(count) => format!("at least {count}"),
        };
        let label = &walk.label.text;
        let named = match (walk.outwards, walk.label.span.start < walk.person.span.start) {
            (true, true) => format!("{quantity} {label} of {person} as *:"),
            (true, false) => format!("{person} {label} {quantity} *:"),
            (false, _) => format!("{quantity} * {label} {person}:"),
        };
        format!("name them: `{named}`")
    }

    /// Adds to the advice of a mistake that `I` is written `me`.
    pub(super) fn also_me(&self, mistake: Mistake, who: &Option<Person>, scope: &Scope) -> Mistake {
        let Some(Person { who: Written::Named(text), .. }) = who else { return mistake };
        let asks = WHO_ASKS.contains(&text.to_lowercase().as_str());
        match (&mistake.advice, asks && !scope.iter().any(|(known, _)| known == text)) {
            (Some(advice), true) => {
                let advice = format!("{advice}; `{text}` is written `me`");
                mistake.advise(advice)
            }
            _ => mistake,
        }
    }

    pub(super) fn find_definition(&self, text: &str) -> Option<usize> {
        self.source.definitions.iter().position(|known| known.name.text == text)
    }

    pub(super) fn definition(&self, name: &Name, scope: &Scope) -> Result<usize, Mistake> {
        self.find_definition(&name.text).ok_or_else(|| {
            let text = &name.text;
            let people = scope.iter().any(|(known, _)| known == text);
            if people || self.find_label(text).is_some() {
                let message = format!("`{text}` alone is no formula");
                let advice = match people {
                    true => format!(
                        "say what {text} does or is: `{text} owns target`, `{text} is target`"
                    ),
                    false if self.is_attribute(text) => format!("say who: `me is {text}`"),
                    false => format!("say who and whom: `me {text} target`"),
                };
                return Mistake::new(name.span, message).advise(advice);
            }
            if let Some(event) = self.event_done(text) {
                let message = format!("`{text}` does not say who and whom");
                let advice = format!(
                    "`{event}` is an event; write `once someone {event} me`, or who did it to whom"
                );
                return Mistake::unknown(name, message).advise(advice);
            }
            let known = self.source.definitions.iter().map(|known| known.name.text.as_str());
            let hint = did_you_mean(text, known);
            let mistake = Mistake::unknown(name, format!("no definition `{text}`{hint}"));
            let sentence = "a sentence says who, what and whom, `me owns target`";
            match ENGLISH.contains(&text.as_str()) {
                true => mistake.advise(sentence),
                false => mistake.advise(format!("{sentence}; or write `define {text}: ...`")),
            }
        })
    }

    /// Whether somebody has a relation to itself from the start.
    fn is_attribute(&self, text: &str) -> bool {
        let alone = |fact: &Fact| fact.relation.text == text && fact.from.text == fact.to.text;
        self.source.first.iter().any(alone)
    }

    /// The kinds of members, each with the word that a formula tests for it.
    fn kinds(&self) -> String {
        let told = self.source.kinds.iter().map(|kind| {
            let (many, one) = (&kind.name.text, singular(&kind.name.text));
            format!("{many} (`is {one}`)")
        });
        told.collect::<Vec<_>>().join(", ")
    }

    /// The relation of a kind, by any of its words.
    pub(super) fn kind_label(&self, text: &str) -> Option<usize> {
        let called = |kind: &&MemberKind| forms(&kind.name.text).iter().any(|form| form == text);
        let relation =
            self.source.kinds.iter().filter(called).find_map(|kind| kind.relation.as_ref())?;
        self.find_label(relation)
    }

    pub(super) fn find_label(&self, text: &str) -> Option<usize> {
        let (relations, events) = (&self.source.relations, &self.source.events);
        let event = |text: &str| events.iter().position(|known| known.name.text == text);
        if let Some(denied) = text.strip_prefix("denied ") {
            return Some(relations.len() + events.len() + event(denied)?);
        }
        let relation = relations.iter().position(|known| known.text == text);
        relation.or_else(|| Some(relations.len() + event(text)?))
    }

    pub(super) fn label(&self, word: &Name) -> Result<usize, Mistake> {
        self.find_label(&word.text).ok_or_else(|| {
            if let Some(denied) = word.text.strip_prefix("denied ") {
                return self.no_event(denied, word.span);
            }
            let mut known: Vec<&str> =
                self.source.relations.iter().map(|known| known.text.as_str()).collect();
            known.extend(self.source.events.iter().map(|known| known.name.text.as_str()));
            let defined = self.source.definitions.iter().map(|known| known.name.text.as_str());
            let all: Vec<&str> = known.iter().copied().chain(defined).collect();
            let hint = did_you_mean(&word.text, all);
            let message = format!("no relation or event `{}`{hint}", word.text);
            let mistake = Mistake::unknown(word, message);
            let all = format!("relations and events: {}", known.join(", "));
            match hint.is_empty() {
                true => mistake.advise(format!(
                    "{all}; or declare it: `event {0} by anyone` or `relation {0}`",
                    word.text
                )),
                false => mistake.advise(all),
            }
        })
    }

    /// What is denied is no event.
    fn no_event(&self, text: &str, span: Span) -> Mistake {
        let events: Vec<&str> =
            self.source.events.iter().map(|known| known.name.text.as_str()).collect();
        let hint = did_you_mean(text, events.iter().copied());
        let mistake = Mistake::new(span, format!("no event `{text}` that could be denied{hint}"));
        mistake.advise(format!("events: {}", events.join(", ")))
    }
}
