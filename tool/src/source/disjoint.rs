//! Conditions that no member can meet, by the kinds of members.

use super::ast::{Formula, Kind, Name, Person, Source, Span, Who};
use super::kinds::{forms, singular};
use super::mistake::Mistake;
use super::seeker::Seeker;
use super::seldom::conjuncts;

/// Warnings for all policies and definitions, each place once.
pub fn disjoint(source: &Source, text: &str) -> Vec<Mistake> {
    let mut seeker = Seeker::new(source, text);
    let definitions = source.definitions.iter().map(|definition| &definition.body);
    for formula in definitions.chain(source.events.iter().map(|event| &event.policy)) {
        let mut named = Vec::new();
        names(formula, &mut named);
        seeker.impossible(formula, &named);
    }
    seeker.found()
}

/// The names that a formula gives to people: after `is` they are no kinds and no relations.
fn names(formula: &Formula, named: &mut Vec<String>) {
    match &formula.kind {
        Kind::Walk(walk) => named.extend(walk.name.iter().map(|name| name.text.clone())),
        Kind::Step(step) => named.push(step.name.text.clone()),
        Kind::As(name, _) => named.push(name.text.clone()),
        _ => {}
    }
    for part in formula.parts() {
        names(part, named);
    }
}

impl Seeker<'_> {
    fn impossible(&mut self, formula: &Formula, named: &[String]) {
        let parts = match &formula.kind {
            Kind::And(..) => conjuncts(formula),
            _ => formula.parts(),
        };
        match &formula.kind {
            Kind::And(..) => self.of_two_kinds(&parts, named),
            Kind::Is(one, Person { who: Who::Named(word), span }) if !named.contains(word) => {
                self.alone(one, word, *span)
            }
            _ => {}
        }
        for part in parts {
            self.impossible(part, named);
        }
    }

    /// `me is player and me is preset`, `me is preset and me owns target`.
    fn of_two_kinds(&mut self, parts: &[&Formula], named: &[String]) {
        let kinds: Vec<(&Who, usize, Span)> = parts
            .iter()
            .filter_map(|part| match &part.kind {
                Kind::Is(Person { who, .. }, Person { who: Who::Named(word), .. })
                    if !named.contains(word) =>
                {
                    Some((who, self.kind(word)?, part.span))
                }
                _ => None,
            })
            .collect();
        for (place, (who, kind, span)) in kinds.iter().enumerate() {
            let other = kinds[..place].iter().find(|(other, one, _)| other == who && one != kind);
            if let Some((_, one, _)) = other {
                let (one, two) = (self.one_of(*one), self.one_of(*kind));
                let message =
                    format!("nobody is a {one} and a {two} at once, so this is never true");
                let advice = "a member has one kind: write `or` for `and`, or say it of two people";
                self.warn(*span, message, advice.to_string());
            }
            for part in parts {
                let Kind::Edge(Some(from), label, Some(to)) = &part.kind else { continue };
                for (end, begins) in [(from, true), (to, false)] {
                    if end.who == **who && from.who != to.who {
                        self.without_edges(*kind, label, begins, part.span);
                    }
                }
            }
        }
    }

    /// `me is friend`, where `friend` is between two.
    fn alone(&mut self, one: &Person, word: &str, span: Span) {
        let mut facts = self.source.first.iter().filter(|fact| fact.relation.text == word);
        let between = facts.clone().next().is_some();
        if !between
            || self.source.defined(word).is_some()
            || facts.any(|fact| fact.from.text == fact.to.text)
        {
            return;
        }
        let who = self.words(one.span);
        let message =
            format!("`{word}` is between two members, so `{who} is {word}` is hardly ever true");
        let other = if who == "target" { "me" } else { "target" };
        let fact = self.source.first.iter().find(|fact| fact.relation.text == word);
        let one = fact.map_or("dora", |fact| &fact.from.text);
        let advice = format!(
            "say whose, `{who} is {word} of {other}`; if it is said of one alone, `first {one} is {word}`"
        );
        self.warn(span, message, advice);
    }

    /// An edge from or to one of a kind that has none, and never gets one.
    fn without_edges(&mut self, kind: usize, label: &Name, begins: bool, span: Span) {
        let fixed = self.source.relations.iter().any(|known| known.text == label.text)
            && self
                .source
                .events
                .iter()
                .flat_map(|event| &event.effects)
                .all(|effect| !effect.add || effect.relation.text != label.text);
        let mut facts = self.source.first.iter().filter(|fact| fact.relation.text == label.text);
        let name = &self.source.kinds[kind].name.text;
        let of_kind = |member: &str| {
            let kinds = self.source.kinds.iter().filter(|kind| kind.name.text == *name);
            kinds.flat_map(|kind| &kind.members).any(|known| known.text == member)
        };
        let known = facts.clone().next().is_some();
        if !fixed
            || !known
            || facts.any(|fact| of_kind(if begins { &fact.from.text } else { &fact.to.text }))
        {
            return;
        }
        let one = self.one_of(kind);
        let message = match begins {
            true => format!("`{}` never leads from a {one}, so this is never true", label.text),
            false => format!("`{}` never leads to a {one}, so this is never true", label.text),
        };
        let advice = format!(
            "is the sentence the wrong way round, or another kind meant? No `first` says it of a {one}, and no \
             `then add` does"
        );
        self.warn(span, message, advice);
    }

    /// The kind that a word asks for.
    fn kind(&self, word: &str) -> Option<usize> {
        let asked = |name: &str| forms(name).iter().any(|form| form == word);
        let kinds = &self.source.kinds;
        kinds.iter().position(|kind| kind.relation.is_some() && asked(&kind.name.text))
    }

    fn one_of(&self, kind: usize) -> String {
        singular(&self.source.kinds[kind].name.text)
    }
}
