//! Attributes that are said of two members, and events that somebody would do to themselves.

use super::ast::{Formula, Kind, Name, Person, Source};
use super::mistake::Mistake;
use super::seeker::Seeker;

/// Warnings for all policies and definitions, each place once.
pub fn one_or_two(source: &Source, text: &str) -> Vec<Mistake> {
    let mut seeker = Seeker::new(source, text);
    let definitions = source.definitions.iter().map(|definition| &definition.body);
    for formula in definitions.chain(source.events.iter().map(|event| &event.policy)) {
        look(&mut seeker, formula, formula);
    }
    seeker.found()
}

/// `whole` is the formula with a `not` before it, if there is one.
fn look(seeker: &mut Seeker, formula: &Formula, whole: &Formula) {
    if let Kind::Edge(Some(from), label, Some(to)) = &formula.kind {
        if from.who == to.who && seeker.source.is_event(&label.text) {
            seeker.to_oneself(formula, label);
        } else if from.who != to.who && is_attribute(seeker.source, &label.text) {
            let first = if from.span.start < to.span.start { from } else { to };
            seeker.of_two(whole, first, label, matches!(whole.kind, Kind::Not(_)));
        }
    }
    for part in formula.parts() {
        look(seeker, part, if matches!(formula.kind, Kind::Not(_)) { formula } else { part });
    }
}

impl Seeker<'_> {
    /// `me suspended target`, with `first tom is suspended`.
    fn of_two(&mut self, formula: &Formula, who: &Person, label: &Name, negative: bool) {
        let (who, label) = (self.words(who.span), &label.text);
        let message = format!("`{label}` is said of one member from the start, and here of two");
        let not = if negative { "not " } else { "" };
        self.warn(formula.span, message, format!("did you mean `{who} is {not}{label}`?"));
    }

    /// `me share me`.
    fn to_oneself(&mut self, formula: &Formula, label: &Name) {
        let said = self.words(formula.span);
        let message = format!("`{said}` is about one member only, who does it to themselves");
        let owner = match self.source.relations.iter().any(|known| known.text == "owns") {
            true => format!(
                "; its owner is sought: `some owner owns target: once owner {} me`",
                label.text
            ),
            false => String::new(),
        };
        let advice = format!("who asks is `me`, the other is `target`{owner}");
        self.warn(formula.span, message, advice);
    }
}

/// Whether all edges of a relation are from members to themselves, and stay so.
fn is_attribute(source: &Source, label: &str) -> bool {
    let mut facts = source.first.iter().filter(|fact| fact.relation.text == label).peekable();
    let mut effects = source.events.iter().flat_map(|event| &event.effects);
    facts.peek().is_some()
        && facts.all(|fact| fact.from.text == fact.to.text)
        && !effects.any(|effect| effect.relation.text == label)
}
