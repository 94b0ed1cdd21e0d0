//! Events that are asked for at the present moment where the past seems to be meant.

use super::ast::{Formula, Kind, Person, Source};
use super::mistake::Mistake;
use super::seeker::Seeker;
use super::seldom::conjuncts;

/// The sentences of policies that seek somebody along a relation and then say an event
/// of them, under nothing about the past: each is true straight after the event only.
pub fn passing(source: &Source, text: &str) -> Vec<Mistake> {
    let mut seeker = Seeker::new(source, text);
    for event in &source.events {
        look(&mut seeker, &event.policy, false);
    }
    seeker.found()
}

/// `sought` is whether the formula is said of somebody found along a relation.
fn look(seeker: &mut Seeker, formula: &Formula, sought: bool) {
    match &formula.kind {
        Kind::Edge(_, label, _) if sought && seeker.source.is_event(&label.text) => {
            let message =
                format!("this is true for one moment only, straight after the {}", label.text);
            let advice = format!("did you mean `once {}`?", seeker.words(formula.span));
            seeker.warn(formula.span, message, advice);
        }
        // Now this, and that a moment ago: it is meant.
        Kind::And(f, g) if is_previous(f) || is_previous(g) => {}
        Kind::And(..) => {
            let parts = conjuncts(formula);
            // `once a and not b` is told as one.
            let told = parts.iter().any(|part| matches!(part.kind, Kind::Once(_)));
            for part in parts.into_iter().filter(|part| !told || !matches!(part.kind, Kind::Not(_)))
            {
                look(seeker, part, sought);
            }
        }
        Kind::Or(f, g) => {
            look(seeker, f, sought);
            look(seeker, g, sought);
        }
        Kind::Not(f) => contrary(seeker, formula, f),
        Kind::Walk(walk) if !seeker.source.is_event(&walk.label.text) => {
            look(seeker, &walk.body, true)
        }
        Kind::At(_, f) | Kind::As(_, f) => look(seeker, f, sought),
        _ => {}
    }
}

/// `not me load target` and `nobody load target`: true again at the next moment.
fn contrary(seeker: &mut Seeker, formula: &Formula, negated: &Formula) {
    let Kind::Edge(from, label, to) = &negated.kind else { return };
    if !seeker.source.is_event(&label.text) {
        return;
    }
    let name = |seeker: &Seeker, person: &Option<Person>| {
        person.as_ref().map_or("someone".to_string(), |person| seeker.words(person.span))
    };
    let (from, to) = (name(seeker, from), name(seeker, to));
    let message = format!(
        "this forgets the {} at the next moment: an event is true for one moment only",
        label.text
    );
    let advice = format!("did you mean `never {from} {} {to}`?", label.text);
    seeker.warn(formula.span, message, advice);
}

fn is_previous(formula: &Formula) -> bool {
    match &formula.kind {
        Kind::Previously(_) => true,
        Kind::And(f, g) => is_previous(f) || is_previous(g),
        Kind::Not(f) => is_previous(f),
        _ => false,
    }
}
