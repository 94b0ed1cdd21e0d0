//! What was so twice, and is forgotten straight after the second time.

use super::ast::{Formula, Kind, Name, Source};
use super::mistake::Mistake;
use super::seeker::Seeker;
use super::seldom::{body, conjuncts, DEEPEST};

/// The sentences `a and previously once a` about an event that a policy asks for now, by a
/// definition or denied: each is true for one moment only, and seems to be meant for good.
pub fn twice(source: &Source, text: &str) -> Vec<Mistake> {
    let mut seeker = Seeker::new(source, text);
    for event in &source.events {
        look(&mut seeker, &event.policy, false, DEEPEST);
    }
    seeker.found()
}

/// `lasting` is whether the formula is defined or denied.
fn look(seeker: &mut Seeker, formula: &Formula, lasting: bool, deep: usize) {
    match &formula.kind {
        Kind::And(..) => {
            let parts = conjuncts(formula);
            if lasting {
                forgotten(seeker, &parts);
            }
            for part in parts {
                look(seeker, part, lasting, deep);
            }
        }
        Kind::Or(f, g) => {
            look(seeker, f, lasting, deep);
            look(seeker, g, lasting, deep);
        }
        Kind::Not(f) => look(seeker, f, true, deep),
        Kind::Walk(walk) => look(seeker, &walk.body, lasting, deep),
        Kind::Step(step) => look(seeker, &step.body, lasting, deep),
        Kind::At(_, f) | Kind::As(_, f) => look(seeker, f, lasting, deep),
        _ => {
            if let Some(body) = body(formula, seeker.source).filter(|_| deep > 0) {
                look(seeker, body, true, deep - 1);
            }
        }
    }
}

/// Warns of the event that is asked for now and once before.
fn forgotten(seeker: &mut Seeker, parts: &[&Formula]) {
    let again = |label: &Name| {
        parts.iter().any(|part| match &part.kind {
            Kind::Previously(before) => match &before.kind {
                Kind::Once(once) => said(once).is_some_and(|other| other.text == label.text),
                _ => false,
            },
            _ => false,
        })
    };
    for part in parts {
        let Some(label) = said(part) else { continue };
        let event = label.text.strip_prefix("denied ").unwrap_or(&label.text);
        if !seeker.source.is_event(event) || !again(label) {
            continue;
        }
        let words = seeker.words(part.span);
        let message = format!("this holds for one moment only: `{words}` is forgotten at the next");
        let advice =
            "put `once (...)` around the whole to remember it for good, or `not someone lift me \
                      since (...)` until somebody lifts it";
        seeker.warn(part.span, message, advice.to_string());
    }
}

/// The word of a sentence of two people.
fn said(formula: &Formula) -> Option<&Name> {
    match &formula.kind {
        Kind::Edge(_, label, _) => Some(label),
        _ => None,
    }
}
