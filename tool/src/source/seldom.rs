//! Sentences that are accepted and say something else than they seem to.

use super::ast::{Formula, Kind, MemberKind, Name, Quantifier, Source, Span, Walk, Who};
use super::mistake::Mistake;
use super::seeker::Seeker;

/// Warnings for all policies and definitions, each place once.
pub fn seldom(source: &Source, text: &str) -> Vec<Mistake> {
    let mut seeker = Seeker::new(source, text);
    let definitions = source.definitions.iter().map(|definition| &definition.body);
    for formula in definitions.chain(source.events.iter().map(|event| &event.policy)) {
        seeker.look(formula);
    }
    seeker.found()
}

impl Seeker<'_> {
    fn look(&mut self, formula: &Formula) {
        match &formula.kind {
            Kind::Since(f, g) if lasting(g, self.source, DEEPEST) => self.idle(formula.span, f, g),
            Kind::And(..) => self.forgotten(formula),
            Kind::Walk(walk) => {
                self.unmentioned(walk);
                self.named_alike(walk);
            }
            _ => {}
        }
        let parts = match &formula.kind {
            Kind::And(..) => conjuncts(formula),
            _ => formula.parts(),
        };
        for part in parts {
            self.look(part);
        }
    }

    /// `f since once g`, where f may as well be left out.
    fn idle(&mut self, span: Span, f: &Formula, g: &Formula) {
        let f = f.span.words(self.text);
        let message = format!("`{f}` counts for nothing here: `once` keeps its side true for good");
        let advice = match &g.kind {
            Kind::Once(g) => {
                format!("leave out `once`: `{f} since {}`", g.span.words(self.text))
            }
            Kind::And(..) | Kind::Or(..) => {
                format!("leave out `once` in `{}`", g.span.words(self.text))
            }
            _ => format!(
                "leave out `once` where `{}` is defined, or name the event itself after `since`",
                g.span.words(self.text)
            ),
        };
        self.warn(span, message, advice);
    }

    /// `once a and not b` with two events, where `not b since a` seems to be meant.
    fn forgotten(&mut self, formula: &Formula) {
        let parts = conjuncts(formula);
        let remembered = parts.iter().find_map(|part| match &part.kind {
            Kind::Once(f) if self.has_event(f) => Some(f),
            _ => None,
        });
        let Some(a) = remembered else { return };
        for part in &parts {
            let Kind::Not(negated) = &part.kind else { continue };
            let Kind::Edge(_, label, _) = &negated.kind else { continue };
            if !self.source.is_event(&label.text) {
                continue;
            }
            let message = format!(
                "this forgets the {} at the next moment: an event is true for one moment only",
                label.text
            );
            let (a, b) = (a.span.words(self.text), part.span.words(self.text));
            let advice = format!("did you mean `{b} since {a}`?");
            self.warn(part.span, message, advice);
        }
    }

    fn has_event(&self, formula: &Formula) -> bool {
        match &formula.kind {
            Kind::Edge(_, label, _) => self.source.is_event(&label.text),
            Kind::Not(_) => false,
            _ => formula.parts().into_iter().any(|part| self.has_event(part)),
        }
    }

    /// `some owner owns target: f`, where f says nothing of the owner.
    fn unmentioned(&mut self, walk: &Walk) {
        let Some(name) = walk.name.as_ref().filter(|_| walk.body.kind != Kind::True) else {
            return;
        };
        if mentions(&walk.body, name, self.source, DEEPEST) {
            return;
        }
        let message = format!("`{}` is not mentioned after the `:`", name.text);
        let whom = walk.person.span.words(self.text);
        let (word, label) = (&name.text, &walk.label.text);
        let advice = match (walk.quantifier, walk.outwards) {
            (Quantifier::Some, false) => format!(
                "say there what holds of `{word}`; if anybody will do, `someone {label} {whom} and ...`"
            ),
            (Quantifier::Some, true) => format!(
                "say there what holds of `{word}`; if anybody will do, `{whom} {label} someone and ...`"
            ),
            _ => format!("say there what holds of `{word}`"),
        };
        self.warn(name.span, message, advice);
    }

    /// `some friend owns target`, where `friend` is a relation, and yet anybody who owns the
    /// target will do.
    fn named_alike(&mut self, walk: &Walk) {
        let Some(name) = walk.name.as_ref().filter(|name| name.text != walk.label.text) else {
            return;
        };
        let is_kind = |kind: &MemberKind| kind.relation.as_ref() == Some(&name.text);
        let is_relation = self.source.relations.iter().any(|known| known.text == name.text);
        if !is_relation || self.source.kinds.iter().any(is_kind) {
            return;
        }
        let (word, label) = (&name.text, &walk.label.text);
        let whom = walk.person.span.words(self.text);
        let once = if self.source.is_event(label) { "once " } else { "" };
        let said = match walk.outwards {
            true => format!("{once}{whom} {label} f"),
            false => format!("{once}f {label} {whom}"),
        };
        let quantity = match walk.quantifier {
            Quantifier::Some => "some".to_string(),
            Quantifier::Every => "every".to_string(),
            Quantifier::AtLeast(count) => format!("at least {count}"),
        };
        let message =
            format!("`{word}` is a relation, but here it only names the one who is sought");
        let advice = format!(
            "for a {word} of yours write `{quantity} {word} of me as f: {said}`, else choose another name"
        );
        self.warn(name.span, message, advice);
    }
}

/// So far definitions are looked into.
pub(super) const DEEPEST: usize = 3;

/// The parts of `a and b and c`.
pub(super) fn conjuncts(formula: &Formula) -> Vec<&Formula> {
    match &formula.kind {
        Kind::And(f, g) => [conjuncts(f), conjuncts(g)].concat(),
        _ => vec![formula],
    }
}

/// The body of the definition that a formula says of people.
pub(super) fn body<'a>(formula: &Formula, source: &'a Source) -> Option<&'a Formula> {
    let name = match &formula.kind {
        Kind::Defined(name, _) | Kind::Edge(_, name, _) => &name.text,
        Kind::Is(_, other) => match &other.who {
            Who::Named(name) => name,
            _ => return None,
        },
        _ => return None,
    };
    source.defined(name).map(|definition| &definition.body)
}

/// Whether a formula that is true stays so, because of `once`.
fn lasting(formula: &Formula, source: &Source, deep: usize) -> bool {
    match &formula.kind {
        Kind::Once(_) => true,
        Kind::And(f, g) | Kind::Or(f, g) => lasting(f, source, deep) && lasting(g, source, deep),
        _ if deep == 0 => false,
        _ => body(formula, source).is_some_and(|body| lasting(body, source, deep - 1)),
    }
}

/// Whether a formula speaks of a name, or of the member at which it is said.
fn mentions(formula: &Formula, name: &Name, source: &Source, deep: usize) -> bool {
    let named = |who: &Who| match who {
        Who::Here => true,
        Who::Named(text) => *text == name.text,
        Who::Me | Who::Target => false,
    };
    let people: Vec<&Who> = match &formula.kind {
        Kind::Is(one, other) => vec![&one.who, &other.who],
        Kind::Edge(one, _, other) => one.iter().chain(other).map(|person| &person.who).collect(),
        Kind::Defined(_, people) => people.iter().map(|person| &person.who).collect(),
        Kind::Walk(walk) => vec![&walk.person.who],
        Kind::At(person, _) => vec![&person.who],
        // It names the member at which it is said.
        Kind::As(..) => return true,
        _ => vec![],
    };
    if people.into_iter().any(named) {
        return true;
    }
    // In a definition only `here` can be the one.
    let here = |body| deep == 0 || mentions(body, &Name::new(""), source, deep - 1);
    let parts = formula.parts();
    parts.into_iter().any(|part| mentions(part, name, source, deep))
        || body(formula, source).is_some_and(here)
}
