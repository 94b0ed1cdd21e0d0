//! Unfolds `some`, `every` and `at least`, and steps.

use super::super::ast::{Quantifier, Step, Walk};
use super::super::mistake::Mistake;
use super::super::said::{conjunction, negated, said, Form, Id, Said, Who};
use super::{Resolver, Scope};
use keeper::terms::{MOST_COUNTED, VARIABLES};

impl Resolver<'_> {
    pub(super) fn walk(&mut self, walk: &Walk, scope: &mut Scope) -> Result<Said, Mistake> {
        if self.find_definition(&walk.label.text).is_some() {
            let word = &walk.label.text;
            let message = format!("`{word}` is a definition: nobody can be sought along it");
            let advice =
                "seek along a relation or an event, or by `some x such that` and the definition";
            return Err(Mistake::new(walk.label.span, message).advise(advice));
        }
        let label = self.label(&walk.label)?;
        let from = self.person(&walk.person, scope)?;
        match walk.quantifier {
            Quantifier::Some => self.some(walk, label, from, &[], 1, scope),
            Quantifier::Every => {
                let (name, body) = self.neighbour(walk, scope)?;
                let (outwards, body) = (walk.outwards, negated(body));
                Ok(negated(said(Form::Some { from, label, outwards, name, body })))
            }
            Quantifier::AtLeast(count) if walk.outwards => {
                if count > MOST_COUNTED {
                    let message = format!("at least {count} is more than there can be");
                    let advice = format!("ask for at most {MOST_COUNTED}");
                    return Err(Mistake::new(walk.label.span, message).advise(advice));
                }
                let (name, body) = self.neighbour(walk, scope)?;
                Ok(said(Form::Many { from, label, count, name, body }))
            }
            Quantifier::AtLeast(count) if count < VARIABLES => {
                if from != Who::Here {
                    return self.some(walk, label, from, &[], count, scope);
                }
                // Every one of them is sought from here.
                let name = self.fresh("here");
                let body = self.some(walk, label, Who::Other(name), &[], count, scope)?;
                Ok(said(Form::As { name, wanted: false, body }))
            }
            Quantifier::AtLeast(count) => {
                let message =
                    format!("counting {count} members from whom edges come takes {count} names");
                let most = VARIABLES - 1;
                let advice = format!(
                    "at most {most} names can be in sight; edges that lead away can be counted up to {MOST_COUNTED}"
                );
                Err(Mistake::new(walk.label.span, message).advise(advice))
            }
        }
    }

    pub(super) fn step(&mut self, step: &Step, scope: &mut Scope) -> Result<Said, Mistake> {
        self.hiding(&step.name, scope);
        let (span, name) = (step.leads.span, self.bound(&step.name.text, scope));
        scope.push((step.name.text.clone(), Who::Other(name)));
        let leads = self.formula(&step.leads, scope);
        let body = leads.and_then(|leads| Ok((leads, self.formula(&step.body, scope)?)));
        scope.pop();
        let (leads, body) = body?;
        Ok(if step.every {
            negated(said(Form::Step { name, leads, body: negated(body), span }))
        } else {
            said(Form::Step { name, leads, body, span })
        })
    }

    /// Some neighbour other than those before of whom the body holds, and,
    /// where more are sought, a next one.
    fn some(
        &mut self,
        walk: &Walk,
        label: usize,
        from: Who,
        before: &[Id],
        count: usize,
        scope: &mut Scope,
    ) -> Result<Said, Mistake> {
        let (name, said_of_it) = self.neighbour(walk, scope)?;
        let same = |other: &Id| said(Form::Is(Who::Here, Who::Other(*other)));
        let mut parts: Vec<Said> = before.iter().map(|other| negated(same(other))).collect();
        parts.push(said_of_it);
        if count > 1 {
            let known: Vec<Id> = before.iter().copied().chain([name]).collect();
            parts.push(self.some(walk, label, from, &known, count - 1, scope)?);
        }
        let body = parts.into_iter().reduce(both).expect("the body is one of them");
        Ok(said(Form::Some { from, label, outwards: walk.outwards, name, body }))
    }

    /// The body of a walk, and the number of whom it is said.
    fn neighbour(&mut self, walk: &Walk, scope: &mut Scope) -> Result<(Id, Said), Mistake> {
        // Those that are told apart by name have a name each.
        let counted = matches!(walk.quantifier, Quantifier::AtLeast(_)) && !walk.outwards;
        let id = match &walk.name {
            Some(name) if !counted => self.bound(&name.text, scope),
            Some(name) => self.fresh(&name.text),
            None => self.fresh("somebody"),
        };
        if let Some(name) = &walk.name {
            self.hiding(name, scope);
            scope.push((name.text.clone(), Who::Other(id)));
        }
        self.nameless.extend(walk.name.is_none().then(|| Self::naming(walk)));
        let body = self.formula(&walk.body, scope);
        match walk.name {
            Some(_) => drop(scope.pop()),
            None => drop(self.nameless.pop()),
        }
        Ok((id, body?))
    }
}

/// The conjunction; what always holds adds nothing to it.
fn both(f: Said, g: Said) -> Said {
    match (&f.form, &g.form) {
        (Form::True, _) => g,
        (_, Form::True) => f,
        _ => conjunction(f, g),
    }
}
