//! What a formula says, in the operators of the terms, people still by name.
//!
//! Definitions are unfolded and the derived forms are gone: conjunction,
//! `every`, `always`, `never` and `once` are written with `not`, `or` and
//! `since`.

use super::ast::Span;
use std::rc::Rc;

/// A person's number in this file's formulas. Every binding has its own.
pub type Id = u32;

/// The target of the request.
pub const TARGET: Id = 0;
/// The initiator of the request.
pub const ME: Id = 1;

/// Somebody a formula speaks of: the member it is said of, or another.
#[derive(Clone, Copy, Debug, PartialEq, Eq, Hash)]
pub enum Who {
    Here,
    Other(Id),
}

#[derive(Debug)]
pub enum Form {
    True,
    Is(Who, Who),
    /// An edge under a label; none stands for anybody, never at both ends.
    Edge(Option<Who>, usize, Option<Who>),
    Not(Said),
    Or(Said, Said),
    Previously(Said, Span),
    Since(Said, Said, Span),
    /// Some neighbour, outwards or inwards, of whom the body holds.
    Some {
        from: Who,
        label: usize,
        outwards: bool,
        name: Id,
        body: Said,
    },
    /// At least so many neighbours, outwards, of each of whom the body holds.
    Many {
        from: Who,
        label: usize,
        count: usize,
        name: Id,
        body: Said,
    },
    /// Somebody that the first formula leads to, of whom the body holds.
    Step {
        name: Id,
        leads: Said,
        body: Said,
        span: Span,
    },
    At(Who, Said),
    /// The member it is said of gets a name. A wanted one is kept even where
    /// nobody uses it.
    As {
        name: Id,
        wanted: bool,
        body: Said,
    },
}

/// A form with what is often asked of it.
#[derive(Debug)]
pub struct Fact {
    pub form: Form,
    /// Whether it speaks of the member it is said of.
    pub here: bool,
    /// The others it speaks of, in the order in which they appear.
    pub others: Vec<Id>,
    /// Whether `at` or `as` is written in it.
    pub placed: bool,
    /// How many formulas stand in one another in it.
    pub height: usize,
    /// Where it is written; none for what a derived form is made of.
    pub span: Option<Span>,
    /// The place of the definition that it is, and the people it is said of.
    pub called: Option<(usize, Vec<Who>)>,
}

pub type Said = Rc<Fact>;

/// Makes a formula of a form.
pub fn said(form: Form) -> Said {
    let mut here = false;
    let mut others: Vec<Id> = Vec::new();
    let mut placed = false;
    let height = 1 + match &form {
        Form::True | Form::Is(..) | Form::Edge(..) => 0,
        Form::Or(f, g) | Form::Since(f, g, _) => f.height.max(g.height),
        Form::Step { leads, body, .. } => leads.height.max(body.height),
        Form::Not(f) | Form::Previously(f, _) | Form::At(_, f) => f.height,
        Form::Some { body, .. } | Form::Many { body, .. } | Form::As { body, .. } => body.height,
    };
    let mut meet = |who: Who, others: &mut Vec<Id>| match who {
        Who::Here => here = true,
        Who::Other(id) => add(others, &[id]),
    };
    match &form {
        Form::True => {}
        Form::Is(one, other) => {
            meet(*one, &mut others);
            meet(*other, &mut others);
        }
        Form::Edge(from, _, to) => {
            for who in [from, to].into_iter().flatten() {
                meet(*who, &mut others);
            }
        }
        Form::Not(f) | Form::Previously(f, _) => {
            (here, others, placed) = (f.here, f.others.clone(), f.placed);
        }
        Form::Or(f, g) | Form::Since(f, g, _) => {
            (here, placed) = (f.here || g.here, f.placed || g.placed);
            others.clone_from(&f.others);
            add(&mut others, &g.others);
        }
        Form::Some { from, name, body, .. } | Form::Many { from, name, body, .. } => {
            meet(*from, &mut others);
            add(&mut others, &without(&body.others, *name));
            placed = body.placed;
        }
        Form::Step { name, leads, body, .. } => {
            others = without(&leads.others, *name);
            // A step that names nobody else is taken from here.
            here = leads.here || others.is_empty();
            add(&mut others, &without(&body.others, *name));
            placed = leads.placed || body.placed;
        }
        Form::At(who, body) => {
            meet(*who, &mut others);
            add(&mut others, &body.others);
            placed = true;
        }
        Form::As { name, wanted, body } => {
            here = body.here || body.others.contains(name);
            others = without(&body.others, *name);
            placed = *wanted || body.placed;
        }
    }
    Rc::new(Fact { form, here, others, placed, height, span: None, called: None })
}

/// The formula with the place at which it is written. What is in use elsewhere
/// keeps its own.
pub fn written(mut f: Said, span: Span) -> Said {
    if let Some(fact) = Rc::get_mut(&mut f) {
        fact.span.get_or_insert(span);
    }
    f
}

/// The formula as a definition said of some people.
pub fn called(mut f: Said, place: usize, people: &[Who]) -> Said {
    if let Some(fact) = Rc::get_mut(&mut f) {
        fact.called.get_or_insert_with(|| (place, people.to_vec()));
    }
    f
}

/// The negation; that of a negation is what was negated.
pub fn negated(f: Said) -> Said {
    match &f.form {
        Form::Not(inner) => inner.clone(),
        _ => said(Form::Not(f)),
    }
}

/// `f and g` is `not (not f or not g)`.
pub fn conjunction(f: Said, g: Said) -> Said {
    said(Form::Not(said(Form::Or(negated(f), negated(g)))))
}

/// `once f` is `true since f`.
pub fn once(f: Said, span: Span) -> Said {
    said(Form::Since(said(Form::True), f, span))
}

fn add(others: &mut Vec<Id>, more: &[Id]) {
    for id in more {
        if !others.contains(id) {
            others.push(*id);
        }
    }
}

fn without(others: &[Id], name: Id) -> Vec<Id> {
    others.iter().copied().filter(|id| *id != name).collect()
}
