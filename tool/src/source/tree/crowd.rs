//! Parts that may speak of few people: those about the past, and those that lead to somebody.

use super::spelled::{bound_if_free, free, tree, Node, Tree};
use super::{has, Name, Placer};
use crate::source::ast::Span;
use crate::source::said::{Id, Said};

/// A part about the past, or one that leads to somebody, that speaks of more
/// people than it may.
pub struct Crowd {
    pub span: Span,
    /// Whom it leads to; none for a part about the past.
    pub to: Option<Id>,
    /// Whom it speaks of; none for a member that has no name.
    pub people: Vec<Option<Id>>,
}

impl Placer {
    /// A step. It is taken from the one person that it speaks of besides whom
    /// it leads to, so that nobody else is free where it leads.
    pub(super) fn step(
        &mut self,
        name: Id,
        leads: &Said,
        body: &Said,
        names: &[Name],
        span: Span,
    ) -> Result<Tree, Crowd> {
        let near = |id: &Id| has(names, *id) && *id != name;
        let here = leads.here || leads.others.iter().any(near);
        let mut others = leads.others.iter().copied().filter(|id| *id != name && !near(id));
        let from = others.next();
        if from.is_some() && here || others.next().is_some() {
            let named = leads.others.iter().copied().find(near);
            let first = here.then_some(named);
            let others = leads.others.iter().copied().filter(|id| !near(id));
            let people = first.into_iter().chain(others.map(Some)).collect();
            return Err(Crowd { span, to: Some(name), people });
        }
        let names: Vec<Name> = match from {
            Some(from) => vec![Name::of(from)],
            None => names.iter().copied().filter(|other| other.id != name).collect(),
        };
        let leads = bound_inside(&names, self.place(leads, &names)?);
        let body = bound_if_free(name, self.place(body, &[Name::of(name)])?);
        let reach = tree(Node::Reach(name, leads, body));
        Ok(from.map_or(reach.clone(), |from| tree(Node::At(from, reach))))
    }

    /// A part about the past. It is said of one of the people it speaks of, so
    /// that only the others are left for its variables: none or one, or two where
    /// there is no other way.
    pub(super) fn past(
        &mut self,
        f: &Said,
        parts: &[&Said],
        names: &[Name],
        span: Span,
        make: impl Fn(&[Tree]) -> Node,
    ) -> Result<Tree, Crowd> {
        let others: Vec<Id> = f.others.iter().copied().filter(|id| !has(names, *id)).collect();
        let here = f.here || others.len() < f.others.len();
        if others.len() + usize::from(here) > 1 + self.most_free {
            let name = f.others.iter().copied().find(|id| has(names, *id));
            let first = here.then_some(name);
            let people = first.into_iter().chain(others.into_iter().map(Some)).collect();
            return Err(Crowd { span, to: None, people });
        }
        // Where `at` or `as` is written the writer has chosen the place.
        let stays = here || others.is_empty() || f.placed && others.len() <= self.most_free;
        let names = if stays { names.to_vec() } else { vec![Name::of(others[0])] };
        let mut placed = Vec::new();
        for part in parts {
            placed.push(self.place(part, &names)?);
        }
        // The member's own names are bound inside, so that the others alone are free.
        // One that is given with `at` or `as` stays free where it may.
        let (given, own): (Vec<Name>, Vec<Name>) = names.iter().partition(|name| name.given);
        for (most, names) in [(1, own), (self.most_free, given)] {
            if free(&placed).len() > most {
                placed = placed.into_iter().map(|part| bound_inside(&names, part)).collect();
            }
        }
        let formula = tree(make(&placed));
        Ok(if stays { formula } else { tree(Node::At(others[0], formula)) })
    }
}

fn bound_inside(names: &[Name], body: Tree) -> Tree {
    names.iter().fold(body, |body, name| bound_if_free(name.id, body))
}
