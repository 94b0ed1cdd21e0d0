//! Turns what is said into a formula of the terms: decides at which member
//! each part is said, and binds whom it names.

mod crowd;
mod spelled;

pub use crowd::Crowd;
pub use spelled::{Node, Spelled, Tree};

use super::said::{Form, Id, Said, Who, ME};
use spelled::{bound_if_free, tree};
use std::collections::HashMap;
use std::rc::Rc;

/// A name of the member at which a formula stands.
#[derive(Clone, Copy, Debug, PartialEq, Eq, Hash)]
struct Name {
    id: Id,
    /// Whether `at` or `as` gives it.
    given: bool,
}

impl Name {
    fn of(id: Id) -> Name {
        Name { id, given: false }
    }
}

/// The first of the numbers for people that the source doesn't name.
const UNNAMED: Id = 1 << 30;

pub struct Placer {
    /// How many free variables a part about the past may have.
    most_free: usize,
    /// What is placed already, by formula and the names of the member at
    /// which it stands.
    known: HashMap<(*const super::said::Fact, Vec<Name>), Tree>,
    /// Keeps the formulas alive that `known` points at.
    kept: Vec<Said>,
    /// How many people were named besides those of the source.
    named: Id,
}

impl Placer {
    /// Places formulas whose parts about the past may have so many free variables.
    pub fn new(most_free: usize) -> Placer {
        Placer { most_free, known: HashMap::new(), kept: Vec::new(), named: 0 }
    }

    /// A policy, said of the initiator.
    pub fn policy(&mut self, policy: &Said) -> Result<Tree, Crowd> {
        let body = self.place(policy, &[Name::of(ME)])?;
        Ok(bound_if_free(ME, body))
    }

    /// The formula said of a member that has the given names.
    fn place(&mut self, f: &Said, names: &[Name]) -> Result<Tree, Crowd> {
        let spoken = |name: &Name| f.others.contains(&name.id);
        let names: Vec<Name> = names.iter().copied().filter(spoken).collect();
        let key = (Rc::as_ptr(f), names);
        if let Some(known) = self.known.get(&key) {
            return Ok(known.clone());
        }
        let placed = marked(self.form(f, &key.1)?, f, &key.1);
        self.kept.push(f.clone());
        self.known.insert(key, placed.clone());
        Ok(placed)
    }

    fn form(&mut self, f: &Said, names: &[Name]) -> Result<Tree, Crowd> {
        let here = |who: &Who| is_here(who, names);
        Ok(match &f.form {
            Form::True => tree(Node::Top),
            Form::Is(Who::Here, Who::Here) => tree(Node::Top),
            Form::Is(one, Who::Other(other)) if here(one) => tree(Node::Var(*other)),
            Form::Is(Who::Other(one), other) if here(other) => tree(Node::Var(*one)),
            Form::Is(one, other) => self.gone_to(one, other, |var| var),
            Form::Edge(from, label, to) => self.edge(from, *label, to, names),
            Form::Not(f) => tree(Node::Not(self.place(f, names)?)),
            Form::Or(f, g) => tree(Node::Or(self.place(f, names)?, self.place(g, names)?)),
            Form::Some { from, label, outwards, name, body } => {
                let body = bound_if_free(*name, self.place(body, &[Name::of(*name)])?);
                let walk = if *outwards { Node::Out(*label, body) } else { Node::In(*label, body) };
                walked(from, names, walk)
            }
            Form::Many { from, label, count, name, body } => {
                let body = bound_if_free(*name, self.place(body, &[Name::of(*name)])?);
                walked(from, names, Node::Many(*label, body, *count))
            }
            Form::Step { name, leads, body, span } => {
                self.step(*name, leads, body, names, *span)?
            }
            Form::At(Who::Here, body) => self.place(body, names)?,
            Form::At(Who::Other(id), body) => {
                tree(Node::At(*id, self.place(body, &[Name { id: *id, given: true }])?))
            }
            Form::As { name, wanted, body } => {
                let also = Name { id: *name, given: *wanted };
                let also: Vec<Name> = names.iter().copied().chain([also]).collect();
                let body = self.place(body, &also)?;
                if *wanted {
                    tree(Node::Bind(*name, body))
                } else {
                    bound_if_free(*name, body)
                }
            }
            Form::Previously(part, span) => {
                self.past(f, &[part], names, *span, |parts| Node::Prev(parts[0].clone()))?
            }
            Form::Since(first, second, span) => {
                self.past(f, &[first, second], names, *span, |parts| {
                    Node::Since(parts[0].clone(), parts[1].clone())
                })?
            }
        })
    }

    /// At one person: a formula with a variable for another.
    fn gone_to(&self, one: &Who, other: &Who, make: impl Fn(Tree) -> Tree) -> Tree {
        match (one, other) {
            (Who::Other(one), Who::Other(other)) => {
                tree(Node::At(*one, make(tree(Node::Var(*other)))))
            }
            _ => unreachable!("whoever is here was looked at before"),
        }
    }

    fn edge(&mut self, from: &Option<Who>, label: usize, to: &Option<Who>, names: &[Name]) -> Tree {
        let here = |who: &Who| is_here(who, names);
        let out = |to: Tree| tree(Node::Out(label, to));
        let into = |from: Tree| tree(Node::In(label, from));
        let top = || tree(Node::Top);
        match (from, to) {
            (Some(from), None) if here(from) => out(top()),
            (Some(Who::Other(from)), None) => tree(Node::At(*from, out(top()))),
            (None, Some(to)) if here(to) => into(top()),
            (None, Some(Who::Other(to))) => tree(Node::At(*to, into(top()))),
            (Some(Who::Here), Some(Who::Here)) => {
                self.named += 1;
                let name = UNNAMED + self.named;
                tree(Node::Bind(name, out(tree(Node::Var(name)))))
            }
            (Some(from), Some(Who::Other(to))) if here(from) => out(tree(Node::Var(*to))),
            (Some(Who::Other(from)), Some(to)) if here(to) => into(tree(Node::Var(*from))),
            (Some(from), Some(to)) => self.gone_to(from, to, out),
            (None, None) | (Some(Who::Here), None) | (None, Some(Who::Here)) => {
                unreachable!("somebody stands at one end, and here was looked at before")
            }
        }
    }
}

/// The formula with what is known of where it comes from.
fn marked(mut placed: Tree, f: &Said, names: &[Name]) -> Tree {
    let person = |who: &Who| match who {
        Who::Other(id) if !has(names, *id) => Some(*id),
        _ => None,
    };
    if let Some(spelled) = Rc::get_mut(&mut placed) {
        spelled.span = spelled.span.or(f.span);
        let people =
            |(place, whos): &(usize, Vec<Who>)| (*place, whos.iter().map(person).collect());
        spelled.called = spelled.called.take().or(f.called.as_ref().map(people));
    }
    placed
}

/// Whether somebody is the member that has the given names.
fn is_here(who: &Who, names: &[Name]) -> bool {
    match who {
        Who::Here => true,
        Who::Other(id) => has(names, *id),
    }
}

/// Whether somebody is one of these names.
fn has(names: &[Name], id: Id) -> bool {
    names.iter().any(|name| name.id == id)
}

/// A walk from somebody, said of the member that has the given names.
fn walked(from: &Who, names: &[Name], walk: Node) -> Tree {
    match from {
        Who::Other(id) if !has(names, *id) => tree(Node::At(*id, tree(walk))),
        _ => tree(walk),
    }
}
