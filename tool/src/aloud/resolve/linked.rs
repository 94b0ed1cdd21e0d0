//! Clauses about those whom an edge or a step leads to.

use super::joined::{all, any};
use super::{Named, Resolver};
use crate::aloud::clause::{Clause, Link, Reached, Who};
use crate::aloud::form::{Form, Node, Quantity};

impl Resolver<'_> {
    pub(super) fn edge(
        &mut self,
        quantity: Quantity,
        label: usize,
        out: bool,
        there: Node,
        here: Who,
        named: Named,
    ) -> Clause {
        if quantity != Quantity::Every {
            if let Some((other, rest)) = self.known_end(there, named) {
                let holds = quantity == Quantity::Some;
                let (from, to) = if out { (here, other) } else { (other, here) };
                let mut parts = vec![Clause::Edge { label, from, to, holds }];
                for (node, named) in rest {
                    let node = if holds { node } else { node.negated() };
                    parts.push(self.node(node, other, named));
                }
                return if holds { all(parts) } else { any(parts) };
            }
        }
        let guest = self.guests;
        self.guests += 1;
        let that = self.boxed(there, Who::Guest(guest), named);
        Clause::Linked(Link { quantity, label, near: here, out, guest, that })
    }

    /// A step along an edge is said as that edge.
    pub(super) fn reach(
        &mut self,
        quantity: Quantity,
        (variable, step): (usize, Node),
        there: Node,
        near: Who,
        named: Named,
    ) -> Clause {
        let guest = self.guests;
        self.guests += 1;
        let far = Who::Guest(guest);
        let step = self.boxed(step, near, named.with(variable, far));
        let that = self.boxed(there, far, named);
        match *step {
            Clause::Edge { label, from, to, holds: true } if (from, to) == (near, far) => {
                Clause::Linked(Link { quantity, label, near, out: true, guest, that })
            }
            Clause::Edge { label, from, to, holds: true } if (from, to) == (far, near) => {
                Clause::Linked(Link { quantity, label, near, out: false, guest, that })
            }
            _ => Clause::Reached(Reached { quantity, guest, step, that }),
        }
    }

    /// If what is asked of an edge's far end says who it is: who, and what else
    /// is asked of them.
    fn known_end(&self, there: Node, named: Named) -> Option<(Who, Vec<(Node, Named)>)> {
        let (mut node, mut bound) = (there, Vec::new());
        loop {
            if self.forms.is_apart(node) {
                return None;
            }
            match self.forms.form(node) {
                Form::Bind { variable, here } => {
                    bound.push(variable);
                    node = here;
                }
                Form::Is { variable, holds: true } if !bound.contains(&variable) => {
                    return Some((named.0[variable], Vec::new()));
                }
                Form::All(mut parts) => {
                    let place = parts.iter().position(|&part| {
                        let form = self.forms.form(part);
                        matches!(form, Form::Is { variable, holds: true } if !bound.contains(&variable))
                    })?;
                    let Form::Is { variable, .. } = self.forms.form(parts.remove(place)) else {
                        return None;
                    };
                    let who = named.0[variable];
                    let named = bound.iter().fold(named, |named, &x| named.with(x, who));
                    return Some((who, parts.into_iter().map(|part| (part, named)).collect()));
                }
                _ => return None,
            }
        }
    }
}
