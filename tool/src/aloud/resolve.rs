//! Clauses made of entries: of whom each part is said is worked out.

mod defined;
mod joined;
mod linked;

use super::clause::{Clause, Counted, Reached, Who};
use super::form::{Form, Forms, Node, Quantity};
use super::told::At;
pub use defined::{anyone, of_defined, of_definition, person};
use joined::{all, any};
use keeper::record::meaning::Assigned;
use keeper::terms::{Entry, VARIABLES};

/// Whom each variable stands for.
#[derive(Clone, Copy)]
struct Named([Who; VARIABLES]);

impl Named {
    fn with(mut self, variable: usize, who: Who) -> Named {
        self.0[variable] = who;
        self
    }
}

/// What a policy says of the initiator and the target.
pub fn of_policy(forms: &Forms, entry: usize) -> Clause {
    // A policy has no free variable but 0, so the others are never looked at.
    let named = Named([Who::Target; VARIABLES]);
    Resolver { forms, guests: 0 }.inside(forms.node(entry, true), Who::You, named)
}

/// What an entry that is said apart says of a member.
pub fn of_entry(forms: &Forms, entry: usize) -> Clause {
    let mut named = Named([Who::Target; VARIABLES]);
    for variable in 1..VARIABLES {
        named = named.with(variable, Who::Given(variable));
    }
    Resolver { forms, guests: 0 }.inside(forms.node(entry, true), Who::Here, named)
}

/// What an entry, or its negation, says at a member, with every variable
/// standing for a member.
pub fn of_place(forms: &Forms, (entry, member, assigned): At, holds: bool) -> Clause {
    let (here, named) = (Who::Member(member), standing(assigned));
    Resolver { forms, guests: 0 }.inside(forms.node(entry, holds), here, named)
}

/// The same; a definition by its name.
pub fn by_name(forms: &Forms, (entry, member, assigned): At, holds: bool) -> Clause {
    let (here, named) = (Who::Member(member), standing(assigned));
    Resolver { forms, guests: 0 }.node(forms.node(entry, holds), here, named)
}

/// The label of a `many` at a place, and what it says of those it counts.
pub fn counted(forms: &Forms, (entry, _, assigned): At, who: Who) -> Option<(usize, Clause)> {
    let Entry::Many(label, there, _) = forms.terms.entries[entry] else { return None };
    let (node, named) = (forms.node(there, true), standing(assigned));
    Some((label, Resolver { forms, guests: 1 }.node(node, who, named)))
}

/// That the step of a reach leads from a member to nobody.
pub fn no_step(forms: &Forms, (entry, member, assigned): At) -> Clause {
    let Entry::Reach(variable, step, _) = forms.terms.entries[entry] else {
        return Clause::Constant(false);
    };
    let (here, guest) = (Who::Member(member), Who::Guest(0));
    let named = standing(assigned).with(variable, guest);
    let step = Resolver { forms, guests: 1 }.boxed(forms.node(step, true), here, named);
    let that = Box::new(Clause::Constant(true));
    Clause::Reached(Reached { quantity: Quantity::No, guest: 0, step, that })
}

fn standing(assigned: Assigned) -> Named {
    let mut named = Named([Who::Target; VARIABLES]);
    for variable in 0..VARIABLES {
        named = named.with(variable, Who::Member(assigned.member(variable)));
    }
    named
}

/// What a past-time entry says at somebody with its free variables standing for
/// others. They may be the guests 0, 1 and 2.
pub fn of_table(forms: &Forms, entry: usize, here: Who, others: &[(usize, Who)]) -> Clause {
    let named = Named([here; VARIABLES]);
    let named = others.iter().fold(named, |named, &(variable, who)| named.with(variable, who));
    Resolver { forms, guests: 3 }.inside(forms.node(entry, true), here, named)
}

struct Resolver<'a> {
    forms: &'a Forms<'a>,
    guests: usize,
}

impl Resolver<'_> {
    fn node(&mut self, node: Node, here: Who, named: Named) -> Clause {
        if !self.forms.is_apart(node) {
            return self.inside(node, here, named);
        }
        let free = self.forms.free[node.entry];
        let told = |&x: &usize| free >> x & 1 == 1 && (x, named.0[x]) != (0, Who::Target);
        let given = (0..VARIABLES).filter(told);
        let given = given.map(|x| (x, named.0[x])).collect();
        Clause::Apart { entry: node.entry, of: here, given, holds: node.holds }
    }

    /// The clause of a node even if it is said apart elsewhere.
    fn inside(&mut self, node: Node, here: Who, named: Named) -> Clause {
        match self.forms.form(node) {
            Form::Constant(value) => Clause::Constant(value),
            Form::Is { variable, holds } => {
                Clause::Same { who: here, other: named.0[variable], holds }
            }
            Form::All(parts) => all(self.nodes(&parts, here, named)),
            Form::Any(parts) => any(self.nodes(&parts, here, named)),
            Form::Edge { quantity, label, out, there } => {
                self.edge(quantity, label, out, there, here, named)
            }
            Form::Before { holds, then } => {
                Clause::Before { holds, then: self.boxed(then, here, named) }
            }
            // What was once so at some moment was once so.
            Form::Once { holds, then } => match self.node(then, here, named) {
                Clause::Once { holds: true, then } => Clause::Once { holds, then },
                then => Clause::Once { holds, then: Box::new(then) },
            },
            Form::Throughout(then) => Clause::Throughout(self.boxed(then, here, named)),
            Form::Since { holds, start, hold } => {
                let start = self.boxed(start, here, named);
                Clause::Since { holds, start, hold: self.boxed(hold, here, named) }
            }
            Form::Bind { variable, here: f } => self.node(f, here, named.with(variable, here)),
            Form::At { variable, there } => self.node(there, named.0[variable], named),
            Form::Count { least, holds, label, there } => {
                let guest = self.guests;
                self.guests += 1;
                let that = self.boxed(there, Who::Guest(guest), named);
                Clause::Counted(Counted { least, holds, label, near: here, guest, that })
            }
            Form::Reach { quantity, variable, step, there } => {
                self.reach(quantity, (variable, step), there, here, named)
            }
        }
    }

    fn boxed(&mut self, node: Node, here: Who, named: Named) -> Box<Clause> {
        Box::new(self.node(node, here, named))
    }

    fn nodes(&mut self, nodes: &[Node], here: Who, named: Named) -> Vec<Clause> {
        nodes.iter().map(|&node| self.node(node, here, named)).collect()
    }
}
