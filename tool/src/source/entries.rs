//! Numbers the variables of formulas and lists their parts as entries. Equal
//! parts are one entry.

use super::ast::Span;
use super::said::{Id, TARGET};
use super::tree::{Node, Spelled, Tree};
use keeper::terms::{Entry, VARIABLES};
use std::collections::HashMap;

/// More people are named at once than there are variables.
pub struct TooManyNames;

/// The variables of the people free in a formula, in the order of its `free`.
type Variables = Vec<usize>;

/// The place of a definition, and for each of its people the variable; none for
/// the member at which it is said.
pub type Call = (usize, Vec<Option<usize>>);

/// Where an entry comes from.
#[derive(Clone, Debug, Default, PartialEq)]
pub struct Origin {
    /// Where it is written. What a derived form is made of stands where the form
    /// does.
    pub span: Span,
    /// The definition that it is.
    pub called: Option<Call>,
}

#[derive(Default)]
pub struct Entries {
    pub list: Vec<Entry>,
    /// For each entry where it comes from, as far as it is told.
    origins: Vec<(Option<Span>, Option<Call>)>,
    places: HashMap<(usize, [usize; 3]), usize>,
    known: HashMap<(*const Spelled, Variables), usize>,
    kept: Vec<Tree>,
}

impl Entries {
    /// Goes on from entries that are there already.
    pub fn over(list: &[Entry]) -> Entries {
        let mut entries = Entries { list: list.to_vec(), ..Entries::default() };
        entries.origins = vec![(None, None); list.len()];
        for (place, entry) in list.iter().enumerate() {
            entries.places.entry(entry.parts()).or_insert(place);
        }
        entries
    }

    /// The entry of a policy, in which nobody but the target is free. `wish`
    /// gives the variable that a person asks for.
    pub fn policy(
        &mut self,
        policy: &Tree,
        wish: &dyn Fn(Id) -> Option<usize>,
    ) -> Result<usize, TooManyNames> {
        debug_assert!(policy.free.iter().all(|id| *id == TARGET));
        self.entry(policy, &vec![0; policy.free.len()], wish)
    }

    fn entry(
        &mut self,
        f: &Tree,
        variables: &Variables,
        wish: &dyn Fn(Id) -> Option<usize>,
    ) -> Result<usize, TooManyNames> {
        let key = (std::rc::Rc::as_ptr(f), variables.clone());
        if let Some(place) = self.known.get(&key) {
            return Ok(*place);
        }
        let of = |id: Id| variables[f.free.iter().position(|free| *free == id).expect("free")];
        let inside = |g: &Tree| g.free.iter().map(|id| of(*id)).collect::<Variables>();
        let entry = match &f.node {
            Node::Top => Entry::Top,
            Node::Var(id) => Entry::Var(of(*id)),
            Node::Not(g) => Entry::Not(self.entry(g, &inside(g), wish)?),
            Node::Or(g, h) => {
                Entry::Or(self.entry(g, &inside(g), wish)?, self.entry(h, &inside(h), wish)?)
            }
            Node::Out(label, g) => Entry::Out(*label, self.entry(g, &inside(g), wish)?),
            Node::In(label, g) => Entry::In(*label, self.entry(g, &inside(g), wish)?),
            Node::Many(label, g, count) => {
                Entry::Many(*label, self.entry(g, &inside(g), wish)?, *count)
            }
            Node::Prev(g) => Entry::Prev(self.entry(g, &inside(g), wish)?),
            Node::Since(g, h) => {
                Entry::Since(self.entry(g, &inside(g), wish)?, self.entry(h, &inside(h), wish)?)
            }
            Node::At(id, g) => Entry::At(of(*id), self.entry(g, &inside(g), wish)?),
            Node::Reach(id, g, h) => {
                let variable = free_variable(variables, wish(*id))?;
                let first = self.entry(g, &vec![variable; g.free.len()], wish)?;
                Entry::Reach(variable, first, self.entry(h, &inside(h), wish)?)
            }
            Node::Bind(id, g) => {
                let variable = free_variable(variables, wish(*id))?;
                let inner = |other: &Id| if other == id { variable } else { of(*other) };
                let inner = g.free.iter().map(inner).collect();
                Entry::Bind(variable, self.entry(g, &inner, wish)?)
            }
        };
        let next = self.list.len();
        let place = *self.places.entry(entry.parts()).or_insert(next);
        if place == next {
            self.list.push(entry);
            self.origins.push((f.span, None));
        }
        if let (Some((definition, people)), None) = (&f.called, &self.origins[place].1) {
            let variable = |person: &Option<Id>| match person {
                None => Some(None),
                Some(id) => f.free.iter().position(|free| free == id).map(|at| Some(variables[at])),
            };
            let people: Option<Vec<_>> = people.iter().map(variable).collect();
            self.origins[place].1 = people.map(|people| (*definition, people));
        }
        self.kept.push(f.clone());
        self.known.insert(key, place);
        Ok(place)
    }

    /// Where each entry comes from. An entry with no place of its own stands where
    /// the first that uses it does.
    pub fn origins(&self) -> Vec<Origin> {
        let mut spans: Vec<Option<Span>> = self.origins.iter().map(|origin| origin.0).collect();
        for place in (0..spans.len()).rev() {
            for part in self.list[place].operands() {
                spans[part] = spans[part].or(spans[place]);
            }
        }
        let told = self.origins.iter().zip(spans);
        told.map(|((_, called), span)| Origin {
            span: span.unwrap_or_default(),
            called: called.clone(),
        })
        .collect()
    }

    /// How many entries are about the past.
    pub fn past(&self) -> usize {
        self.list.iter().filter(|entry| entry.is_past()).count()
    }
}

/// The variable asked for, or the lowest that nobody in use has.
fn free_variable(used: &Variables, wish: Option<usize>) -> Result<usize, TooManyNames> {
    let unused = |x: &usize| !used.contains(x);
    wish.filter(unused).or_else(|| (1..VARIABLES).find(unused)).ok_or(TooManyNames)
}
