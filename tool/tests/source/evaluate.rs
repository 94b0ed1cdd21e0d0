//! The meaning of a source, straight from how it is written. Only the written
//! form is shared with the compiler.

use cuckooormolu_tool::source::ast::*;
use std::collections::BTreeSet;

/// An edge: relation or event by name, `denied` before an event that was denied,
/// from, to.
pub type Edge = (String, usize, usize);

/// One moment: the relations, and the event that made it.
#[derive(Clone, Debug, Default)]
pub struct Moment {
    pub edges: BTreeSet<Edge>,
    pub event: Option<Edge>,
}

/// A source at work: every moment so far.
pub struct World<'a> {
    pub source: &'a Source,
    pub moments: Vec<Moment>,
}

/// Who the words of a formula stand for; names inside out.
#[derive(Clone)]
struct People {
    me: usize,
    target: usize,
    here: usize,
    named: Vec<(String, usize)>,
}

impl People {
    fn named(&self, name: &str) -> Option<usize> {
        self.named.iter().rev().find(|(known, _)| known == name).map(|(_, member)| *member)
    }

    fn find(&self, person: &Person) -> usize {
        match &person.who {
            Who::Me => self.me,
            Who::Target => self.target,
            Who::Here => self.here,
            Who::Named(name) => self.named(name).expect("a name in sight"),
        }
    }

    fn moved(&self, here: usize) -> People {
        People { here, ..self.clone() }
    }

    fn with(&self, name: &str, member: usize) -> People {
        let mut people = self.clone();
        people.named.push((name.to_string(), member));
        people
    }
}

impl<'a> World<'a> {
    pub fn new(source: &'a Source) -> World<'a> {
        let number = |name: &Name| source.members.iter().position(|other| other == name).unwrap();
        let edge = |fact: &Fact| (fact.relation.text.clone(), number(&fact.from), number(&fact.to));
        let edges = source.first.iter().map(edge).collect();
        World { source, moments: vec![Moment { edges, event: None }] }
    }

    /// Makes the next moment by a request, if it makes one.
    pub fn request(&mut self, event: usize, from: usize, to: usize) {
        let asked = &self.source.events[event];
        let mut next = self.moments[self.moments.len() - 1].clone();
        if !self.permits(event, from, to) {
            if self.source.kept.contains(&asked.name) {
                next.event = Some((format!("denied {}", asked.name.text), from, to));
                self.moments.push(next);
            }
            return;
        }
        for effect in &asked.effects {
            let member = |person: &Person| if person.who == Who::Me { from } else { to };
            let edge = (effect.relation.text.clone(), member(&effect.from), member(&effect.to));
            if effect.add {
                next.edges.insert(edge);
            } else {
                next.edges.remove(&edge);
            }
        }
        next.event = Some((asked.name.text.clone(), from, to));
        self.moments.push(next);
    }

    pub fn permits(&self, event: usize, from: usize, to: usize) -> bool {
        let people = People { me: from, target: to, here: from, named: Vec::new() };
        self.holds(&self.source.events[event].policy, self.moments.len() - 1, &people)
    }

    fn edge(&self, now: usize, word: &str, from: usize, to: usize) -> bool {
        let edge = (word.to_string(), from, to);
        let moment = &self.moments[now];
        moment.event.as_ref() == Some(&edge) || moment.edges.contains(&edge)
    }

    fn holds(&self, formula: &Formula, now: usize, people: &People) -> bool {
        let members = 0..self.source.members.len();
        match &formula.kind {
            Kind::True => true,
            Kind::False => false,
            Kind::Is(one, other) => {
                let one = people.find(one);
                match &other.who {
                    Who::Named(name) if people.named(name).is_none() => {
                        match self.defined(name, &[one], now, people) {
                            Some(holds) => holds,
                            None => self.edge(now, name, one, one),
                        }
                    }
                    _ => one == people.find(other),
                }
            }
            Kind::Edge(Some(from), word, Some(to)) => {
                let (from, to) = (people.find(from), people.find(to));
                let defined = self.defined(&word.text, &[from, to], now, people);
                defined.unwrap_or_else(|| self.edge(now, &word.text, from, to))
            }
            Kind::Edge(from, word, to) => members.into_iter().any(|anybody| {
                let end = |person: &Option<Person>| {
                    person.as_ref().map_or(anybody, |person| people.find(person))
                };
                self.edge(now, &word.text, end(from), end(to))
            }),
            Kind::Defined(name, given) => {
                let given: Vec<usize> = given.iter().map(|person| people.find(person)).collect();
                self.defined(&name.text, &given, now, people).expect("a definition")
            }
            Kind::Not(f) => !self.holds(f, now, people),
            Kind::And(f, g) => self.holds(f, now, people) && self.holds(g, now, people),
            Kind::Or(f, g) => self.holds(f, now, people) || self.holds(g, now, people),
            Kind::Once(f) => (0..=now).any(|then| self.holds(f, then, people)),
            Kind::Always(f) => (0..=now).all(|then| self.holds(f, then, people)),
            Kind::Never(f) => (0..=now).all(|then| !self.holds(f, then, people)),
            Kind::Previously(f) => now > 0 && self.holds(f, now - 1, people),
            Kind::Since(f, g) => (0..=now).any(|then| {
                self.holds(g, then, people)
                    && (then + 1..=now).all(|after| self.holds(f, after, people))
            }),
            Kind::Walk(walk) => {
                let from = people.find(&walk.person);
                let neighbours = members.filter(|&other| {
                    let (tail, head) = if walk.outwards { (from, other) } else { (other, from) };
                    self.edge(now, &walk.label.text, tail, head)
                });
                let fits = |other: &usize| {
                    let mut inner = people.moved(*other);
                    if let Some(name) = &walk.name {
                        inner = inner.with(&name.text, *other);
                    }
                    self.holds(&walk.body, now, &inner)
                };
                match walk.quantifier {
                    Quantifier::Some => neighbours.into_iter().any(|other| fits(&other)),
                    Quantifier::Every => neighbours.into_iter().all(|other| fits(&other)),
                    Quantifier::AtLeast(count) => neighbours.filter(fits).count() >= count,
                }
            }
            Kind::Step(step) => {
                let reached = members.filter(|&other| {
                    self.holds(&step.leads, now, &people.with(&step.name.text, other))
                });
                let mut fits = reached.map(|other| {
                    let inner = people.moved(other).with(&step.name.text, other);
                    self.holds(&step.body, now, &inner)
                });
                if step.every {
                    fits.all(|fits| fits)
                } else {
                    fits.any(|fits| fits)
                }
            }
            Kind::At(person, f) => self.holds(f, now, &people.moved(people.find(person))),
            Kind::As(name, f) => self.holds(f, now, &people.with(&name.text, people.here)),
        }
    }

    /// A definition said of some members; none if there is no such definition.
    fn defined(&self, name: &str, given: &[usize], now: usize, people: &People) -> Option<bool> {
        let definitions = &self.source.definitions;
        let definition = definitions.iter().find(|known| known.name.text == name)?;
        let names = definition.parameters.iter().map(|name| name.text.clone());
        let named = names.zip(given.iter().copied()).collect();
        Some(self.holds(&definition.body, now, &People { named, ..people.clone() }))
    }
}
