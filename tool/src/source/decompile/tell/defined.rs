//! Entries that are told by the name of a definition.

use super::{standard, Formula, Kind, Place, Style, Teller};
use crate::names::Called;
use crate::source::ast::{Definition, Name, Person, Who};
use crate::source::print::is_part;
use keeper::terms::variables;

impl Teller<'_> {
    /// Whether an entry is told by a name, in this style.
    pub(super) fn is_named(&self, entry: usize, place: &Place) -> bool {
        let is_open = |called: &Called| self.open.contains(&called.name);
        match place.style {
            Style::Exact => self.shared[entry],
            _ => self.known.get(&entry).is_some_and(|called| !is_open(called)),
        }
    }

    /// What a definition says of the people at this place.
    pub(super) fn known_call(&mut self, entry: usize, place: &Place) -> Formula {
        let called = self.known[&entry].clone();
        if !self.definitions.iter().any(|other| other.name.text == called.name) {
            self.define(entry, &called, place.style);
        }
        let person = |person: &Option<usize>| match person {
            None => Person::new(place.here.clone()),
            Some(x) => Person::new(place.people[*x].clone()),
        };
        let people: Vec<Person> = called.people.iter().map(person).collect();
        let name = Name::new(&called.name);
        Formula::new(match &people[..] {
            [one] if !is_part(&called.name) => {
                Kind::Is(one.clone(), Person::new(Who::Named(called.name)))
            }
            [one, other] if !is_part(&called.name) => {
                Kind::Edge(Some(one.clone()), name, Some(other.clone()))
            }
            _ => Kind::Defined(name, people),
        })
    }

    /// Tells a definition, with the names p, q and so on for its people.
    fn define(&mut self, entry: usize, called: &Called, style: Style) {
        let (here, named) = (Who::Here, called.people.len());
        let mut place = Place { style, here, people: standard(), named, named_here: false };
        let mut parameters = Vec::new();
        for (number, person) in called.people.iter().enumerate() {
            let name = self.name(number);
            parameters.push(Name::new(&name));
            match person {
                None => (place.here, place.named_here) = (Who::Named(name), true),
                Some(x) => place.people[*x] = Who::Named(name),
            }
        }
        for x in variables(called.here) {
            place.people[x] = place.here.clone();
        }
        self.open.push(called.name.clone());
        let body = self.spell(entry, &place);
        self.open.pop();
        self.definitions.push(Definition { name: Name::new(&called.name), parameters, body });
    }
}
