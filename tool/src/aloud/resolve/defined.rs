//! Entries that are definitions, said of their people.

use super::{Named, Resolver};
use crate::aloud::clause::{Clause, Who};
use crate::aloud::form::{Forms, Node};
use crate::names::Called;
use keeper::terms::VARIABLES;

/// What an entry that is a definition says of its people: a member M, the target, or
/// else guests, by their places. Whoever else it speaks of is the initiator or the target.
pub fn of_defined(forms: &Forms, entry: usize, called: &Called) -> Clause {
    let mut named = Named([Who::You; VARIABLES]).with(0, Who::Target);
    for (place, variable) in called.people.iter().enumerate() {
        if let Some(variable) = variable {
            named = named.with(*variable, person(called, place));
        }
    }
    for variable in (0..VARIABLES).filter(|x| called.here >> x & 1 == 1) {
        named = named.with(variable, Who::Here);
    }
    let here = if called.people.contains(&None) { Who::Here } else { Who::You };
    let guests = called.people.len();
    Resolver { forms, guests }.inside(Node { entry, holds: true }, here, named)
}

/// The same of whoever its people are: a member M, and guests by their places. None where
/// one of them stands at two places.
pub fn of_definition(forms: &Forms, entry: usize, called: &Called) -> Option<Clause> {
    let people = &called.people;
    let twice = |place: usize| people[..place].contains(&people[place]);
    let at = people.iter().position(Option::is_none)?;
    if (0..people.len()).any(twice) {
        return None;
    }
    let mut named = Named([Who::You; VARIABLES]).with(0, Who::Target);
    for (place, variable) in people.iter().enumerate() {
        named = variable.map_or(named, |variable| named.with(variable, anyone(place)));
    }
    for variable in (0..VARIABLES).filter(|x| called.here >> x & 1 == 1) {
        named = named.with(variable, anyone(at));
    }
    let node = Node { entry, holds: true };
    Some(Resolver { forms, guests: people.len() }.inside(node, anyone(at), named))
}

/// Whoever is said at a place of a definition.
pub fn anyone(place: usize) -> Who {
    if place == 0 {
        Who::Here
    } else {
        Who::Guest(place)
    }
}

/// Who is said at a place of a definition.
pub fn person(called: &Called, place: usize) -> Who {
    match called.people[place] {
        Some(0) => Who::Target,
        None => Who::Here,
        Some(_) if called.first() == Some(place) => Who::Here,
        Some(_) => Who::Guest(place),
    }
}
