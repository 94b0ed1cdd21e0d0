//! Definitions by their names: `you are suspended`, `A trusts the target`.

use super::clause::Who;
use super::grammar::{be, do_, with, Time};
use super::resolve::{anyone, person};
use super::verbs::verb;
use super::words::{listed, name, object, Shape, Words};
use crate::names::Called;

/// A definition said of people; of each it is known whether it is the initiator.
pub fn said(called: &Called, people: &[(String, bool)], time: Time, holds: bool) -> String {
    let [(subject, you), rest @ ..] = people else { return String::new() };
    if is_of_several(called) {
        let people: Vec<String> = people.iter().map(|(name, _)| name.clone()).collect();
        return of_several(called, &people, time, holds);
    }
    format!("{subject} {}", predicate(called, *you, rest.first(), time, holds))
}

/// Whether a definition is said of several people side by side: of two, if its name is
/// no verb, or of more.
fn is_of_several(called: &Called) -> bool {
    match called.people.len() {
        0 | 1 => false,
        2 => verb(&called.name).is_none(),
        _ => true,
    }
}

/// `near holds of A and B`, `between holds of A, B and C`.
fn of_several(called: &Called, people: &[String], time: Time, holds: bool) -> String {
    let hold = match (time, holds) {
        (Time::Now, true) => "holds",
        (Time::Then, true) => "held",
        (Time::Now, false) => "does not hold",
        (Time::Then, false) => "did not hold",
    };
    format!("{} {hold} of {}", called.name, listed(people))
}

/// The same without its subject.
fn predicate(
    called: &Called,
    you: bool,
    object: Option<&(String, bool)>,
    time: Time,
    holds: bool,
) -> String {
    let not = if holds { "" } else { " not" };
    let Some((object, _)) = object else {
        return format!("{}{not} {}", be(you, time), called.name);
    };
    let Some(verb) = verb(&called.name) else { return String::new() };
    let done = match (time, holds, you) {
        (Time::Now, true, true) => verb.base,
        (Time::Now, true, false) => verb.third,
        (Time::Then, true, _) => verb.past,
        (time, false, you) => format!("{} not {}", do_(you, time), verb.base),
    };
    format!("{} {object}", with(&done, verb.preposition))
}

/// A definition within a clause.
pub fn clause(called: &Called, of: Who, given: &[(usize, Who)], holds: bool, time: Time) -> Words {
    let person = |variable: &Option<usize>| match variable {
        None => of,
        Some(x) => given.iter().find(|(y, _)| y == x).map_or(Who::Target, |(_, who)| *who),
    };
    let people: Vec<Who> = called.people.iter().map(person).collect();
    let object = people.get(1).map(|who| (object(*who, people[0]), *who == Who::You));
    if is_of_several(called) {
        let people: Vec<String> = people.iter().map(|who| name(*who)).collect();
        let text = of_several(called, &people, time, holds);
        return Words::whole(text, Shape::Open);
    }
    let you = people[0] == Who::You;
    Words::of(people[0], predicate(called, you, object.as_ref(), time, holds))
}

/// What stands before the clause of a definition: `A member M is suspended`.
pub fn head(called: &Called) -> String {
    headed(called, |place| person(called, place))
}

/// The same of whoever its people are: `A member M trusts A`.
pub fn general_head(called: &Called) -> String {
    headed(called, anyone)
}

fn headed(called: &Called, person: impl Fn(usize) -> Who) -> String {
    let person = |place: usize| (name(person(place)), false);
    let people: Vec<(String, bool)> = (0..called.people.len()).map(person).collect();
    let said = said(called, &people, Time::Now, true);
    match said.strip_prefix("the target") {
        Some(rest) => format!("The target{rest}"),
        None if is_of_several(called) => said,
        None => format!("A member {said}"),
    }
}
