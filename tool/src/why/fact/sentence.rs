//! Sentences for facts.

use super::Fact;
use crate::aloud::listed;
use crate::aloud::told::{At, Telling};
use crate::why::reason::{Claim, Place};
use crate::words::Words;
use keeper::record::Graph;

/// So many moments at which something was so too are named.
const MOST_MOMENTS: usize = 2;

/// An end of an edge that nobody is.
pub const NOBODY: &str = "no member";

/// From where a fact is told.
#[derive(Clone, Copy)]
pub struct Seen {
    /// The moment of the request.
    pub now: usize,
    /// The moment that the sentence before is about.
    pub last: Option<usize>,
    /// Whether all moments are named.
    pub all: bool,
}

impl Fact {
    /// A sentence for it.
    pub fn told(&self, telling: &Telling, words: &Words, graphs: &[Graph], seen: Seen) -> String {
        let Seen { now, last, all } = seen;
        let (relations, name) = (words.terms.relations, |member| words.member(member));
        let then = |moment: usize| moment != now;
        let moment_of = |moment: usize| match last == Some(moment) {
            true => " then".to_string(),
            false => format!(" at moment {moment}"),
        };
        let at = |moment: usize| match moment == now {
            true => String::new(),
            false => moment_of(moment),
        };
        let up_to = |moment: usize| match moment == now {
            true => String::new(),
            false => format!(" up to moment {moment}"),
        };
        match *self {
            Fact::Edge { label, from, to, moment } if label >= relations => {
                telling.event(label, &name(from), &name(to), true) + &moment_of(moment)
            }
            Fact::Edge { label, from, to, moment } => {
                telling.edge(label, &name(from), &name(to), then(moment), true) + &at(moment)
            }
            Fact::NoEdge { label, from, to, moment } => {
                let end = |member: Option<usize>| member.map_or(NOBODY.to_string(), name);
                let (ends, holds) = ((end(from), end(to)), from.is_none() || to.is_none());
                if label < relations || !then(moment) {
                    let edge = telling.edge(label, &ends.0, &ends.1, then(moment), holds);
                    let event = graphs[moment].event.filter(|_| label >= relations);
                    let last = event.map(|event| {
                        let (from, to) = (name(event.from), name(event.to));
                        telling.edge(event.label(words.terms), &from, &to, false, true)
                    });
                    let last = last.map_or_else(String::new, |last| format!(": {last}"));
                    return edge + &last + &at(moment);
                }
                telling.event(label, &ends.0, &ends.1, holds) + &at(moment)
            }
            Fact::Only { label, member, out, others, moment } => {
                let here = words.member(member);
                let others = only(words, others, telling.begins(label) != out);
                let (from, to) = if out { (here, others) } else { (others, here) };
                telling.edge(label, &from, &to, then(moment), true) + &at(moment)
            }
            Fact::Count { place, others, least } => {
                let sought = telling.sought(whose(place), then(place.moment));
                let fitting = names(words, others);
                count(&sought, &fitting, least, (then(place.moment), &at(place.moment)))
            }
            Fact::Same { member, variable: 0 } => format!("{} is the target", words.member(member)),
            Fact::Same { member, .. } => format!("both are {}", words.member(member)),
            Fact::Differ { member, other } => {
                format!("{} is not {}", words.member(member), words.member(other))
            }
            Fact::NoMomentBefore => "there is no moment before moment 0".to_string(),
            Fact::NotBefore(moment) => {
                format!("the terms were revised at moment {moment}, and none before it counts")
            }
            Fact::Stored(Claim { place, holds }) => {
                format!(
                    "as far as the stored file remembers, {}",
                    telling.holds(whose(place), holds, true)
                )
            }
            Fact::Never { place, after } => {
                let stored = if after { "since then " } else { "" };
                let never = telling.never(whose(place), then(place.moment));
                format!("{stored}{never}{}", up_to(place.moment))
            }
            Fact::NeverSince { place, first } => {
                let never = telling.never(whose(place), then(place.moment));
                let revised = format!("since the terms were revised at moment {first}");
                format!("{revised} {never}{}", up_to(place.moment))
            }
            Fact::Counting(moment) => {
                format!("the past counts here from moment {moment} on, when the terms were revised")
            }
            Fact::Also { ref moments, nor: false, .. } => {
                format!("so it was at {}", several(moments, all))
            }
            Fact::Also { ref moments, .. } => format!("nor at {}", several(moments, all)),
            Fact::OneEvent => "two events never share a moment".to_string(),
            Fact::Since { place, .. } => telling.since(whose(place), then(place.moment)),
            Fact::NoStep(place) => {
                telling.no_step(whose(place), then(place.moment)) + &at(place.moment)
            }
            Fact::Defined(Claim { place, holds }) => {
                let Some(called) = words.names.defined(place.entry) else { return String::new() };
                let person = |variable: &Option<usize>| {
                    words.member(variable.map_or(place.member, |x| place.assigned.member(x)))
                };
                let people: Vec<String> = called.people.iter().map(person).collect();
                let said = telling.defined(called, &people, holds, then(place.moment));
                said + &at(place.moment)
            }
            Fact::Always => "always".to_string(),
            Fact::Claim(Claim { place, holds }) => {
                let verb = if holds { "holds" } else { "does not hold" };
                let member = words.member(place.member);
                format!("a further condition {verb} of {member}{}", at(place.moment))
            }
        }
    }
}

/// Whose entry is said.
fn whose(place: Place) -> At {
    (place.entry, place.member, place.assigned)
}

/// How many are needed and how many there are, now or at a moment.
fn count(sought: &str, fitting: &[String], least: usize, (then, at): (bool, &str)) -> String {
    let needed = match (least, then) {
        (1, false) => format!("at least 1 of the {sought} is needed"),
        (1, true) => format!("at least 1 of the {sought} was needed"),
        (_, false) => format!("at least {least} {sought} are needed"),
        (_, true) => format!("at least {least} {sought} were needed"),
    };
    let there = match (fitting.len() == 1, then) {
        (true, false) => "there is",
        (true, true) => "there was",
        (false, false) => "there are",
        (false, true) => "there were",
    };
    let only = if fitting.len() < least { " only" } else { "" };
    match fitting.len() {
        0 => format!("{needed}, and there {} none{at}", if then { "was" } else { "is" }),
        found => format!("{needed}, and {there}{only} {found}{at}: {}", listed(fitting)),
    }
}

/// `moment 9`, `moments 9 and 2`, `moments 9 and 2 and 3 other moments`.
fn several(moments: &[usize], all: bool) -> String {
    let most = if all { moments.len() } else { moments.len().min(MOST_MOMENTS) };
    let (named, others) = moments.split_at(most);
    let named: Vec<String> = named.iter().map(usize::to_string).collect();
    let others = match others.len() {
        0 => String::new(),
        1 => " and 1 other moment".to_string(),
        more => format!(" and {more} other moments"),
    };
    let noun = if named.len() == 1 { "moment" } else { "moments" };
    format!("{noun} {}{others}", listed(&named))
}

/// The members of a set.
fn names(words: &Words, others: u64) -> Vec<String> {
    let members = (0..words.terms.members).filter(|member| others >> member & 1 == 1);
    members.map(|member| words.member(member)).collect()
}

/// `only ada, bea and cem`; as a subject, which may be several, `none but`.
fn only(words: &Words, others: u64, subject: bool) -> String {
    match (&names(words, others)[..], subject) {
        ([], _) => NOBODY.to_string(),
        (names, true) => format!("none but {}", listed(names)),
        (names, false) => format!("only {}", listed(names)),
    }
}
