//! M, L, P, K, E and G lines.

use super::advice::nearest_word;
use super::fault::Fault;
use super::line::{number, Field, FORM};
use super::reader::Reader;
use crate::aloud::listed;
use crate::names::Labelled;
use keeper::terms::{
    Effect, Entry, MOST_EFFECTS, MOST_EVENTS, MOST_MEMBERS, MOST_RELATIONS, VARIABLES,
};

/// The refusal of a number out of its range.
pub const RANGE: u16 = 2;
/// The refusal of a policy with a free variable other than 0.
const POLICY_VARIABLES: u16 = 5;

/// A number out of its range.
pub fn out_of_range(field: Field, what: String, right: String) -> Fault {
    Fault::new(RANGE, field.place(), what).right(right)
}

/// `members are 0 to 2`, `there are no relations`.
pub fn range(things: &str, count: usize) -> String {
    match count {
        0 => format!("there are no {things}"),
        1 => format!("{things} are 0 only"),
        count => format!("{things} are 0 to {}", count - 1),
    }
}

impl Reader<'_> {
    pub fn members(&mut self, n: Field) -> Result<(), Fault> {
        let count = number(n)?;
        self.terms.members = count;
        let right = format!("1 to {MOST_MEMBERS} members");
        match count {
            0 => Err(out_of_range(n, "no members".into(), right)),
            1..=MOST_MEMBERS => Ok(()),
            _ => Err(out_of_range(n, format!("{count} members are too many"), right)),
        }
    }

    pub fn labels(&mut self, r: Field, e: Field) -> Result<(), Fault> {
        let (relations, events) = (number(r)?, number(e)?);
        if relations > MOST_RELATIONS {
            let right = format!("0 to {MOST_RELATIONS} relations");
            return Err(out_of_range(r, format!("{relations} relations are too many"), right));
        }
        let right = format!("1 to {MOST_EVENTS} events");
        if events == 0 {
            return Err(out_of_range(e, "no events".into(), right));
        }
        if events > MOST_EVENTS {
            return Err(out_of_range(e, format!("{events} events are too many"), right));
        }
        self.terms.relations = relations;
        self.terms.events = events;
        self.terms.effects = vec![Vec::new(); events];
        Ok(())
    }

    pub fn policy(&mut self, e: Field, f: Field) -> Result<(), Fault> {
        let (event, entry) = (number(e)?, number(f)?);
        let (due, count) = (self.terms.policies.len(), self.terms.entries.len());
        if event != due {
            let what = format!("the policy of event {event} where that of event {due} was due");
            let right = match event < due {
                true => format!("event {event} has its policy above"),
                false => "one P line for each event, in rising order".to_string(),
            };
            return Err(Fault::new(FORM, e.place(), what).right(right));
        }
        if entry >= count {
            return Err(out_of_range(f, format!("no entry {entry}"), range("entries", count)));
        }
        let free = self.free[entry] & !1;
        if free != 0 {
            return Err(self.free_policy(f, entry, free));
        }
        self.terms.policies.push(entry);
        Ok(())
    }

    fn free_policy(&self, field: Field, entry: usize, free: u16) -> Fault {
        let variables: Vec<usize> = (1..VARIABLES).filter(|x| free >> x & 1 == 1).collect();
        let shown: Vec<String> = variables.iter().map(usize::to_string).collect();
        let shown = listed(&shown);
        let what = format!("entry {entry} leaves {shown} free, and a policy may leave only 0 free");
        let bound = self.terms.entries.iter().position(
            |&above| matches!(above, Entry::Bind(x, f) if f == entry && variables == [x]),
        );
        let right = match (bound, &variables[..]) {
            (Some(above), _) => format!("is entry {above} meant, which binds {shown}?"),
            (None, [x]) => format!("an entry `bind {x} {entry}` closes it; name that one here"),
            _ => "bind each of them in an entry of its own, and name the last here".to_string(),
        };
        Fault::new(POLICY_VARIABLES, field.place(), what).right(right)
    }

    pub fn kept(&mut self, e: Field) -> Result<(), Fault> {
        let (event, events) = (number(e)?, self.terms.events);
        if let Some(&last) = self.terms.kept.last().filter(|&&last| last >= event) {
            let what = match last == event {
                true => format!("event {event} kept a second time"),
                false => format!("event {event} kept after event {last}"),
            };
            let right = "K lines rise by event; none comes twice";
            return Err(Fault::new(FORM, e.place(), what).right(right));
        }
        if event >= events {
            return Err(out_of_range(e, format!("no event {event}"), range("events", events)));
        }
        self.terms.kept.insert(event);
        Ok(())
    }

    pub fn effect(&mut self, e: Field, action: Field, r: Field, way: Field) -> Result<(), Fault> {
        let (event, relation) = (number(e)?, number(r)?);
        let add = either(action, "action", ["del", "add"])?;
        let back = either(way, "direction", ["fwd", "back"])?;
        let (events, relations) = (self.terms.events, self.terms.relations);
        if event < self.last_effect {
            let what =
                format!("an effect of event {event} after one of event {}", self.last_effect);
            let right = "E lines are sorted by event";
            return Err(Fault::new(FORM, e.place(), what).right(right));
        }
        if event >= events {
            return Err(out_of_range(e, format!("no event {event}"), range("events", events)));
        }
        if relation >= relations {
            let label = match Labelled::of(&self.terms, relation) {
                Labelled::Event(event) => Some(format!("event {event}")),
                Labelled::Denied(event) if event < events => Some(format!("event {event} denied")),
                _ => None,
            };
            let right = match label {
                Some(event) => format!(
                    "{}; {relation} is the label of {event}, and effects change relations only",
                    range("relations", relations)
                ),
                None => range("relations", relations),
            };
            return Err(out_of_range(r, format!("no relation {relation}"), right));
        }
        if self.terms.effects[event].len() >= MOST_EFFECTS {
            let what = format!("a fifth effect of event {event}");
            let right = format!("an event has at most {MOST_EFFECTS}");
            return Err(out_of_range(e, what, right));
        }
        self.last_effect = event;
        self.terms.effects[event].push(Effect { add, relation, back });
        Ok(())
    }

    pub fn edge(&mut self, r: Field, a: Field, b: Field) -> Result<(), Fault> {
        let (relation, from, to) = (number(r)?, number(a)?, number(b)?);
        let edge = (relation, from, to);
        if let Some(&last) = self.terms.edges.last().filter(|&&last| last >= edge) {
            let place = r.place().start..b.place().end;
            let shown = |(r, a, b): (usize, usize, usize)| format!("{r} {a} {b}");
            let what = match last == edge {
                true => format!("edge {} a second time", shown(edge)),
                false => format!("edge {} after {}", shown(edge), shown(last)),
            };
            let right = "edges rise by relation, then from, then to; none comes twice";
            return Err(Fault::new(FORM, place, what).right(right));
        }
        let relations = self.terms.relations;
        if relation >= relations {
            let right = range("relations", relations);
            return Err(out_of_range(r, format!("no relation {relation}"), right));
        }
        self.are_members([(a, from), (b, to)])?;
        self.terms.edges.insert(edge);
        Ok(())
    }

    /// Both ends of an edge, or all places of a bit, are members.
    pub fn are_members<'f>(
        &self,
        places: impl IntoIterator<Item = (Field<'f>, usize)>,
    ) -> Result<(), Fault> {
        let members = self.terms.members;
        match places.into_iter().find(|(_, member)| *member >= members) {
            Some((field, member)) => {
                let right = format!("{}: M says {members}", range("members", members));
                Err(out_of_range(field, format!("no member {member}"), right))
            }
            None => Ok(()),
        }
    }
}

/// Whether a field is the second of two words.
fn either(field: Field, due: &str, words: [&str; 2]) -> Result<bool, Fault> {
    if let Some(place) = words.iter().position(|word| word.as_bytes() == field.bytes) {
        return Ok(place == 1);
    }
    let what = format!("no {due} `{}`{}", field.shown(), nearest_word(&field.shown(), &words));
    let right = format!("the {due} is {} or {}", words[0], words[1]);
    Err(Fault::new(FORM, field.place(), what).right(right))
}
