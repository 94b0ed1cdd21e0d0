//! Kinds of members as attributes. `members players: ben, cleo` lets a formula say
//! `x is player`: a relation from each of them to itself, which nobody has to spell
//! out.

use super::ast::{Fact, Formula, Kind, Name, Source, Who};
use std::collections::HashSet;

/// Adds a relation, with its first edges, for each kind that a formula asks for, in the
/// singular or by its own name. A relation, an event or a definition of that name goes
/// before.
pub fn unfold(source: &mut Source) {
    let mut asked = HashSet::new();
    let definitions = source.definitions.iter().map(|definition| &definition.body);
    for formula in definitions.chain(source.events.iter().map(|event| &event.policy)) {
        attributes(formula, &mut asked);
    }
    let relations = source.relations.iter().map(|name| &name.text);
    let events = source.events.iter().map(|event| &event.name.text);
    let definitions = source.definitions.iter().map(|definition| &definition.name.text);
    let mut taken: HashSet<String> = relations.chain(events).chain(definitions).cloned().collect();
    let own: HashSet<String> = source.kinds.iter().map(|kind| kind.name.text.clone()).collect();
    for place in 0..source.kinds.len() {
        let kind = source.kinds[place].clone();
        let name = &kind.name.text;
        // A kind may be declared in several parts.
        let earlier = source.kinds[..place].iter().find(|other| other.name.text == *name);
        let earlier = earlier.and_then(|other| other.relation.clone());
        // The own name of another kind is that kind's.
        let free = |form: &String| !taken.contains(form) && (form == name || !own.contains(form));
        let asked = |form: &String| asked.contains(form) && free(form);
        let text = earlier.clone().or_else(|| forms(name).into_iter().find(asked));
        let Some(text) = text else { continue };
        let relation = Name { text, span: kind.name.span };
        if earlier.is_none() {
            taken.insert(relation.text.clone());
            source.relations.push(relation.clone());
        }
        source.kinds[place].relation = Some(relation.text.clone());
        let loops = kind.members.into_iter().map(|member| Fact {
            from: member.clone(),
            relation: relation.clone(),
            to: member,
        });
        source.first.extend(loops);
    }
}

/// Kinds whose singular is another word.
const OTHERS: [(&str, &str); 4] =
    [("people", "person"), ("children", "child"), ("men", "man"), ("women", "woman")];

/// One of a kind: `players` has a player.
pub fn singular(kind: &str) -> String {
    singulars(kind).into_iter().next().unwrap_or_else(|| kind.to_string())
}

/// How one of a kind may be called, the likeliest first: `boxes` has a box, and might
/// have a boxe.
pub fn singulars(kind: &str) -> Vec<String> {
    if let Some((_, one)) = OTHERS.iter().find(|(many, _)| *many == kind) {
        return vec![one.to_string()];
    }
    let Some(stem) = kind.strip_suffix('s').filter(|stem| !stem.is_empty()) else { return vec![] };
    if let Some(stem) = stem.strip_suffix("ie") {
        return vec![format!("{stem}y"), format!("{stem}ie")];
    }
    // bus, chorus, brass, basis: one already.
    if ["u", "s", "i"].iter().any(|end| stem.ends_with(end)) {
        return vec![];
    }
    let hissing =
        |stem: &&str| ["us", "ss", "x", "z", "ch", "sh"].iter().any(|end| stem.ends_with(end));
    let short = stem.strip_suffix('e').filter(hissing).map(str::to_string);
    short.into_iter().chain([stem.to_string()]).collect()
}

/// All words by which a formula may ask for a kind.
pub fn forms(kind: &str) -> Vec<String> {
    singulars(kind).into_iter().chain([kind.to_string()]).collect()
}

/// The names that stand after `is` in a formula.
fn attributes(formula: &Formula, asked: &mut HashSet<String>) {
    if let Kind::Is(_, other) = &formula.kind {
        if let Who::Named(text) = &other.who {
            asked.insert(text.clone());
        }
    }
    for part in formula.parts() {
        attributes(part, asked);
    }
}

#[cfg(test)]
mod tests {
    use super::*;

    #[test]
    fn one_of_a_kind() {
        for (kind, one) in [
            ("players", "player"),
            ("libraries", "library"),
            ("people", "person"),
            ("staff", "staff"),
            ("brass", "brass"),
            ("bus", "bus"),
            ("buses", "bus"),
            ("boxes", "box"),
            ("cases", "case"),
            ("s", "s"),
        ] {
            assert_eq!(singular(kind), one);
        }
    }
}
