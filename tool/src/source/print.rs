//! Writes a source as a text.

mod formula;

pub use formula::flat;

use super::ast::*;
use formula::{laid, person, WIDTH};

/// The whole text. Reading it gives the same source.
pub fn print(source: &Source) -> String {
    let mut text = String::new();
    let kind = |member: &Name| {
        source
            .kinds
            .iter()
            .position(|kind| kind.members.iter().any(|other| other.text == member.text))
    };
    for members in source.members.chunk_by(|one, other| kind(one) == kind(other)) {
        match kind(&members[0]) {
            None => list(&mut text, "member", members),
            Some(place) => {
                let names: Vec<&str> = members.iter().map(|name| &name.text[..]).collect();
                let kind = &source.kinds[place].name.text;
                text.push_str(&format!("members {kind}: {}\n", names.join(", ")));
            }
        }
    }
    list(&mut text, "relation", &source.relations);
    for definition in &source.definitions {
        text.push_str(&after(&format!("\ndefine {}:", defined(definition)), &definition.body));
    }
    let alike =
        |one: &Event, other: &Event| one.policy == other.policy && one.effects == other.effects;
    for events in source.events.chunk_by(alike) {
        let event = &events[0];
        let said = |event: &Event| match &event.said {
            Some(words) => format!("{} said \"{words}\"", event.name.text),
            None => event.name.text.clone(),
        };
        let names: Vec<String> = events.iter().map(said).collect();
        let head = format!("\nevent {}", names.join(", "));
        if event.policy.kind == Kind::True {
            text.push_str(&format!("{head} by anyone\n"));
        } else {
            text.push_str(&format!("{head}\n  when {}\n", laid(&event.policy, 7)));
        }
        let effects: Vec<String> = event.effects.iter().map(effect).collect();
        if !effects.is_empty() {
            text.push_str(&format!("  then {}\n", effects.join(",\n       ")));
        }
    }
    if !source.kept.is_empty() {
        let names: Vec<&str> = source.kept.iter().map(|name| &name.text[..]).collect();
        text.push_str(&format!("\nkeep denied {}\n", names.join(", ")));
    }
    if !source.first.is_empty() {
        text.push('\n');
    }
    let alike = |one: &Fact, other: &Fact| one.from == other.from && one.relation == other.relation;
    for facts in source.first.chunk_by(alike) {
        if let [fact] = facts {
            if fact.from.text == fact.to.text {
                text.push_str(&format!("first {} is {}\n", fact.from.text, fact.relation.text));
                continue;
            }
        }
        let ends: Vec<&str> = facts.iter().map(|fact| &fact.to.text[..]).collect();
        let (from, relation) = (&facts[0].from.text, &facts[0].relation.text);
        text.push_str(&format!("first {from} {relation} {}\n", ends.join(" and ")));
    }
    text
}

/// What a definition says of its people, as a sentence where it has a name that reads so.
fn defined(definition: &Definition) -> String {
    let name = &definition.name.text;
    let people: Vec<&str> = definition.parameters.iter().map(|name| &name.text[..]).collect();
    match people[..] {
        [] => name.clone(),
        [one] if !is_part(name) => format!("{one} is {name}"),
        [one, other] if !is_part(name) => format!("{one} {name} {other}"),
        _ => format!("{name}({})", people.join(", ")),
    }
}

/// Whether a name is that of a part which has none of its own: `part7`.
pub fn is_part(name: &str) -> bool {
    let number = name.strip_prefix("part").map(|rest| rest.trim_end_matches('_'));
    number.is_some_and(|number| number.parse::<usize>().is_ok())
}

fn list(text: &mut String, word: &str, names: &[Name]) {
    let plural = if names.len() == 1 { "" } else { "s" };
    if !names.is_empty() {
        let names: Vec<&str> = names.iter().map(|name| &name.text[..]).collect();
        text.push_str(&format!("{word}{plural} {}\n", names.join(", ")));
    }
}

fn effect(effect: &Effect) -> String {
    let action = if effect.add { "add" } else { "remove" };
    format!("{action} {} {} {}", person(&effect.from), effect.relation.text, person(&effect.to))
}

/// A formula after its head: on the same line if it is short.
fn after(head: &str, formula: &Formula) -> String {
    let line = flat(formula);
    if head.len() + line.len() < WIDTH {
        format!("{head} {line}\n")
    } else {
        format!("{head}\n  {}\n", laid(formula, 2))
    }
}
