//! What a source declares: names, effects, kept events and first edges.

use super::notes::Notes;
use crate::names::{did_you_mean, Kind, Names};
use crate::source::ast::{Effect, Name, Source, Span, Who};
use crate::source::mistake::Mistake;
use crate::source::parse::third;
use keeper::terms::{self, Terms};
use keeper::terms::{MOST_EFFECTS, MOST_EVENTS, MOST_MEMBERS, MOST_RELATIONS};

/// The names of what is declared. `whole` is whether all statements could be read.
pub fn declared(source: &Source, text: &str, whole: bool, notes: &mut Notes) -> Names {
    let end = Span { start: text.trim_end().len(), end: text.trim_end().len() };
    let events: Vec<Name> = source.events.iter().map(|event| event.name.clone()).collect();
    let kinds = [
        (Kind::Member, &source.members, 1, MOST_MEMBERS),
        (Kind::Relation, &source.relations, 0, MOST_RELATIONS),
        (Kind::Event, &events, 1, MOST_EVENTS),
    ];
    let line = |name: &Name| Mistake::new(name.span, "").place(text).0;
    let mut names = Names::default();
    for (kind, given, least, most) in kinds {
        if given.len() < least && whole {
            let message = format!("no {kind} is declared; declare at least one");
            let example =
                if kind == Kind::Member { "members dora, pete" } else { "event share by anyone" };
            let advice = format!(
                "like this: `{example}`; `cuckooormolu new DIR` writes a source to start from"
            );
            notes.mistakes.push(Mistake::new(end, message).advise(advice));
        }
        if let Some(name) = given.get(most) {
            let message =
                format!("{} {kind}s are declared; at most {most} are allowed", given.len());
            let advice = format!("leave some out; {kind}s that are treated alike can be one");
            notes.mistakes.push(Mistake::new(name.span, message).advise(advice));
        }
        for (number, name) in given.iter().enumerate() {
            if let Some(first) = given[..number].iter().find(|other| other.text == name.text) {
                let message = format!(
                    "the {kind} `{}` is already declared, in line {}",
                    name.text,
                    line(first)
                );
                let advice = "leave one of the two out, or give it another name";
                notes.mistakes.push(Mistake::new(name.span, message).advise(advice));
            } else {
                names.set(kind, number, &name.text).expect("neither number nor name is taken");
            }
        }
    }
    // Relations, events and definitions are called in the same place.
    let relations = source.relations.iter().map(|name| (name, "relation"));
    let definitions = source.definitions.iter().map(|definition| (&definition.name, "definition"));
    let mut words: Vec<(&Name, &str)> =
        relations.chain(events.iter().map(|name| (name, "event"))).chain(definitions).collect();
    words.sort_by_key(|(name, _)| name.span.start);
    for (index, (name, kind)) in words.iter().enumerate() {
        let earlier = words[..index].iter().find(|(other, _)| other.text == name.text);
        let Some((first, what)) = earlier.filter(|(_, what)| what != kind || *what == "definition")
        else {
            continue;
        };
        let message = format!(
            "`{}` is already the name of a{} {what}, in line {}",
            name.text,
            if *what == "event" { "n" } else { "" },
            line(first)
        );
        let advice =
            "relations, events and definitions share one set of names: give one of them another";
        notes.mistakes.push(Mistake::new(name.span, message).advise(advice));
    }
    names
}

/// Fills in effects, kept events and first edges.
pub fn changes(source: &Source, names: &Names, terms: &mut Terms, notes: &mut Notes) {
    for event in &source.events {
        if let Some(fifth) = event.effects.get(MOST_EFFECTS) {
            let most = format!("`{}` has more than {MOST_EFFECTS} effects", event.name.text);
            let advice = format!("{MOST_EFFECTS} is the most; make two events of it");
            notes.mistakes.push(Mistake::new(fifth.relation.span, most).advise(advice));
        }
        let effects = event.effects.iter().filter_map(|effect| notes.take(changed(effect, names)));
        terms.effects.push(effects.collect());
    }
    for name in &source.kept {
        let Some(event) = notes.take(find(names, Kind::Event, name)) else { continue };
        if !terms.kept.insert(event) {
            let message = format!("denied `{}` is kept already", name.text);
            notes.mistakes.push(Mistake::new(name.span, message).advise("leave it out here"));
        }
    }
    // Without a member that could be read, nothing can be said of who is missing.
    for fact in source.first.iter().filter(|_| !source.members.is_empty()) {
        let ends = [
            (Kind::Relation, &fact.relation),
            (Kind::Member, &fact.from),
            (Kind::Member, &fact.to),
        ];
        let ends = ends.map(|(kind, name)| notes.take(find(names, kind, name)));
        if let [Some(relation), Some(from), Some(to)] = ends {
            terms.edges.insert((relation, from, to));
        }
    }
}

fn changed(effect: &Effect, names: &Names) -> Result<terms::Effect, Mistake> {
    let relation = effect_relation(&effect.relation, names)?;
    let back = match (&effect.from.who, &effect.to.who) {
        (Who::Me, Who::Target) => false,
        (Who::Target, Who::Me) => true,
        _ => return Err(third(effect.from.span.to(effect.to.span))),
    };
    Ok(terms::Effect { add: effect.add, relation, back })
}

/// The relation that an effect changes.
fn effect_relation(name: &Name, names: &Names) -> Result<usize, Mistake> {
    if names.find(Kind::Event, &name.text).is_some() {
        let text = &name.text;
        let message = format!("`{text}` is an event, and effects change relations only");
        let advice = format!(
            "an event is remembered by `once` and `since`; or declare a relation, and add that: `relation {text}-edge`"
        );
        return Err(Mistake::new(name.span, message).advise(advice));
    }
    find(names, Kind::Relation, name)
}

fn find(names: &Names, kind: Kind, name: &Name) -> Result<usize, Mistake> {
    names.find(kind, &name.text).ok_or_else(|| {
        let all = if kind == Kind::Member { MOST_MEMBERS } else { MOST_RELATIONS };
        let known: Vec<&str> = (0..all).filter_map(|n| names.given(kind, n)).collect();
        let hint = did_you_mean(&name.text, known.iter().copied());
        let mistake = Mistake::unknown(name, format!("no {kind} `{}`{hint}", name.text));
        mistake.advise(match (&known[..], kind) {
            ([], _) => format!("no {kind} is declared: `{kind} {}`", name.text),
            (known, Kind::Member) if known.len() > 12 => {
                format!("declare it, `members {}`, or correct the name", name.text)
            }
            (known, Kind::Relation) if hint.is_empty() => {
                format!("relations: {}; or declare it: `relation {}`", known.join(", "), name.text)
            }
            (known, _) => format!("{kind}s: {}", known.join(", ")),
        })
    })
}
