//! A game in which some of the events can happen: the terms without the others.

use crate::both::Both;
use crate::names::Labelled;
use crate::stop::Stop;
use crate::words::Words;
use keeper::terms::{self, Entry, EventEdge, Terms, MOST_RELATIONS};

/// The present moment of a record where only these events, rising, can happen. Entries keep
/// their numbers. What the terms ask of other events holds of nothing from here on: it is
/// asked of a relation that never has an edge.
pub fn narrowed(both: &Both, events: &[usize], goal: usize, words: &Words) -> Result<Both, Stop> {
    let unread = || Stop::Failed("internal error: what was stored cannot be read".into());
    let mut file = terms::read(&both.store()?).map_err(|_| unread())?;
    let old = &file.terms;
    let place = |event: usize| events.iter().position(|chosen| *chosen == event);
    let left_out = |label: usize| match Labelled::of(old, label) {
        Labelled::Relation(_) => false,
        Labelled::Event(event) | Labelled::Denied(event) => place(event).is_none(),
    };
    if let Some(past) = &mut file.past {
        past.event = match past.event {
            Some(last) => match place(last.event) {
                Some(event) => Some(EventEdge { event, ..last }),
                None if reads_now(old, events, goal, last.label(old)) => {
                    return Err(counts(last, words));
                }
                None => None,
            },
            None => None,
        };
    }
    let never = old.relations;
    let adds = old.entries.iter().filter_map(label_of).any(left_out);
    let relations = old.relations + usize::from(adds);
    if relations > MOST_RELATIONS {
        return Err(Stop::Failed(format!(
            "--events needs room for one more relation, and there are {} already",
            old.relations
        )));
    }
    let label = |label: usize| match Labelled::of(old, label) {
        Labelled::Relation(relation) => relation,
        Labelled::Event(event) => place(event).map_or(never, |event| relations + event),
        Labelled::Denied(event) => {
            place(event).map_or(never, |event| relations + events.len() + event)
        }
    };
    let entry = |entry: &Entry| match *entry {
        Entry::Out(l, f) => Entry::Out(label(l), f),
        Entry::In(l, f) => Entry::In(label(l), f),
        Entry::Many(l, f, count) => Entry::Many(label(l), f, count),
        other => other,
    };
    file.terms = Terms {
        relations,
        events: events.len(),
        entries: old.entries.iter().map(entry).collect(),
        policies: events.iter().map(|event| old.policies[*event]).collect(),
        effects: events.iter().map(|event| old.effects[*event].clone()).collect(),
        kept: old.kept.iter().filter_map(|event| place(*event)).collect(),
        ..old.clone()
    };
    Both::accepted(&file.text())
}

fn label_of(entry: &Entry) -> Option<usize> {
    match *entry {
        Entry::Out(label, _) | Entry::In(label, _) | Entry::Many(label, _, _) => Some(label),
        _ => None,
    }
}

/// Whether it makes a difference for these policies and the goal that a label has an edge at
/// this moment: they read it, or what was so a moment ago does at the next.
fn reads_now(terms: &Terms, events: &[usize], goal: usize, label: usize) -> bool {
    let before = terms.entries.iter().filter_map(|entry| match *entry {
        Entry::Prev(f) => Some(f),
        _ => None,
    });
    let policies = events.iter().map(|event| terms.policies[*event]);
    let mut waiting: Vec<usize> = before.chain(policies).chain([goal]).collect();
    let mut seen = vec![false; terms.entries.len()];
    while let Some(place) = waiting.pop() {
        let entry = terms.entries[place];
        if std::mem::replace(&mut seen[place], true) || entry.is_past() {
            continue;
        }
        if label_of(&entry) == Some(label) {
            return true;
        }
        waiting.extend(entry.operands());
    }
    false
}

fn counts(last: EventEdge, words: &Words) -> Stop {
    Stop::Failed(format!(
        "the last request, {}, counts at this moment: name `{}` in --events too, or plan with --first",
        words.happened(last),
        words.names.event(last.event)
    ))
}
