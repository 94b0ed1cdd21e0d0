//! New terms among calls: those in use, edited a little.

use super::{formulas, words, Rng, Size};
use crate::record::Call;
use crate::step::{Revision, Step};
use crate::terms::memory::{self, STATE_WORDS, TERMS_WORDS};
use crate::terms::{Effect, Entry, Field, Terms, MOST_EFFECTS, MOST_PAIRED, OPERATORS};

/// Above so many members no formula is made that was not there, since it might
/// take the keeper too long; of few entries it may.
const MOST_MEMBERS: usize = 8;
const FEW_ENTRIES: usize = 24;

/// The calls with revisions among them: none, a few or many.
pub fn steps(rng: &mut Rng, terms: &Terms, calls: Vec<Call>) -> Vec<Step> {
    let share = rng.pick(&[0, 4, 12, 30]);
    let mut terms = terms.clone();
    let mut steps = Vec::new();
    for call in calls {
        steps.push(Step::Call(call));
        if rng.percent(share) {
            let revision = revision(rng, &terms);
            terms = next(terms, &revision);
            steps.push(Step::Revision(revision));
        }
    }
    steps
}

/// The terms that are edited next: the new ones, if they are sound and of the same
/// size. Where too few words are lent they are not in use, and are edited anyway.
fn next(terms: Terms, revision: &Revision) -> Terms {
    match revision.said() {
        Some(new) if new.is_same_size(&terms) => new,
        _ => terms,
    }
}

/// A revision of terms. Now and then it lends too few words, or damaged ones, or
/// terms of another size.
pub fn revision(rng: &mut Rng, terms: &Terms) -> Revision {
    let mut revision = Revision::to(&new_terms(rng, terms));
    if rng.percent(5) {
        words::damage_terms(rng, &mut revision.terms);
    }
    lend(rng, &mut revision);
    revision
}

/// New terms: mostly those in use, edited.
pub fn new_terms(rng: &mut Rng, terms: &Terms) -> Terms {
    match rng.below(20) {
        0 => another(rng, terms),
        1 => other_size(rng, terms),
        _ => edited(rng, terms),
    }
}

/// Lends some words more, or too few of one memory.
fn lend(rng: &mut Rng, revision: &mut Revision) {
    let further = rng.below(6);
    revision.terms.extend((0..further).map(|_| rng.draw() as u16));
    let [old_terms, old_state, second] = [(); 3].map(|()| rng.below(6));
    revision.old_terms_words = TERMS_WORDS + old_terms;
    revision.old_state_words = STATE_WORDS + old_state;
    revision.second_words = STATE_WORDS + second;
    if rng.percent(95) {
        return;
    }
    let less = |rng: &mut Rng, words: usize| match rng.percent(60) {
        true => words - 1,
        false => rng.below(words),
    };
    match rng.below(4) {
        0 => revision.terms.truncate(less(rng, TERMS_WORDS)),
        1 => revision.old_terms_words = less(rng, TERMS_WORDS),
        2 => revision.old_state_words = less(rng, STATE_WORDS),
        _ => revision.second_words = less(rng, STATE_WORDS),
    }
}

/// Terms of the same size that have nothing to do with these.
fn another(rng: &mut Rng, terms: &Terms) -> Terms {
    let size = size_of(rng, terms);
    formulas::terms(rng, &size)
}

/// Terms of another number of members, relations or events.
fn other_size(rng: &mut Rng, terms: &Terms) -> Terms {
    let other = |rng: &mut Rng, number: usize, least: usize, most: usize| match number {
        number if number == least => number + 1,
        number if number == most => number - 1,
        number => rng.pick(&[number - 1, number + 1]),
    };
    let mut size = size_of(rng, terms);
    match rng.below(4) {
        0 => size.members = other(rng, size.members, 1, 64),
        1 => size.relations = other(rng, size.relations, 0, 16),
        2 => size.events = other(rng, size.events, 1, 16),
        _ => {
            let members = other(rng, terms.members, 1, 64);
            return Terms { members, ..terms.clone() };
        }
    }
    formulas::terms(rng, &size)
}

fn size_of(rng: &mut Rng, terms: &Terms) -> Size {
    let Terms { members, relations, events, .. } = *terms;
    let past = if members > MOST_MEMBERS { 2 } else { 5 };
    Size { members, relations, events, past, ..Size::small(rng) }
}

/// The terms after a few edits; one that would break a rule is left out.
pub fn edited(rng: &mut Rng, terms: &Terms) -> Terms {
    let mut edited = terms.clone();
    for _ in 0..rng.below(5) {
        let mut next = edited.clone();
        edit(rng, &mut next);
        if next.is_sound() {
            edited = next;
        }
    }
    edited
}

fn edit(rng: &mut Rng, terms: &mut Terms) {
    let entry = rng.below(terms.entries.len());
    let event = rng.below(terms.events);
    let few = terms.members <= MOST_PAIRED && terms.entries.len() <= FEW_ENTRIES;
    let free = few || terms.members <= MOST_MEMBERS;
    match rng.below(13) {
        0 | 1 => move_about(rng, terms),
        2 => terms.take_out(some_past(rng, terms)),
        3 => terms.take_out(entry),
        4 | 5 => repeat(rng, terms),
        6 if free => change_inside(rng, terms, entry),
        7 | 8 if free => add_past(rng, terms),
        9 => terms.policies[event] = rng.below(terms.entries.len()),
        10 => terms.effects[event] = effects(rng, terms),
        11 if free => swap_variables(rng, terms),
        _ => {
            if !terms.kept.remove(&event) {
                terms.kept.insert(event);
            }
        }
    }
}

/// A past-time entry, where there is one.
fn some_past(rng: &mut Rng, terms: &Terms) -> usize {
    match &terms.past()[..] {
        [] => rng.below(terms.entries.len()),
        past => rng.pick(past),
    }
}

/// Another order in which operands still come first.
fn move_about(rng: &mut Rng, terms: &mut Terms) {
    let mut order: Vec<usize> = Vec::new();
    let count = terms.entries.len();
    while order.len() < count {
        let due = (0..count).filter(|entry| {
            let ready = |operand: &usize| order.contains(operand);
            !order.contains(entry) && terms.entries[*entry].operands().iter().all(ready)
        });
        let due: Vec<usize> = due.take(4).collect();
        order.push(rng.pick(&due));
    }
    terms.reorder(&order);
}

/// An entry once more, further on; perhaps a policy names the copy.
pub fn repeat(rng: &mut Rng, terms: &mut Terms) {
    let entry =
        if rng.percent(70) { some_past(rng, terms) } else { rng.below(terms.entries.len()) };
    let place = rng.between(entry + 1, terms.entries.len());
    terms.put_in(place, &[terms.entries[entry]]);
    for policy in &mut terms.policies {
        if *policy == entry && rng.percent(50) {
            *policy = place;
        }
    }
}

/// Another operator or another field of one entry.
fn change_inside(rng: &mut Rng, terms: &mut Terms, entry: usize) {
    let old = terms.entries[entry];
    let (operator, mut fields) = old.parts();
    let field = rng.below(3);
    fields[field] = match OPERATORS[operator].fields[field] {
        Field::Unused => 0,
        Field::Variable => rng.below(3),
        Field::BoundVariable => rng.between(1, 2),
        Field::Label => rng.below(terms.labels()),
        Field::Entry => rng.below(entry),
        Field::Count => rng.between(1, 4),
    };
    terms.entries[entry] = match (old, rng.below(3)) {
        (Entry::Prev(f), 0) => Entry::Since(f, f),
        (Entry::Since(f, g), 0) => Entry::Since(g, f),
        (Entry::Since(f, g), 1) => Entry::Or(f, g),
        (Entry::Or(f, g), 0) => Entry::Since(f, g),
        (Entry::Not(f), 0) => Entry::Prev(f),
        (Entry::Out(l, f), 0) => Entry::In(l, f),
        _ => Entry::of_parts(operator, fields).unwrap_or(old),
    };
}

/// Two variables in each other's places, so that their order is the other one.
fn swap_variables(rng: &mut Rng, terms: &mut Terms) {
    let x = rng.between(1, 3);
    let y = rng.between(1, 15);
    for entry in &mut terms.entries {
        let (operator, mut fields) = entry.parts();
        for (field, kind) in fields.iter_mut().zip(OPERATORS[operator].fields) {
            *field = match kind {
                Field::Variable | Field::BoundVariable if *field == x => y,
                Field::Variable | Field::BoundVariable if *field == y => x,
                _ => *field,
            };
        }
        *entry = Entry::of_parts(operator, fields).unwrap_or(*entry);
    }
}

/// A past-time entry over those that are there, past-time ones among them;
/// perhaps a policy names it.
fn add_past(rng: &mut Rng, terms: &mut Terms) {
    let place = terms.entries.len();
    let operand = |rng: &mut Rng| match rng.percent(50) {
        true => some_past(rng, terms),
        false => rng.below(place),
    };
    let (f, g) = (operand(rng), operand(rng));
    let entry = if rng.percent(40) { Entry::Prev(f) } else { Entry::Since(f, g) };
    terms.put_in(place, &[entry]);
    if rng.percent(50) {
        let event = rng.below(terms.events);
        terms.policies[event] = place;
    }
}

fn effects(rng: &mut Rng, terms: &Terms) -> Vec<Effect> {
    let most = if terms.relations == 0 { 0 } else { MOST_EFFECTS };
    let effect = |rng: &mut Rng| Effect {
        add: rng.percent(60),
        relation: rng.below(terms.relations),
        back: rng.percent(35),
    };
    (0..rng.below(most + 1)).map(|_| effect(rng)).collect()
}

/// A revision of lent words, also where no accepted file yields them.
pub fn of_words(rng: &mut Rng, terms: &[u16]) -> Revision {
    let said = if terms.len() < TERMS_WORDS { None } else { memory::terms_of_words(terms) };
    let terms = said.unwrap_or_else(|| {
        let size = Size::small(rng);
        formulas::terms(rng, &size)
    });
    revision(rng, &terms)
}
