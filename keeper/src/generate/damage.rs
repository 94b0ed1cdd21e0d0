//! Damaged texts: each refusal of reading, at varied lines.

use super::{formulas, kept, lines, stored, Rng, Size};
use crate::terms::{Effect, Entry, File, Terms, MOST_ENTRIES, MOST_PAST};

/// A text of either form with one damage, now and then two.
pub fn text(rng: &mut Rng) -> Vec<u8> {
    let size = match rng.below(100) {
        0..=3 => Size::large(rng),
        4..=8 => Size::paired(rng),
        _ => Size::small(rng),
    };
    let mut file = File { terms: formulas::terms(rng, &size), past: None };
    if rng.percent(40) {
        file = stored::file(rng, &file.terms);
    }
    let stored = file.past.is_some();
    let kind = rng.below(10);
    if kind < 2 && stored {
        stored::partly_fill(rng, &mut file);
    } else if kind < 4 {
        damage_terms(rng, &mut file.terms);
    }
    let mut text = file.text();
    if rng.below(6) == 0 {
        lines::pad(rng, &mut text);
    }
    if kind >= 4 || rng.percent(20) {
        match rng.below(4) {
            _ if stored && rng.percent(50) => stored::damage(rng, &file.terms, &mut text),
            _ if rng.percent(15) => kept::damage(rng, &file.terms, &mut text),
            0 | 1 => lines::damage_field(rng, &file.terms, &mut text),
            2 if rng.percent(15) => lines::damage_long(rng, &mut text),
            2 => lines::damage_line(rng, &mut text),
            _ => lines::damage_byte(rng, &mut text),
        }
    }
    text
}

/// Breaks a rule of the terms themselves.
fn damage_terms(rng: &mut Rng, terms: &mut Terms) {
    let place = rng.below(terms.entries.len() + 1);
    match rng.below(18) {
        15 | 16 => bad_count(rng, terms, place),
        0 | 1 => operand_not_lower(rng, terms, place),
        2 | 3 | 17 => too_many_free(rng, terms, place),
        4 | 5 => free_policy(rng, terms, place),
        12..=14 => bad_reach(rng, terms, place),
        6 => too_many_past(rng, terms),
        7 => too_many_entries(rng, terms),
        8 => too_many_effects(rng, terms),
        9 => head(rng, terms),
        10 => bad_number(rng, terms, place),
        _ => bad_place(rng, terms),
    }
}

fn operand_not_lower(rng: &mut Rng, terms: &mut Terms, place: usize) {
    let high = rng.pick(&[place, place, place + 1, place + 7, 255, 256, 65_535, 65_536, 99_999]);
    let high = high.max(place);
    let low = rng.below(place.max(1));
    let entry = match rng.below(12) {
        11 => Entry::Many(0, high, rng.below(66)),
        0 => Entry::Not(high),
        1 => Entry::Or(low, high),
        2 => Entry::Or(high, low),
        3 => Entry::Out(0, high),
        4 => Entry::In(0, high),
        5 => Entry::Prev(high),
        6 => Entry::Since(low, high),
        7 => Entry::Bind(rng.between(1, 15), high),
        8 => Entry::Reach(rng.below(16), low, high),
        9 => Entry::Reach(rng.below(16), high, low),
        _ => Entry::At(rng.below(16), high),
    };
    terms.put_in(place, &[entry]);
}

/// A past-time entry with three free variables, or with two of more members than
/// that may be; or one that just has not.
fn too_many_free(rng: &mut Rng, terms: &mut Terms, place: usize) {
    let x = rng.below(16);
    let y = if rng.percent(80) { (x + rng.between(1, 15)) % 16 } else { x };
    let (first, second) = (Entry::Var(x), Entry::Var(y));
    let mut new = vec![first, second];
    if rng.percent(50) {
        // A third variable takes the place of the first.
        let z = if rng.percent(80) { (y + rng.between(1, 15)) % 16 } else { y };
        let third = [Entry::At(z, place), Entry::Var(z)];
        new.extend([rng.pick(&third), Entry::Or(place, place + 2)]);
    } else {
        terms.members = terms.members.max(rng.pick(&[1, 16, 17, 17, 17, 18, 64]));
    }
    let end = place + new.len();
    let f = if new.len() == 2 { place } else { end - 1 };
    new.extend(match rng.below(5) {
        0 => vec![Entry::Since(f, place + 1)],
        1 => vec![Entry::Since(place + 1, f)],
        2 => vec![Entry::At(y, f), Entry::Prev(end)],
        3 => vec![Entry::Or(f, place + 1), Entry::Prev(end)],
        _ => {
            // Bound, or not, before it is looked back on.
            let bound = if rng.percent(50) { y.max(1) } else { rng.between(1, 15) };
            vec![Entry::Or(f, place + 1), Entry::Bind(bound, end), Entry::Since(f, end + 1)]
        }
    });
    terms.put_in(place, &new);
}

fn free_policy(rng: &mut Rng, terms: &mut Terms, place: usize) {
    let x = rng.between(1, 15);
    let new = match rng.below(4) {
        0 => vec![Entry::Var(x)],
        1 => vec![Entry::Var(0), Entry::At(x, place)],
        2 => vec![Entry::Var(x), Entry::Prev(place)],
        _ => vec![Entry::Var(x), Entry::Bind(rng.between(1, 15), place)],
    };
    terms.put_in(place, &new);
    let event = rng.below(terms.policies.len());
    terms.policies[event] = place + new.len() - 1;
}

/// A reach that binds variable 0, whose first formula has another variable
/// free, or whose second has the bound one free; or one that just does not.
fn bad_reach(rng: &mut Rng, terms: &mut Terms, place: usize) {
    let x = rng.below(4);
    let y = if rng.percent(50) { x } else { rng.below(16) };
    let (first, second) = (Entry::Var(x), Entry::Var(y));
    let new = match rng.below(6) {
        0 => vec![first, second, Entry::Reach(x, place, place + 1)],
        1 => vec![first, second, Entry::Reach(x, place + 1, place)],
        2 => vec![first, Entry::Top, Entry::Reach(y, place, place + 1)],
        3 => vec![first, Entry::Out(0, place), Entry::Reach(y, place + 1, place)],
        4 => vec![first, Entry::At(y, place), Entry::Top, Entry::Reach(x, place + 1, place + 2)],
        _ => {
            // A since over it: then 4 may come before 10.
            let (or, at) = (Entry::Or(place, place + 1), Entry::At(rng.below(16), place + 2));
            let since = Entry::Since(place, place + 3);
            vec![first, second, or, at, since, Entry::Reach(x, place, place)]
        }
    };
    terms.put_in(place, &new);
}

/// A many that asks for too few or too many, or for just as many as may be.
fn bad_count(rng: &mut Rng, terms: &mut Terms, place: usize) {
    let labels = terms.labels();
    let label = if rng.percent(80) { rng.below(labels) } else { labels };
    let count = rng.pick(&[0, 0, 1, 63, 64, 65, 65, 66, 256, 65_536, 99_999]);
    terms.put_in(place, &[Entry::Top, Entry::Many(label, place, count)]);
}

fn too_many_past(rng: &mut Rng, terms: &mut Terms) {
    let wanted = rng.pick(&[MOST_PAST, MOST_PAST + 1, MOST_PAST + 1, MOST_PAST + 2]);
    let past = |rng: &mut Rng, f| {
        if rng.percent(50) {
            Entry::Prev(f)
        } else {
            Entry::Since(f, 0)
        }
    };
    if terms.free()[0].count_ones() > 1 {
        return;
    }
    while terms.past().len() < wanted {
        let entry = past(rng, 0);
        terms.entries.push(entry);
    }
}

fn too_many_entries(rng: &mut Rng, terms: &mut Terms) {
    let wanted = rng.pick(&[MOST_ENTRIES, MOST_ENTRIES + 1, MOST_ENTRIES + 1, MOST_ENTRIES + 2]);
    while terms.entries.len() < wanted {
        let entry = if rng.percent(50) { Entry::Top } else { Entry::Not(0) };
        terms.entries.push(entry);
    }
}

fn too_many_effects(rng: &mut Rng, terms: &mut Terms) {
    let event = rng.below(terms.events);
    let wanted = rng.between(4, 6);
    while terms.effects[event].len() < wanted {
        let relation = rng.below(terms.relations);
        let effect = Effect { add: rng.percent(50), relation, back: rng.percent(50) };
        terms.effects[event].push(effect);
    }
}

fn head(rng: &mut Rng, terms: &mut Terms) {
    match rng.below(3) {
        0 => terms.members = rng.pick(&[0, 1, 2, 63, 64, 65, 66, 99_999]),
        1 => terms.relations = rng.pick(&[0, 1, 15, 16, 17, 18, 99_999]),
        _ => terms.events = rng.pick(&[0, 1, 2, 15, 16, 17, 99_999]),
    }
}

/// An entry with a variable or a label out of range, or at its last value.
fn bad_number(rng: &mut Rng, terms: &mut Terms, place: usize) {
    let variable = rng.pick(&[0, 14, 15, 16, 17, 99_999]);
    let labels = terms.labels();
    let label = rng.pick(&[labels - 1, labels, labels + 1, 31, 32, 33, 47, 48, 49, 99_999]);
    let f = if rng.percent(70) { place } else { place + 1 };
    let entry = match rng.below(6) {
        0 => Entry::Var(variable),
        5 => Entry::Reach(variable, f, f),
        1 => Entry::Bind(variable, f),
        2 => Entry::At(variable, f),
        3 => Entry::Out(label, f),
        _ => Entry::In(label, f),
    };
    terms.put_in(place, &[Entry::Top, entry]);
}

/// A policy, effect or edge that names what does not exist.
fn bad_place(rng: &mut Rng, terms: &mut Terms) {
    let event = rng.below(terms.events);
    let far = rng.pick(&[0, 1, 16, 17, 64, 99_999]);
    let relation = rng.pick(&[terms.relations, terms.relations + 1, far]);
    let member = rng.pick(&[terms.members - 1, terms.members, terms.members + 1, far]);
    match rng.below(4) {
        0 => {
            let count = terms.entries.len();
            terms.policies[event] = rng.pick(&[count, count + 1, 255, 256, 99_999]);
        }
        1 => terms.effects[event].push(Effect { add: true, relation, back: rng.percent(50) }),
        2 => {
            terms.edges.insert((rng.below(terms.relations), member, rng.below(terms.members)));
        }
        _ => {
            terms.edges.insert((relation, rng.below(terms.members), member));
        }
    }
}
