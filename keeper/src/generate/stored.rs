//! Stored files, and damage to the lines that only the stored form has.

use super::lines::{join, line, places, some, split, Lines};
use super::{calls, Rng};
use crate::record::Record;
use crate::terms::{Bit, Entry, EventEdge, File, Past, Tables, Terms, MOST_EVENTS, MOST_PAST};
use std::collections::BTreeSet;

/// A stored file of sound terms: that of a record after some calls, or one
/// whose tables are drawn and, mostly, true of no record.
pub fn file(rng: &mut Rng, terms: &Terms) -> File {
    if rng.percent(50) {
        let mut record = Record::new(terms.clone());
        let count = rng.below(9);
        for call in calls(rng, terms, count, 99_999) {
            record.answer(&call);
        }
        return File::stored(terms, &record.state());
    }
    File { terms: terms.clone(), past: Some(drawn(rng, terms)) }
}

/// What had passed, drawn within the layout.
pub fn drawn(rng: &mut Rng, terms: &Terms) -> Past {
    Past { tables: drawn_tables(rng, terms), event: drawn_event(rng, terms) }
}

/// Tables within the layout: without a free variable a word is full or empty.
fn drawn_tables(rng: &mut Rng, terms: &Terms) -> Tables {
    let free = terms.free();
    let mut table = |entry: usize| {
        let share = rng.pick(&[0, 3, 30, 70, 100]);
        let closed = free[entry] == 0;
        let mut full = false;
        let mut bits = Bit::all(terms.members, free[entry]);
        bits.retain(|bit| {
            if !closed || bit.place().1 == 0 {
                full = rng.percent(share);
            }
            full
        });
        bits.into_iter().collect()
    };
    terms.past().into_iter().map(&mut table).collect()
}

/// No event, a granted one, or a denied one of an event that is kept or not.
fn drawn_event(rng: &mut Rng, terms: &Terms) -> Option<EventEdge> {
    let [from, to] = [rng.below(terms.members), rng.below(terms.members)];
    let event = rng.below(terms.events);
    match rng.below(10) {
        0..=3 => None,
        4..=6 => Some(EventEdge::granted(event, from, to)),
        _ => Some(EventEdge::denied(event, from, to)),
    }
}

/// Takes some bits, and not all, from a word of a table without a free
/// variable; where there is no such table, one is put in.
pub fn partly_fill(rng: &mut Rng, file: &mut File) {
    let File { terms, past: Some(Past { tables, .. }) } = file else { return };
    let (free, past) = (terms.free(), terms.past());
    let closed: Vec<usize> = (0..past.len()).filter(|&t| free[past[t]] == 0).collect();
    let t = match &closed[..] {
        [] if past.len() == MOST_PAST => return,
        [] => {
            let place = terms.entries.len();
            terms.put_in(place, &[Entry::Top, Entry::Prev(place)]);
            tables.push(BTreeSet::new());
            past.len()
        }
        some => rng.pick(some),
    };
    for _ in 0..if rng.percent(80) { 1 } else { 2 } {
        let a = rng.below(terms.members);
        let left = rng.below(terms.members);
        tables[t].retain(|bit| bit.parts().0 != a);
        let kept = (0..terms.members).filter(|&b| b != left && rng.percent(60));
        tables[t].extend(kept.map(|b| Bit::Pair(a, b)));
    }
}

/// Damages what only the stored form has: its first line, the order and number
/// of its T and V lines, or what these name.
pub fn damage(rng: &mut Rng, terms: &Terms, text: &mut Vec<u8>) {
    let mut lines = split(text);
    let count = lines.len();
    let bits = places(&lines, b"T");
    let events = places(&lines, b"V");
    match rng.below(18) {
        0 => lines[0] = line("S", &[rng.pick(&[0, 1, 2, 3, 20, 22, 99_999])]),
        1 => {
            lines.remove(0);
        }
        2 => {
            let first = lines.remove(0);
            lines.insert(rng.below(count), first);
        }
        3 => lines.insert(rng.below(count + 1), line("S", &[2])),
        4 => {
            let (one, other) = (some(rng, &bits, count), some(rng, &bits, count));
            lines.swap(one, other);
        }
        5 => {
            let place = some(rng, &bits, count);
            lines.insert(place, lines[place].clone());
        }
        6 => {
            // A T line elsewhere: among the old lines, or after the V line.
            let bit = lines.remove(some(rng, &bits, count));
            lines.insert(rng.below(count), bit);
        }
        7 => {
            let bit = line("T", &bit(rng, terms, &lines));
            lines.insert(rng.below(count + 1), bit);
        }
        8 => {
            let place = some(rng, &bits, count);
            lines[place] = line("T", &bit(rng, terms, &lines));
        }
        9 => {
            let place = if rng.percent(70) { count } else { some(rng, &events, count) };
            lines.insert(place, line("V", &event(rng, terms)));
        }
        10 => {
            let place = some(rng, &events, count);
            lines[place] = line("V", &event(rng, terms));
        }
        11 => {
            // Neighbours in the other order.
            let place = some(rng, &bits, count);
            lines.swap(place, (place + 1).min(count - 1));
        }
        12..=15 => {
            // Another number in one field.
            let place = long(rng, &lines, &bits);
            let field = rng.between(1, lines[place].len().max(2) - 1);
            let bound = if field == 1 { terms.past().len() } else { terms.members };
            let number = if rng.percent(50) { bound } else { near(rng, bound) };
            let number = number.to_string().into_bytes();
            match lines[place].get_mut(field) {
                Some(field) => *field = number,
                None => lines[place].push(number),
            }
        }
        16 => {
            // A field more, or less.
            let place = long(rng, &lines, &bits);
            if rng.percent(50) {
                lines[place].pop();
            } else {
                lines[place].push(rng.below(terms.members).to_string().into_bytes());
            }
        }
        _ => {
            let after = [("G", [0, 0, 0]), ("T", [0, 0, 0]), ("V", [0, 0, 0])];
            let (kind, numbers) = rng.pick(&after);
            lines.push(line(kind, &numbers));
        }
    }
    *text = join(&lines);
}

/// The place of a T line, mostly of one with three members where there is any; or
/// of any line.
fn long(rng: &mut Rng, lines: &Lines, bits: &[usize]) -> usize {
    let long: Vec<usize> = bits.iter().copied().filter(|&place| lines[place].len() == 5).collect();
    let chosen = if long.is_empty() || rng.percent(20) { bits } else { &long };
    some(rng, chosen, lines.len())
}

/// A number below a bound, at it, or far.
fn near(rng: &mut Rng, bound: usize) -> usize {
    match rng.below(10) {
        0 => bound,
        1 => rng.pick(&[bound + 1, 15, 16, 31, 32, 63, 64, 65, 99_999]),
        _ => rng.below(bound),
    }
}

/// What a T line names, mostly with as many members as other lines of its table.
fn bit(rng: &mut Rng, terms: &Terms, lines: &Lines) -> Vec<usize> {
    let t = near(rng, terms.past().len());
    let first = line("T", &[t]);
    let is_triple = lines.iter().any(|line| line.starts_with(&first) && line.len() == 5);
    let is_triple = is_triple != rng.percent(8);
    let members = (0..if is_triple { 3 } else { 2 }).map(|_| near(rng, terms.members));
    std::iter::once(t).chain(members).collect()
}

/// What a V line names. Of an event the numbers below 16 are grants, those from
/// 16 on denials.
fn event(rng: &mut Rng, terms: &Terms) -> [usize; 3] {
    let first = if rng.percent(50) { MOST_EVENTS } else { 0 };
    [first + near(rng, terms.events), near(rng, terms.members), near(rng, terms.members)]
}
