//! Entries that see each moment: what it holds, and that it was made.

use super::Rng;
use crate::terms::{Entry, Terms, MOST_ENTRIES, MOST_PAIRED, MOST_PAST};

/// The most entries that one chain has.
const CHAIN: usize = 6;

/// Adds entries that look into the past of a label or of time itself, and gives
/// some to policies, as far as there is room.
pub fn wake(rng: &mut Rng, terms: &mut Terms) {
    for _ in 0..rng.between(1, 4) {
        if terms.entries.len() + CHAIN > MOST_ENTRIES {
            return;
        }
        let is_paired = terms.members <= MOST_PAIRED && rng.percent(30);
        let entry = if is_paired { paired(rng, terms) } else { chain(rng, terms) };
        if rng.percent(70) {
            let event = rng.below(terms.events);
            terms.policies[event] = entry;
        }
    }
}

/// A past-time entry over an edge, of which the target may be variable 0, or over
/// none; and perhaps a step more.
fn chain(rng: &mut Rng, terms: &mut Terms) -> usize {
    let top = push(terms, Entry::Top);
    let end = if rng.percent(60) { push(terms, Entry::Var(0)) } else { top };
    let is_relation = terms.relations > 0 && rng.percent(50);
    let label = rng.below(if is_relation { terms.relations } else { terms.labels() });
    let edge = match rng.below(10) {
        0 => top,
        1..=3 => push(terms, Entry::In(label, end)),
        _ => push(terms, Entry::Out(label, end)),
    };
    let no_edge = push(terms, Entry::Not(edge));
    if terms.past().len() >= MOST_PAST {
        return edge;
    }
    let past = [
        Entry::Prev(edge),
        Entry::Prev(no_edge),
        Entry::Since(top, edge),
        Entry::Since(no_edge, edge),
        Entry::Since(edge, no_edge),
    ];
    let past = push(terms, rng.pick(&past));
    let label = rng.below(terms.labels());
    let more = [Entry::Not(past), Entry::Out(label, past), Entry::In(label, past)];
    match rng.percent(40) {
        true => push(terms, rng.pick(&more)),
        false => past,
    }
}

/// A past-time entry over an edge between the target and whoever is bound around
/// it.
fn paired(rng: &mut Rng, terms: &mut Terms) -> usize {
    let top = push(terms, Entry::Top);
    if terms.past().len() >= MOST_PAST {
        return top;
    }
    let (x, label) = (rng.between(1, 15), rng.below(terms.labels()));
    let who = push(terms, Entry::Var(x));
    let edge = match rng.below(3) {
        0 => push(terms, Entry::In(label, who)),
        _ => push(terms, Entry::Out(label, who)),
    };
    let between = push(terms, Entry::At(0, edge));
    let past = [Entry::Prev(between), Entry::Since(top, between), Entry::Since(edge, between)];
    let past = push(terms, rng.pick(&past));
    push(terms, Entry::Bind(x, past))
}

pub fn push(terms: &mut Terms, entry: Entry) -> usize {
    terms.entries.push(entry);
    terms.entries.len() - 1
}
