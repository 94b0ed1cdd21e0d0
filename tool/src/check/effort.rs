//! How much a request may work out by some terms, and which part of them causes it
//! where that is much.
//!
//! The bound is the library's. A part that speaks of three or more members who are sought,
//! each found at the far end of an edge, is worked out for each way to choose them; a
//! variable that is bound at the initiator or the target stands for one.

use super::warnings::{About, Subject, Warning};
use crate::words::grouped;
use keeper::terms::memory::terms_words;
use keeper::terms::{Entry, Terms, Variables};
use std::collections::HashSet;

/// The word for programs of a warning of much effort.
pub const KIND: &str = "long";
/// More rows than this are warned of.
const MANY: usize = 300_000;
/// More rows than this are told of before anything is worked out: some 2 s, and more for the
/// keeper.
const LENGTHY: usize = 30_000_000;
/// So many people sought one inside the other are what takes long.
const NESTED: usize = 3;
/// So many rows are worked out in a millisecond: docs/PERFORMANCE.md, Shared entries.
const A_MILLISECOND: usize = 15_000;
/// So many ways to work out one entry are too many for trying requests.
const MANY_WAYS: usize = 200_000;
/// So many places of the walk are looked at.
const MOST_PLACES: usize = 100_000;

/// What a request may work out, with the time that this takes on a computer of today:
/// `at most 1,204 rows: well under a millisecond`.
pub fn told(rows: usize) -> String {
    if rows >= proved::MOST_EFFORT {
        return format!("{} rows or more: it may take minutes", grouped(proved::MOST_EFFORT));
    }
    if rows == 0 {
        return "nothing".to_string();
    }
    let time = match rows.div_ceil(A_MILLISECOND) {
        0 | 1 if rows <= A_MILLISECOND / 10 => "well under a millisecond".to_string(),
        0 | 1 => "under a millisecond".to_string(),
        ms @ 2..1_000 => format!("some {ms} ms"),
        ms => format!("some {} s", ms.div_ceil(1_000)),
    };
    format!("at most {} row{}: {time}", grouped(rows), if rows == 1 { "" } else { "s" })
}

/// What a request may work out by the terms of a text, if that is so much that nothing
/// should be worked out before it is told. It is asked of the terms alone.
pub fn lengthy(text: &[u8]) -> Option<usize> {
    let terms = keeper::terms::read(text).ok()?.terms;
    Some(proved::raw::effort(&terms_words(&terms))).filter(|&rows| is_lengthy(rows))
}

/// Whether so many rows are so much.
pub fn is_lengthy(rows: usize) -> bool {
    rows > LENGTHY
}

/// A warning for what takes longest, if a request may take long.
pub fn long(subject: &Subject, rows: usize) -> Option<Warning> {
    if rows <= MANY {
        return None;
    }
    let Deepest { entry, people, .. } = deepest(subject.terms);
    let (rows, nested) = (told(rows), people >= NESTED);
    let about = match nested {
        true => About::Entry(entry),
        false => About::Policy(heaviest(subject.terms)),
    };
    let told = |part: String| {
        match nested {
        true => (
            format!(
                "a request works out {rows}; {part} speaks of {people} members who are sought one inside the other, \
                 and every way to choose them is tried"
            ),
            "let a part speak of at most two of those who are sought, or have fewer members".to_string(),
        ),
        false => (
            format!("a request works out {rows}, most of them for this policy or for what it remembers"),
            "seek fewer members one inside the other, or have fewer members".to_string(),
        ),
    }
    };
    Some(subject.warn(KIND, about, || told(format!("entry {entry}")), || told("this".to_string())))
}

/// The event whose policy may take longest.
fn heaviest(terms: &Terms) -> usize {
    let alone = |event: &usize| {
        // The first entry has no operands, so that the other policies take nothing.
        let mut policies = vec![0; terms.events];
        policies[*event] = terms.policies[*event];
        proved::raw::effort(&terms_words(&Terms { policies, ..terms.clone() }))
    };
    (0..terms.events).rev().max_by_key(alone).unwrap_or(0)
}

/// Whether requests can be tried in a short time: the keeper, which has no memo, decides each.
pub fn is_quick(terms: &Terms) -> bool {
    ways(terms.members, deepest(terms).depth) <= MANY_WAYS
}

fn ways(members: usize, depth: usize) -> usize {
    members.saturating_pow(depth as u32)
}

/// About how much there is to work out for a request, all entries together.
pub fn work(terms: &Terms) -> usize {
    let most = ways(terms.members, deepest(terms).depth.max(2));
    terms.entries.len().saturating_mul(most)
}

/// Where most people are spoken of who were sought: found at the far end of an edge.
#[derive(Default)]
struct Deepest {
    entry: usize,
    /// Those who are free in it, and the member at whom it stands.
    people: usize,
    /// The most that are free in any entry.
    depth: usize,
}

/// An entry at a member.
#[derive(Clone, Copy, PartialEq, Eq, Hash)]
struct Place {
    entry: usize,
    /// The variables that stand for members who were sought.
    sought: Variables,
    /// Whether the member was sought, too, and the variables that stand for it.
    away: bool,
    own: Variables,
}

fn deepest(terms: &Terms) -> Deepest {
    let free = terms.free();
    let mut seen: HashSet<Place> = HashSet::new();
    let first = |&entry: &usize| Place { entry, sought: 0, away: false, own: 0 };
    let mut waiting: Vec<Place> = terms.policies.iter().map(first).collect();
    let mut deepest = Deepest::default();
    while let Some(place) = waiting.pop() {
        if seen.len() > MOST_PLACES || !seen.insert(place) {
            continue;
        }
        let Place { entry, sought, away, own } = place;
        let depth = (free[entry] & sought).count_ones() as usize;
        let people = depth + usize::from(away && free[entry] & own == 0);
        deepest.depth = deepest.depth.max(depth);
        if people > deepest.people {
            (deepest.entry, deepest.people) = (entry, people);
        }
        match terms.entries[entry] {
            Entry::Out(_, f) | Entry::In(_, f) | Entry::Many(_, f, _) => {
                waiting.push(Place { entry: f, sought, away: true, own: 0 });
            }
            Entry::Bind(x, f) => {
                let sought = sought & !(1 << x) | Variables::from(away) << x;
                waiting.push(Place { entry: f, sought, away, own: own | 1 << x });
            }
            Entry::At(x, f) => {
                let away = sought >> x & 1 == 1;
                waiting.push(Place { entry: f, sought, away, own: 1 << x });
            }
            // Its first operand is worked out for every member.
            Entry::Reach(x, f, g) => {
                waiting.push(Place { entry: f, sought: 1 << x, away, own: 0 });
                waiting.push(Place { entry: g, sought, away: true, own: 0 });
            }
            // A table has every member for here and for its free variables.
            Entry::Prev(_) | Entry::Since(_, _) => {
                let all = |f| Place { entry: f, sought: free[entry], away: true, own: 0 };
                waiting.extend(terms.entries[entry].operands().into_iter().map(all));
            }
            other => {
                let same = |f| Place { entry: f, ..place };
                waiting.extend(other.operands().into_iter().map(same));
            }
        }
    }
    deepest
}
