//! Members renumbered: what a renumbering takes, its checks included, beside a plain
//! copy of the state, where it is sparse and where every word is full.

use crate::markdown::{self, Goal};
use crate::measure::{in_turn, timed, Batch};
use cuckooormolu::raw;
use keeper::renumber::renumbering;
use keeper::terms::memory::{
    state_words, terms_words, State, EVENT_WORD, FIRST_TABLE, STATE_WORDS,
};
use keeper::terms::{Bit, Entry, EventEdge, Past, Terms};
use std::collections::BTreeSet;
use std::hint::black_box;
use std::time::Duration;

const RELATIONS: usize = 16;
const TABLES: usize = 32;
/// Calls of one batch.
const CALLS: usize = 16;
/// The goals, in copies of the state.
const MOST_SPARSE: f64 = 10.0;
const MOST_FULL: f64 = 20.0;

/// Terms with as many relations and tables as there may be: with at most 16 members
/// tables of two variables, else of one.
fn terms(members: usize) -> Terms {
    let second = if members <= 16 { Entry::Var(2) } else { Entry::Top };
    let mut entries = vec![Entry::Top, Entry::Var(1), second];
    entries.extend([Entry::Since(2, 1); TABLES]);
    Terms {
        members,
        relations: RELATIONS,
        events: 1,
        entries,
        policies: vec![0],
        kept: BTreeSet::new(),
        effects: vec![Vec::new()],
        edges: BTreeSet::new(),
    }
}

/// A ring in one relation, a bit in each table, and an event edge.
fn sparse(terms: &Terms) -> Vec<u64> {
    let members = terms.members;
    let bit = |t: usize| match members {
        ..=16 => Bit::Triple(t % members, 3 * t % members, 5 * t % members),
        _ => Bit::Pair(t % members, 3 * t % members),
    };
    let tables = (0..TABLES).map(|t| BTreeSet::from([bit(t)])).collect();
    let past = Past { tables, event: Some(EventEdge::granted(0, 1, 2)) };
    let edges = (0..members).map(|m| (0, m, (m + 1) % members)).collect();
    state_words(&State { edges, past })
}

/// Every edge, every bit of each table, and an event edge.
fn full(terms: &Terms) -> Vec<u64> {
    let mut words = sparse(terms);
    for relation in 0..RELATIONS {
        words[64 * relation..][..terms.members].fill(u64::MAX >> (64 - terms.members));
    }
    words[FIRST_TABLE..EVENT_WORD].fill(u64::MAX);
    words
}

/// Prints renumberings beside copies, and gives the goals.
pub fn print() -> Vec<Goal> {
    markdown::table(
        "Renumberings",
        "16 relations and 32 tables, least µs, checks included, beside a copy of the state:",
        &["state", "renumbering", "checks", "copy", "times a copy"],
    );
    let (one, two) = (terms(64), terms(16));
    let sparse = row("64 members, sparse", &one, &sparse(&one)).max(row(
        "16 members, 32 tables of two variables, sparse",
        &two,
        &sparse(&two),
    ));
    let full = row("64 members, full", &one, &full(&one)).max(row(
        "16 members, 32 tables of two variables, full",
        &two,
        &full(&two),
    ));
    let goal = |(name, ratio, most)| {
        Goal::at_most(
            format!("renumbering a {name} state at most {most} times a copy"),
            ratio,
            most,
        )
    };
    [("sparse", sparse, MOST_SPARSE), ("full", full, MOST_FULL)].map(goal).into()
}

/// A renumbering in copies of the state.
fn row(name: &str, terms: &Terms, state: &[u64]) -> f64 {
    let terms = terms_words(terms);
    let members = usize::from(terms[0]);
    // 5 has no factor in common with the number of members.
    let numbers: Vec<u8> = (0..members).map(|m| ((5 * m + 3) % members) as u8).collect();
    let mut second = vec![0; STATE_WORDS];
    assert!(raw::renumber(&terms, state, &numbers, &mut second).is_ok());
    let wanted = renumbering(&terms, state, &numbers, STATE_WORDS).map(|left| left.state_words());
    assert_eq!(wanted.as_ref(), Ok(&second), "what the keeper says");
    let mut copied = vec![0; STATE_WORDS];
    let renumbered =
        || assert!(raw::renumber(&terms, black_box(state), &numbers, &mut second).is_ok());
    let checks = || assert!(raw::check(&terms, black_box(state)).is_ok());
    let copy = || black_box(&mut copied).copy_from_slice(black_box(state));
    let batches = vec![batch(renumbered), batch(checks), batch(copy)];
    let times = in_turn(Duration::from_millis(900), 10, batches);
    let [renumbered, checks, copy] = [0, 1, 2].map(|place: usize| times[place].least / 1000.0);
    let ratio = renumbered / copy;
    let cells = [renumbered, checks, copy, ratio].map(|number| format!("{number:.2}"));
    markdown::row(&[&[name.to_string()], &cells[..]].concat());
    ratio
}

fn batch<'a>(mut call: impl FnMut() + 'a) -> Batch<'a> {
    (CALLS, Box::new(move || timed(|| (0..CALLS).for_each(|_| call()))))
}
