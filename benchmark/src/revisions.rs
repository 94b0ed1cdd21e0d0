//! New terms while playing, at 64 members: what a revision takes beside an
//! opening of the new terms.

use crate::markdown::{self, Goal};
use crate::measure::{in_turn, timed, Batch};
use cuckooormolu::{raw, Monitor, STATE_WORDS};
use keeper::terms::{self, Entry, Terms};
use std::collections::BTreeSet;
use std::hint::black_box;
use std::time::Duration;

const MEMBERS: usize = 64;
/// Calls of one batch.
const CALLS: usize = 4;
/// The goal: a revision, in openings of the new terms.
const MOST: f64 = 3.0;

/// A chain of so many entries over every edge of a full relation, every eighth
/// of them a since, the others made by `other` of the entry below.
fn monitor(entries: usize, other: impl Fn(usize) -> Entry) -> Monitor {
    let entry = |n: usize| match n {
        0 => Entry::Top,
        n if n % 8 == 0 => Entry::Since(n - 1, n - 1),
        n => other(n - 1),
    };
    let edges: BTreeSet<_> =
        (0..MEMBERS).flat_map(|a| (0..MEMBERS).map(move |b| (0, a, b))).collect();
    let terms = Terms {
        members: MEMBERS,
        relations: 1,
        events: 1,
        entries: (0..entries).map(entry).collect(),
        policies: vec![0],
        kept: BTreeSet::new(),
        effects: vec![Vec::new()],
        edges,
    };
    Monitor::read(&terms::write(&terms, &terms.edges)).expect("the terms are accepted")
}

/// Prints a revision beside an opening, and gives the goal.
pub fn print() -> Vec<Goal> {
    markdown::table("Revisions", "At 64 members, least µs:", &["", "revision", "opening", "ratio"]);
    let worst = [
        row("9 entries, all carried over", &monitor(9, Entry::Not), &monitor(9, Entry::Not)),
        row("256 entries, all carried over", &monitor(256, Entry::Not), &monitor(256, Entry::Not)),
        row(
            "256 entries, all start",
            &monitor(256, Entry::Not),
            &monitor(256, |f| Entry::Out(0, f)),
        ),
    ]
    .into_iter()
    .fold(0.0, f64::max);
    vec![Goal::at_most(format!("a revision at most {MOST} times an opening"), worst, MOST)]
}

fn row(name: &str, old: &Monitor, new: &Monitor) -> f64 {
    let (mut second, mut opened) = (vec![0; STATE_WORDS], new.state().words().to_vec());
    let revision = || {
        let terms = (old.terms().words(), new.terms().words());
        let revised = raw::revise(terms.0, old.state().words(), terms.1, &mut second);
        assert!(revised.is_ok());
    };
    let opening = || assert!(raw::open(new.terms().words(), black_box(&mut opened)).is_ok());
    let times = in_turn(Duration::from_millis(900), 10, vec![batch(revision), batch(opening)]);
    let (revision, opening) = (times[0].least / 1000.0, times[1].least / 1000.0);
    let ratio = revision / opening;
    let [revision, opening] = [revision, opening].map(|time| format!("{time:.1}"));
    markdown::row(&[name.into(), revision, opening, format!("{ratio:.2}")]);
    ratio
}

fn batch<'a>(mut call: impl FnMut() + 'a) -> Batch<'a> {
    (CALLS, Box::new(move || timed(|| (0..CALLS).for_each(|_| call()))))
}
