//! Tables of two variables, at 16 members: 32 of them, beside 32 of one.

use crate::markdown::{self, Goal};
use crate::measure::{in_turn, timed, Batch};
use cuckooormolu::{Event, Member, Monitor, Request};
use keeper::terms::{self, Entry, Terms};
use std::collections::BTreeSet;
use std::hint::black_box;
use std::time::Duration;

const MEMBERS: usize = 16;
const TABLES: usize = 32;
/// Calls of one batch.
const CALLS: usize = 16;
/// The goal: a request that makes a moment, in µs.
const MOST: f64 = 200.0;

/// Relation 0, and the labels of the two events.
const KNOWS: usize = 0;
const SHARED: usize = 1;
const WITHDRAWN: usize = 2;

/// 32 sinces: shared by whom variable x stands for with whom y stands for, and
/// not withdrawn since. With one variable it is by whoever is asked about.
fn monitor(two: bool) -> Monitor {
    let mut entries = vec![Entry::Top];
    for block in 0..TABLES {
        let (x, y) = (1 + block % 7, 8 + block % 8);
        let first = entries.len();
        let by = |f| if two { Entry::At(x, f) } else { Entry::Or(f, f) };
        entries.extend([
            Entry::Var(y),
            Entry::Out(SHARED, first),
            by(first + 1),
            Entry::Out(WITHDRAWN, first),
            by(first + 3),
            Entry::Not(first + 4),
            Entry::Since(first + 5, first + 2),
        ]);
    }
    // Of the last: the asker knows someone who has shared with the asker.
    let since = entries.len() - 1;
    let (x, y) = (1 + (TABLES - 1) % 7, 8 + (TABLES - 1) % 8);
    let first = entries.len();
    entries.extend([Entry::Bind(x, since), Entry::Out(KNOWS, first), Entry::Bind(y, first + 1)]);
    let edges: BTreeSet<_> = (0..MEMBERS).map(|m| (KNOWS, m, (m + 1) % MEMBERS)).collect();
    let terms = Terms {
        members: MEMBERS,
        relations: 1,
        events: 3,
        policies: vec![0, 0, entries.len() - 1],
        entries,
        kept: BTreeSet::new(),
        effects: vec![Vec::new(); 3],
        edges,
    };
    Monitor::read(&terms::write(&terms, &terms.edges)).expect("the terms are accepted")
}

/// Prints a request and a look on both, and gives the goal.
pub fn print() -> Vec<Goal> {
    markdown::table(
        "Tables of two variables",
        "32 tables at 16 members, least µs:",
        &["", "two variables", "one", "ratio"],
    );
    let (two, one) = (monitor(true), monitor(false));
    let request = row("a request, granted", &two, &one, |monitor, n| {
        let request = Request { event: Event((n % 4 / 3) as u8), ..between(n) };
        assert!(monitor.request(request).is_ok_and(|answer| answer.is_grant()));
    });
    row("a look", &two, &one, |monitor, n| {
        _ = black_box(monitor.look(Request { event: Event(2), ..between(n) }));
    });
    let text = format!("a request with {TABLES} tables of two variables at most {MOST} µs");
    vec![Goal::at_most(text, request, MOST)]
}

fn between(n: usize) -> Request {
    let member = |n: usize| Member((n % MEMBERS) as u8);
    Request { event: Event(0), from: member(5 * n), to: member(3 * n + 1) }
}

/// The least time of a call with two variables, in µs.
fn row(name: &str, two: &Monitor, one: &Monitor, call: fn(&mut Monitor, usize)) -> f64 {
    let batch = |monitor: &Monitor| -> Batch {
        let (mut monitor, mut n) = (monitor.clone(), 0);
        let mut next = move || {
            n += 1;
            call(&mut monitor, n);
        };
        (CALLS, Box::new(move || timed(|| (0..CALLS).for_each(|_| next()))))
    };
    let times = in_turn(Duration::from_millis(900), 10, vec![batch(two), batch(one)]);
    let (two, one) = (times[0].least / 1000.0, times[1].least / 1000.0);
    let cells = [format!("{two:.1}"), format!("{one:.1}"), format!("{:.2}", two / one)];
    markdown::row(&[&[name.to_string()], &cells[..]].concat());
    two
}
