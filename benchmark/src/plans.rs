//! Plans against a rival, all branches played to the end: 8 members, 4 events, 3 moves,
//! and a goal that is reached by the last; beside as many requests one by one. And the
//! stack of a plan.

use crate::chains::deep;
use crate::markdown::{self, Goal};
use crate::measure::{in_turn, timed, Batch};
use crate::stack::{touched, MOST as MOST_STACK};
use cuckooormolu::{raw, Event, Member, Monitor, Request, Ruling, PLAN_WORDS, SCRATCH_WORDS};
use keeper::terms::{self, Entry, Terms};
use std::collections::BTreeSet;
use std::time::Duration;

const MEMBERS: usize = 8;
const EVENTS: usize = 4;
/// What the rival has after a move, a pass among it.
const REPLIES: usize = EVENTS * MEMBERS + 1;
/// The requests of such a game: three levels of moves, and the replies between.
const REQUESTS: usize = 1 + (REPLIES - 1) + REPLIES + REPLIES * (REPLIES - 1) + REPLIES * REPLIES;
/// The goal, in ms.
const MOST: f64 = 15.0;

/// The entry that says that one has just done event 2.
const GOAL: usize = 1;

/// So many tables: one event done to whom variable 1 stands for, and not another since.
/// Whatever is asked is granted.
fn monitor(tables: usize) -> Monitor {
    let mut entries = vec![Entry::Top, Entry::Out(1 + 2, 0), Entry::Var(1)];
    for block in 0..tables {
        let first = entries.len();
        entries.extend([
            Entry::Out(1 + block % EVENTS, 2),
            Entry::Out(1 + (block + 1) % EVENTS, 2),
            Entry::Not(first + 1),
            Entry::Since(first + 2, first),
            Entry::In(0, first + 3),
            Entry::At(0, first + 4),
            Entry::Bind(1, first + 5),
        ]);
    }
    let edges: BTreeSet<_> = (0..MEMBERS).map(|m| (0, m, (m + 1) % MEMBERS)).collect();
    let terms = Terms {
        members: MEMBERS,
        relations: 1,
        events: EVENTS,
        policies: vec![0; EVENTS],
        entries,
        kept: BTreeSet::new(),
        effects: vec![Vec::new(); EVENTS],
        edges,
    };
    Monitor::read(&terms::write(&terms, &terms.edges)).expect("the terms are accepted")
}

/// A plan of three moves for an entry.
fn planned(moves: &[u64; 6], goal: usize) -> raw::Plan<'_> {
    raw::Plan { moves, planner: 0, rival: 1, goal, pair: (0, 1) }
}

/// Prints the time of such a plan, and gives its goals, that of its stack too.
pub fn print() -> Vec<Goal> {
    markdown::table(
        "Plans",
        "A plan of 3 moves, 8 members and 4 events, played to the end, least ms:",
        &["", "plan", "its requests alone", "ratio"],
    );
    let least = [1, 32].map(|tables| row(&monitor(tables), tables));
    vec![Goal::at_most(format!("a plan over 32 tables at most {MOST} ms"), least[1], MOST), stack()]
}

fn row(monitor: &Monitor, tables: usize) -> f64 {
    let entries = monitor.terms().entries().len();
    let goal = planned(&[0, 1, 1, 2, 2, 3], GOAL);
    let mut game = vec![0; PLAN_WORDS];
    let mut play = || {
        let (terms, state) = (monitor.terms().words(), monitor.state().words());
        assert_eq!(raw::plan(terms, state, &mut game, goal), Ok(Ruling::Accepted));
    };
    let mut single = monitor.clone();
    let mut ask = || {
        for n in 0..REQUESTS {
            let [event, from, to] = [n % EVENTS, n % 2, n % MEMBERS].map(|n| n as u8);
            let request = Request { event: Event(event), from: Member(from), to: Member(to) };
            assert!(single.request(request).is_ok_and(|answer| answer.is_grant()));
        }
    };
    let batches: Vec<Batch> =
        vec![(1, Box::new(|| timed(&mut play))), (1, Box::new(|| timed(&mut ask)))];
    let times = in_turn(Duration::from_millis(900), 10, batches);
    let [plan, requests] = [0, 1].map(|place| times[place].least / 1e6);
    let name = format!("{entries} entries, {tables} tables");
    let cells = [plan, requests, plan / requests].map(|number| format!("{number:.2}"));
    markdown::row(&[&[name], &cells[..]].concat());
    plan
}

/// The most stack of a plan under the deepest terms, with 8 members, beside a request.
fn stack() -> Goal {
    let bare = touched(Box::new(|| ()));
    let mut most = [0; 2];
    for (_, text) in deep() {
        let monitor = Monitor::read(&small(&text)).expect("the terms are accepted");
        let (terms, mut state) = (monitor.terms().words(), *monitor.state().words());
        let policy = monitor.terms().policy(Event(1)).expect("there is event 1");
        let goal = planned(&[0, 1, 1, 3, 0, 2], policy);
        let mut game = vec![0; PLAN_WORDS];
        let played =
            touched(Box::new(|| assert!(raw::plan(terms, &state, &mut game, goal).is_ok())));
        let (mut scratch, request) =
            ([0; SCRATCH_WORDS], raw::Request { event: 1, from: 0, to: 1 });
        let requested = touched(Box::new(|| {
            assert!(raw::request(terms, &mut state, &mut scratch, request).is_ok());
        }));
        most = [most[0].max(played - bare), most[1].max(requested - bare)];
    }
    let [plan, request] = most.map(|bytes| bytes as f64 / 1024.0);
    let text = format!("stack of a plan at most {} KiB", MOST_STACK >> 10);
    Goal::new(text, format!("{plan:.1}, of a request {request:.1}"), most[0] <= MOST_STACK)
}

/// The same terms with 8 members.
fn small(text: &[u8]) -> Vec<u8> {
    let text = std::str::from_utf8(text).expect("a text");
    let kept = text.lines().filter_map(|line| match line.split('\t').collect::<Vec<_>>()[..] {
        ["M", _] => Some(format!("M\t{MEMBERS}\n")),
        ["G", _, from, to] if from.len().max(to.len()) > 1 || from >= "8" || to >= "8" => None,
        _ => Some(format!("{line}\n")),
    });
    kept.collect::<String>().into_bytes()
}
