//! New terms while playing: what is carried over, what starts, what is refused
//! and what is left alone.
#![cfg(feature = "alloc")]

use cuckooormolu::{raw, Answer, Event, EventEdge, Member, Monitor, Refusal, Request, Terms};
use cuckooormolu::{STATE_WORDS, TERMS_WORDS};

/// Event 0 makes an edge, event 1 takes it away. Entry 2 holds where there has
/// been an edge; event 1 is for those.
const OLD: &str = "M 3\nL 1 2\nF 0 top 0 0\nF 1 out 0 0\nF 2 since 0 1\nP 0 0\nP 1 2\n\
                   E 0 add 0 fwd\nE 1 del 0 fwd\n";

/// Table 0 is a prev, table 1 the old entry 2 (event 0 is for those), and table
/// 2 holds where an edge has led to (event 1).
const NEW: &str = "M 3\nL 1 2\nF 0 top 0 0\nF 1 prev 0 0\nF 2 out 0 0\nF 3 since 0 2\n\
                   F 4 in 0 0\nF 5 since 0 4\nP 0 3\nP 1 5\n";

fn read(text: &str) -> Monitor {
    Monitor::read(text.replace(' ', "\t").as_bytes()).unwrap()
}

fn terms(text: &str) -> Terms {
    read(text).into_parts().0
}

fn asked(event: u8, from: u8, to: u8) -> Request {
    Request { event: Event(event), from: Member(from), to: Member(to) }
}

/// A monitor of a text, after requests that it grants.
fn after(text: &str, requests: &[Request]) -> Monitor {
    let mut monitor = read(text);
    for request in requests {
        assert_eq!(monitor.request(*request), Ok(Answer::Grant));
    }
    monitor
}

/// The members at which an entry without a free variable holds, by its table.
fn table(monitor: &Monitor, t: usize) -> Vec<Member> {
    let table = monitor.state().table(monitor.terms(), t).unwrap();
    assert_eq!(table.variables().len(), 0);
    table.holding().map(|holding| holding.at()).collect()
}

#[test]
fn relations_and_event_edge_are_carried_over() {
    let mut monitor = after(OLD, &[asked(0, 0, 1), asked(0, 2, 1)]);
    let before = monitor.state().clone();
    monitor.revise(&terms(NEW)).unwrap();
    assert_eq!(*monitor.terms(), terms(NEW));
    assert!(monitor.state().edges().eq(before.edges()));
    let edge = EventEdge { request: asked(0, 2, 1), answer: Answer::Grant };
    assert_eq!(monitor.state().event(), Some(edge));
}

#[test]
fn an_entry_at_another_place_takes_its_table_along() {
    let mut monitor = after(OLD, &[asked(0, 0, 1), asked(1, 0, 1), asked(0, 2, 1)]);
    let before = table(&monitor, 0);
    monitor.revise(&terms(NEW)).unwrap();
    assert_eq!(table(&monitor, 1), before);
    let answers = [0, 1, 2].map(|from| monitor.look(asked(0, from, 0)).unwrap());
    assert_eq!(answers, [Answer::Grant, Answer::Deny, Answer::Grant]);
}

#[test]
fn a_since_that_starts_is_what_its_second_operand_is() {
    let mut monitor = after(OLD, &[asked(0, 0, 2), asked(1, 0, 2), asked(0, 0, 1)]);
    monitor.revise(&terms(NEW)).unwrap();
    let answers = [0, 1, 2].map(|from| monitor.look(asked(1, from, 0)).unwrap());
    assert_eq!(answers, [Answer::Deny, Answer::Grant, Answer::Deny]);
}

#[test]
fn a_prev_that_starts_is_false_until_the_next_moment() {
    let mut monitor = after(OLD, &[asked(0, 0, 1)]);
    monitor.revise(&terms(NEW)).unwrap();
    assert_eq!(table(&monitor, 0).len(), 0);
    assert_eq!(monitor.request(asked(0, 0, 1)), Ok(Answer::Grant));
    assert_eq!(table(&monitor, 0).len(), 3);
}

/// Event 0 is for whoever has been granted event 1, event 1 for whoever has been
/// denied event 0.
const OF_EVENTS: &str = "M 3\nL 1 2\nF 0 top 0 0\nF 1 out 2 0\nF 2 since 0 1\nF 3 out 3 0\n\
                         F 4 since 0 3\nP 0 2\nP 1 4\n";

#[test]
fn the_event_edge_counts_where_an_entry_starts() {
    let mut monitor = after(OLD, &[asked(0, 0, 1), asked(1, 0, 1)]);
    monitor.revise(&terms(OF_EVENTS)).unwrap();
    assert_eq!(monitor.look(asked(0, 0, 0)), Ok(Answer::Grant));
    assert_eq!(monitor.look(asked(0, 1, 0)), Ok(Answer::Deny));
}

#[test]
fn so_does_that_of_a_denied_request() {
    let mut monitor = read("M 3\nL 1 2\nF 0 top 0 0\nF 1 not 0 0\nP 0 1\nP 1 0\nK 0\n");
    assert_eq!(monitor.request(asked(0, 2, 1)), Ok(Answer::Deny));
    monitor.revise(&terms(OF_EVENTS)).unwrap();
    let edge = EventEdge { request: asked(0, 2, 1), answer: Answer::Deny };
    assert_eq!(monitor.state().event(), Some(edge));
    assert_eq!(monitor.look(asked(1, 2, 0)), Ok(Answer::Grant));
    assert_eq!(monitor.look(asked(1, 1, 0)), Ok(Answer::Deny));
}

#[test]
fn the_same_terms_change_nothing() {
    let mut monitor = after(OLD, &[asked(0, 0, 1), asked(1, 0, 2)]);
    let before = monitor.clone();
    monitor.revise(&before.terms().clone()).unwrap();
    assert_eq!((monitor.terms(), monitor.state()), (before.terms(), before.state()));
}

#[test]
fn a_revised_monitor_is_stored_and_read() {
    let mut monitor = after(OLD, &[asked(0, 0, 1)]);
    monitor.revise(&terms(NEW)).unwrap();
    let later = Monitor::read(&monitor.store()).unwrap();
    assert_eq!((later.terms(), later.state()), (monitor.terms(), monitor.state()));
}

#[test]
fn terms_of_another_size_leave_the_monitor_as_it_was() {
    let mut monitor = after(OLD, &[asked(0, 0, 1)]);
    let before = monitor.clone();
    for size in ["M 4\nL 1 2", "M 2\nL 1 2", "M 3\nL 2 2", "M 3\nL 1 3"] {
        let policies = if size.ends_with('3') { "P 0 0\nP 1 0\nP 2 0\n" } else { "P 0 0\nP 1 0\n" };
        let other = terms(&format!("{size}\nF 0 top 0 0\n{policies}"));
        assert_eq!(monitor.revise(&other), Err(Refusal::OtherSize));
        assert_eq!((monitor.terms(), monitor.state()), (before.terms(), before.state()));
    }
    assert_eq!(monitor.request(asked(1, 0, 1)), Ok(Answer::Grant));
}

/// What is refused over lent memory, after a look that nothing was written.
fn refused(old: &[u16], present: &[u64], new: &[u16], words: usize) -> Refusal {
    let mut state = vec![7; words];
    let refusal = raw::revise(old, present, new, &mut state).unwrap_err();
    assert_eq!(state, vec![7; words]);
    refusal
}

#[test]
fn each_check_hides_those_after_it() {
    let (old, present) = after(OLD, &[asked(0, 0, 1)]).into_parts();
    let (old, present) = (*old.words(), *present.words());
    let other = *terms("M 4\nL 1 2\nF 0 top 0 0\nP 0 0\nP 1 0\n").words();
    let (bad, broken) = ([1; TERMS_WORDS], [9; STATE_WORDS]);
    assert_eq!(refused(&old, &present, &other, STATE_WORDS), Refusal::OtherSize);
    assert_eq!(refused(&old, &broken, &other, STATE_WORDS), Refusal::BadState);
    assert_eq!(refused(&bad, &broken, &other, STATE_WORDS), Refusal::BadTerms);
    assert_eq!(refused(&old, &broken, &bad, STATE_WORDS), Refusal::BadTerms);
    assert_eq!(refused(&bad[1..], &broken, &bad, STATE_WORDS), Refusal::TooShort);
    assert_eq!(refused(&bad, &broken[1..], &bad, STATE_WORDS), Refusal::TooShort);
    assert_eq!(refused(&bad, &broken, &bad[1..], STATE_WORDS), Refusal::TooShort);
    assert_eq!(refused(&bad, &broken, &bad, STATE_WORDS - 1), Refusal::TooShort);
    assert_eq!(refused(&[], &[], &[], 0), Refusal::TooShort);
}

#[test]
fn further_words_are_not_touched() {
    let (terms, state) = after(OLD, &[asked(0, 0, 1)]).into_parts();
    let longer = [&terms.words()[..], &[1]].concat();
    let present = [&state.words()[..], &[2]].concat();
    let mut second = vec![3; STATE_WORDS + 1];
    assert_eq!(raw::revise(&longer, &present, &longer, &mut second), Ok(()));
    assert_eq!((&second[..STATE_WORDS], second[STATE_WORDS]), (&state.words()[..], 3));
}
