//! Kept denials: what they leave in the state, and how terms and states show them.
#![cfg(feature = "alloc")]

use cuckooormolu::{raw, Answer, Monitor, Record, Refusal, State, Terms};
use cuckooormolu::{Entry, Event, EventEdge, Label, Member, Request};
use cuckooormolu::{SCRATCH_WORDS, STATE_WORDS};

/// Event 0 is never granted and its denials are kept; event 1 is for whoever
/// once asked for it.
const TRIES: &str = "M 3\nL 1 2\nF 0 top 0 0\nF 1 not 0 0\nF 2 out 3 0\nF 3 since 0 2\n\
                     P 0 1\nP 1 3\nK 0\nE 0 add 0 fwd\n";

fn tabs(text: &str) -> Vec<u8> {
    text.replace(' ', "\t").into_bytes()
}

fn tries() -> Monitor {
    Monitor::read(&tabs(TRIES)).unwrap()
}

fn asked(event: u8, from: u8, to: u8) -> Request {
    Request { event: Event(event), from: Member(from), to: Member(to) }
}

#[test]
fn a_kept_denial_makes_a_moment_without_effects() {
    let mut monitor = tries();
    let request = asked(0, 0, 1);
    assert_eq!(monitor.look(asked(1, 0, 2)), Ok(Answer::Deny));
    assert_eq!(monitor.request(request), Ok(Answer::Deny));
    let state = monitor.state();
    assert_eq!(state.event(), Some(EventEdge { request, answer: Answer::Deny }));
    assert_eq!(state.words()[STATE_WORDS - 1], 1 + 16 * 4_096 + 1);
    assert_eq!(state.edges().count(), 0);
    assert_eq!(monitor.request(asked(1, 0, 2)), Ok(Answer::Grant));
    assert_eq!(monitor.state().event().map(|edge| edge.answer), Some(Answer::Grant));
}

#[test]
fn looks_refusals_and_unkept_denials_change_nothing() {
    let mut monitor = tries();
    let before = monitor.state().clone();
    assert_eq!(monitor.look(asked(0, 0, 1)), Ok(Answer::Deny));
    assert_eq!(monitor.request(asked(0, 0, 3)), Err(Refusal::NoSuchName));
    assert_eq!(monitor.request(asked(1, 0, 1)), Ok(Answer::Deny));
    assert_eq!(*monitor.state(), before);
}

#[test]
fn terms_say_which_denials_are_kept() {
    let monitor = tries();
    let terms = monitor.terms();
    assert!(terms.kept().eq([Event(0)]));
    assert!(terms.keeps(Event(0)) && !terms.keeps(Event(1)));
    assert!(!terms.keeps(Event(2)) && !terms.keeps(Event(255)));
    assert_eq!(terms.entry(2), Some(Entry::Out(Label::Denied(Event(0)), 0)));
    let mut words = *terms.words();
    words[1_237] = 1;
    let both = Terms::from_words(&words).unwrap();
    assert!(both.kept().eq([Event(0), Event(1)]));
    for (place, value) in [(1_236, 2), (1_238, 1), (1_251, 1)] {
        let mut words = *terms.words();
        words[place] = value;
        assert_eq!(Terms::from_words(&words), Err(Refusal::BadTerms), "word {place}");
    }
}

#[test]
fn scratch_is_left_0() {
    let (terms, state) = tries().into_parts();
    let (mut words, mut scratch) = (state.words().to_vec(), vec![5; SCRATCH_WORDS]);
    let request = raw::Request { event: 1, from: 0, to: 1 };
    let answer = raw::request(terms.words(), &mut words, &mut scratch, request);
    assert_eq!(answer, Ok(Answer::Deny));
    assert_eq!((&words[..], scratch[0]), (&state.words()[..], 5));
    let kept = raw::Request { event: 0, ..request };
    assert_eq!(raw::request(terms.words(), &mut words, &mut scratch, kept), Ok(Answer::Deny));
    assert_ne!(words, state.words());
    assert_eq!(scratch, [0; SCRATCH_WORDS]);
}

#[test]
fn in_a_set_list_the_state_moves_on() {
    let mut monitor = tries();
    let mut records = [asked(1, 0, 1), asked(0, 0, 1), asked(1, 0, 1)].map(Record::new);
    assert_eq!(monitor.set_list(&mut records), 1);
    let answers = records.map(|record| record.answer().unwrap().unwrap());
    assert_eq!(answers, [Answer::Deny, Answer::Deny, Answer::Grant]);
}

#[test]
fn a_kept_denial_is_stored() {
    let mut monitor = tries();
    assert_eq!(monitor.write(), Ok(tabs(TRIES)));
    assert_eq!(monitor.request(asked(0, 2, 1)), Ok(Answer::Deny));
    assert_eq!(monitor.write(), Err(Refusal::NotFresh));
    let text = monitor.store();
    let lines = "T 0 2 0\nT 0 2 1\nT 0 2 2\nV 16 2 1\n";
    assert_eq!(text, tabs(&format!("S 2\n{TRIES}{lines}")));
    let later = Monitor::read(&text).unwrap();
    assert_eq!((later.terms(), later.state()), (monitor.terms(), monitor.state()));
    assert_eq!(later.look(asked(1, 2, 0)), Ok(Answer::Grant));
}

/// Kept or not, where there is such an event.
#[test]
fn a_state_may_hold_any_denied_event() {
    let (terms, state) = tries().into_parts();
    let resumed = |number: u64| {
        let mut words = *state.words();
        words[STATE_WORDS - 1] = 1 + number * 4_096 + 64 + 2;
        let monitor = Monitor::resume(terms.clone(), State::from_words(&terms, &words)?)?;
        Ok(monitor.state().event().unwrap())
    };
    let request = asked(1, 1, 2);
    assert_eq!(resumed(17), Ok(EventEdge { request, answer: Answer::Deny }));
    assert_eq!(resumed(1), Ok(EventEdge { request, answer: Answer::Grant }));
    for number in [2, 15, 18, 31, 32] {
        assert_eq!(resumed(number), Err(Refusal::BadState), "{number}");
    }
}

#[test]
fn k_lines_are_refused_by_line() {
    let refused = |from: &str, to: &str| {
        let error = Monitor::read(&tabs(&TRIES.replace(from, to))).unwrap_err();
        (error.refusal().number(), error.line())
    };
    assert_eq!(refused("K 0\n", "K 1\nK 0\n"), (1, 10));
    assert_eq!(refused("K 0\n", "K 0\nK 0\n"), (1, 10));
    assert_eq!(refused("K 0\n", "K 2\n"), (2, 9));
    assert_eq!(refused("E 0 add 0 fwd\n", "E 0 add 0 fwd\nK 1\n"), (1, 11));
    assert_eq!(refused("out 3 0", "out 5 0"), (2, 5));
}
