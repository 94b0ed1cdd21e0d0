//! Untrusted terms: what a request by them may take is asked before their state is
//! opened, and no past of theirs is believed.
#![cfg(feature = "alloc")]

use cuckooormolu::{raw, Event, Member, Monitor, Refusal, Request, WithinError};
use cuckooormolu::{MOST_EFFORT, STATE_WORDS, TERMS_WORDS};
use std::error::Error;
use std::fmt::Write;

/// Event 0 is for everybody; event 1 is for who has an edge to the target, or had one at
/// the start. Spaces for tabs.
const TERMS: &str = "\
M 3
L 1 2
F 0 var 0 0
F 1 out 0 0
F 2 top 0 0
F 3 since 2 1
P 0 2
P 1 3
E 0 add 0 fwd
G 0 0 2
";

fn tabs(text: &str) -> Vec<u8> {
    text.replace(' ', "\t").into_bytes()
}

/// Terms of 64 members whose only past-time entry takes ages to open: three variables
/// that are bound anew in turn, and every level reads all of them.
fn costly() -> Vec<u8> {
    let first = ["M 64", "L 1 1", "F 0 var 1 0", "F 1 var 2 0", "F 2 var 3 0", "F 3 or 0 1"];
    let mut text = first.join("\n") + "\nF 4 or 3 2\n";
    let mut last = 4;
    let mut put = |line: String| {
        last += 1;
        writeln!(text, "F {last} {line}").unwrap();
        last
    };
    let mut entry = 4;
    for level in 0..12 {
        entry = put(format!("out 0 {entry}"));
        entry = put(format!("or {entry} 4"));
        entry = put(format!("bind {} {entry}", 1 + level % 3));
        entry = put(format!("or {entry} 4"));
    }
    for variable in 1..=3 {
        entry = put(format!("bind {variable} {entry}"));
    }
    let since = put(format!("since {entry} {entry}"));
    writeln!(text, "P 0 {since}").unwrap();
    for from in 0..64 {
        for to in (0..64).step_by(8) {
            writeln!(text, "G 0 {from} {to}").unwrap();
        }
    }
    tabs(&text)
}

#[test]
fn up_to_the_bound_it_is_a_reading() {
    let plain = Monitor::read(&tabs(TERMS)).unwrap();
    let rows = plain.terms().effort();
    assert!(rows > 0 && rows < 1_000);
    let within = Monitor::read_within(&tabs(TERMS), rows).unwrap();
    assert_eq!((within.terms(), within.state()), (plain.terms(), plain.state()));
    let error = Monitor::read_within(&tabs(TERMS), rows - 1).unwrap_err();
    assert_eq!(error, WithinError::Costly(rows));
    assert!(error.to_string().contains(&format!("{rows} rows")) && error.source().is_none());
}

/// This ends, since nothing is opened; reading the text would take ages.
#[test]
fn above_the_bound_nothing_is_opened() {
    let costly = costly();
    let error = Monitor::read_within(&costly, 1_000_000).unwrap_err();
    assert_eq!(error, WithinError::Costly(MOST_EFFORT));
    let stored = [&b"S\t2\n"[..], &costly].concat();
    let error = Monitor::read_within(&stored, 1_000_000).unwrap_err();
    assert_eq!(error, WithinError::Costly(MOST_EFFORT));
}

#[test]
fn a_stored_text_goes_on() {
    let mut plain = Monitor::read(&tabs(TERMS)).unwrap();
    let request = Request { event: Event(0), from: Member(1), to: Member(2) };
    assert!(plain.request(request).unwrap().is_grant());
    let within = Monitor::read_within(&plain.store(), 1_000_000).unwrap();
    assert_eq!((within.terms(), within.state()), (plain.terms(), plain.state()));
}

#[test]
fn a_stored_text_is_no_terms_file() {
    let plain = Monitor::read(&tabs(TERMS)).unwrap();
    let within = Monitor::read_terms_within(&tabs(TERMS), 1_000).unwrap();
    assert_eq!((within.terms(), within.state()), (plain.terms(), plain.state()));
    assert!(matches!(
        Monitor::read_terms_within(&tabs(TERMS), 0),
        Err(WithinError::Costly(rows)) if rows == plain.terms().effort()
    ));
    for text in [plain.store(), b"S".to_vec(), Vec::new()] {
        let error = Monitor::read_terms_within(&text, 1_000).unwrap_err();
        let WithinError::Refused(refused) = error else { panic!("{error}") };
        assert_eq!((refused.refusal(), refused.line()), (Refusal::Form, 1));
    }
}

#[test]
fn what_is_refused_is_refused_as_by_a_reading() {
    let past = "M 2\nL 0 1\nF 0 top 0 0\nF 1 prev 0 0\nP 0 1\n";
    let partly = format!("{past}T 0 0 0\n");
    let event = format!("{past}V 0 0 1\n");
    let longer = [partly.as_str(), event.as_str(), "M 3\nL 0 1\nF 0 not 0 0\n"];
    let short = ["", "M 3", "M 3\n", "M 65\n", "X\n", "S", "S 2\n", "S 3\nM 3\n"];
    for text in short.into_iter().chain(longer) {
        let refused = Monitor::read(&tabs(text)).unwrap_err();
        let error = Monitor::read_within(&tabs(text), 1_000_000).unwrap_err();
        assert_eq!(error.to_string(), refused.to_string());
        assert_eq!(error.source().map(ToString::to_string), Some(refused.to_string()));
        assert_eq!(error, WithinError::Refused(refused));
    }
}

#[test]
fn by_hand_it_gives_the_same_words() {
    let read = |text: &[u8]| {
        let (mut terms, mut state) = (vec![0; TERMS_WORDS], vec![0; STATE_WORDS]);
        raw::read(text, &mut terms, &mut state).unwrap();
        (terms, state)
    };
    let (terms, state) = read(&tabs(TERMS));
    let (same, mut opened) = read(&[&b"S\t2\n"[..], &tabs(TERMS)].concat());
    assert_eq!(same, terms);
    assert_ne!(opened, state, "the since holds at the start");
    assert_eq!(raw::effort(&same), raw::effort(&terms));
    raw::open(&same, &mut opened).unwrap();
    assert_eq!(opened, state);
}

#[test]
fn words_that_are_no_terms_do_not_look_harmless() {
    let terms = Monitor::read(&tabs(TERMS)).unwrap();
    let words = &terms.terms().words()[..];
    assert!(raw::effort(words) < 1_000);
    assert_eq!(raw::effort(&words[1..]), MOST_EFFORT);
    assert_eq!(raw::effort(&[]), MOST_EFFORT);
    assert_eq!(raw::effort(&[0; TERMS_WORDS]), MOST_EFFORT);
}
