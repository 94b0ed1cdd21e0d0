//! Set lists by the binding: answers, count and memory of single requests.
#![cfg(feature = "alloc")]

use cuckooormolu::{raw, Answer, Monitor, Record, Refusal};
use cuckooormolu::{Event, Member, Request};
use cuckooormolu::{SCRATCH_WORDS, STATE_WORDS};
use std::mem::{offset_of, size_of};

/// Events are 0 share, 1 withdraw, 2 load; member 0 owns member 2.
const PRESET: &[u8] = include_bytes!("../../../examples/preset/terms.tsv");

const SHARE: Event = Event(0);
const WITHDRAW: Event = Event(1);
const LOAD: Event = Event(2);

/// What stands in a record's answer field before it is answered.
const NOISE: u32 = 0x7777;

fn preset() -> Monitor {
    Monitor::read(PRESET).unwrap()
}

fn asked(event: Event, from: u8, to: u8) -> Request {
    Request { event, from: Member(from), to: Member(to) }
}

fn record(event: u32, from: u32, to: u32) -> raw::Record {
    raw::Record { event, from, to, answer: NOISE }
}

#[test]
fn a_set_list_answers_as_single_requests() {
    let requests = [
        asked(LOAD, 1, 2),
        asked(SHARE, 0, 1),
        asked(Event(3), 0, 1),
        asked(LOAD, 1, 2),
        asked(WITHDRAW, 0, 1),
        asked(LOAD, 3, 2),
        asked(LOAD, 1, 2),
    ];
    let (mut listed, mut single) = (preset(), preset());
    let mut records = requests.map(Record::new);
    assert!(records.iter().all(|record| record.answer().is_none() && !record.is_granted()));
    assert_eq!(listed.set_list(&mut records), 3);
    for (record, request) in records.iter().zip(requests) {
        assert_eq!(record.request(), request);
        assert_eq!(record.answer(), Some(single.request(request)));
        assert_eq!(record.is_granted(), record.answer() == Some(Ok(Answer::Grant)));
    }
    assert_eq!(listed.state(), single.state());
}

#[test]
fn an_answered_list_is_answered_anew() {
    let mut monitor = preset();
    let mut records = [asked(LOAD, 1, 2), asked(SHARE, 0, 1)].map(Record::from);
    assert_eq!(monitor.set_list(&mut records), 1);
    assert_eq!(records[0].answer(), Some(Ok(Answer::Deny)));
    assert_eq!(monitor.set_list(&mut records), 2);
    assert_eq!(records[0].answer(), Some(Ok(Answer::Grant)));
}

#[test]
fn an_empty_list_changes_nothing() {
    let mut monitor = preset();
    let before = monitor.state().clone();
    assert_eq!(monitor.set_list(&mut []), 0);
    assert_eq!(*monitor.state(), before);
}

#[test]
fn a_raw_set_list_takes_any_numbers() {
    let (terms, state) = preset().into_parts();
    let mut words = [&state.words()[..], &[6]].concat();
    let mut scratch = vec![5; SCRATCH_WORDS + 1];
    let lent = [
        record(2, 1, 2),
        record(u32::MAX, 0, 0),
        record(0, 0, 1),
        record(0, 3, u32::MAX),
        record(2, 1, 2),
    ];
    let mut records = lent;
    assert_eq!(raw::set_list(terms.words(), &mut words, &mut scratch, &mut records), Ok(2));
    assert_eq!(records.map(|record| record.answer), [0, 9, 1, 9, 1]);
    let kept = |record: raw::Record| [record.event, record.from, record.to];
    assert_eq!(records.map(kept), lent.map(kept));
    assert_eq!((words[STATE_WORDS], scratch[SCRATCH_WORDS]), (6, 5));
    assert_eq!(scratch[..SCRATCH_WORDS], [0; SCRATCH_WORDS]);
    assert_eq!(lent[0].answered(), None);
}

#[test]
fn without_a_grant_state_and_scratch_are_as_lent() {
    let (terms, state) = preset().into_parts();
    let (mut words, mut scratch) = (*state.words(), [5; SCRATCH_WORDS]);
    let mut records = [record(2, 1, 2), record(3, 0, 0)];
    assert_eq!(raw::set_list(terms.words(), &mut words, &mut scratch, &mut records), Ok(0));
    assert_eq!(records.map(|record| record.answer), [0, 9]);
    assert!(words == *state.words() && scratch == [5; SCRATCH_WORDS]);
}

/// What a list of two and an empty one give over lent memory. Where it is a
/// refusal, nothing was written, and no record has an answer that stood there.
fn listed(terms: &[u16], state: &[u64], scratch: usize) -> Result<usize, Refusal> {
    let (mut words, mut lent) = (state.to_vec(), vec![5; scratch]);
    let mut records = [record(9, 9, 9), raw::Record { answer: 1, ..record(0, 0, 1) }];
    let empty = raw::set_list(terms, &mut words, &mut lent, &mut []);
    let got = raw::set_list(terms, &mut words, &mut lent, &mut records);
    assert_eq!(empty, got.map(|_| 0));
    if got.is_err() {
        assert!(words == state && lent == vec![5; scratch]);
        let unanswered = |asked| raw::Record { answer: raw::Record::UNANSWERED, ..asked };
        assert_eq!(records, [record(9, 9, 9), record(0, 0, 1)].map(unanswered));
        assert!(records.iter().all(|record| record.answered().is_none()));
    }
    got
}

#[test]
fn the_checks_come_before_any_record() {
    let (terms, state) = preset().into_parts();
    let (terms, state) = (terms.words(), state.words());
    let (mut bad_terms, mut bad_state) = (*terms, *state);
    bad_terms[0] = 65;
    bad_state[0] = u64::MAX;
    assert_eq!(listed(terms, state, SCRATCH_WORDS), Ok(1));
    assert_eq!(listed(&terms[1..], state, SCRATCH_WORDS), Err(Refusal::TooShort));
    assert_eq!(listed(terms, &state[1..], SCRATCH_WORDS), Err(Refusal::TooShort));
    assert_eq!(listed(&bad_terms, &bad_state, SCRATCH_WORDS - 1), Err(Refusal::TooShort));
    assert_eq!(listed(&bad_terms, &bad_state, SCRATCH_WORDS), Err(Refusal::BadTerms));
    assert_eq!(listed(terms, &bad_state, SCRATCH_WORDS), Err(Refusal::BadState));
}

#[test]
fn a_record_has_the_layout_of_the_c_header() {
    assert_eq!((size_of::<raw::Record>(), size_of::<Record>()), (16, 16));
    let places = [
        offset_of!(raw::Record, event),
        offset_of!(raw::Record, from),
        offset_of!(raw::Record, to),
        offset_of!(raw::Record, answer),
    ];
    assert_eq!(places, [0, 4, 8, 12]);
}
