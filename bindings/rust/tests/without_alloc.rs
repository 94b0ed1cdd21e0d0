//! A host without a heap: `raw` over arrays, and what it needs of the rest. It is
//! tested with the feature `alloc` and without it.

use cuckooormolu::{raw, Answer, Event, Member, Refusal, Request};
use cuckooormolu::{OWN_WORDS, RELATION_WORDS, SCRATCH_WORDS, STATE_WORDS, TERMS_WORDS};

/// Event 0 makes an edge from initiator to target, event 1 asks for one.
const TEXT: &[u8] = b"M\t3\nL\t1\t2\nF\t0\tvar\t0\t0\nF\t1\tout\t0\t0\nF\t2\ttop\t0\t0\n\
                      P\t0\t2\nP\t1\t1\nE\t0\tadd\t0\tfwd\n";

struct Host {
    terms: [u16; TERMS_WORDS],
    state: [u64; STATE_WORDS],
    scratch: [u64; SCRATCH_WORDS],
}

impl Host {
    fn read(text: &[u8]) -> Result<Host, (Refusal, usize)> {
        let (mut terms, mut state) = ([0; TERMS_WORDS], [0; STATE_WORDS]);
        raw::read(text, &mut terms, &mut state)?;
        Ok(Host { terms, state, scratch: [0; SCRATCH_WORDS] })
    }

    fn request(&mut self, event: u8, from: u8, to: u8) -> Result<Answer, Refusal> {
        let named = Request { event: Event(event), from: Member(from), to: Member(to) };
        raw::request(&self.terms, &mut self.state, &mut self.scratch, named.into())
    }
}

#[test]
fn requests_are_answered() {
    let mut host = Host::read(TEXT).unwrap();
    assert_eq!(host.request(1, 0, 2), Ok(Answer::Deny));
    assert_eq!(host.request(0, 0, 2), Ok(Answer::Grant));
    assert_eq!(host.request(1, 0, 2), Ok(Answer::Grant));
    assert_eq!(host.request(2, 0, 2), Err(Refusal::NoSuchName));
}

#[test]
fn set_lists_are_answered() {
    let mut host = Host::read(TEXT).unwrap();
    let record = |event, from, to| raw::Record { event, from, to, answer: u32::MAX };
    let mut records = [record(1, 0, 1), record(0, 0, 1), record(1, 0, 1), record(9, 0, 1)];
    let Host { terms, state, scratch } = &mut host;
    assert_eq!(raw::set_list(terms, state, scratch, &mut records), Ok(2));
    let answers = records.map(|record| record.answered().unwrap());
    let granted = Ok(Answer::Grant);
    assert_eq!(answers, [Ok(Answer::Deny), granted, granted, Err(Refusal::NoSuchName)]);
}

#[test]
fn a_state_is_stored_and_read() {
    let mut host = Host::read(TEXT).unwrap();
    assert_eq!(host.request(0, 1, 2), Ok(Answer::Grant));
    let mut output = [0; 256];
    let size = raw::store_size(&host.terms, &host.state).unwrap();
    assert_eq!(raw::store(&host.terms, &host.state, &mut output), Ok(size));
    let later = Host::read(&output[..size]).unwrap();
    assert!(later.terms == host.terms && later.state == host.state);
}

#[test]
fn members_get_new_numbers() {
    let mut host = Host::read(TEXT).unwrap();
    assert_eq!(host.request(0, 1, 2), Ok(Answer::Grant));
    let mut second = [0; STATE_WORDS];
    assert_eq!(raw::renumber(&host.terms, &host.state, &[1, 2, 0], &mut second), Ok(()));
    host.state = second;
    assert_eq!(host.request(1, 2, 0), Ok(Answer::Grant));
    assert_eq!(host.request(1, 1, 2), Ok(Answer::Deny));
}

#[test]
fn two_banks_share_relations() {
    let (mut terms, mut relations) = ([0; TERMS_WORDS], [0; RELATION_WORDS]);
    let (mut left, mut right) = ([0; OWN_WORDS], [0; OWN_WORDS]);
    let (mut scratch, mut spare) = ([0; SCRATCH_WORDS], [0; SCRATCH_WORDS]);
    let (t, r) = (&mut terms, &mut relations);
    assert_eq!(raw::banks_read(TEXT, t, r, &mut left, &mut right), Ok(()));
    let make = raw::Request { event: 0, from: 0, to: 2 };
    let ask = raw::Request { event: 1, ..make };
    let (own, other) = (&mut left, &mut right);
    let made = raw::banks_request(t, r, own, other, &mut scratch, &mut spare, make);
    assert_eq!(made, Ok(Answer::Grant));
    let looked = raw::banks_look(&terms, &relations, &right, &left, &spare, &scratch, ask);
    assert_eq!(looked, Ok(Answer::Grant));
    assert_eq!((left[OWN_WORDS - 1], right[OWN_WORDS - 1]), (3, 0));
}

#[test]
fn what_is_refused_has_a_number_and_words() {
    let (refusal, line) = Host::read(&TEXT[1..]).err().unwrap();
    assert_eq!((refusal.number(), line), (1, 1));
    assert!(refusal.words().starts_with("unknown kind or word"));
}
