//! Two banks over one circle: what they share, what each has of its own, what is
//! refused and what is left alone.
#![cfg(feature = "alloc")]

use cuckooormolu::{raw, Answer, BankStates, Banks, Monitor, Record, Refusal, State, Terms};
use cuckooormolu::{Edge, Event, EventEdge, Member, Relation, Request};
use cuckooormolu::{OWN_WORDS, RELATION_WORDS, SCRATCH_WORDS, TERMS_WORDS};

/// Event 0 makes an edge, event 1 takes one away and is for whoever has one.
/// Event 2 is for whoever has done event 0, event 3 for nobody, and kept, and
/// event 4 for whoever was denied it the moment before.
const TEXT: &str = "M 3\nL 1 5\nF 0 top 0 0\nF 1 out 0 0\nF 2 out 1 0\nF 3 since 0 2\n\
                    F 4 not 0 0\nF 5 out 9 0\nF 6 prev 5 0\nP 0 0\nP 1 1\nP 2 3\nP 3 4\n\
                    P 4 6\nK 3\nE 0 add 0 fwd\nE 1 del 0 fwd\n";

/// Of the same size. Event 2 is for whoever has had an edge since now, event 3
/// for whoever has done event 0, at another table than before.
const NEW: &str = "M 3\nL 1 5\nF 0 top 0 0\nF 1 out 0 0\nF 2 since 0 1\nF 3 out 1 0\n\
                   F 4 since 0 3\nP 0 0\nP 1 0\nP 2 2\nP 3 4\nP 4 0\n";

fn tabs(text: &str) -> Vec<u8> {
    text.replace(' ', "\t").into_bytes()
}

fn banks() -> Banks {
    Banks::read(&tabs(TEXT)).unwrap()
}

fn monitor() -> Monitor {
    Monitor::read(&tabs(TEXT)).unwrap()
}

fn terms(text: &str) -> Terms {
    Monitor::read(&tabs(text)).unwrap().into_parts().0
}

fn asked(event: u8, from: u8, to: u8) -> Request {
    Request { event: Event(event), from: Member(from), to: Member(to) }
}

/// After an edge that the left bank made and one that the right bank made.
fn played() -> Banks {
    let mut banks = banks();
    assert_eq!(banks.left().request(asked(0, 0, 1)), Ok(Answer::Grant));
    assert_eq!(banks.right().request(asked(0, 2, 1)), Ok(Answer::Grant));
    banks
}

/// The words of everything that is kept.
fn kept(banks: &Banks) -> (Terms, BankStates) {
    (banks.terms().clone(), banks.states())
}

#[test]
fn both_start_at_moment_0() {
    let (banks, monitor) = (banks(), monitor());
    assert_eq!(banks.terms(), monitor.terms());
    let BankStates { left, right } = banks.states();
    assert_eq!((&left, &right), (monitor.state(), monitor.state()));
}

#[test]
fn relations_are_of_both_and_events_of_one() {
    let mut banks = banks();
    assert_eq!(banks.left().request(asked(0, 0, 1)), Ok(Answer::Grant));
    let edge = Edge { relation: Relation(0), from: Member(0), to: Member(1) };
    let granted = EventEdge { request: asked(0, 0, 1), answer: Answer::Grant };
    let BankStates { left, right } = banks.states();
    assert!(left.has_edge(edge) && right.has_edge(edge));
    assert_eq!((left.event(), right.event()), (Some(granted), None));
    assert_eq!(banks.right().look(asked(1, 0, 1)), Ok(Answer::Grant));
    assert_eq!(banks.left().look(asked(2, 0, 0)), Ok(Answer::Grant));
    assert_eq!(banks.right().look(asked(2, 0, 0)), Ok(Answer::Deny));
    assert_eq!(banks.right().request(asked(1, 0, 1)), Ok(Answer::Grant));
    assert_eq!(banks.left().state().edges().count(), 0);
    assert_eq!(banks.left().state().event(), None);
}

#[test]
fn only_a_grant_of_a_bank_is_a_yes() {
    let (mut banks, mut single) = (banks(), banks());
    for request in [asked(3, 2, 1), asked(0, 0, 1), asked(9, 0, 1)] {
        let granted = single.left().request(request) == Ok(Answer::Grant);
        assert_eq!(banks.left().grants(request), granted);
        assert_eq!(banks.states(), single.states());
    }
}

#[test]
fn a_moment_in_one_is_a_moment_in_the_other() {
    let mut banks = banks();
    assert_eq!(banks.left().request(asked(3, 2, 1)), Ok(Answer::Deny));
    assert_eq!(banks.left().look(asked(4, 2, 0)), Ok(Answer::Deny));
    assert_eq!(banks.right().request(asked(0, 0, 2)), Ok(Answer::Grant));
    assert_eq!(banks.left().look(asked(4, 2, 0)), Ok(Answer::Grant));
    assert_eq!(banks.right().look(asked(4, 2, 0)), Ok(Answer::Deny));
    assert_eq!(banks.right().request(asked(3, 1, 1)), Ok(Answer::Deny));
    assert_eq!(banks.left().look(asked(4, 2, 0)), Ok(Answer::Deny));
}

const CALLS: [(bool, Request); 8] = {
    const fn asked(event: u8, from: u8, to: u8) -> Request {
        Request { event: Event(event), from: Member(from), to: Member(to) }
    }
    [
        (true, asked(0, 0, 1)),
        (false, asked(3, 2, 0)),
        (true, asked(2, 0, 1)),
        (false, asked(0, 2, 1)),
        (true, asked(4, 2, 0)),
        (false, asked(4, 2, 0)),
        (true, asked(3, 1, 1)),
        (false, asked(9, 0, 0)),
    ]
};

#[test]
fn the_other_way_round_each_has_what_the_other_had() {
    let (mut banks, mut swapped) = (banks(), banks());
    for (in_left, request) in CALLS {
        let (left, right) =
            if in_left { (&mut banks, &mut swapped) } else { (&mut swapped, &mut banks) };
        assert_eq!(left.left().request(request), right.right().request(request));
    }
    let (one, two) = (banks.states(), swapped.states());
    assert_ne!(one.left, one.right);
    assert_eq!((one.left, one.right), (two.right, two.left));
}

#[test]
fn a_bank_that_is_called_alone_is_a_monitor() {
    let (mut banks, mut monitor) = (banks(), monitor());
    for (_, request) in CALLS {
        assert_eq!(banks.right().look(request), monitor.look(request));
        assert_eq!(banks.right().request(request), monitor.request(request));
        assert_eq!(banks.right().state(), *monitor.state());
    }
    assert_eq!(banks.left().state().event(), None);
}

#[test]
fn looks_refusals_and_unkept_denials_change_nothing() {
    let mut banks = played();
    let before = kept(&banks);
    assert_eq!(banks.left().look(asked(0, 0, 1)), Ok(Answer::Grant));
    assert_eq!(banks.left().look(asked(3, 0, 1)), Ok(Answer::Deny));
    assert_eq!(banks.right().request(asked(2, 0, 1)), Ok(Answer::Deny));
    assert_eq!(banks.right().request(asked(5, 0, 1)), Err(Refusal::NoSuchName));
    assert_eq!(banks.left().request(asked(0, 0, 3)), Err(Refusal::NoSuchName));
    assert_eq!(kept(&banks), before);
}

#[test]
fn a_set_list_answers_as_single_requests_of_its_bank() {
    let requests = [2, 0, 9, 3, 2].map(|event| asked(event, 0, 1));
    let (mut listed, mut single) = (played(), played());
    let mut records = requests.map(Record::new);
    assert_eq!(listed.right().set_list(&mut records), 2);
    for (record, request) in records.iter().zip(requests) {
        assert_eq!(record.answer(), Some(single.right().request(request)));
    }
    assert_eq!(kept(&listed), kept(&single));
    assert_eq!(listed.left().set_list(&mut []), 0);
}

#[test]
fn opened_banks_stand_at_moment_0_of_the_relations() {
    let (terms, BankStates { left, .. }) = played().into_parts();
    let banks = Banks::open(terms.clone(), &left).unwrap();
    let monitor = Monitor::open(terms.clone(), left.clone()).unwrap();
    let states = banks.states();
    assert_eq!((&states.left, &states.right), (monitor.state(), monitor.state()));
    let smaller = self::terms("M 2\nL 1 1\nF 0 top 0 0\nP 0 0\n");
    assert_eq!(Banks::open(smaller, &left).unwrap_err(), Refusal::BadState);
}

#[test]
fn kept_banks_go_on() {
    let (mut banks, (terms, states)) = (played(), played().into_parts());
    let mut later = Banks::resume(terms, states).unwrap();
    for (in_left, request) in CALLS {
        let [now, then] = [&mut banks, &mut later].map(|banks| {
            let mut bank = if in_left { banks.left() } else { banks.right() };
            bank.request(request)
        });
        assert_eq!(now, then);
    }
    assert_eq!(kept(&later), kept(&banks));
}

#[test]
fn states_that_are_not_of_two_banks_are_refused() {
    let (terms, BankStates { left, right }) = played().into_parts();
    let fresh = monitor().state().clone();
    let resumed = |left: &State, right: &State| {
        let states = BankStates { left: left.clone(), right: right.clone() };
        Banks::resume(terms.clone(), states).map(|_| ())
    };
    assert_eq!(resumed(&left, &right), Ok(()));
    assert_eq!(resumed(&left, &fresh), Err(Refusal::BadState));
    assert_eq!(resumed(&fresh, &right), Err(Refusal::BadState));
    let smaller = self::terms("M 2\nL 1 1\nF 0 top 0 0\nP 0 0\n");
    let states = BankStates { left: fresh.clone(), right: left };
    assert_eq!(Banks::resume(smaller, states).unwrap_err(), Refusal::BadState);
}

#[test]
fn each_bank_is_revised_as_a_monitor_of_its_state() {
    let mut banks = played();
    let BankStates { left, right } = banks.states();
    banks.revise(&terms(NEW)).unwrap();
    assert_eq!(*banks.terms(), terms(NEW));
    let revised = |state| {
        let mut monitor = Monitor::resume(terms(TEXT), state).unwrap();
        monitor.revise(&terms(NEW)).unwrap();
        monitor.into_parts().1
    };
    assert_eq!(banks.states(), BankStates { left: revised(left), right: revised(right) });
    let answers = [0, 2]
        .map(|from| [banks.left().look(asked(3, from, 0)), banks.right().look(asked(3, from, 0))]);
    assert_eq!(answers[0], [Ok(Answer::Grant), Ok(Answer::Deny)]);
    assert_eq!(answers[1], [Ok(Answer::Deny), Ok(Answer::Grant)]);
}

#[test]
fn terms_of_another_size_leave_both_banks_as_they_were() {
    let mut banks = played();
    let before = kept(&banks);
    let policies = "F 0 top 0 0\nP 0 0\nP 1 0\nP 2 0\nP 3 0\nP 4 0\n";
    for size in ["M 4\nL 1 5", "M 3\nL 2 5"] {
        let other = terms(&format!("{size}\n{policies}"));
        assert_eq!(banks.revise(&other), Err(Refusal::OtherSize));
        assert_eq!(kept(&banks), before);
    }
}

#[test]
fn faulty_and_stored_texts_are_refused_by_line() {
    let refused = |text: &[u8]| {
        let error = Banks::read(text).unwrap_err();
        (error.refusal().number(), error.line())
    };
    assert_eq!(refused(&tabs(&TEXT.replace("P 4 6", "P 4 7"))), (2, 14));
    assert_eq!(refused(&monitor().store()), (1, 1));
    assert_eq!(refused(b""), (1, 1));
}

/// What the raw functions are lent, and what they leave of it.
#[derive(Clone, PartialEq)]
struct Lent {
    terms: Vec<u16>,
    /// Relations, own words and those of the other, scratch and spare.
    words: [Vec<u64>; 5],
}

impl Lent {
    fn new() -> Lent {
        let (terms, BankStates { left, right }) = played().into_parts();
        let (relations, own) = left.words().split_at(RELATION_WORDS);
        let other = &right.words()[RELATION_WORDS..];
        let scratch = vec![5; SCRATCH_WORDS];
        let words = [relations.into(), own.into(), other.into(), scratch.clone(), scratch];
        Lent { terms: terms.words().to_vec(), words }
    }

    fn look(&self, request: raw::Request) -> Result<Answer, Refusal> {
        let [relations, own, other, scratch, spare] = &self.words;
        raw::banks_look(&self.terms, relations, own, other, scratch, spare, request)
    }

    fn request(&mut self, request: raw::Request) -> Result<Answer, Refusal> {
        let [relations, own, other, scratch, spare] = &mut self.words;
        raw::banks_request(&self.terms, relations, own, other, scratch, spare, request)
    }

    /// Why every call of the bank is refused, after a look that nothing was
    /// written.
    fn refused(&mut self) -> Refusal {
        let before = self.clone();
        let unknown = raw::Request { event: 9, from: 0, to: 0 };
        let refusal = self.look(unknown).unwrap_err();
        assert_eq!(self.request(unknown), Err(refusal));
        let [relations, own, other, scratch, spare] = &mut self.words;
        let mut granted = [raw::Record { event: 0, from: 0, to: 1, answer: 1 }];
        for records in [&mut granted[..], &mut []] {
            let listed =
                raw::banks_set_list(&self.terms, relations, own, other, scratch, spare, records);
            assert_eq!(listed.unwrap_err(), refusal);
        }
        assert_eq!(granted[0].answered(), None);
        assert!(*self == before);
        refusal
    }
}

#[test]
fn each_check_hides_those_after_it_and_looks_at_both_banks() {
    let request = raw::Request { event: 9, from: 0, to: 0 };
    assert_eq!(Lent::new().look(request), Err(Refusal::NoSuchName));
    let last = OWN_WORDS - 1;
    for (memory, place) in [(0, 0), (1, last), (2, last)] {
        let mut lent = Lent::new();
        lent.words[memory][place] = u64::MAX;
        assert_eq!(lent.refused(), Refusal::BadState);
        lent.terms[0] = 65;
        assert_eq!(lent.refused(), Refusal::BadTerms);
        for short in 0..5 {
            let mut lent = lent.clone();
            lent.words[short].pop();
            assert_eq!(lent.refused(), Refusal::TooShort);
        }
        lent.terms.truncate(TERMS_WORDS - 1);
        assert_eq!(lent.refused(), Refusal::TooShort);
    }
}

#[test]
fn a_moment_leaves_both_scratches_0_and_no_further_word() {
    let mut lent = Lent::new();
    lent.terms.push(7);
    lent.words.iter_mut().for_each(|words| words.push(7));
    assert_eq!(lent.request(raw::Request { event: 3, from: 0, to: 1 }), Ok(Answer::Deny));
    for scratch in &lent.words[3..] {
        assert_eq!(scratch[..SCRATCH_WORDS], [0; SCRATCH_WORDS]);
    }
    assert!(lent.words.iter().all(|words| words.last() == Some(&7)));
    assert_eq!(lent.terms.last(), Some(&7));
}
